#!/usr/bin/env python3
"""Judges bodies that `rt plant` makes, without a first check of the crate.

  bench/planted/bodies.py CRATE LOG [--max N] [--minutes N] [--only WORD]

Each body calls the real function and changes an argument or the result, or sets a field back; one body of each function before a second one, up to N.
LOG is what `rt ci` or `rt check` printed: its lines `fn NAME: proved` tell which functions of CRATE are proved. The libraries below CRATE have to be built
(`rt lib`), and CRATE itself need not be: what is proved of it on the way is kept in its out/ for the next time. What is printed is what `rt plant --all` prints. The unchanged call is tried only beside a body that was proved: where
it is proved in that body's place too, the body means the same (`same`). So `refused` says that the body was not proved, and not that the unchanged call is.
"""
import itertools
import os
import re
import shutil
import sys
import types

TOP = os.path.normpath(os.path.join(os.path.dirname(os.path.abspath(__file__)), "..", ".."))
KIT = os.path.dirname(os.path.realpath(shutil.which("rt")))


def loaded(name):
    """A script of the kit, as a module."""
    module = types.ModuleType(name)
    module.__file__ = os.path.join(KIT, name)
    with open(module.__file__, encoding="utf-8") as script:
        exec(compile(script.read(), module.__file__, "exec"), module.__dict__)
    return module


def calls_judged(kit, copy, functions, proved, most):
    """The bodies that call the real function, judged."""
    number = itertools.count()

    def is_called(function):
        plain = all(re.fullmatch(r"[a-z]\w*|_\w+", name) for name, _ in function.params)
        return plain and not function.in_trait and function in proved

    made = [
        (at, function, body)
        for function in filter(is_called, functions)
        for at, body in enumerate(kit.bodies.Bodies(copy.source, function).over_the_real_one(None))
    ]
    made.sort(key=lambda it: (it[0], not it[1].is_pub))
    plants = [kit.Plant(function, body, next(number)) for _, function, body in made[:most]]
    copy.judge(copy.compiled(plants))
    asked = {
        it: kit.Plant(it.f, kit.bodies.Body(it.same), next(number)) for it in plants if it.kind == "proves" and it.same
    }
    copy.judge(copy.compiled([*asked.values()]))
    for plant, same in asked.items():
        if same.kind == "proves":
            plant.kind = "same"
    kept = os.path.join("out", "incremental")
    if not os.path.isdir(kept) and os.path.isdir(os.path.join(copy.folder, kept)):
        shutil.copytree(os.path.join(copy.folder, kept), kept)
    return plants


def light(kit):
    """Has the front end's look at bodies prove the first of them alone, and not each function of the crate."""
    write, check = kit.Copy.write, kit.Copy.check

    def written(self, plants):
        self.first = plants[0].name
        write(self, plants)

    kit.Copy.write = written
    kit.Copy.check = lambda self, names: check(self, [name or self.first for name in names])


def main(crate, log, *words):
    with open(log, encoding="utf-8", errors="replace") as lines:
        told = [line for line in lines if re.match(rf"(fn|impl) {crate}::", line)]
    kit = loaded("rt-plant")
    kit.SECONDS, kit.BATCH = 3600, 20
    light(kit)
    kit.plant = lambda crate, copy, functions, proved, most: calls_judged(kit, copy, functions, proved, most)
    os.chdir(os.path.join(TOP, "crates", crate))

    def as_told(*_):
        """In place of the first check: what the log tells of it."""
        print("", *told, f"crate {crate}: as told", sep="\n")
        return 0

    kit.rt.main = as_told
    return kit.main("--all", *words)


if __name__ == "__main__":
    if len(sys.argv) < 3:
        sys.exit(__doc__)
    sys.exit(main(*sys.argv[1:]))
