#!/usr/bin/env python3
"""Random scenarios of an independent model of the program: its transcripts by the laws, and beside those of the program.

  bench/beside/scenarios.py MODEL [--program PROGRAM] [--seed S] [--count N] [--seconds T] [--kinds KIND,..] [--without-laws] [--audited]
                            [--out FOLDER]

MODEL is the folder of the model, which is no part of this repository. Scenario number i, from S on, is of the kind at i in a list in which each
kind stands as often as it weighs. The kinds of `sim` are the profiles of the model; with each second one calm stretches follow its random lines. The
others are the commands `replay`, `events`, `include`, `check` and `audit`. What the model gives for `sim` and `replay` is judged by
tools/laws_of_transcripts, and with --by-text that of `sim` also by the text of the laws; --most-lines makes scenarios short. With a program it is
given the same input, and what it writes and its status are compared; drawn bytes are masked. A failing keeper is the model's alone. With --audited
the program also judges, by its command `audit`, what it wrote for `sim`, and must say `yes`.

Each violation or difference is told at once, with the file of a smaller input in FOLDER; every 100 scenarios, and at the end, a line tells the sums.
"""
import argparse
import collections
import os
import random
import sys
import time

sys.dont_write_bytecode = True
TOP = os.path.normpath(os.path.join(os.path.dirname(os.path.abspath(__file__)), "..", ".."))
sys.path.insert(0, os.path.join(TOP, "tools"))
from laws_of_transcripts.by_text.laws import deep, violations as violations_by_text  # noqa: E402
from laws_of_transcripts.judge import KEY, judged  # noqa: E402

# how often a kind stands in the list, where it is not four times: transcripts of these are ten times as long
WEIGHTS = {"repeats": 1, "nonces": 1, "edge": 1}
USUAL = 4
COMMANDS = ("replay", "events", "include", "check", "audit")
TICKS_FOR_EACH, MOST_AT_WORK, STEP = 500, 16, 7


class Model:
    """The parts of the model that are asked."""

    def __init__(self, folder, most_lines=0):
        sys.path.insert(0, folder)
        self.most_lines = most_lines
        import compare
        import fuzz
        import fuzz_more
        import profiles  # noqa: F401, which adds profiles to those of fuzz
        self.compare, self.fuzz, self.more = compare, fuzz, fuzz_more
        self.latest = 21

    def keeper(self, kind, chance):
        """A keeper of which some calls fail, for some kinds."""
        if kind == "keeper" or kind in ("restart", "mixed") and chance.random() < 0.3:
            part = chance.choice([0.02, 0.05, 0.15])
            return self.fuzz.MemoryKeeper([call for call in range(1, 4000) if chance.random() < part])
        return None

    def scenario(self, kind, seed):
        """A run of random lines, and of stretches behind them."""
        chance, fuzz = random.Random(f"beside/{kind}/{seed}"), self.fuzz
        pool, (least, most), weights, (short, long) = fuzz.PROFILES[kind]
        run = fuzz.Sim(self.keeper(kind, chance))
        nodes = sorted(chance.sample(pool, min(len(pool), chance.randint(least, most))))
        fuzz.setup(run, chance, nodes, kind in ("routes", "mixed") or chance.random() < 0.1, 0.6 if kind == "noint" else 0)
        acts, of_each = list(weights), list(weights.values())
        goal = chance.randint(short, long)
        if self.most_lines:
            goal = chance.randint(min(short, self.most_lines // 2), min(long, self.most_lines))
        while len(run.lines) < goal:
            fuzz.act(run, chance, chance.choices(acts, of_each)[0], nodes, kind)
        if seed % 2:
            for _ in range(chance.randint(1, 4)):
                if not fuzz.drain(run, chance, nodes) or not self.stretch(run, chance, nodes):
                    break
        return run

    def stretch(self, run, chance, nodes):
        """Orders from a calm moment on, for one node or for plain listeners alone, and 500 ticks for each command that waits."""
        world = run.world
        waiting = [node for node, known in world.host.nodes.items() if known.waiting]
        pool = [node for node in nodes if self.fuzz.ready(world, node) and world.devices[node].supervised]
        if chance.random() < 0.5:
            pool = [node for node in pool if node % 8 in (2, 3, 6, 7)]
            chosen = sorted(set(waiting) | set(chance.sample(pool, min(len(pool), chance.randint(1, MOST_AT_WORK)))))[:MOST_AT_WORK]
        else:
            chosen = waiting or pool and [chance.choice(pool)]
        if not chosen or any(node not in pool for node in chosen + waiting):
            return False
        for _ in range(chance.choice([1, 1, 2, 3, 8])):
            run.do(self.fuzz.order(chance, chance.choice(chosen)) if chance.random() < 0.7 else "tick %d" % chance.choice([1, 2, 8, 30]))
        if len(chosen) == 1 and chosen[0] % 8 == 5:
            run.do("wake %d" % chosen[0])
        self.waits(run, TICKS_FOR_EACH)
        for _ in [command for command in world.host.commands if command.outcome == "waiting"]:
            run.do("tick %d" % TICKS_FOR_EACH)
        return True

    def waits(self, run, ticks):
        """So many ticks; where lines are even, in steps, so that what is due after fewer is judged then."""
        step = ticks if len(run.lines) % 2 else STEP
        while ticks:
            run.do("tick %d" % min(step, ticks))
            ticks -= min(step, ticks)

    def input(self, kind, seed):
        """The lines of an input for a command that is not `sim`."""
        chance = random.Random(f"beside/{kind}/{seed}")
        if kind == "check":
            return self.compare.check_input(chance)
        if kind == "audit":
            run = self.scenario(chance.choice(["lossy", "sleep", "security", "bulk", "dimmer", "routes", "restart"]), seed)
            return self.compare.doctored(chance, run.finish())
        return getattr(self.more, kind)(chance)[0]

    def words(self, kind, lines):
        """The words of the command."""
        return ("check", "--from", "host") if kind == "check" and len(lines) % 2 else (kind,)

    def answer(self, words, lines):
        """What the model writes and its status."""
        data, sink = "".join(line + "\n" for line in lines).encode(), self.compare.ListSink()
        status = self.compare.run(list(words), self.compare.BytesSource(data), sink, self.latest)
        return sink.lines, self.compare.EXIT[status[0]]

    def program(self, program, words, lines):
        """What the program writes and its status."""
        data = "".join(line + "\n" for line in lines).encode()
        ran = self.compare.subprocess.run([program, *words], input=data, stdout=self.compare.subprocess.PIPE)
        return ran.stdout.decode("ascii", "replace").split("\n")[:-1], ran.returncode

    def differs(self, program, words, lines, wanted=None):
        """Where the program first differs from the model, or None."""
        normal = self.compare.normal
        want, status = wanted or self.answer(words, lines)
        got, ended = self.program(program, words, lines)
        want, got = normal(want), normal(got)
        for at, (one, other) in enumerate(zip(want + ["(end)"], got + ["(end)"]), 1):
            if one != other:
                return f"line {at}: the model {one!r}, the program {other!r}"
        return None if status == ended else f"the model's status {status}, the program's {ended}"


def smaller(lines, is_so, seconds=60):
    """Fewer lines of which it is still so."""
    end, parts = time.monotonic() + seconds, 2
    while len(lines) >= 2 and time.monotonic() < end:
        size = max(1, len(lines) // parts)
        for at in range(0, len(lines), size):
            rest = lines[:at] + lines[at + size:]
            if rest and is_so(rest):
                lines, parts = rest, max(2, parts - 1)
                break
        else:
            if size == 1:
                break
            parts = min(len(lines), parts * 2)
    return lines


class Runs:
    """What was run so far, and what was found."""

    def __init__(self, model, options):
        self.model, self.options = model, options
        self.counts, self.kinds = collections.Counter(), collections.Counter()
        os.makedirs(options.out, exist_ok=True)

    def tell(self, what, kind, seed, lines, text):
        """A violation or a difference."""
        self.counts[what] += 1
        name = os.path.join(self.options.out, f"{what}-{kind}-{seed}.txt")
        with open(name, "w", encoding="utf-8") as file:
            file.write("".join(line + "\n" for line in lines))
        print(f"{what} {kind} {seed}: {text}; {len(lines)} lines in {name}", flush=True)

    def law(self, kind, seed, lines, written, again):
        """Judges what the model wrote; `again` gives what it writes for fewer lines."""
        found, stretches = judged(written)
        self.counts["judged"] += 1
        self.counts["entries"] += len(written)
        self.counts["stretches"] += stretches
        if found:
            law = found[0].law

            def breaks(fewer):
                try:
                    return any(violation.law == law for violation in judged(again(fewer))[0])
                except Exception:  # what the model refuses to run is no smaller input
                    return False
            self.tell("violation", kind, seed, smaller(lines, breaks), f"{law}: {found[0].part}: {found[0].text}")

    def by_text(self, kind, seed, lines, written):
        """Judges what the model wrote by the text of the laws."""
        found = deep(lambda: violations_by_text(written, KEY))
        self.counts["by text"] += 1
        for broken in found[:3]:
            self.tell("violation by text", kind, seed, lines, f"{broken.law} ({broken.whole}): {broken.part}: {broken.place}: {broken.entry}")

    def beside(self, kind, seed, words, lines, wanted):
        """Compares the program with what the model wrote."""
        program = self.options.program
        self.counts["compared"] += 1
        found = self.model.differs(program, words, lines, wanted)
        if found:
            self.tell("difference", kind, seed, smaller(lines, lambda fewer: self.model.differs(program, words, fewer)), found)

    def audited(self, kind, seed, lines):
        """Has the program judge what it writes for `sim`."""
        program = self.options.program
        self.counts["audited"] += 1

        def said(fewer):
            return self.model.program(program, ("audit",), self.model.program(program, ("sim",), fewer)[0])
        told, status = said(lines)
        if (told, status) != (["yes"], 0):
            self.tell("not in order", kind, seed, smaller(lines, lambda fewer: said(fewer) != (["yes"], 0)), f"status {status}: {told}")

    def one(self, kind, seed):
        """A scenario."""
        self.kinds[kind] += 1
        if kind in COMMANDS:
            lines = self.model.input(kind, seed)
            words = self.model.words(kind, lines)
            wanted = self.model.answer(words, lines)
            if kind == "replay" and self.options.laws:
                self.law(kind, seed, lines, wanted[0], lambda fewer: self.model.answer(words, fewer)[0])
            if self.options.program:
                self.beside(kind, seed, words, lines, wanted)
            return
        run = self.model.scenario(kind, seed)
        failing = getattr(run.keeper, "failing", ())
        lines, written = list(run.lines), run.finish()
        if self.options.laws:
            self.law(kind, seed, lines, written, lambda fewer: self.model.fuzz.run_fixed(fewer, failing).finish())
        if self.options.by_text:
            self.by_text(kind, seed, lines, written)
        if self.options.program and not failing:
            self.beside(kind, seed, ("sim",), lines, (written, 0))
            if self.options.audited:
                self.audited(kind, seed, lines)

    def sums(self, seed):
        """The sums so far."""
        names = ("judged", "entries", "stretches", "violation", "by text", "violation by text", "compared", "difference", "audited", "not in order")
        told = ", ".join(f"{name} {self.counts[name]}" for name in names)
        each = " ".join(f"{kind} {count}" for kind, count in sorted(self.kinds.items()))
        print(f"up to seed {seed}, {time.process_time():.0f} s of processor: {told}; {each}", flush=True)


def main():
    """Runs scenarios until so many were run or so much time has passed."""
    parser = argparse.ArgumentParser(description=__doc__, formatter_class=argparse.RawDescriptionHelpFormatter)
    parser.add_argument("model")
    parser.add_argument("--program")
    parser.add_argument("--seed", type=int, default=1)
    parser.add_argument("--count", type=int, default=100)
    parser.add_argument("--seconds", type=float, default=0)
    parser.add_argument("--kinds")
    parser.add_argument("--without-laws", dest="laws", action="store_false")
    parser.add_argument("--by-text", action="store_true")
    parser.add_argument("--audited", action="store_true")
    parser.add_argument("--most-lines", type=int, default=0)
    parser.add_argument("--out", default="/tmp/moundurn-beside")
    options = parser.parse_args()
    model = Model(options.model, options.most_lines)
    kinds = options.kinds.split(",") if options.kinds else list(model.fuzz.PROFILES) + list(COMMANDS)
    in_turn = [kind for turn in range(USUAL) for kind in kinds if turn < WEIGHTS.get(kind, USUAL)]
    runs, began, seed = Runs(model, options), time.monotonic(), options.seed
    for seed in range(options.seed, options.seed + options.count):
        if options.seconds and time.monotonic() - began > options.seconds:
            break
        try:
            runs.one(in_turn[seed % len(in_turn)], seed)
        except KeyboardInterrupt:
            break
        if (seed - options.seed) % 100 == 99:
            runs.sums(seed)
    runs.sums(seed)
    return 1 if runs.counts["violation"] or runs.counts["violation by text"] or runs.counts["difference"] or runs.counts["not in order"] else 0


if __name__ == "__main__":
    sys.exit(main())
