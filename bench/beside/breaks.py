#!/usr/bin/env python3
"""Breaks one rule at a time of an independent model of the program, and says which law sees it first.

  bench/beside/breaks.py MODEL [--seconds T] [--seed S] [--most-lines N] [--by-text] [BREAK ..]

MODEL is the folder of the model, which is no part of this repository; its own breaks (`mutate.py`) are tried beside those below. Each is tried in a process of
its own, on random scenarios of its profiles, until a law is broken or so many seconds of processor are used. With --by-text the laws are read from their text too.
"""
import argparse
import os
import random
import sys
import time

sys.dont_write_bytecode = True
sys.path.insert(0, os.path.dirname(os.path.abspath(__file__)))
import scenarios  # noqa: E402
from laws_of_transcripts.by_text.laws import deep, violations as violations_by_text  # noqa: E402
from laws_of_transcripts.judge import KEY, judged  # noqa: E402


def around(kind, name, change):
    """Puts a function in the place of one of a class: it is given the old one first."""
    old = getattr(kind, name)
    setattr(kind, name, lambda self, *arguments: change(old, self, *arguments))


def breaks():
    """Each break: its name, what makes it, and the profiles in which it may be seen."""
    from oracle import base, host, world
    of_host, of_world, of_link = host.Host, world.World, base.Link

    def host_link(change):
        """A link of the host alone that is broken."""
        def make(old, self, *arguments):
            old(self, *arguments)
            self.link = change(self._link)
        return lambda: around(of_host, "__init__", make)

    class NoSecondCopy(of_link):
        """Gives up after a copy."""

        def _end_copy(self):
            self.copies = 4
            of_link._end_copy(self)

    class EarlyCopy(of_link):
        """Its third copy comes a tick early."""
        PAUSES = (1, 10, 21)

    class Collides(of_link):
        """Answers its third frame CAN."""

        def __init__(self, out):
            of_link.__init__(self, out)
            self.collisions = 1

    class TakesRefused(of_link):
        """Takes what a frame says that it refuses for its sum."""

        def feed(self, piece):
            for byte in piece:
                text = bytes(self.dec.buf) + bytes((byte,))
                of_link.feed(self, text[-1:])
                if text[0] == 1 and 4 < len(text) == text[1] + 2 and base.checksum(text[1:-1]) != text[-1]:
                    self.out(("got", *text[2:4], text[4:-1]))

    def unacknowledged(old, self, event):
        if not (event[0] == "write" and event[1] == base.ACK):
            old(self, event)

    def no_second_segment(old, self, node):
        return old(self, node) and not (node.state == "run" and node.segs is not None and node.sealed is None)

    def seals_twice(old, self, node):
        nonce, sealed = self.__dict__.get("last_nonces", {}).get(node.n), self._message(node)[0] == "sealed" if node.sess else False
        if nonce and sealed and node.attempts:
            node.attempts, node.state, node.pending = node.attempts + 1, "run", None
            text = host.seal(self.getkeys(), self.draw.next().value(), nonce, 1, node.n, self._message(node)[1])
            self._send_data("attempt", node.n, text, node.token)
        else:
            old(self, node)

    def notes_nonce(old, self, node, nonce):
        waits = node.pending is not None
        old(self, node, nonce)
        if waits and node.sealed is not None:
            self.__dict__.setdefault("last_nonces", {})[node.n] = nonce

    def gives_new(old, self, node):
        node.live = None
        old(self, node)

    def counts_wrong(old, self, node):
        if node.live is None:
            node.given += 1
        old(self, node)

    def quietly(words):
        def note_less(old, self, *arguments):
            note = self.note
            self.note = lambda text: None if text.split()[0] in words else note(text)
            old(self, *arguments)
            self.note = note
        return note_less

    def twice(old, self, node, which, value):
        old(self, node, which, value)
        if node.store.get(which):
            self.note("report %d %s %d" % (node.n, host.prop_text(which), value))

    def any_report(old, self, node, fields):
        old(self, node, ((len(node.sess) % 64,) + fields[1:]) if node.open else fields)

    def first_free(old, self):
        return next((self.nodes[number] for number in self.order if self._work(self.nodes[number])), None)

    def skips_number(old, self, *arguments):
        self.cb = self.cb % 255 + 1
        old(self, *arguments)

    def other_options(old, self, kind, node, function, body, *more):
        old(self, kind, node, function, body[:-2] + b"\x05" + body[-1:] if function == 0x13 else body, *more)

    def hurries(old, self, event):
        old(self, event)
        if event[0] == "sent" and self.req is not None and self.req.kind in ("failed", "neighbours", "members"):
            self.req = None

    def wait_of(name, ticks):
        def end(old, self, *arguments):
            old(self, *arguments)
            for node in self.nodes.values():
                if getattr(node, name) == self.now + 100:
                    setattr(node, name, self.now + ticks)
        return end

    def goes_on(old, self, node):
        old(self, node)
        if node.blocked:
            node.blocked = False

    def sixty_five(old, self, places=1):
        if len(self.queue) + places > 65:
            raise host.Refused("queuefull 64")

    def clears_nothing(old, self, text):
        if not text.startswith("cleared h"):
            old(self, text)

    def tells_late(old, self, text):
        if self.tick_head is not None and text.startswith("heard"):
            self.emit_out(text)
        else:
            old(self, text)

    def late_tick(old, self):
        self.skipped = not getattr(self, "skipped", False)
        if not self.skipped or self.link.cur is None:
            old(self)
        else:
            self.now += 1
            self._tick_request()
            self._tick_nodes()

    def hears_late(old, self):
        if self.clock % 7 == 3 and self.pipes["c"] and self.host.link.cur is None:
            return
        old(self)

    return {
        "never acknowledges": (lambda: around(of_host, "_link", unacknowledged), "lossy,serial"),
        "no second copy": (host_link(NoSecondCopy), "serial"),
        "third copy a tick early": (host_link(EarlyCopy), "serial"),
        "answers CAN": (host_link(Collides), "serial"),
        "an outcome of a refused report": (host_link(TakesRefused), "serial"),
        "no second segment": (lambda: around(of_host, "_work", no_second_segment), "bulk"),
        "seals twice for a nonce": (lambda: (around(of_host, "_attempt", seals_twice), around(of_host, "_nonce_report", notes_nonce)), "security"),
        "a new nonce each time": (lambda: around(of_host, "_nonce_get", gives_new), "security"),
        "a nonce counted wrong": (lambda: around(of_host, "_nonce_get", counts_wrong), "security"),
        "a heard value left out": (lambda: around(of_host, "_heard", quietly(("report",))), "full,dimmer"),
        "a heard value twice": (lambda: around(of_host, "_heard", twice), "full,dimmer"),
        "no old": (lambda: around(of_host, "_report", quietly(("old",))), "lossy"),
        "a final report left out": (lambda: around(of_host, "_report", quietly(("out",))), "lossy"),
        "any report": (lambda: around(of_host, "_report", any_report), "lossy"),
        "no asleep": (lambda: around(of_host, "_asleep", quietly(("asleep",))), "nap,sleep"),
        "lowest node first": (lambda: around(of_host, "_choose", first_free), "lossy"),
        "a callback id left out": (lambda: around(of_host, "_send_data", skips_number), "lossy"),
        "other options": (lambda: around(of_host, "_submit", other_options), "lossy"),
        "goes on before an answer": (lambda: around(of_host, "_link", hurries), "aborts,routes"),
        "an attempt over a tick early": (lambda: around(of_host, "_end", wait_of("timer", 99)), "lossy"),
        "an attempt over a tick late": (lambda: around(of_host, "_end", wait_of("timer", 101)), "lossy"),
        "a series again a tick early": (lambda: around(of_host, "_end_attempt", wait_of("series_timer", 99)), "lossy,mixed"),
        "a session in the tick of a failure": (lambda: around(of_host, "_serve", goes_on), "keeper"),
        "a queue of 65": (lambda: around(of_host, "_room", sixty_five), "stall,aborts,many"),
        "nothing cleared": (lambda: around(of_world, "emit", clears_nothing), "restart,overrun,mixed"),
        "a tick told late": (lambda: around(of_world, "emit", tells_late), "lossy"),
        "the host ticks every other tick": (lambda: around(of_host, "tick", late_tick), "serial"),
        "the host hears late": (lambda: around(of_world, "settle", hears_late), "lossy,serial"),
    }


def of_model():
    """The model's own breaks."""
    import mutate
    return {name: (make, ",".join(profiles)) for name, (make, profiles) in mutate.MUTATIONS.items()}


def one(model, name, make, profiles, options):
    """Tries a break until a law is broken by both readings."""
    make()
    end, seed, tried, seen = time.process_time() + options.seconds, options.seed, 0, {}
    while time.process_time() < end and len(seen) < 1 + options.by_text:
        for kind in profiles.split(","):
            random.seed(seed)
            try:
                written = model.scenario(kind, seed).finish()
            except Exception:  # a broken model may fail
                continue
            tried += 1
            for reading, read in (("by itself", lambda: judged(written)[0]), ("by text", lambda: deep(lambda: violations_by_text(written, KEY)))):
                if reading in seen or reading == "by text" and not options.by_text:
                    continue
                try:
                    found = read()
                except Exception as error:
                    print(f"{name}: {reading} fails on {kind} {seed}: {error!r}", flush=True)
                    continue
                if found:
                    seen[reading] = f"{', '.join(sorted({one.law for one in found}))} ({kind} {seed})"
        seed += 1
    print(f"{name}: {tried} scenarios: " + "; ".join(f"{reading}: {text}" for reading, text in seen.items()) or "not seen", flush=True)


def main():
    """Tries each break in a process of its own."""
    parser = argparse.ArgumentParser(description=__doc__, formatter_class=argparse.RawDescriptionHelpFormatter)
    parser.add_argument("model")
    parser.add_argument("--seconds", type=float, default=30)
    parser.add_argument("--seed", type=int, default=1)
    parser.add_argument("--most-lines", type=int, default=60)
    parser.add_argument("--by-text", action="store_true")
    parser.add_argument("breaks", nargs="*")
    options = parser.parse_intermixed_args()
    model = scenarios.Model(options.model, options.most_lines)
    known = {**of_model(), **breaks()}
    if options.by_text:  # once for all of them
        deep(lambda: violations_by_text(model.scenario("security", 2).finish(), KEY))
    for name in options.breaks or known:
        child = os.fork()
        if child == 0:
            try:
                one(model, name, *known[name], options)
            finally:
                os._exit(0)
        os.waitpid(child, 0)


if __name__ == "__main__":
    main()
