#!/usr/bin/env python3
"""Feeds the built program hostile bytes, and looks at how it ends.

  bench/hostile/run.py PROGRAM [--seed S] [--bytes N] [--seconds T] [--commands C,..] [--longest N] [--out FOLDER] [--valgrind]

Run number i, from S on, gives one command an input: bytes at random; what real runs wrote with bytes changed, left out, doubled and moved; or, for `replay`
and `audit`, the same with whole lines and single digits, so that the lines can still be read. It is run under a limit of time and of memory, and judged:

  check    8 exactly where the text is not hex (with no output), 7 above 16 MiB, else 0
  audit    0 and `yes`, or 12 and one line `no LINE RULE`, 7 above 16 MiB
  sim, replay, events, include
           3 and a last line `badline K NAME`, 7 above 16 MiB, else 0
  host     0 or 9, and its output is whole units of a host: good frames, ACK and NAK; 7 above 16 MiB

Any other status, a signal, a word on standard error, a run that takes longer than its limit, or two runs of one input that differ (each 16th is run
twice), is told with its seed, and the input stays in FOLDER. `--seed S --bytes 1` runs the one of seed S again. At the end it prints how many runs and
bytes there were of each command, their statuses, and the most memory that a run held as far as looks at it every few milliseconds tell. With --valgrind
each run is made under memcheck, which ends with 99 where it finds an error or lost memory.
"""
import argparse
import collections
import importlib.util
import os
import random
import re
import resource
import signal
import subprocess
import sys
import tempfile
import time

TOP = os.path.normpath(os.path.join(os.path.dirname(os.path.abspath(__file__)), "..", ".."))
MOST_READ = 16 * 1024 * 1024
MEMCHECK = ["valgrind", "-q", "--error-exitcode=99", "--leak-check=full", "--errors-for-leak-kinds=definite"]
RULES = ("text", "sessions", "once", "air", "payload", "store", "table")
WORDS = {
    "check": [["check"], ["check", "--from", "host"], ["check", "--from", "chip"]], "audit": [["audit"]], "replay": [["replay"]],
    "sim": [["sim"], ["sim", "--quiet"]], "events": [["events"]], "include": [["include"]], "host": [["host"]],
}
HOST_LINES = ("set 2 on", "set 2 off", "set 2 40", "join 5", "interview 5", "interview 2", "set 5 on", "get 2", "send 2 on", "probe", "join 4", "interview 4",
              "set 4 on", "join 8", "interview 8", "bulk 8 0 " + "07" * 60, "config 8 1 5", "wait 1", "wait 20", "wait 200")
NAMES = re.compile(rb"badline [1-9][0-9]* (Unknown|Missing|Number|Extra|TooLong)\n\Z")


def scenarios():
    """The script that makes long scenarios."""
    where = importlib.util.spec_from_file_location("scenarios", os.path.join(TOP, "bench", "scenarios", "run.py"))
    made = importlib.util.module_from_spec(where)
    where.loader.exec_module(made)
    return made


class Material:
    """What real runs wrote, and the bytes that go over the line in them."""

    def __init__(self, program):
        self.texts, self.units = collections.defaultdict(list), {b"h": [], b"c": []}
        folder = os.path.join(TOP, "examples")
        commands = {"foreign.txt": "replay", "units.txt": "check", "adding.txt": "include", "events.txt": "events"}
        for name in sorted(os.listdir(folder)):
            if name.endswith(".txt"):
                with open(os.path.join(folder, name), "rb") as file:
                    lines = file.read()
                command = commands.get(name, "sim")
                self.texts[command].append(lines)
                if command == "sim":
                    self.see(subprocess.run([program, "sim"], input=lines, stdout=subprocess.PIPE, check=True).stdout)
        with open(os.path.join(TOP, "crates", "zwave_console", "stdin"), "rb") as file:
            self.texts["sim"].append(file.read())
        long = scenarios()
        self.texts["sim"] += [long.scenario(kind, 400, MOST_READ)[0].encode() for kind in long.KINDS]
        for lines in self.texts["sim"][-1 - len(long.KINDS):]:
            self.see(subprocess.run([program, "sim"], input=lines, stdout=subprocess.PIPE, check=True).stdout)

    def see(self, transcript):
        """A transcript of `sim` gives texts for `audit` and `replay`, and the units of both sides."""
        self.texts["audit"].append(transcript)
        lines = []
        for line in transcript.split(b"\n"):
            word, _, rest = line.partition(b" ")
            if word in self.units:
                self.units[word].append(bytes.fromhex(rest.decode()))
                if word == b"c":
                    lines.append(b"chip " + rest)
            elif word == b">" and rest.split()[0] in (b"set", b"tick", b"join", b"interview", b"get", b"send", b"bulk", b"config", b"probe", b"store"):
                lines.append(rest)
        self.texts["replay"].append(b"\n".join(lines) + b"\n")


def changed(chance, data, size):
    """Bytes of about that size: the given ones, from somewhere on and as often as needed, with some changed, left out, doubled or moved."""
    start = chance.randrange(len(data))
    out = bytearray((data[start:] + data * (size // len(data) + 1))[:size])
    for _ in range(1 + int(chance.expovariate(1 / (1 + size * chance.choice([0.0002, 0.002, 0.02]))))):
        at, more = chance.randrange(len(out) + 1), chance.choice([1, 1, 2, 8, 40])
        how = chance.randrange(6)
        if how == 0 and at < len(out):
            out[at] ^= 1 << chance.randrange(8)
        elif how == 1 and at < len(out):
            out[at] = chance.choice(b"\x00\x01\x06\x15\x18\x0a\x0d 09afAFg\x7f\x80\xff")
        elif how == 2:
            del out[at:at + more]
        elif how == 3:
            out[at:at] = out[at:at + more]
        elif how == 4:
            out[at:at] = chance.randbytes(more)
        else:
            there = chance.randrange(len(out) + 1)
            out[at:at + more] = out[there:there + more]
    return bytes(out)


def changed_lines(chance, data, size):
    """The first lines of about that size, as often as needed, some left out, doubled or moved, and in some a digit changed."""
    lines = (data * (size // len(data) + 1))[:size].split(b"\n")[:-1]
    for _ in range(1 + int(chance.expovariate(1 / (1 + len(lines) * chance.choice([0.0005, 0.005, 0.05]))))):
        at = chance.randrange(len(lines) + 1)
        how = chance.randrange(4)
        if how == 0:
            del lines[at:at + 1]
        elif how == 1:
            lines[at:at] = lines[at:at + chance.choice([1, 1, 3])]
        elif how == 2 and lines:
            there = min(len(lines) - 1, at + chance.randint(1, 3))
            lines.insert(there, lines.pop(min(at, len(lines) - 1)))
        elif at < len(lines):
            lines[at] = other_digit(chance, lines[at])
    return b"".join(line + b"\n" for line in lines)


def other_digit(chance, line):
    """The line with another digit in some place that has one, after its first word."""
    places = [at for at, byte in enumerate(line) if at > line.find(b" ") and byte in b"0123456789ABCDEF"]
    if not places:
        return line
    at = chance.choice(places)
    is_hex = line.startswith((b"chip", b"h ", b"c ", b"air"))
    return line[:at] + bytes((chance.choice(b"0123456789ABCDEF" if is_hex else b"123456789"),)) + line[at + 1:]


def fault_of_units(out):
    """Why these bytes are no whole units of a host, or None."""
    at = 0
    while at < len(out):
        size = out[at + 1] + 2 if out[at] == 1 and at + 1 < len(out) else 1
        unit = out[at:at + size]
        if size == 1 and unit[0] not in (0x06, 0x15) or len(unit) < size:
            return f"no unit at {at} of what it wrote: {unit.hex()}"
        total = 0xFF
        for byte in unit[1:]:
            total ^= byte
        if size > 1 and total:
            return f"a frame at {at} with a wrong sum: {unit.hex()}"
        at += size
    return None


def stream(chance, units, size):
    """Bytes of a serial line: units with changes, and some at random between them."""
    out = bytearray()
    while len(out) < size:
        kind = chance.random()
        if kind < 0.7:
            out += chance.choice(units)
        elif kind < 0.9:
            unit = changed(chance, chance.choice(units), chance.randint(1, 40))
            out += unit
        else:
            out += chance.randbytes(chance.randint(1, 12))
    return bytes(out[:size])


def hex_of(chance, data):
    """As hex, of one case or the other, in lines or in one."""
    text = data.hex() if chance.random() < 0.5 else data.hex().upper()
    width = chance.choice([0, 2, 60, 77])
    return ("\n".join(text[at:at + width] for at in range(0, len(text), width)) if width else text).encode()


class Run:
    """A run: the words, the input, and what is known beforehand."""

    def __init__(self, material, seed, commands, longest):
        chance = random.Random(f"hostile/{seed}")
        self.command = chance.choice(commands)
        self.words = list(chance.choice(WORDS[self.command]))
        size = min(longest, chance.choice([8, 200, 2000, 20000, 20000, 200000, 1000000]))
        size = chance.randint(1, size) if chance.random() < 0.995 or longest < MOST_READ else MOST_READ + chance.randint(-2, 2)
        side = b"h" if self.words[-1] == "host" and self.command == "check" else b"c"
        how = chance.random()
        if self.command == "host":
            self.words += [chance.choice(HOST_LINES) for _ in range(chance.randint(1, 12))]
            self.data = chance.randbytes(size) if how < 0.3 else stream(chance, material.units[side], size)
        elif self.command == "check" and how < 0.9:
            data = chance.randbytes(size // 2 + 1) if how < 0.3 else stream(chance, material.units[side], size // 2 + 1)
            self.data = hex_of(chance, data)
            if chance.random() < 0.3:
                self.data = changed(chance, self.data, len(self.data))
        elif how < 0.1:
            self.data = chance.randbytes(size)
        elif how < 0.7 and self.command in ("replay", "audit"):
            self.data = changed_lines(chance, chance.choice(material.texts[self.command]), size)
        else:
            self.data = changed(chance, chance.choice(material.texts[self.command]), size)
        self.twice = seed % 16 == 0

    def fault(self, ended, out, said):
        """What is wrong with how it ended, or None."""
        if said:
            return f"said {said[:200]!r}"
        if len(self.data) > MOST_READ and ended == 7:
            return None
        return getattr(self, f"fault_of_{self.command}", self.fault_of_lines)(ended, out)

    def fault_of_check(self, ended, out):
        digits = self.data.translate(None, b" \t\n\r")
        wanted = 0 if not len(digits) % 2 and not digits.translate(None, b"0123456789abcdefABCDEF") else 8
        wanted = 7 if len(self.data) > MOST_READ else wanted
        return f"{ended} for {wanted}" if ended != wanted or wanted and out else None

    def fault_of_audit(self, ended, out):
        if (ended, out) == (0, b"yes\n"):
            return None
        words = out.decode("ascii", "replace").split()
        is_no = ended == 12 and len(words) == 3 and words[0] == "no" and words[1].isdigit() and words[2] in RULES
        return None if is_no and int(words[1]) <= self.data.count(b"\n") + 2 else f"{ended} with {out[-100:]!r}"

    def fault_of_lines(self, ended, out):
        is_bad = NAMES.search(out) is not None
        return None if (ended, is_bad) in ((0, False), (3, True)) and (not out or out.endswith(b"\n")) else f"{ended} with {out[-100:]!r}"

    def fault_of_host(self, ended, out):
        return fault_of_units(out) if ended in (0, 9) else f"ended with {ended}"


class Judge:
    """Runs the program, and keeps count."""

    def __init__(self, options):
        self.options = options
        self.runs, self.bytes, self.ends = collections.Counter(), collections.Counter(), collections.defaultdict(collections.Counter)
        self.held, self.longest, self.faults, self.scenarios = collections.Counter(), collections.Counter(), 0, scenarios()
        os.makedirs(options.out, exist_ok=True)

    def held_by(self, process):
        """The most KB that a process held so far."""
        try:
            return self.scenarios.held(process)
        except (OSError, IndexError):
            return None

    def limit(self):
        """The memory that a run may have, 1 GiB, and no core file; memcheck needs more."""
        resource.setrlimit(resource.RLIMIT_CORE, (0, 0))
        if not self.options.valgrind:
            resource.setrlimit(resource.RLIMIT_AS, (1 << 30, 1 << 30))

    def end_of(self, run):
        """The status, or why there is none, and what was written."""
        words = (MEMCHECK if self.options.valgrind else []) + [self.options.program, *run.words]
        env = {name: value for name, value in os.environ.items() if name != "ZWAVE_RECORDS"}
        began = time.monotonic()
        with tempfile.TemporaryFile() as written, tempfile.TemporaryFile() as told, tempfile.TemporaryFile() as given:
            given.write(run.data)
            given.seek(0)
            source = subprocess.Popen(["cat"], stdin=given, stdout=subprocess.PIPE) if run.command == "host" else None
            program = subprocess.Popen(words, stdin=source.stdout if source else given, stdout=written, stderr=told, env=env, preexec_fn=self.limit)
            if source:
                source.stdout.close()
            pause, is_late = 0.0005, False
            while program.poll() is None:
                self.held[run.command] = max(self.held[run.command], self.held_by(program.pid) or 0)
                if time.monotonic() - began > self.options.patience:
                    is_late = True
                    program.kill()
                time.sleep(pause)
                pause = min(0.02, pause * 1.2)
            ended = program.returncode
            if source:
                source.wait()
            written.seek(0)
            told.seek(0)
            self.longest[run.command] = max(self.longest[run.command], time.monotonic() - began)
            return "too long" if is_late else ended, written.read(), told.read()

    def one(self, run, seed):
        """A run, and what is wrong with it."""
        ended, out, said = self.end_of(run)
        fault = "no end in its time" if ended == "too long" else run.fault(ended, out, said)
        if not fault and run.twice and not self.options.valgrind and self.end_of(run) != (ended, out, said):
            fault = "a second run differs"
        self.runs[run.command] += 1
        self.bytes[run.command] += len(run.data)
        self.ends[run.command][ended] += 1
        if fault:
            self.faults += 1
            name = os.path.join(self.options.out, f"{seed}.input")
            with open(name, "wb") as file:
                file.write(run.data)
            print(f"seed {seed}: {' '.join(run.words)} < {name}: {fault}", flush=True)

    def sums(self, last):
        """What was run."""
        for command in sorted(self.runs):
            ends = " ".join(f"{ended}:{count}" for ended, count in sorted(self.ends[command].items(), key=str))
            print(f"{command}: {self.runs[command]} runs, {self.bytes[command]} bytes, statuses {ends}, at most {self.held[command]} KB and "
                  f"{self.longest[command]:.1f} s", flush=True)
        print(f"seeds {self.options.seed} to {last}: {sum(self.runs.values())} runs, {sum(self.bytes.values())} bytes, {self.faults} faults", flush=True)


def main():
    parser = argparse.ArgumentParser(description=__doc__, formatter_class=argparse.RawDescriptionHelpFormatter)
    parser.add_argument("program", type=os.path.abspath)
    parser.add_argument("--seed", type=int, default=1)
    parser.add_argument("--bytes", type=int, default=1000000)
    parser.add_argument("--seconds", type=float, default=0)
    parser.add_argument("--patience", type=float, default=300, help="the seconds that a run may take")
    parser.add_argument("--longest", type=int, default=MOST_READ + 2)
    parser.add_argument("--commands", default="check,replay,host,audit")
    parser.add_argument("--out", default="/tmp/moundurn-hostile")
    parser.add_argument("--valgrind", action="store_true")
    options = parser.parse_args()
    material, judge = Material(options.program), Judge(options)
    began, seed = time.monotonic(), options.seed
    signal.signal(signal.SIGTERM, signal.default_int_handler)
    try:
        while True:
            judge.one(Run(material, seed, options.commands.split(","), options.longest), seed)
            if sum(judge.bytes.values()) >= options.bytes or options.seconds and time.monotonic() - began > options.seconds:
                break
            seed += 1
    except KeyboardInterrupt:
        print(f"interrupted in the run of seed {seed}")
    judge.sums(seed)
    return 1 if judge.faults else 0


if __name__ == "__main__":
    sys.exit(main())
