#!/usr/bin/env python3
"""Lines a second of `sim`, the time of an idle tick and of `generate`, the calls of `write`, and the memory that it takes.

    bench/scenarios/run.py PROGRAM.. [--sizes 1000,10000,100000] [--idle TICKS] [--generate N] [--writes LINES] [--whole MIB] [--model FILE] [--times N]

PROGRAM is the program as it was built (crates/zwave_console/out/zwave_console); with several, as before and after a change, they take
turns at each scenario, and each has a row. For each kind of scenario and each number of lines it writes one, runs the program on it, and
prints how much processor time that took (the least of five runs, or of N; of half as many above 10,000 lines), lines a second,
microseconds a line, that relative to the same at the smallest size, and relative to the first program. Then it lets so many ticks of an
idle mesh of 231 devices pass, in lines of a thousand ticks and in lines of one; runs `generate N`; and counts with `strace` how often
`write` is called for so many lines. With a model of the program, which Python runs, it tells how many times as long that takes for the
same 2,000 lines, and for 2,000 ticks. Last it runs plain exchanges of 16 MiB, the longest input that the program takes, and prints the
most memory that it held. What the program writes is counted and dropped.
"""
import argparse
import os
import shutil
import subprocess
import sys
import tempfile
import time

LARGEST = 16 * 1024 * 1024
LONG = "7B" * 60
TICKS_A_LINE = 1000
LINES_BESIDE_THE_MODEL = 2000


def plain(i):
    """A switch is set, and reports."""
    return [f"set 2 {'off' if i % 2 else 'on'}", "tick 2"]


def lock(i):
    """A lock is set: nonces both ways, and two sealed messages."""
    return [f"set 4 {'off' if i % 2 else 'on'}", "tick 10"]


def long_message(i):
    """Sixty parameters in one message of segments."""
    return [f"bulk 8 {64 + i % 100} {LONG}", "tick 10"]


def lossy(i):
    """Orders for four nodes, of which frames, acknowledgements and units are lost and frames are repeated."""
    node = (2, 3, 10, 11)[i % 4]
    mark = ("lose 1", "loseack 1", "drop h", "drop c", f"repeat {max(1, i)}", "garble c 2 8", "collide")[i % 7]
    value = (i * 7 % 100) if node in (3, 11) else ("on", "off")[i // 4 % 2]
    return [mark, f"set {node} {value}", "tick 30", "local 2 255" if i % 11 == 0 else "tick 1"]


def listening(*nodes):
    """These nodes are heard, join and tell their classes."""
    return [text for n in nodes for text in (f"link 1 {n}", f"join {n}", f"interview {n}", "tick 5")]


KINDS = {
    "plain exchange": (["tick 1"], plain),
    "lock": (listening(4), lock),
    "long message": (listening(8), long_message),
    "lossy evening": (listening(3, 10, 11), lossy),
}


def scenario(kind, count, size):
    """The text of so many lines at most, and of so many bytes at most."""
    first, more = KINDS[kind]
    lines = list(first)
    length = sum(len(text) + 1 for text in lines)
    i = 0
    while len(lines) < count:
        for text in more(i):
            length += len(text) + 1
            if len(lines) == count or length > size:
                return "\n".join(lines) + "\n", len(lines)
            lines.append(text)
        i += 1
    return "\n".join(lines) + "\n", len(lines)


def held(process):
    """The most KB of memory that a process held so far, or None where it has ended. What `wait4` tells counts this script too."""
    with open(f"/proc/{process}/status", encoding="ascii", errors="replace") as lines:
        return next((int(line.split()[1]) for line in lines if line.startswith("VmHWM:")), None)


def run(program, text, words=("sim",)):
    """Runs the program, a list of words, on a text: its status, seconds of processor time, KB of memory at most, bytes written."""
    with tempfile.TemporaryDirectory() as folder:
        with open(f"{folder}/in", "w", encoding="ascii") as out:
            out.write(text)
        with open(f"{folder}/in", "rb") as source, open(f"{folder}/out", "wb") as sink:
            child = subprocess.Popen([*program, *words], stdin=source, stdout=sink)
            most = 0
            while True:
                ended, status, used = os.wait4(child.pid, os.WNOHANG)
                if ended:
                    break
                most = max(most, held(child.pid) or 0)
                time.sleep(0.005)
            child.returncode = os.waitstatus_to_exitcode(status)
        return child.returncode, used.ru_utime + used.ru_stime, most, os.path.getsize(f"{folder}/out")


def least(programs, text, times, words=("sim",)):
    """For each program its run of so many that took the least time; the programs take turns."""
    ran = [[run(program, text, words) for program in programs] for _ in range(times)]
    return [min((turn[i] for turn in ran), key=lambda one: one[1]) for i in range(len(programs))]


def row(*cells):
    print("| " + " | ".join(str(cell) for cell in cells) + " |", flush=True)


def measured(programs, names, sizes, times):
    """A row for each kind, each size and each program."""
    row("Scenario", "Lines", "Program", "Seconds", "Lines a second", "Microseconds a line", "Relative to the least size", "Relative to the first program",
        "MiB held", "KiB written")
    row(*["---"] * 10)
    for kind in KINDS:
        first = {}
        for size in sizes:
            text, lines = scenario(kind, size, LARGEST)
            ran = least(programs, text, times if lines <= 10000 else max(2, times // 2))
            for name, (status, seconds, memory, written) in zip(names, ran):
                micros = seconds * 1e6 / lines
                row(kind, f"{lines:,}", name, f"{seconds:.3f}", f"{lines / max(seconds, 1e-6):,.0f}", f"{micros:.2f}",
                    f"{micros / max(first.setdefault(name, micros), 1e-9):.2f}", f"{seconds / max(ran[0][1], 1e-9):.2f}",
                    f"{memory // 1024:,}", f"{written // 1024:,}" + (f", status {status}" if status else ""))


def idle(programs, names, ticks, times):
    """The time of a tick in which nothing happens, without the start of the program and the table at its end."""
    for at_once in (TICKS_A_LINE, 1):
        none = least(programs, "", times)
        many = least(programs, f"tick {at_once}\n" * (ticks // at_once), times)
        for name, before, after in zip(names, none, many):
            seconds = after[1] - before[1]
            micros = seconds * 1e6 / max(1, ticks // at_once * at_once)
            print(f"{name}: {ticks:,} idle ticks of 231 devices, {at_once:,} a line: {seconds:.3f} s, {micros:.2f} microseconds a tick; "
                  f"without a tick {before[1]:.3f} s", flush=True)


def generate(programs, names, count, times):
    """The time of a generated scenario of so many hundred commands."""
    for name, (status, seconds, memory, _) in zip(names, least(programs, "", times, ("generate", str(count)))):
        print(f"{name}: generate {count}: {seconds:.3f} s, {memory // 1024:,} MiB held, status {status}", flush=True)


def writes(programs, names, lines):
    """How often `write` is called, as `strace` counts."""
    if not shutil.which("strace"):
        print("writes: strace is not there")
        return
    text, count = scenario("plain exchange", lines, LARGEST)
    for name, program in zip(names, programs):
        with tempfile.NamedTemporaryFile("r", encoding="ascii") as told:
            run(["strace", "-f", "-c", "-e", "trace=write", "-o", told.name, *program], text)
            calls = next((line.split()[3] for line in told if line.split()[-1:] == ["write"]), "0")
        print(f"{name}: {count:,} lines of plain exchanges: {int(calls):,} calls of write", flush=True)


def beside(programs, names, model, times):
    """How many times as long the model takes for the same lines."""
    texts = {kind: scenario(kind, LINES_BESIDE_THE_MODEL, LARGEST)[0] for kind in KINDS}
    texts["idle ticks"] = "tick 1\n" * LINES_BESIDE_THE_MODEL
    for kind, text in texts.items():
        *own, other = least([*programs, [sys.executable, model]], text, times)
        for name, ran in zip(names, own):
            print(f"{name}: {LINES_BESIDE_THE_MODEL:,} lines, {kind}: {ran[1]:.4f} s, the model {other[1]:.2f} s, "
                  f"{other[1] / max(ran[1], 1e-6):.1f} times as long", flush=True)


def whole(programs, names, size):
    """The longest input."""
    text, lines = scenario("plain exchange", LARGEST, size * 1024 * 1024)
    for name, (status, seconds, memory, written) in zip(names, least(programs, text, 1)):
        print(f"{name}: {size} MiB of plain exchanges: {lines:,} lines, {seconds:.1f} s, {memory // 1024:,} MiB held, "
              f"{written // 1048576:,} MiB written, status {status}", flush=True)


def main():
    words = argparse.ArgumentParser(description=__doc__, formatter_class=argparse.RawDescriptionHelpFormatter)
    words.add_argument("programs", nargs="+", metavar="PROGRAM")
    words.add_argument("--sizes", default="1000,10000,100000", help="numbers of lines; none leaves them out")
    words.add_argument("--idle", type=int, default=100000, help="ticks of the idle mesh; 0 leaves it out")
    words.add_argument("--generate", type=int, default=50, help="what `generate` is asked for; 0 leaves it out")
    words.add_argument("--writes", type=int, default=0, help="lines for which calls of write are counted")
    words.add_argument("--whole", type=int, default=16, help="MiB of the longest input; 0 leaves it out")
    words.add_argument("--model", help="a model of the program, which Python runs; none leaves it out")
    words.add_argument("--times", type=int, default=5, help="runs of which the least is taken")
    given = words.parse_args()
    for program in given.programs:
        if not os.access(program, os.X_OK):
            sys.exit(f"{program} is no program")
    programs, names = [[os.path.abspath(name)] for name in given.programs], given.programs
    if given.sizes:
        measured(programs, names, [int(size) for size in given.sizes.split(",")], given.times)
    if given.idle:
        idle(programs, names, given.idle, given.times)
    if given.generate:
        generate(programs, names, given.generate, given.times)
    if given.model:
        beside(programs, names, given.model, given.times)
    if given.writes:
        writes(programs, names, given.writes)
    if given.whole:
        whole(programs, names, given.whole)


if __name__ == "__main__":
    main()
