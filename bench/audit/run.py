#!/usr/bin/env python3
"""Lines a second of the program's `audit`, over transcripts of `sim` of about 1 and 16 MiB: a switch that is switched on and off.

    bench/audit/run.py PROGRAM

It is outside the gate. The transcript is made by the program itself, and audit has to say yes to it. Seconds are processor time, the least of five runs."""
import resource
import subprocess
import sys

# about so many bytes of transcript a round
ROUND = "set 2 on\ntick 2\nset 2 off\ntick 2\n"


def transcript(program, size):
    one = subprocess.run([program, "sim"], input=ROUND.encode(), capture_output=True, check=True).stdout
    rounds = size // len(one) - size // 12 // len(one)
    return subprocess.run([program, "sim"], input=(ROUND * rounds).encode(), capture_output=True, check=True).stdout


def seconds(program, text):
    before = resource.getrusage(resource.RUSAGE_CHILDREN)
    said = subprocess.run([program, "audit"], input=text, capture_output=True)
    after = resource.getrusage(resource.RUSAGE_CHILDREN)
    assert said.stdout == b"yes\n", said.stdout[:80]
    return after.ru_utime + after.ru_stime - before.ru_utime - before.ru_stime


def main():
    program = sys.argv[1]
    print("| Bytes | Lines | Seconds | Microseconds a line |\n|---|---|---|---|")
    for size in (1 << 20, 16 << 20):
        text = transcript(program, size)
        lines = text.count(b"\n")
        took = min(seconds(program, text) for _ in range(5))
        print(f"| {len(text)} | {lines} | {took:.2f} | {1e6 * took / lines:.2f} |")


main()
