#!/usr/bin/env python3
"""Kills the program at each of its calls in turn, and starts it again on the same file of records.

  bench/records/each_call.py [PROGRAM]

bench/faults/fail.c, compiled by `cc` and loaded before the C library, kills the program in place of a read of the port, a write to it, or a call on the
file of records; and once a read or write has moved one byte. So the program is killed in each state that its calls leave, a record that is half
written among them. The run that is killed gives four orders; then runs go on from its records until each order that was accepted has its end. Each
device has done each of its orders once, in order, and what was told before the kill is told still.
"""
import collections
import itertools
import os
import shutil
import subprocess
import sys
import tempfile

from desk import SUCCESS, TOP, Desk, Records, check, faults_of, program_of

KILLED = -9
ORDERS = ["set 5 on", "config 8 7 1500", "set 5 off", "set 6 40"]
KINDS = ("read", "write", "keep")


def read(name):
    with open(name, "rb") as file:
        return file.read()


class Trials:
    """The program, the library, and a file of records in which the nodes are joined and interviewed."""

    def __init__(self, program, folder):
        self.program = program
        self.library, self.met, self.records = (os.path.join(folder, name) for name in ("fail.so", "met", "records"))
        subprocess.run(["cc", "-O2", "-shared", "-fPIC", "-o", self.library, os.path.join(TOP, "bench", "faults", "fail.c")], check=True)
        meet = [line for node in (5, 6, 8) for line in (f"join {node}", f"interview {node}")]
        check(Desk(program).run([*meet, "wait 10"], self.met).status == 0, "the nodes are joined and interviewed")

    def one(self, kind, is_short, at):
        """Kills it at that call; whether there was one, and how many orders were accepted by then."""
        shutil.copy(self.met, self.records)
        desk = Desk(self.program)
        faults = {"LD_PRELOAD": self.library, "FAULT_KIND": kind, "FAULT_AT": str(at), "FAULT_SHORT": str(int(is_short)), "FAULT_KILL": "1"}
        ended = desk.run([*ORDERS, "wait 6"], self.records, more=faults)
        what = f"{kind} {at}{', one byte' if is_short else ''}"
        if ended.status not in (KILLED, 0):
            check(False, f"{what}: ended with {ended.status}: {ended.said}")
        kept = read(self.records)
        kept = kept[: kept.rfind(b"\n") + 1]
        accepted = len(Records(self.records).asked)
        for fault in faults_of(Records(self.records), desk.devices):
            check(False, f"{what}, when killed: {fault}")
        told = self.rest(desk)
        for fault in faults_of(told, desk.devices):
            check(False, f"{what}: {fault}")
        if not read(self.records).startswith(kept):
            check(False, f"{what}: the file lost a line")
        if len(told.asked) != accepted or list(told.status.values()) != [SUCCESS] * accepted:
            check(False, f"{what}: of {accepted} orders that were accepted {told.status} were done")
        for node, device in desk.devices.items():
            if [message for _, message in device.did] != [told.message(command, device.kind) for command in told.commands_of(node)]:
                check(False, f"{what}: node {node} did {device.did}")
        return ended.status == KILLED, accepted

    def rest(self, desk):
        """Goes on until each order has its end; a reading of the records then. A chip waits for no acknowledgement of a program that is gone."""
        for _ in range(20):
            desk.port.chip.forget()
            desk.run(["wait 6"], self.records)
            told = Records(self.records)
            if len(told.status) == len(told.asked):
                break
        return told

    def all_of(self, kind, is_short):
        """Each call of that kind, up to the end of a run that was not killed."""
        kills, after = 0, collections.Counter()
        for at in itertools.count(1):
            was_killed, accepted = self.one(kind, is_short, at)
            if not was_killed:
                break
            kills += 1
            after[accepted] += 1
        told = " ".join(f"{accepted}:{times}" for accepted, times in sorted(after.items()))
        check(kills > 0, f"{kind}{', one byte' if is_short else ''}: killed {kills} times; orders accepted by then, and how often: {told}")


def main(words):
    with tempfile.TemporaryDirectory() as folder:
        trials = Trials(program_of(words), folder)
        for kind in KINDS:
            for is_short in (False, True):
                trials.all_of(kind, is_short)


if __name__ == "__main__":
    main(sys.argv[1:])
