#!/usr/bin/env python3
"""Kills the program at random moments and starts it again on the same file of records.

  bench/records/kills.py [PROGRAM [KILLS [SEED]]]      100 kills and seed 1 if not told

Runs follow each other until so many were killed. Each gives up to three orders to nodes 2, 5, 6 and 8 and waits a little; a part of what the devices
say is lost. After each run the records are held against what the devices did: sessions one after another, each by the command that it carries, each
once, and each that is told as done. The file may have grown, and lost at most an end without a line feed. In the end all is run to rest, and each
command that was accepted was done once, in order.
"""
import collections
import os
import random
import sys
import tempfile
import time

from desk import SUCCESS, Desk, Records, check, faults_of, program_of

NODES = (2, 5, 6, 8)
KILLED = -9

# a part of what the devices say is lost, and a run is killed within so many times the time that one takes
LOST, WITHIN = 0.1, 1.3


def order(chance, number):
    node = chance.choice(NODES)
    if node == 8:
        return f"config 8 {chance.randrange(1, 100)} {number}"
    return f"set {node} {chance.randrange(100) if node == 6 else chance.choice(('on', 'off'))}"


def read(name):
    with open(name, "rb") as file:
        return file.read()


def main(words):
    program = program_of(words)
    kills = int(words[1]) if len(words) > 1 else 100
    seed = int(words[2]) if len(words) > 2 else 1
    chance = random.Random(seed)
    desk = Desk(program, LOST, seed)
    ends = collections.Counter()
    with tempfile.TemporaryDirectory() as folder:
        records = os.path.join(folder, "records")
        meet = [line for node in NODES[1:] for line in (f"join {node}", f"interview {node}")]
        check(desk.run([*meet, "interview 2", "wait 10"], records).status == 0, "the nodes are joined and interviewed")
        began = time.monotonic()
        desk.run(["wait 2"], records)
        longest = WITHIN * (time.monotonic() - began)
        while ends[KILLED] < kills:
            turn, before = sum(ends.values()), read(records)
            lines = [order(chance, turn * 3 + at) for at in range(chance.randrange(4))]
            ended = desk.run([*lines, f"wait {chance.randrange(1, 4)}"], records, chance.uniform(0, longest))
            ends[ended.status] += 1
            whole = before[: before.rfind(b"\n") + 1]
            for fault in faults_of(Records(records), desk.devices):
                check(False, f"run {turn}: {fault}")
            if not read(records).startswith(whole):
                check(False, f"run {turn}: the file lost a line")
            if ended.status not in (KILLED, 0, 9):
                check(False, f"run {turn}: ended with {ended.status}: {ended.said}")
            if chance.random() < 0.5:
                desk.port.chip.forget()
        check(True, f"{sum(ends.values())} runs, by status: {dict(ends)}")
        rest(desk, records)


def rest(desk, records):
    """Runs until each command has its end, and holds them against the devices. The chip waits for no acknowledgement of a program that is gone."""
    for _ in range(200):
        desk.port.chip.forget()
        desk.run(["wait 10"], records)
        told = Records(records)
        if len(told.status) == len(told.asked):
            break
    check(all(status == SUCCESS for status in told.status.values()), f"each of {len(told.asked)} commands is told as done")
    check(not list(faults_of(told, desk.devices)), "each device did what its sessions carry, once, in order")
    for node, device in desk.devices.items():
        wanted = [told.message(command, device.kind) for command in told.commands_of(node)]
        check([message for _, message in device.did] == wanted, f"node {node} did its {len(wanted)} commands, each once, in order")


if __name__ == "__main__":
    main(sys.argv[1:])
