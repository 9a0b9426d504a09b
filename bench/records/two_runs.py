#!/usr/bin/env python3
"""Two runs of `host` after each other, without records and with them.

  bench/records/two_runs.py [PROGRAM]

A device that did session 1 of an earlier run takes session 1 of a run without records for a repeat: it answers as it did then, and the run ends
with 0, though nothing was done. With records each run goes on with the numbers of the last.
"""
import os
import sys
import tempfile

from desk import Desk, check, program_of

MEET = ["join 5", "interview 5", "wait 5"]


def main(words):
    desk = Desk(program_of(words))
    lamp = desk.devices[5]
    check(desk.run([*MEET, "set 5 on", "wait 5"]).status == 0 and lamp.value == 255, "without records: `set 5 on` ends with 0, and the lamp burns")
    check(desk.run([*MEET, "set 5 off", "wait 5"]).status == 0, "without records: `set 5 off` ends with 0")
    check(lamp.value == 255, "without records: the lamp burns all the same")

    desk = Desk(program_of(words))
    lamp = desk.devices[5]
    with tempfile.TemporaryDirectory() as folder:
        records = os.path.join(folder, "records")
        check(desk.run([*MEET, "set 5 on", "wait 5"], records).status == 0 and lamp.value == 255, "with records: `set 5 on` ends with 0, and the lamp burns")
        check(desk.run(["set 5 off", "wait 5"], records).status == 0, "with records: `set 5 off` ends with 0")
        check(lamp.value == 0, "with records: the lamp is off")


if __name__ == "__main__":
    main(sys.argv[1:])
