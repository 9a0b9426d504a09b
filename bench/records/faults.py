#!/usr/bin/env python3
"""What becomes of a file of records where something is wrong with it.

  bench/records/faults.py [PROGRAM]

A torn end, other files, a second program, a file that may not be written and a disk that is full. For a full disk the size that the file may have
is limited; where the script may mount, a small disk is filled besides.
"""
import os
import resource
import shutil
import signal
import subprocess
import sys
import tempfile
import time

from desk import Desk, Records, check, faults_of, program_of

MEET = ["join 5", "interview 5", "wait 5", "set 5 on", "wait 5"]
DONE, REFUSED, NO_KEEPER, NO_RECORD = 0, 9, 10, 11
NOBODY = 65534


def read(name):
    with open(name, "rb") as file:
        return file.read()


def write(name, content):
    with open(name, "wb") as file:
        file.write(content)


def is_left(desk, name, content, status, lines=("wait 1",)):
    """Whether a run over a file of that content ends so and leaves it."""
    write(name, content)
    ended = desk.run(list(lines), name)
    return ended.status == status and read(name) == content


def torn(desk, name):
    whole = read(name)
    write(name, whole + b"[5,5,1")
    check(desk.run(["wait 1"], name).status == DONE and read(name) == whole + b"[5,5,1", "a torn end is no record, and is left while nothing is added")
    check(desk.run(["set 5 off", "wait 5"], name).status == DONE, "a run goes on from the records before it")
    grown = read(name)
    check(grown.startswith(whole) and grown.endswith(b"\n") and b"[5,5,1[" not in grown, "the torn end is cut off, and nothing else")
    check(not list(faults_of(Records(name), desk.devices)), "the records are those of the devices")


def foreign(desk, name):
    order = ["set 2 on", "wait 3"]
    check(is_left(desk, name, b"", DONE), "an empty file is that of a new host")
    check(is_left(desk, name, b"# notes\nbuy bread\n", NO_RECORD, order), "a text is refused with 11, and left")
    check(is_left(desk, name, b"[2,5]\nbuy bread", NO_KEEPER, order), "a text without a last line feed is refused with 10, and left")
    check(is_left(desk, name, b'{"name": 1}', NO_KEEPER, order), "another JSON text is refused with 10, and left")
    check(is_left(desk, name, b"[2, 5]\n", NO_RECORD, order), "a record with a space is refused with 11, and left")
    check(is_left(desk, name, b"[2,5]\n[2,5]\n", NO_RECORD, order), "a record that may not stand there is refused with 11, and left")
    check(is_left(desk, name, b"[2,5]\n\n", NO_RECORD, order), "an empty line is refused with 11, and left")


def not_opened(desk, name, folder):
    for other, why in ((folder, "directory"), ("/dev/null", "no file"), (os.path.join(folder, "none", "records"), "No such file")):
        ended = desk.run(["wait 1"], other)
        check(ended.status == NO_KEEPER and other in ended.said and ended.said.count("\n") == 1, f"{other}: {ended.said.strip()}")
    os.chmod(name, 0o600)
    if os.getuid() == 0:
        os.chmod(folder, 0o755)
        ended = desk.run(["wait 1"], name, user=NOBODY)
        check(ended.status == NO_KEEPER and name in ended.said, f"a file that may not be written: {ended.said.strip()}")


def two_programs(desk, name):
    before = read(name)
    first = desk.start(["wait 100"], name)
    time.sleep(2)
    ended = desk.run(["set 5 on", "wait 1"], name)
    check(ended.status == NO_KEEPER and "another program" in ended.said, f"a second program: {ended.said.strip()}")
    check(read(name) == before, "the file is left")
    first.kill()
    desk.attend(first)
    check(desk.run(["set 5 on", "wait 5"], name).status == DONE, "once the first is killed the next one has the file")


def limit(size):
    def set_limit():
        signal.signal(signal.SIGXFSZ, signal.SIG_IGN)
        resource.setrlimit(resource.RLIMIT_FSIZE, (size, size))

    return set_limit


def full(desk, name):
    before = read(name)
    for room in range(0, 12):
        ended = desk.run(["set 5 off", "wait 2"], name, preexec_fn=limit(len(before) + room))
        check(ended.status == REFUSED and read(name) == before, f"room for {room} bytes: the order is refused, and the file left")
    check(bool(ended.said), f"it is told: {ended.said.strip()}")
    check(desk.run(["set 5 off", "wait 5"], name).status == DONE and desk.devices[5].value == 0, "with room the order is done")
    check(not list(faults_of(Records(name), desk.devices)), "the records are those of the devices")


def small_disk(program, folder):
    disk = os.path.join(folder, "disk")
    os.mkdir(disk)
    if os.getuid() != 0 or subprocess.run(["mount", "-t", "tmpfs", "-o", "size=64k", "none", disk], stderr=subprocess.DEVNULL).returncode:
        print("note  no disk could be mounted: a full one was not tried")
        return
    try:
        desk, name, rest = Desk(program), os.path.join(disk, "records"), os.path.join(disk, "rest")
        check(desk.run(MEET, name).status == DONE, "a small disk with room")
        with open(rest, "wb", buffering=0) as file:
            try:
                while file.write(bytes(4096)):
                    pass
            except OSError:
                pass
        statuses = []  # of runs after each other
        for turn in range(400):
            before = read(name)
            statuses.append(desk.run([f"set 5 {('on', 'off')[turn % 2]}", "wait 1"], name).status)
            if not read(name).startswith(before):
                check(False, f"turn {turn}: the file lost a line")
            if statuses[-3:] == [REFUSED] * 3:
                break
        check(statuses[-1] == REFUSED, f"a full disk: orders are refused after {len(statuses) - 3} that were not")
        check(not list(faults_of(Records(name), desk.devices)), "the records are those of the devices")
        os.remove(rest)
        check(desk.run(["set 5 off", "wait 5"], name).status == DONE, "with room the order is done")
        check(not list(faults_of(Records(name), desk.devices)), "the records are those of the devices")
    finally:
        subprocess.run(["umount", disk], check=False)


def main(words):
    program = program_of(words)
    with tempfile.TemporaryDirectory() as folder:
        desk, name = Desk(program), os.path.join(folder, "records")
        check(desk.run(MEET, name).status == DONE, "a new file")
        torn(desk, name)
        two_programs(desk, name)
        full(desk, name)
        not_opened(desk, name, folder)
        shutil.copy(name, name + ".kept")
        foreign(Desk(program), name)
        small_disk(program, folder)


if __name__ == "__main__":
    main(sys.argv[1:])
