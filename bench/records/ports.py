#!/usr/bin/env python3
"""What bin/zwave_host makes of ports that are none, that are set in another way, that are pulled out, that are never quiet and that hang up.

  bench/records/ports.py

What is looked for stands in docs/PORT.md. The program has to be built (bin/build).
"""
import fcntl
import os
import subprocess
import sys
import tempfile
import termios
import time

from desk import TOP, Served, check
import chip

HOST = os.path.join(TOP, "bin", "zwave_host")
PROGRAM = os.path.join(TOP, "bin", "zwave_console")
DONE, NO_WORDS, NO_LINE, NO_PORT, NOT_WRITTEN, HUNG_UP = 0, 2, 3, 4, 5, 129
# where a line cannot be hung up its other end is closed, and then a read that waits fails
CLOSED = () if os.getuid() == 0 else (NO_PORT,)
# a frame of the chip that asks for nothing but its acknowledgement, how often it comes, and for how long
FRAME, EACH, BUSY = bytes.fromhex("010B00040002056C0202FF0064"), 0.06, 4.0


def start(words, records=None, before=(), **how):
    env = {name: value for name, value in os.environ.items() if name != "ZWAVE_RECORDS"}
    if records:
        env["ZWAVE_RECORDS"] = records
    ends = {"stdin": subprocess.DEVNULL, "stdout": subprocess.PIPE, "stderr": subprocess.STDOUT}
    return subprocess.Popen([*before, HOST, *words], text=True, env=env, **ends, **how)


def run(words, records=None):
    """Its status, what it said, and the seconds that it took."""
    began, ran = time.monotonic(), start(words, records)
    said = ran.communicate(timeout=120)[0]
    return ran.returncode, said, time.monotonic() - began


def refused(folder):
    status, said, _ = run([])
    check(status == NO_WORDS and "usage" in said, "no words: 2, and how it is called")
    text = os.path.join(folder, "text")
    with open(text, "w", encoding="ascii") as file:
        file.write("buy bread\n")
    for what, name in (("a file", text), ("/dev/null", "/dev/null"), ("a folder", folder), ("a name that is not there", os.path.join(folder, "none"))):
        status, said, _ = run([name, "wait 1"])
        check(status == NO_PORT and "nothing was run" in said, f"{what}: 4, and nothing was run")
    with open(text, encoding="ascii") as file:
        check(file.read() == "buy bread\n" and not os.path.exists(os.path.join(folder, "none")), "the file is left, and none is made")
    with Served() as there:
        status, said, _ = run([there.name, "set 2 on", "weit 20"])
        check(status == NO_LINE and "nothing was run" in said and there.devices[2].did == [], "a word that is no line: 3, and nothing was run")


def set_again():
    """A port that an earlier user set in another way."""
    with Served() as there:
        marks = termios.tcgetattr(there.port.theirs)
        marks[2] = marks[2] & ~termios.CLOCAL | termios.CSTOPB | termios.CRTSCTS | termios.HUPCL
        marks[3] |= termios.ICANON | termios.ECHO | termios.ISIG
        marks[6][termios.VMIN], marks[6][termios.VTIME] = 1, 0
        termios.tcsetattr(there.port.theirs, termios.TCSANOW, marks)
        status = run([there.name, "set 2 on", "wait 5"])[0]
        check(status == DONE and there.devices[2].value == 255, "a port with other marks: the order is done")
        _, _, cflag, lflag, _, _, ends = termios.tcgetattr(there.port.theirs)
        is_set = cflag & termios.CSIZE == termios.CS8 and cflag & termios.CLOCAL
        is_set = is_set and not cflag & (termios.CSTOPB | termios.CRTSCTS | termios.HUPCL | termios.PARENB) and not lflag & (termios.ICANON | termios.ECHO)
        # the two ends of a read share their places with other marks, and may be a byte or a number
        least, tenths = (mark if isinstance(mark, int) else mark[0] for mark in (ends[termios.VMIN], ends[termios.VTIME]))
        check(is_set and (least, tenths) == (0, 1), "it is set to eight bits, one stop bit, no flow control, and reads of a tenth of a second")


def pulled_out():
    for what, lines, status in (("with nothing due", ["wait 600"], DONE), ("before an order", ["wait 20", "set 2 on", "wait 600"], NOT_WRITTEN)):
        with Served() as there:
            began = time.monotonic()
            ran = start([there.name, *lines])
            time.sleep(1.0)
            there.pull_out()
            said = ran.communicate(timeout=60)[0]
        check(ran.returncode in (status, *CLOSED) and time.monotonic() - began < 20, f"pulled out {what}: {ran.returncode}, at once")
        check(f"{there.name} is gone" in said, f"pulled out {what}: it is told")


def never_quiet():
    with Served() as there:
        ran, began = start([there.name, "wait 10"]), time.monotonic()
        while time.monotonic() - began < BUSY:
            os.write(there.port.ours, FRAME)
            time.sleep(EACH)
        check(ran.poll() is None, f"a frame each {1000 * EACH:.0f} ms for {BUSY:.0f} s: a wait of one second has not ended")
        ran.communicate(timeout=60)
        took = time.monotonic() - began
        check(ran.returncode == DONE and BUSY + 0.7 < took < BUSY + 4, f"it ends with 0 after {took:.1f} s, a second after the last of them")


def does_not_block():
    with Served() as there:
        chip.set_line(there.port.theirs)
        marks = fcntl.fcntl(there.port.theirs, fcntl.F_GETFL)
        fcntl.fcntl(there.port.theirs, fcntl.F_SETFL, marks | os.O_NONBLOCK)
        ran = subprocess.run([PROGRAM, "host", "wait 5"], stdin=there.port.theirs, stdout=subprocess.PIPE, timeout=60, check=False)
        check(ran.returncode == NO_PORT and not ran.stdout, "standard input that does not block: 4")


def hangs_up(folder):
    for before, statuses in (([], (-1, HUNG_UP)), (["nohup"], (DONE, *CLOSED))):
        records, name = os.path.join(folder, f"records{len(before)}"), " under ".join(["a terminal that hangs up", *before])
        with Served() as there:
            # the first of a new session, which gets the port as its terminal by opening it
            ran = start([there.name, "set 2 on", "wait 50"], records, before=before, start_new_session=True)
            time.sleep(2.0)
            there.pull_out()
            said = ran.communicate(timeout=60)[0]
        check(ran.returncode in statuses, f"{name}: {ran.returncode}{', and the port is told to be gone' if 'is gone' in said else ''}")
        with open(records, encoding="ascii") as file:
            check(file.read() == "[1,1,2,0,0]\n[4,2,1,1]\n[5,2,1,255]\n", f"{name}: what was kept is kept")


def main():
    with tempfile.TemporaryDirectory() as folder:
        refused(folder)
        set_again()
        never_quiet()
        does_not_block()
        pulled_out()
        hangs_up(folder)


if __name__ == "__main__":
    sys.exit(main())
