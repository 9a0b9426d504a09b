"""What the scripts of this folder share: a chip whose devices keep their memory while programs come and go, and what a file of records says.

A script is given the program, or takes bin/zwave_console. Each ends with 0 where all that it checks is so, and else says what is not.
"""
import collections
import contextlib
import fcntl
import os
import random
import subprocess
import sys
import threading
import time

TOP = os.path.normpath(os.path.join(os.path.dirname(os.path.abspath(__file__)), "..", ".."))
sys.path.insert(0, os.path.join(TOP, "bench", "port"))
import chip  # noqa: E402

SUCCESS = 255
# TIOCVHANGUP
HANG_UP = 0x5437


def program_of(words):
    """The program that the script was given as its first word."""
    return os.path.abspath(words[0]) if words else os.path.join(TOP, "bin", "zwave_console")


class Lossy(chip.Chip):
    """A chip that loses a part of what the devices say, by a generator of its own."""

    def __init__(self, send, devices, part, seed):
        super().__init__(send, devices)
        self.part, self.random = part, random.Random(seed)

    def notify(self, function, body):
        if function != chip.COMMAND_HANDLER or self.random.random() >= self.part:
            super().notify(function, body)


Ended = collections.namedtuple("Ended", "status said")


class Desk:
    """A port, and the programs that are run on it."""

    def __init__(self, program, part=0.0, seed=0):
        self.program = program
        self.devices = chip.make_devices()
        self.port = chip.Port(self.devices, lambda *_: None)
        self.port.chip = Lossy(self.port.send, self.devices, part, seed)
        chip.set_line(self.port.theirs)

    def start(self, lines, records=None, more=None, **how):
        """Starts the program; `more` are variables of its environment."""
        env = {name: value for name, value in os.environ.items() if name != "ZWAVE_RECORDS"} | (more or {})
        if records:
            env["ZWAVE_RECORDS"] = records
        words = [self.program, "host", *lines]
        return subprocess.Popen(words, stdin=self.port.theirs, stdout=self.port.theirs, stderr=subprocess.PIPE, env=env, **how)

    def attend(self, program, seconds=600.0):
        """Answers until the program has ended, or is killed after that time."""
        end = time.monotonic() + seconds
        while program.poll() is None:
            left = end - time.monotonic()
            if left <= 0:
                program.kill()
                program.wait()
                break
            self.port.turn(min(left, 0.02))
        said = program.stderr.read().decode()
        program.stderr.close()
        return Ended(program.returncode, said)

    def run(self, lines, records=None, seconds=600.0, **how):
        return self.attend(self.start(lines, records, **how), seconds)


class Served:
    """A port whose chip answers by a thread of its own, as long as a `with` lasts or until it is pulled out."""

    def __init__(self):
        self.port = chip.Port(chip.make_devices(), lambda *_: None)
        self.name, self.devices = os.ttyname(self.port.theirs), self.port.chip.devices
        self.is_over = threading.Event()
        self.serving = threading.Thread(target=self.serve)

    def serve(self):
        while not self.is_over.is_set():
            self.port.turn(0.02)

    def stop(self):
        self.is_over.set()
        self.serving.join()

    def pull_out(self):
        """The line is hung up, as by the system where a device is pulled out; without the right to that its other end is closed."""
        self.stop()
        with contextlib.suppress(PermissionError):
            fcntl.ioctl(self.port.theirs, HANG_UP)
        os.close(self.port.theirs)
        os.close(self.port.ours)

    def __enter__(self):
        self.serving.start()
        return self

    def __exit__(self, *_):
        if not self.is_over.is_set():
            self.stop()


class Records:
    """What the whole lines of a file of records say."""

    def __init__(self, name):
        with open(name, "rb") as file:
            whole = file.read().rpartition(b"\n")[0]
        self.rows = [[int(number) for number in line[1:-1].split(b",")] for line in whole.split(b"\n") if line]
        self.asked, self.begun, self.status = {}, {}, {}
        for row in self.rows:
            if row[0] == 1:
                self.asked[row[1]] = row[2:]
            elif row[0] == 4:
                self.begun[row[1], row[2]] = row[3]
            elif row[0] == 5:
                self.status[row[1], row[2]] = row[3]

    def commands_of(self, node):
        return [command for command, asked in self.asked.items() if asked[0] == node]

    def message(self, command, kind):
        """The message of the command, for a device of that kind."""
        _, _, what, *numbers = self.asked[command]
        if what == 5:
            return bytes([kind, 4, numbers[0], 4]) + numbers[1].to_bytes(4, "big")
        on = 255 if kind == chip.SWITCH_BINARY else 99
        return bytes([kind, 1, numbers[0] if what == 2 else on if what == 0 else 0])


def faults_of(records, devices):
    """What the records say of the devices that is not so: a line for each."""
    for node, device in devices.items():
        sessions = [session for session, _ in device.did]
        if sessions != list(range(1, len(sessions) + 1)):
            yield f"node {node} did sessions {sessions[-3:]}"
        for session, message in device.did:
            command = records.begun.get((node, session))
            if command is None or records.message(command, device.kind) != message:
                yield f"node {node} did {message.hex()} in session {session}, which carries command {command}"
        carried = [command for (at, _), command in records.begun.items() if at == node]
        if carried != records.commands_of(node)[: len(carried)]:
            yield f"node {node}: its sessions carry {carried[-3:]}"
    for (node, session), status in records.status.items():
        if status == SUCCESS and session > len(devices[node].did):
            yield f"node {node}: session {session} is told as done"


def check(is_so, what):
    """Says what is not so, and ends the script there."""
    print("ok   " if is_so else "WRONG", what, flush=True)
    if not is_so:
        sys.exit(1)
