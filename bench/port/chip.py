#!/usr/bin/env python3
"""A small Z-Wave controller chip outside the program, over a pseudo-terminal.

  bench/port/chip.py PROGRAM [WORD..]      as: bench/port/chip.py bin/zwave_console host 'set 2 on' 'wait 3'
  bench/port/chip.py --at LINK             as: bench/port/chip.py --at /tmp/port

The first form sets the terminal as a serial line is set for the program (raw, 115200, a read of no bytes after a tenth of a second of
silence), and runs the program on one end as its input and output. The second makes LINK a name of that end, as /dev/ttyACM0 is that of a
controller, and goes on until it is interrupted or ended: programs come and go, and the devices keep what they are. On the other end the chip answers,
with the devices DEVICES. Each unit that goes over is printed, `h` from the program and `c` from the chip; then, in the first form, the values of
the devices and the exit status of the program, which is also its own.
"""
import collections
import os
import select
import signal
import subprocess
import sys
import termios
import time
import tty

SOF, ACK, NAK, CAN = 0x01, 0x06, 0x15, 0x18
REQUEST, RESPONSE = 0x00, 0x01

INIT_DATA, COMMAND_HANDLER, CAPABILITIES, SEND_DATA, VERSION = 0x02, 0x04, 0x07, 0x13, 0x15
MEMORY_ID, PROTOCOL_INFO, UPDATE, NODE_INFO = 0x20, 0x41, 0x49, 0x60
FUNCTIONS = (INIT_DATA, COMMAND_HANDLER, CAPABILITIES, SEND_DATA, VERSION, MEMORY_ID, PROTOCOL_INFO, UPDATE, NODE_INFO)

CONTROLLER = 1
SWITCH_BINARY, SWITCH_MULTILEVEL, SUPERVISION, CONFIGURATION = 0x25, 0x26, 0x6C, 0x70
OK, NO_ACK = 0x00, 0x01
SUCCESS, NO_SUPPORT = 0xFF, 0x00

# the devices of the chip when it runs as a program: two switches, a dimmer and one with parameters
DEVICES = {2: SWITCH_BINARY, 5: SWITCH_BINARY, 6: SWITCH_MULTILEVEL, 8: CONFIGURATION}

# how long the chip goes on after the program has ended, how long it waits for one that does not, and how long for the rest of a frame
QUIET, LONGEST, REST = 0.3, 600.0, 0.5


def frame(kind, function, body):
    counted = bytes([len(body) + 3, kind, function]) + bytes(body)
    check = 0xFF
    for byte in counted:
        check ^= byte
    return bytes([SOF]) + counted + bytes([check])


def mask(places, size):
    """The bytes in which the bit of each of these places, from 1, is set."""
    out = bytearray(size)
    for place in places:
        out[(place - 1) // 8] |= 1 << ((place - 1) % 8)
    return bytes(out)


def units_of(taken):
    """The whole units at the beginning of the bytes, and the bytes that are left. A byte that begins no unit is dropped."""
    units = []
    while taken:
        if taken[0] not in (SOF, ACK, NAK, CAN) or taken[0] == SOF and len(taken) > 1 and taken[1] < 3:
            taken = taken[1:]
            continue
        size = 1 if taken[0] != SOF else taken[1] + 2 if len(taken) > 1 else len(taken) + 1
        if len(taken) < size:
            break
        units.append(taken[:size])
        taken = taken[size:]
    return units, taken


class Device:
    """A device of one class. It does the command of each session once, and answers a session that it has taken as it did then."""

    def __init__(self, kind):
        self.kind = kind
        self.taken, self.status = 0, SUCCESS
        self.value = 0
        self.did = []

    def classes(self):
        return bytes([self.kind, SUPERVISION])

    def hear(self, payload):
        """What it answers: a payload, or nothing."""
        if payload[:2] == bytes([SUPERVISION, 1]) and len(payload) > 4:
            return self.supervised(payload[2] & 0x3F, payload[4 : 4 + payload[3]])
        if payload[:2] == bytes([self.kind, 1]):
            self.value = payload[2]
        if payload[:2] == bytes([self.kind, 2]):
            return bytes([self.kind, 3, self.value & 0xFF])
        return b""

    def supervised(self, session, command):
        if session == (self.taken + 1) % 64:
            self.taken += 1
            self.status = self.do(command)
        elif self.taken == 0 or session != self.taken % 64:
            return b""
        return bytes([SUPERVISION, 2, session, self.status, 0])

    def do(self, command):
        if self.kind == CONFIGURATION and command[:2] == bytes([CONFIGURATION, 4]):
            self.value = int.from_bytes(command[4:], "big")
        elif self.kind != CONFIGURATION and command[:2] == bytes([self.kind, 1]):
            self.value = command[2]
        else:
            return NO_SUPPORT
        self.did.append((self.taken, bytes(command)))
        return SUCCESS


class Chip:
    """The chip and its devices. It sends one frame at a time, and the next once the host has taken that one."""

    def __init__(self, send, devices):
        self.send = send
        self.devices = devices
        self.waiting = collections.deque()
        self.is_busy = False

    def hear(self, unit):
        if unit[0] != SOF:
            if self.is_busy and unit[0] == ACK:
                self.waiting.popleft()
            self.is_busy = False
        elif unit != frame(unit[2], unit[3], unit[4:-1]):
            self.send(bytes([NAK]))
        else:
            self.send(bytes([ACK]))
            self.answer(unit[3], unit[4:-1])
        self.go_on()

    def go_on(self):
        if self.waiting and not self.is_busy:
            self.is_busy = True
            self.send(self.waiting[0])

    def forget(self):
        """What was to be sent is dropped, as at a chip that a new program finds."""
        self.waiting.clear()
        self.is_busy = False

    def respond(self, function, body):
        self.waiting.append(frame(RESPONSE, function, body))

    def notify(self, function, body):
        self.waiting.append(frame(REQUEST, function, body))

    def answer(self, function, body):
        if function == SEND_DATA:
            self.carry(body)
        elif function == VERSION:
            self.respond(function, b"Z-Wave 0.00\x00\x01")
        elif function == MEMORY_ID:
            self.respond(function, [0, 0, 0, 1, CONTROLLER])
        elif function == CAPABILITIES:
            self.respond(function, bytes([1, 0] + [0] * 6) + mask(FUNCTIONS, 32))
        elif function == INIT_DATA:
            self.respond(function, bytes([5, 0, 29]) + mask([CONTROLLER, *self.devices], 29) + bytes([7, 0]))
        elif function == PROTOCOL_INFO:
            self.respond(function, [0x80 if body[0] in (CONTROLLER, *self.devices) else 0, 0, 0, 4, 0, 0])
        elif function == NODE_INFO:
            self.respond(function, [1])
            device = self.devices.get(body[0])
            if device:
                told = bytes([4, 0x10, 1]) + device.classes()
                self.notify(UPDATE, bytes([0x84, body[0], len(told)]) + told)
            else:
                self.notify(UPDATE, [0x81, 0, 0])

    def carry(self, body):
        """A message to a node: whether it was taken, and then what the node says to it."""
        node, length = body[0], body[1]
        payload, callback = body[2 : 2 + length], body[3 + length]
        self.respond(SEND_DATA, [1])
        device = self.devices.get(node)
        if not device:
            self.notify(SEND_DATA, [callback, NO_ACK])
            return
        said = device.hear(payload)
        self.notify(SEND_DATA, [callback, OK])
        if said:
            self.notify(COMMAND_HANDLER, bytes([0, node, len(said)]) + said)


def set_line(terminal):
    """Raw, 115200, and a read of no bytes after a tenth of a second of silence."""
    _, _, cflag, _, _, _, marks = termios.tcgetattr(terminal)
    cflag = cflag & ~(termios.CSIZE | termios.PARENB) | termios.CS8 | termios.CREAD | termios.CLOCAL
    marks[termios.VMIN], marks[termios.VTIME] = 0, 1
    termios.tcsetattr(terminal, termios.TCSANOW, [0, 0, cflag, 0, termios.B115200, termios.B115200, marks])


class Port:
    """A pseudo-terminal with the chip on one end."""

    def __init__(self, devices, tell=print):
        self.ours, self.theirs = os.openpty()
        self.tell = tell
        self.chip = Chip(self.send, devices)
        self.taken, self.last = b"", 0.0

    def send(self, unit):
        self.tell("c", unit.hex().upper())
        os.write(self.ours, unit)

    def turn(self, seconds=0.1):
        """Answers what came; whether something did within that time."""
        if not select.select([self.ours], [], [], seconds)[0]:
            return False
        if time.monotonic() - self.last > REST:
            self.taken = b""
        self.last = time.monotonic()
        units, self.taken = units_of(self.taken + os.read(self.ours, 4096))
        for unit in units:
            self.tell("h", unit.hex().upper())
            self.chip.hear(unit)
        return True


def say(*words):
    print(*words, flush=True)


def make_devices():
    return {node: Device(kind) for node, kind in DEVICES.items()}


def run(words):
    port = Port(make_devices(), say)
    set_line(port.theirs)
    silent = 0.0
    with subprocess.Popen(words, stdin=port.theirs, stdout=port.theirs) as program:
        while silent < (QUIET if program.poll() is not None else LONGEST):
            silent = 0.0 if port.turn() else silent + 0.1
        if program.poll() is None:
            program.kill()
    for node, device in port.chip.devices.items():
        print("device", node, device.value)
    print("status", program.returncode)
    return program.returncode


def stay(link):
    port = Port(make_devices(), say)
    tty.setraw(port.theirs)
    os.symlink(os.ttyname(port.theirs), link)
    for number in (signal.SIGINT, signal.SIGTERM):
        signal.signal(number, lambda *_: sys.exit(0))
    try:
        while True:
            port.turn()
    finally:
        os.unlink(link)


if __name__ == "__main__":
    if len(sys.argv) < 2 or sys.argv[1] == "--at" and len(sys.argv) != 3:
        sys.exit(__doc__)
    sys.exit(stay(sys.argv[2]) if sys.argv[1] == "--at" else run(sys.argv[1:]))
