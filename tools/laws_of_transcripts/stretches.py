"""Calm moments, stretches, and that every command of a stretch is answered in time (docs/LAWS.md)."""
from . import messages, orders
from .devices import FAIL, NO_SUPPORT, SUCCESS, Device, listens, listing_of
from .entries import ORDERS
from .links import CHIP, HOST
from .owed import Broken
from .routes import CONTROLLER

QUIET = ORDERS + ("tick", "cut", "show", "store", "wake")
TICKS_FOR_EACH, TICKS_FOR_ALL, MOST_AT_WORK, MOST_WATCHED = 500, 500, 16, 6
# of a node: before its first session, and for each one, of a node alone and of plain listeners together
TICKS_BEFORE, TICKS_ALONE, TICKS_TOGETHER = 101, 30, 24
WORDS = {SUCCESS: "success", FAIL: "fail", NO_SUPPORT: "nosupport"}


def is_calm(reading):
    """Nothing is under way in the line, the host, the chip, the air and the devices, and no mark is outstanding."""
    return (line_is_calm(reading.line, reading.clock) and host_is_calm(reading.host) and chip_is_calm(reading.world)
            and not any(device.work for device in reading.world.devices.values()))


def line_is_calm(line, clock):
    """Both links are free and both pipes empty, no stall lasts, and no drop, change or collision waits."""
    return (clock >= line.stalled_until and not line.collisions
            and not any(line.sides[side].frame is not None or line.pipes[side] or line.drops[side] or line.changes[side] for side in (HOST, CHIP)))


def host_is_calm(host):
    """No request is under way, queued or owed, no series runs or is due, no interviewed sleeper counts as awake, and each listening
    node with an open session and a waiting command has a series to come."""
    if host.request is not None or host.queue or host.owes_abort:
        return False
    return not any(node.series != "idle" or node.awake and not node.listens and node.classes is not None
                   or node.listens and node.waiting and node.open and not node.series_due > host.clock for node in host.nodes.values())


def chip_is_calm(world):
    """The chip has taken no SendData that it has not ended, owes nothing, and no frame is on the air or to be lost."""
    return not (world.busy or world.owed or world.results or world.waiting or world.flying or world.losses or world.deaf)


def is_ready(reading, number):
    """The host knows the node as it is, and it is reached over live links both ways."""
    node, world = reading.host.nodes.get(number), reading.world
    if node is None or not node.joined or not 2 <= number <= 232:
        return False
    if node.classes != listing_of(number) or node.listens != listens(number):
        return False
    route = world.table.route(number)
    if route is None or world.air.route(number) is None:
        return False
    way = [CONTROLLER] + route + [number]
    return all(world.air.has(*hop) for hop in zip(way, way[1:]))


def lists_a_layer(number):
    """A node lists Transport Service or Security 0."""
    return 0x55 in listing_of(number) or 0x98 in listing_of(number)


def is_plain_listener(number):
    """A node that listens and lists neither."""
    return listens(number) and not lists_a_layer(number)


def is_plain_sleeper(number):
    """A node that sleeps and lists neither."""
    return not listens(number) and not lists_a_layer(number)


def judged_like(device):
    """A device with the values of another, on which commands may be tried."""
    copy = Device(device.node, device.key)
    copy.values, copy.status = dict(device.values), SUCCESS
    return copy


def verdict(device, command):
    """The outcome that a device's kind gives a command on its values, which are then those after it."""
    text = orders.message_of(command.order, command.asked, 1)
    status, settings = device.judged(messages.opened(text))
    if status == SUCCESS:
        device.values.update(settings)
    return WORDS[status]


class Stretch:
    """A stretch that began in a calm moment: the commands at work in it, and how long it has waited since its last order or `wake` line."""

    def __init__(self, reading, at):
        self.at, self.waited = at, 0
        self.commands = {number: list(node.waiting) for number, node in reading.host.nodes.items() if node.waiting}
        self.ready = {number: is_ready(reading, number) for number in reading.host.nodes}
        self.devices = {number: judged_like(reading.world.device(number)) for number in reading.host.nodes if 2 <= number <= 232}
        self.woken, self.ticks, self.last, self.judged = [], 0, {}, {}
        self.is_over = False

    def runs(self, words):
        """A further line of the stretch; another one ends it."""
        if words[0] not in QUIET:
            self.is_over = True
        elif words[0] == "wake":
            self.woken.append(int(words[1]))
            self.waited = 0
            self.last[int(words[1])] = self.ticks
        elif words[0] in ORDERS:
            node = orders.order_of(words).node
            self.waited = 0
            self.last[node] = self.ticks
            self.is_over = self.is_over or node in self.woken

    def accepts(self, number, node):
        """A command is accepted in it."""
        self.commands.setdefault(node, []).append(number)

    def is_stretch(self):
        """At most 16 nodes at work, all ready, each that does not listen woken once, and no other one."""
        workers = list(self.commands)
        sleepers = sorted(node for node in workers if not listens(node))
        return (not self.is_over and len(workers) <= MOST_AT_WORK and all(self.ready.get(node) for node in workers)
                and sorted(self.woken) == sleepers)

    def is_due(self):
        """Whether each command must have its answer now: plain listeners alone at work, one node that sleeps and is plain, or one of any kind."""
        count = sum(len(commands) for commands in self.commands.values())
        if not count or not self.is_stretch():
            return False
        is_alone = len(self.commands) == 1
        if all(is_plain_listener(node) or is_alone and is_plain_sleeper(node) for node in self.commands):
            return self.waited >= TICKS_FOR_ALL
        return is_alone and self.waited >= TICKS_FOR_EACH * count

    def due_nodes(self):
        """The nodes whose commands must have their answers by now, by the ticks since the last order or `wake` line of each."""
        if not self.is_stretch():
            return []
        is_alone = len(self.commands) == 1
        if not is_alone and not all(is_plain_listener(node) for node in self.commands):
            return []
        ticks = TICKS_ALONE if is_alone else TICKS_TOGETHER
        return [node for node, numbers in self.commands.items() if numbers and self.judged.get(node) != len(numbers)
                and self.ticks - self.last.get(node, 0) >= TICKS_BEFORE + ticks * (len(numbers) + 1)]

    def judge(self, commands, nodes, law):
        """Each command of these nodes has the final outcome that its device's kind says."""
        for node in nodes:
            device = judged_like(self.devices[node])
            self.judged[node] = len(self.commands[node])
            for number in self.commands[node]:
                outcome, wanted = commands[number - 1].outcome, verdict(device, commands[number - 1])
                if outcome != wanted:
                    raise Broken(law, "command %d has `%s` where `%s` is due, in the stretch from line %d on" % (number, outcome, wanted, self.at))


class Stretches:
    """Watches a transcript of `sim` for calm moments and the stretches behind them."""

    def __init__(self, reading):
        self.reading, self.watched, self.judged, self.nodes_judged = reading, [], 0, 0

    def line(self, words, at):
        """A line is about to run: before it the moment may be calm."""
        if words[0] in QUIET and len(self.watched) < MOST_WATCHED and is_calm(self.reading):
            self.watched.append(Stretch(self.reading, at))
        for stretch in self.watched:
            stretch.runs(words)
        self.watched = [stretch for stretch in self.watched if not stretch.is_over]

    def entry(self, entry):
        """An entry: a command is accepted, or the keeper fails and so ends all stretches."""
        if entry.kind == "accepted":
            for stretch in self.watched:
                stretch.accepts(*entry.fields)
        elif entry.kind == "unkept" or entry.kind == "refused" and entry.fields == ("keeperfault",):
            self.watched = []

    def done(self, ticks):
        """A line is done, with so many ticks."""
        going = []
        for stretch in self.watched:
            stretch.waited += ticks
            stretch.ticks += ticks
            nodes = stretch.due_nodes() if ticks else []
            stretch.judge(self.reading.host.commands, nodes, "AnswersEach")
            self.nodes_judged += len(nodes)
            if ticks and stretch.is_due():
                stretch.judge(self.reading.host.commands, list(stretch.commands), "AnswersInTime")
                self.judged += 1
            else:
                going.append(stretch)
        self.watched = going
