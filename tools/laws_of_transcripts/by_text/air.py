"""What stands for the definitions below the laws of the air and of devices: ages of frames, links and routes, whether a device is awake, and its values."""
from .. import devices
from ..judge import KEY
from ..messages import property_text
from ..routes import Network
from .given import NONE, given, place_of, some
from .values import WORLD, tuple_of

FIRST_NODE, LAST_NODE = 2, 232
# the network key of the run
HELD = {"key": KEY}
NONCE_REPORT, TRANSPORT_SERVICE, SECURITY = (0x98, 0x80), 0x55, 0x98
MOST_SESSIONS, MOST_SESSIONS_OF_SEGMENT, MOST_NONCES = 62, 14, 120


def device(node, kind):
    """A device as it is at entry, as far as these laws go by it."""
    return WORLD.record(("node", "kind", "journal", "key"), (node, kind, (), tuple(HELD["key"])))


def devices_at_entry():
    """The devices of the program."""
    return tuple(device(node, devices.kind_of(node)) for node in range(FIRST_NODE, LAST_NODE + 1))


# ---- ages of frames

@given(1)
def nonce_in(payload):
    """The nonce of a Nonce Report, where a payload is one."""
    return some(payload[2:10]) if payload[:2] == NONCE_REPORT and len(payload) >= 10 else NONE


given(2, "is_news")(lambda before, nonce: before is NONE or before.fields[0] != nonce)


@given(3)
def stale_by(payload, sessions, nonces):
    """Why a frame with so many later sessions and nonces is stale, if it is."""
    if sessions >= (MOST_SESSIONS_OF_SEGMENT if payload[:1] == (TRANSPORT_SERVICE,) else MOST_SESSIONS):
        return some(WORLD.variant("Refusal.Stale", sessions))
    return some(WORLD.variant("Refusal.Stale", nonces)) if payload[:1] == (SECURITY,) and nonces >= MOST_NONCES else NONE


# ---- links and routes

given(2, "link_of")(lambda a, b: WORLD.record(("low", "high"), (min(a, b), max(a, b))))
given(1, "reverse")(lambda items: tuple(reversed(tuple_of(items))))
given(2, "law_wire.specs.Networks.network_of")(lambda links, nodes: WORLD.record(("links", "nodes"), (tuple_of(links), tuple_of(nodes))))
given(1, "device_sim.listens")(lambda kind: kind != devices.SENSOR)


def route(net, node):
    """The route to a node, or None."""
    key = ("network", net)
    if key not in WORLD.made:
        network = WORLD.made[key] = Network()
        for link in net.links:
            network.set_link(link.low, link.high, True)
        for one in net.nodes:
            network.add_repeater(one)
    return WORLD.made[key].route(node)


@given(3, "law_wire.specs.Routes.IsRouteTo")
def is_route_to(net, node, repeaters):
    """Whether these repeaters are the route to a node."""
    found = route(net, node)
    return found is not None and tuple(found) == tuple_of(repeaters)


given(2, "law_wire.specs.Routes.HasNoRoute")(lambda net, node: route(net, node) is None)


# ---- devices

given(2, "law_transcript.specs.Nodes.device_of")(lambda node, _: some(device(node, devices.kind_of(node))) if FIRST_NODE <= node <= LAST_NODE else NONE)


@given(2, "law_wire.specs.Arriving.device_now")
def device_now(past, one):
    """A device as the transcript so far has left it: whether it is awake."""
    from .laws import NAMES
    if one.kind != devices.SENSOR:
        return WORLD.record(("awake",), (True,))
    brought = NAMES.get("law_transcript.specs.Devices.brought").code(one.node, past)
    lived = devices.Clock()
    sensor = devices.Device(one.node, b"", lived)
    for coming in tuple_of(brought):
        lives_until(sensor, lived, coming.ticks)
        if coming.coming.name == "Coming.Woken":
            sensor.wakes()
        elif coming.coming.name == "Coming.Payload" and sensor.awake:
            tuple(sensor.hears(bytes(coming.coming.fields[0])))
    lives_until(sensor, lived, NAMES.get("law_transcript.specs.Devices.lived_by").code(past))
    return WORLD.record(("awake",), (sensor.awake,))


def lives_until(sensor, lived, ticks):
    """Ticks pass in which nothing comes to a sensor."""
    lived.clock = max(ticks, 0)
    if sensor.awake and lived.clock - sensor.last >= devices.ASLEEP_AFTER:
        sensor.awake = False


@given(1)
def shown_of(one):
    """The main property of a device and those that are not 0, in order."""
    main = property_text(devices.Device(one.node, b"").main())
    values = {setting.property: setting.value for change in tuple_of(one.journal) for setting in tuple_of(change.settings)}
    shown = {main} | {which for which, value in values.items() if value}
    return tuple(WORLD.record(("property", "value"), (which, values.get(which, 0))) for which in sorted(shown, key=place_of))


# ---- the laws

FATES, CARRYING, ARRIVING = "law_transcript.specs.Fates.", "law_transcript.specs.Carrying.", "law_wire.specs.Arriving."


def next_after(law, what):
    """A law that says what is to stand next, as a test of an entry behind those before it."""
    def test(*arguments):
        from .laws import NAMES
        *first, past, entry = arguments
        return NAMES.get(ARRIVING + law).code(*first, *what(NAMES, past), entry)
    return test


repeats_what_is_asked = next_after("FollowsRepeat", lambda names, past: (past, names.get("zw_text.specs.Transcript.line_last").code(past)))
forgets_dead_hops = next_after("IsForgotten", lambda names, past: (names.get(ARRIVING + "forgets").code(past),))


def shows_devices(all_devices, past, entry):
    """Directly after a line `show` stand the values of its device."""
    from .laws import NAMES
    shown = "law_wire.specs.Shown."
    return NAMES.get(shown + "IsToShow").code(NAMES.get(shown + "to_show").code(all_devices, past), entry)


OWN = {"by_text.ShowsDevices": shows_devices, "by_text.RepeatsWhatIsAsked": repeats_what_is_asked, "by_text.ForgetsDeadHops": forgets_dead_hops}
TESTS = (
    ("NumbersFrames", FATES + "MayAir", ""), ("FaresInTurn", FATES + "MayFare", ""), ("LosesMarked", FATES + "MayBeMarked", ""),
    ("CarriesUnits", CARRYING + "MaySend", ""), ("BringsWhatWasHeard", CARRYING + "MayBring", ""),
    ("GoesByRoute", "law_wire.specs.Routes.MayGo", "devices"), ("MeetsWhatIsDue", ARRIVING + "MayMeet", "devices"),
    ("LandsInTime", ARRIVING + "MayLand", ""), ("RepeatsWhatIsAsked", "by_text.RepeatsWhatIsAsked", "devices"), ("ForgetsDeadHops", "by_text.ForgetsDeadHops", ""),
    ("ShowsDevices", "by_text.ShowsDevices", "devices"), ("ShowsValues", "law_host.specs.HostLegal.ShowsValues", "listing"),
)
