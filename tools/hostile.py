"""Scripts whose faults are aimed: at the ends of frames, at flags, at joins, at bus off and its recovery.

Each of the KINDS of scripts draws nodes with their frames, and has a plot (tools/sabotage.py) put the faults in. t0 is
the sender that it is about."""

import json

import draws
import draws3
import model
from can_model import DOMINANT, RECESSIVE, wire
from sabotage import sabotaged, until, wait
from situations import END, place_in_end

OPEN = {"bank": 0, "scale": 32, "mode": "mask", "fifo": 0, "active": True, "r1": 0, "r2": 0}


def nodes(bits, *queues):
    """One segment with a talker for each of these lists of frames; one without frames is a listener."""
    talkers = [{"name": f"t{place}", "on": 0, "frames": frames} for place, frames in enumerate(queues)]
    return {"version": 1, "bits": bits, "segments": [{"name": "s0", "talkers": talkers}],
            "controllers": [], "routes": [], "faults": [], "aborts": []}


def with_gateway(draw, script, frames):
    """A second segment, to which a gateway carries over what it takes on the first one."""
    script["segments"].append({"name": "s1", "talkers": [{"name": "u0", "on": 0, "frames": frames},
                                                         {"name": "u1", "on": 0, "frames": []}]})
    script["controllers"] = [{"name": f"c{place}", "segment": f"s{place}", "on": 0, "txfp": draw.random() < 0.7,
                              "banks": [OPEN]} for place in (0, 1)]
    script["routes"] = [{"name": "r0", "from": "c0", "fifo": 0, "to": "c1"}]
    if draw.random() < 0.3:
        script["routes"].append({"name": "r1", "from": "c1", "fifo": 0, "to": "c0"})
    return script


def some_frames(draw, least, most):
    return [draws.frame(draw, 0.5, 0.5) for _ in range(draw.randint(least, most))]


def climb(bus, tec):
    """The sender's TEC rises to at least this, since its line is recessive: not even its SOF comes through."""
    yield from bus.hold(RECESSIVE, lambda: bus.nodes["t0"].tec < tec)


def strike_end(bus, sender, struck):
    """Faults in the end of the sender's next frame: at these places, each with a node or "line"."""
    node = bus.nodes[sender]
    yield from until(lambda: node.state == "send" and place_in_end(node) == 0)
    for place in END:
        if struck.get(place) == "line":
            bus.line(RECESSIVE if place == "ACK slot" else DOMINANT, sender)
        elif place in struck:
            bus.flip(struck[place])
        yield


def some_strikes(draw, whose):
    # the later ones twice, since fewer frames come there
    places = draw.sample(END + END[5:], draw.choice([1, 1, 1, 1, 2, 3]))
    return {place: draw.choice(whose) for place in places}


def frame_ends(draw, kind, extended, remote):
    """The sender is error active, perhaps for just one error more; or error passive, since its line was recessive, or
    since it was alone and nobody acknowledged sixteen attempts."""
    first = draws.frame(draw, extended, remote)
    script = nodes(5000, [first, *some_frames(draw, 8, 8)], some_frames(draw, 0, 1), [])
    if kind == "alone":
        # an attempt without acknowledgement ends in the ACK slot; flag, delimiter and intermission follow
        attempt = len(wire(first)) + 9
        for talker in script["segments"][0]["talkers"][1:]:
            talker["on"] = 16 * attempt + draw.randrange(attempt)

    def plot(bus):
        if kind == "alone":
            yield from until(lambda: bus.nodes["t0"].is_passive() and bus.nodes["t2"].state == "take")
        else:
            yield from climb(bus, 128 if kind == "passive" else draw.choice([0, 0, 120]))
        for _ in range(draw.randint(4, 9)):
            yield from strike_end(bus, "t0", some_strikes(draw, ["line", "line", "t0", "t0", "t1", "t2"]))

    return sabotaged(draw, script, plot)


def met(draw, kind):
    """Two frames that meet in arbitration, and are equal for long there."""
    one = draws.frame(draw, 0.4, 0)
    other = dict(one)
    if kind == "bytes":
        other["data"] = [draw.randrange(256) for _ in range(draw.randint(0, 8))]
    if kind == "remote":
        other = {"id": one["id"], "ext": one["ext"], "remote": draw.randint(0, 8)}
    if kind in ("formats", "lower"):
        base = one["id"] >> 18 if one["ext"] else one["id"]
        other = {"id": base << 18 | draw.randrange(2**18), "ext": True, "data": one["data"]}
        if kind == "formats":
            one = draws.frame(draw, 0, 0.5) | {"id": base}
        else:
            one = other | {"id": other["id"] ^ 1 << draw.randrange(18)}
    return draw.sample([one, other], 2)


def joins(draw, kind):
    """Behind the first frame both others join."""
    one, other = met(draw, kind)
    opening = {"id": 0, "ext": False, "data": []}
    script = nodes(1500, [opening, *some_frames(draw, 0, 1)], [one, *some_frames(draw, 0, 1)], [other], [])

    def plot(bus):
        yield from climb(bus, draw.choice([0, 0, 0, 128]))
        for _ in range(draw.randint(1, 4)):
            yield from until(lambda: any(n.state == "intermission" and n.count == 2 for n in bus.nodes.values()))
            bus.line(DOMINANT)
            yield

    return sabotaged(draw, script, plot)


def started_together(draw, kind):
    one, other = met(draw, kind)
    script = nodes(400, [one, *some_frames(draw, 0, 1)], [other, *some_frames(draw, 0, 1)], [])

    def plot(bus):
        if draw.random() < 0.5:
            yield from strike_end(bus, draw.choice(["t0", "t1"]), some_strikes(draw, ["line", "t0", "t1", "t2"]))
        else:
            yield from wait(draw.randint(100, 300))

    return sabotaged(draw, script, plot)


def meet_error(draw, bus):
    """An error of the sender or of a receiver, behind the arbitration field."""
    node = bus.nodes["t0"]
    yield from until(lambda: node.state == "send" and node.wire[node.place][1] == "behind")
    yield from wait(draw.randint(0, 15))
    bus.flip(draw.choice(["t0", "t1"]))
    yield


def overload(draw, bus):
    """An overload flag of all nodes, in the intermission behind a frame of the sender."""
    node, place = bus.nodes["t0"], draw.randint(0, 1)
    yield from until(lambda: node.state == "intermission" and node.is_sender and node.count == place)
    bus.line(DOMINANT)
    yield


def broken_flags(draw, cause, name):
    """Flags are broken by a recessive sample, and dominant ones follow: as many as count, or one less."""
    script = nodes(900, some_frames(draw, 2, 4), [])

    def plot(bus):
        node = bus.nodes[name]
        for _ in range(3):
            count = draw.randrange(6)
            yield from cause(draw, bus)
            yield from until(lambda: node.state == "active flag" and node.count == count)
            bus.force(draw, RECESSIVE, name)
            yield
            for _ in range(draw.choice([13, 14, 21, 21, 22, 29])):
                bus.line(DOMINANT)
                yield

    return sabotaged(draw, script, plot)


def overload_delimiters(draw, counts):
    """Behind a sender's overload flags one delimiter bit is dominant, the sixth or eighth."""
    script = nodes(700, some_frames(draw, 1, 2), [])

    def plot(bus):
        node = bus.nodes["t0"]
        yield from climb(bus, draw.choice([0, 0, 100, 128]))
        for count in counts:
            yield from overload(draw, bus)
            yield from until(lambda: node.state == "delimiter" and node.count == count - 1)
            bus.force(draw, DOMINANT, "t0")
            yield

    return sabotaged(draw, script, plot)


def off_behind_overload(draw, level):
    """The TEC is 248 or more when an overload flag begins in the delimiter behind an error. Then a recessive flag bit
    counts, or a run of dominant bits."""
    script = nodes(800, some_frames(draw, 1, 2), *[[]] * draw.randint(0, 1))

    def plot(bus):
        node, count = bus.nodes["t0"], draw.randrange(6)
        yield from climb(bus, 248)
        yield from until(lambda: node.state == "delimiter" and node.count == 7)
        bus.force(draw, DOMINANT, "t0")
        yield
        yield from until(lambda: node.state == "active flag" and node.count == count)
        if level == RECESSIVE:
            bus.force(draw, RECESSIVE, "t0")
            yield
        else:
            yield from bus.hold(DOMINANT, lambda: not node.is_off())

    return sabotaged(draw, script, plot)


def off_behind_error(draw):
    """The line stays dominant behind the arbitration field."""
    script = nodes(600, some_frames(draw, 1, 2), *[[]] * draw.randint(0, 1))

    def plot(bus):
        node = bus.nodes["t0"]
        yield from climb(bus, draw.choice([0, 50, 100]))
        yield from until(lambda: node.state == "send" and node.wire[node.place][1] == "behind")
        yield from bus.hold(DOMINANT, lambda: not node.is_off())

    return sabotaged(draw, script, plot)


def off_by_owed_error(draw):
    """A sender that is error passive is not acknowledged, and its TEC is 248 or more when its flag samples a dominant
    level."""
    script = nodes(800, some_frames(draw, 1, 2), *[[]] * draw.randint(0, 1))

    def plot(bus):
        node, count = bus.nodes["t0"], draw.randrange(6)
        yield from climb(bus, draw.choice([240, 248]))
        while not node.is_off():
            yield from until(lambda: node.state == "send" and place_in_end(node) == 0)
            if "t1" in bus.nodes:
                bus.force(draw, RECESSIVE, "t0")
            yield
            yield from until(lambda: not node.owes or node.count == count)
            if node.owes:
                bus.force(draw, DOMINANT, "t0")
                yield

    return sabotaged(draw, script, plot)


def recovery(draw):
    """In bus off some runs of recessive bits are broken; then the node comes back."""
    script = nodes(6000, some_frames(draw, 1, 3), *[some_frames(draw, 0, 1)] * draw.randint(0, 1))

    def plot(bus):
        node = bus.nodes["t0"]
        yield from bus.hold(RECESSIVE, lambda: not node.is_off())
        for count in draw.sample([6, 8, 10], 3):
            runs = node.runs + draw.choice([0, 1, 1, 40])
            yield from until(lambda: not node.is_off() or node.runs >= runs and node.count == count)
            bus.force(draw, DOMINANT, "t0")
            yield
        yield from until(lambda: not node.is_off())

    return sabotaged(draw, script, plot)


def passive_receiver(draw):
    """A dominant line makes the listeners error passive, before the sender is on. Then the sample in an own ACK slot is
    turned over."""
    script = nodes(800, some_frames(draw, 1, 2), [], *[[]] * draw.randint(0, 1))
    script["segments"][0]["talkers"][0]["on"] = draw.randint(100, 200)

    def plot(bus):
        node = bus.nodes["t1"]
        yield from until(lambda: node.state == "idle")
        yield from bus.hold(DOMINANT, lambda: not node.is_passive())
        for _ in range(draw.randint(1, 2)):
            yield from until(lambda: node.state == "take" and node.drive() == DOMINANT)
            bus.flip("t1")
            yield

    return sabotaged(draw, script, plot)


def aborts(draw, fails):
    """Requests of a controller are to be given up while it transmits. Then they fail, or not."""
    script = with_gateway(draw, nodes(1500, some_frames(draw, 2, 6), []), some_frames(draw, 0, 2))

    def plot(bus):
        controller = bus.run.routes[0].target
        for _ in range(draw.randint(1, 3)):
            yield from until(controller.transmitting)
            request = controller.transmitting()
            yield from wait(draw.randint(0, 30))
            bus.abort(request)
            yield from until(lambda: request.abort_asked or request not in controller.requests)
            yield from wait(draw.randint(0, 5))
            if fails:
                bus.flip("c1")
            yield from until(lambda: request not in controller.requests)

    return sabotaged(draw, script, plot, draw.choice([1, 1, 10]))


def gateways(draw):
    """Copies are carried over, while frames on both sides are struck."""
    script = with_gateway(draw, nodes(2000, some_frames(draw, 3, 8), some_frames(draw, 0, 3)), some_frames(draw, 0, 4))
    # copies wait for a controller that comes late
    script["controllers"][1]["on"] = draw.choice([0, draw.randint(100, 700)])

    def plot(bus):
        for _ in range(draw.randint(1, 6)):
            if draw.random() < 0.5:
                yield from strike_end(bus, "t0", some_strikes(draw, ["line", "t0", "t1", "c0"]))
            else:
                yield from strike_end(bus, "c1", some_strikes(draw, ["line", "c1", "u0", "u1"]))

    return sabotaged(draw, script, plot, draw.choice([1, 10, 100]))


def perturb(draw, script, turn):
    """Faults are moved, left out or put anywhere, and requests aborted; or not."""
    faults, last = script["faults"], script["bits"] - 1
    for _ in range(draw.choice([0, 0, 1, 3])):
        change = draw.choice(["move", "leave out", "add"])
        if change == "add":
            faults.append(draws.fault(draw, script))
        elif faults:
            # the last ones: those before may only bring counters up
            fault = faults.pop(draw.randrange(max(0, len(faults) - 6), len(faults)))
            if change == "move":
                faults.append(fault | {"bit": min(last, max(0, fault["bit"] + draw.randint(-2, 2)))})
    if script["routes"] and draw.random() < 0.3:
        script["aborts"].append(draws.abort(draw, script, turn))


# what a run draws in turn
KINDS = [
    *[(frame_ends, kind, extended, remote)
      for kind in ("active", "passive", "alone") for extended in (0, 1) for remote in (0, 1)],
    *[(joins, kind) for kind in ("remote", "formats", "remote", "lower", "remote", "equal", "remote")],
    *[(started_together, kind) for kind in ("equal", "bytes", "formats", "remote")],
    *[(broken_flags, cause, name) for cause in (meet_error, overload) for name in ("t0", "t1")] * 2,
    *[(overload_delimiters, counts) for counts in ([6], [8], [8, 6, 8, 6])],
    *[(off_behind_overload, level) for level in (RECESSIVE, DOMINANT)] * 2,
    *[(aborts, fails) for fails in (True, False)] * 2,
    *[(make,) for make in (off_behind_error, off_by_owed_error, recovery, passive_receiver, gateways)] * 2,
    (off_by_owed_error,)]


def ranges(places):
    """The ranges (first, end) of bits that follow each other."""
    found = []
    for bit in sorted(places):
        if found and found[-1][1] == bit:
            found[-1][1] = bit + 1
        else:
            found.append([bit, bit + 1])
    return found


def lasting_faults(faults):
    """These faults of single bits as ranges."""
    at_nodes, on_lines, places = {}, {}, {}
    for fault in faults:
        if "node" in fault:
            at_nodes.setdefault(fault["node"], set()).add(fault["bit"])
        else:
            on_lines[fault["segment"], fault["bit"]] = fault["level"]
    for (segment, bit), level in on_lines.items():
        places.setdefault((segment, level), set()).add(bit)
    return [*({"node": node, "bit": first, "until": end}
              for node, bits in at_nodes.items() for first, end in ranges(bits)),
            *({"segment": segment, "bit": first, "until": end, "level": level}
              for (segment, level), bits in places.items() for first, end in ranges(bits))]


def put_dues(draw, script, turn):
    """Gives the frames of talkers bits at which they are due, in the order of their queues. Half of the scripts keep
    their reports: a frame is due at the bit at which it is first started, or up to some bits before."""
    keeps_report = draw.random() < 0.5
    for segment, made in zip(script["segments"], model.run(script, turn).segments):
        for talker, member in zip(segment["talkers"], made.members):
            starts = [attempt.first for place, attempt in enumerate(member.attempts)
                      if place == 0 or member.attempts[place - 1].ending == "completed"]
            due = 0
            for place, frame in enumerate(talker["frames"]):
                start = starts[place] if place < len(starts) else script["bits"] - 1
                latest = start if keeps_report else min(script["bits"] - 1, start + draw.choice([1, 4, 20]))
                due = max(due, latest - draw.choice([0, 0, 1, 3, 4, 30, latest]))
                frame["at"] = due


def as_version_3(draw, script, turn):
    """The script as one of version 3, with faults that last and frames that are due later."""
    # frames may be shared by several talkers
    script = draws3.as_version_3(draw, json.loads(json.dumps(script)))
    put_dues(draw, script, turn)
    script["faults"] = lasting_faults(script["faults"])
    return draws3.written(draw, script)


def drawn(draw, place, has_version_3=False):
    """The script of this place in a run, and how many bits lie between two turns of a route. The first one of each kind
    stays as it was aimed. With version 3, every other round of kinds after the first one is of that version."""
    make, *arguments = KINDS[place % len(KINDS)]
    script, turn = make(draw, *arguments)
    if place >= len(KINDS):
        perturb(draw, script, turn)
    if has_version_3 and place // len(KINDS) % 2 == 1:
        script = as_version_3(draw, script, turn)
    return script, turn
