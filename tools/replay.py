"""Replays the report on a run in threads by the second model of the gateway (tools/model.py).

Which of a route's turns fall between which bits is left to the machine, so a run in threads has no one report. What a
controller starts, and at which bit, and which of its requests is given up is therefore taken from the report; every
other line must come out as the model makes it from that, and each route's numbers must be those of its lines.
`differences(script, text)` tells where they are not."""

import bisect

from model import Controller, Request, Segment, chosen_fifo, plain, rewritten


def frame_of(words):
    """The frame that these words of a line tell, and the words behind it."""
    identifier, kind, rest = words[0], words[1], words[2]
    frame = {"id": int(identifier, 16), "ext": len(identifier) == 8}
    if kind == "remote":
        frame["remote"] = int(rest)
    else:
        frame["data"] = [] if rest == "-" else list(bytes.fromhex(rest))
    return frame, words[3:]


class Told:
    """What a report tells of a controller that turns decide: its starts and what was given up, by bit."""

    def __init__(self):
        self.starts, self.ends = {}, {}

    def add(self, bit, words):
        if words[0] == "started":
            frame, (route, number) = frame_of(words[1:])
            self.starts[bit] = Request(route, int(number), frame)
        elif words[0] == "reaped":
            self.ends[bit] = (words[1], int(words[2]))


class Sender(Controller):
    """A controller that starts what it is told, and keeps what its FIFOs were offered."""

    def __init__(self, controller, told):
        super().__init__(controller)
        self.name, self.told, self.now = controller["name"], told, None
        self.start_bits = sorted(told.starts)
        self.taken, self.started, self.done, self.given_up = [[], []], [], [], []
        self.on_bus, self.ends, self.faults = None, {}, []

    def offer(self, frame):
        fifo = chosen_fifo(self.banks, frame)
        if fifo is not None:
            self.taken[fifo].append(frame)

    def next_start(self, bit):
        place = bisect.bisect_left(self.start_bits, bit)
        return self.start_bits[place] if place < len(self.start_bits) else None

    def start(self):
        request = self.told.starts.get(self.now)
        if request is not None:
            self.started.append((self.now, request))
            self.on_bus = request
            # the lines name a request by its route's name
            request.route = Named(request.route) if isinstance(request.route, str) else request.route
        return request

    def transmitting(self):
        return self.on_bus

    def ended_before(self, bit):
        return {label for label, end in self.ends.items() if end < bit}

    def fail(self):
        request, self.on_bus = self.on_bus, None
        end = self.told.ends.get(self.now)
        if request is None or end is None:
            return None
        if (request.route.name, request.number) != end:
            self.faults.append(f"{self.name} {self.now}: it gives up what it wasn't sending")
            return None
        self.given_up.append(end)
        self.ends[end] = self.now
        return request


class Named:
    """A route, of which lines tell the name and what was completed."""

    def __init__(self, name):
        self.name, self.completed = name, []


class Done(list):
    """The requests of a controller, from which those that were sent are taken out."""

    def __init__(self, sender):
        super().__init__()
        self.sender = sender

    def remove(self, request):
        label = (request.route.name, request.number)
        self.sender.done.append(label)
        self.sender.ends[label] = self.sender.now
        self.sender.on_bus = None


class Replayed(Segment):
    def make_bit(self, bit):
        for member in self.members:
            if member.controller:
                member.controller.now = bit
        super().make_bit(bit)


def told_of(script, lines):
    told = {c["name"]: Told() for c in script["controllers"]}
    for line in lines:
        words = line.split()
        if len(words) > 3 and words[1].isdigit() and words[2] in told and words[0] != "route":
            told[words[2]].add(int(words[1]), words[3:])
    return told


def replayed_lines(script, senders):
    from can_model import Node
    lines = []
    for segment in script["segments"]:
        replayed = Replayed(script, segment, senders, Node)
        bit = 0
        while bit < script["bits"]:
            replayed.make_bit(bit)
            bit = replayed.idle_until(bit + 1, script["bits"])
        lines += replayed.lines(script["bits"])
    return lines


def in_order(sender, asked):
    """A failed request goes out again and again until it is sent or given up, and none goes out that is over. Where the
    priority is the order of requests, they go out in the order of their numbers."""
    faults, frames, over = [], {}, set(sender.done) | set(sender.given_up) | asked
    previous = None
    for bit, request in sender.started:
        name, number = label = (request.route.name, request.number)
        if previous not in (None, label) and previous not in over:
            faults.append(f"{sender.name} {bit}: {previous} was neither sent nor aborted, and {label} is started")
        if sender.goes_by_requests and any((name, lower) not in over for lower in range(1, number)):
            faults.append(f"{sender.name} {bit}: {label} overtakes another")
        if frames.setdefault(label, request.frame) != request.frame:
            faults.append(f"{sender.name} {bit}: {label} has another frame than before")
        if label != previous and label in sender.ended_before(bit):
            faults.append(f"{sender.name} {bit}: {label} was over")
        previous = label
    return faults


def could_be(frames, taken, overrun):
    """Whether these frames, by number, may have left a FIFO that was offered the others and discarded so many."""
    place, discarded, expected = 0, 0, 1
    for number in sorted(frames):
        # those between were released too: as few as possible of the taken ones are used for them
        place += number - expected
        while place < len(taken) and taken[place] != frames[number]:
            place, discarded = place + 1, discarded + 1
        if place >= len(taken) or discarded > overrun:
            return False
        place, expected = place + 1, number + 1
    return True


def route_faults(script, place, senders, line):
    route = script["routes"][place]
    name, source, target = route["name"], senders[route["from"]], senders[route["to"]]
    words = line.split()
    if words[:2] != ["route", name] or words[2::2] != ["accepted", "overrun", "released", "completed", "aborted",
                                                        "held"]:
        return [f"{line}: no line of route {name}"]
    accepted, overrun, released, completed, aborted, held = map(int, words[3::2])
    taken = [rewritten(route["rewrite"], frame) for frame in source.taken[route["fifo"]]]
    frames = {r.number: r.frame for _, r in target.started if r.route.name == name}
    done = [number for label, number in target.done if label == name]
    given_up = {number for label, number in target.given_up if label == name}
    asked = {a["number"] for a in script["aborts"] if a["route"] == name}
    wrong = {
        "accepted": accepted != len(taken),
        "completed": completed != len(done) or len(set(done)) != len(done),
        "the equation": accepted != completed + aborted + overrun + held,
        "released": not max(frames, default=0) <= released <= accepted - overrun,
        "overrun": overrun > max(0, accepted - 3),
        "aborted": not len(given_up) <= aborted <= len(asked) or not given_up <= asked,
        "held": held > 3 + (route["queue"] or 1) + 3,
        "frames": not could_be(frames, taken, overrun),
    }
    if target.goes_by_requests:
        wrong["order"] = done != sorted(done)
        skipped = sorted(set(range(1, max(done, default=0))) - set(done))
        wrong["left out"] = any(number not in asked for number in skipped)
    return [f"route {name}: {what}" for what, is_wrong in wrong.items() if is_wrong]


def differences(script, text):
    script, lines = plain(script), text.splitlines()
    told = told_of(script, lines)
    senders = {c["name"]: Sender(c, told[c["name"]]) for c in script["controllers"]}
    for sender in senders.values():
        sender.requests = Done(sender)
    expected = replayed_lines(script, senders)
    count = len(script["routes"])
    said = lines[:len(lines) - count]
    found = []
    if said != expected:
        place = next((i for i, pair in enumerate(zip(said, expected)) if pair[0] != pair[1]),
                     min(len(said), len(expected)))
        found.append(f"line {place}: {said[place:place + 1]} where the model has {expected[place:place + 1]}")
    asked = {(a["route"], a["number"]) for a in script["aborts"]}
    for sender in senders.values():
        found += sender.faults + in_order(sender, asked)
    for place in range(count):
        found += route_faults(script, place, senders, lines[len(lines) - count + place])
    return found
