"""A second model of scripts and their runs, written from the rules of CAN and of bxCAN and not from the program.

`report(script, turn)` gives the report of a script that is no wrong one, and `run(script, turn)` the whole run, which
also tells each attempt to send a frame and each frame that was read. scripts/compare-with-model and
scripts/check-hostile-bus hold the program's reports against it. It is slow, and keeps everything as plain as it can.
It only leaves out bits at which all nodes are idle."""

from collections import deque
from dataclasses import dataclass

import version3
from can_model import DOMINANT, RECESSIVE, Node, frame_text, is_remote, key
from stretches import Stretches


# ---- scripts


def plain(script):
    """The script in one form for all versions, that of version3.plain."""
    if script["version"] == 3:
        return version3.plain(script)
    return {"bits": script["bits"],
            "segments": [{"name": segment["name"], "talkers": [plain_talker(t) for t in segment["talkers"]]}
                         for segment in script["segments"]],
            "controllers": [{"txfp": True} | controller for controller in script["controllers"]],
            "routes": [route | {"rewrite": route.get("rewrite", []) if script["version"] == 2 else [],
                                "every": None, "burst": 1, "queue": None}
                       for route in script["routes"]],
            "faults": [fault | {"until": fault["bit"] + 1} for fault in script.get("faults", [])],
            "aborts": script.get("aborts", [])}


def plain_talker(talker):
    """A talker of version 1 or 2, of which each frame is due at bit 0."""
    return {"name": talker["name"], "on": talker["on"], "queue": [(0, frame) for frame in talker["frames"]]}


# ---- controllers


def images(frame):
    """What filters of 32 and of 16 bits compare."""
    if frame["ext"]:
        standard, extension = frame["id"] >> 18, frame["id"] & 0x3FFFF
    else:
        standard, extension = frame["id"], 0
    ide, rtr = int(frame["ext"]), int(is_remote(frame))
    return (standard << 21 | extension << 3 | ide << 2 | rtr << 1,
            standard << 5 | rtr << 4 | ide << 3 | extension >> 15)


def matches(bank, frame):
    """Of each filter of a bank whether it matches."""
    wide, narrow = images(frame)
    registers = [bank["r1"], bank["r2"]]
    if bank["scale"] == 32:
        if bank["mode"] == "mask":
            return [(wide ^ registers[0]) & registers[1] == 0]
        return [wide == register for register in registers]
    halves = [half for register in registers for half in (register & 0xFFFF, register >> 16)]
    if bank["mode"] == "mask":
        return [(narrow ^ halves[0]) & halves[1] == 0, (narrow ^ halves[2]) & halves[3] == 0]
    return [narrow == half for half in halves]


def chosen_fifo(banks, frame):
    """The FIFO of the chosen filter, if one matches."""
    found = [((bank["scale"] != 32, bank["mode"] != "list", bank["bank"], place), bank["fifo"])
             for bank in banks if bank["active"]
             for place, is_match in enumerate(matches(bank, frame)) if is_match]
    return min(found)[1] if found else None


class Request:
    def __init__(self, route, place, frame):
        self.route, self.number, self.frame = route, place, frame
        self.state, self.abort_asked, self.mailbox = "pending", False, None


class Controller:
    """Filters, two FIFOs of three frames, and three mailboxes, the oldest request first."""

    def __init__(self, controller):
        self.banks, self.goes_by_requests = controller["banks"], controller["txfp"]
        self.fifos, self.accepted, self.overrun = [[], []], [0, 0], [0, 0]
        self.requests = []

    def offer(self, frame):
        fifo = chosen_fifo(self.banks, frame)
        if fifo is None:
            return
        self.accepted[fifo] += 1
        if len(self.fifos[fifo]) < 3:
            self.fifos[fifo].append(frame)
        else:
            self.overrun[fifo] += 1

    def put(self, request):
        """Puts a request into the lowest empty mailbox."""
        request.mailbox = min({0, 1, 2} - {other.mailbox for other in self.requests})
        self.requests.append(request)

    def in_turn(self):
        """The requests in the order in which they would be sent now: what failed before goes on trying."""
        if self.goes_by_requests:
            return self.requests
        return sorted(self.requests, key=lambda r: (r.state != "scheduled", key(r.frame), r.mailbox))

    def next_start(self, bit):
        """The first bit from this one on at which it starts a request, if it is idle; None if there is no request."""
        return bit if self.requests else None

    def start(self):
        """The request that is sent next, if there is one."""
        for request in self.in_turn()[:1]:
            request.state = "transmitting"
            return request
        return None

    def transmitting(self):
        return next((r for r in self.requests if r.state == "transmitting"), None)

    def fail(self):
        """The request that ends with a failed transmission, if its abort was asked for."""
        request = self.transmitting()
        if request is None:
            return None
        request.state = "scheduled"
        if not request.abort_asked:
            return None
        self.requests.remove(request)
        return request


def rewritten(entries, frame):
    """The frame under the new identifier of the first entry that is for its own."""
    for entry in entries:
        if (entry["id"], entry["ext"]) == (frame["id"], frame["ext"]):
            return frame | {"id": entry["new_id"], "ext": entry["new_ext"]}
    return frame


class Route:
    def __init__(self, script, place, controllers, turn):
        route = script["routes"][place]
        self.name, self.fifo, self.rewrites = route["name"], route["fifo"], route["rewrite"]
        self.every, self.burst, self.queue = route["every"] or turn, route["burst"], route["queue"]
        self.source, self.target = controllers[route["from"]], controllers[route["to"]]
        self.aborts = [(a["number"], a["turn"]) for a in script["aborts"] if a["route"] == self.name]
        self.turns, self.released, self.requested, self.hand = 0, 0, 0, deque()
        self.completed, self.aborted = [], []

    def take(self):
        """Takes the next frame out of the FIFO, and numbers it."""
        self.released += 1
        frame = self.source.fifos[self.fifo].pop(0)
        self.hand.append(Request(self, self.released, rewritten(self.rewrites, frame)))

    def may_fill(self):
        """Whether its queue has room for a frame that is in the FIFO."""
        return self.queue is not None and len(self.hand) < self.queue and len(self.source.fifos[self.fifo]) > 0

    def fill(self):
        while self.may_fill():
            self.take()

    def turn(self):
        """One turn. Returns whether it aborted or requested something: else it was idle, or waits."""
        self.turns += 1
        if self.aborts and self.aborts[0][1] <= self.turns and self.aborts[0][0] <= self.requested:
            self.abort(self.aborts.pop(0)[0])
            return True
        if self.queue is None and not self.hand and self.source.fifos[self.fifo]:
            self.take()
        if not self.hand or len(self.target.requests) == 3:
            return False
        request = self.hand.popleft()
        self.requested = request.number
        self.target.put(request)
        return True

    def turns_behind(self, ticks):
        """Its turns behind so many ticks, if they are due."""
        if ticks % self.every == 0:
            left = self.burst
            while left > 0 and self.turn():
                left -= 1

    def is_idle(self):
        """Whether it takes no frame and its turns request none: it has none, or all mailboxes are full."""
        if self.may_fill():
            return False
        if self.hand:
            return len(self.target.requests) == 3
        return not self.source.fifos[self.fifo]

    def turns_to_abort(self):
        """How many turns from now it makes its next abort, if it requests nothing before; None where it makes none."""
        if self.aborts and self.aborts[0][0] <= self.requested:
            return max(1, self.aborts[0][1] - self.turns)
        return None

    def waiting(self):
        return [request for request in self.target.requests if request.route is self]

    def abort(self, place):
        for request in self.waiting():
            if request.number == place:
                self.aborted.append(place)
                if request.state == "transmitting":
                    request.abort_asked = True
                else:
                    self.target.requests.remove(request)

    def line(self):
        waiting = [request.number for request in self.waiting()]
        aborted = set(self.aborted) - set(self.completed) - set(waiting)
        held = len(self.source.fifos[self.fifo]) + len(self.hand) + len(waiting)
        return (f"route {self.name} accepted {self.source.accepted[self.fifo]} overrun {self.source.overrun[self.fifo]}"
                f" released {self.released} completed {len(self.completed)} aborted {len(aborted)} held {held}")


# ---- segments and runs


@dataclass
class Attempt:
    """One transmission of a frame by a node. How it ended stays open where the run ends before."""

    node: str
    start: int  # the bit of its SOF
    first: int  # the first bit that the node drove: that of SOF, or where it joined the one behind
    frame: dict
    state: str  # the error state of the node before it, in which it stays up to its end
    end: int = None
    ending: str = None  # completed, lost, error or off


@dataclass
class Take:
    """What a node read of a frame. How that ended stays open where the run ends before."""

    node: str
    start: int  # the bit of SOF
    end: int = None
    ending: str = None  # took, error, or began where it joined as a sender instead of reading


class Member:
    """A node with its name and what it sends: a talker's queue of instances, or a controller's requests."""

    def __init__(self, name, node, queue=(), controller=None):
        self.name, self.node, self.queue, self.controller = name, node, deque(queue), controller
        self.attempts, self.takes = [], []

    def begin(self, frame, bit):
        if self.node.state == "take":
            self.takes[-1].end, self.takes[-1].ending = bit - 1, "began"
        self.node.begin(frame, bit)
        self.attempts.append(Attempt(self.name, self.node.start, bit, frame, self.node.state_text()))

    def sample(self, level, bit):
        before = self.node.state
        outcomes = self.node.sample(level, bit)
        ended = {"send": self.attempts, "take": self.takes}.get(before)
        if ended and outcomes:
            ended[-1].end, ended[-1].ending = bit, outcomes[0][0]
        if self.node.state == "take" and before != "take":
            self.takes.append(Take(self.name, self.node.start))
        return outcomes

    def next_start(self, bit):
        """The first bit from this one on at which it starts a frame, if it is idle; None if it has none."""
        if self.controller:
            return self.controller.next_start(bit)
        return max(bit, self.queue[0][0]) if self.queue else None

    def next(self, bit):
        """The frame that it sends next, if one is due at this bit, and what a line says of its request."""
        if self.controller is None:
            return (self.queue[0][1], "") if self.queue and self.queue[0][0] <= bit else None
        request = self.controller.start()
        return request and (request.frame, f" {request.route.name} {request.number}")

    def completed(self):
        if self.controller is None:
            self.queue.popleft()
            return ""
        request = self.controller.transmitting()
        self.controller.requests.remove(request)
        request.route.completed.append(request.number)
        return f" {request.route.name} {request.number}"

    def lines(self, outcome):
        """What the report says of an outcome, which goes to the controller's two sides as well."""
        kind = outcome[0]
        if kind == "took":
            if self.controller:
                self.controller.offer(outcome[2])
            return [f"took {outcome[1]} {frame_text(outcome[2])}"]
        if kind == "completed":
            return [f"completed {outcome[1]} {frame_text(outcome[2])}{self.completed()}"]
        reaped = self.controller.fail() if self.controller and kind != "back" else None
        return [" ".join(map(str, outcome))] + ([f"reaped {reaped.route.name} {reaped.number}"] if reaped else [])


class Segment:
    def __init__(self, script, segment, controllers, node):
        self.name = segment["name"]
        self.members = [Member(t["name"], node(t["on"]), queue=t["queue"]) for t in segment["talkers"]]
        self.members += [Member(c["name"], node(c["on"]), controller=controllers[c["name"]])
                         for c in script["controllers"] if c["segment"] == self.name]
        self.line_faults = Stretches([(f["bit"], f["until"], f["level"]) for f in script["faults"]
                                      if "node" not in f and f["segment"] == self.name])
        self.node_faults = {}
        for member in self.members:
            ranges = [(f["bit"], f["until"], True) for f in script["faults"] if f.get("node") == member.name]
            self.node_faults[member.name] = Stretches(ranges)
        self.events = []

    def is_flipped(self, name, bit):
        """Whether this node samples the opposite of the line at this bit."""
        return self.node_faults[name].at(bit) is not None

    def make_bit(self, bit):
        members = [member for member in self.members if member.node.on <= bit]
        for member in members:
            sends = member.next(bit) if member.node.wants_start() else None
            if sends:
                member.begin(sends[0], bit)
                self.tell(bit, member, f"started {frame_text(sends[0])}{sends[1]}")
        line = min([member.node.drive() for member in members], default=RECESSIVE)
        fault = self.line_faults.at(bit)
        line = line if fault is None else fault
        for member in members:
            level = line ^ self.is_flipped(member.name, bit)
            for outcome in member.sample(level, bit):
                for words in member.lines(outcome):
                    self.tell(bit, member, words)

    def idle_until(self, bit, bits):
        """The first bit from this one on that has to be made, or `bits`. Before it all nodes that are on are idle,
        none of them starts, and each samples a recessive level."""
        if self.line_faults.at(bit) == DOMINANT:
            return bit
        changes = [self.line_faults.next_change(bit)]
        for member in self.members:
            if member.node.on > bit:
                changes.append(member.node.on)
            elif member.node.state != "idle" or self.is_flipped(member.name, bit):
                return bit
            else:
                changes += [member.next_start(bit), self.node_faults[member.name].next_change(bit)]
        return min([bits, *(change for change in changes if change is not None)])

    def tell(self, bit, member, words):
        self.events.append(f"{self.name} {bit} {member.name} {words}")

    def attempts(self):
        return [attempt for member in self.members for attempt in member.attempts]

    def takes(self):
        return [take for member in self.members for take in member.takes]

    def lines(self, bits):
        counters = [f"{self.name} node {m.name} tec {m.node.tec} rec {m.node.rec} {m.node.state_text()}"
                    for m in self.members]
        return self.events + counters + [f"{self.name} end {bits}"]


class Run:
    """A script before its first bit, and behind each bit that was made. `node` makes each of its nodes."""

    def __init__(self, script, turn=1, node=Node):
        script = plain(script)
        controllers = {c["name"]: Controller(c) for c in script["controllers"]}
        self.bits = script["bits"]
        self.segments = [Segment(script, segment, controllers, node) for segment in script["segments"]]
        self.routes = [Route(script, place, controllers, turn) for place in range(len(script["routes"]))]

    def make_bit(self, bit):
        for segment in self.segments:
            segment.make_bit(bit)
        for route in self.routes:
            route.fill()
        for route in self.routes:
            route.turns_behind(bit + 1)

    def idle_until(self, bit):
        """The first bit from this one on that has to be made. Before it all segments are idle, no queue is filled, and
        turns of routes neither request nor abort."""
        end = self.bits
        for route in self.routes:
            turns = route.turns_to_abort()
            if not route.is_idle():
                end = bit
            elif turns is not None:
                end = min(end, (bit // route.every + turns) * route.every - 1)
        for segment in self.segments:
            if end > bit:
                end = segment.idle_until(bit, end)
        return end

    def leave_out(self, bit, end):
        """Counts the turns that come from this bit on and before `end`, and makes none of these bits."""
        for route in self.routes:
            route.turns += end // route.every - bit // route.every

    def make_all(self):
        bit = 0
        while bit < self.bits:
            end = self.idle_until(bit)
            if end > bit:
                self.leave_out(bit, end)
            else:
                self.make_bit(bit)
                end += 1
            bit = end

    def report(self):
        lines = [line for segment in self.segments for line in segment.lines(self.bits)]
        return "".join(line + "\n" for line in lines + [route.line() for route in self.routes])


def run(script, turn=1, node=Node):
    """The whole run of a script."""
    result = Run(script, turn, node)
    result.make_all()
    return result


def report(script, turn=1):
    return run(script, turn).report()
