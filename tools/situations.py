"""The situations that hostile scripts are aimed at, by name, and how often a run of the model comes to each."""

import itertools
from collections import Counter

from can_model import DOMINANT, RECESSIVE, Node, wire

# the end of a frame, from the ACK slot on
END = ["ACK slot", "ACK delimiter", *(f"EOF bit {n}" for n in range(1, 8)),
       *(f"intermission bit {n}" for n in range(1, 4))]
AFTER_WIRE = END.index("intermission bit 1")


def place_in_end(node):
    """Where a sender stands in the end of its frame before it samples; below 0 where it hasn't come there."""
    return node.place - (len(node.wire) - AFTER_WIRE)


def times_counted(run):
    """How often a run of dominant bits counts, from the start of an active flag: the 14th, and each eighth behind."""
    return max(0, (run - 6) // 8)


class Watched(Node):
    """A node that notes what it comes through."""

    def __init__(self, on):
        super().__init__(on)
        self.reached = []  # names of situations
        self.ends = []  # of its own frames: bit, place in END, frame, error state
        self.own_slots = []  # bits at which it was error passive, acknowledged, and sampled recessive
        self.completed_at = None
        self.whole_run = 0  # of dominant bits from a flag's start on, also across recessive ones in the flag
        self.broken_runs = []  # of recessive bits in bus off: after how many

    def sample(self, level, bit):
        before = self.state
        self.note_end(bit)
        if before == "take" and self.is_passive() and self.drive() == DOMINANT and level == RECESSIVE:
            self.own_slots.append(bit)
        # one method for some of the states
        look = getattr(self, "look_at_" + before.replace(" ", "_"), None)
        if look:
            look(level)
        outcomes = super().sample(level, bit)
        for outcome in outcomes:
            if outcome[0] == "completed":
                self.completed_at = bit
            elif outcome[0] == "off":
                self.note_off(before, level)
            elif outcome[0] == "back":
                self.reached += [f"back from bus off, with a run broken after {count}" for count in self.broken_runs]
                self.broken_runs = []
        return outcomes

    def note_end(self, bit):
        if self.state == "send" and place_in_end(self) >= 0:
            place = place_in_end(self)
        elif self.state == "intermission" and self.completed_at == bit - 1 - self.count:
            place = AFTER_WIRE + self.count
        else:
            return
        self.ends.append((bit, END[place], self.frame, self.state_text()))

    def look_at_active_flag(self, level):
        self.whole_run = (0 if self.count == 0 else self.whole_run) + (level == DOMINANT)

    def flag_text(self):
        return "overload flag" if self.is_overload else "active error flag"

    def role_text(self):
        return "sender" if self.is_sender else "receiver"

    def look_at_delimiter(self, level):
        if self.count == 0 and self.first == 14:
            if level == DOMINANT:
                self.whole_run += 1
            elif 0 < times_counted(self.run) < times_counted(self.whole_run):
                self.reached.append(f"a run of 14 counted anew in a {self.role_text()}'s broken {self.flag_text()}")
        if self.count in (5, 7) and level == DOMINANT and self.is_overload and self.is_sender:
            self.reached.append(f"delimiter bit {self.count + 1} dominant behind a sender's overload flag")

    def look_at_off(self, level):
        if level == DOMINANT and self.count in (6, 8, 10):
            self.broken_runs.append(self.count)

    def note_off(self, before, level):
        """It went off with this level, which it sampled in this state."""
        if before == "active flag" and level == RECESSIVE:
            self.reached.append(f"bus off in an {self.flag_text()} by a flag bit")
        elif before == "delimiter" and self.first == 14:
            self.reached.append(f"bus off behind an {self.flag_text()} by a dominant run")
        elif before == "passive flag":
            self.reached.append("bus off in a passive flag by an owed error")


WHOSE = ["a node fault of the sender", "a node fault of a receiver", "a line fault"]
FORMS = [f"{form} {kind} frame" for form in ("standard", "extended") for kind in ("data", "remote")]
STATES = ["active", "passive"]

NAMES = [
    *(f"{whose} at {place}" for place in END for whose in WHOSE),
    *(f"{whose} in the end of an error {state} sender's {form}"
      for form in FORMS for state in STATES for whose in WHOSE),
    "sixteen attempts without acknowledgement make a sender error passive",
    "joined behind a dominant third intermission bit",
    "joined so and lost in an extended frame",
    "joined so and lost at RTR of a standard frame",
    *(f"a run of 14 counted anew in a {role}'s broken {flag}"
      for role in ("sender", "receiver") for flag in ("active error flag", "overload flag")),
    "bus off in an overload flag by a flag bit",
    "bus off behind an overload flag by a dominant run",
    "bus off behind an active error flag by a dominant run",
    "bus off in a passive flag by an owed error",
    *(f"back from bus off, with a run broken after {count}" for count in (6, 8, 10)),
    *(f"delimiter bit {count} dominant behind a sender's overload flag" for count in (6, 8)),
    "a node fault of an error passive receiver at its own ACK slot",
    "started together with equal frames",
    "started together with equal identifiers and other bytes",
    "started together, standard and extended with the same base identifier",
    "aborted while it transmits, then reaped",
    "aborted while it transmits, then completed",
    "a copy carried over to another segment",
]


def form_text(frame):
    return f"{'extended' if frame['ext'] else 'standard'} {'data' if 'data' in frame else 'remote'} frame"


def faults_at_ends(segment):
    """Faults in the end of a frame. One on the line counts if it is recessive in the ACK slot or dominant behind."""
    for member in segment.members:
        others = [other.name for other in segment.members if other is not member]
        for bit, place, frame, state in member.node.ends:
            faulty = [WHOSE[0]] if segment.is_flipped(member.name, bit) else []
            faulty += [WHOSE[1] for other in others if segment.is_flipped(other, bit)]
            wrong = RECESSIVE if place == "ACK slot" else DOMINANT
            faulty += [WHOSE[2]] if segment.line_faults.at(bit) == wrong else []
            for whose in faulty:
                yield f"{whose} at {place}"
                yield f"{whose} in the end of an error {state} sender's {form_text(frame)}"
        for bit in member.node.own_slots:
            if segment.is_flipped(member.name, bit):
                yield "a node fault of an error passive receiver at its own ACK slot"


def is_unacknowledged(attempt):
    return attempt.ending == "error" and attempt.end - attempt.start == len(wire(attempt.frame)) - AFTER_WIRE


def lonely(segment):
    for member in segment.members:
        tries = member.attempts[:17]
        if (len(tries) == 17 and all(is_unacknowledged(attempt) for attempt in tries[:16])
                and [attempt.state for attempt in tries[15:]] == STATES):
            yield "sixteen attempts without acknowledgement make a sender error passive"


def joined(segment):
    for attempt in segment.attempts():
        if attempt.first == attempt.start or segment.line_faults.at(attempt.start) != DOMINANT:
            continue
        yield "joined behind a dominant third intermission bit"
        if attempt.ending == "lost":
            _, kind = wire(attempt.frame)[attempt.end - attempt.start]
            if attempt.frame["ext"]:
                yield "joined so and lost in an extended frame"
            elif kind == "rtr":
                yield "joined so and lost at RTR of a standard frame"


def meeting(one, other):
    """What two frames have in common that meet in arbitration."""
    standard, extended = sorted((one, other), key=lambda frame: frame["ext"])
    if one == other:
        yield "started together with equal frames"
    elif one["ext"] == other["ext"] and one["id"] == other["id"] and "data" in one and "data" in other:
        yield "started together with equal identifiers and other bytes"
    elif one["ext"] != other["ext"] and standard["id"] == extended["id"] >> 18:
        yield "started together, standard and extended with the same base identifier"


def together(segment):
    frames = {}
    for attempt in segment.attempts():
        frames.setdefault(attempt.start, []).append(attempt.frame)
    for met in frames.values():
        for one, other in itertools.combinations(met, 2):
            yield from meeting(one, other)


def carried(route, script):
    segments = {controller["name"]: controller["segment"] for controller in script["controllers"]}
    for listed in script["routes"]:
        if listed["name"] == route.name and segments[listed["from"]] != segments[listed["to"]]:
            yield from ["a copy carried over to another segment"] * len(route.completed)
    yield from ["aborted while it transmits, then completed"] * len(set(route.aborted) & set(route.completed))


def reached(script, run):
    """How often a run of watched nodes came to each situation."""
    names = Counter()
    for segment in run.segments:
        for member in segment.members:
            names.update(member.node.reached)
        names.update(faults_at_ends(segment))
        names.update(lonely(segment))
        names.update(joined(segment))
        names.update(together(segment))
        names["aborted while it transmits, then reaped"] += sum(" reaped " in line for line in segment.events)
    for route in run.routes:
        names.update(carried(route, script))
    return names
