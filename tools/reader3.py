"""A second reader of scripts of version 3: it finds the first fault of a text.

`first_fault(text)` returns the fault as the program reports it, None for a lawful script, and NOT_3 for a text that is
no script of version 3. Written from the specification of scripts, and not from the program."""

import json
import math
import re

from version3 import UNITS_PER_SECOND

NOT_3 = "not of version 3"
MOST_BITS = 100_000_000
MOST_INSTANCES = 1_000_000
MOST_NODES = 64
IDENTIFIER = "[0-7][0-9A-Fa-f]{2}|[01][0-9A-Fa-f]{7}"
FRAME = re.compile(rf"({IDENTIFIER})#(([0-9A-Fa-f]{{2}}){{0,8}}|R[0-8]?)")
ACCEPT = re.compile("([0-7][0-9A-Fa-f]{2})(:[0-7][0-9A-Fa-f]{2})?|([01][0-9A-Fa-f]{7})(:[01][0-9A-Fa-f]{7})?")
NAME = re.compile("[A-Za-z0-9_]{1,32}")


class Refused(Exception):
    """The first fault of a script."""


def refuse_unless(condition, fault):
    if not condition:
        raise Refused(fault)


# ---- JSON


def whole_or_not(digits):
    """A whole number as an int, and any other number without fraction and exponent as a float."""
    value = float(digits)
    if math.isinf(value):
        raise ValueError(digits)
    return value if digits.startswith("-") or int(digits) > 2**64 - 1 else int(digits)


def finite(digits):
    if math.isinf(float(digits)):
        raise ValueError(digits)
    return float(digits)


def no_constant(word):
    raise ValueError(word)


def depth(value):
    inner = value.values() if isinstance(value, dict) else value if isinstance(value, list) else None
    return 0 if inner is None else 1 + max(map(depth, inner), default=0)


def json_of(text):
    """The value of a JSON text; ValueError or RecursionError where it is none."""
    value = json.loads(text.decode(), parse_int=whole_or_not, parse_float=finite, parse_constant=no_constant)
    # a lone surrogate is no character
    json.dumps(value, ensure_ascii=False).encode()
    if depth(value) > 127:
        raise ValueError("nested too deep")
    return value


# ---- fields


def present(part, field):
    refuse_unless(field in part, f"J2 Missing {field}")
    return part[field]


def whole(part, field, least, most):
    value = present(part, field)
    refuse_unless(type(value) is int, f"J3 Kind {field}")
    refuse_unless(least <= value <= most, f"J4 Range {field}")
    return value


def truth(part, field):
    value = present(part, field)
    refuse_unless(type(value) is bool, f"J3 Kind {field}")
    return value


def text(part, field, form=None):
    value = present(part, field)
    refuse_unless(isinstance(value, str), f"J3 Kind {field}")
    refuse_unless(form is None or form.fullmatch(value), f"J4 Range {field}")
    return value


def new_name(part, taken, list_name):
    name = text(part, "name", NAME)
    refuse_unless(name not in taken, f"J6 DoubleName {list_name}")
    return name


def known(part, field, names):
    name = text(part, field)
    refuse_unless(name in names, f"J5 UnknownName {field}")
    return name


def elements(part, field, most):
    """The elements of a list, in turn."""
    value = present(part, field)
    refuse_unless(isinstance(value, list), f"J3 Kind {field}")
    refuse_unless(most is None or len(value) <= most, f"J8 TooMany {field}")
    return value


def only(part, what, fields):
    """Refuses a part of another kind, and one with an unknown field."""
    refuse_unless(isinstance(part, dict), f"J3 Kind {what}")
    refuse_unless(set(part) <= {"comment", *fields.split()}, f"J11 Unknown {what}")


def objects(part, field, most, fields):
    for element in elements(part, field, most):
        only(element, field, fields)
        yield element


# ---- the script


class Reader:
    def __init__(self, script):
        self.script, self.rate, self.bits = script, None, None
        self.instances = 0
        self.nodes, self.on_segment = set(), {}  # names of nodes; of each segment how many
        self.controllers, self.routes = set(), set()

    def duration(self, part, field, least, most):
        value = present(part, field)
        if isinstance(value, str):
            match = re.fullmatch("([0-9]{1,9})(us|ms|s)", value)
            refuse_unless(match and self.rate is not None, f"J3 Kind {field}")
            value = int(match[1]) * self.rate // UNITS_PER_SECOND[match[2]]
        refuse_unless(type(value) is int, f"J3 Kind {field}")
        refuse_unless(least <= value <= most, f"J4 Range {field}")
        return value

    def moment(self, part, field):
        return self.duration(part, field, 0, self.bits - 1)

    def read(self):
        script = self.script
        refuse_unless(isinstance(script, dict), "J3 Kind script")
        refuse_unless(type(present(script, "version")) is int, "J3 Kind version")
        if script["version"] != 3:
            raise Refused(NOT_3)
        only(script, "script", "$schema version bitrate bits segments controllers routes faults aborts")
        if "bitrate" in script:
            self.rate = whole(script, "bitrate", 1_000, 1_000_000)
        self.bits = self.duration(script, "bits", 1, MOST_BITS)
        refuse_unless(elements(script, "segments", 8), "J4 Range segments")
        for segment in objects(script, "segments", 8, "name talkers"):
            self.segment(segment)
        for controller in objects(script, "controllers", 16, "name segment on txfp filters banks"):
            self.controller(controller)
        self.all_routes()
        if "faults" in script:
            for fault in objects(script, "faults", 10_000, "node segment bit until level"):
                self.fault(fault)
        if "aborts" in script:
            for abort in objects(script, "aborts", 1_000, "route number turn"):
                known(abort, "route", self.routes)
                whole(abort, "number", 1, 16_777_215)
                whole(abort, "turn", 1, 1_000_000)

    def node_on(self, segment, list_name):
        self.on_segment[segment] += 1
        refuse_unless(self.on_segment[segment] <= MOST_NODES, f"J8 TooMany {list_name}")

    def segment(self, segment):
        name = new_name(segment, self.on_segment, "segments")
        self.on_segment[name] = 0
        for talker in objects(segment, "talkers", None, "name on frames"):
            self.nodes.add(new_name(talker, self.nodes, "talkers"))
            self.moment(talker, "on")
            for element in elements(talker, "frames", 10_000):
                self.frame({"frame": element} if isinstance(element, str) else element)
            self.node_on(name, "talkers")

    def frame(self, frame):
        refuse_unless(isinstance(frame, dict), "J3 Kind frames")
        content = "frame" if "frame" in frame else "id ext data remote"
        only(frame, "frames", content + " at every" + (" times" if "every" in frame else ""))
        if "frame" in frame:
            text(frame, "frame", FRAME)
        else:
            self.frame_of_fields(frame)
        at = self.moment(frame, "at") if "at" in frame else 0
        count = 1
        if "every" in frame:
            count = len(range(at, self.bits, self.duration(frame, "every", 1, MOST_BITS)))
            if "times" in frame:
                count = min(count, whole(frame, "times", 1, 1_000_000))
        self.instances += count
        refuse_unless(self.instances <= MOST_INSTANCES, "J8 TooMany instances")

    def frame_of_fields(self, frame):
        whole(frame, "id", 0, math.inf)
        whole(frame, "id", 0, 0x1FFFFFFF if truth(frame, "ext") else 0x7FF)
        if "data" in frame:
            for byte in elements(frame, "data", 8):
                whole({"data": byte}, "data", 0, 255)
        else:
            refuse_unless("remote" in frame, "J2 Missing data")
            whole(frame, "remote", 0, 8)

    def controller(self, controller):
        name = new_name(controller, self.nodes, "controllers")
        self.nodes.add(name)
        self.controllers.add(name)
        segment = known(controller, "segment", self.on_segment)
        self.moment(controller, "on")
        if "txfp" in controller:
            truth(controller, "txfp")
        taken = set()
        if "filters" in controller:
            for place, accepted in enumerate(objects(controller, "filters", 28, "accept remote fifo")):
                self.filter(accepted)
                taken.add(place)
        if "banks" in controller:
            for bank in objects(controller, "banks", 28, "bank scale mode fifo active r1 r2"):
                self.bank(bank, taken)
        self.node_on(segment, "controllers")

    def filter(self, accepted):
        text(accepted, "accept", ACCEPT)
        if "remote" in accepted:
            truth(accepted, "remote")
        if "fifo" in accepted:
            whole(accepted, "fifo", 0, 1)

    def bank(self, bank, taken):
        number = whole(bank, "bank", 0, 27)
        refuse_unless(number not in taken, "J6 DoubleName bank")
        taken.add(number)
        refuse_unless(whole(bank, "scale", 0, math.inf) in (16, 32), "J4 Range scale")
        text(bank, "mode", re.compile("mask|list"))
        whole(bank, "fifo", 0, 1)
        truth(bank, "active")
        whole(bank, "r1", 0, 2**32 - 1)
        whole(bank, "r2", 0, 2**32 - 1)

    def all_routes(self):
        fifos, into = set(), []
        fields = "name from fifo to rewrite every burst queue"
        for place, route in enumerate(objects(self.script, "routes", 16, fields)):
            self.routes.add(new_name(route, self.routes, "routes"))
            fifo = known(route, "from", self.controllers), whole(route, "fifo", 0, 1)
            into.append(known(route, "to", self.controllers))
            if "rewrite" in route:
                for entry in objects(route, "rewrite", 32, "from to"):
                    text(entry, "from", re.compile(IDENTIFIER))
                    text(entry, "to", re.compile(IDENTIFIER))
            if "every" in route:
                self.duration(route, "every", 1, 1_000_000)
            if "burst" in route:
                whole(route, "burst", 1, 1000)
            if "queue" in route:
                whole(route, "queue", 1, 1024)
            refuse_unless(fifo not in fifos, f"J7 FifoTwice {place}")
            fifos.add(fifo)
            refuse_unless(into.count(into[-1]) <= 8, "J8 TooMany routes")

    def fault(self, fault):
        if "node" in fault:
            known(fault, "node", self.nodes)
        else:
            known(fault, "segment", self.on_segment)
        bit = self.moment(fault, "bit")
        if "until" in fault:
            self.duration(fault, "until", bit + 1, self.bits)
        if "node" not in fault:
            whole(fault, "level", 0, 1)


def first_fault(text):
    """The first fault of these bytes."""
    if len(text) > 16_777_216:
        return "J8 TooMany input"
    try:
        Reader(json_of(text)).read()
    except Refused as fault:
        return str(fault)
    except (ValueError, RecursionError):
        return "J1 NotJson"
    return None
