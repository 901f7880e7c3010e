"""Turns scripts of version 3 into the form that the second model runs (tools/model.py).

Written from the specification of scripts, and not from the program. The scripts must be lawful."""

import re

UNITS_PER_SECOND = {"us": 1_000_000, "ms": 1_000, "s": 1}
# of a 32-bit filter register
IDE, RTR = 4, 2


def bits_of(duration, rate):
    """The bits of a duration: a whole number of them, or a text such as "10ms" at `rate` bits a second."""
    if isinstance(duration, int):
        return duration
    digits, unit = re.fullmatch("([0-9]{1,9})(us|ms|s)", duration).groups()
    return int(digits) * rate // UNITS_PER_SECOND[unit]


def identifier_of(text):
    """The identifier and the format of a text of 3 or 8 hexadecimal digits."""
    return {"id": int(text, 16), "ext": len(text) == 8}


def frame_of(element):
    """The frame of an element of `frames`, as the model has frames."""
    if "frame" not in element:
        content = "data" if "data" in element else "remote"
        return {field: element[field] for field in ("id", "ext", content)}
    identifier, _, content = element["frame"].partition("#")
    if content.startswith("R"):
        return identifier_of(identifier) | {"remote": int(content[1:] or "0")}
    return identifier_of(identifier) | {"data": list(bytes.fromhex(content))}


def due_bits(element, bits, rate):
    """The bits at which the instances of an element of `frames` are due, in a run of `bits` bits."""
    at = bits_of(element.get("at", 0), rate)
    if "every" not in element:
        return [at]
    return range(at, bits, bits_of(element["every"], rate))[:element.get("times")]


def queue(frames, bits, rate):
    """All instances of a talker's frames in the order in which it sends them, each with the bit at which it is due."""
    elements = [{"frame": element} if isinstance(element, str) else element for element in frames]
    content = [frame_of(element) for element in elements]
    instances = [(due, place) for place, element in enumerate(elements) for due in due_bits(element, bits, rate)]
    return [(due, content[place]) for due, place in sorted(instances)]


def bank_of(number, accepted):
    """The filter bank with this number for an element of `filters`."""
    text, _, mask_text = accepted["accept"].partition(":")
    is_extended = len(text) == 8
    place, all_bits = (3, 0x1FFFFFFF) if is_extended else (21, 0x7FF)
    value = int(text, 16) << place | (IDE if is_extended else 0)
    mask = (int(mask_text, 16) if mask_text else all_bits) << place | IDE
    if "remote" in accepted:
        value, mask = value | (RTR if accepted["remote"] else 0), mask | RTR
    return {"bank": number, "scale": 32, "mode": "mask", "fifo": accepted.get("fifo", 0), "active": True,
            "r1": value, "r2": mask}


def plain_talker(talker, bits, rate):
    return {"name": talker["name"], "on": bits_of(talker["on"], rate), "queue": queue(talker["frames"], bits, rate)}


def plain_controller(controller, rate):
    banks = [bank_of(place, accepted) for place, accepted in enumerate(controller.get("filters", []))]
    return {"name": controller["name"], "segment": controller["segment"], "on": bits_of(controller["on"], rate),
            "txfp": controller.get("txfp", True), "banks": banks + controller.get("banks", [])}


def plain_rewrite(entry):
    new = identifier_of(entry["to"])
    return identifier_of(entry["from"]) | {"new_id": new["id"], "new_ext": new["ext"]}


def plain_route(route, rate):
    return {field: route[field] for field in ("name", "from", "fifo", "to")} | {
        "rewrite": [plain_rewrite(entry) for entry in route.get("rewrite", [])],
        "every": bits_of(route["every"], rate) if "every" in route else None,
        "burst": route.get("burst", 1), "queue": route.get("queue")}


def plain_fault(fault, rate):
    bit = bits_of(fault["bit"], rate)
    range_of_bits = {"bit": bit, "until": bits_of(fault["until"], rate) if "until" in fault else bit + 1}
    if "node" in fault:
        return {"node": fault["node"]} | range_of_bits
    return {"segment": fault["segment"], "level": fault["level"]} | range_of_bits


def plain(script):
    """The script with durations in bits, frames as identifiers and bytes, a queue of instances for each talker, all
    filters in banks, and the end of each fault."""
    rate = script.get("bitrate")
    bits = bits_of(script["bits"], rate)
    return {"bits": bits,
            "segments": [{"name": segment["name"],
                          "talkers": [plain_talker(talker, bits, rate) for talker in segment["talkers"]]}
                         for segment in script["segments"]],
            "controllers": [plain_controller(controller, rate) for controller in script["controllers"]],
            "routes": [plain_route(route, rate) for route in script["routes"]],
            "faults": [plain_fault(fault, rate) for fault in script.get("faults", [])],
            "aborts": script.get("aborts", [])}
