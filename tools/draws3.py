"""Scripts of version 3 that are drawn at random, and scripts of versions 1 and 2 written as version 3.

They are drawn with durations as numbers of bits and frames as objects. At the end `written` turns some of these into
texts. `draw` is a random.Random."""

import draws
import model
from version3 import UNITS_PER_SECOND

LONG = 100_000_000


# ---- how parts are written


def either_case(draw, digits):
    return draw.choice([digits.lower(), digits.upper()])


def identifier_text(draw, number, is_extended):
    return either_case(draw, f"{number:0{8 if is_extended else 3}x}")


def frame_text(draw, frame):
    """A frame as can-utils writes it."""
    identifier = identifier_text(draw, frame["id"], frame["ext"])
    if "data" in frame:
        return f"{identifier}#{either_case(draw, bytes(frame['data']).hex())}"
    is_left_out = frame["remote"] == 0 and draw.random() < 0.5
    return f"{identifier}#R{'' if is_left_out else frame['remote']}"


def rewrite_entry(draw, entry):
    return {"from": identifier_text(draw, entry["id"], entry["ext"]),
            "to": identifier_text(draw, entry["new_id"], entry["new_ext"])}


def duration(draw, bits, rate):
    """So many bits as a text, where there is one; or as a number."""
    unit, per_second = draw.choice(list(UNITS_PER_SECOND.items()))
    if rate is None or draw.random() < 0.4:
        return bits
    digits = -(-bits * per_second // rate)
    if digits > 999_999_999 or digits * rate // per_second != bits:
        return bits
    return f"{digits:0{draw.choice([1, 1, 4, 9])}}{unit}"


def written_frame(draw, frame, rate):
    """An element of `frames` in one of the forms that it may have."""
    result = {field: frame[field] for field in ("times",) if field in frame}
    for field in ("at", "every"):
        if field in frame:
            result[field] = duration(draw, frame[field], rate)
    if draw.random() < 0.3:
        return frame | result
    if not result and draw.random() < 0.6:
        return frame_text(draw, frame)
    return {"frame": frame_text(draw, frame)} | result


def with_durations(draw, part, fields, rate):
    return part | {field: duration(draw, part[field], rate) for field in fields if field in part}


def in_another_order(draw, value):
    """The same with the fields of each object in an order that is drawn."""
    if isinstance(value, list):
        return [in_another_order(draw, inner) for inner in value]
    if isinstance(value, dict):
        return {field: in_another_order(draw, value[field]) for field in draw.sample(list(value), len(value))}
    return value


def written(draw, script):
    """The script with texts for some durations and frames, with comments, and perhaps with its fields in another
    order."""
    rate = script.get("bitrate")
    result = with_durations(draw, script, ["bits"], rate)
    result["segments"] = [segment | {"talkers": [
        with_durations(draw, talker, ["on"], rate) | {
            "frames": [written_frame(draw, frame, rate) for frame in talker["frames"]]}
        for talker in segment["talkers"]]} for segment in script["segments"]]
    result["controllers"] = [with_durations(draw, controller, ["on"], rate) for controller in script["controllers"]]
    result["routes"] = [with_durations(draw, route, ["every"], rate) for route in script["routes"]]
    result["faults"] = [with_durations(draw, fault, ["bit", "until"], rate) for fault in script["faults"]]
    objects = [result, *result["segments"], *result["controllers"], *result["routes"], *result["faults"]]
    for part in draw.sample(objects, min(len(objects), draw.choice([0, 0, 1, 3]))):
        part["comment"] = draw.choice(["", "why", 7, None, [], {"version": 1}])
    return in_another_order(draw, result) if draw.random() < 0.3 else result


def as_version_3(draw, script):
    """A script of version 1 or 2 as one of version 3 with the same meaning, not yet `written`."""
    rewrites = script["version"] == 2
    routes = [{field: route[field] for field in ("name", "from", "fifo", "to")} | (
        {"rewrite": [rewrite_entry(draw, entry) for entry in route["rewrite"]]}
        if rewrites and "rewrite" in route else {}) for route in script["routes"]]
    faults = [fault | {"until": fault["bit"] + 1} for fault in script.get("faults", [])]
    return script | {"version": 3, "routes": routes, "faults": faults}


# ---- what is drawn


def timed(draw, frame, bits):
    """The frame with the bits at which it is due; also many at one bit, and at every bit."""
    if draw.random() < 0.7:
        frame["at"] = draw.choice([0, 11, min(bits - 1, 60), draw.randrange(min(bits, 300)), draw.randrange(bits)])
    if draw.random() < 0.5:
        frame["every"] = bits // 1000 + draw.choice([1, 20, 47, 60, draw.randint(1, 200), draw.randint(1, bits)])
        if draw.random() < 0.5:
            frame["times"] = draw.choice([1, 2, 3, 20, 1_000_000])
    return frame


def talker(draw, name, bits):
    return {"name": name, "on": draw.choice([0, 0, 0, draw.randrange(bits)]),
            "frames": draws.some(draw, draw.choice([1, 4, 8]), lambda _: timed(draw, draws.frame(draw), bits))}


def accepted(draw):
    """An element of `filters`."""
    chosen = draws.identifier(draw)
    text = identifier_text(draw, chosen["id"], chosen["ext"])
    if draw.random() < 0.6:
        masks = [0, 1, 0x7FF << 18, 0x1FFFFFFF, draw.randrange(2**29)]
        text += ":" + identifier_text(draw, draw.choice(masks) >> (0 if chosen["ext"] else 18), chosen["ext"])
    result = {"accept": text}
    if draw.random() < 0.7:
        result["fifo"] = draw.randint(0, 1)
    if draw.random() < 0.3:
        result["remote"] = draw.random() < 0.5
    return result


def controller(draw, name, segments, bits):
    result = draws.controller(draw, name, segments, bits, version=2)
    if draw.random() < 0.7:
        # most with one that lets all standard frames through
        result["filters"] = draws.some(draw, draw.choice([2, 4, 28]), lambda _: accepted(draw))
        if draw.random() < 0.6:
            result["filters"].append({"accept": "000:000"})
        result["filters"] = result["filters"][:28]
    free = len(result.get("filters", []))
    result["banks"] = [bank for bank in result["banks"] if bank["bank"] >= free]
    if not result["banks"] and draw.random() < 0.7:
        del result["banks"]
    return result


def routes(draw, controllers):
    result = draws.routes(draw, controllers)
    for route in result:
        if "rewrite" in route:
            route["rewrite"] = [rewrite_entry(draw, entry) for entry in route["rewrite"]]
        if draw.random() < 0.5:
            route["queue"] = draw.choice([1, 2, 3, 16, 1024])
        if draw.random() < 0.5:
            route["every"] = draw.choice([1, 2, 3, 7, 50, draw.randint(1, 300), draw.choice([500, 4_999, 1_000_000])])
        if draw.random() < 0.5:
            route["burst"] = draw.choice([1, 2, 3, 8, 1000])
    return result


def fault(draw, script):
    """A fault of a few bits, or of many."""
    result = draws.fault(draw, script)
    if draw.random() < 0.7:
        length = draw.choice([1, 1, 2, 3, 6, 7, 12, draw.randint(1, 30), draw.randint(1, 400)])
        result["until"] = min(script["bits"], result["bit"] + length)
    return result


def segments(draw, bits, most):
    if draw.random() < 0.03:
        # 60 nodes, and with four controllers 64
        talkers = [talker(draw, f"t0{j}", bits) if draw.random() < 0.2 else {"name": f"t0{j}", "on": 0, "frames": []}
                   for j in range(60)]
        return [{"name": "s0", "talkers": talkers}]
    return [{"name": f"s{i}", "talkers": [talker(draw, f"t{i}{j}", bits) for j in range(draw.randint(0, most))]}
            for i in range(draw.randint(1, 3))]


def rate(draw):
    return draw.choice([None, 1_000, 125_000, 500_000, 1_000_000, 33_333, draw.randint(1_000, 1_000_000)])


def with_header(bits, some_rate):
    return {"version": 3, "bits": bits} | ({} if some_rate is None else {"bitrate": some_rate})


def long_idle(draw):
    """A long run in which the buses are idle most of the time. On each segment one node sends and another listens, so
    that no two frames collide again and again."""
    bits = draw.choice([1_000_000, 9_999_999, LONG, draw.randint(1_000_000, LONG)])
    sender = talker(draw, "t00", bits)
    for frame in sender["frames"]:
        if "every" in frame:
            frame["every"] = max(frame["every"], bits // 50)
    listeners = [{"name": f"t{i}1", "on": 0, "frames": []} for i in range(2)]
    result = with_header(bits, rate(draw)) | {
        "segments": [{"name": "s0", "talkers": [sender, listeners[0]]}, {"name": "s1", "talkers": listeners[1:]}],
        "controllers": [controller(draw, f"c{i}", [{"name": f"s{i}"}], bits) for i in range(2)],
        "routes": [{"name": "r0", "from": "c0", "fifo": draw.randint(0, 1), "to": "c1"}]}
    result["faults"] = draws.some(draw, 5, lambda _: draws.fault(draw, result))
    result["aborts"] = draws.some(draw, 3, lambda _: draws.abort(draw, result | {"bits": 999_998}, 1))
    return result


def aimed(draw, script, turn):
    """The script with a message more. It is due at a bit at which something happens or a few bits later: while a frame
    is on the bus, in an error flag or in the intermission, exactly at its end, or in bus off."""
    lines = [line.split() for line in model.report(script, turn).splitlines()]
    events = [words for words in lines if len(words) > 3 and words[1].isdigit()]
    kinds = sorted({words[3] for words in events})
    if not kinds:
        return script
    kind = "completed" if "completed" in kinds and draw.random() < 0.4 else draw.choice(kinds)
    name, bit, *_ = draw.choice([words for words in events if words[3] == kind])
    # the intermission after a frame that was completed has the three bits before place 4
    places = {"completed": [1, 2, 3, 4, 4, 5], "off": [0, draw.randint(0, 1500)]}
    place = draw.choice(places.get(kind, [0, 1, draw.randint(0, 40)]))
    due = min(script["bits"] - 1, int(bit) + place)
    talkers = [t for segment in script["segments"] if segment["name"] == name for t in segment["talkers"]]
    for one in draw.sample(talkers, min(len(talkers), draw.choice([1, 1, 2]))):
        one["frames"].insert(draw.randint(0, len(one["frames"])), draws.frame(draw) | {"at": due})
    if kind == "completed" and place > 2 and draw.random() < 0.5:
        # another node's SOF in the third bit of the intermission
        third = min(script["bits"] - 1, int(bit) + 3)
        script["faults"].append({"segment": name, "bit": third, "level": 0})
    return script


def busy(draw, lengths, turn):
    """A script of version 3 with one of these lengths. Its routes make a turn each `turn` bits."""
    bits = draw.choice(lengths)
    result = with_header(bits, rate(draw))
    result["segments"] = segments(draw, bits, 3)
    result["controllers"] = [controller(draw, f"c{i}", result["segments"], bits) for i in range(draw.randint(0, 4))]
    result["routes"] = routes(draw, result["controllers"])
    result["faults"] = draws.some(draw, draw.choice([0, 3, 30]), lambda _: fault(draw, result))
    result["aborts"] = []
    if result["routes"]:
        result["aborts"] = draws.some(draw, 6, lambda _: draws.abort(draw, result, turn))
    if bits <= 5000 and draw.random() < 0.6:
        result = aimed(draw, result, turn)
    return result


def script(draw):
    """A script of version 3, and how many bits lie between two turns of a route. One in five has been drawn as one of
    an older version, and one in fifty is very long."""
    way = draw.random()
    if way < 0.2:
        result, turn = draws.script(draw)
        return written(draw, as_version_3(draw, result)), turn
    turn = draw.choice([1, 1, 1, 10, 100])
    result = long_idle(draw) if way < 0.22 else busy(draw, [60, 400, 1000, 2000, 5000, 20000], turn)
    return written(draw, result), turn
