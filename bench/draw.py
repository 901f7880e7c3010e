"""The scripts that bench/run.sh measures, always the same ones: each is made by a function of its number of bits."""

import pathlib
import random
import sys

sys.path.insert(0, str(pathlib.Path(__file__).resolve().parent.parent / "tools"))
sys.dont_write_bytecode = True

# found by the path above
import can_model  # noqa: E402

MOST_BITS = 1_000_000
INTERMISSION = 3
ALL = {"bank": 0, "scale": 32, "mode": "mask", "fifo": 0, "active": True, "r1": 0, "r2": 0}


def script(bits, talkers, **fields):
    """One segment with these lists of frames, a talker each."""
    members = [{"name": f"t{place}", "on": 0, "frames": frames} for place, frames in enumerate(talkers)]
    return {"version": 1, "bits": bits, "segments": [{"name": "a", "talkers": members}], "controllers": [],
            "routes": []} | fields


def frame(draw, talker):
    """A frame of either format and kind. No two talkers have an identifier in common, as on a real bus."""
    extended = draw.random() < 0.3
    identifier = {"id": draw.randrange(2**25 if extended else 2**7) << 4 | talker, "ext": extended}
    if draw.random() < 0.1:
        return identifier | {"remote": draw.randint(0, 8)}
    return identifier | {"data": [draw.randrange(256) for _ in range(draw.randint(0, 8))]}


def loaded(bits, count, percent=90, seed=16):
    """Talkers with mixed frames that want so many of a hundred bits together; behind them the bus is idle."""
    draw = random.Random(seed)
    talkers, left = [[] for _ in range(count)], bits * percent // 100
    while left > 0:
        talker = draw.randrange(count)
        talkers[talker].append(frame(draw, talker))
        left -= len(can_model.wire(talkers[talker][-1])) + INTERMISSION
    return script(bits, talkers)


def idle(bits, count):
    return script(bits, [[]] * count)


def always_sending(bits, count=16):
    """The first talker always wins, so the others never run out of their one frame."""
    data = [18, 52, 86, 120, 154, 188, 222, 240]
    return script(bits, [[{"id": place, "ext": False, "data": data}] * (1 if place else 10_000)
                         for place in range(count)])


def faults(bits, most=10_000):
    """So many faults in the longest run, and in a shorter one as many fewer, at nodes and on the line in turn."""
    places = range(most * bits // MOST_BITS)
    step = MOST_BITS // most
    return [{"node": f"t{place // 2 % 16}", "bit": place * step} if place % 2 else
            {"segment": "a", "bit": place * step, "level": place // 2 % 2} for place in places]


def disturbed(bits, most=10_000):
    return loaded(bits, 16) | {"faults": faults(bits, most)}


def idle_with_faults(bits, most=10_000):
    """Faults that change no level, so that a run differs from one without by them alone."""
    return idle(bits, 16) | {"faults": [{"segment": "a", "bit": fault["bit"], "level": 1}
                                        for fault in faults(bits, most)]}


def gateway(bits, count=16):
    """Controllers on one idle bus, each with a route to the next one."""
    return idle(bits, 0) | {
        "controllers": [{"name": f"c{place}", "segment": "a", "on": 0, "banks": [ALL]} for place in range(count)],
        "routes": [{"name": f"r{place}", "from": f"c{place}", "fifo": 0, "to": f"c{(place + 1) % count}"}
                   for place in range(count)]}


def busy_gateway(bits, count=3, talkers=4, percent=40):
    """Segments whose talkers want so many of a hundred bits together, and routes from two controllers on each into those
    of the next segment: each takes a sixteenth of the frames of standard identifiers."""
    segments, controllers, routes = [], [], []
    for place in range(count):
        members = loaded(bits, talkers, percent)["segments"][0]["talkers"]
        segments.append({"name": f"s{place}",
                         "talkers": [member | {"name": f"s{place}{member['name']}"} for member in members]})
        for side in range(2):
            bank = ALL | {"r1": side << 21, "r2": 15 << 21 | 4}
            controllers.append({"name": f"c{place}{side}", "segment": f"s{place}", "on": 0, "banks": [bank]})
            routes.append({"name": f"r{place}{side}", "from": f"c{place}{side}", "fifo": 0,
                           "to": f"c{(place + 1) % count}{side}"})
    return {"version": 1, "bits": bits, "segments": segments, "controllers": controllers, "routes": routes}


def busy_segments(bits, count):
    """Segments of 15 talkers and a controller, and a route from each segment to the next. Mixed frames fill nine tenths
    of the bits, on each segment others."""
    segments = []
    for place in range(count):
        members = loaded(bits, 15, seed=place)["segments"][0]["talkers"]
        segments.append({"name": f"s{place}",
                         "talkers": [member | {"name": f"s{place}{member['name']}"} for member in members]})
    return {"version": 1, "bits": bits, "segments": segments,
            "controllers": [{"name": f"c{place}", "segment": f"s{place}", "on": 0, "banks": [ALL]}
                            for place in range(count)],
            "routes": [{"name": f"r{place}", "from": f"c{place}", "fifo": 0, "to": f"c{place + 1}"}
                       for place in range(count - 1)]}
