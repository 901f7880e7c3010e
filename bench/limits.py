"""Inputs at the limits of scripts and event lists, each written to a folder. usage: limits.py FOLDER"""

import json
import pathlib
import sys

MOST_BYTES = 16_777_216
ALL = {"bank": 0, "scale": 32, "mode": "mask", "fifo": 0, "active": True, "r1": 0, "r2": 0}
FRAME = {"id": 0x123, "ext": False, "data": [18, 52, 86, 120, 154, 188, 222, 240]}


def written(value):
    return json.dumps(value, separators=(",", ":"))


def filled(text, rest=""):
    """The text with blanks behind it, as long as an input may be."""
    return text + rest + " " * (MOST_BYTES - len(text) - len(rest))


def talker(name, frames, identifier=0x123):
    return {"name": name, "on": 0, "frames": [FRAME | {"id": identifier}] * frames}


def greatest(bits=1_000_000, segments=8, frames=2_000):
    """Each segment with 16 nodes, two of them controllers, each controller with a route out of FIFO 0 to the next one."""
    places = range(segments)
    return {"version": 1, "bits": bits,
            "segments": [{"name": f"s{s}", "talkers": [talker(f"t{s}_{t}", frames, t) for t in range(14)]} for s in places],
            "controllers": [{"name": f"c{s}_{c}", "segment": f"s{s}", "on": 0, "banks": [ALL]} for s in places for c in (0, 1)],
            "routes": [{"name": f"r{s}_{c}", "from": f"c{s}_{c}", "fifo": 0, "to": f"c{(s + 1) % segments}_{c}"}
                       for s in places for c in (0, 1)]}


def small(bits=100):
    return {"version": 1, "bits": bits, "segments": [{"name": "a", "talkers": [talker("t", 1)]}], "controllers": [], "routes": []}


def with_faults(count, bits=1_000_000):
    script = greatest(bits, 1, 10_000)
    nodes = [f"t0_{t}" for t in range(14)]
    step = bits // max(count, 1)
    return script | {"faults": [{"node": nodes[f % 14], "bit": f * step} if f % 2 else
                                {"segment": "s0", "bit": f * step, "level": f // 2 % 2} for f in range(count)]}


def with_aborts():
    return greatest(100_000, 2, 2_000) | {
        "aborts": [{"route": f"r{a % 2}_0", "number": 1 + a // 2, "turn": 1 + a * 90} for a in range(1_000)]}


def inputs():
    yield "8 segments of 16 nodes, 16 routes, 1,000,000 bits", "run", written(greatest())
    yield "1 segment of 16 nodes, 10,000 frames a talker, 1,000,000 bits", "run", written(with_faults(0))
    yield "the same with 10,000 faults", "run", written(with_faults(10_000))
    yield "1,000 aborts, 2 segments, 100,000 bits", "run", written(with_aborts())
    frames = small() | {"segments": [{"name": f"s{s}", "talkers": [talker(f"t{s}_{t}", 10_000) for t in range(t)]}
                                     for s, t in [(0, 16), (1, 4)]]}
    yield "16 MiB: 200,000 frames", "run", filled(written(frames))
    numbers = written(small())[:-1] + ',"x":['
    yield "16 MiB: a list of 8 million numbers that is ignored", "run", filled(
        numbers, "0," * ((MOST_BYTES - len(numbers) - 4) // 2) + "0]}")
    yield "16 MiB: a list of 5 million empty lists that is ignored", "run", filled(
        numbers, "[]," * ((MOST_BYTES - len(numbers) - 5) // 3) + "0]}")
    yield "16 MiB: a list of 2 million objects of one field that is ignored", "run", filled(
        numbers, '{"":0},' * ((MOST_BYTES - len(numbers) - 9) // 7) + "0]}")
    nested = "[" * 120 + "0" + "]" * 120 + ","
    yield "16 MiB: lists nested 120 deep, with one element each, that are ignored", "run", filled(
        numbers, nested * ((MOST_BYTES - len(numbers) - 4) // len(nested)) + "0]}")
    paired = "[" * 120 + "0" + ",0]" * 120 + ","
    yield "16 MiB: the same with two elements each", "run", filled(
        numbers, paired * ((MOST_BYTES - len(numbers) - 4) // len(paired)) + "0]}")
    yield "16 MiB of blanks", "run", filled(written(small()))
    each = [{"event": "claim", "route": 0, "mailbox": 0},
            {"event": "request", "route": 0, "mailbox": 0, "number": 1, "frame": FRAME},
            {"event": "schedule", "mailbox": 0}, {"event": "start", "mailbox": 0}, {"event": "complete", "mailbox": 0}]
    events = [dict(each[e % 5], **({"number": e // 5 + 1} if e % 5 == 1 else {})) for e in range(100_000)]
    yield "100,000 events", "core", written({"routes": 8, "events": events})


def main():
    folder = pathlib.Path(sys.argv[1])
    for number, (name, word, text) in enumerate(inputs()):
        (folder / f"{number}.json").write_text(text)
        print(f"{number}\t{word}\t{name}")


main()
