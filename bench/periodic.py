"""Scripts of version 3 with periodic messages, each written to a folder. usage: periodic.py FOLDER"""

import json
import pathlib
import sys

# a minute at 500 kbit/s
BITS = 30_000_000
# the bits of a frame with eight bytes on the wire, with stuff bits and the intermission, more or less
FRAME_BITS = 125
# bits from one instance of a message to the next, of eight talkers
PERIODS = [1300, 1700, 2100, 2500, 3100, 3700, 4300, 5000]


def talker(segment, place, period):
    identifier = 0x100 + 16 * place + segment
    return {"name": f"t{segment}_{place}", "on": 0,
            "frames": [{"frame": f"{identifier:03X}#0102030405060708", "at": 37 * place, "every": period}]}


def segment(place):
    return {"name": f"s{place}", "talkers": [talker(place, k, period) for k, period in enumerate(PERIODS)]}


def alone():
    return {"version": 3, "bitrate": 500_000, "bits": BITS, "segments": [segment(0)], "controllers": [], "routes": []}


def gateway():
    """Three segments, and a route from a controller on each to one on the next, which takes an eighth of its frames."""
    places = range(3)
    return {"version": 3, "bitrate": 500_000, "bits": BITS, "segments": [segment(place) for place in places],
            "controllers": [{"name": f"c{place}", "segment": f"s{place}", "on": 0,
                             "filters": [{"accept": f"{0x170 + place:03X}"}]} for place in places],
            "routes": [{"name": f"r{place}", "from": f"c{place}", "fifo": 0, "to": f"c{(place + 1) % 3}"}
                       for place in places]}


def main():
    folder = pathlib.Path(sys.argv[1])
    load = sum(FRAME_BITS / period for period in PERIODS)
    for number, (name, script) in enumerate([("one segment", alone()), ("three segments with a gateway", gateway())]):
        (folder / f"{number}.json").write_text(json.dumps(script))
        print(f"{number}\trun\t8 talkers a segment, {load:.0%} load, {BITS:,} bits, {name}")


main()
