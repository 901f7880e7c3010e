#!/usr/bin/env python3
"""Writes a script of version 3 in which one node sends the frames of a log, each at its time. A gateway passes some.

usage: log.py [LOG]. A log has lines as `candump -l` of can-utils writes them: `(1700000000.012345) can0 0C0#0BB8`.
Times count from the first line. Without a log, one of 2,000 frames over ten seconds is drawn, always the same one:
log-of-ten-seconds.json is made of that."""

import json
import pathlib
import random
import re
import sys

LINE = re.compile(r"\((\d+)\.(\d{6})\) (\S+) ([0-9A-F]{3}(?:[0-9A-F]{5})?#\S*)")
# of each message the identifier, its period in microseconds and its number of bytes
MESSAGES = [("0C0", 10_000, 8), ("120", 20_000, 8), ("1A0", 40_000, 4), ("18FEF100", 100_000, 8), ("3A0", 200_000, 2),
            ("7E8", 500_000, 8)]
FRAMES = 2_000
SECONDS = 10


def drawn_log():
    """The lines of a log of messages that are sent at regular intervals, each up to a tenth of its period late."""
    draw = random.Random(2_000)
    frames = [(start + draw.randrange(period // 10), identifier, draw.randbytes(length).hex())
              for identifier, period, length in MESSAGES for start in range(0, SECONDS * 1_000_000 - period, period)]
    # the rest are single frames
    frames += [(draw.randrange(SECONDS * 1_000_000 - 10_000), f"5{draw.randrange(256):02X}", "")
               for _ in range(FRAMES - len(frames))]
    return [f"({time // 1_000_000}.{time % 1_000_000:06}) can0 {identifier}#{content.upper()}"
            for time, identifier, content in sorted(frames)]


def script_of(lines):
    """The script in which a node sends the frames of these lines."""
    found = [match.groups() for match in map(LINE.match, lines) if match]
    times = [int(seconds) * 1_000_000 + int(micros) for seconds, micros, _, _ in found]
    frames = [{"frame": frame, "at": f"{time - times[0]}us"} for time, (*_, frame) in zip(times, found)]
    return {
        "$schema": "../../docs/script.schema.json", "version": 3, "comment": "made by log.py", "bitrate": 500_000,
        "bits": f"{(times[-1] - times[0]) // 1_000_000 + 1}s",
        "segments": [{"name": "logged", "talkers": [{"name": "log", "on": 0, "frames": frames}]},
                     {"name": "body", "talkers": [{"name": "dashboard", "on": 0, "frames": []}]}],
        "controllers": [{"name": "gw_logged", "segment": "logged", "on": 0,
                         "filters": [{"accept": "3A0"}, {"accept": "18FEF100"}]},
                        {"name": "gw_body", "segment": "body", "on": 0}],
        "routes": [{"name": "some", "from": "gw_logged", "fifo": 0, "to": "gw_body"}]}


def text_of(script):
    """The script as JSON, with one frame in a line."""
    text = json.dumps(script, indent=1)
    return re.sub(r"\{\s+\"frame\": (\"[^\"]*\"),\s+\"at\": (\"[^\"]*\")\s+\}", r'{"frame": \1, "at": \2}', text)


def main():
    lines = pathlib.Path(sys.argv[1]).read_text().splitlines() if len(sys.argv) > 1 else drawn_log()
    print(text_of(script_of(lines)))


main()
