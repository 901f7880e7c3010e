"""What holds of the copies of a frame on a line with faults, looked at in a report by plain loops.

An *attempt* is one transmission of a frame by a node, a *take* what a node reads of one; the *start* of either is the
bit of SOF. A node is *falsified* at a bit at which one of its node faults stands, or any line fault of its segment.
The lines of the report tell most of this. In which error state a sender was, and which starts a node read without
taking a frame, they don't: that is told by a run of the model, whose report must be the same."""

from collections import Counter
from dataclasses import dataclass

from can_model import frame_text
from model import plain

FAILURES = ("lost", "error", "off")


@dataclass
class Line:
    """An event of a report: `s 60 t completed 11 000 data -` has the rest `11 000 data -`."""

    segment: str
    bit: int
    node: str
    word: str
    rest: list


def event_lines(report):
    """The lines of a report that name a bit behind their segment, and a node and a word behind that."""
    lines = [text.split() for text in report.splitlines()]
    return [Line(words[0], int(words[1]), words[2], words[3], words[4:])
            for words in lines if len(words) > 3 and words[1].isdigit()]


class Faults:
    def __init__(self, script):
        self.on_lines = {(f["segment"], bit) for f in script["faults"] if "node" not in f
                         for bit in range(f["bit"], f["until"])}
        self.at_nodes = {(f["node"], bit) for f in script["faults"] if "node" in f
                         for bit in range(f["bit"], f["until"])}

    def falsify(self, segment, node, bits):
        return any((segment, bit) in self.on_lines or (node, bit) in self.at_nodes for bit in bits)


def unlike_lines(segment, lines):
    """What the model tells of attempts and takes is what the lines say, as far as they do."""
    told, sending = [], {}
    for line in lines:
        if line.word == "started":
            sending[line.node] = [line.bit, line.node, None, None]
            told.append(sending[line.node])
        elif line.node in sending and line.word in FAILURES + ("completed",):
            sending.pop(line.node)[2:] = line.bit, line.word
    if sorted(told) != sorted([a.first, a.node, a.end, a.ending] for a in segment.attempts()):
        yield f"{segment.name}: the lines tell other attempts than the model"
    taken = [(line.bit, line.node, int(line.rest[0])) for line in lines if line.word == "took"]
    if sorted(taken) != sorted((t.end, t.node, t.start) for t in segment.takes() if t.ending == "took"):
        yield f"{segment.name}: the lines tell other frames taken than the model"


def taken_behind_errors(segment, lines, faults):
    """A sender that was error active before it met an error drives an active error flag from the next bit on. So no
    node that is not falsified from there up to its take took, behind the error, a frame whose SOF is at most the first
    bit of the flag; nor then the frame of that attempt."""
    for attempt in segment.attempts():
        if attempt.state != "active" or attempt.ending not in ("error", "off"):
            continue
        for line in lines:
            if line.word != "took" or line.bit <= attempt.end or int(line.rest[0]) > attempt.end + 1:
                continue
            if not faults.falsify(segment.name, line.node, range(attempt.end + 1, line.bit + 1)):
                yield (f"{segment.name}: {line.node} took at {line.bit} a frame that began at {line.rest[0]},"
                       f" though error active {attempt.node} met an error at {attempt.end}")


def completed_but_not_taken(segment, lines, faults):
    """A frame was completed, and neither its sender nor this node is falsified from its start to the bit before. If the
    node read from that start on, and did not send from there itself, it took that frame at the bit before."""
    for line in lines:
        if line.word != "completed":
            continue
        told = line.rest[:4]  # the start, and the frame in three words
        bits = range(int(told[0]), line.bit)
        if faults.falsify(segment.name, line.node, bits):
            continue
        took = [other.node for other in lines
                if other.bit == line.bit - 1 and other.word == "took" and other.rest == told]
        for take in segment.takes():
            if take.start != bits.start or take.ending == "began" or take.node in took:
                continue
            if not faults.falsify(segment.name, take.node, bits):
                yield (f"{segment.name}: {take.node} read from {take.start} on and did not take at {line.bit - 1}"
                       f" what {line.node} completed at {line.bit}")


def not_in_queue(queue, place, line):
    """The frame that a talker begins is that of this place in its queue, and is due."""
    if place >= len(queue) or queue[place][1] != " ".join(line.rest):
        yield f"{line.node} begins {line.rest} at {line.bit}, which is not its frame {place}"
    elif queue[place][0] > line.bit:
        yield f"{line.node} begins its frame {place} at {line.bit}, which is due at {queue[place][0]}"


def begun_again(script, lines):
    """Of two attempts of one request the earlier one failed, and was not reaped. A controller's request is the route
    and the number that its lines end with. A talker's is a place in its queue, which is how many frames it completed
    before; what it sends is the frame of that place, and not before that is due."""
    listed = {talker["name"]: [(due, frame_text(frame)) for due, frame in talker["queue"]]
              for segment in script["segments"] for talker in segment["talkers"]}
    completed = Counter()  # of each node how many frames
    sending = {}  # by node, the request that it sends
    became = {}  # by node and request, what the last line said of it
    for line in lines:
        if line.word == "started":
            place = completed[line.node]
            request = place if line.node in listed else tuple(line.rest[3:])
            before = became.get((line.node, request))
            if before is not None and before not in FAILURES:
                yield f"{line.node} begins request {request} at {line.bit} again, which was {before} before"
            if line.node in listed:
                yield from not_in_queue(listed[line.node], place, line)
            sending[line.node] = request
            became[line.node, request] = "started"
        elif line.word in FAILURES + ("completed",) and line.node in sending:
            became[line.node, sending.pop(line.node)] = line.word
        if line.word == "completed":
            completed[line.node] += 1
        if line.word in ("completed", "reaped") and line.node not in listed:
            became[line.node, tuple(line.rest[-2:])] = line.word


def lost_on_routes(script, report, lines):
    """Of each route the frames accepted are those completed, aborted, overrun and held; and the numbers that its target
    completed differ, and rise where it sends by order of requests."""
    by_identifier = {c["name"] for c in script["controllers"] if not c["txfp"]}
    for route in script["routes"]:
        name = route["name"]
        for text in report.splitlines():
            words = text.split()
            if words[:2] == ["route", name]:
                count = dict(zip(words[2::2], map(int, words[3::2])))
                if count["accepted"] != sum(count[k] for k in ("completed", "aborted", "overrun", "held")):
                    yield f"the sum is wrong: {text}"
        numbers = [int(line.rest[5]) for line in lines
                   if line.node == route["to"] and line.word == "completed" and line.rest[4:5] == [name]]
        if len(set(numbers)) < len(numbers) or route["to"] not in by_identifier and numbers != sorted(numbers):
            yield f"route {name} completed {numbers}"


def violations(script, report, segments):
    """What does not hold of a report, where a run of the model has these segments."""
    script, lines = plain(script), event_lines(report)
    faults = Faults(script)
    found = [*begun_again(script, lines), *lost_on_routes(script, report, lines)]
    for segment in segments:
        own = [line for line in lines if line.segment == segment.name]
        found += unlike_lines(segment, own)
        found += taken_behind_errors(segment, own, faults)
        found += completed_but_not_taken(segment, own, faults)
    return found
