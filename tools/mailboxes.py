"""A second model of a controller's mailboxes: as a state of events, and as the words that threads share.

Both take the events of docs/EVENTS.md as dictionaries and answer with a refusal's code, or with None."""

MAILBOXES = range(3)
GREATEST = 16_777_215


def key(frame):
    """The arbitration key of a frame: the lower one wins."""
    remote = "remote" in frame
    if frame["ext"]:
        return frame["id"] >> 18 << 21 | 3 << 19 | (frame["id"] & 0x3FFFF) << 1 | remote
    return frame["id"] << 21 | remote << 20


class Core:
    """What each mailbox and each route's requests are, as the events tell it."""

    def __init__(self, routes, txfp):
        self.txfp, self.claims, self.queue = txfp, {}, []
        self.lists = [{"requested": [], "done": [], "aborted": [], "reaped": []} for _ in range(routes)]

    def at(self, mailbox):
        return next((w for w in self.queue if w["mailbox"] == mailbox), None)

    def apply(self, event):
        return getattr(self, event["event"])(**{name: value for name, value in event.items() if name != "event"})

    def claim(self, route, mailbox):
        if mailbox in self.claims or self.at(mailbox):
            return "C1"
        self.claims[mailbox] = route

    def request(self, route, mailbox, number, frame):
        if self.claims.get(mailbox) != route:
            return "C2"
        requested = self.lists[route]["requested"]
        if number > GREATEST or requested and number <= requested[-1]:
            return "C5"
        del self.claims[mailbox]
        requested.append(number)
        self.queue.append({"route": route, "number": number, "frame": frame, "mailbox": mailbox, "status": "pending",
                           "asked": False})

    def withdraw(self, route, mailbox):
        if self.claims.get(mailbox) != route:
            return "C2"
        del self.claims[mailbox]

    def schedule(self, mailbox):
        w = self.at(mailbox)
        if not w or w["status"] != "pending":
            return "C4"
        if self.txfp:
            goes = w is self.queue[0]
        else:
            goes = (all(x["status"] == "pending" for x in self.queue)
                    and w is min(self.queue, key=lambda x: (key(x["frame"]), x["mailbox"])))
        if not goes:
            return "C3"
        w["status"] = "scheduled"

    def start(self, mailbox):
        w = self.at(mailbox)
        if not w or w["status"] != "scheduled" or w["asked"]:
            return "C4"
        w["status"] = "transmitting"

    def complete(self, mailbox):
        w = self.at(mailbox)
        if not w or w["status"] != "transmitting":
            return "C4"
        self.leave(w, "done")

    def fail(self, mailbox):
        w = self.at(mailbox)
        if not w or w["status"] != "transmitting":
            return "C4"
        w["status"] = "scheduled"

    def abort(self, route, mailbox):
        w = self.at(mailbox)
        if not w:
            return "C4" if self.claims.get(mailbox) == route else "C2"
        if w["route"] != route:
            return "C2"
        if w["asked"]:
            return "C4"
        if w["status"] == "transmitting":
            w["asked"] = True
        else:
            self.leave(w, "aborted")

    def reap(self, mailbox):
        w = self.at(mailbox)
        if not w or w["status"] != "scheduled" or not w["asked"]:
            return "C4"
        self.leave(w, "reaped")

    def leave(self, w, to):
        self.queue.remove(w)
        self.lists[w["route"]][to].append(w["number"])

    def shown(self):
        """Claims, and what waits, the oldest first."""
        return (self.claims, [(w["mailbox"], w["route"], w["status"], w["asked"], w["number"], w["frame"])
                              for w in self.queue])


EMPTY, FILLING, PENDING, SCHEDULED, TRANSMITTING, ASKED, FAILED = 0x00, 0x01, 0x03, 0x07, 0x0F, 0x1F, 0x17
STATUS = {PENDING: ("pending", False), SCHEDULED: ("scheduled", False), TRANSMITTING: ("transmitting", False),
          ASKED: ("transmitting", True), FAILED: ("scheduled", True)}


def packed(frame, number):
    """The head and the bytes word of a frame under a number."""
    data = frame.get("data", [])
    code = frame.get("remote", len(data))
    head = frame["id"] | frame["ext"] << 29 | ("remote" in frame) << 30 | code << 31 | number << 35
    return head, sum(byte << 8 * place for place, byte in enumerate(data))


def unpacked(head, word):
    frame, code = {"id": head & 0x1FFFFFFF, "ext": bool(head >> 29 & 1)}, head >> 31 & 15
    if head >> 30 & 1:
        frame["remote"] = code
    else:
        frame["data"] = [word >> 8 * place & 0xFF for place in range(code)]
    return head >> 35, frame


class Words:
    """The control word and six payload words, by their bits alone; a route remembers its newest number."""

    def __init__(self, routes, txfp):
        self.control, self.payload, self.newest = 0 if txfp else 1 << 27, [(0, 0)] * 3, [0] * routes

    def lane(self, mailbox):
        return self.control >> 8 * mailbox & 0xFF

    def mark(self, mailbox):
        return self.lane(mailbox) & 0x1F

    def owner(self, mailbox):
        return self.lane(mailbox) >> 5

    def put(self, mailbox, lane):
        self.control = self.control & ~(0xFF << 8 * mailbox) | lane << 8 * mailbox

    def older(self, one, other):
        bit = self.control >> 23 + one + other & 1
        return bit == (one > other)

    def requested(self):
        return [m for m in MAILBOXES if self.mark(m) >= PENDING]

    def apply(self, event):
        return getattr(self, event["event"])(**{name: value for name, value in event.items() if name != "event"})

    def claim(self, route, mailbox):
        if self.lane(mailbox) != EMPTY:
            return "C1"
        self.put(mailbox, route << 5 | FILLING)

    def request(self, route, mailbox, number, frame):
        if self.lane(mailbox) != route << 5 | FILLING:
            return "C2"
        if number > GREATEST or number <= self.newest[route]:
            return "C5"
        self.payload[mailbox] = packed(frame, number)
        self.put(mailbox, route << 5 | PENDING)
        for other in MAILBOXES:
            if other < mailbox:
                self.control &= ~(1 << 23 + mailbox + other)
            elif other > mailbox:
                self.control |= 1 << 23 + mailbox + other
        if self.control >> 27 & 1:
            self.control += 1 << 28
        self.newest[route] = number

    def withdraw(self, route, mailbox):
        if self.lane(mailbox) != route << 5 | FILLING:
            return "C2"
        self.put(mailbox, EMPTY)

    def schedule(self, mailbox):
        if self.mark(mailbox) != PENDING:
            return "C4"
        requested = self.requested()
        if self.control >> 27 & 1:
            goes = (all(self.mark(m) == PENDING for m in requested)
                    and mailbox == min(requested, key=lambda m: (key(unpacked(*self.payload[m])[1]), m)))
        else:
            goes = all(self.older(mailbox, m) for m in requested if m != mailbox)
        if not goes:
            return "C3"
        self.put(mailbox, self.lane(mailbox) | 0x04)

    def start(self, mailbox):
        if self.mark(mailbox) != SCHEDULED:
            return "C4"
        self.put(mailbox, self.lane(mailbox) | 0x08)

    def complete(self, mailbox):
        if self.mark(mailbox) not in (TRANSMITTING, ASKED):
            return "C4"
        self.put(mailbox, EMPTY)

    def fail(self, mailbox):
        if self.mark(mailbox) not in (TRANSMITTING, ASKED):
            return "C4"
        self.put(mailbox, self.lane(mailbox) & ~0x08)

    def abort(self, route, mailbox):
        if self.lane(mailbox) == EMPTY or self.owner(mailbox) != route:
            return "C2"
        if self.mark(mailbox) in (FILLING, ASKED, FAILED):
            return "C4"
        if self.mark(mailbox) == TRANSMITTING:
            self.put(mailbox, self.lane(mailbox) | 0x10)
        else:
            self.put(mailbox, EMPTY)

    def reap(self, mailbox):
        if self.mark(mailbox) != FAILED:
            return "C4"
        self.put(mailbox, EMPTY)

    def shown(self):
        """Claims, and what waits, the oldest first."""
        claims = {m: self.owner(m) for m in MAILBOXES if self.mark(m) == FILLING}
        queue = sorted(self.requested(), key=lambda m: sum(self.older(x, m) for x in self.requested() if x != m))
        return claims, [(m, self.owner(m), *STATUS[self.mark(m)], *unpacked(*self.payload[m])) for m in queue]
