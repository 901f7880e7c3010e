"""Frames on the wire and nodes of a segment, bit by bit: the part of the second model that is CAN.

Written from the rules of the Bosch CAN Specification 2.0 and of ISO 11898-1, and not from the program."""

DOMINANT, RECESSIVE = 0, 1


# ---- frames on the wire


def levels(number, width):
    return [number >> (width - 1 - place) & 1 for place in range(width)]


def number(some_levels):
    return int("".join(map(str, some_levels)) or "0", 2)


def crc(text):
    register = 0
    for level in text:
        feedback = level ^ register >> 14
        register = register << 1 & 0x7FFF
        if feedback:
            register ^= 0x4599
    return register


def is_remote(frame):
    return "data" not in frame


def fields(frame):
    """The levels from SOF to the last byte, each with whether it stands before RTR, is RTR, or comes behind it."""
    code = frame["remote"] if is_remote(frame) else len(frame["data"])
    if frame["ext"]:
        before = levels(frame["id"] >> 18, 11) + [1, 1] + levels(frame["id"] & 0x3FFFF, 18)
    else:
        before = levels(frame["id"], 11)
    behind = [0, 0] + levels(code, 4)
    for byte in [] if is_remote(frame) else frame["data"]:
        behind += levels(byte, 8)
    return ([(0, "sof")] + [(level, "before") for level in before]
            + [(int(is_remote(frame)), "rtr")] + [(level, "behind") for level in behind])


def key(frame):
    """What decides in arbitration, as a number of 32 bits: the field from the identifier to RTR and IDE. The lower
    wins."""
    field = [level for level, _ in fields(frame)][1:33 if frame["ext"] else 14]
    return number(field + [0] * (32 - len(field)))


def wire(frame):
    """What the sender drives, SOF to EOF: each level with its kind."""
    plain = fields(frame)
    plain += [(level, "behind") for level in levels(crc([level for level, _ in plain]), 15)]
    out, run, last = [], 0, None
    for level, kind in plain:
        out.append((level, kind))
        run = run + 1 if level == last else 1
        last = level
        if run == 5:
            last, run = 1 - level, 1
            out.append((last, "stuffed" if kind in ("sof", "before") else "behind"))
    return out + [(1, "behind"), (1, "ack"), (1, "behind")] + [(1, "behind")] * 7


def frame_text(frame):
    identifier = f"{frame['id']:0{8 if frame['ext'] else 3}x}"
    if is_remote(frame):
        return f"{identifier} remote {frame['remote']}"
    return f"{identifier} data {bytes(frame['data']).hex() or '-'}"


class Reader:
    """What a receiver makes of the levels from SOF on."""

    def __init__(self):
        self.text, self.run, self.last = [], 0, None
        self.tail = None  # how many levels behind the stuffed region were read
        self.frame, self.is_crc_right = None, None

    def is_at_ack_slot(self):
        return self.tail == 1

    def code_place(self):
        return 35 if self.text[13] else 15

    def length(self):
        """How many levels the region has without its stuff bits, once that is known."""
        if len(self.text) < 14 or len(self.text) < self.code_place() + 4:
            return None
        place = self.code_place()
        remote = self.text[32] if self.text[13] else self.text[12]
        code = min(8, number(self.text[place:place + 4]))
        return place + 4 + (0 if remote else 8 * code) + 15

    def close(self):
        text, place = self.text, self.code_place()
        extended = text[13] == 1
        frame = {"ext": extended}
        frame["id"] = number(text[1:12]) << 18 | number(text[14:32]) if extended else number(text[1:12])
        code = min(8, number(text[place:place + 4]))
        if text[32] if extended else text[12]:
            frame["remote"] = code
        else:
            frame["data"] = [number(text[place + 4 + 8 * i:place + 12 + 8 * i]) for i in range(code)]
        self.frame, self.tail = frame, 0
        self.is_crc_right = crc(text[:-15]) == number(text[-15:])

    def push(self, level):
        """The name of an error, 'taken' at the last but one bit of EOF, 'last' at the last one, or None."""
        if self.tail is not None:
            return self.push_tail(level)
        if self.run == 5:
            if level == self.last:
                return "stuff"
            self.run, self.last = 1, level
        else:
            self.run = self.run + 1 if level == self.last else 1
            self.last = level
            self.text.append(level)
        if len(self.text) == self.length() and self.run < 5:
            self.close()
        return None

    def push_tail(self, level):
        self.tail += 1
        if self.tail == 2:  # the ACK slot
            return None
        if self.tail == 10:
            return "last"
        if self.tail == 3 and not self.is_crc_right:
            return "crc" if level == RECESSIVE else "form"
        if level == DOMINANT:
            return "form"
        return "taken" if self.tail == 9 else None


# ---- nodes


class Node:
    """A node of a segment: it drives a level, samples one, and counts its errors."""

    def __init__(self, on):
        self.on, self.state, self.count = on, "sync", 0
        self.tec, self.rec = 0, 0
        self.is_sender, self.may_join = False, False
        # of the frame that it sends or takes: its SOF, and what was read of it; of the one that it sends the next place
        self.start, self.reader = None, None
        self.frame, self.wire, self.place = None, None, None
        # of a flag and what follows it: the last level, dominant bits in a row, and which of these counts first
        self.last, self.run, self.first = None, 0, None
        self.is_overload, self.is_first, self.owes = False, False, False
        self.runs = 0  # of eleven recessive bits, in bus off

    def is_off(self):
        return self.tec >= 256

    def is_passive(self):
        return self.tec >= 128 or self.rec >= 128

    def state_text(self):
        return "off" if self.is_off() else "passive" if self.is_passive() else "active"

    def wants_start(self):
        return self.state == "idle" or self.may_join

    def begin(self, frame, bit):
        self.frame, self.wire = frame, wire(frame)
        if self.state == "idle":
            self.start, self.place, self.reader = bit, 0, Reader()
        else:
            self.place = 1  # SOF stood at the bit before
        self.state, self.is_sender, self.may_join = "send", True, False

    def drive(self):
        if self.state == "send":
            return self.wire[self.place][0]
        if self.state == "take":
            return DOMINANT if self.reader.is_at_ack_slot() and self.reader.is_crc_right else RECESSIVE
        return DOMINANT if self.state == "active flag" else RECESSIVE

    def count_sender(self, amount):
        self.tec += amount

    def count_receiver(self, amount):
        self.rec = min(255, self.rec + amount)

    def count_role(self, amount):
        if self.is_sender:
            self.count_sender(amount)
        else:
            self.count_receiver(amount)

    def told(self, *lines):
        """These lines; or that the node went off, if its last counting made it so."""
        if self.is_off() and self.state != "off":
            self.state, self.count, self.runs = "off", 0, 0
            return [("off",)]
        return list(lines)

    def flag(self, is_passive, is_overload=False):
        """An error flag, or an overload flag, begins with the next bit."""
        self.state = "passive flag" if is_passive else "active flag"
        self.is_overload, self.count, self.run, self.last = is_overload, 0, 0, None

    def error(self, kind, counts=True, owes=False):
        """An error; one that doesn't count may be owed until a dominant bit of the passive flag."""
        was_passive = self.is_passive()
        if counts:
            self.count_role(8 if self.is_sender else 1)
        if self.is_off():
            return self.told()
        self.flag(was_passive)
        self.owes = owes
        return [("error", kind)]

    def take(self, bit):
        """This bit is the SOF of another node's frame."""
        self.state, self.is_sender, self.start, self.reader = "take", False, bit, Reader()
        self.reader.push(DOMINANT)

    def sample(self, level, bit):
        self.may_join = False
        # one method for each state
        return getattr(self, "at_" + self.state.replace(" ", "_"))(level, bit)

    def at_sync(self, level, bit):
        self.count = self.count + 1 if level == RECESSIVE else 0
        if self.count == 11:
            self.state = "idle"
        return []

    def at_idle(self, level, bit):
        if level == DOMINANT:
            self.take(bit)
        return []

    def at_off(self, level, bit):
        self.count = self.count + 1 if level == RECESSIVE else 0
        if self.count < 11:
            return []
        self.count, self.runs = 0, self.runs + 1
        if self.runs < 128:
            return []
        self.tec, self.rec, self.state = 0, 0, "idle"
        return [("back",)]

    def at_send(self, level, bit):
        driven, kind = self.wire[self.place]
        self.place += 1
        self.reader.push(level)
        if kind == "ack":
            if level == DOMINANT:
                return []
            return self.error("ack", counts=not self.is_passive(), owes=self.is_passive())
        if level == driven:
            return self.sent() if self.place == len(self.wire) else []
        if driven == RECESSIVE and kind in ("before", "rtr"):
            self.state, self.is_sender = "take", False
            return [("lost", self.start)]
        if driven == RECESSIVE and kind == "stuffed":
            return self.error("stuff", counts=False)
        return self.error("bit")

    def sent(self):
        self.tec = max(0, self.tec - 1)
        self.state, self.count = "intermission", 0
        return [("completed", self.start, self.frame)]

    def at_take(self, level, bit):
        acknowledges = self.drive() == DOMINANT
        answer = self.reader.push(level)
        if acknowledges:
            if level == RECESSIVE:
                return self.error("bit")
            self.rec = max(0, self.rec - 1) if self.rec < 128 else 120
            return []
        if answer == "taken":
            return [("took", self.start, self.reader.frame)]
        if answer == "last":
            if level == DOMINANT:
                self.flag(is_passive=False, is_overload=True)
            else:
                self.state, self.count = "intermission", 0
            return []
        return self.error(answer) if answer else []

    def count_dominant(self, level, first):
        """Dominant bits in a row: the `first`-th of them counts, and each eighth from there."""
        self.run = self.run + 1 if level == DOMINANT else 0
        if self.run >= first and (self.run - first) % 8 == 0:
            self.count_role(8)

    def at_active_flag(self, level, bit):
        self.count += 1
        if level == RECESSIVE:
            self.count_role(8)
        self.count_dominant(level, 14)
        if self.count == 6:
            self.state, self.count, self.first, self.is_first = "delimiter", 0, 14, True
        return self.told()

    def at_passive_flag(self, level, bit):
        if level == DOMINANT and self.owes:
            self.owes = False
            self.count_sender(8)
        self.count = self.count + 1 if level == self.last else 1
        self.last = level
        if self.count == 6:
            self.state, self.count, self.first, self.is_first = "delimiter", 0, 8, True
        return self.told()

    def at_delimiter(self, level, bit):
        is_first, self.is_first = self.is_first, False
        if self.count == 0 and level == DOMINANT:
            if is_first and not self.is_sender and not self.is_overload:
                self.count_receiver(8)
            self.count_dominant(level, self.first)
            return self.told()
        self.count += 1
        if level == DOMINANT:
            if self.count < 8:
                return self.error("form")
            self.flag(is_passive=False, is_overload=True)
        elif self.count == 8:
            self.state, self.count = "intermission", 0
        return []

    def at_intermission(self, level, bit):
        self.count += 1
        if self.count < 3:
            if level == DOMINANT:
                self.flag(is_passive=False, is_overload=True)
            return []
        waits = self.is_sender and self.is_passive()
        if level == DOMINANT:
            self.take(bit)
            self.may_join = not waits
        else:
            self.state, self.count = ("suspend" if waits else "idle"), 0
        return []

    def at_suspend(self, level, bit):
        self.count += 1
        if level == DOMINANT:
            self.take(bit)
        elif self.count == 8:
            self.state = "idle"
        return []
