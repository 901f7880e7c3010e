"""How faults are put into a script where they are wanted.

A *plot* runs beside the model: it sees the nodes behind the bits that were made so far, puts faults at the next bit,
and yields to have that bit made. Afterwards the faults stand in the script like any others."""

import model


class Bus:
    """A script under way, with the number of the next bit."""

    def __init__(self, script, turn):
        self.script, self.run, self.bit = script, model.Run(script, turn), 0
        self.segments = {member.name: segment for segment in self.run.segments for member in segment.members}
        self.nodes = {member.name: member.node for segment in self.run.segments for member in segment.members}

    def line(self, level, name="t0"):
        """The line of the segment on which this node is has this level at the next bit."""
        segment = self.segments[name]
        segment.line_faults.put(self.bit, level)
        self.script["faults"].append({"segment": segment.name, "bit": self.bit, "level": level})

    def flip(self, name):
        """This node samples the opposite of its line at the next bit."""
        self.segments[name].node_faults[name].put(self.bit, True)
        self.script["faults"].append({"node": name, "bit": self.bit})

    def force(self, draw, level, name):
        """The node samples this level at the next bit, at which its line has the other; perhaps all nodes there do."""
        if draw.random() < 0.5:
            self.flip(name)
        else:
            self.line(level, name)

    def hold(self, level, condition):
        """The line has this level while a condition holds."""
        while condition():
            self.line(level)
            yield

    def abort(self, request):
        """The request is to be given up in the next turn of its route."""
        route, turn = request.route, request.route.turns + 1
        self.script["aborts"].append({"route": route.name, "number": request.number, "turn": turn})
        route.aborts.append((request.number, turn))


def until(condition):
    """Lets bits go by until a condition holds."""
    while not condition():
        yield


def wait(bits):
    for _ in range(bits):
        yield


def sabotaged(draw, script, plot, turn=1):
    """The script with what the plot put into it. It ends a while behind that, when all nodes are on."""
    bus = Bus(script, turn)
    for _ in plot(bus):
        bus.run.make_bit(bus.bit)
        bus.bit += 1
        if bus.bit == script["bits"]:
            break
    last = max(bus.bit, *(node.on for node in bus.nodes.values()))
    script["bits"] = min(script["bits"], last + draw.randint(1, 250))
    return script, turn
