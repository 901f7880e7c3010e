"""Parts of scripts that are drawn at random, for the checks of the built program. `draw` is a random.Random."""


def some(draw, most, make):
    return [make(place) for place in range(draw.randint(0, most))]


def identifier(draw, extended_share=0.3):
    extended = draw.random() < extended_share
    # few identifiers, so that frames meet in arbitration
    number = draw.choice([0, 1, 0x123, 0x7FF, draw.randrange(2048)])
    return {"id": number << 18 | draw.choice([0, 0x3FFFF]) if extended else number, "ext": extended}


def frame(draw, extended_share=0.3, remote_share=0.2):
    result = identifier(draw, extended_share)
    if draw.random() < remote_share:
        return result | {"remote": draw.randint(0, 8)}
    return result | {"data": [draw.choice([0, 255, draw.randrange(256)]) for _ in range(draw.choice([0, 0, 1, 2, 8]))]}


def bank(draw, place):
    scale = draw.choice([16, 32])
    register = draw.choice([0, 0x123 << 21, 0x246000F, 0xFFFFFFFF, draw.randrange(2**32)])
    mask = draw.choice([0, 0, 0xFFE00006, 0x00080000, draw.randrange(2**32)])
    return {"bank": place, "scale": scale, "mode": draw.choice(["mask", "mask", "list"]), "fifo": draw.randint(0, 1),
            "active": draw.random() < 0.9, "r1": register, "r2": mask}


def talker(draw, name, bits):
    return {"name": name, "on": draw.choice([0, 0, draw.randrange(bits)]),
            "frames": some(draw, 8, lambda _: frame(draw))}


def banks(draw, version):
    if draw.random() < 0.6:
        return [{"bank": 0, "scale": 32, "mode": "mask", "fifo": draw.randint(0, 1), "active": True,
                 "r1": 0, "r2": 0}]
    return [bank(draw, place) for place in draw.sample(range(14 if version == 1 else 28), draw.randint(0, 4))]


def controller(draw, name, segments, bits, version=1):
    result = {"name": name, "segment": draw.choice(segments)["name"],
              "on": draw.choice([0, 0, 0, draw.randrange(bits)])}
    if draw.random() < 0.6:
        result["txfp"] = draw.random() < 0.3
    return result | {"banks": banks(draw, version)}


def rewrite(draw):
    new = identifier(draw)
    return identifier(draw) | {"new_id": new["id"], "new_ext": new["ext"]}


def route(draw, place, source, fifo, names):
    result = {"name": f"r{place}", "from": source, "fifo": fifo, "to": draw.choice(names)}
    # in version 1 the field says nothing
    if draw.random() < 0.5:
        result["rewrite"] = some(draw, draw.choice([1, 4, 32]), lambda _: rewrite(draw))
    return result


def routes(draw, controllers):
    names = [c["name"] for c in controllers]
    fifos = [(name, fifo) for name in names for fifo in (0, 1)]
    return [route(draw, place, name, fifo, names)
            for place, (name, fifo) in enumerate(draw.sample(fifos, draw.randint(0, min(8, len(fifos)))))]


def fault(draw, script):
    nodes = [t["name"] for s in script["segments"] for t in s["talkers"]] + [c["name"] for c in script["controllers"]]
    bit = draw.randrange(script["bits"])
    if nodes and draw.random() < 0.7:
        return {"node": draw.choice(nodes), "bit": bit}
    return {"segment": draw.choice(script["segments"])["name"], "bit": bit, "level": draw.randint(0, 1)}


def stuck(draw, script):
    """The line of a segment at one level for a while."""
    first, level = draw.randrange(script["bits"]), draw.randint(0, 1)
    last = min(script["bits"], first + draw.choice([7, 20, 400, 400]))
    return [{"segment": draw.choice(script["segments"])["name"], "bit": bit, "level": level}
            for bit in range(first, last)]


def abort(draw, script, turn):
    return {"route": draw.choice(script["routes"])["name"], "number": draw.randint(1, 4),
            "turn": draw.randint(1, script["bits"] // turn + 1)}


def script(draw):
    """A script of version 1 or 2, and how many bits lie between two turns of a route."""
    bits, version = draw.choice([60, 400, 1000, 2000, 5000]), draw.randint(1, 2)
    segments = [{"name": f"s{i}", "talkers": [talker(draw, f"t{i}{j}", bits) for j in range(draw.randint(0, 3))]}
                for i in range(draw.randint(1, 3))]
    controllers = [controller(draw, f"c{i}", segments, bits, version) for i in range(draw.randint(0, 4))]
    result = {"version": version, "bits": bits, "segments": segments, "controllers": controllers,
              "routes": routes(draw, controllers)}
    result["faults"] = some(draw, draw.choice([0, 3, 30]), lambda _: fault(draw, result))
    # only in a long run is a node error passive before, or back from bus off afterwards
    if draw.random() < (0.5 if bits >= 2000 else 0.1):
        result["faults"] += stuck(draw, result)
    turn = draw.choice([1, 1, 1, 10, 100])
    if result["routes"]:
        result["aborts"] = some(draw, 6, lambda _: abort(draw, result, turn))
    return result, turn
