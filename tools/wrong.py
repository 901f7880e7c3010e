"""The wrong scripts and event lists of examples/wrong/, each with the fault that it is refused for, and others that
are too long to be stored."""

import json
import pathlib

WRONG = pathlib.Path(__file__).resolve().parent.parent / "examples/wrong"
ONE = (WRONG / "one.json").read_text()
TWO = (WRONG / "two.json").read_text()
THREE = (WRONG / "three.json").read_text()


def rows(name):
    for number, line in enumerate((WRONG / name).read_text().splitlines(), start=1):
        if not line.startswith("#"):
            yield f"{name}, line {number}", line.split("\t")


def changed(text, old, new):
    if text.count(old) != 1:
        raise ValueError(f"{old} is there {text.count(old)} times")
    return text.replace(old, new)


def wrong_scripts(has_version_3=True):
    """Gives of each row of scripts.tsv the fault and the script's text: the one it names, with its changes made. Rows
    of version 3 can be left out."""
    for _, (name, fault, *changes) in rows("scripts.tsv"):
        if name == "three" and not has_version_3:
            continue
        text = (WRONG / f"{name}.json").read_text()
        for old, new in zip(changes[::2], changes[1::2], strict=True):
            text = changed(text, old, new)
        yield fault, text


def wrong_lists():
    """Gives of each row of event-lists.tsv the fault and the list's text."""
    for _, (fault, text) in rows("event-lists.tsv"):
        yield fault, text


def wrong_texts():
    """Texts that are no JSON, or no object; a field that is there twice; and each beginning of a script."""
    for text in ["null", "7", '"version"', '[{"version":1}]', "[" * 127 + "]" * 127]:
        yield "J3 Kind script", text.encode()
    for bits in ['"bits":1e400', '"bits":10,"x":-1e400', '"bits":010', '"bits":+10', "\"bits\":'10'",
                 '"bits":10,"x":"\\ud800"', '"bits":10,"x":NaN', '"bits":10,,"x":0', '"bits":1e400,"bits":10']:
        yield "J1 NotJson", changed(ONE, '"bits":10', bits).encode()
    for bits, fault in [('"bits":10,"bits":0', "J4 Range bits"), ('"bits":10,"bits":null', "J3 Kind bits"),
                        ('"bits":0,"bits":2', "J4 Range on")]:
        yield fault, changed(ONE, '"bits":10', bits).encode()
    for text in [(ONE + ONE).encode(), ("[" * 128 + "]" * 128).encode(), b'{"version":1,"x":"\xff"}',
                 b'{"version":1,"x":"\xed\xa0\x80"}', b'\xef\xbb\xbf{"version":1}', b'{"version":1}\0']:
        yield "J1 NotJson", text
    whole = ONE.strip().encode()
    for length in range(len(whole)):
        yield "J1 NotJson", whole[:length]


def zeros(count):
    return ",".join(["0"] * count)


def listed(name, count, rest):
    return "".join(f'{{"name":"{name}{number}",{rest}}},' for number in range(count))


def too_long():
    """Lists that are just not too long, and lists with one element more; and a node and a route too many."""
    for text, name, most in [(ONE, "frames", 10_000), (ONE, "faults", 10_000), (ONE, "aborts", 1_000),
                             (TWO, "rewrite", 32), (TWO, "banks", 28)]:
        old = f'"{name}":[{{'
        for count, fault in [(most, f"J3 Kind {name}"), (most + 1, f"J8 TooMany {name}")]:
            yield fault, changed(text, old, f'"{name}":[{zeros(count)}],"x":[{{')
    # sixteen nodes of a segment go before its talker t, and with t before its controller c
    talkers = listed("u", 16, '"on":0,"frames":[]')
    yield "J8 TooMany talkers", changed(ONE, '"talkers":[{', f'"talkers":[{talkers}{{')
    controllers = listed("e", 15, '"segment":"a","on":0,"banks":[]')
    few = changed(ONE, ',{"name":"d","segment":"b","on":0,"banks":[]}', "")
    yield "J8 TooMany controllers", changed(few, '"controllers":[{', f'"controllers":[{controllers}{{')
    # eight routes into d besides r
    more = changed(ONE, '"controllers":[{', '"controllers":[' + listed("e", 4, '"segment":"a","on":0,"banks":[]') + "{")
    routes = "".join(f',{{"name":"r{place}","from":"e{place // 2}","fifo":{place % 2},"to":"d"}}' for place in range(8))
    yield "J8 TooMany routes", changed(more, '"to":"d"}', '"to":"d"}' + routes)


def right_scripts():
    """What is just not wrong: a bank above 13 in version 2, and entries that say nothing in version 1."""
    yield ONE
    yield TWO
    yield changed(TWO, '"bank":8', '"bank":27')
    yield changed(TWO, '"version":2', '"version":1')
    yield changed(changed(TWO, '"version":2', '"version":1'), '"rewrite":[', '"rewrite":[0,')


def too_long_3():
    """Lists of version 3 that are just not too long, and lists with one element more; a node and a route too many."""
    for name, most in [("frames", 10_000), ("faults", 10_000), ("aborts", 1_000), ("rewrite", 32), ("filters", 28),
                       ("banks", 28)]:
        old = f'"{name}":[{{'
        for count, fault in [(most, f"J3 Kind {name}"), (most + 1, f"J8 TooMany {name}")]:
            yield fault, changed(THREE, old, f'"{name}":[{zeros(count)}],"comment":[{{')
    # 64 nodes of a segment go before its talker t; and 63, with t, before its controller c
    for count, fault in [(64, "J8 TooMany talkers"), (63, "J8 TooMany controllers")]:
        talkers = listed("u", count, '"on":0,"frames":[]')
        yield fault, changed(THREE, '"talkers":[{', f'"talkers":[{talkers}{{')
    # the fields of the 65th node come first
    talkers = listed("u", 64, '"on":0,"frames":[]')
    yield "J4 Range frame", changed(changed(THREE, "0C0#0102", "0C0"), '"talkers":[{', f'"talkers":[{talkers}{{')
    # eight routes into d besides r
    controllers = listed("e", 4, '"segment":"a","on":0')
    more = changed(THREE, '"controllers":[{', f'"controllers":[{controllers}{{')
    routes = "".join(f',{{"name":"r{place}","from":"e{place // 2}","fifo":{place % 2},"to":"d"}}' for place in range(8))
    yield "J8 TooMany routes", changed(more, '"18FF0100"}]}', '"18FF0100"}]}' + routes)


def with_comments(value):
    """The value with a comment in each of its objects."""
    if isinstance(value, list):
        return [with_comments(inner) for inner in value]
    if isinstance(value, dict):
        return {field: with_comments(inner) for field, inner in value.items()} | {"comment": [{"version": None}]}
    return value


def right_scripts_3():
    """What is just not wrong in version 3."""
    yield THREE
    yield json.dumps(with_comments(json.loads(THREE)))
    yield changed(THREE, '"version":3', '"version":3,"$schema":0,"comment":null')
    for old, *news in [
            ('"bitrate":500000', '"bitrate":1000', '"bitrate":1000000', '"comment":500000'),
            ('"bits":1000', '"bits":"2ms"', '"bits":"2000us"', '"bits":"000000002ms"', '"bits":"2001us"',
             '"bits":"1s"'),
            ('"on":2', '"on":999', '"on":"1999us"', '"on":"0s"'),
            ('"at":20', '"at":999', '"at":"1ms"', '"at":"0s"', '"comment":20'),
            ('"every":30,"times":4', '"every":1,"times":1000000', '"every":100000000', '"every":"200s"',
             '"every":"2us"', '"times":1,"every":999'),
            ('"0C0#0102"', '"7FF#"', '"7ff#R"', '"1FFFFFFF#R0"', '"00000000#0123456789abCDef"', '"0c0#R8"'),
            ('"18FEF100#R6"', '"18fef100#"', '{"frame":"000#"}', '{"id":0,"ext":true,"remote":0,"at":0,"every":7}',
             '{"id":0,"ext":false,"data":[],"remote":null}'),
            ('"123:7F0"', '"7FF"', '"000:000"', '"7ff:7FF"', '"1FFFFFFF:1FFFFFFF"', '"00000000"'),
            ('"remote":false,"fifo":1', '"remote":true,"fifo":0', '"fifo":1', '"remote":false'),
            ('"bank":8', '"bank":2', '"bank":27'),
            ('"banks":[{', '"comment":[{', '"banks":[],"comment":[{'),
            ('"filters":[{', '"comment":[{', '"filters":[],"comment":[{'),
            ('"fifo":1,"to":"d"', '"fifo":1,"queue":1,"to":"d"', '"fifo":1,"to":"d","queue":1024',
             '"fifo":1,"every":1,"burst":1,"to":"d"', '"fifo":1,"to":"d","burst":1000,"every":1000000',
             '"fifo":1,"to":"d","every":"2us"', '"fifo":1,"to":"d","every":"2s"'),
            ('"from":"0C0","to":"18FF0100"', '"to":"7ff","from":"1FFFFFFF"', '"from":"000","to":"000"'),
            ('"until":6', '"until":2', '"until":1000', '"until":"2ms"', '"comment":6',
             '"until":6,"segment":0,"level":null'),
            ('"bit":9,"until":70', '"bit":999', '"bit":"1999us"', '"bit":"18us","until":"20us"')]:
        for new in news:
            yield changed(THREE, old, new)
    # 1,000,000 instances, 64 nodes of a segment, 28 filters
    yield changed(changed(THREE, '"bits":1000', '"bits":1000000'), '"at":20,"every":30,"times":4',
                  '"every":1,"times":999998')
    yield changed(THREE, '"talkers":[{', '"talkers":[' + listed("u", 62, '"on":0,"frames":[]') + "{")
    filters = ",".join(['{"accept":"000"}'] * 26)
    most = changed(THREE, '{"accept":"0000000A"}', '{"accept":"0000000A"},' + filters)
    yield changed(most, '"banks":[{', '"comment":[{')
