"""Texts made of right ones by small changes: bytes turned, cut, doubled, put in; tokens of JSON moved, taken out,
doubled and exchanged; and values of the JSON replaced, so that it stays JSON. `draw` is a random.Random."""

import json
import re

TOKEN = re.compile(rb'"(?:[^"\\]|\\.)*"|-?[0-9.eE+]+|true|false|null|[{}\[\],:]')
VALUES = [b"0", b"1", b"2", b"8", b"-1", b"1.0", b"1e3", b"1e400", b"18446744073709551616", b"1000000", b"1000001",
          b"16777215", b"16777216", b"536870912", b"true", b"false", b"null", b'""', b'"a"', b'"x y"', b"[]", b"{}",
          b'"version"', b'"name"', b'"data"', b'"remote"', b'"\\u0000"', b'"\xff"',
          # of version 3
          b'3', b'"frame"', b'"at"', b'"every"', b'"until"', b'"comment"', b'"10ms"', b'"0us"', b'"999999999s"',
          b'"7FF#"', b'"1FFFFFFF#R8"', b'"800#"', b'"123:7F0"', b'"000"']
FIELDS = ["comment", "$schema", "bitrate", "bits", "name", "on", "frame", "id", "data", "remote", "at", "every",
          "times", "filters", "banks", "accept", "fifo", "rewrite", "from", "to", "burst", "queue", "node", "segment",
          "bit", "until", "level", "x"]


def span(draw, text, most=40):
    """A part of the text, by its two ends."""
    first = draw.randrange(len(text) + 1)
    return first, min(len(text), first + draw.randint(0, most))


def turn_bits(draw, text):
    if not text:
        return text
    place = draw.randrange(len(text))
    return text[:place] + bytes([text[place] ^ 1 << draw.randrange(8)]) + text[place + 1:]


def cut(draw, text):
    first, last = span(draw, text)
    return text[:first] + text[last:]


def cut_off(draw, text):
    return text[:draw.randrange(len(text) + 1)]


def double(draw, text):
    first, last = span(draw, text)
    return text[:last] + text[first:]


def put_bytes(draw, text):
    place = draw.randrange(len(text) + 1)
    return text[:place] + bytes(draw.randrange(256) for _ in range(draw.randint(1, 4))) + text[place:]


def tokens(text):
    return [match.span() for match in TOKEN.finditer(text)]


def replace_token(draw, text):
    """A token becomes a value, or another token of the text."""
    all_tokens = tokens(text)
    if not all_tokens:
        return text
    first, last = draw.choice(all_tokens)
    start, end = draw.choice(all_tokens)
    return text[:first] + (draw.choice(VALUES) if draw.random() < 0.6 else text[start:end]) + text[last:]


def move_token(draw, text):
    all_tokens = tokens(text)
    if len(all_tokens) < 2:
        return text
    first, last = draw.choice(all_tokens)
    rest = text[:first] + text[last:]
    place = draw.choice([end for _, end in tokens(rest)] or [0])
    return rest[:place] + text[first:last] + rest[place:]


def move_tokens(draw, text):
    """Some tokens in a row change places with some others, or come a second time."""
    all_tokens = tokens(text)
    if len(all_tokens) < 4:
        return text
    one, two, three, four = sorted(draw.randrange(len(all_tokens)) for _ in range(4))
    ends = [all_tokens[place][0] for place in (one, two, three, four)]
    front, first, between, second, back = (text[:ends[0]], text[ends[0]:ends[1]], text[ends[1]:ends[2]],
                                           text[ends[2]:ends[3]], text[ends[3]:])
    if draw.random() < 0.3:
        return front + first + between + first + second + back
    return front + second + between + first + back


def holders(value):
    """The objects and lists in a value that hold something, itself first."""
    found = [value] if value and isinstance(value, (dict, list)) else []
    for inner in value.values() if isinstance(value, dict) else value if isinstance(value, list) else []:
        found += holders(inner)
    return found


def other_text(draw, text):
    """The text with a character more, less or another one, or a part of it twice."""
    place = draw.randrange(len(text) + 1)
    way = draw.random()
    if way < 0.3:
        return text[:place] + text[place + 1:]
    if way < 0.5:
        return text[:place] + text[place // 2:]
    character = draw.choice("0123456789ABCDEFabcdef#:Rrums \n\u0660")
    return text[:place] + character + text[place + (way < 0.8):]


def replace_value(draw, text):
    """A value of the JSON becomes another, comes a second time, has another name, or goes; other texts stay as they
    are."""
    try:
        value = json.loads(text)
    except (ValueError, RecursionError):
        return text
    all_holders = holders(value)
    if not all_holders:
        return text
    for _ in range(draw.choice([1, 1, 2])):
        holder, other = draw.choice(all_holders), draw.choice(all_holders)
        if not holder or not other:
            continue
        place = draw.choice(list(holder)) if isinstance(holder, dict) else draw.randrange(len(holder))
        there = draw.choice(list(other.values()) if isinstance(other, dict) else other)
        way = draw.random()
        if way < 0.08 and isinstance(holder, dict):
            holder[draw.choice(FIELDS)] = holder.pop(place)
        elif way < 0.15:
            del holder[place]
        elif way < 0.35 and isinstance(holder, list):
            holder.insert(draw.randrange(len(holder) + 1), holder[place])
        elif way < 0.6 and isinstance(holder[place], int):
            holder[place] += draw.choice([-1, 1, 7, 64, 1000])
        elif way < 0.6 and isinstance(holder[place], str):
            holder[place] = other_text(draw, holder[place])
        elif way < 0.8:
            # a copy, so that no value holds itself
            holder[place] = json.loads(json.dumps(there))
        else:
            holder[place] = draw.choice([0, 1, 8, -1, 1.5, 2**29, 2**64, True, False, None, "", "a", "x y", [], {}])
    return json.dumps(value, separators=(",", ":")).encode()


CHANGES = [turn_bits, cut, cut_off, double, put_bytes, replace_token, replace_token, move_token, move_tokens]


def mutated(draw, text):
    """The text with one to four changes; two in three stay JSON, so that what comes behind its reading is reached too."""
    if draw.random() < 0.65:
        return replace_value(draw, text)
    for _ in range(draw.choice([1, 1, 2, 4])):
        text = draw.choice(CHANGES)(draw, text)
    return text
