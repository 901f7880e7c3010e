"""Counts the functions with a body in the sources of the crates that crates.txt lists, but for tests: closures and what
macros write are not counted. Prints their number."""

import pathlib
import re

ROOT = pathlib.Path(__file__).resolve().parent.parent
FUNCTION = re.compile(r"^[ \t]*(?:#\[test\][^{}]*?)?(?:pub(?:\(crate\))? )?(?:const )?fn \w+", re.M)
TEST = re.compile(r"#\[test\]\s*$")
CLAUSE = re.compile(r"\b(?:requires|ensures|ghost)\*?[^{}]*$")


def closing(text, place):
    """The place behind the brace that closes the one at this place."""
    depth = 0
    for at in range(place, len(text)):
        depth += {"{": 1, "}": -1}.get(text[at], 0)
        if depth == 0:
            return at + 1
    return len(text)


def has_body(text, place):
    """Whether the function whose name ends at this place has a body: a block that is not the one of a clause."""
    since = place
    while found := re.compile(r"[{;]").search(text, place):
        if found.group() == ";" or not CLAUSE.search(text[since:found.start()]):
            # the `;` of an array type stands in brackets
            before = text[since:found.start()]
            if found.group() == ";" and before.count("[") > before.count("]"):
                place = found.end()
                continue
            return found.group() == "{"
        place = since = closing(text, found.start())
    return False


def functions_in(text):
    return sum(has_body(text, found.end()) and not TEST.search(text[:found.start()])
               for found in FUNCTION.finditer(text))


def main():
    listed = re.findall(r"(?m)^([a-z]\w*)[^:\n]*:", (ROOT / "crates.txt").read_text())
    print(sum(functions_in(path.read_text()) for crate in listed for path in (ROOT / "crates" / crate / "src").rglob("*.rt")))


main()
