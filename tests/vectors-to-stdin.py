#!/usr/bin/env python3
"""Turns the cases of base.txt, faults.txt and annotations.txt into the standard input of crates/vectors.

    python3 tests/vectors-to-stdin.py BASE.TXT FAULTS.TXT ANNOTATIONS.TXT > crates/vectors/stdin

Each has a case a line, each kind with fields of its own, and RULES telling which requests the answer supposes:

    check RULES TEXT = NUMBER STEPS CELLS LENGTH PLACE
    tidy RULES TEXT OUTLEN = NUMBER STEPS CELLS LENGTH PLACE OUT
    run RULES TEXT QUOTA MEMLEN OUTLEN = NUMBER STEPS CELLS LENGTH PLACE OUT

base.txt supposes none (`-`): its answers with 14 are changed to what they are since request 1 (shared/token_faults.py). faults.txt
supposes that one (`s`), and annotations.txt request 2 too (`sa`), so it is taken as it stands. Of the older two, lines whose answer
supposes that an annotation is an item are left out (shared/annotations.py): 78 of base.txt (8 check, 7 tidy, 63 run), none of
faults.txt; annotations.txt has 804 lines for such texts. Lines of other kinds are left out.

What is written has a case a line too, in the same order, and the same fields for every kind, so that one short proved
reader serves all of them:

    KIND QUOTA MEMLEN OUTLEN NUMBER STEPS CELLS LENGTH PLACE TEXT OUT

Fields are parted by one SP, and the last is ended by LF. KIND is 1 for READ, which the cases of both check and tidy are run
through, and 2 for RUN. A check case has no output of its own: it is lent one that is long enough, 1,000 bytes or as many as
the printed text has (LONG_ENOUGH), and is to find there the text without its marks (tidied). What a kind has not, its line has
as 0. Numbers are decimal. TEXT and OUT are bytes: the number of their runs, then for each run two fields, its LENGTH in bytes
and its pattern in hex, which is repeated until LENGTH bytes are filled. No bytes are `0`. So `5b*3+5d` of base.txt is
`2 3 5b 1 5d`, and `5b5d*2` is `1 4 5b5d`.
"""

import pathlib
import re
import sys

sys.path.insert(0, str(pathlib.Path(__file__).resolve().parent / "shared"))
from annotations import supposes_item
from base_form import expand, runs
from token_faults import renumbered

KINDS = {"check": 1, "tidy": 1, "run": 2}
READ = "3"
LONG_ENOUGH = 1000
MARK_OR_TOKEN = re.compile(rb"[ \n]|\{&[^}]*\}|(\{[^}]*\})")
BEFORE = "-"  # the rules of the time before request 1
NOW = "sa"  # those since request 2


def bytes_form(field):
    """A field of bytes: the number of its runs, then the length and the pattern of each."""
    words = [str(len(runs(field)))]
    for pattern, times in runs(field):
        words += [str(len(bytes.fromhex(pattern)) * times), pattern]
    return " ".join(words)


def tidied(field):
    """An accepted text without its marks: SP, LF and annotations, outside other tokens."""
    left = MARK_OR_TOKEN.sub(lambda found: found[1] or b"", expand(field))
    return field if left == expand(field) else left.hex() or "-"


def with_output(given, answer):
    """A check case as READ is asked: with an output that is long enough, and what it is to hold."""
    out = tidied(given[0]) if answer[0] == READ else "-"
    assert len(expand(out)) == int(answer[3])
    return [*given, str(max(LONG_ENOUGH, int(answer[3])))], [*answer, out]


def line_form(kind, given, answer):
    """A line of the form, from the fields on both sides of the `=`."""
    if kind == "check":
        given, answer = with_output(given, answer)
    text, *lent = given
    numbers, out = answer[:5], answer[5]
    lent = ["0"] * (3 - len(lent)) + lent
    return " ".join([str(KINDS[kind]), *lent, *numbers, bytes_form(text), bytes_form(out)])


def cases(name):
    """The cases of a file whose answers are known: the kind of each, what is given, and the answer as it is now."""
    with open(name, encoding="ascii") as lines:
        for line in lines:
            kind, rules, *fields = line.split()
            if kind not in KINDS:
                continue
            middle = fields.index("=")
            given, answer = fields[:middle], fields[middle + 1 :]
            if rules == NOW or not supposes_item(given, answer):
                yield kind, given, renumbered(given, answer) if rules == BEFORE else answer


def main():
    for name in sys.argv[1:]:
        for case in cases(name):
            print(line_form(*case))


main()
