#!/usr/bin/env python3
"""Brings the cases of the roll and of LINK up to the rules of today.

    python3 tests/vectors-to-now.py roll ROLL.TXT ANNOTATIONS.TXT > tests/roll/vectors.txt
    python3 tests/vectors-to-now.py words WORDS.TXT FAULTS.TXT ANNOTATIONS.TXT > tests/words/vectors.txt

The first word names the family; the files are lists of cases with one case a line, of which the lines of that family are taken. RULES
tells which requests the answer supposes, and bytes are written as shared/base_form.py says:

    roll_read RULES ROLL LISTLEN = NUMBER ENTRIES FILED DONE PLACE PLACES
    roll_entry RULES ROLL AT = NUMBER JOBPLACE JOBLENGTH TEXTPLACE TEXTLENGTH
    roll_file RULES BUFFER USED FILED DONE JOB TEXT = NUMBER ENTRIES FILED DONE PLACE FILED' DONE' AT WRITTEN
    roll_done RULES BUFFER USED FILED DONE JOB = NUMBER ENTRIES FILED DONE PLACE FILED' DONE' AT WRITTEN
    link RULES LIST TEXT OUTLEN = NUMBER STEPS CELLS LENGTH PLACE OUT

What is written has the same form, without RULES. Every line is kept, in its order: 2,306 of the roll (2,213 of roll.txt and 93 of
annotations.txt) and 1,549 of LINK (926 of words.txt, 355 of faults.txt and 268 of annotations.txt). annotations.txt (`sa`) is taken as it
stands. What came after the others is made up for by two rules:

- Request 1 split 14 into 21 to 25. Such an answer of words.txt (`-`) gets the number and the place that shared/token_faults.py tells: 222
  lines. With 14 the place was that of the token's `{`.
- Request 2 made annotations of the tokens whose text starts with `&`. Where an older line (`-`, `s`) has such a token and its answer supposes
  that it is a name (shared/annotations.py), the `&` behind each `{` becomes a `_`, in what is given and in what is written. It is a name
  then as it was at that time, and of the same length, so that every number stands. These are 118 lines of words.txt, with 3, 17 or
  18, and 152 of roll.txt, every one with such a token but those of roll_entry. Refusals of a text or a list stand, as an annotation is still checked as a token
  is. The lines of annotations.txt are about annotations.
"""

import pathlib
import sys

sys.path.insert(0, str(pathlib.Path(__file__).resolve().parent / "shared"))
from annotations import OF_THE_PLAN
from base_form import expand, runs
from token_faults import renumbered

FAMILIES = {"roll": ["roll_read", "roll_entry", "roll_file", "roll_done"], "words": ["link"]}
# the fields of bytes: of what is given, and of the answer
GIVEN_BYTES = {"roll_read": [0], "roll_entry": [], "roll_file": [0, 5], "roll_done": [0], "link": [0, 1]}
OUT = 5
AT, WRITTEN = 7, 8
BEFORE = "-"  # the rules of the time before request 1
NOW = "sa"  # those since request 2


def named(given):
    """Bytes with a `_` for each `&` behind a `{`."""
    return given.replace(b"{&", b"{_")


def as_names(field):
    """The same of a field: run by run where that will do, as it is shorter."""
    left = named(expand(field))
    short = [(named(bytes.fromhex(pattern)).hex(), times) for pattern, times in runs(field)]
    by_runs = "+".join(pattern if times == 1 else f"{pattern}*{times}" for pattern, times in short) or "-"
    return by_runs if expand(by_runs) == left else left.hex()


def supposes_names(kind, given, answer):
    """Whether the answer to what is given supposes that annotations are names."""
    told = answer[0] in OF_THE_PLAN or kind != "link"
    return told and any(as_names(given[at]) != given[at] for at in GIVEN_BYTES[kind])


def with_names(kind, given, answer):
    """The line with names in place of annotations. Bytes of an entry that stood in the buffer before are not told as written, so the
    written ones are looked at in the whole buffer."""
    given, answer = list(given), list(answer)
    if kind in ("roll_file", "roll_done"):
        at, written, buffer = int(answer[AT]), expand(answer[WRITTEN]), expand(given[0])
        end = at + len(written)
        after = named(buffer[:at] + written + buffer[end:])
        answer[WRITTEN] = after[at:end].hex() or "-"
    if kind == "link":
        answer[OUT] = as_names(answer[OUT])
    for at in GIVEN_BYTES[kind]:
        given[at] = as_names(given[at])
    return given, answer


def now(kind, rules, given, answer):
    """A case as it is now."""
    if rules == BEFORE and kind == "link":
        answer = renumbered(given[1:], answer)
    if rules != NOW and supposes_names(kind, given, answer):
        given, answer = with_names(kind, given, answer)
    return " ".join([kind, *given, "=", *answer])


def lines_now(family, name):
    """The lines of a file that are of a family, as they are now."""
    with open(name, encoding="ascii") as lines:
        for line in lines:
            kind, rules, *fields = line.split()
            if kind in FAMILIES[family]:
                middle = fields.index("=")
                yield now(kind, rules, fields[:middle], fields[middle + 1 :])


def main():
    if len(sys.argv) < 3 or sys.argv[1] not in FAMILIES:
        print("usage: python3 tests/vectors-to-now.py roll|words LIST ...", file=sys.stderr)
        sys.exit(2)
    for name in sys.argv[2:]:
        for line in lines_now(sys.argv[1], name):
            print(line)


main()
