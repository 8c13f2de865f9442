"""What is wrong with a name: the answers with 14 of base.txt as they are since 14 was split into 21 to 25.

base.txt was worked out while every `{` that opens no allowed token was 14, at that `{`. Request 1 tells which fault it is, and at
which byte, so that these lines have another number and another place now; all others stand. `renumbered` changes those. It is a
plain reading of this table, and shares nothing with the crates or with the twin:

    21  nothing between the braces: at the closing brace
    22  the token's 64th byte (its `{` is the first) is there and is not `}`, and no `}` stands before it: at that byte
    22  the text ends before that, with no `}`: at the text's end
    23  no well-formed character begins here: at its first byte
    24  a character that no token may hold: at its first byte
    25  a `{` in the token: at that `{`

Every fault stands before the first `}` behind the `{` (an empty token's at it). The first by place is given, and at one place 22
comes before every other.
"""

from base_form import expand

BADTOKEN = "14"
TOKEN_LIMIT = 64
FORBIDDEN = {*range(0x00, 0x20), *range(0x7F, 0xA0), 0xFFFD}


def character(text, at):
    """The character that begins at a byte, or None where no well-formed one does. The codec's UTF-8 is that of RFC 3629."""
    for width in range(1, 5):
        try:
            return text[at : at + width].decode("utf-8")
        except UnicodeDecodeError:
            pass
    return None


def character_faults(text, begin, end):
    """The faults of the characters from one place to another, up to the first that is not well formed, with their places."""
    at = begin
    while at < end:
        read = character(text, at)
        if read is None:
            yield at, 23
            return
        if ord(read) in FORBIDDEN:
            yield at, 24
        if read == "{":
            yield at, 25
        at += len(read.encode("utf-8"))


def faults(text, opening):
    """All faults of what the `{` at a place opens, with their places."""
    closing = text.find(b"}", opening)
    last = opening + TOKEN_LIMIT - 1
    if closing == opening + 1:
        yield closing, 21
    if last < len(text) and b"}" not in text[opening : last + 1]:
        yield last, 22
    if len(text) <= last and closing == -1:
        yield len(text), 22
    yield from character_faults(text, opening + 1, closing if closing != -1 else len(text))


def first_fault(text, opening):
    """The place and the number of the fault that is given."""
    return min(faults(text, opening), key=lambda fault: (fault[0], fault[1] != 22))


def renumbered(given, answer):
    """The answer to what is given, a text and maybe more, as it is now: base.txt's own where its number is not 14."""
    if answer[0] != BADTOKEN:
        return answer
    place, number = first_fault(expand(given[0]), int(answer[4]))
    return [str(number), *answer[1:4], str(place), *answer[5:]]
