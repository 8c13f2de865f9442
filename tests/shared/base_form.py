"""The bytes that a field of base.txt stands for.

Bytes are hex, `-` for none; `HEX*COUNT` repeats, `+` joins: `5b*3+5d` is `[[[]`.
"""


def runs(field):
    """The runs of a field: each a pattern in hex and how often it stands there."""
    if field == "-":
        return []
    parted = (run.partition("*") for run in field.split("+"))
    return [(pattern, int(times) if star else 1) for pattern, star, times in parted]


def expand(field):
    return b"".join(bytes.fromhex(pattern) * times for pattern, times in runs(field))
