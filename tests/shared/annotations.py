"""Annotations are not names: which answers of base.txt and faults.txt suppose that a token whose text starts with `&` is an item.

Both files were worked out before request 2, which makes such a token mean nothing, like SP. A text that is refused for its own bytes or
for the memory lent (11 to 16, 21 to 25) is refused as before, since an annotation is still checked as a token. The other answers,
0 to 3, 17 and 18, tell of cells, of the printed text or of rewrites, and so may be others now; to work them out anew would take a whole
engine. `supposes_item` finds those lines. In their texts each `{&` opens an annotation, since all tokens are allowed and none holds a `{`.
"""

from base_form import expand

OF_THE_PLAN = {"0", "1", "2", "3", "17", "18"}


def supposes_item(given, answer):
    """Whether the answer to what is given, a text and maybe more, is one of a plan that has an annotation for an item."""
    return answer[0] in OF_THE_PLAN and b"{&" in expand(given[0])
