"""A model of Check with the path (02, L11), to be read beside the paper.

check_path() gives Check's answer, fills both tables, and with 20 to 22 puts the path into the
list: the rows from the value at "place" up to the top. The path is found on the tree of the
document, by the places of its values; the sixth words play no part in it.
"""

from bisect import bisect_left

import model
from model_check import NAME_MISSING, NO_DATE, WRONG_KIND, check

LEAST_LIST = 33     # words: the most brackets open at once, and the value inside them
STEPS = 1           # word beside the answer: how many rows the path has

MISFITS = (WRONG_KIND, NAME_MISSING, NO_DATE)


def check_path(document, schema, table1, table2, path, steps):
    """A short list is judged before everything; on other codes than 20 to 22 there are no steps."""
    if len(path) < LEAST_LIST:
        steps[0] = 0
        return (model.NO_ROOM, 0, 0, LEAST_LIST)
    answer = check(document, schema, table1, table2)
    found = path_of(document, answer[2]) if answer[0] in MISFITS else []
    path[:len(found)] = found
    steps[0] = len(found)
    return answer


def path_of(document, place):
    """The row numbers of the value that begins at a place and of those around it, from the inside."""
    top = model.tree(document)
    places = sorted(first_bytes(top))
    return [bisect_left(places, node.place) for node in reversed(chain(top, place))]


def chain(top, place):
    """The values that the place lies in, from the top down to the one that begins there."""
    found = [top]
    while found[-1].place != place:
        found.append(max((node for node in inside(found[-1]) if node.place <= place), key=lambda node: node.place))
    return found


def inside(node):
    """The values that stand in an array or object."""
    return node.content if node.kind == model.ARRAY else [member.value for member in node.content]


def first_bytes(node):
    """The first byte of each value and each name: rows stand in the order of these."""
    yield node.place
    if node.kind == model.OBJECT:
        yield from (member.place for member in node.content)
    if node.kind in (model.ARRAY, model.OBJECT):
        for under in inside(node):
            yield from first_bytes(under)
