"""What the tests share: functions under test, buffers with guards, counting.

A service has one text and one table, or two of each, perhaps a buffer or a list to
write to, and perhaps numbers or words beside the answer. Its function takes the address
and length of each text, then of each table, then of the buffer or list, then the address
of the answer and that of what stands beside it. In the model it is a function of the
texts, the tables, the buffer or list, and what stands beside the answer.
"""

import argparse
import copy
import ctypes
import os
from array import array

import model

DEFAULT_SEED = 1

GUARD = 8       # words, or bytes, before and behind each buffer
ANSWER = 4      # words of an answer

# What tables, lists and answers have; texts and buffers; dates.
WORDS, BYTES, NUMBERS = "I", "B", "q"

# Around a text stand bytes that a reader running on would take for more of it.
TEXT_GUARDS = b'"]}0 ,:a'


# The function under test.

def shape(texts, rooms=(), beside=None):
    """The type of a function with this many texts, as many tables, these kinds of buffers or lists, and perhaps a kind and
    a count of what stands beside the answer."""
    buffer = [ctypes.c_void_p, ctypes.c_size_t]
    behind = [ctypes.c_void_p] * (2 if beside else 1)
    return ctypes.CFUNCTYPE(None, *(buffer * (2 * texts + len(rooms))), *behind)


def load(path, name, texts, rooms=(), beside=None):
    """A function of the shared library at the path."""
    function = getattr(ctypes.CDLL(os.path.abspath(path)), name)
    function.restype = shape(texts, rooms, beside)._restype_
    function.argtypes = shape(texts, rooms, beside)._argtypes_
    return function


def model_function(service, texts, rooms=(), beside=None):
    """A service of the model as a function of the library's shape."""
    kind, count = beside or (Words, 0)
    codes = [WORDS] * texts + [room.code for room in rooms] + [kind.code]
    paired = 2 * (2 * texts + len(rooms))

    def function(*arguments):
        buffers = list(zip(arguments[0:paired:2], arguments[1:paired:2]))
        answer, *behind = arguments[paired:]
        found = [ctypes.string_at(*buffer) for buffer in buffers[:texts]]
        places = buffers[texts:] + [(address, count) for address in behind]
        lent = [read_items(code, *place) for code, place in zip(codes, places)]
        words = service(*found, *lent)
        for code, (address, _), items in zip(codes, places, lent):
            write_items(code, address, items)
        write_items(WORDS, answer, words)
    return shape(texts, rooms, beside)(function)


def read_items(code, address, count):
    return array(code, ctypes.string_at(address, array(code).itemsize * count)).tolist()


def write_items(code, address, items):
    found = array(code, items).tobytes()
    ctypes.memmove(address, found, len(found))


# Buffers with guards.

class Words:
    """Random words with guard words before and behind."""

    code, name = WORDS, "list"

    def __init__(self, count, chance):
        self.count = count
        self.memory = array(self.code, chance.randbytes(array(self.code).itemsize * (count + 2 * GUARD)))
        self.found = self.memory[:]

    def again(self):
        """Another one with the same words and guards."""
        other = copy.copy(self)
        other.memory = self.found[:]
        return other

    def address(self):
        return self.memory.buffer_info()[0] + self.memory.itemsize * GUARD

    def words(self):
        return self.memory[GUARD:GUARD + self.count].tolist()

    def expect(self, words):
        """Whether the words are these and the guards as found."""
        wanted = self.found[:]
        wanted[GUARD:GUARD + self.count] = array(self.code, words)
        return self.memory == wanted

    def guards_touched(self):
        behind = GUARD + self.count
        return (self.memory[:GUARD] != self.found[:GUARD]
                or self.memory[behind:] != self.found[behind:])


class Bytes(Words):
    """A buffer to write to: random bytes with guard bytes before and behind."""

    code, name = BYTES, "buffer"


class Numbers(Words):
    """Random numbers of 64 bits, with a sign, with others before and behind."""

    code, name = NUMBERS, "numbers"


class Text:
    """The bytes of a text with other bytes before and behind."""

    def __init__(self, text, chance):
        before = bytes(chance.choices(TEXT_GUARDS, k=GUARD))
        behind = bytes(chance.choices(TEXT_GUARDS, k=GUARD))
        self.count = len(text)
        self.memory = array(BYTES, before + text + behind)
        self.found = self.memory[:]

    def address(self):
        return self.memory.buffer_info()[0] + GUARD

    def unchanged(self):
        return self.memory == self.found


# Table lengths.

def rows_needed(text, limit=model.DOCUMENT_LIMIT, depth=model.DOCUMENT_DEPTH):
    """The rows of a well-formed text; None for any other."""
    code, _, _, rows = model.read(text, [], limit, depth)
    return rows if code == model.NO_ROOM else None


def exact_length(rows, chance):
    """Exactly enough words; a text that is not well-formed is given some."""
    return model.ROW_WORDS * (chance.choice([0, 10, 100]) if rows is None else rows)


def length_with_room(rows, chance):
    """Words that hold every row: exactly enough, or more."""
    exact = exact_length(rows, chance)
    return exact + chance.choice([0, 0, 0, 1, model.ROW_WORDS - 1, model.ROW_WORDS, chance.randint(1, 30)])


def any_length(rows, chance):
    """A few words, about enough, one row less, or more."""
    exact = exact_length(rows, chance)
    less = exact - model.ROW_WORDS
    near = [less, less, exact - 1, exact, exact + 1, exact + chance.randint(1, 30)]
    return max(0, chance.choice([chance.randint(0, model.ROW_WORDS + 1)] * 3 + near))


def pair_lengths(needed, chance):
    """Lengths of both tables: with room for both texts, then of any kind."""
    roomy = [length_with_room(rows, chance) for rows in needed]
    other = [any_length(rows, chance) for rows in needed]
    return [roomy, chance.choice([[other[0], roomy[1]], [roomy[0], other[1]], other])]


# Comparing.

def compare(function, service, texts, lengths, chance, rooms=(), beside=None):
    """Runs the function and the model once, with these buffers or lists and this beside the answer; gives whether they
    agree."""
    buffers = [Text(text, chance) for text in texts]
    lent = {"table %d" % number: Words(length, chance) for number, length in enumerate(lengths, 1)}
    lent.update({room.name: room for room in rooms})
    answer = Words(ANSWER, chance)
    behind = {"%s beside the answer" % beside.name: beside} if beside else {}
    before = addresses([*buffers, *lent.values()])
    lent.update(behind)
    wanted_words = {name: words.words() for name, words in lent.items()}
    wanted = service(*texts, *wanted_words.values())
    function(*before, answer.address(), *[words.address() for words in behind.values()])
    differences = [] if answer.expect(wanted) else ["answer"]
    differences += [name for name, words in lent.items() if not words.expect(wanted_words[name])]
    differences += ["buffer of text %d" % number for number, buffer in enumerate(buffers, 1) if not buffer.unchanged()]
    if differences:
        report(texts, lent, answer, wanted, wanted_words, differences)
    return not differences


def addresses(buffers):
    """Address and length of each buffer in turn."""
    return [word for buffer in buffers for word in (buffer.address(), buffer.count)]


def report(texts, lent, answer, wanted, wanted_words, differences):
    for number, text in enumerate(texts, 1):
        print("text %d: " % number, text.hex())
    print("lengths:", ", ".join("%s %d" % (name, words.count) for name, words in lent.items()))
    print("model:  ", *wanted)
    print("library:", *answer.words())
    print("differs:", ", ".join(differences))
    report_guards("answer", answer)
    for name, words in lent.items():
        report_guards(name, words)
        report_word(name, wanted_words[name], words.words())


def report_guards(name, words):
    if words.guards_touched():
        print("guards of the", name, "changed")


def report_word(name, wanted, found):
    """The first word that differs."""
    for number, (want, got) in enumerate(zip(wanted, found)):
        if want != got:
            print(name, "at", number, "model", want, "library", got)
            break


def tables_are(service, text1, text2, words1, words2, answer, holds1, holds2):
    """The model's answer, and each table with its rows or as found."""
    table1, table2 = [77] * words1, [77] * words2
    return (service(text1, text2, table1, table2) == answer
            and table_is(table1, text1, holds1) and table_is(table2, text2, holds2))


def table_is(table, text, holds):
    """The rows of the text if it holds them; the other words as found."""
    wanted = [77] * len(table)
    if holds:
        model.read(text, wanted)
    return table == wanted


# Counting.

def count_in_turn(*tests):
    """Passed and failed cases of tests, each a pair of its cases and whether
    a case holds; stops at the first failure."""
    passed = 0
    for cases, holds in tests:
        for case in cases:
            if not holds(case):
                return passed, 1
            passed += 1
    return passed, 0


def count_all(results):
    """Passed and failed results; prints the name of each failed one."""
    passed = failed = 0
    for name, right in results:
        passed += right
        failed += not right
        if not right:
            print("failed:", name)
    return passed, failed


def finish(passed, failed):
    """Prints the last line; gives the status."""
    print(passed, "passed,", failed, "failed")
    return 1 if failed else 0


def arguments(description, default_count):
    parser = argparse.ArgumentParser(description=description)
    parser.add_argument("library", nargs="?", help="path of the shared library")
    parser.add_argument("--self", action="store_true", help="the model against itself")
    parser.add_argument("--model", action="store_true", help="only the model's own cases")
    parser.add_argument("--count", type=int, default=default_count, help="generated cases")
    parser.add_argument("--seed", type=int, default=DEFAULT_SEED)
    found = parser.parse_args()
    if not (found.model or found.self or found.library):
        parser.error("give a library, --self or --model")
    return found
