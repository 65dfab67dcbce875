"""Holds the program to the papers: its arguments, its files, its limits and its one line.

    python3 tests/program_test.py PROGRAM

A case is the arguments and the line that must be printed, with one newline and
nothing else. The lines are stated here and in the cases of the papers, or come
from the model.
"""

import contextlib
import itertools
import os
import pathlib
import shutil
import subprocess
import sys
import tempfile
import time

import edge_cases_check
import generate
import generate_pairs
import harness
import model
from model_check import check
from model_compare import compare

NO_FILE = "no file"
FILES = {"read": 1, "check": 2, "compare": 2}   # how many a command takes
TABLE = 16380                                   # words of each table
GENERATED = 400                                 # texts, and pairs for each of Check and Compare
NOBODY = 65534                                  # a user without rights, where the test runs as root

JSON = b'"JSON"'
BROKEN = b"[1,]"
LONG = 1000000


class Folder:
    """A folder that every user may enter, with a copy of the program and the files of the cases."""

    def __init__(self, path, program):
        self.path = pathlib.Path(path)
        self.path.chmod(0o755)
        self.program = shutil.copy(program, self.path)
        os.chmod(self.program, 0o755)
        self.names = {}

    def file(self, text):
        """The name of a file that holds this text."""
        if text not in self.names:
            self.names[text] = "%d.json" % len(self.names)
            self.write(self.names[text], text)
        return self.names[text]

    def write(self, name, text, mode=0o644):
        path = os.path.join(os.fsencode(self.path), os.fsencode(name))
        with open(path, "wb") as file:
            file.write(text)
        os.chmod(path, mode)
        return name

    def run(self, arguments, pieces, user):
        """What the program writes to both outputs, and its status; its input is written in pieces."""
        pipe = subprocess.PIPE
        running = subprocess.Popen([self.program, *arguments], cwd=self.path, stdin=pipe, stdout=pipe, stderr=pipe, **user)
        with contextlib.suppress(BrokenPipeError):  # where it stops reading, its line shows it
            for piece in pieces:
                running.stdin.write(piece)
                running.stdin.flush()
                time.sleep(0.01)
        return (*running.communicate(timeout=60), running.returncode)

    def result(self, case, pieces=(), user=None):
        """A case's description and whether it holds: the line, nothing on the other output, status 0."""
        arguments, line = case
        found = self.run(arguments, pieces, user or {})
        shown = " ".join(ascii(argument)[:60] for argument in arguments)
        name = os.path.basename(self.program)
        return "%s %s: wanted %r, found %r" % (name, shown, line, found), found == (line.encode() + b"\n", b"", 0)


def line_of(answer):
    return " ".join(map(str, answer))


# Texts.

def spaced(text, length):
    """The text with space before it, so that it has a length."""
    return b" " * (length - len(text)) + text


def ones(count):
    """An array of so many numbers, with one row more."""
    return b"[" + b",".join([b"1"] * count) + b"]"


def holding(count):
    """A schema that ignores an array of so many numbers, with five rows more."""
    return b'{"Object":{"x":' + ones(count) + b"}}"


# Each document with its refusal, None where it is read; each meets JSON.
DOCUMENTS = [
    (b"1", None),
    (spaced(b"1", 65536), None),
    (spaced(b"1", 65537), "1 1 65536 0"),
    (b"x" * LONG, "1 1 65536 0"),
    (b"", "2 1 0 0"),
    (BROKEN, "3 1 3 0"),
    (b'"\xff"', "4 1 1 0"),
    (b'"\\udc00"', "5 1 4 0"),
    (b'{"a":1,"a":2}', "6 1 9 0"),
    (b"[" * 33, "7 1 32 0"),
    (ones(2729), None),
    (ones(2730), "8 1 0 2731"),
]

# Each schema with its refusal, as text %d; the others are JSON.
SCHEMAS = [
    (JSON, None),
    (spaced(JSON, 16384), None),
    (spaced(JSON, 16385), "1 %d 16384 0"),
    (spaced(JSON, 65537), "1 %d 16384 0"),
    (b"x" * LONG, "1 %d 16384 0"),
    (b"", "2 %d 0 0"),
    (BROKEN, "3 %d 3 0"),
    (b"[" * 25, "7 %d 24 0"),
    (holding(2726), "8 %d 0 2731"),
    (b"[]", "10 %d 0 0"),
    (b'"Number"', "11 %d 0 0"),
    (b'{"Object":{"required":{"a":"JSON"},"optional":{"a":"JSON"}}}', "12 %d 47 0"),
]


# Cases: the arguments and the line.

def argument_cases(folder):
    """Another number of files than the command takes; a word that is no command."""
    file = folder.file(JSON)
    for command, files in FILES.items():
        for count in range(5):
            if count != files:
                yield [command] + [file] * count, NO_FILE
    yield [], NO_FILE
    words = ["", " ", "x", "Read", "READ", "rea", "reads", "read ", " read", "read\n", "-read", "--help", "write", "checks",
             "chec", "compares", "comparing", "compar", file, "x" * 8, "x" * 9, "x" * 100000]
    for word, count in itertools.product(words, range(4)):
        yield [word] + [file] * count, NO_FILE


def padded_name(name, length):
    """The same file by a longer path."""
    more = length - len(name)
    return "./" * (more // 2 - 1) + (".//" if more % 2 else "./") + name


def absent_names(folder):
    """Names by which nothing can be opened, or nothing read."""
    file = folder.file(JSON)
    longest = os.pathconf(folder.path, "PC_PATH_MAX") - 1
    (folder.path / "folder").mkdir()
    (folder.path / "link-to-folder").symlink_to("folder")
    (folder.path / "link-to-nothing").symlink_to("nothing")
    (folder.path / "link-to-itself").symlink_to("link-to-itself")
    return ["nothing", "nothing/" + file, "", " ", file + "/", file + "/x", file + " ", "folder", "folder/", ".", "/",
            "link-to-folder", "link-to-nothing", "link-to-itself", "x" * 256, "x" * 100000,
            padded_name(file, longest + 1), padded_name(file, longest + 2), padded_name(file, 2 * longest)]


def beside(folder):
    """Files that get a code of their own, and a name that is no file: `no file` stands before any code."""
    texts = [JSON, b"", BROKEN, b"[]", spaced(JSON, 16385), b"x" * LONG, holding(2726)]
    return [folder.file(text) for text in texts] + ["nothing"]


def absent_cases(folder, names):
    """A name that is no file in each place, beside each other file."""
    others = beside(folder)
    for name in names:
        yield ["read", name], NO_FILE
        for command, other in itertools.product(["check", "compare"], others):
            yield [command, name, other], NO_FILE
            yield [command, other, name], NO_FILE


def name_cases(folder):
    """Names by which a file is opened."""
    longest = os.pathconf(folder.path, "PC_PATH_MAX") - 1
    file = folder.file(BROKEN)
    (folder.path / "link").symlink_to(file)
    for name in ["a b", "read", "-", "--", "new\nline", b"\xff", "ü.json"]:
        folder.write(name, BROKEN)
    # a name that is not UTF-8 opens no file
    for words in [["read", b"\xff"], ["check", b"\xff", folder.file(JSON)], ["compare", folder.file(JSON), b"\xff"]]:
        yield words, NO_FILE
    names = ["a b", "read", "-", "--", "new\nline", "ü.json", "link", "./" + file, str(folder.path / file)]
    for name in names + [padded_name(file, longest - 1), padded_name(file, longest)]:
        yield ["read", name], "3 1 3 0"
        yield ["check", name, folder.file(JSON)], "3 1 3 0"
        yield ["compare", folder.file(JSON), name], "3 2 3 0"


def length_cases(folder):
    """Texts of exactly the limit, around it and far beyond, of several shapes."""
    for length in [65535, 65536, 65537, 65538, 131072, LONG]:
        line = "0 0 0 1" if length <= 65536 else "1 1 65536 0"
        for text in [spaced(b"1", length), b"1".ljust(length), b"1" * length, b'"' + b"a" * (length - 2) + b'"']:
            yield ["read", folder.file(text)], line
    yield ["read", folder.file(b" " * 65536)], "2 1 65536 0"
    yield ["read", folder.file(b" " * 65535 + b"x")], "3 1 65535 0"
    for length in [16383, 16384, 16385, 16386, 65536, 65537, LONG]:
        line = "0 0 0 0" if length <= 16384 else "1 %d 16384 0"
        for text in [spaced(JSON, length), JSON.ljust(length)]:
            yield ["check", folder.file(b"1"), folder.file(text)], line.replace("%d", "2")
            yield ["compare", folder.file(text), folder.file(JSON)], line.replace("%d", "1")
            yield ["compare", folder.file(JSON), folder.file(text)], line.replace("%d", "2")


def order_cases(folder):
    """Each document beside each schema, and each schema beside each: whose refusal is given."""
    for text, refusal in DOCUMENTS:
        rows = 2730 if text == ones(2729) else 1
        yield ["read", folder.file(text)], refusal or "0 0 0 %d" % rows
    for (document, refusal1), (schema, refusal2) in itertools.product(DOCUMENTS, SCHEMAS):
        line = refusal2 % 2 if refusal2 else refusal1 or "0 0 0 0"
        yield ["check", folder.file(document), folder.file(schema)], line
    for (new, refusal1), (old, refusal2) in itertools.product(SCHEMAS, SCHEMAS):
        line = refusal1 % 1 if refusal1 else refusal2 % 2 if refusal2 else "0 0 0 0"
        yield ["compare", folder.file(new), folder.file(old)], line


def room_cases(folder):
    """Tables of 16,380 words hold 2,730 rows."""
    file = folder.file
    members = b",".join(b'"%d":1' % i for i in range(1364))
    yield ["read", file(b"[{" + members + b"}]")], "0 0 0 2730"
    yield ["read", file(b"[{" + members + b',"x":1}]')], "8 1 0 2732"
    yield ["read", file(ones(32767))], "8 1 0 32768"
    yield ["read", file(ones(2730)[:-1] + b",]")], "3 1 5461 0"
    yield ["check", file(ones(2729)), file(b'{"Array":"Integer"}')], "0 0 0 0"
    yield ["check", file(ones(2729)), file(b'{"Map":"Integer"}')], "20 1 0 0"
    yield ["check", file(ones(2730)), file(b'{"Map":"Integer"}')], "8 1 0 2731"
    yield ["check", file(b"{}"), file(holding(2725))], "0 0 0 0"
    yield ["check", file(b"[]"), file(holding(2725))], "20 1 0 0"
    yield ["check", file(b"[]"), file(holding(2726))], "8 2 0 2731"
    yield ["check", file(b"[]"), file(b'{"Objects":' + ones(2727) + b"}")], "11 2 1 0"
    yield ["check", file(b"[]"), file(b'{"Objects":' + ones(2728) + b"}")], "8 2 0 2731"
    lines = {(2725, 2725): "0 0 0 0", (2726, 2725): "8 1 0 2731", (2725, 2726): "8 2 0 2731", (2727, 2726): "8 1 0 2732"}
    for (new, old), line in lines.items():
        yield ["compare", file(holding(new)), file(holding(old))], line
    yield ["compare", file(JSON), file(holding(2725))], "30 0 0 0"


def paper_cases(folder):
    """The pairs of the papers."""
    for command, cases in [("check", edge_cases_check.CHECK_CASES), ("compare", edge_cases_check.COMPARE_CASES)]:
        for first, second, answer in cases:
            yield [command, folder.file(first), folder.file(second)], line_of(answer)


def generated_cases(folder):
    """Generated texts and pairs, with the model's answer."""
    seed = harness.DEFAULT_SEED
    for text in itertools.islice(generate.texts(seed), GENERATED):
        yield ["read", folder.file(text)], line_of(model.read(text, [0] * TABLE))
    for command, service, pairs in [("check", check, generate_pairs.check_pairs(seed)),
                                    ("compare", compare, generate_pairs.schema_pairs(seed))]:
        for pair in itertools.islice(pairs, GENERATED):
            yield [command, *map(folder.file, pair)], line_of(service(*pair, [0] * TABLE, [0] * TABLE))


# Results: a description, and whether it holds.

def bound_user():
    """A user whom the rights of a file bind, as options of a process: root may read and write every file."""
    return {"user": NOBODY, "group": NOBODY, "extra_groups": []} if os.geteuid() == 0 else {}


def unreadable_results(folder):
    """A file that may not be read."""
    name = folder.write("unreadable", JSON, mode=0)
    user = bound_user()

    def may_read(name):
        return subprocess.run(["test", "-r", name], cwd=folder.path, **user).returncode == 0

    try:
        yield "a file that may not be read can be shown here", may_read(folder.file(JSON)) and not may_read(name)
        yield folder.result((["read", folder.file(JSON)], "0 0 0 1"), user=user)
        for case in absent_cases(folder, [name]):
            yield folder.result(case, user=user)
    except (OSError, subprocess.SubprocessError) as problem:
        yield "a file that may not be read cannot be shown here: %s" % problem, False


def pipe_results(folder):
    """A device, and a pipe that is written in pieces."""
    yield folder.result((["read", "/dev/null"], "2 1 0 0"))
    schema = folder.file(b'"Integer"')
    for text, read, met in [(b"", "2 1 0 0", "2 1 0 0"), (b"[1]", "0 0 0 2", "20 1 0 0"),
                            (spaced(b"1", 65536), "0 0 0 1", "0 0 0 0"), (spaced(b"1", 65537), "1 1 65536 0", "1 1 65536 0")]:
        pieces = [text[:1], text[1:2], text[2:40000], text[40000:]]
        yield folder.result((["read", "/dev/stdin"], read), pieces)
        yield folder.result((["check", "/dev/stdin", schema], met), pieces)


def results(folder):
    groups = [argument_cases(folder), absent_cases(folder, absent_names(folder)), name_cases(folder), length_cases(folder),
              order_cases(folder), room_cases(folder), paper_cases(folder), generated_cases(folder)]
    yield from map(folder.result, itertools.chain(*groups))
    yield from unreadable_results(folder)
    yield from pipe_results(folder)


def main():
    if len(sys.argv) != 2:
        sys.exit(__doc__)
    with tempfile.TemporaryDirectory() as path:
        return harness.finish(*harness.count_all(results(Folder(path, sys.argv[1]))))


if __name__ == "__main__":
    sys.exit(main())
