"""Holds the second program to its commands: the line, and which file is written.

    python3 tests/tools_test.py PROGRAM

A case is the arguments, the line, and the files that must be written, with their
bytes. All other files of the folder must be as they were, and no other may be there.
"""

import itertools
import os
import random
import resource
import signal
import stat
import subprocess
import sys
import tempfile

import edge_cases_compact
import edge_cases_counterexample
import edge_cases_dates
import edge_cases_path
import generate
import generate_failing
import generate_misfits
import generate_pairs
import generate_spellings
import harness
import model
from model_check import check
from model_compact import compact, spelling
from model_compare import NOT_CARRIED
from model_counterexample import LEAST_BUFFER, counterexample
from model_dates import NUMBERS, check_dates
from model_explain import SHOWN as LINE_BYTES, explained
from program_test import (BROKEN, DOCUMENTS, Folder, GENERATED, JSON, LONG, NO_FILE, SCHEMAS, absent_names, bound_user, line_of,
                          ones, padded_name, spaced)

FILE = b' { "b" : "\\u001F\\/" , "a" : [ 1.0 ] } '
WRITTEN = b'{"b":"\\u001f/","a":[1.0]}'
DONE = "0 0 0 25"
NEW_SCHEMA = b'{"Object":{"required":{"b":"Boolean","a":"Float"}}}'
OLD_SCHEMA = b'{"Object":{"required":{"a":"Integer"}}}'
DOCUMENT = b'{"a":0.5,"b":true}'
SHOWN = "30 0 0 18\n20 1 5 27"    # and where the old schema is not met
OLD = b"what stood here before"
OUTPUTS = ["out", "there", "nothing/out", "/dev/null", "folder", "x" * 100000]
LARGEST_FILE = 16       # bytes, where files are kept short: less than is written
STACK = 2 << 20         # bytes that are enough for every command


class Tools(Folder):
    """A folder in which the program may write, with a look at all that is in it."""

    def __init__(self, path, program):
        super().__init__(path, program)
        self.path.chmod(0o777)

    def state(self):
        """What can be seen of each file, but for its bytes."""
        found = {}
        for folder, folders, files in os.walk(self.path):
            for name in folders + files:
                path = os.path.join(folder, name)
                seen = os.lstat(path)
                times = () if stat.S_ISDIR(seen.st_mode) else (seen.st_size, seen.st_mtime_ns, seen.st_nlink)
                found[os.path.relpath(path, self.path)] = (seen.st_mode, seen.st_ino, *times)
        return found

    def bytes_of(self, name):
        with open(os.path.join(os.fsencode(self.path), os.fsencode(name)), "rb") as file:
            return file.read()

    def holds(self, arguments, line, written=None, **options):
        """The line; what is written; and everything else as it was. What was written goes away."""
        written = written or {}
        before = self.state()
        name, right = self.result((arguments, line), **options)
        after = self.state()
        found = {file: self.bytes_of(file) for file in written if file in after}
        left = {file: seen for file, seen in after.items() if before.get(file) != seen and file not in written}
        gone = [file for file in before if file not in after]
        for file in found:
            os.unlink(os.path.join(self.path, file))
        return name + ", files that should not have changed: %s %s" % (left, gone), right and found == written and not left and not gone


def jobs(tools):
    """For each command its words before OUT, its lines and what it writes."""
    return [(["compact", tools.file(FILE)], DONE, WRITTEN),
            (["counterexample", tools.file(NEW_SCHEMA), tools.file(OLD_SCHEMA)], SHOWN, DOCUMENT)]


def small_jobs(tools):
    """The same, with less to write."""
    return [(["compact", tools.file(b" [ ] ")], "0 0 0 2", b"[]"),
            (["counterexample", tools.file(b'"Float"'), tools.file(b'"Integer"')], "30 0 0 3\n20 1 0 0", b"0.5")]


def with_room(refusal):
    """Whether a text of the other program's cases is taken where its table has room."""
    return refusal is None or refusal[0] == "8"


# Results: a description, and whether it holds.

def argument_results(tools):
    """Another number of files than the command takes; a word that is no command."""
    file = tools.file(FILE)
    for words, _, _ in jobs(tools):
        for count in range(len(words) + 1):
            yield tools.holds(words[:count], NO_FILE)
        yield tools.holds([*words, "out", "out"], NO_FILE)
        for word in [words[0].capitalize(), words[0][:-1], words[0] + "s", words[0] + " ", "-" + words[0]]:
            yield tools.holds([word, *words[1:], "out"], NO_FILE)
    for word in ["", "x", "read", "check", "compare", "x" * 16, "x" * 17, "x" * 100000]:
        yield tools.holds([word, file, "out"], NO_FILE)
        yield tools.holds([word, file, file, "out"], NO_FILE)
    yield tools.holds(["compact", file, file, "out"], NO_FILE)
    yield tools.holds(["counterexample", file, "out"], NO_FILE)


def input_results(tools):
    """A file that cannot be opened or read, whether there is a file to write or not."""
    there, broken = tools.write("there", OLD), tools.file(BROKEN)
    for name, out in itertools.product(absent_names(tools), ["out", there]):
        yield tools.holds(["compact", name, out], NO_FILE)
        yield tools.holds(["counterexample", name, tools.file(OLD_SCHEMA), out], NO_FILE)
        yield tools.holds(["counterexample", tools.file(NEW_SCHEMA), name, out], NO_FILE)
        yield tools.holds(["counterexample", broken, name, out], NO_FILE)


def refusal_results(tools):
    """Nothing is written with another code than 0. The table has room for every text."""
    there = tools.write("there", OLD)
    for text, refusal in DOCUMENTS:
        arguments = ["compact", tools.file(text)]
        if with_room(refusal):
            yield tools.holds([*arguments, "out"], line_of((0, 0, 0, len(spelling(text)))), {"out": spelling(text)})
            continue
        for out in [*OUTPUTS, arguments[1], there]:
            yield tools.holds([*arguments, out], refusal)


def schema_results(tools):
    """Nothing is written with another code than 30: a schema that is refused, as the first and as the second, and one that
    is carried. The tables have room for every schema."""
    tools.write("there", OLD)
    for text, refusal in SCHEMAS:
        taken = with_room(refusal)
        for place in (1, 2):
            files = [tools.file(JSON), tools.file(JSON)]
            files[place - 1] = tools.file(text)
            if taken and place == 2 and text.strip() != JSON:
                continue
            for out in [*OUTPUTS, *files]:
                yield tools.holds(["counterexample", *files, out], "0 0 0 0" if taken else refusal % place)
    for first, second in itertools.product([BROKEN, b"[]", b""], repeat=2):
        line = {BROKEN: "3 1 3 0", b"[]": "10 1 0 0", b"": "2 1 0 0"}[first]
        yield tools.holds(["counterexample", tools.file(first), tools.file(second), "out"], line)


def output_results(tools):
    """A file that is not there; one with fewer or more bytes."""
    longest = os.pathconf(tools.path, "PC_PATH_MAX") - 1
    for words, line, written in jobs(tools):
        for out in ["out", "x" * 255, " ", "-", "new\nline", "compact"]:
            yield tools.holds([*words, out], line, {out: written})
            for old in [b"", OLD, b"x" * LONG]:
                tools.write(out, old)
                yield tools.holds([*words, out], line, {out: written})
        for length in [longest - 1, longest]:
            yield tools.holds([*words, padded_name("out", length)], line, {"out": written})
        yield tools.holds([*words, "folder/out"], line, {"folder/out": written})
        yield tools.holds([*words, str(tools.path / "out")], line, {"out": written})


def same_results(tools):
    """The file that is written is one that is read, or another name of it."""
    for text, name in [(FILE, "same"), (WRITTEN, "./same")]:
        tools.write("same", text)
        yield tools.holds(["compact", name, "same"], DONE, {"same": WRITTEN})
    for name, out in itertools.product(["same", "./same"], ["same", "./same"]):
        tools.write("same", NEW_SCHEMA)
        yield tools.holds(["counterexample", name, tools.file(OLD_SCHEMA), out], SHOWN, {"same": DOCUMENT})
        tools.write("same", OLD_SCHEMA)
        yield tools.holds(["counterexample", tools.file(NEW_SCHEMA), name, out], SHOWN, {"same": DOCUMENT})
        tools.write("same", JSON)
        yield tools.holds(["counterexample", name, name, "out"], "0 0 0 0")


def rights_results(tools):
    """A file that is replaced keeps who may do what with it; a new one has the rights that the process gives to new files."""
    umask = os.umask(0)
    os.umask(umask)
    modes = [(None, 0o666 & ~umask), (0o600, 0o600), (0o644, 0o644), (0o755, 0o755), (0o666, 0o666), (0o4755, 0o755)]
    for (words, line, _), (old, new) in itertools.product(jobs(tools), modes):
        if old is not None:
            tools.write("out", OLD, mode=old)
        yield tools.result(([*words, "out"], line))
        mode = stat.S_IMODE(os.lstat(tools.path / "out").st_mode)
        os.unlink(tools.path / "out")
        yield "the rights of a %s: %o" % ("new file" if old is None else "file that had %o" % old, mode), mode == new


def no_output_results(tools):
    """What cannot be written: folders, paths that lead nowhere, links, devices, a pipe, a name that is too long."""
    longest = os.pathconf(tools.path, "PC_PATH_MAX") - 1
    there = tools.write("there", OLD)
    (tools.path / "link").symlink_to("there")
    os.mkfifo(tools.path / "pipe")
    outputs = ["", "folder", "folder/", ".", "/", "nothing/out", "out/", there + "/", there + "/x", "link", "link-to-nothing",
               "link-to-folder", "link-to-itself", "pipe", "/dev/null", "/dev/full", "/dev/stdout", "/dev/stdin", "x" * 256,
               "x" * 100000, padded_name("out", longest + 1)]
    for (words, _, _), out in itertools.product(jobs(tools), outputs):
        yield tools.holds([*words, out], NO_FILE)


def rights_of_output_results(tools):
    """A file that may not be written, and a folder in which nothing may be made."""
    user = bound_user()
    shut = tools.path / "shut"
    shut.mkdir()
    tools.write("shut/there", OLD, mode=0o666)
    shut.chmod(0o555)
    tools.write("read-only", OLD, mode=0o444)
    try:
        for words, line, written in jobs(tools):
            yield tools.holds([*words, "out"], line, {"out": written}, user=user)
            for out in ["read-only", "shut/out", "shut/there"]:
                yield tools.holds([*words, out], NO_FILE, user=user)
    except (OSError, subprocess.SubprocessError) as problem:
        yield "a file that may not be written cannot be shown here: %s" % problem, False
    finally:
        shut.chmod(0o755)


def keep_files_short():
    signal.signal(signal.SIGXFSZ, signal.SIG_IGN)
    resource.setrlimit(resource.RLIMIT_FSIZE, (LARGEST_FILE, LARGEST_FILE))


def cut_results(tools):
    """A write that fails halfway: nothing is made, and what was there stays."""
    there = tools.write("there", OLD)
    options = {"user": {"preexec_fn": keep_files_short}}
    for words, line, written in small_jobs(tools):
        yield tools.holds([*words, "out"], line, {"out": written}, **options)
    for words, _, _ in jobs(tools):
        for out in ["out", there, *words[1:]]:
            yield tools.holds([*words, out], NO_FILE, **options)


def length_results(tools):
    """Texts of the limit and around it, and those with the most rows."""
    texts = [spaced(b"1", 65536), b'"' + b"a" * 65534 + b'"', ones(32767), spaced(ones(32767), 65536),
             b"[" + b",".join([b"[]"] * 21845) + b"]", b'"' + b"\\u0061" * 10922 + b'"', b"[" * 32 + b"]" * 32]
    texts += [text for text, _ in edge_cases_compact.CASES if len(text) > 60000]
    for text in texts:
        written = spelling(text)
        yield tools.holds(["compact", tools.file(text), "out"], line_of((0, 0, 0, len(written))), {"out": written})
    for length in [65537, 131072, LONG]:
        yield tools.holds(["compact", tools.file(spaced(b"1", length)), "out"], "1 1 65536 0")


def generated_results(tools):
    """Generated texts, with the model's answer and bytes."""
    seed = harness.DEFAULT_SEED
    texts = itertools.chain(itertools.islice(generate.texts(seed), GENERATED), itertools.islice(generate_spellings.texts(seed), GENERATED))
    for text in texts:
        tools.write("text", text)
        buffer = [0] * len(text)
        answer = compact(text, [0] * (model.ROW_WORDS * len(text)), buffer)
        written = {"out": bytes(buffer[:answer[3]])} if answer[0] == model.READ else {}
        yield tools.holds(["compact", "text", "out"], line_of(answer), written)


def shown(tools, new, old, **options):
    """Of two schemas the model's answer, and on 30 its document, and Check's answer under the old."""
    buffer, tables = [0] * LEAST_BUFFER, [[0] * (model.ROW_WORDS * LEAST_BUFFER) for _ in range(2)]
    answer = counterexample(new, old, *tables, buffer)
    words = ["counterexample", tools.write("new", new), tools.write("old", old), "out"]
    if answer[0] != NOT_CARRIED:
        return tools.holds(words, line_of(answer), **options)
    document = bytes(buffer[:answer[3]])
    return tools.holds(words, line_of(answer) + "\n" + line_of(check(document, old, *tables)), {"out": document}, **options)


def counterexample_results(tools):
    """Stated pairs, those of each kind of failing, and pairs of any kind."""
    seed = harness.DEFAULT_SEED
    for new, old, _ in edge_cases_counterexample.CASES:
        yield shown(tools, new, old)
    for kind in generate_failing.KINDS.values():
        for pair in itertools.islice(kind(random.Random(seed)), 10):
            yield shown(tools, *pair)
    for pair in itertools.islice(generate_pairs.schema_pairs(seed), GENERATED):
        yield shown(tools, *pair)


# Dates: nothing is written.

CREW = b'{"Object":{"required":{"departs":{"Array":"DateTime"}},"optional":{"to":"DateTime"}}}'
SAILINGS = b'{"departs":["1970-01-01T00:00:00+01:00","1990-12-31T23:59:60.5Z"],"to":"1969-12-31t23:59:59.5z","at":"2024-04-30T08:00:00Z"}'
NO_DATES = "0 0 0 0\n0 0 0"
DATES = [
    (SAILINGS, CREW, "0 0 0 0\n3 -3600 662688000"),
    (b'{"departs":[],"at":"2024-04-30T08:00:00Z"}', CREW, NO_DATES),
    (b'{"departs":["1970-01-01T00:00:00Z"]}', CREW, "0 0 0 0\n1 0 0"),
    (b'["0000-01-01T00:00:00+23:59","9999-12-31T23:59:59-23:59"]', b'{"Array":"DateTime"}', "0 0 0 0\n2 -62167305540 253402387139"),
    (SAILINGS, b'{"Object":{"required":{"departs":{"Array":"DateTime"},"at":"Integer"}}}', "20 1 101 59"),
    (b'{"to":"1969-12-31T23:59:59Z"}', CREW, "21 1 0 23"),
    (b'{"departs":["1970-01-01T00:00:00Z","1970-01-01T00:00:60Z"]}', CREW, "22 1 35 42"),
    (SAILINGS, b'{"Array":"Date"}', "11 2 9 0"),
    (SAILINGS[:-1], CREW, "2 1 123 0"),
]


def dated(tools, document, schema, **options):
    """Of a document and a schema the model's answer, and on 0 its three numbers."""
    tables, numbers = [[0] * (model.ROW_WORDS * len(text)) for text in (document, schema)], [0] * NUMBERS
    answer = check_dates(document, schema, *tables, numbers)
    line = line_of(answer) + ("\n" + line_of(numbers) if answer[0] == model.READ else "")
    return tools.holds(["dates", tools.write("document", document), tools.write("schema", schema)], line, **options)


def command_of_two_results(tools, command, words):
    """Another number of files; words that are no command; a file that cannot be opened, before any code."""
    files = [tools.file(SAILINGS), tools.file(CREW)]
    for count in [0, 1, 3, 4]:
        yield tools.holds([command, *(files * 2)[:count]], NO_FILE)
    for word in words:
        yield tools.holds([word, *files], NO_FILE)
    for name in ["nothing", "", "folder", "link-to-nothing", "x" * 256, "x" * 100000]:
        for other in [*files, tools.file(BROKEN), name]:
            yield tools.holds([command, name, other], NO_FILE)
            yield tools.holds([command, other, name], NO_FILE)


def dates_argument_results(tools):
    return command_of_two_results(tools, "dates", ["date", "datess", "Dates", "DATES", "dates ", "-dates"])


def dates_results(tools):
    """Stated lines; refusals, with room for every text; the cases; generated pairs."""
    for document, schema, lines in DATES:
        yield tools.holds(["dates", tools.file(document), tools.file(schema)], lines)
    for text, refusal in DOCUMENTS:
        yield tools.holds(["dates", tools.file(text), tools.file(JSON)], NO_DATES if with_room(refusal) else refusal)
    for text, refusal in SCHEMAS:
        yield tools.holds(["dates", tools.file(b"{}"), tools.file(text)], NO_DATES if with_room(refusal) else refusal % 2)
    for document, schema, *_ in edge_cases_dates.CASES:
        yield dated(tools, document, schema)
    for pair in itertools.islice(generate_pairs.dates_pairs(harness.DEFAULT_SEED), GENERATED):
        yield dated(tools, *pair)


# Explain: nothing is written.

EXPLAINED = [
    (b"1", b'"String"', """20 1 0 0

1
^ document, line 1: this value is of the wrong kind
"String"
^ schema, line 1: the definition"""),
    (b'{\n\t"a/b": [1, {"~": null}],\r\n\t"\\u00e9\\"": "\xc3\xa9", "d": [true,\t[ "x" ]]}',
     b'{"Object": {\r"required": {"d": {"Array": "JSON"}},\r\n\n  "optional": {"\xc3\xa9\\"": "Float"}}}', """20 1 42 76
/\u00e9"
\t"\\u00e9\\"": "\u00e9", "d": [true,\t[ "x" ]]}
\t            ^ document, line 3: this value is of the wrong kind
  "optional": {"\u00e9\\"": "Float"}}}
                      ^ schema, line 4: the definition"""),
    (b'[{"a~/":\t{ "\xe2\x82\xac\xf0\x9f\x98\x80": [\t"x"] } }]', b'{"Array": {"Map": {"Map": {"Array": "Integer"}}}}', """20 1 24 36
/0/a~0~1/\u20ac\U0001f600/0
[{"a~/":\t{ "\u20ac\U0001f600": [\t"x"] } }]
        \t         \t^ document, line 1: this value is of the wrong kind
{"Array": {"Map": {"Map": {"Array": "Integer"}}}}
                                    ^ schema, line 1: the definition"""),
    (b"[" + b'{"a":1}, ' * 10 + b'{"b": "' + b"\xc3\xb8" * 40 + b'"}]', b'{"Array":{"Object":{"required":{"a":"Integer"}}}}',
     "21 1 91 32\n/10\n..." + '":1}, ' + '{"a":1}, ' * 6 + '{"b": "' + "\u00f8" * 26 + "...\n"
     + " " * 63 + """^ document, line 1: this object lacks a required name
{"Array":{"Object":{"required":{"a":"Integer"}}}}
                                ^ schema, line 1: the required name"""),
    (b'["2024-04-30T08:00:00Z",\r\n"2024-04-31T08:00:00Z"\r\n]', b'\r\n{"Array"\r:\n"DateTime"}', """22 1 26 13
/1
"2024-04-31T08:00:00Z"
^ document, line 2: this string is no date
"DateTime"}
^ schema, line 4: the definition"""),
    (b'[[],[1,\n{"a~/":\t{ "\xc3\xb8": 1,\t"b": []}}]]', b'{"Array": {"Array": "JSON"}}', "0 0 0 0"),
    (SAILINGS, b'{"Array":"Date"}', "11 2 9 0"),
    (SAILINGS[:-1], CREW, "2 1 123 0"),
]


def explanation(tools, document, schema, **options):
    """Of a document and a schema the model's lines."""
    return tools.holds(["explain", tools.write("document", document), tools.write("schema", schema)], explained(document, schema), **options)


def explain_argument_results(tools):
    return command_of_two_results(tools, "explain", ["explai", "explains", "Explain", "EXPLAIN", "explain ", "-explain"])


def cut_line_pairs():
    """Lines of every length about that where they are cut, before and behind the place, with characters of one to four bytes
    at the cut; lines that end in each way."""
    schema = b'{"Array":\n{"Map":"Integer"}}'
    for character in ["x", "\u00e9", "\u20ac", "\U0001f600"]:
        for count in range(LINE_BYTES - 8, LINE_BYTES + 9):
            piece = (character * count).encode()[:count].decode(errors="ignore")
            filled = piece.encode() + b"y" * (count - len(piece.encode()))
            for before in [b"", b"\n", b"\t\r", b"\r\n"]:
                yield b"[" + before + b'{"' + filled + b'":[' + before + b"]}]", schema
                yield b"[" + before + b'{"a":"' + filled + b'"' + before + b"}]", schema
                yield b'{"' + filled + b'":0}', b"{" + before + b'"Object":{"required":{"' + filled + b'":"Boolean"' + before + b"}}}"
                yield b'["' + filled + b'",' + before + b'{"a":null}]', b'{"Array":{"Object":{"required":{"' + filled + b'":"JSON"}}}}'


def explain_results(tools):
    """Stated lines; refusals, with room for every text; the cases; lines that are cut; generated pairs."""
    for document, schema, lines in EXPLAINED:
        yield "the model explains %r" % document, explained(document, schema) == lines
        yield tools.holds(["explain", tools.file(document), tools.file(schema)], lines)
    for text, refusal in DOCUMENTS:
        yield tools.holds(["explain", tools.file(text), tools.file(JSON)], "0 0 0 0" if with_room(refusal) else refusal)
    for text, refusal in SCHEMAS:
        yield tools.holds(["explain", tools.file(b"{}"), tools.file(text)], "0 0 0 0" if with_room(refusal) else refusal % 2)
    for document, schema, *_ in edge_cases_path.CASES:
        yield explanation(tools, document, schema)
    for pair in cut_line_pairs():
        yield explanation(tools, *pair)
    for pair in itertools.islice(generate_misfits.path_pairs(harness.DEFAULT_SEED), 2 * GENERATED):
        yield explanation(tools, *pair)


def keep_stack_small():
    resource.setrlimit(resource.RLIMIT_STACK, (STACK, STACK))


def stack_results(tools):
    """The texts for which a call needs the most working room."""
    options = {"user": {"preexec_fn": keep_stack_small}}
    text = ones(32767)
    yield tools.holds(["compact", tools.file(text), "out"], line_of((0, 0, 0, len(text))), {"out": text}, **options)
    yield dated(tools, text, spaced(b'{"Array":"Integer"}', model.SCHEMA_LIMIT), **options)
    yield explanation(tools, ones(32765)[:-1] + b',""]', spaced(b'{"Array":"Integer"}', model.SCHEMA_LIMIT), **options)
    yield explanation(tools, spaced(b"[" * 32 + b"]" * 32, model.DOCUMENT_LIMIT), b'{"Array":' * 24 + b'"Float"' + b"}" * 24, **options)
    for pair in itertools.islice(generate_failing.KINDS["16,384 bytes"](random.Random(harness.DEFAULT_SEED)), 4):
        yield shown(tools, *pair, **options)


def twice_results(tools):
    """Two spellings of one value are one file, and so is that file's own."""
    tools.write("one", FILE)
    tools.write("two", b'{"\\u0062":"\\u001f/","a":[1.0]}')
    for name in ["one", "two", "one"]:
        yield tools.holds(["compact", name, "out"], DONE, {"out": WRITTEN})
    tools.write("three", WRITTEN)
    yield tools.holds(["compact", "three", "out"], DONE, {"out": WRITTEN})
    yield tools.holds(["compact", tools.file(BROKEN), "out"], "3 1 3 0")


def results(tools):
    groups = [argument_results, input_results, refusal_results, schema_results, output_results, same_results, rights_results,
              no_output_results, rights_of_output_results, cut_results, length_results, generated_results,
              counterexample_results, dates_argument_results, dates_results, explain_argument_results, explain_results,
              stack_results, twice_results]
    return itertools.chain.from_iterable(group(tools) for group in groups)


def main():
    if len(sys.argv) != 2:
        sys.exit(__doc__)
    with tempfile.TemporaryDirectory() as path:
        return harness.finish(*harness.count_all(results(Tools(path, sys.argv[1]))))


if __name__ == "__main__":
    sys.exit(main())
