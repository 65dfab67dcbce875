#!/usr/bin/env python3
"""Places of src/ that are written in an older form, by the points of docs/DESIGN-PASS.md.

    tools/places.py [-v] [COMMIT]

counts them in the working tree, or in a commit; -v prints each place."""
import re
import subprocess
import sys


def sources(commit):
    """path and lines of each source file"""
    if commit:
        names = subprocess.run(["git", "ls-tree", "-r", "--name-only", commit, "crates"],
                               capture_output=True, text=True, check=True).stdout.split()
    else:
        names = subprocess.run(["git", "ls-files", "crates"], capture_output=True, text=True, check=True).stdout.split()
    for name in names:
        if re.fullmatch(r"crates/\w+/src/\w+\.rt", name):
            text = subprocess.run(["git", "show", f"{commit}:{name}"], capture_output=True, text=True,
                                  check=True).stdout if commit else open(name).read()
            yield name, text.split("\n")


def bodies(lines):
    """name, first line and the text of each function, with its signature and without comments and clauses"""
    start = None
    for number, line in enumerate(lines):
        found = re.match(r"\s*(?:pub(?:\(crate\))? )?(?:extern \"C\" )?fn (\w+)", line)
        if found and start is None:
            start, name, indent = number, found.group(1), len(line) - len(line.lstrip())
        if start is not None and line == " " * indent + "}":
            text = [re.sub(r"//.*", "", part) for part in lines[start:number + 1]
                    if not re.match(r"\s*(requires|ensures)\b", part)]
            yield name, start + 1, "\n".join(text)
            start = None


def shape(text):
    """a function with its own names, numbers and texts left out"""
    text = text[text.index("{\n"):] if "{\n" in text else text
    text = re.sub(r'b?"(?:\\.|[^"])*"|b?\'(?:\\.|[^\'])+\'|\b\d[\w]*', "#", text)
    text = re.sub(r"\b(?!(?:if|else|while|loop|for|in|match|return|let|mut|as|break)\b)[a-zA-Z_]\w*", "n", text)
    return re.sub(r"\s+", " ", text)


def grep(files, pattern):
    for name, lines in files:
        for number, line in enumerate(lines):
            if re.search(pattern, line) and not re.match(r"\s*(ghost|requires|ensures)\b", line):
                yield f"{name}:{number + 1}: {line.strip()}"


def loops(files):
    """loops whose body counts a variable of the condition up or down by one, or moves along rows by hand"""
    for name, lines in files:
        for number, line in enumerate(lines):
            found = re.match(r"(\s*)(?:'\w+: )?(while (.*) \{|loop \{)$", line)
            if not found:
                continue
            end = next(i for i in range(number + 1, len(lines)) if lines[i] == found.group(1) + "}")
            body = "\n".join(lines[number:end])
            if re.search(r"\b(\w+) [-+]= 1;", body) or re.search(r"\.next(?: \+ 1)?;", body):
                yield f"{name}:{number + 1}: {line.strip()}"


def twins(files):
    seen = {}
    for name, lines in files:
        for function, number, text in bodies(lines):
            key = shape(text)
            if len(key) > 60:
                seen.setdefault(key, []).append(f"{name}:{number}: {function}")
    for group in seen.values():
        if len(group) > 1:
            yield from group


def together(files):
    """functions with a text and its table as two parameters, a day as three, or an index as four arrays"""
    pairs = [("text", "table"), ("document", "rows1"), ("schema", "rows2"), ("new", "rows1"), ("old", "rows2"),
             ("year", "month", "day"), ("heads", "links", "firsts", "ends")]
    for name, lines in files:
        for function, number, text in bodies(lines):
            head = text[:text.index("{\n")] if "{\n" in text else text
            if any(all(re.search(rf"\b{part}: ", head) for part in pair) for pair in pairs) and "&mut [u32]" not in head:
                yield f"{name}:{number}: {function}"


POINTS = [
    ("1a own enums and structs that say whether there is a value",
     lambda f: grep(f, r"\benum (Step|Hex|Hashed|Scan|Token|Scanned|Following|Date|Time|Moment|Number|Found|TypeName|Generic|Loaded)\b"
                       r"|\bstruct (Fault|Mismatch|Decoded|Piece)\b|^\s*pub good: bool|^    good: bool")),
    ("1b a number that stands for none, by its comment",
     lambda f: grep(f, r"//.*(; 0 (where|for|of) |, and (0|16|64) |; 0 where|\b0 has none|row 0 has no|or 0\b|; ten zeros|a day for anything|more than any limit"
                       r"|or 16\b|code 0 (of|where)|place itself where|and true or|says true)")),
    ("1c numbers for kinds and refusals",
     lambda f: grep(f, r"\b(code|kind): \d|\b(Fault|Mismatch)::at\(\d|stop\(text, [^)]*, \d\)|Answer::new\([1-9]\d?, |kind [!=]= \d|\.code [!=<]=? \d"
                       r"|literal\(.*, \d\)|exponent\(text, \w+, \d\)|(close|list_mark|leaf_mark)\((marks, )?\d, |of which `object` is 0")),
    ("2 twins: functions of one shape, but for names, numbers and texts", twins),
    ("3 loops that count by hand", loops),
    ("4 equality, order, copying, conversion, printing by hand",
     lambda f: grep(f, r"fn ((equal|lesser_of|greater_of|least|put_decimal|signed|size_of|write_bytes|begins)\(|(wide|hex)\(b|(answer|three|words?|number)\(rt|fill\(out)"
                       r"|=> (true|false),$")),
    ("5 parameters that always travel together", together),
    ("6 buffers with a length beside them, parallel arrays",
     lambda f: grep(f, r"\blet mut (links|firsts|ends|heads) = |Bytes\(n\)|\.(first|second)\.len\b|pub len: usize|&\w+\[\.\.(n|m|length)\]")),
    ("7 a switch on which step to run",
     lambda f: grep(f, r"match command|enum (Pair|Command)\b|_commands|b\"(read|rows|check|compare)\" =>")),
]


def main():
    words = [word for word in sys.argv[1:] if word != "-v"]
    files = list(sources(words[0] if words else None))
    for title, count in POINTS:
        found = list(count(files))
        print(f"{len(found):4}  {title}")
        if "-v" in sys.argv:
            for place in found:
                print("        " + place)


main()
