#!/usr/bin/env python3
"""Does what README.md says: its commands, and its examples in C, Rust and Python.

    readme_test.py

It needs what `make` builds. The examples are compiled as they
are written, by the commands of the page, against a copy that its `make install` puts
under a prefix of its own. The page's second command is the gate, which runs this test,
and is not run here.
"""

import os
import pathlib
import re
import subprocess
import sys
import tempfile

ROOT = pathlib.Path(__file__).resolve().parent.parent
PREFIX = "/usr/local"
NOT_STARTED = 127   # the status of a program whose libraries are not found or not taken

# For each example its file, a line that it has, how the command that builds it begins, and what starts it.
EXAMPLES = [
    ("example.c", "#include <teleport.h>", "cc example.c ", "./a.out"),
    ("example.rs", 'extern "C" {', "rustc example.rs ", "./example"),
    ("example.py", "import ctypes", None, "python3 example.py"),
]


class Missing(Exception):
    """Something that is looked for in the page and is not there."""


def search(pattern, text):
    found = re.search(pattern, text)
    if not found:
        raise Missing(pattern)
    return found[1]


def blocks(text):
    """The indented blocks of a page, without their indent, each with the sentence behind it."""
    found = re.finditer(r"(?:^|\n\n)((?:    .*\n|\n(?=    ))+)\n?(.*)", text)
    return [(re.sub(r"(?m)^    ", "", match[1]), match[2]) for match in found]


def block_with(text, mark):
    """The block that has a line, and the sentence behind it."""
    for block, behind in blocks(text):
        if mark in block.splitlines():
            return block, behind
    raise Missing(mark)


def commands(text):
    """Each command behind a `$`, with the lines that it prints, of which none is empty."""
    shown = "\n".join(block for block, _ in blocks(text))
    return re.findall(r"(?m)^\$ (.*)\n((?:(?!\$ ).+\n)*)", shown)


def run(command, folder=ROOT, **options):
    """What a command prints, and its status."""
    done = subprocess.run(command, shell=True, cwd=folder, stdout=subprocess.PIPE, stderr=subprocess.STDOUT, text=True, **options)
    return done.stdout, done.returncode


# Each run: its name, what is found, and what the page says.

def first_command_run(text, folder):
    """The page's first command, in a folder that leads to the tree: the file that it makes stays there."""
    for entry in ROOT.iterdir():
        if entry.name != "a.json":
            (folder / entry.name).symlink_to(entry)
    block, behind = blocks(text)[0]
    printed, status = run(block, folder)
    return block.strip(), (printed.splitlines()[-1:], status), ([search(r"it prints `(.*?)`", behind)], 0)


def command_runs(text):
    """The commands behind a `$`, whatever their status is: their answers are lines."""
    found = commands(text)
    yield "the commands that are found", len(found), len(re.findall(r"(?m)^    \$ ", text))
    for command, says in found:
        yield command, run(command)[0], says


def install_run(text, prefix):
    """The page's `make install`, which must succeed."""
    command = search(r"(?m)^    (make install .*)$", text)
    printed, status = run(command.replace(PREFIX, str(prefix)))
    return command, (status, printed if status else ""), (0, "")


def installed_runs(prefix):
    """The programs and their pages, where `make install` puts them."""
    for name in ["teleport", "teleport-tools"]:
        yield f"{name} is installed", run(str(prefix / "bin" / name)), ("no file\n", 0)
        page = prefix / "share" / "man" / "man1" / f"{name}.1"
        yield f"the page of {name} is installed", page.exists(), True


def environment_of(prefix):
    """That of a program which is compiled with what is installed, and loads it."""
    return dict(os.environ, PKG_CONFIG_PATH=str(prefix / "lib" / "pkgconfig"), LD_LIBRARY_PATH=str(prefix / "lib"))


def version_run(prefix):
    """The version that pkg-config gives is that of the header."""
    header = (prefix / "include" / "teleport.h").read_text()
    found = run("pkg-config --modversion teleport", env=environment_of(prefix))
    return "the version of the library", found, (search(r'#define TELEPORT_VERSION "(.*)"', header) + "\n", 0)


def needed(program, folder):
    """The names of the shared libraries that a program asks for at its start."""
    return re.findall(r"\(NEEDED\).*\[(.*)\]", run(f"readelf -d {program}", folder)[0])


# A library of the name that a linker looks for, without a name of its own, and a program that calls it.
OLD_LIBRARY = "void teleport_read(void) {}"
OLD_PROGRAM = "void teleport_read(void); int main(void) { teleport_read(); return 0; }"


def loader_runs(folder, prefix):
    """The C example asks for the library by its name; a program that was linked to another library, called as the file that the
    linker looks for, starts with that one and does not start with what is installed."""
    yield "what the example in C asks for", [name for name in needed("a.out", folder) if "teleport" in name], ["libteleport.so.2"]
    (folder / "old.c").write_text(OLD_LIBRARY)
    (folder / "main.c").write_text(OLD_PROGRAM)
    built = run("mkdir old && cc -shared -fPIC old.c -o old/libteleport.so && cc main.c -Lold -lteleport -o main", folder)
    yield "a program for another library is built", built, ("", 0)
    yield "what it asks for", [name for name in needed("main", folder) if "teleport" in name], ["libteleport.so"]
    yield "it starts with that library", run("./main", folder, env=dict(os.environ, LD_LIBRARY_PATH=str(folder / "old"))), ("", 0)
    yield "it does not start with this one", run("./main", folder, env=environment_of(prefix))[1], NOT_STARTED


def example_runs(text, folder, prefix):
    environment = environment_of(prefix)
    yield "the examples that are found", len(EXAMPLES), len(re.findall(r"(?m)^prints `", text))
    for name, mark, begins, start in EXAMPLES:
        source, behind = block_with(text, mark)
        build = search("`(" + re.escape(begins) + "[^`]*)`", text) + " && " if begins else ""
        (folder / name).write_text(source.replace(PREFIX, str(prefix)))
        found = run((build + start).replace(PREFIX, str(prefix)), folder, env=environment)
        yield "the example in " + name, found, (search(r"^prints `(.*?)`", behind) + "\n", 0)


def runs(text, folder):
    tree, examples, prefix = folder / "tree", folder / "examples", folder / "prefix"
    tree.mkdir()
    examples.mkdir()
    try:
        yield first_command_run(text, tree)
        yield from command_runs(text)
        yield install_run(text, prefix)
        yield from installed_runs(prefix)
        yield version_run(prefix)
        yield from example_runs(text, examples, prefix)
        yield from loader_runs(examples, prefix)
    except Missing as missing:
        yield f"README.md has {missing}", False, True


def main():
    text = (ROOT / "README.md").read_text()
    with tempfile.TemporaryDirectory() as folder:
        done = list(runs(text, pathlib.Path(folder)))
    wrong = [run for run in done if run[1] != run[2]]
    for name, found, says in wrong:
        print(f"failed: {name}\nfound: {found}\nREADME.md says: {says}")
    print(f"{len(done) - len(wrong)} passed, {len(wrong)} failed")
    return 1 if wrong else 0


if __name__ == "__main__":
    sys.exit(main())
