"""The rows of .ci/rows/: what `lock_scenario` writes to both its streams, and its status, for its words and
its input.

A row is its title, `# TITLE`, with lines below it that each begin with a mark:

    $ WORDS      the words of the command line; `$$ WORDS` where the input is typed at a terminal, and the
                 errors are read at one. Where there are several such lines the row holds for each
    < LINES      lines of the input, with `; ` between them, as the output's below; `<< LINE` is one line, as
                 it stands
    <+ N TEXT    N copies of a text, without a line feed
    <@ PATH      the input is that file, and `>@ PATH` the output
    > LINES      lines of standard output, `>> LINE` and `>+ N TEXT` as above
    >? TEXT      a text that is somewhere in the output, which is not compared whole then; each behind the one
                 before it
    ! LINES      lines of standard error, with `!!` and `!?`
    = STATUS     where it isn't 0
    ? LINE | TEXT    a row of its own: the input so far, this line and one more, of which nothing is run. The
                 fault is `line N: TEXT`, with the number of this line

In a text `\\xHH` is a byte. Beside the rows of these files each story of scenarios/ is a row, and each script
that was recorded from a server."""

import copy
import glob
import os
import re
import sys

TOP = os.path.dirname(os.path.dirname(os.path.abspath(__file__)))
FOLDER = f"{TOP}/.ci/rows"
STREAMS = {"<": "input", ">": "output", "!": "errors"}
# The words with which the scripts of a folder are played.
STORIES = {
    "scenarios": "run",
    "scenarios/sql": "run --sql",
    "scenarios/recorded": "run --sessions 64 --max-local 65536",
}


class Row:
    def __init__(self, file, title):
        self.file, self.title, self.calls, self.status = file, title, [], 0
        self.texts = {"input": b"", "output": b"", "errors": b""}
        # What a stream has to have somewhere, where it isn't compared whole.
        self.parts, self.files = {}, {}

    def of_each_call(self):
        """The row once for each line of words that it has, with these as `words`."""
        for self.words, self.at_terminal in self.calls:
            yield copy.copy(self)

    def with_bad_line(self, line, text):
        """The row in which this line ends the script, with this fault."""
        made = copy.deepcopy(self)
        made.title, made.status = f"{self.title}: {line}", 3
        number = made.texts["input"].count(b"\n") + 1
        made.texts["input"] += decoded(line) + b"\nhash 5/1\n"
        made.texts["errors"] = f"line {number}: {text}\n".encode()
        return made

    def differs(self, said):
        """The streams, or the status, that are not the row's in what a program said."""
        for key, text in self.texts.items():
            at, missing = 0, False
            for part in self.parts.get(key, ()):
                found = said[key].find(part, at)
                missing, at = missing or found < 0, found + len(part)
            if key != "input" and (missing if key in self.parts else said[key] != text):
                yield key
        if said["status"] != self.status:
            yield "status"


def decoded(text):
    return re.sub(rb"\\x([0-9a-f]{2})", lambda it: bytes.fromhex(it[1].decode()), text.encode())


def rows_of(path):
    """The rows of a file."""
    rows, tables, row = [], set(), None
    with open(path, encoding="ascii") as file:
        for number, line in enumerate(file, 1):
            mark, _, text = line.rstrip("\n").partition(" ")
            if mark == "#":
                row = Row(os.path.basename(path), text)
                rows.append(row)
            elif mark == "?":
                tables.add(row)
                rows.append(row.with_bad_line(*text.split(" | ")))
            elif mark and not read_mark(row, mark, text):
                sys.exit(f"{path}, line {number}: what is {mark}?")
    return [it for row in rows if row not in tables for it in row.of_each_call()]


def read_mark(row, mark, text):
    """Reads a line of a row. Returns whether there is such a mark."""
    stream, kind = STREAMS.get(mark[0]), mark[1:]
    if mark in ("$", "$$"):
        row.calls.append((text.split(), mark == "$$"))
    elif mark == "=":
        row.status = int(text)
    elif stream and kind == "?":
        row.parts.setdefault(stream, []).append(decoded(text))
    elif stream and kind == "@":
        row.files[stream] = text
    elif stream and kind == "+":
        count, _, text = text.partition(" ")
        row.texts[stream] += int(count) * decoded(text)
    elif stream and kind in ("", mark[0]):
        lines = [text] if kind else text.split("; ")
        row.texts[stream] += b"".join(decoded(it) + b"\n" for it in lines)
    else:
        return False
    return True


def stories():
    """The scripts of scenarios/, with what they print."""
    for folder, words in STORIES.items():
        for path in sorted(glob.glob(f"{TOP}/{folder}/*.scn")):
            row = Row(folder, os.path.basename(path))
            row.words, row.at_terminal = words.split(), False
            for key, name in (("input", path), ("output", f"{path}.stdout")):
                with open(name, "rb") as file:
                    row.texts[key] = file.read()
            yield row


def all_rows():
    of_files = [it for path in sorted(glob.glob(f"{FOLDER}/*.rows")) for it in rows_of(path)]
    return [*of_files, *stories()]
