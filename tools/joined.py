"""Several files as one program: the text that they make together, and whose each of its places is."""
import collections
import concurrent.futures
import os
import re

import program
import sources

GAP = re.compile(r"[ \t\f\r\n]+|//[^\r\n]*|/\*.*?\*/", re.S)
HEAD = re.compile(r"(?:package|import)(?![\w$])")

# A line that is told: of which file, where, and the words behind the place. The file, or the place, may be missing.
Told = collections.namedtuple("Told", "file line column words")


def blanked(text):
    """A text with its package and import declarations blanked, from the word to the `;`. Comments within them stay, all line ends, and all else. The text has a
    tree, so that such declarations stand at its front alone."""
    parts, at, within = [], 0, False
    while at < len(text):
        gap = GAP.match(text, at)
        within = within or bool(HEAD.match(text, at))
        if gap:
            parts.append(gap.group())
        elif within:
            parts.append(" ")
            within = text[at] != ";"
        else:
            break
        at += len(parts[-1])
    return "".join(parts) + text[at:]


class Joined:
    """The files of these names with their bytes, joined by line ends."""

    def __init__(self, names, every):
        self.names = names
        texts = [blanked(sources.text_of(data)) for data in every]
        self.text = sources.bytes_of("\n".join(texts))
        self.first, self.begin, lines, size = [], [], 1, 0
        for text in texts:
            self.first.append(lines)
            self.begin.append(size)
            lines += len(sources.lines_of(text + "\n")) - 1
            size += len(sources.bytes_of(text)) + 1

    def place(self, line):
        """The file that has this line, and the line's number there."""
        at = max(at for at, first in enumerate(self.first) if first <= line)
        return self.names[at], line - self.first[at] + 1

    def name_at(self, byte):
        """The file that has this byte."""
        return self.names[max(at for at, begin in enumerate(self.begin) if begin <= byte)]


class Outcome:
    """What is told of several files: the lines on errors, those on why there is no judgement, the status, and the last line."""

    def __init__(self, told, failures, status, last=None):
        self.told, self.failures, self.status = told, failures, status
        self.last = last or f"rejected: {len(told)} errors"


def alone(name, data, options=()):
    """What is told of a file as a program of its own."""
    if data is None:
        return Outcome([], [Told(name, None, None, "read failed")], program.READ_FAILED)
    answer = program.check(data, options)
    told = [Told(name, error.line, error.column, error.words) for error in answer.errors]
    return Outcome(told, [Told(name, *answer.failure)] if answer.failure else [], answer.status, answer.last)


def together(joined, options):
    """What is told of joined files."""
    answer = program.check(joined.text, options)
    told = [Told(*joined.place(error.line), error.column, error.words) for error in answer.errors]
    return Outcome(told, [failure_at(joined, answer.failure)] if answer.failure else [], answer.status, answer.last)


def failure_at(joined, failure):
    """Why joined files were not judged, told at a file where it hangs on one: the one with the place, or with the byte that is one too many."""
    if failure.line:
        return Told(*joined.place(failure.line), failure.column, failure.words)
    return Told(joined.name_at(program.MOST_READ - 1) if failure.words.startswith("limit: ") else None, None, None, failure.words)


def read(names):
    """The files of these names joined, and what is told where they can't be; one of the two is nothing. Each is asked by itself first whether it has tokens and a tree: what
    has none could have one with the next file behind it."""
    every = [program.read(name) for name in names]
    with concurrent.futures.ThreadPoolExecutor(os.cpu_count()) as pool:
        first = list(pool.map(alone, names, every))
    told = [line for one in first for line in one.told if line.words in program.NO_TREE]
    failures = [line for one in first for line in one.failures]
    if failures:
        return None, Outcome(told, failures, next(one.status for one in first if one.failures))
    return (None, Outcome(told, [], 1)) if told else (Joined(names, every), None)


def check(names, options=()):
    """What is told of the files of these names as one program."""
    files, outcome = read(names)
    return outcome or together(files, options)


def shown(told):
    """A line that is told, as `check` writes it."""
    return ": ".join(filter(None, (":".join(str(part) for part in (told.file, told.line, told.column) if part is not None), told.words)))
