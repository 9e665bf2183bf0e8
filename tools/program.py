"""The built program: where it stands, and what `check` answers of a text. What the scripts several, sarif, explain and language-server share."""
import collections
import os
import re
import shutil
import subprocess
import sys

TOP = os.path.dirname(os.path.dirname(os.path.realpath(__file__)))
# So much of a file is read: one byte more than a source may have, so that the program still sees that it has too many.
MOST_READ = 1048577
# The status of `./indexcheck` too, where there is no program.
NO_PROGRAM = 126
USAGE, READ_FAILED, WRITE_FAILED = 2, 3, 4
# The keys of a text that has no tokens or no tree.
NO_TREE = {"bad.utf8", "bad.character", "open.comment", "open.string", "bad.number", "syntax"}
LINE = re.compile(r"/dev/stdin:(?:(\d+):(\d+):)? (.*)", re.S)

# Why a text was not judged: a place in it, or nothing twice, and words.
Failure = collections.namedtuple("Failure", "line column words")


class Error(collections.namedtuple("Error", "line column key claim")):
    """An error: its place, its key, and behind it whom it speaks of with a claim, or nothing."""

    @property
    def words(self):
        """What stands behind the place, as `check` tells it."""
        return f"{self.key}: {self.claim}" if self.claim else self.key


def place():
    """The path of the program, whether it is there or not."""
    return os.environ.get("INDEXCHECK") or os.path.join(TOP, "crates/indexcheck/out/indexcheck")


def missing():
    """What is said where no program is built; nothing where one is."""
    if shutil.which(place()):
        return None
    return f"no program at {place()}; ./indexcheck builds it, and INDEXCHECK=PROGRAM names another one"


def demand(script):
    """Ends the script where no program is built."""
    if missing():
        leave(script, missing(), NO_PROGRAM)


def write(stream, data):
    """Writes bytes to a stream of the process, and ends the script where that takes no more."""
    try:
        stream.buffer.write(data)
        stream.flush()
    except OSError:
        os._exit(WRITE_FAILED)


def leave(script, words, status=USAGE):
    """Ends a script with words on standard error, behind its name where one is given."""
    write(sys.stderr, (f"{script}: {words}\n" if script else f"{words}\n").encode("utf-8", "surrogateescape"))
    sys.exit(status)


class Answer:
    """What `check` said of a text: its status, its last line, its errors, and why it was not judged; nothing where it was."""

    def __init__(self, status, out, err):
        lines = out.split("\n")[:-1]
        self.last = lines[-1] if lines else ""
        every = [error_of(line) for line in lines[:-1]]
        self.errors = [error for error in every if error]
        accepted = status == 0 and not every and self.last.startswith("accepted: ")
        rejected = status == 1 and all(every) and self.last == f"rejected: {len(every)} errors"
        self.failure = None if accepted or rejected else failure_of(status, err.split("\n")[:-1])
        self.status = status if not self.failure or status > 1 else 128 - status if status < 0 else NO_PROGRAM


def key_and_claim(words):
    """The key of an error, and whom it speaks of with a claim, of the words behind its place."""
    key, _, claim = words.partition(": ")
    return key, claim


def error_of(line):
    """The error that a line tells; nothing where it tells none."""
    found = LINE.fullmatch(line)
    if not found or not found[1]:
        return None
    return Error(int(found[1]), int(found[2]), *key_and_claim(found[3]))


def failure_of(status, lines):
    """Why a call ended without a judgement, by its status and its lines on standard error."""
    if not lines:
        return Failure(None, None, f"ended by signal {-status}" if status < 0 else f"ended with status {status}")
    found = LINE.fullmatch(lines[0])
    if not found:
        return Failure(None, None, lines[0])
    return Failure(int(found[1]), int(found[2]), found[3]) if found[1] else Failure(None, None, found[3])


def check(text, options=()):
    """The answer of `check` on these bytes."""
    try:
        found = subprocess.run([shutil.which(place()) or place(), "check", *options, "/dev/stdin"], input=text, capture_output=True)
    except OSError as fault:
        return Answer(NO_PROGRAM, "", missing() or f"{place()}: {fault.strerror}")
    return Answer(found.returncode, *(stream.decode("utf-8", "surrogateescape") for stream in (found.stdout, found.stderr)))


def read(path):
    """The bytes of a file, as many as a source may have and one more; nothing where it can't be read."""
    try:
        with open(path, "rb") as file:
            return file.read(MOST_READ)
    except (OSError, ValueError):
        return None


def parted(words, flags=()):
    """The options of `check` and the flags that stand first among the words, and the words behind them; nothing where another option stands there."""
    options, chosen, words = [], [], list(words)
    while words and words[0].startswith("-") and words[0] != "--":
        word = words.pop(0)
        if word in flags:
            chosen.append(word)
        elif word == "--library" or word.startswith("--sums="):
            options.append(word)
        elif word == "--sums" and words:
            options += [word, words.pop(0)]
        else:
            return None
    return options, chosen, words[1:] if words[:1] == ["--"] else words
