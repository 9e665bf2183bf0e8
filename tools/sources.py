"""Texts of sources: their lines, places in them, and the tokens at places."""
import re

LINE_END = re.compile(r"\r\n|\n|\r")
TOKEN = re.compile(r"[\w$]+|.")


def text_of(data):
    """The text of these bytes. A byte that belongs to no character counts as one."""
    return data.decode("utf-8", "surrogateescape")


def bytes_of(text):
    return text.encode("utf-8", "surrogateescape")


def lines_of(text):
    """The lines of a text, as the program counts them: after LF, or after CR that no LF follows, a new one begins."""
    return LINE_END.split(text)


def line_at(lines, number):
    """The line of that number from 1; empty behind the last one."""
    return lines[number - 1] if 1 <= number <= len(lines) else ""


def token_end(line, column):
    """The column behind the token that begins at this one; both count characters from 1."""
    found = TOKEN.match(line, column - 1)
    return found.end() + 1 if found else column


def units(line, column):
    """How many units of UTF-16 stand before that column: what an editor counts, from 0."""
    return column - 1 if line.isascii() else len(line[: column - 1].encode("utf-16-le", "surrogatepass")) // 2


def column_at(line, count):
    """The column of the character that has the unit of UTF-16 behind so many."""
    return len(line.encode("utf-16-le", "surrogatepass")[: 2 * count].decode("utf-16-le", "ignore")) + 1
