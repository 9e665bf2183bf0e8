"""What the pages say of errors: the rows of docs/ERRORS.md and docs/REPAIRS.md."""
import os
import re

import program

LINK = re.compile(r"\[([^]]*)\]\([^)]*\)")
ROWS = re.compile(r"; rows? [\d, to]+$")
CELL = re.compile(r"(?<!\\)\|")


def tables(page):
    """The rows of all tables of a page, each as its heading and its cells by the words at the heads of their columns."""
    heading, heads = "", None
    with open(os.path.join(program.TOP, "docs", page), encoding="utf-8") as file:
        for line in file:
            cells = [LINK.sub(r"\1", cell.strip().replace("\\|", "|")) for cell in CELL.split(line.strip())[1:-1]]
            if line.startswith("#"):
                heading = line.strip("# \n")
            if not line.startswith("|"):
                heads = None
            elif heads is None:
                heads = cells
            elif not set("".join(cells)) <= set("-: "):
                yield heading, dict(zip(heads, cells))


def keys():
    """The row of each key of ERRORS.md, without the numbers of the rows of REPAIRS.md, which `repairs` has."""
    return {row["key"].strip("`"): {**row, "usual repair": ROWS.sub("", row["usual repair"])} for _, row in tables("ERRORS.md") if "key" in row}


def limits():
    """The rows of ERRORS.md on limits, by the limit's name."""
    rows = ((row["line"].strip("`").rpartition("limit: "), row) for _, row in tables("ERRORS.md") if "line" in row)
    return {name: row for (_, limit, name), row in rows if limit}


def claims():
    """The rows of ERRORS.md on claims."""
    return [row for _, row in tables("ERRORS.md") if "claim" in row]


def repairs():
    """The rows of REPAIRS.md, each with its heading."""
    return [(heading, row) for heading, row in tables("REPAIRS.md") if "keys" in row]


def number(row):
    """The number of a row of REPAIRS.md."""
    return row[""]


def sources(row):
    """The whole sources of a row of REPAIRS.md, from the top on."""
    return [f"examples/repairs/{number(row)}-{state}.java" for state in ("before", "after")]
