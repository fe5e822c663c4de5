"""Reads docs/CLAIMS.md and README.md: sections, tables, and names in backticks."""

import re

NAME = r"[A-Z][A-Za-z0-9]*"
CLAIM_COLUMNS = ("Claim", "Claim or test")


def quoted(text, pattern):
    """The names of a pattern that stand in backticks."""
    return re.findall("`(%s)`" % pattern, text)


def section(text, title):
    """What stands under a heading."""
    found = re.search(r"^## %s\n(.*?)(?=^## |\Z)" % re.escape(title), text, re.M | re.S)
    return found.group(1) if found else ""


def rows(text):
    """The rows of every table, each as {heading: cell}."""
    headings = None
    for line in text.splitlines():
        cells = [cell.strip() for cell in line.strip().strip("|").split("|")]
        if not line.startswith("|"):
            headings = None
        elif headings is None:
            headings = cells
        elif line.strip("|-: "):
            yield dict(zip(headings, cells))


def column(text, heading):
    """The cells under a heading, of every table that has it."""
    return [row[heading] for row in rows(text) if heading in row]


def crates_listed(text, title):
    """The crates in the column 'Crate' of a section."""
    return [name for cell in column(section(text, title), "Crate") for name in quoted(cell, r"\w+")]


def claims_named(text):
    """The names in the columns for claims."""
    cells = [cell for heading in CLAIM_COLUMNS for cell in column(text, heading)]
    return sorted({name for cell in cells for name in quoted(cell, NAME)})


def names_in_prose(text):
    """The names outside the tables."""
    prose = "\n".join(line for line in text.splitlines() if not line.startswith("|"))
    return sorted(set(quoted(prose, NAME)))


def edits_named(text):
    """The wrong programs, CRATE/NAME; `*` stands for any letters."""
    return sorted(set(quoted(text, r"[a-z_]+/[a-z0-9_*]+")))


def public_calls(text):
    """The table 'Public calls': [(call, the promise's crate, promise)], and the cells that can't be read."""
    calls, unread = [], []
    for row in rows(section(text, "Public calls")):
        paths = listed(row.get("Call", ""), r"`(\w+(?:::(?:\w+|<[\w:]+>))+)`")
        promises = listed(row.get("Promise", ""), r"`(%s)`(?: of `(\w+)`)?" % NAME)
        promises = promises * len(paths) if len(promises) == 1 else promises
        if not paths or len(paths) != len(promises):
            unread.append(row.get("Call", ""))
            continue
        for path, promise in zip(paths, promises):
            calls.append((path.group(1), promise.group(2) or path.group(1).split("::")[0], promise.group(1)))
    return calls, unread


def listed(cell, pattern):
    """What stands between the commas of a cell, if each is of the pattern; else nothing."""
    found = [re.fullmatch(pattern, part.strip()) for part in cell.split(",")]
    return found if all(found) else []
