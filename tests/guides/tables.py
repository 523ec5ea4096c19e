"""The tables of a guide: what stands in them, and whether they can be shown as tables."""
import re

from tests.guides.citations import SPAN

DASHES = re.compile(r":?-+:?")


def cells(line):
    """The cells of a row; a stroke that is no border has a backslash before it. None where the row has no border at its end."""
    parts = [part.strip() for part in re.split(r"(?<!\\)\|", line.strip())]
    return parts[1:-1] if len(parts) > 2 and parts[0] == parts[-1] == "" else None


def tables(text):
    """The tables, each a list of (line number, cells): its head, its line of dashes, its rows."""
    table = []
    for number, line in enumerate([*text.splitlines(), ""], 1):
        if line.startswith("|"):
            table.append((number, cells(line)))
        elif table:
            yield table
            table = []


def broken(text):
    """The rows that would not be shown as such, as (line number, why)."""
    for table in tables(text):
        head = table[0][1]
        if len(table) < 3 or not all(DASHES.fullmatch(cell) for cell in table[1][1] or [""]):
            yield table[0][0], "no head, line of dashes and rows"
        for number, row in table:
            if row is None or head is None or len(row) != len(head):
                yield number, "not as many cells as the head has"


def rows_under(text, head):
    """The rows of the tables whose head begins with this cell, as (line number, cells), but for broken ones."""
    kept = [table for table in tables(text) if table[0][1] and table[0][1][0] == head]
    return [(number, row) for table in kept for number, row in table[2:] if row and len(row) == len(table[0][1])]


def listed(text, head):
    """The names in the first cells of these tables."""
    return [name for _, row in rows_under(text, head) for name in SPAN.findall(row[0])]


def rules(text):
    """The rows of the table of rules, as (line number, the names of the rule, its definition, its code)."""
    return [(number, re.split(", |: ", rule), definition, code) for number, (rule, definition, code) in rows_under(text, "rule")]


def rule_fault(definition, code):
    """Why a row does not tell where a rule is, or None."""
    if not re.search(r"`\w+/specs/\w+\.antt` `", definition):
        return "no file and name of a definition"
    if not re.search(r"`\w+(::\w+)+`|`\w+/(src|proofs)/[\w/]+\.\w+` `", code):
        return "no function, and no file and name of a proof"
    return None


def in_family(crate, family):
    """A family is the first word of its crates' names, with its underscore, or the one crate of that name and those that go on from it."""
    return crate.startswith(family) if family.endswith("_") else crate == family or crate.startswith(family + "_")
