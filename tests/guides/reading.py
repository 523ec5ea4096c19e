"""What the reading guide says of itself: its minutes, the files and lines to be read, and names that occur in more than one file."""
import re

from tests.guides.tables import rows_under

WORDS = r"(?:(?:unfoldable|abbrev|record|data)\s+)*"
DEFINITION = re.compile(rf"^{WORDS}pub\s+{WORDS}([^\s:({{]+)(?:\s+[({{].*)?\s*:", re.M)
PLACE = re.compile(r"`(\w+/specs/\w+\.antt)` `([^`]+)`")
SKIPPED = re.compile(r"`(\w+/specs/\w+\.antt)`(?! [`(])")  # no name beside it: the whole file


def definitions(root):
    """The files of definitions, by their names from crates/ on."""
    return {str(place.relative_to(root / "crates")): place.read_text() for place in root.glob("crates/*/specs/*.antt") if place.name != "Lib.antt"}


def grouped(places):
    """Pairs of a file and a name, as {name: its files}."""
    found = {}
    for file, name in places:
        found.setdefault(name, set()).add(file)
    return found


def repeated(files):
    """The names that are defined in more than one file, each with its files."""
    found = grouped((file, name) for file, text in files.items() for name in DEFINITION.findall(text))
    return {name: places for name, places in found.items() if len(places) > 1}


def told_repeated(guide):
    """The same by the guide's table."""
    return grouped(place for _, row in rows_under(guide, "same name") for place in PLACE.findall(row[0]))


def to_read(guide, files):
    """The files that the guide does not let its reader skip."""
    start = guide.index("You may skip")
    skipped = SKIPPED.findall(guide[start:guide.index("\n## ", start)])
    return {file: text for file, text in files.items() if file not in skipped}


def lines(text):
    """The lines of a file of definitions, without import lines and empty ones."""
    return sum(bool(line.strip()) and not line.startswith("use ") for line in text.splitlines())


def minutes(guide):
    """The minutes of all parts."""
    return sum(int(number) for number in re.findall(r"^## .*\((\d+) minutes\)$", guide, re.M))


def said(guide):
    """Minutes, files and lines as the guide says them."""
    words = " ".join(guide.split())
    whole = re.search(r"(\d+) minutes in all", words)
    read = re.search(r"some (\d+) files of definitions, about ([\d,]+) lines without import lines and empty ones", words)
    return [int(number.replace(",", "")) for number in (whole[1], read[1], read[2])]


def near(said, found):
    """A round figure may be a twentieth away."""
    return 20 * abs(said - found) <= said
