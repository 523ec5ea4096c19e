"""What a guide names in backticks, and whether the repository has it."""
import re
from pathlib import Path

NUMBERS = r"\d+(?:(?:, and | and |, )\d+)*"
DECISIONS = re.compile(rf"DECISIONS(?:\.md)?`?,? ({NUMBERS})")
SPAN = re.compile(r"`([^`]+)`")
NAME = re.compile(r"[A-Za-z0-9][\w'-]*")
BETWEEN = re.compile(r"(?:[\s,(]|and )*")  # what may stand between a file and the names that stand in it
WORDS = {"requires", "ensures", "result", "cond", "eqb", "ltb", "leb", "sub_ℕ", "abbrev", "unfoldable", "pub", "record"}  # of the language: no citations

# how a name is defined, by the ending of its file
DEFINED = {
    ".antt": r"^\s*(?:(?:unfoldable|abbrev|pub|record|data)\s+)*{0}(?:\s+[({{][^:]*)?\s*:",
    ".rt": r"\b(?:fn|struct|enum|const)\s+{0}\b|^\s*pub {0}:",
    ".py": r"^(?:def|class) {0}\b|^{0} =",
    ".h": r"\b{0}\(|^#define {0}\b|\bstruct {0}\b",
    ".sh": r"^{0}\(\)",
}


class Repository:
    def __init__(self, root):
        self.root = Path(root)
        lines = (self.root / "crates.txt").read_text().splitlines()
        self.crates = [line.split(":")[0].removesuffix(" staticlib") for line in lines if line and not line.startswith("#")]

    def path(self, name):
        """The file or folder of this name, of the root or of crates/; None where there is none."""
        for place in (self.root / name, self.root / "crates" / name):
            if place.is_dir() if name.endswith("/") else place.exists():
                return place
        return None

    def defines(self, place, name):
        pattern = DEFINED.get(place.suffix)
        return bool(pattern) and bool(re.search(pattern.format(re.escape(name)), place.read_text(), re.M))

    def decisions(self):
        """The numbers of the decisions, in the order of the file."""
        return [int(number) for number in re.findall(r"^(\d+)\. \*\*", (self.root / "docs/DECISIONS.md").read_text(), re.M)]

    def makes(self, target):
        return bool(re.search(rf"^{re.escape(target)}:", (self.root / "Makefile").read_text(), re.M))

    def function(self, crate, *parts):
        """Whether the crate has this item: of its lib.rt, of a module, or of a type's methods."""
        folder = self.root / "crates" / crate / "src"
        *within, name = parts
        if crate not in self.crates:
            return False
        if not within:
            return self.defines(folder / "lib.rt", name)
        module = folder / f"{within[-1]}.rt"
        if module.exists():
            return self.defines(module, name)
        methods = [f for f in folder.glob("*.rt") if re.search(rf"^impl(?:<[^>]*>)? {within[-1]}\b", f.read_text(), re.M)]
        return any(re.search(rf"^    pub fn {re.escape(name)}\b", f.read_text(), re.M) for f in methods)


def slashed(repository, span):
    """A path, or a must-fail edit of a crate."""
    if "*" in span:
        return "names no one thing"
    if repository.path(span):
        return None
    crate, _, edit = span.partition("/")
    if crate not in repository.crates or not re.fullmatch(r"[\w-]+", edit):
        return "no such file"
    return None if (repository.root / "crates" / crate / "must-fail" / f"{edit}.edit").is_file() else "no such file, and no such edit"


def span_fault(repository, span, file):
    """Why this citation is wrong, or None. `file`: the one that it stands beside, or None. Code that names nothing is no citation: ''."""
    if span.startswith("make "):
        return None if repository.makes(span[5:]) else "no such target"
    if "::" in span:
        return None if repository.function(*span.split("::")) else "no such function"
    if "/" in span and " " not in span:
        return slashed(repository, span)
    if not NAME.fullmatch(span) or span in WORDS:
        return ""
    if file:
        return None if repository.defines(file, span) else f"not defined in {file.name}"
    return None if span in repository.crates else "no crate, and no file before it"


def paragraphs(text):
    """The text without its line breaks, as (number of the first line, words); a row of a table stands alone."""
    held, first = [], 0
    for number, line in enumerate([*text.splitlines(), ""], 1):
        alone = line.startswith("|")
        if held and (alone or not line.strip()):
            yield first, " ".join(held)
            held = []
        if alone:
            yield number, line
        elif line.strip():
            first = first if held else number
            held.append(line.strip())


def citations(repository, text):
    """The citations of a paragraph, each with why it is wrong, or None."""
    found, file, end = [], None, 0
    for match in SPAN.finditer(text):
        span = match[1]
        if not BETWEEN.fullmatch(text[end:match.start()]):
            file = None
        fault = span_fault(repository, span, file)
        if fault != "":
            found.append((span, fault))
        if "/" in span and "::" not in span:
            file = repository.path(span)
            file = file if file and file.is_file() and file.suffix in DEFINED else None
        end = match.end()
    return found + decisions(repository, text)


def decisions(repository, text):
    """The decisions that a paragraph cites by number."""
    known = repository.decisions()
    numbers = [int(number) for match in DECISIONS.findall(text) for number in re.findall(r"\d+", match)]
    return [(f"decision {number}", None if number in known else "no such decision") for number in numbers]


def rows(text):
    """The rows of the tables of a guide, as (line number, words, where)."""
    for number, line in enumerate(text.splitlines(), 1):
        cells = [cell.strip() for cell in line.strip().strip("|").split(" | ")]
        if line.startswith("| ") and len(cells) == 2 and cells[0] != "words":
            yield number, *cells


def row_fault(repository, words, where):
    """Why a row of the trace shows nothing, or None. What comes with document 02 has a dash."""
    if where == "-":
        return None if "(02)" in words else "a dash for what is built"
    return None if citations(repository, where) else "nothing is cited"


def indexed(text):
    """The numbers that the index at the top of a file names: the last cells of its tables."""
    return {int(number) for _, _, where in rows(text) for number in re.findall(r"\d+", where)}


def plain(text):
    return " ".join(text.replace("*", "").split())


def quotations(text):
    """What a guide quotes, three words or more, as (line number, words)."""
    for number, words in paragraphs(text):
        for quoted in re.findall(r'"([^"]+)"', SPAN.sub("", words)):
            if len(quoted.split()) >= 3:
                yield number, quoted
