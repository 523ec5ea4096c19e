"""The guides: every file and name that they cite exists, every row of the trace shows something, every quotation is traced,
the reading guide leaves no definition out, and README no rule; what they count is so."""
import re

from tests import ROOT
from tests.guides.citations import Repository, citations, decisions, indexed, paragraphs, plain, quotations, row_fault, rows
from tests.guides.edits import counted, edit_fault, edits
from tests.guides.reading import definitions, lines, minutes, near, repeated, said, to_read, told_repeated
from tests.guides.tables import broken, in_family, listed, rule_fault, rules

TRACE, READING, README = "docs/TRACE.md", "docs/READING.md", "README.md"
RULES = [
    *[f"{letter}{number}" for letter, most in [("D", 6), ("R", 13), ("V", 6)] for number in range(1, most + 1)],
    *[f"cause {number}" for number in range(1, 8)], "401", "405", "404", "403", "402", "506", "503", "the reply", "MD5", "HMAC-MD5", "session table",
    "Hash", "Check", "Match", "Commit", "demand 1", "demand 2", "demand 3", "marked examples",
]
EDITS = re.compile(
    r"Of the (\d+) edits (\d+) change code; the other (\d+) change no code: (\d+) change a definition or a claim, (\d+) a promise\."
)


def judge(tally, place, what, fault):
    """Counts one citation; a wrong one is always shown."""
    if fault:
        print(f"   {place}: {what}: {fault}")
    tally.failed += bool(fault)
    tally.passed += not fault


def readme():
    return (ROOT / README).read_text()


def cited(name, kind=citations):
    def group(probe, tally):
        repository = Repository(ROOT)
        for number, words in paragraphs((ROOT / name).read_text()):
            for span, fault in kind(repository, words):
                judge(tally, f"{name}:{number}", span, fault)
    return group


def shown(probe, tally):
    repository = Repository(ROOT)
    for number, words, where in rows((ROOT / TRACE).read_text()):
        judge(tally, f"{TRACE}:{number}", words[:60], row_fault(repository, words, where))


def quoted(probe, tally):
    traced = plain(" ".join(words for _, words, _ in rows((ROOT / TRACE).read_text())))
    for number, words in quotations((ROOT / READING).read_text()):
        judge(tally, f"{READING}:{number}", words, None if plain(words) in traced else f"stands in no row of {TRACE}")


def read(probe, tally):
    """Every definition has its place in the guide: to be read, or to be skipped."""
    guide = (ROOT / READING).read_text()
    for place in sorted(ROOT.glob("crates/*/specs/*.antt")):
        name = str(place.relative_to(ROOT / "crates"))
        if place.name != "Lib.antt":
            judge(tally, READING, name, None if f"`{name}`" in guide else "named nowhere")


def ruled(probe, tally):
    """Each rule has its row in README, and what a row names exists."""
    repository = Repository(ROOT)
    rows = rules(readme())
    for number, names, definition, code in rows:
        judge(tally, f"{README}:{number}", names[0], rule_fault(definition, code))
        for span, fault in citations(repository, definition) + citations(repository, code):
            judge(tally, f"{README}:{number}", span, fault)
    for rule in RULES:
        tally.same(sum(rule in names for _, names, _, _ in rows), 1, "rows of README's table for", rule)


def families(probe, tally):
    names, crates = listed(readme(), "crates"), Repository(ROOT).crates
    for crate in crates:
        tally.same(sum(in_family(crate, name) for name in names), 1, "families in README of the crate", crate)
    for name in names:
        tally.same(any(in_family(crate, name) for crate in crates), True, "a crate of the family", name)


def folders(probe, tally):
    """README has a line for each folder of the root, tests/README.md for each folder of tests."""
    for guide, root, apart in [(README, ROOT, {"crates", "target"}), ("tests/README.md", ROOT / "tests", {"__pycache__"})]:
        there = [place for place in root.iterdir() if place.is_dir() and not place.name.startswith(".") and place.name not in apart]
        names = sorted(str(place.relative_to(ROOT)) for place in there)
        tally.same(sorted(listed((ROOT / guide).read_text(), "folder")), names, "the folders that", guide, "lists")


def rendered(probe, tally):
    for place in [ROOT / README, ROOT / "CHANGELOG.md", ROOT / "tests/README.md", *sorted(ROOT.glob("docs/*.md"))]:
        text = place.read_text()
        tally.same(list(broken(text)), [], "broken tables in", place.name)


def edited(probe, tally):
    """README tells how many edits change code, and how many what is claimed."""
    sentence = EDITS.search(" ".join(readme().split()))
    every, claims, promises = counted(edits(ROOT))
    wanted = [every, every - claims - promises, claims + promises, claims, promises]
    tally.same([int(number) for number in sentence.groups()] if sentence else None, wanted, "README's count of the edits")


def fitting(probe, tally):
    """Each edit can be made: rt would say so too, but only after the proofs."""
    for name, kinds in edits(ROOT).items():
        judge(tally, "must-fail", name, edit_fault(kinds))


def figures(probe, tally):
    """The reading guide's minutes, and how much there is to read."""
    guide = (ROOT / READING).read_text()
    whole, files, long = said(guide)
    read = to_read(guide, definitions(ROOT))
    tally.same(minutes(guide), whole, "the minutes of all parts")
    for what, told, found in [("files", files, len(read)), ("lines", long, sum(map(lines, read.values())))]:
        judge(tally, READING, f"{told} {what} to be read", None if near(told, found) else f"there are {found}")


def twice(probe, tally):
    """Which names are defined in more than one file."""
    found, told = repeated(definitions(ROOT)), told_repeated((ROOT / READING).read_text())
    for name in sorted({*found, *told}):
        tally.same(sorted(told.get(name, ())), sorted(found.get(name, ())), "files that define", name)


def ordered(probe, tally):
    """The decisions stand in the order of their numbers, none is left out, and the index names each."""
    numbers = Repository(ROOT).decisions()
    tally.same(numbers, list(range(1, len(numbers) + 1)), "the numbers of the decisions")
    tally.same(sorted(indexed((ROOT / "docs/DECISIONS.md").read_text())), numbers, "the numbers in the index of the decisions")


GROUPS = [
    ("citations of the trace", cited(TRACE)),
    ("citations of the reading guide", cited(READING)),
    ("rows of the trace", shown),
    ("quotations of the reading guide", quoted),
    ("definitions in the reading guide", read),
    ("figures of the reading guide", figures),
    ("names that are defined more than once", twice),
    ("README's table of rules", ruled),
    ("README's families of crates", families),
    ("folders in the guides", folders),
    ("tables that can be shown", rendered),
    ("must-fail edits that README counts", edited),
    ("must-fail edits that can be made", fitting),
    ("decisions that README cites", cited(README, decisions)),
    ("order and index of the decisions", ordered),
]
