"""What a must-fail edit changes: code, a definition or claim, or a promise beside unchanged code; and whether it can be made."""
import re

MISPLACED = {"no such file", "a text that is not there", "a text that is there more than once"}


def kind_of(file, line):
    """What stands in this line of this file of a crate."""
    if file.startswith("specs/"):
        return "claim"
    if file.startswith("proofs/"):
        return "proof"
    if re.match(r"\s*(ensures|requires)\b", line):
        return "promise"
    return "import" if line.startswith("ghost use ") else "code"


def changed_by(edit):
    """The kinds of what an edit changes; its replacements are made one after the other, as rt makes them."""
    crate, file, old, texts, kinds = edit.parent.parent, "", "", {}, set()
    for line in edit.read_text().splitlines():
        if line.startswith("file: "):
            file = line[6:]
            if file not in texts:
                texts[file] = (crate / file).read_text() if (crate / file).is_file() else None
        elif line.startswith("old: "):
            old = line[5:]
        elif line.startswith("new:"):
            if texts.get(file) is None:
                kinds.add("no such file")
                continue
            before, found, after = texts[file].partition(old)
            if not found or old in after:
                kinds.add("a text that is there more than once" if found else "a text that is not there")
                continue
            kinds.add(kind_of(file, before[before.rfind("\n") + 1:] + found))
            texts[file] = before + line[4:].removeprefix(" ") + after
    return kinds


def edits(root):
    """All edits with what they change, by the names that the guides give them."""
    return {f"{edit.parent.parent.name}/{edit.stem}": changed_by(edit) for edit in sorted(root.glob("crates/*/must-fail/*.edit"))}


def edit_fault(kinds):
    """Why an edit cannot be made, or None."""
    return ", ".join(sorted(kinds & MISPLACED)) or (None if kinds else "it changes nothing")


def counted(found):
    """How many edits there are, how many change a definition or claim, and how many a promise; none of these changes code."""
    codeless = [kinds for kinds in found.values() if "code" not in kinds]
    return len(found), sum("claim" in kinds for kinds in codeless), sum("promise" in kinds for kinds in codeless)
