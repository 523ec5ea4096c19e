"""What moved since a revision: python3 -m tests.tools.contracts REV. It prints each function whose `requires` or `ensures` is another, is gone or is
new, and each file under specs/, in the form CRATE: what; the exit status is 1 where anything moved."""
import io
import re
import subprocess
import sys
import tarfile

from tests import ROOT

FUNCTION = re.compile(r'\s*(?:#\[[^\]]*\]\s*)?(pub )?(?:extern "C" )?fn (\w+)')
METHODS = re.compile(r"impl(?:<[^>]*>)? (\w+)")
CLAUSE = re.compile(r"\s+(requires|ensures)\b")


def read(name):
    """Whether contracts or definitions stand there; rt leaves what is no text beside them, in crates/*/out."""
    return name.endswith((".rt", ".antt")) and name.split("/")[2] in ("src", "specs")


def at_revision(revision):
    """The files of all crates then, by path."""
    packed = subprocess.run(["git", "archive", revision, "crates"], cwd=ROOT, check=True, capture_output=True).stdout
    with tarfile.open(fileobj=io.BytesIO(packed)) as files:
        return {file.name: files.extractfile(file).read().decode() for file in files if file.isfile() and read(file.name)}


def at_hand():
    """The same of the files as they are."""
    kept = {str(path.relative_to(ROOT)): path for path in (ROOT / "crates").glob("*/*/**/*") if path.is_file()}
    return {name: path.read_text() for name, path in kept.items() if read(name)}


def contracts(files):
    """The clauses of each function that has some, by crate, module and name."""
    found = {}
    for path, text in files.items():
        crate, folder, *rest = path.split("/")[1:]
        if folder != "src":
            continue
        module = "".join(f"{part}::" for part in "/".join(rest).removesuffix(".rt").split("/") if part != "lib")
        owner, key = "", None
        for line in text.splitlines():
            if methods := METHODS.match(line):
                owner = methods[1] + "::"
            elif line == "}":
                owner = ""
            elif named := FUNCTION.match(line):
                key = crate, f"{named[1] or ''}fn {module}{owner}{named[2]}"
            elif CLAUSE.match(line):
                found.setdefault(key, []).append(line.strip())
    return found


def specs(files):
    """The files under specs/, by crate and name."""
    parts = ((path.split("/"), text) for path, text in files.items())
    return {(part[1], "/".join(part[2:])): text for part, text in parts if part[2] == "specs"}


def moved(before, after):
    for key in sorted(before.keys() | after.keys()):
        if before.get(key) != after.get(key):
            yield key, "gone" if key not in after else "new" if key not in before else "another"


def main(revision):
    then, now = at_revision(revision), at_hand()
    lines = [f"{crate}: {name}, {how}" for look in (contracts, specs) for (crate, name), how in moved(look(then), look(now))]
    print("\n".join(lines) or "nothing moved")
    return 1 if lines else 0


if __name__ == "__main__":
    if len(sys.argv) != 2:
        sys.exit(__doc__)
    sys.exit(main(sys.argv[1]))
