"""The library as it is installed: `make install` into a temporary place, and a C program outside of the repository that finds it there."""
import os
import pathlib
import re
import shutil
import subprocess
import tempfile

from tests import ROOT
from tests.harness.compiled import ARCHIVE

FILES = ["include/fumbokeri.h", "lib/libfumbokeri.a", "lib/pkgconfig/fumbokeri.pc"]
TOLD = "made 0, started 0, written 0, handled 0, changed 1, checked 0\n"
OF_MAKE = {"MAKEFLAGS", "MFLAGS", "MAKELEVEL", "MAKEOVERRIDES", "PREFIX", "DESTDIR", "ARCHIVE"}  # what an outer make hands down


def made(target, *settings):
    """The exit status of make."""
    clean = {name: value for name, value in os.environ.items() if name not in OF_MAKE}
    run = subprocess.run(["make", "-s", target, f"ARCHIVE={ARCHIVE}", *settings], cwd=ROOT, env=clean, capture_output=True, text=True)
    return run.returncode


def files(place):
    return sorted(str(path.relative_to(place)) for path in place.rglob("*") if path.is_file())


def flags_read(place):
    """The compiler's words in the .pc file, read here."""
    text = (place / FILES[2]).read_text()
    values = dict(re.findall(r"^(\w+)=(.*)$", text, re.M))
    while "${" in text:
        text = re.sub(r"\$\{(\w+)\}", lambda found: values[found[1]], text)
    return " ".join(re.findall(r"^(?:Cflags|Libs): (.*)$", text, re.M)).split()


def flags_asked(place):
    """The same, as pkg-config reads them."""
    search = dict(os.environ, PKG_CONFIG_PATH=str(place / "lib" / "pkgconfig"))
    run = subprocess.run(["pkg-config", "--cflags", "--libs", "fumbokeri"], env=search, capture_output=True, text=True)
    return run.stdout.split()


def built(place, flags):
    """What the program prints that is built with these words."""
    shutil.copy(ROOT / "tests" / "cases" / "c" / "installed.c", place)
    command = ["gcc", "-std=c99", "-Wall", "-Wextra", "-Werror", "-o", "installed", "installed.c", *flags]
    build = subprocess.run(command, cwd=place, capture_output=True, text=True)
    if build.returncode != 0:
        return build.stderr
    return subprocess.run(["./installed"], cwd=place, capture_output=True, text=True, timeout=60).stdout


def program(probe, tally):
    with tempfile.TemporaryDirectory() as temporary:
        place, outside = pathlib.Path(temporary) / "usr", pathlib.Path(temporary) / "program"
        outside.mkdir()
        tally.same(made("install", f"PREFIX={place}"), 0, "make install")
        tally.same(files(place), FILES, "what is installed")
        tally.same((place / FILES[0]).read_bytes(), (ROOT / FILES[0]).read_bytes(), "the header")
        tally.same((place / FILES[1]).read_bytes(), ARCHIVE.read_bytes(), "the archive")
        tally.same(built(outside, flags_read(place)), TOLD, "a program outside")
        if shutil.which("pkg-config") is None:
            print("   not tried: pkg-config is not installed; its file is read by the test alone")
            return
        tally.same(flags_asked(place), flags_read(place), "pkg-config's words")
        tally.same(built(outside, flags_asked(place)), TOLD, "a program outside, by pkg-config")


def removed(probe, tally):
    with tempfile.TemporaryDirectory() as temporary:
        place = pathlib.Path(temporary) / "usr"
        other = place / "lib" / "libother.a"
        made("install", f"PREFIX={place}")
        other.touch()
        tally.same(made("uninstall", f"PREFIX={place}"), 0, "make uninstall")
        tally.same(files(place), ["lib/libother.a"], "what is left")
        tally.same(made("uninstall", f"PREFIX={place}"), 0, "make uninstall, nothing there")


def packaged(probe, tally):
    with tempfile.TemporaryDirectory() as temporary:
        root = pathlib.Path(temporary)
        tally.same(made("install", "PREFIX=/opt/gate", f"DESTDIR={root}"), 0, "make install, DESTDIR")
        tally.same(files(root), [f"opt/gate/{name}" for name in FILES], "what is installed under DESTDIR")
        tally.same(flags_read(root / "opt" / "gate"), ["-I/opt/gate/include", "-L/opt/gate/lib", "-lfumbokeri"], "words without DESTDIR")
        made("uninstall", "PREFIX=/opt/gate", f"DESTDIR={root}")
        tally.same(files(root), [], "what is left under DESTDIR")


def refused(probe, tally):
    tally.same(made("install", "PREFIX=somewhere") != 0, True, "a PREFIX that is no absolute path")
    tally.same((ROOT / "somewhere").exists(), False, "nothing is written then")


GROUPS = [
    ("install: a program outside builds and runs", program),
    ("install: uninstall takes its own files only", removed),
    ("install: DESTDIR", packaged),
    ("install: PREFIX must be absolute", refused),
]
