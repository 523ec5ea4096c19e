"""C over the header and the archive: where they are, and in which languages and how strictly it is compiled."""
import shutil

from tests import ROOT

HEADER = ROOT / "include" / "fumbokeri.h"
ARCHIVE = ROOT / "target" / "staticlib" / "libcapi.a"
STRICT = ["-pedantic", "-Wall", "-Wextra", "-Wconversion", "-Werror", "-O2"]
LANGUAGES = [["gcc", "-std=c99", "-x", "c"], ["gcc", "-std=c11", "-x", "c"], ["g++", "-std=c++11", "-x", "c++"]]


def languages():
    """Those that are installed, C99 first."""
    for language in LANGUAGES:
        if shutil.which(language[0]) is None:
            print(f"   not tried: {language[0]} is not installed")
        else:
            yield language
