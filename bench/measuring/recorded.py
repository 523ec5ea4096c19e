"""The recorded figures, bench/expected.txt: a name and a figure in each line."""
import pathlib

PLACE = pathlib.Path("bench/expected.txt")
HEAD = """# The figures that `make bench` holds the library to: instructions, and bytes of text and stack. `make record` writes them.
"""


def read():
    if not PLACE.exists():
        return {}
    pairs = (line.split() for line in PLACE.read_text().splitlines() if line and not line.startswith("#"))
    return {name: float(figure) for name, figure in pairs}


def write(rows):
    figures = {row.name: f"{row.ours:.1f}".removesuffix(".0") for row in rows if row.name is not None}
    PLACE.write_text(HEAD + "".join(f"{name} {figure}\n" for name, figure in figures.items()))
