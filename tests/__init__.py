"""The tests outside the prover. They import each other by their place from the root, so they are run there: python3 -m tests.run LIBRARY.so..."""
from pathlib import Path

ROOT = Path(__file__).resolve().parent.parent
