"""Work of a test that fails on purpose: what it prints is not shown."""
import contextlib
import io


def quietly(work, *arguments):
    """What the work returns, and what it prints."""
    with contextlib.redirect_stdout(io.StringIO()) as printed:
        return work(*arguments), printed.getvalue()
