"""The table of cases, and their count."""
import traceback


class Report:
    def __init__(self):
        self.passed = self.failed = 0

    def head(self):
        self.row("result", "client", "case")

    def row(self, *columns):
        print("{:<7} {:<17} {}".format(*columns), flush=True)

    def same(self, found, wanted, client, case):
        """One case: a row of the table."""
        is_same = found == wanted
        self.passed += is_same
        self.failed += not is_same
        self.row("passed" if is_same else "FAILED", client, case)
        if not is_same:
            print(f"        wanted: {wanted}\n        found:  {found}", flush=True)

    def group(self, client, run, *arguments):
        """Runs cases; where one of them breaks off, that is a failure too."""
        before = self.passed + self.failed
        try:
            run(self, *arguments)
        except Exception as error:  # the rest of the run still tells something
            traceback.print_exc()
            self.same(repr(error), "no exception", client, f"{run.__module__}.{run.__name__} to its end")
        if self.passed + self.failed == before:
            self.same("no case", "a case", client, f"{run.__module__}.{run.__name__}")

    def end(self):
        """The last line, and the exit status."""
        print(f"{self.passed} passed, {self.failed} failed")
        return 1 if self.failed else 0
