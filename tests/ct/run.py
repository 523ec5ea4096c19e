"""`make ct`: python3 tests/ct/run.py PROGRAM REPORT. Each subject under valgrind: only the verdicts' branches are reported, once a call.

The program's group and name say what is run; `verdicts` says which branches it must have. That a branch is D4's is seen by where it is
reported: one alone, at one address, by every kind of request. D5's is the one that kinds with type 80 add, unless D4 ends them before.
"""
import sys

import sites

PROGRAM, REPORT = sys.argv[1:]
ENDED_BY_FIRST = "of the authenticator"


def verdicts(group, name):
    """The branches that a subject must have; none but for these."""
    if group == "check reply":
        return ["V5"]  # V6's is no branch: the answer is worked out from it
    if group not in ("handle", "step", "wrong handle"):
        return []
    return ["D4", "D5"] if " 80" in name and ENDED_BY_FIRST not in name else ["D4"]


def learnt(runs):
    """The site of each group's branches: of the first by what one kind alone reports, of the second by what another adds."""
    known = {}
    for (group, name), run in sorted(runs.items(), key=lambda pair: len(verdicts(*pair[0]))):
        wanted = verdicts(group, name)
        left = set(run.sites) - {known.get((group, verdict)) for verdict in wanted}
        if wanted and (group, wanted[-1]) not in known and len(left) == 1:
            known[group, wanted[-1]] = left.pop()
    return known


def is_right(group, name, run, known):
    """Exactly the wanted branches, each at its one site, each once a call."""
    wanted = {known.get((group, verdict)): run.calls for verdict in verdicts(group, name)}
    return None not in wanted and run.sites == wanted and all(site.kind == "UninitCondition" for site in wanted)


def is_wrong(group):
    """Code that is not the library's, and is to be found out."""
    return group.startswith("wrong")


def shown(run):
    found = [f"{site.kind} in {site.function} at {site.address:#x}, {count} times" for site, count in run.sites.items()]
    return f"{run.calls} calls: " + ("; ".join(found) or "nothing")


def main():
    runs = {subject: sites.run(PROGRAM, *subject, REPORT) for subject in sites.subjects(PROGRAM)}
    known = learnt(runs)
    passed = failed = 0
    for (group, name), run in runs.items():
        right = is_right(group, name, run, known)
        if run.calls > 0 and (run.sites and not right if is_wrong(group) else right):
            passed += 1
        else:
            failed += 1
            print(f"FAILED: {group}, {name}: {shown(run)}" + (", and is to be found out" if is_wrong(group) else ""))
    for group in dict.fromkeys(group for group, _ in runs):
        names = [name for one, name in runs if one == group]
        branches = [f"{verdict} in {site.function} at {site.address:#x}" for (of, verdict), site in known.items() if of == group]
        told = f"found out, as {names[0]}: {shown(runs[group, names[0]])}" if is_wrong(group) else "; ".join(branches) or "no branch"
        print(f"{group}, {len(names)} subjects: {told}")
    print(f"{passed} passed, {failed} failed")
    return 1 if failed else 0


sys.exit(main())
