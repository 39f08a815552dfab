"""How edge.py and pages.py count: the cases that went as they should, of each program, and the last line."""
import os
import re

TOP = os.path.dirname(os.path.dirname(os.path.abspath(__file__)))


def tally(words, what, cases, goes, wrong=0):
    """Runs each case with each program of the words, adds to the numbers of a line after `--after`, and prints them; `wrong` have failed before.

    The answer is the exit status.
    """
    passed = failed = 0
    if words[:1] == ["--after"]:
        passed, failed = map(int, re.match(r"(\d+) passed, (\d+) failed", words[1]).groups())
        words = words[2:]
    failed += wrong
    for program in words or [f"{TOP}/crates/clipsbatch/out/clipsbatch"]:
        results = [goes(os.path.abspath(program), *each) for each in cases()]
        print(f"{what}: {os.path.relpath(program)}: {sum(results)} of {len(results)} went as they should")
        passed, failed = passed + sum(results), failed + len(results) - sum(results)
    print(f"{passed} passed, {failed} failed")
    return 1 if failed else 0
