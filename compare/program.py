"""The program `cases`, asked through ./run, which proves and builds it first if need be, and says so on standard error."""
import os
import subprocess

ROOT = os.path.dirname(os.path.dirname(os.path.abspath(__file__)))
# seconds for one run, proving included
LONGEST_RUN = 1800


class NoAnswer(Exception):
    """the program cannot be run, or a line has no answer"""


def answers(lines):
    """what the program answers to the lines, one for each"""
    if not lines:
        return []
    # any byte is a character here, as a malformed line may hold any
    asked = "".join(line + "\n" for line in lines).encode("latin-1")
    try:
        run = subprocess.run([os.path.join(ROOT, "run"), "cases"], input=asked, stdout=subprocess.PIPE, timeout=LONGEST_RUN)
    except subprocess.TimeoutExpired:
        raise NoAnswer("the program cases has not answered within %d seconds" % LONGEST_RUN)
    got = run.stdout.decode("latin-1").split("\n")[:-1]
    if run.returncode or len(got) != len(lines):
        last = " (the first without one: %s)" % lines[len(got)][:200] if 0 < len(got) < len(lines) else ""
        raise NoAnswer("the program cases gave %d answers to %d lines%s, and its status was %d" % (len(got), len(lines), last, run.returncode))
    return got
