"""What a trial compares: each difference is told at once, and the trial ends with how many there were."""
import difflib
import sys
from threading import Lock

SHOWN = 800  # characters of what differs
FIRST = 20  # lines of two texts that differ
counts = {"comparisons": 0, "faults": 0}
taking_turns = Lock()


def agree(holds, told):
    """Tells what isn't so. Whether it isn't."""
    with taking_turns:
        counts["comparisons"] += 1
        if not holds:
            counts["faults"] += 1
            print(f"differs: {told}", flush=True)
    return not holds


def differs(what, got, want):
    """Tells where the two differ, and whether they do."""
    return agree(got == want, f"{what}\n    it is       {str(got)[:SHOWN]}\n    it must be  {str(want)[:SHOWN]}")


def lines_differ(what, got, want):
    """Tells the first lines in which the two differ, and whether they do."""
    texts = [value if isinstance(value, str) else repr(value) for value in (got, want)]
    told = difflib.unified_diff(*(text.splitlines() for text in texts), "it is", "it must be", n=1, lineterm="")
    return agree(got == want, "\n".join([what, *list(told)[:FIRST]]))


def conclude(more=""):
    """Ends the trial: with status 1 where something differs."""
    print(", ".join(f"{count} {what}" for what, count in counts.items()) + more)
    sys.exit(1 if counts["faults"] else 0)
