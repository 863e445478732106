"""Counts what is compared, and waits for it: on a busy machine all takes as long as it takes."""
import contextlib
import time

counts = {"passed": 0, "failed": 0}
tried = []
# How long a condition is waited for, in seconds, that a machine at rest meets in a tenth of one.
PATIENCE = 60


@contextlib.contextmanager
def trying(name):
    """What fails within is told with this name."""
    tried.append(f"{name}: ")
    yield
    tried.pop()


def check(name, wanted, got):
    if wanted == got:
        counts["passed"] += 1
        return
    counts["failed"] += 1
    print(f"FAILED {''.join(tried)}{name}\n  wanted: {wanted!r:.200}\n  got:    {got!r:.200}")


def until(wanted, get, seconds=PATIENCE):
    """Asks until what is wanted comes or the time is over, and answers what came last."""
    end = time.time() + seconds
    while (found := get()) != wanted and time.time() < end:
        time.sleep(0.05)
    return found


def eventually(name, wanted, get, seconds=PATIENCE):
    check(name, wanted, until(wanted, get, seconds))


def verdict():
    """Tells the counts, and answers the status of the program."""
    print("{passed} passed, {failed} failed".format(**counts))
    return 1 if counts["failed"] else 0
