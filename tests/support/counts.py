"""The counts of a suite written in Python, and what each test of it counts."""
import threading


class Counts:
    passed = failed = 0
    lock = threading.Lock()


def add(passed, failed):
    """Adds counts of tests that were made elsewhere, such as in another process."""
    with Counts.lock:
        Counts.passed += passed
        Counts.failed += failed


def fail(name, *lines):
    """Counts a test that failed, and prints its name and these lines."""
    with Counts.lock:
        Counts.failed += 1
        print("\n  ".join([f"FAILED {name}", *lines]), flush=True)


def check(name, wanted, came):
    """Counts one test: its name, the expected value, and the actual one."""
    if wanted == came:
        add(1, 0)
    else:
        fail(name, f"wanted: {wanted}", f"came:   {came}")


def check_that(name, holds, came):
    """Counts one test: its name, whether it holds, and what came instead."""
    if holds:
        add(1, 0)
    else:
        fail(name, f"came:   {came}")


def finish():
    """Prints the suite's last line, and gives its exit status."""
    print(f"{Counts.passed} passed, {Counts.failed} failed")
    return Counts.failed != 0
