"""Whether what a test needs is there. A suite that can't run for want of a program says so, and counts as failed.

  tests/support/needs.py  prints Debian's packages that are missing, for .ci/run
"""
import os, shutil, subprocess, sys

TABLE = os.path.join(os.path.dirname(os.path.realpath(__file__)), "needs")
# what was reported as missing: each once
REPORTED = set()


def rows(text):
    """The rows of a part of the table: Debian's package, and the program or file that it has."""
    return [line.split() for line in text.splitlines() if line and not line.startswith("#")]


with open(TABLE, encoding="utf-8") as table:
    WANTED, ESSENTIAL = map(rows, table.read().split("\n\n"))
PACKAGES = {thing: package for package, thing in WANTED + ESSENTIAL}


def is_there(thing):
    return os.path.exists(thing) if thing.startswith("/") else shutil.which(thing) is not None


def has(counts, *things):
    """Whether all these programs and files are there. Each that is missing counts as failed, once, under the name of
    the running script."""
    missing = [thing for thing in things if not is_there(thing)]
    for thing in missing:
        if thing not in REPORTED:
            REPORTED.add(thing)
            counts.failed += 1
            package = f" (Debian's package {PACKAGES[thing]})" if thing in PACKAGES else ""
            print(f"FAILED {os.path.basename(sys.argv[0])}: {thing} isn't there{package}", flush=True)
    return not missing


def can_trace(counts, what):
    """Whether strace is there and may trace. A machine that forbids tracing is no failure: a line says what isn't
    tested."""
    if not has(counts, "strace"):
        return False
    words = ["strace", "-qq", "-o", os.devnull, "true"]
    may = subprocess.run(words, stdin=subprocess.DEVNULL, stderr=subprocess.DEVNULL, check=False).returncode == 0
    if not may:
        print(f"strace may not trace on this machine: {what}", flush=True)
    return may


if __name__ == "__main__":
    for lacking in sorted({package for package, thing in WANTED if not is_there(thing)}):
        print(lacking)
