"""The part that looks for the least stack of each command."""
import contextlib, os, re, subprocess, tempfile, time

from bench_parts.measuring import programs, read
from bench_parts.serving import Served

# Specs that take the most stack: eight levels with the most chains, two trees whose leaves are made in lanes, and XMSS.
DEEPEST = ("hss:" + ",".join(["H5/W1"] * 8), "lms:H10/W1", "lms:H10/W8", "xmss:10")


def least_stack(command, prepare, given=os.devnull):
    """The least limit of the stack, in KiB, with which a command ends with status 0. It has no environment, and no
    random places: these need at most 8 KiB more, in each run others."""
    def passes(limit):
        prepare()
        with open(given, "rb") as file:
            return subprocess.run(["setarch", "-R", "prlimit", f"--stack={limit << 10}", *command], stdin=file, env={},
                                  stdout=subprocess.DEVNULL, stderr=subprocess.DEVNULL).returncode == 0
    low, high = 16, 1024
    if not passes(high):
        raise ValueError(f"{' '.join(command)} fails with {high} KiB of stack")
    while high - low > 1:
        middle = (low + high) // 2
        low, high = (low, middle) if passes(middle) else (middle, high)
    return high


def used_stack(command, prepare, given=os.devnull):
    """The KiB of the stack that a command has touched when it ends: strace keeps it there for a moment."""
    prepare()
    with open(given, "rb") as file, subprocess.Popen(
            ["setarch", "-R", "strace", "-qq", "-o", os.devnull, "-e", "inject=exit_group:delay_enter=1000000",
             *command], stdin=file, env={}, stdout=subprocess.DEVNULL, stderr=subprocess.DEVNULL) as tracer:
        most = 0
        while tracer.poll() is None:
            for child in read(f"/proc/{tracer.pid}/task/{tracer.pid}/children").decode().split():
                with contextlib.suppress(OSError):
                    found = re.search(r"\[stack\]\n(?:.*\n)*?Rss: +(\d+) kB", read(f"/proc/{child}/smaps").decode())
                    most = max(most, int(found[1]) if found else 0)
            time.sleep(0.02)
    return most


def stacks():
    """The least limit of the stack for each command, by program, and the pages of it that were used in the end. Both
    include the words and what the kernel puts there."""
    for name, program in programs().items():
        for spec in DEEPEST:
            with tempfile.TemporaryDirectory() as folder:
                kept = Served(folder, spec)
                subprocess.run(kept.sign(), check=True, stdout=subprocess.DEVNULL)
                verify = [program, "verify", kept.public, kept.message, kept.out]
                signed = read(kept.state)
                kept.ask(2)
                # `make` comes last, since it writes another public key
                runs = (("verify", verify, lambda: None, os.devnull),
                        ("sign", [program, *kept.sign()[1:]], lambda: kept.prepare(kept.fresh), os.devnull),
                        ("sign again", [program, *kept.sign()[1:]], lambda: kept.prepare(signed), os.devnull),
                        ("serve", [program, "serve", kept.state], lambda: kept.prepare(kept.fresh), kept.input),
                        ("make", [program, *kept.make()[1:]], kept.prepare, os.devnull))
                least = [f"{what} {least_stack(command, prepare, given)} ({used_stack(command, prepare, given)} used)"
                         for what, command, prepare, given in runs]
                print(f"{name}, {spec}: KiB of stack: {', '.join(least)}", flush=True)
