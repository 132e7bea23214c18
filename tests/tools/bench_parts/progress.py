"""Parts with the line that a terminal shows: how much longer `make` takes with it."""
import os, pty, re, shutil, subprocess, tempfile, threading

from bench_parts.measuring import programs, read

# height 15, with the widths whose leaves take the least time and the most
SHOWN = "lms:H15/W2", "lms:H15/W8"
# keys that valgrind makes in some ten seconds, so that lines are drawn
COUNTED = "lms:H10/W8", "xmss:10"
# how much longer `make` may take with a line
MOST = 1.01


def on_terminal(command, folder, quiet):
    """A command with a terminal as standard error: the processor's time for it, the kernel's part of that, and how many
    lines it wrote there."""
    own, other = pty.openpty()
    written = []

    def read():
        while True:
            try:
                data = os.read(own, 65536)
            except OSError:
                data = b""
            if not data:
                return
            written.append(data)
    reader = threading.Thread(target=read)
    reader.start()
    environment = {"TERM": "xterm", "LANG": "C.UTF-8", "PATH": os.environ["PATH"],
                   **({"HBSIGN_QUIET": "1"} if quiet else {})}
    process = subprocess.Popen(command, stdin=subprocess.DEVNULL, stdout=subprocess.DEVNULL, stderr=other, cwd=folder,
                               env=environment)
    os.close(other)
    _, status, usage = os.wait4(process.pid, 0)
    process.returncode = os.waitstatus_to_exitcode(status)
    reader.join()
    os.close(own)
    if process.returncode:
        raise ValueError(f"{' '.join(command)} ends with {process.returncode}")
    return usage.ru_utime + usage.ru_stime, usage.ru_stime, b"".join(written).count(b"\x1b[?7h")


def judged(ratio, lines):
    """In words whether a line was drawn, and costs as little as it has to."""
    if not lines:
        return "but NO LINE was drawn"
    return "as it has to be" if ratio <= MOST else "which is TOO MUCH"


def progress():
    """What the line of long work costs: `make` with it and without it in turn, by program. The median of the pairs'
    ratios says it, and the least and the greatest how steady the machine was."""
    for name, program in programs().items():
        for spec in SHOWN:
            ratios, kernel, spent, lines = [], {True: 0, False: 0}, 0, 0
            for _ in range(7):
                took = {}
                for quiet in (True, False):
                    with tempfile.TemporaryDirectory() as folder:
                        command = [program, "make", "state", "public", spec]
                        took[quiet], system, drawn = on_terminal(command, folder, quiet)
                    kernel[quiet] += system
                    lines = max(lines, drawn)
                ratios.append(took[False] / took[True])
                spent += took[True]
            middle = sorted(ratios)[len(ratios) // 2]
            print(f"{name}, {spec}: `make` with {lines} lines takes {middle:.4f} times as long ({min(ratios):.4f} to "
                  f"{max(ratios):.4f}), {judged(middle, lines)}; the kernel's part of "
                  f"{spent:.1f} s is {kernel[False]:.2f} s with lines, {kernel[True]:.2f} without",
                  flush=True)


def instructions_on_terminal(program, spec, quiet):
    """The instructions of `make` with a terminal as standard error, and how many lines it wrote there."""
    with tempfile.TemporaryDirectory() as folder:
        counted = ["valgrind", "--tool=callgrind", "--log-file=log", "--callgrind-out-file=counts"]
        _, _, lines = on_terminal([*counted, program, "make", "state", "public", spec], folder, quiet)
        total = re.search(r"^(?:summary|totals): (\d+)$", read(os.path.join(folder, "counts")).decode(), re.M)
        return int(total[1]), lines


def progress_counts():
    """The same in the program's instructions, if valgrind is there. Under valgrind work takes some ten times as long,
    and a second has as many lines. So this ratio is some ten times as far from 1 as without valgrind."""
    if not shutil.which("valgrind"):
        print("valgrind isn't installed: no instructions are counted")
        return
    for name, program in programs().items():
        for spec in COUNTED:
            without, _ = instructions_on_terminal(program, spec, True)
            told, lines = instructions_on_terminal(program, spec, False)
            print(f"{name}, {spec}: `make` has {told:,} instructions with {lines} lines on a terminal, {without:,} "
                  f"without: {told / without:.5f} times as many, {judged(told / without, lines)}", flush=True)
