"""How the scripts here call the Rattle toolchain: its own module `rtlib`, and whether a library is built already."""
import importlib
import os
import shutil
import subprocess
import sys

sys.dont_write_bytecode = True
ROOT = os.path.dirname(os.path.dirname(os.path.realpath(__file__)))
BUILT = f"{ROOT}/share/built"


class Failed(Exception):
    """What could not be built, in the last lines of the command that failed."""


def run(command, folder=ROOT):
    """Runs a command, and gives what it prints."""
    ran = subprocess.run(command, cwd=folder, stdin=subprocess.DEVNULL, stdout=subprocess.PIPE,
                         stderr=subprocess.STDOUT, text=True, errors="replace")
    if ran.returncode:
        raise Failed("\n".join(ran.stdout.splitlines()[-8:]))
    return ran.stdout


def rtlib():
    """The module by which `rt` itself calls the prover."""
    if not shutil.which("rt"):
        raise Failed("building it needs the Rattle toolchain, whose command is rt")
    folder = os.path.dirname(os.path.realpath(shutil.which("rt")))
    if folder not in sys.path:
        sys.path.insert(0, folder)
    return importlib.import_module("rtlib")


def crate_named(name):
    crate = next((it for it in rtlib().crates_below(f"{ROOT}/crates") if it.name == name), None)
    if not crate:
        raise Failed(f"there is no crate {name}")
    return crate


def jobs():
    """How many checks may run side by side."""
    return run([f"{ROOT}/share/jobs"]).strip()


def is_of_gate(library):
    """Whether `./test` noted that `rt ci` built this library from the sources as they are. What `rt` builds for other
    commands has a stamp in place of that."""
    return not os.path.exists(f"{library.folder}/out/rlib/stamp") and not subprocess.run(
        [BUILT, "is", library.name, library.rlib], check=False).returncode


def is_proved_below(crate):
    """Whether the libraries below a crate were built from the sources as they are: all by the sums that `rt` keeps, or
    all by those of `./test`."""
    below = crate.below()
    return all(it.is_built() for it in below) or all(map(is_of_gate, below))


def prove_below(crate):
    """Proves the libraries below a crate, where they aren't built from the sources as they are."""
    if is_proved_below(crate):
        return
    print(f"proving what {crate.name} needs; from nothing that takes up to half an hour", file=sys.stderr)
    for library in crate.below():
        run(["rt", "lib", "--jobs", jobs()], library.folder)


def verdict(printed):
    """The line in which the prover says what it proved, and what it trusted."""
    return next((it for it in reversed(printed.splitlines()) if it.startswith("logic=proved ")), "no verdict")
