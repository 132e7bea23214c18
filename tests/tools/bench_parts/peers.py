"""Times of Bouncy Castle and Botan, where they are installed."""
import os, shutil, subprocess, tempfile

from bench_parts.measuring import ROOT, programs

BOUNCY_CASTLE = os.environ.get("BOUNCY_CASTLE", "/usr/share/java/bcprov.jar")
NO_BOUNCY_CASTLE = "BOUNCY_CASTLE names no jar of Bouncy Castle, or java isn't installed"
NO_BOTAN = "Botan's library or a compiler isn't installed"


def bouncy_castle(*words):
    """The numbers that tests/support/BouncyCastle.java prints; None where it can't be run."""
    if not os.path.exists(BOUNCY_CASTLE) or not shutil.which("java"):
        return None
    peer = os.path.join(ROOT, "tests", "support", "BouncyCastle.java")
    return numbers(["java", "-cp", BOUNCY_CASTLE, peer, *words])


def botan(*words):
    """The numbers that tests/support/botan.cpp prints; None without its library and a compiler."""
    flags = subprocess.run(["pkg-config", "--cflags", "--libs", "botan-2"], capture_output=True, text=True) \
        if shutil.which("pkg-config") else None
    if not flags or flags.returncode != 0 or not shutil.which("c++"):
        return None
    with tempfile.TemporaryDirectory() as folder:
        program = os.path.join(folder, "botan")
        source = os.path.join(ROOT, "tests", "support", "botan.cpp")
        subprocess.run(["c++", "-O2", "-std=c++17", source, "-o", program, *flags.stdout.split()], check=True)
        return numbers([program, *words])


def numbers(command):
    """The numbers that a command prints."""
    return [float(word) for word in subprocess.run(command, check=True, capture_output=True, text=True).stdout.split()]


def peers(java, other, place):
    """One number of Bouncy Castle's and of Botan's, where there are any."""
    return {name: times[place] if times else None for name, times in (("Bouncy Castle", java), ("Botan", other))}


def missing():
    """Says which other programs are missing."""
    for name in {"AVX2", "before"} - set(programs()):
        print(f"there is no program {name}")
    if not os.path.exists(BOUNCY_CASTLE) or not shutil.which("java"):
        print(NO_BOUNCY_CASTLE)
    if not shutil.which("pkg-config") or subprocess.run(["pkg-config", "--exists", "botan-2"]).returncode != 0:
        print(NO_BOTAN)
