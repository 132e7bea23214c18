"""What the parts share: where programs are, times and blocks of a run, and how numbers are printed."""
import hashlib, os, re, resource, subprocess, tempfile, time

ROOT = os.path.realpath(f"{os.path.dirname(os.path.realpath(__file__))}/../../..")
HBSIGN = os.path.join(ROOT, "hbsign")
PROGRAM = os.path.join(ROOT, "crates", "command", "out", "command")
# the program for processors with AVX2
FAST = PROGRAM + "-x86-64-v3"
TREES = os.path.join(ROOT, "crates", "scheme_tests", "out", "scheme_tests_tests")
VECTORS = os.path.join(ROOT, "tests", "vectors")
WIDTHS = {1: (1, 265, 7), 2: (2, 133, 6), 3: (4, 67, 4), 4: (8, 34, 0)}
HEIGHTS = {5: 5, 6: 10, 7: 15, 8: 20, 9: 25}


def sha256(*parts):
    return hashlib.sha256(b"".join(parts)).digest()


def best(command, times):
    """The time of the shortest run, in seconds."""
    shortest = None
    for _ in range(times):
        start = time.perf_counter()
        subprocess.run(command, check=True, stdout=subprocess.DEVNULL)
        took = time.perf_counter() - start
        shortest = took if shortest is None else min(shortest, took)
    return shortest


def computing(command, times, folder=None, given=os.devnull):
    """The processor's time for a command in seconds, with a file on its input: the shortest of these runs."""
    def spent():
        usage = resource.getrusage(resource.RUSAGE_CHILDREN)
        return usage.ru_utime + usage.ru_stime
    shortest = None
    for _ in range(times):
        start = spent()
        with open(given, "rb") as file:
            subprocess.run(command, check=True, stdin=file, stdout=subprocess.DEVNULL, cwd=folder)
        took = spent() - start
        shortest = took if shortest is None else min(shortest, took)
    return shortest


def blocks(length):
    """The blocks of SHA-256 for a message of this many bytes (FIPS 180-4 5.1)."""
    return (length + 9 + 63) // 64


def read(path):
    with open(path, "rb") as file:
        return file.read()


def digits(width, chains, shift, digest):
    """The digits of a digest and of its checksum (RFC 8554 4.4)."""
    def coef(data, i):
        bits = int.from_bytes(data, "big") >> (8 * len(data) - width * (i + 1))
        return bits & (2**width - 1)
    message = [coef(digest, i) for i in range(256 // width)]
    checksum = sum(2**width - 1 - d for d in message) << shift
    whole = digest + checksum.to_bytes(2, "big")
    return [coef(whole, i) for i in range(chains)]


def vector(folder, number):
    """The paths of a public key, a message and its signature among the vectors."""
    return [os.path.join(VECTORS, folder, name) for name in ("public", f"message-{number}", f"signature-{number}")]


def resident(pid):
    """The most resident memory that a running process has had, in MiB, by Linux."""
    try:
        found = re.search(rb"VmHWM:\s+(\d+) kB", read(f"/proc/{pid}/status"))
    except OSError:
        found = None
    return int(found[1]) / 1024 if found else 0


def through_a_pipe(command, size):
    """The time in seconds and the most resident memory in MiB of a command that reads `size` zeros."""
    peak = 0
    with subprocess.Popen(["head", "-c", str(size), "/dev/zero"], stdout=subprocess.PIPE) as zeros:
        start = time.perf_counter()
        reader = subprocess.Popen(command, stdin=zeros.stdout, stdout=subprocess.DEVNULL)
        zeros.stdout.close()
        while reader.poll() is None:
            peak = max(peak, resident(reader.pid))
            time.sleep(0.01)
        took = time.perf_counter() - start
    if reader.returncode != 0:
        raise ValueError(f"{command} ended with {reader.returncode}")
    return took, peak


# How many blocks are hashed side by side (`crates/winternitz/src/lanes.rt`). For all of them `sixteen_steps` is called
# three times, from round 16 on.
LANES = 8


def blocks_in(*words, given=os.devnull):
    """The blocks of SHA-256 of a run of the program, with a file on its input, and in words how many go in lanes. Each
    lane's block counts; those of a message or a tag, of which lanes make the schedules alone, count as plain. If none
    of one kind is found, a function has another name now, and this fails."""
    with tempfile.TemporaryDirectory() as folder, open(given, "rb") as file:
        out = os.path.join(folder, "calls")
        subprocess.run(["valgrind", "--tool=callgrind", f"--callgrind-out-file={out}", PROGRAM, *words],
                       check=True, stdin=file, stdout=subprocess.DEVNULL, stderr=subprocess.DEVNULL)
        calls = read(out).decode()
        plain = calls_of("sha2::block256::compress", calls) + calls_of("winternitz::compression::compress_lane", calls)
        in_lanes = LANES * calls_of("winternitz::lanes::rounds::sixteen_steps", calls) // 3
        if plain == 0 or in_lanes == 0:
            raise ValueError(f"{words[0]}: no blocks are counted ({plain} plainly, {in_lanes} in lanes)")
        return plain + in_lanes, f"{plain} plainly, {in_lanes} in lanes"


def calls_of(name, text):
    """How often a function was called, by callgrind's file. The file has a name in full once, and then by number."""
    number = re.search(r"\((\d+)\) " + re.escape(name) + r"$", text, re.M)
    if not number:
        return 0
    pattern = r"^cfn=\(" + number.group(1) + r"\)[^\n]*\ncalls=(\d+)"
    return sum(int(calls) for calls in re.findall(pattern, text, re.M))


def write(path, data):
    with open(path, "wb") as file:
        file.write(data)


def interleaved(runs, times):
    """The processor's shortest times for runs that take turns. A run is a preparation, a command and its input."""
    shortest = [None] * len(runs)
    for _ in range(times):
        for place, (prepare, command, given) in enumerate(runs):
            prepare()
            took = computing(command, 1, None, given)
            shortest[place] = took if shortest[place] is None else min(shortest[place], took)
    return shortest


def programs():
    """The timed programs by name: for AVX2, for x86-64-v2, and an earlier one at the path BEFORE."""
    named = {"AVX2": FAST, "x86-64-v2": PROGRAM, "before": os.environ.get("BEFORE")}
    return {name: path for name, path in named.items()
            if path and os.access(path, os.X_OK)
            and subprocess.run([path, "--version"], stdout=subprocess.DEVNULL).returncode == 0}


def print_beside(what, times):
    """Prints milliseconds by programs, some of them missing, and the ratios of `hbsign`'s to each other one."""
    times = {name: took for name, took in times.items() if took is not None}
    ratios = [f"{own} {times[own] / times[other]:.2f} times {other}" for own in ("AVX2", "x86-64-v2")
              for other in times if own in times and other not in ("AVX2", "x86-64-v2")]
    print(f"{what}: {', '.join(f'{name} {took:.2f} ms' for name, took in times.items())}; {'; '.join(ratios)}",
          flush=True)


def frame(name, message):
    """A request of `serve` (docs/FORMATS.md)."""
    return bytes([len(name)]) + name + len(message).to_bytes(4, "big") + message
