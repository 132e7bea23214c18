"""Parts that sign by `serve` beside other implementations, and make tall trees."""
import os, tempfile

from bench_parts.measuring import interleaved, print_beside, programs, write
from bench_parts.peers import botan, bouncy_castle, missing, peers
from bench_parts.serving import Served, Server

SIGNED = ("lms:H10/W8", "lms:H10/W4", "xmss:10")
TALL = ("lms:H15/W8", "xmss:16")


def session(kept, names, program):
    """The processor's milliseconds for the first name of a new `serve`, and for each later one."""
    server = Server(kept, program)
    each = [1000 * server.spent(f"name-{number}") for number in range(names)]
    server.close()
    return each[0], sum(each[1:]) / (names - 1)


def sessions(kept, names):
    """The same by programs: the shortest of three sessions, which take turns."""
    shortest = {}
    for _ in range(3):
        for name, program in programs().items():
            took = session(kept, names, program)
            shortest[name] = min(shortest.get(name, took), took, key=lambda times: times[1])
    return shortest


def made(kept, times):
    """The milliseconds of `make`, by programs."""
    runs = [(kept.prepare, [program, *kept.make()[1:]], os.devnull) for program in programs().values()]
    return dict(zip(programs(), (1000 * took for took in interleaved(runs, times))))


def print_names(kept, keys, names, java, other):
    """Prints the times of names by `serve`, and of `make` with them."""
    spec, took = kept.spec, sessions(kept, names)
    later = {name: each for name, (_, each) in took.items()}
    print_beside(f"each name after the first of {names} by serve {spec}", {**later, **peers(java, other, 1)})
    whole = {name: keys[name] + one + (names - 1) * each for name, (one, each) in took.items()}
    print_beside(f"make and {names} names {spec}",
                 {**whole, "Bouncy Castle": java[0] + names * java[1] if java else None,
                  "Botan": other[0] + names * other[1] if other else None})


def signings():
    """`make`, one name, and names by `serve`. Its process makes the tree again; other programs sign in the process that
    made the key. 64 names reach a second block of leaves, 1024 all blocks. As for Bouncy Castle the shortest of three
    sessions counts."""
    missing()
    for spec in SIGNED:
        with tempfile.TemporaryDirectory() as folder:
            kept = Served(folder, spec)
            other = botan("time-session", "4") if spec.startswith("xmss") else None
            java = {names: bouncy_castle("time-session", spec, str(names)) for names in (64, 1024)}
            keys = made(kept, 5)
            print_beside(f"make {spec}", {**keys, **peers(java[64], other, 0)})
            kept.ask(1)
            fresh = (lambda: kept.prepare(kept.records))
            runs = [(fresh, [program, "serve", kept.state], kept.input) for program in programs().values()]
            first = (1000 * took for took in interleaved(runs, 3))
            print_beside(f"one name by serve {spec}", dict(zip(programs(), first)))
            for names in (64, 1024):
                print_names(kept, keys, names, java[names], other)


def tall_keys():
    """`make` of tall trees, once by each program."""
    for spec in TALL:
        with tempfile.TemporaryDirectory() as folder:
            state, public = os.path.join(folder, "k"), os.path.join(folder, "p")
            runs = [(lambda: write(state, b""), [program, "make", state, public, spec], os.devnull)
                    for program in programs().values()]
            print_beside(f"make {spec}", dict(zip(programs(), (1000 * took for took in interleaved(runs, 1)))))
