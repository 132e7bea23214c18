"""Judges the state files of a crash image: what was acknowledged is there and nothing that wasn't begun, and nothing
signs twice from there on."""
import os, shutil, subprocess, sys, tempfile

HERE = os.path.dirname(os.path.realpath(__file__))
sys.path.insert(0, os.path.join(os.path.dirname(HERE), "conformance"))
from life import AFTER, ANSWERS, BEFORE, KEYS, LENGTHS, message  # noqa: E402
from model import Refused, frame, last_tag, records_of  # noqa: E402

LONGEST = 300
MOVED = 5
NEW_NAME = "after-the-cut"


def bodies_of(content):
    """The records of a file; none where it has no key. Refuses where it doesn't open."""
    try:
        return records_of(content or b"")
    except Refused as refused:
        if refused.number == 40:
            return []
        raise


def leaf_of(signature):
    """What names the leaf of a signature: its tree, by the signed keys before it, and the number."""
    size = LENGTHS[KEYS["lms"].spec]
    return signature[:len(signature) - size], signature[-size:][:4]


def reached(marks):
    """The lines that were acknowledged before a cut, and those that had begun. A line is acknowledged as soon as its
    answer begins to leave the program."""
    done, begun = set(), set()
    for mark in marks:
        word, _, number = mark.partition("-")
        if word == BEFORE:
            begun.add(int(number))
        elif word == AFTER:
            done.add(int(number))
        elif word == ANSWERS:
            done.add(max(begun))
    return done, begun


def answered(marks):
    """The lines with a mark before their answers."""
    line, found = None, []
    for mark in marks:
        word, _, number = mark.partition("-")
        line = int(number) if word == BEFORE else line
        if word == ANSWERS and line not in found:
            found.append(line)
    return found


class Judge:
    """Judges images of one recorded life. A judgement depends on the files and on the marks alone, so each is made
    once."""
    def __init__(self, program, lines):
        self.program, self.lines, self.known = program, lines, {}

    def wrongs(self, marks, files):
        """What is wrong with the files of an image, in words: for each key at most one."""
        done, begun = reached(marks)
        found = []
        for key in KEYS.values():
            acked = max((number for number in done if self.lines[number].key == key.name), default=None)
            asked = max((number for number in begun if self.lines[number].key == key.name), default=None)
            case = key.name, files.get(key.old()), files.get(key.new()), acked, asked
            if case not in self.known:
                self.known[case] = self.wrong(key, *case[1:])
            if self.known[case]:
                found.append(f"{key.name}: {self.known[case]}")
        return found

    def files_after(self, key, number):
        """The records of a key's two files after a line."""
        files = self.lines[number].files if number is not None else {}
        return bodies_of(files.get(key.old())), bodies_of(files.get(key.new()))

    def wrong(self, key, old, new, acked, asked):
        """What is wrong with the files of a key, in words, or nothing."""
        try:
            have = bodies_of(old), bodies_of(new)
        except Refused as refused:
            return f"it doesn't open: {refused.number}"
        wanted, possible = self.files_after(key, acked), self.files_after(key, asked)
        for which, records, least, most in zip(("old", "new"), have, wanted, possible):
            if records[:len(least)] != least:
                return f"lost: the {which} file has {len(records)} records, {len(least)} were acknowledged"
            if most[:len(records)] != records:
                return f"the {which} file has {len(records)} records, of which some weren't begun"
        if have[1] not in (wanted[1], possible[1]) and acked is not None and not wanted[1]:
            return "the new file has a part of the records"
        with tempfile.TemporaryDirectory() as folder:
            return Place(self, folder, key, old, new).wrong(have, wanted, acked, asked)

    def given(self, key, acked):
        """The signatures that were acknowledged, by name."""
        return {line.given: line.answer for line in self.lines[:(-1 if acked is None else acked) + 1]
                if line.key == key.name and line.word in ("sign", "ask")}


class Place:
    """Copies of a key's files, on which the program goes on."""
    def __init__(self, judge, folder, key, old, new):
        self.judge, self.folder, self.key, self.warned = judge, folder, key, False
        for name, content in (("old", old), ("new", new)):
            if content is not None:
                self.write(name, content)

    def write(self, name, data):
        with open(os.path.join(self.folder, name), "wb") as file:
            file.write(data)

    def run(self, *words, given=b""):
        """What a line prints, and its status. A warning of a file cut short is remembered."""
        run = subprocess.run([self.judge.program, *words], cwd=self.folder, input=given, capture_output=True,
                             timeout=LONGEST)
        self.warned |= b"bytes stand behind" in run.stderr
        return run.stdout, run.returncode

    def wrong(self, *case):
        """What is wrong with how the files go on, in words, or nothing. No line may warn."""
        return self.wrong_answers(*case) or ("a warning" if self.warned else "")

    def wrong_answers(self, have, wanted, acked, asked):
        """What is wrong with the answers of the lines."""
        if acked is None:
            return self.wrong_made(have)
        name = "new" if wanted[1] else "old"
        least = wanted[1] or wanted[0]
        said, status = self.run("audit", name, "--count", str(len(least)), "--tag", last_tag(least).hex())
        if status != 0:
            return f"audit with the last anchor: {said.decode()}"
        if not wanted[1]:
            fault = self.wrong_moving(have, self.judge.lines[asked].word == "migrate")
            if fault:
                return fault
            name = "new" if os.path.exists(os.path.join(self.folder, "new")) else "old"
        return self.wrong_going_on(name, self.judge.given(self.key, acked))

    def wrong_made(self, have):
        """A `make` that wasn't acknowledged has made the key, or can be repeated."""
        said, status = self.run("make", "old", "public", self.key.spec, "--format", "1")
        if have[0]:
            return "" if said == b"refused 50 KeyThere\n" else f"a second make: {said.decode()}"
        return "" if status == 0 else f"make again: {said.decode()}"

    def wrong_moving(self, have, moving):
        """Of a file that hasn't moved the new one doesn't sign. In a migration at most one does, and the same line run
        again ends it."""
        signs = []
        self.write("probe", b"probe")
        for name in ("old", "new"):
            path = os.path.join(self.folder, name)
            if os.path.exists(path):
                shutil.copy(path, f"{path}-copy")
                if self.run("sign", f"{name}-copy", "probe", "probe", "out")[1] == 0:
                    signs.append(name)
        if len(signs) > 1:
            return "both files sign"
        if not moving:
            return "" if signs == ["old"] else f"{signs} sign"
        said, status = self.run("migrate", "old", "new")
        if (status, have[1] == []) not in ((0, True), (1, False)) or (status == 1 and said != b"refused 50 KeyThere\n"):
            return f"migrate again: {said.decode()}"
        return ""

    def wrong_going_on(self, name, given):
        """The names that were acknowledged get the bytes that they had, a new one a leaf that none of these has, and
        all signatures together use no leaf twice."""
        public = next(line.answer for line in self.judge.lines if line.key == self.key.name and line.word == "make")
        names = [*given, NEW_NAME]
        out, status = self.run("serve", name, given=b"".join(frame(each.encode(), message(each)) for each in names))
        if status != 0:
            return f"serve ends with {status}: {out[:80]!r}"
        replies = []
        while out:
            size = 5 + int.from_bytes(out[1:5], "big")
            replies.append((out[0], out[5:size]))
            out = out[size:]
        wanted = [(0, signature) for signature in given.values()]
        if replies[:-1] != wanted or len(replies) != len(names):
            other = [each for each, came, old in zip(names, replies, wanted) if came != old]
            return f"other bytes for acknowledged names {other[:3]}"
        number, signature = replies[-1]
        if number != 0:
            return f"a new name is refused {number}"
        if leaf_of(signature) in {leaf_of(each) for each in given.values()}:
            return "a new name gets the leaf of an acknowledged signature"
        return self.wrong_given(public, {**given, NEW_NAME: signature})

    def wrong_given(self, public, given):
        self.write("public", public)
        words = []
        for number, (name, signature) in enumerate(given.items()):
            self.write(f"m{number}", message(name))
            self.write(f"s{number}", signature)
            words += [f"m{number}", f"s{number}"]
        said, status = self.run("audit-given", "public", *words)
        wanted = f"given {len(given)} signatures, no leaf twice\n"
        return "" if (said.decode(), status) == (wanted, 0) else f"audit-given: {said.decode()}"
