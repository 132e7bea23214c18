"""Files that the judge has to refuse: those of a recorded life, changed by hand. So each of its questions is known to
find its fault."""
import copy

from judge import Judge
from life import AFTER, BEFORE, KEYS

SLOT = 256
KEY = KEYS["lms"]


def marks_up_to(number, done=True):
    """The marks of a life up to a line, which was acknowledged, or only begun."""
    marks = [f"{word}-{each}" for each in range(number) for word in (BEFORE, AFTER)]
    return [*marks, f"{BEFORE}-{number}", *([f"{AFTER}-{number}"] if done else [])]


def cases(lines):
    """What is changed, the marks, the files, and how the verdict has to begin."""
    mine = [at for at, line in enumerate(lines) if line.key == KEY.name]
    last, moves = mine[-1], next(at for at in mine if lines[at].word == "migrate")
    ends, before, after = lines[last].files, lines[moves - 1].files, lines[moves].files
    old, new = KEY.old(), KEY.new()
    done, moving = marks_up_to(last), marks_up_to(moves, False)
    yield "nothing", done, ends, ""
    yield "no last record", done, {**ends, new: ends[new][:-SLOT - 1] + bytes(1)}, "lost: the new file"
    yield "no file", done, {old: ends[old]}, "lost: the new file"
    yield "the old file put back", done, {**ends, old: before[old]}, "lost: the old file"
    yield "another byte", done, {**ends, new: ends[new][:300] + b"\xff" + ends[new][301:]}, "it doesn't open"
    yield "bytes behind the records", done, {**ends, new: ends[new] + b"\xff" * 2 * SLOT}, "a warning"
    yield "a record that wasn't begun", marks_up_to(moves - 2), before, "the old file has"
    yield "a part of the new file", moving, {**after, new: after[new][:2 * SLOT] + bytes(1)}, "the new file has a part"
    yield "two files that sign", moving, {**after, old: before[old]}, "both files sign"


def verdicts(program, lines):
    """What is changed in each case, how the verdict has to begin, and the verdict."""
    judge = Judge(program, lines)
    for what, marks, files, wanted in cases(lines):
        yield what, wanted and f"{KEY.name}: {wanted}", judge.wrongs(marks, files)
    other = copy.deepcopy(lines)
    last = max(at for at, line in enumerate(other) if line.key == KEY.name and line.word == "ask")
    other[last].answer = bytes([*other[last].answer[:-1], other[last].answer[-1] ^ 1])
    wrongs = Judge(program, other).wrongs(marks_up_to(last), other[last].files)
    yield "a signature with another byte", f"{KEY.name}: other bytes for acknowledged names", wrongs
