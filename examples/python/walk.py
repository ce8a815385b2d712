#!/usr/bin/env python3
"""Calls every function of the library on the worked sheet W, from Python.

    python3 examples/python/walk.py SHARED-OBJECT

docs/C.md says how to make the shared object. What must be printed is in walk.out beside this file.
"""

import ctypes
import sys
from ctypes import byref, c_size_t, c_uint8, c_uint16, c_uint32, c_uint64

# The sheet W: shifts d, e and x are the values 0, 1 and 2.
SHEET = """\
size 6 3 0
final 0
final 2
final 3
final 4
final 5
arc 0 0 1 1
arc 0 1 3 2
arc 0 2 4 0
arc 1 0 2 1
arc 2 2 4 0
arc 3 1 2 2
arc 3 2 4 0
arc 4 0 1 1
arc 4 1 3 2
arc 4 2 5 0
arc 5 0 1 1
arc 5 1 3 2
""".replace(" ", "\t").encode()

PLACES = 3
TABLE_SIZE = 1024
WORK_LENGTH = (PLACES + 1) * 64
PLAN_LENGTH = 8 * WORK_LENGTH
SESSION_LENGTH = 3 * PLACES + 1792
RESULT, LEAST, KEPT = 0, 1, 2  # where a session's memory shows them


def slice_of(kind, entries):
    """Memory for a slice, with these entries."""
    return (kind * len(entries))(*entries)


def lent(memory):
    """A slice as two arguments: a pointer and a length."""
    return memory, c_size_t(len(memory))


def spelled(numbers):
    return " ".join(str(number) for number in numbers)


class Rota:
    """The library, with the rule set of a sheet and three places."""

    def __init__(self, path):
        # An answer number fits ctypes' own result, a C int; the length that a job returns is wider.
        self.library = ctypes.CDLL(path)
        self.library.reedgosling_job.restype = c_size_t
        self.library.reedgosling_mend_job.restype = c_size_t
        self.library.reedgosling_pattern_job.restype = c_size_t
        self.targets = slice_of(c_uint8, [0] * TABLE_SIZE)
        self.costs = slice_of(c_uint16, [0] * TABLE_SIZE)
        self.work = slice_of(c_uint32, [0] * WORK_LENGTH)
        self.memory = slice_of(c_uint32, [0] * SESSION_LENGTH)
        self.states, self.values, self.start, self.accepting = c_size_t(), c_size_t(), c_uint8(), c_uint64()

    def rules(self):
        """The rule set, as every call but the readers and the jobs is handed it."""
        return self.states, self.values, self.start, *lent(self.targets), *lent(self.costs), self.accepting

    def call(self, name, *arguments):
        """A call upon the places and the rule set."""
        return self.library["reedgosling_" + name](c_size_t(PLACES), *self.rules(), *arguments)

    def read(self, text):
        line = c_size_t()
        numbers = line, self.states, self.values, self.start, self.accepting
        answer = self.library.reedgosling_read_sheet(
            *lent(slice_of(c_uint8, text)), *lent(self.targets), *lent(self.costs), *(byref(number) for number in numbers))
        return answer, line.value

    def read_pattern(self, line, count):
        numbers = self.states, self.values, self.start, self.accepting
        return self.library.reedgosling_read_pattern(
            *lent(slice_of(c_uint8, line)), c_size_t(count), *lent(self.targets), *lent(self.costs),
            *(byref(number) for number in numbers))

    def write(self):
        buffer, length = slice_of(c_uint8, [0] * 18212), c_size_t()
        answer = self.library.reedgosling_write_sheet(*self.rules(), *lent(buffer), byref(length))
        return answer, bytes(buffer[:length.value])

    def filter(self, masks, limits):
        kept, least = slice_of(c_uint16, [0] * PLACES), c_uint32()
        answer = self.call("filter", *lent(masks), *lent(limits), *lent(kept), *lent(self.work), byref(least))
        return answer, kept, least.value

    def first_roster(self, masks, limits, place, value):
        roster = slice_of(c_uint8, [0] * PLACES)
        answer = self.call(
            "first_roster", *lent(masks), *lent(limits), c_size_t(place), c_uint8(value), *lent(roster), *lent(self.work))
        return answer, roster

    def prefix_report(self, roster):
        report = c_size_t()
        answer = self.call("prefix_report", *lent(slice_of(c_uint8, roster)), byref(report))
        return answer, report.value

    def mend(self, masks, limits, drawn, most):
        roster, plan, changes = slice_of(c_uint8, [0] * PLACES), slice_of(c_uint32, [0] * PLAN_LENGTH), c_uint32()
        answer = self.call(
            "mend", *lent(masks), *lent(limits), *lent(slice_of(c_uint8, drawn)), c_uint32(most), *lent(roster), *lent(plan),
            byref(changes))
        return answer, changes.value, roster

    def check(self, masks, limits, drawn, roster, claimed):
        says = c_uint8()
        answer = self.call(
            "check", *lent(masks), *lent(limits), *lent(slice_of(c_uint8, drawn)), *lent(roster), c_uint32(claimed), byref(says))
        return answer, "yes" if says.value else "no"

    def open(self, masks, limits):
        return self.call("open", *lent(masks), *lent(limits), *lent(self.memory), *lent(self.work))

    def ask(self, name, *numbers):
        """A call upon the open session: keep, limit, mark or back."""
        return self.call(name, *lent(self.memory), *lent(self.work), *numbers)

    def shown(self):
        """What the session's memory shows."""
        kept = self.memory[KEPT:KEPT + PLACES]
        return f"result {self.memory[RESULT]}, kept {spelled(kept)}, least cost {self.memory[LEAST]}"

    def job(self, text, name="job"):
        output = slice_of(c_uint8, [0] * 2048)
        length = getattr(self.library, "reedgosling_" + name)(*lent(slice_of(c_uint8, text)), *lent(output))
        return bytes(output[:length]).decode()


def single_calls(rota, masks, limits):
    answer, line = rota.read(SHEET[:-1])
    print(f"W without its last line feed: answer {answer}, line {line}")
    answer, line = rota.read(SHEET.replace(b"arc\t1\t0\t2", b"arc\t1\t0\t6"))
    print(f"W with an arc to state 6: answer {answer}, line {line}")
    answer, line = rota.read(SHEET)
    print(f"W read: answer {answer}, {rota.states.value} states, {rota.values.value} values, start {rota.start.value}, "
          f"accepting mask {rota.accepting.value}")
    answer, kept, least = rota.filter(masks, limits)
    print(f"K3, three days with any shift: answer {answer}, kept {spelled(kept)}, least cost {least}")
    answer, roster = rota.first_roster(masks, limits, 1, 1)
    print(f"K11, first roster with shift 1 on day 1: answer {answer}, roster {spelled(roster)}")
    answer, report = rota.prefix_report(roster)
    print(f"report of that roster: answer {answer}, last days to be drawn anew: {report}")
    for drawn in [2, 2, 0], [0, 2, 2]:
        answer, report = rota.prefix_report(drawn)
        print(f"report of {spelled(drawn)}: answer {answer}, last days to be drawn anew: {report}")


def mending(rota, masks, limits):
    drawn = [2, 2, 0]
    answer, changes, _ = rota.mend(masks, limits, drawn, 0)
    print(f"{spelled(drawn)} mended with no change: answer {answer}, changes {changes}")
    answer, changes, roster = rota.mend(masks, limits, drawn, 7)
    print(f"{spelled(drawn)} mended with at most 7: answer {answer}, changes {changes}, roster {spelled(roster)}")
    for claimed in 1, 2:
        answer, says = rota.check(masks, limits, drawn, roster, claimed)
        print(f"that roster with {claimed} claimed: answer {answer}, {says}")


def session_walk(rota, masks, limits):
    print(f"open: answer {rota.open(masks, limits)}, {rota.shown()}")
    steps = [
        ("mark", "mark"),
        ("keep shift 0 alone on day 1", "keep", c_size_t(1), c_uint16(1)),
        ("limit day 0 at cost 0", "limit", c_size_t(0), c_uint32(0)),
        ("mark", "mark"),
        ("keep shift 2 alone on day 2", "keep", c_size_t(2), c_uint16(4)),
        ("back", "back"),
        ("back", "back"),
        ("back", "back"),
    ]
    for said, name, *numbers in steps:
        print(f"{said}: answer {rota.ask(name, *numbers)}, {rota.shown()}")


def patterns(rota, masks, limits):
    line = b"(aa|b|bb)(c(aa|b|bb))*"
    answer = rota.read_pattern(line, 2)
    print(f"the colleagues' pattern for two shifts: answer {answer}")
    answer = rota.read_pattern(line, 3)
    print(f"for three: answer {answer}, {rota.states.value} states, {rota.values.value} values, start {rota.start.value}, "
          f"accepting mask {rota.accepting.value}")
    answer, kept, least = rota.filter(masks, limits)
    print(f"three days of it: answer {answer}, kept {spelled(kept)}, least cost {least}")
    print("sheet of the pattern ab:")
    print(rota.job(b"2\tab\n", "pattern_job"), end="")


def main(path):
    rota = Rota(path)
    masks, limits = slice_of(c_uint16, [7] * PLACES), slice_of(c_uint32, [366000] * PLACES)
    single_calls(rota, masks, limits)
    mending(rota, masks, limits)
    session_walk(rota, masks, limits)
    answer, text = rota.write()
    print(f"W written: answer {answer}, {len(text)} bytes, {'the same' if text == SHEET else 'others'} as were read")
    print("job of W, three days, shift 0 alone on day 1:")
    print(rota.job(SHEET + b"\ndays\t3\nkeep\t1\t1\n"), end="")
    print("2 2 0 mended, no shift 0 on day 1:")
    print(rota.job(SHEET + b"\ndays\t3\nkeep\t1\t6\ndrawn\t2\t2\t0\nmost\t7\n", "mend_job"), end="")
    patterns(rota, masks, limits)


if __name__ == "__main__":
    if len(sys.argv) != 2:
        sys.exit("usage: python3 examples/python/walk.py SHARED-OBJECT")
    main(sys.argv[1])
