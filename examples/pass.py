#!/usr/bin/env python3
"""A pass across the end of 2016, or the one whose rise and set are given: the true seconds between two UTC stamps, and what subtracting their
labels would have said; pass.c in Python. It warns where the pass lies beyond the last month that the table is vouched for.

usage: pass.py [--calls] [RISE SET]

On x86-64 it uses target/shared/libmundreff.so, which tools/build-shared makes, by ctypes. Elsewhere, where that is not there, and with --calls
it asks the program `calls`, which answers a line for each line; one run of it takes all lines."""
import calendar
import collections
import ctypes
import os
import platform
import subprocess
import sys

TOP = os.path.join(os.path.dirname(os.path.abspath(__file__)), "..")
SHARED = os.path.join(TOP, "target", "shared", "libmundreff.so")

# what include/mundreff.h has for them
UTC, BEYOND, NOSECOND = 0, 1, 6
NAMES = "OK ROOM SHAPE YEAR DATE CLOCK NOSECOND RANGE ASK CUT GROUPS TABLE TAIL NUMBER KERNEL".split()
# say that the desk vouches for the table up to December 2026; a newer table gets a later month
VOUCHED = 12 * (2026 - 1972) + 12

# the refusal's number, the instant in TAI microseconds, year to second of the label, the marks
Answer = collections.namedtuple("Answer", "no instant label marks")


class Table(ctypes.Structure):
    _fields_ = [("count", ctypes.c_uint32), ("months", ctypes.c_uint32 * 64), ("offsets", ctypes.c_int32 * 64), ("vouched", ctypes.c_uint32)]


class Stamp(ctypes.Structure):
    _fields_ = [(name, ctypes.c_uint32) for name in "scale year month day hour minute second microsecond".split()]


def ask_library(texts):
    """The answers of the shared object to UTC texts."""
    library = ctypes.CDLL(SHARED)
    library.mundreff_bulletin_c.argtypes = [ctypes.POINTER(Table)]
    library.mundreff_read_text.argtypes = [ctypes.POINTER(Table), ctypes.c_uint32, ctypes.c_char_p, ctypes.c_size_t,
                                           ctypes.POINTER(ctypes.c_int64), ctypes.POINTER(Stamp), ctypes.POINTER(ctypes.c_uint32)]
    library.mundreff_bulletin_c.restype = library.mundreff_read_text.restype = ctypes.c_uint32
    table, instant, stamp, marks = Table(), ctypes.c_int64(), Stamp(), ctypes.c_uint32()
    library.mundreff_bulletin_c(table)
    table.vouched = VOUCHED
    for text in map(os.fsencode, texts):
        no = library.mundreff_read_text(table, UTC, text, len(text), instant, stamp, marks)
        yield Answer(no, instant.value, (stamp.year, stamp.month, stamp.day, stamp.hour, stamp.minute, stamp.second), marks.value)


def ask_calls(texts):
    """The answers of the program `calls` to UTC texts; its table starts as Bulletin C's."""
    lines = [f"vouch {VOUCHED}"] + [f"read_text {UTC} {os.fsencode(text).hex() or '-'}" for text in texts]
    run = subprocess.run([os.path.join(TOP, "tools", "run"), "calls"], input="\n".join(lines) + "\n", stdout=subprocess.PIPE, encoding="ascii")
    if run.returncode:
        sys.exit(run.returncode)  # tools/run has said why
    for line in run.stdout.splitlines()[1:]:
        no, instant, _, *label, _, marks = map(int, line.split())
        yield Answer(no, instant, tuple(label), marks)


def refusal(text, no):
    return f"{text}: refused {NAMES[no]}" + ("; before you call the stamp wrong, look for a newer table" if no == NOSECOND else "")


def main(words):
    by_calls = words[:1] == ["--calls"]
    texts = words[by_calls:] or ["2016-12-31T23:58:30", "2017-01-01T00:01:30"]
    if len(texts) != 2 or texts[0].startswith("-"):
        print(__doc__, file=sys.stderr)
        return 2
    by_library = not by_calls and platform.machine() == "x86_64" and os.path.exists(SHARED)
    answers = list((ask_library if by_library else ask_calls)(texts))
    for text, answer in zip(texts, answers):
        if answer.no:
            print(refusal(text, answer.no), file=sys.stderr)
            return 1
    rise, set_ = answers
    print(f"rise {texts[0]} UTC\nset  {texts[1]} UTC")
    print(f"the pass lasts {(set_.instant - rise.instant) // 1000000} s")
    print(f"the labels subtracted say {calendar.timegm(set_.label) - calendar.timegm(rise.label)} s")
    if (rise.marks | set_.marks) & BEYOND:
        month = VOUCHED - 1
        print(f"warning: the table is vouched for up to {1972 + month // 12}-{1 + month % 12:02} only; get a newer one before you rely on this")
    return 0


if __name__ == "__main__":
    sys.exit(main(sys.argv[1:]))
