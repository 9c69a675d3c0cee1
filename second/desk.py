"""The program `desk`, written from docs/DESK.md: each line has its answer.

It stands on the calls of second.py, of which it reads and writes stamps, blocks,
kernels and cards; here are the requests, the words of the answers and the refusals.
Lines and answers are bytes.  second.py runs it.
"""

import re
from typing import NamedTuple

import second
from second import (ASK, CARD, CLOCK, CUT, DATE, GROUPS, KERNEL, NOSECOND, NUMBER, RANGE, ROOM, SHAPE, TABLE, TAIL, YEAR,
                    FIRST_YEAR, SECOND, UTC, Refused, Stamp)

LONGEST_LINE = 1_024
SHOWN_OF_A_LONG_LINE = 40
MOST_FILE_BYTES = 65_536
MOST_NUMBERS_SHOWN = 20

CLOCKS = (b'UTC', b'TAI', b'TDT', b'GPS')  # by the number of the scale
MONTHS = (b'January', b'February', b'March', b'April', b'May', b'June', b'July', b'August', b'September', b'October', b'November',
          b'December')


# ---------------------------------------------------------------------------
# Refusals

class Words(NamedTuple):
    """What is said about a refusal."""
    name: bytes
    sentence: bytes
    advice: bytes


REFUSALS = {
    ROOM: Words(b'ROOM', b'The result is longer than the buffer that was lent.',
                b'Lend a longer one. This program never gives it.'),
    SHAPE: Words(b'SHAPE', b'A stamp looks like 1987-04-12T16:31:12 or 1987-102T16:31:12 or 1986 APR 12 16:31:09 and one to six digits'
                           b' may follow a point. Not read are a blank for the T; a Z or a blank or a carriage return at the end; a stamp'
                           b' without seconds; Dec for DEC.',
                 b'Write it so; behind its clock and one blank.'),
    YEAR: Words(b'YEAR', b'The year is before 1972 or past 9999.', b'Check the year.'),
    DATE: Words(b'DATE', b'The month or the day is zero or too large.', b'Check the date; February 29 is in leap years only.'),
    CLOCK: Words(b'CLOCK', b'The hour is over 23 or the minute over 59 or the second over 60; and TAI and TDT and GPS have no second 60.',
                 b'Check the time and the clock in front of it.'),
    NOSECOND: Words(b'NOSECOND', b'UTC has no such second under the table in force.',
                    b'Check the stamp; if it is right then load a newer table.'),
    RANGE: Words(b'RANGE', b'What is asked for lies before 1972 or past 9999 on its clock.', b'Ask for another clock or a smaller step.'),
    ASK: Words(b'ASK', b'This is no request or a stamp without its clock. The clocks are UTC and TAI and TDT and GPS; help lists the'
                       b' requests.',
               b'Put the clock in front of each stamp; help lists the requests.'),
    CUT: Words(b'CUT', b'The block ends too soon.', b'Copy it again from its beginning to its end.'),
    GROUPS: Words(b'GROUPS', b'A number of the block is not in its shortest form.', b'Ask whoever sent the block for a new one.'),
    TABLE: Words(b'TABLE', b'The leap table is not right or none is loaded; or its last entry lies after the month that it is to be'
                           b' vouched for.',
                 b'Load a right table; or give a later month.'),
    TAIL: Words(b'TAIL', b'The block goes on behind its last entry.', b'Copy the block alone.'),
    NUMBER: Words(b'NUMBER', b'This is no pair of a midnight and a fraction.',
                  b'Give a midnight that ends in .5 and a fraction below 1.'),
    KERNEL: Words(b'KERNEL', b'The file is no leap-seconds kernel or is longer than 65536 bytes.',
                  b'Look at the byte that is named; or ask for the file again.'),
    CARD: Words(b'CARD', b'A line of the file is no TP card or its date is out of order.',
                b'Look at the line that begins at the byte that is named; or ask for the file again.'),
}

LONG_LINE = b'The line has over 1024 bytes.'
NO_SECONDS = b'A number of seconds looks like 90.5 or -3 with up to 12 digits and six behind the point.'
NO_NAME = b'A name has no comma and no quote in it.'
NO_MONTH = b'A month looks like 2026-12 and is not before 1972-01.'
NO_REFUSAL = b'A refusal has a number from 1 to 15.'
NO_HEX = b'A block is written as pairs of hex digits.'
NO_FILE = b'The file cannot be read.'
LONG_FILE = b'The file is longer than 65536 bytes.'


class NoAnswer(Exception):
    """A line's refusal: what was given (None is the line), a sentence of its own, the place in a block or a file."""

    def __init__(self, number, given=None, sentence=None, place=None):
        super().__init__(number, given, sentence, place)
        self.number = number
        self.given = given
        self.sentence = sentence
        self.place = place


class NotLoaded(NoAnswer):
    """The refusal of a block or of a file: behind it no table is in force."""


NO_TABLE = second.Table(0, (), ())  # it has no entries, and every call that needs a table refuses it


SHOWN_AS = bytes(byte if 32 <= byte <= 126 and byte not in b'",' else ord('?') for byte in range(256))


def refusal(line, no_answer):
    words = REFUSALS[no_answer.number]
    given = line if no_answer.given is None else no_answer.given
    place = b'' if no_answer.place is None else b' at byte %d' % no_answer.place
    return b'refused %d %s: %s Given: %s%s' % (no_answer.number, words.name, no_answer.sentence or words.sentence,
                                             given.translate(SHOWN_AS), place)


# ---------------------------------------------------------------------------
# Parts of a request

SECONDS = re.compile(rb'([+-]?)([0-9]+)(?:\.([0-9]{0,6}))?')
MOST_SECONDS = 999_999_999_999
MONTH = re.compile(rb'([0-9]{4})-(0[1-9]|1[0-2])')


def two_parts(rest, between):
    """Up to where `between` first stands, and behind it."""
    first, _, last = rest.partition(between)
    return first, last


def scale_of_clock(name):
    return CLOCKS.index(name) if name in CLOCKS else None


class Read(NamedTuple):
    instant: int
    stamp: Stamp


def read_stamp(table, given):
    clock, text = two_parts(given, b' ')
    scale = scale_of_clock(clock)
    if scale is None:
        raise NoAnswer(ASK, given)
    try:
        return Read(*second.read_text(table, scale, text))
    except Refused as refused:
        raise NoAnswer(refused.number, given) from None


def microseconds_of_seconds(given):
    found = SECONDS.fullmatch(given)
    if not found or int(found[2]) > MOST_SECONDS:
        raise NoAnswer(ASK, given, NO_SECONDS)
    sign, whole, decimals = found.groups()
    size = int(whole) * SECOND + int((decimals or b'').ljust(6, b'0'))
    return -size if sign == b'-' else size


def check_name(given):
    if given == b'' or b',' in given or b'"' in given:
        raise NoAnswer(ASK, given, NO_NAME)


def month_of_text(given):
    found = MONTH.fullmatch(given)
    if not found or int(found[1]) < FIRST_YEAR:
        raise NoAnswer(ASK, given, NO_MONTH)
    return second.month_number(int(found[1]), int(found[2]))


# ---------------------------------------------------------------------------
# Parts of an answer

BEYOND = b', beyond the month that the table is vouched for'


def text_of_stamp(stamp, digits):
    return CLOCKS[stamp.scale] + b' ' + second.text_of_fields(0, stamp.label, stamp.microsecond, digits)


def text_of_microseconds(size):
    whole, decimals = divmod(abs(size), SECOND)
    return b'%s%d.%06d' % (b'-' if size < 0 else b'', whole, decimals)


def marked(table, answer, *stamps):
    """The answer, and behind it where one of the stamps that it used lies beyond the vouched month."""
    is_beyond = any(second.marks_of_label(table, stamp.scale, stamp.label) for stamp in stamps)
    return answer + BEYOND if is_beyond else answer


def stamp_in_range(table, instant, scale):
    try:
        return second.stamp_of(table, instant, scale)
    except Refused as refused:
        raise NoAnswer(refused.number) from None


def offset_of_stamp(table, stamp):
    """TAI-UTC in its month; a clock without leap seconds has none that changes."""
    return second.tai_minus_utc(table, second.month_number(stamp.label.year, stamp.label.month)) if stamp.scale == UTC else 0


def steps_between(table, first, last):
    """The steps between two readings, in the order of time."""
    if first.stamp.scale != last.stamp.scale:
        return b'different clocks'
    earlier, later = sorted((first, last), key=lambda reading: reading.instant)
    steps = offset_of_stamp(table, later.stamp) - offset_of_stamp(table, earlier.stamp)
    if steps == 0:
        return b'no second added'
    return b'%d second%s %s' % (abs(steps), b'' if abs(steps) == 1 else b's', b'added' if steps > 0 else b'taken out')


def date_of_month(month):
    return b'%04d-%02d-01' % (FIRST_YEAR + month // 12, month % 12 + 1)


def entries(table):
    """Each entry's month and offset."""
    return list(zip(table.months[:table.count], table.offsets))


def table_in_words(table):
    month, offset = entries(table)[-1]
    vouched = table.vouched_month
    return b'%d %s, the last %s with %d s, %s' % (
        table.count, b'entry' if table.count == 1 else b'entries', date_of_month(month), offset,
        b'no month vouched for' if vouched is None else b'vouched to %s %d' % (MONTHS[vouched % 12], FIRST_YEAR + vouched // 12))


# ---------------------------------------------------------------------------
# Requests: each takes what stands behind its words and a blank

def answer_between(table, rest):
    first, last = (read_stamp(table, given) for given in two_parts(rest, b' and '))
    return marked(table, text_of_microseconds(last.instant - first.instant) + b' s', first.stamp, last.stamp)


def answer_show(table, rest):
    given, clock = two_parts(rest, b' on ')
    read = read_stamp(table, given)
    scale = scale_of_clock(clock)
    if scale is None:
        raise NoAnswer(ASK)
    shown = stamp_in_range(table, read.instant, scale)
    return marked(table, text_of_stamp(shown, 6), read.stamp, shown)


def answer_after(table, rest):
    read = read_stamp(table, rest)
    shown = stamp_in_range(table, read.instant + SECOND, read.stamp.scale)
    return marked(table, text_of_stamp(shown, 0), read.stamp, shown)


def answer_add(table, rest):
    seconds, given = two_parts(rest, b' to ')
    step = microseconds_of_seconds(seconds)
    read = read_stamp(table, given)
    shown = stamp_in_range(table, read.instant + step, read.stamp.scale)
    return marked(table, text_of_stamp(shown, 6), read.stamp, shown)


def answer_pass(table, rest):
    name, stamps = two_parts(rest, b' from ')
    check_name(name)
    given = two_parts(stamps, b' to ')
    first, last = (read_stamp(table, part) for part in given)
    size = text_of_microseconds(last.instant - first.instant)
    answer = b','.join((*(part.translate(SHOWN_AS) for part in (name, *given)), size, steps_between(table, first, last)))
    return marked(table, answer, first.stamp, last.stamp)


def answer_why(_, rest):
    number = int(rest) if rest.isdigit() else 0
    if number not in REFUSALS:
        raise NoAnswer(ASK, rest, NO_REFUSAL)
    return b'%d %s: %s What to do: %s' % (number, *REFUSALS[number])


def answer_table(table):
    return b'\n'.join(b'%s %d s' % (date_of_month(month), offset) for month, offset in entries(table))


HELP = b"""\
between UTC 2016-12-31T23:58:30 and UTC 2017-01-01T00:01:30
show UTC 2016-12-31T23:59:60 on GPS
after UTC 2016-12-31T23:59:59
add 90.5 to UTC 2016-12-31T23:58:30
pass AURORA-3 from UTC 2016-12-31T23:58:30 to UTC 2017-01-01T00:01:30
table
table kernel FILE
table cards FILE
table block HEX
vouched 2026-12
why 6
help
clocks: UTC TAI TDT GPS
pictures: 1987-04-12T16:31:12 1987-102T16:31:12 1986 APR 12 16:31:09 and up to six digits behind a point"""


# Requests for another table

def table_read(given, read, part):
    """The table of what was given, whose bytes the reader takes."""
    try:
        return read(part)
    except Refused as refused:
        raise NotLoaded(refused.number, given, place=refused.place) from None


def table_of_block(_, rest):
    if not second.HEX.fullmatch(rest):
        raise NotLoaded(ASK, rest, NO_HEX)
    return table_read(rest, second.read_either_block, bytes.fromhex(rest.decode()))


def front_of_file(name, number):
    """As much as shows whether it is too long; the number is that of a file that cannot be read."""
    try:
        name.decode()
        with open(name, 'rb') as file:
            return file.read(MOST_FILE_BYTES + 1)
    except (OSError, ValueError):  # ValueError: a name with a NUL, or one that is not UTF-8
        raise NotLoaded(number, name, NO_FILE) from None


def table_of_kernel(_, rest):
    return table_read(rest, second.read_kernel, front_of_file(rest, KERNEL))


def table_of_cards(_, rest):
    file = front_of_file(rest, CARD)
    if len(file) > MOST_FILE_BYTES:
        raise NotLoaded(CARD, rest, LONG_FILE)
    return table_read(rest, second.read_cards, file)


def table_vouched(table, rest):
    vouched = table.vouched_to(month_of_text(rest) + 1)
    if not vouched.is_good:
        raise NoAnswer(TABLE, rest)
    return vouched


# ---------------------------------------------------------------------------
# Lines

ANSWERS = {
    b'between ': answer_between,
    b'show ': answer_show,
    b'after ': answer_after,
    b'add ': answer_add,
    b'pass ': answer_pass,
    b'why ': answer_why,
}
TABLES = {
    b'table block ': table_of_block,
    b'table kernel ': table_of_kernel,
    b'table cards ': table_of_cards,
    b'vouched ': table_vouched,
}


class Answer(NamedTuple):
    text: bytes  # without its last line feed
    table: second.Table  # in force behind it, or NO_TABLE
    is_good: bool


def answer_request(table, line):
    """The answer and the table behind it."""
    if len(line) > LONGEST_LINE:
        raise NoAnswer(ASK, line[:SHOWN_OF_A_LONG_LINE], LONG_LINE)
    if line == b'':
        return b'', table
    if line == b'table':
        return answer_table(table), table
    if line == b'help':
        return HELP, table
    for words, give in ANSWERS.items():
        if line.startswith(words):
            return give(table, line[len(words):]), table
    for words, load in TABLES.items():
        if line.startswith(words):
            loaded = load(table, line[len(words):])
            return table_in_words(loaded), loaded
    raise NoAnswer(ASK)


def answer(table, line):
    try:
        return Answer(*answer_request(table, line), True)
    except NotLoaded as not_loaded:
        return Answer(refusal(line, not_loaded), NO_TABLE, False)
    except NoAnswer as no_answer:
        return Answer(refusal(line, no_answer), table, False)


def answered(lines):
    """Each line with the table that it meets and its answer."""
    table = second.table_of_bulletin_c()
    for line in lines:
        given = answer(table, line)
        yield line, table, given
        table = given.table


def summary(count, not_good):
    """How many lines were good, and the numbers of the first that were not."""
    said = b'%d of %d lines good' % (count - len(not_good), count)
    if not_good:
        said += b' - not good: ' + b' '.join(b'%d' % number for number in not_good[:MOST_NUMBERS_SHOWN])
    if len(not_good) > MOST_NUMBERS_SHOWN:
        said += b' and %d more' % (len(not_good) - MOST_NUMBERS_SHOWN)
    return said


def program_desk(stream, output):
    count, not_good = 0, []
    for count, (_, _, given) in enumerate(answered(second.lines_of(stream)), 1):
        output.write(given.text + b'\n')
        if not given.is_good:
            not_good.append(count)
    output.write(summary(count, not_good) + b'\n')


def program_desk_line(words, output):
    """One line: the words behind the program's name."""
    output.write(answer(second.table_of_bulletin_c(), b' '.join(words)).text + b'\n')
