#!/usr/bin/env python3
"""The second program of Mundreff: the same answers, found another way.

It is written from the rules of docs/RULES.md, which say what Mundreff is to do
with instants, clocks, leap tables, blocks, kernels, cards, stamps and Julian
dates, and not from the Rattle code or its proofs, so that an error has to be made
twice to pass unseen.  Python 3, standard library only.  Each section below is a section
of the rules or a part of one; after them come the programs, and the comparison
of Bulletin C with the machine's own lists.

    second.py              answers the lines of the program `calls` (stdin to stdout)
    second.py ticks        prints the listing of the program `ticks`
    second.py listings     prints the listings of the program `listings`
    second.py desk         answers the lines of the program `desk`
    second.py desk-line WORDS..   answers the one line of these words, as `desk` does
    second.py bulletin     compares Bulletin C's table with the machine's own leap-second list

Here all days are counted from 1972-01-01, which is day 0, and all months from
January 1972, which is month 0.  Whole numbers have no bounds in Python, so
nothing here can overflow; a double is taken as the exact fraction it is.
"""

import math
import os
import re
import struct
import sys
from bisect import bisect_right
from fractions import Fraction
from typing import NamedTuple


# ---------------------------------------------------------------------------
# Numbers of the refusals

(ROOM, SHAPE, YEAR, DATE, CLOCK, NOSECOND, RANGE,
 ASK, CUT, GROUPS, TABLE, TAIL, NUMBER, KERNEL, CARD) = range(1, 16)


class Refused(Exception):
    """A call's refusal: its number, and the place while reading or moving a block, or reading a kernel or cards."""

    def __init__(self, number, place=0):
        super().__init__(number, place)
        self.number = number
        self.place = place


# ---------------------------------------------------------------------------
# Instants and clocks: the calendar

FIRST_YEAR, LAST_YEAR = 1972, 9999
LAST_MONTH = 96_335


def is_leap_year(year):
    return year % 4 == 0 and (year % 100 != 0 or year % 400 == 0)


def days_in_year(year):
    return 366 if is_leap_year(year) else 365


def days_in_month(year, month):
    if month == 2:
        return 29 if is_leap_year(year) else 28
    return 30 if month in (4, 6, 9, 11) else 31


def month_number(year, month):
    return (year - FIRST_YEAR) * 12 + month - 1


def first_days_of_months():
    """The day on which each month begins, and last the day after the end of 9999."""
    days = [0]
    for year in range(FIRST_YEAR, LAST_YEAR + 1):
        for month in range(1, 13):
            days.append(days[-1] + days_in_month(year, month))
    return days


FIRST_DAY = first_days_of_months()
END_OF_DAYS = FIRST_DAY[LAST_MONTH + 1]


def day_number(year, month, day):
    return FIRST_DAY[month_number(year, month)] + day - 1


def date_of_day(number):
    month = bisect_right(FIRST_DAY, number) - 1
    return (FIRST_YEAR + month // 12, month % 12 + 1, number - FIRST_DAY[month] + 1)


def day_of_year(year, month, day):
    return day_number(year, month, day) - day_number(year, 1, 1) + 1


# ---------------------------------------------------------------------------
# Instants and clocks: labels, stamps and scales

UTC, TAI, TDT, GPS = range(4)
SCALE_OFFSET = {TAI: 0, TDT: 32_184_000, GPS: -19_000_000}  # microseconds

SECOND = 1_000_000  # microseconds
DAY_SECONDS = 86_400
DAY = DAY_SECONDS * SECOND
NOON_2000 = day_number(2000, 1, 1) * DAY_SECONDS + 12 * 3600  # seconds from 1972-01-01 00:00:00


class Label(NamedTuple):
    year: int
    month: int
    day: int
    hour: int
    minute: int
    second: int


class Stamp(NamedTuple):
    scale: int
    label: Label
    microsecond: int


def second_of_day(label):
    """86,400 in an added second."""
    return label.hour * 3600 + label.minute * 60 + label.second


def counted_seconds(label):
    """Seconds from 1972-01-01 00:00:00 to the label when every day has 86,400."""
    return day_number(label.year, label.month, label.day) * DAY_SECONDS + second_of_day(label)


def label_of_counted_seconds(seconds):
    day, second = divmod(seconds, DAY_SECONDS)
    return Label(*date_of_day(day), second // 3600, second // 60 % 60, second % 60)


def ask_scale(scale):
    if scale > GPS:
        raise Refused(ASK)


def judge_year(year):
    if not FIRST_YEAR <= year <= LAST_YEAR:
        raise Refused(YEAR)


def judge_date(year, month, day):
    if not 1 <= month <= 12 or not 1 <= day <= days_in_month(year, month):
        raise Refused(DATE)


def judge_clock(scale, label, microsecond):
    last_second = 60 if scale == UTC else 59
    if label.hour > 23 or label.minute > 59 or label.second > last_second or microsecond > 999_999:
        raise Refused(CLOCK)


def judge_fields(table, scale, label, microsecond):
    """Refusals 3, 4, 5 and 6, in this order."""
    judge_year(label.year)
    judge_date(label.year, label.month, label.day)
    judge_clock(scale, label, microsecond)
    if scale == UTC and not is_admitted(table, label):
        raise Refused(NOSECOND)


def instant_of_admitted(table, scale, label, microsecond):
    reading = (counted_seconds(label) - NOON_2000) * SECOND + microsecond
    if scale == UTC:
        return reading + tai_minus_utc(table, month_number(label.year, label.month)) * SECOND
    return reading - SCALE_OFFSET[scale]


def instant_of(table, scale, label, microsecond):
    """A stamp's fields to an instant."""
    ask_scale(scale)
    check_table(table)
    judge_fields(table, scale, label, microsecond)
    return instant_of_admitted(table, scale, label, microsecond)


def stamp_of(table, instant, scale):
    """An instant to a stamp."""
    ask_scale(scale)
    check_table(table)
    if scale == UTC:
        second, microsecond = divmod(instant, SECOND)
        return Stamp(UTC, utc_label_of_second(table, second), microsecond)
    second, microsecond = divmod(instant + SCALE_OFFSET[scale], SECOND)
    counted = second + NOON_2000
    if not 0 <= counted < END_OF_DAYS * DAY_SECONDS:
        raise Refused(RANGE)
    return Stamp(scale, label_of_counted_seconds(counted), microsecond)


# ---------------------------------------------------------------------------
# The leap table

PLACES = 64


class Table:
    """A table value as a caller hands it in, good or not; it never changes.

    Since it never changes, what the calls ask of it is worked out once: whether
    it is good, and then the step of each month that has one, and the TAI second
    (from 2000-01-01 12:00:00 TAI) from which each entry holds.  The last month
    that it is vouched for comes as a number, see that section.
    """

    def __init__(self, count, months, offsets, vouched=0):
        self.count = count
        self.months = tuple(months) + (0,) * (PLACES - len(months))
        self.offsets = tuple(offsets) + (0,) * (PLACES - len(offsets))
        self.vouched_month = vouched_month_of_number(vouched)
        self.is_good = (is_good_table(count, self.months, self.offsets)
                        and is_good_vouched_month(self.vouched_month, self.months[count - 1]))
        if self.is_good:
            self.used_months = self.months[:count]
            self.steps = {self.months[i]: self.offsets[i] - self.offsets[i - 1] for i in range(1, count)}
            self.held_from = [first_second_of_month(self.months[i]) + self.offsets[i] for i in range(count)]

    def vouched_to(self, number):
        """The same entries, with this number for the vouched month."""
        return Table(self.count, self.months, self.offsets, number)


def is_good_table(count, months, offsets):
    if not 1 <= count <= PLACES:
        return False
    if months[0] != 0 or offsets[0] != 10:
        return False
    for i in range(1, count):
        if not months[i - 1] < months[i] <= LAST_MONTH:
            return False
        if offsets[i] - offsets[i - 1] not in (1, -1):
            return False
    return not any(months[count:]) and not any(offsets[count:])


def check_table(table):
    if not table.is_good:
        raise Refused(TABLE)


def first_second_of_month(month):
    """The UTC midnight on which the month begins, counted like TAI: days of 86,400 seconds."""
    return FIRST_DAY[month] * DAY_SECONDS - NOON_2000


def tai_minus_utc(table, month):
    return table.offsets[bisect_right(table.used_months, month) - 1]


def step_after_day(table, year, month, day):
    """+1 where a second is added at this day's end, -1 where one is taken out, else 0."""
    if day != days_in_month(year, month):
        return 0
    return table.steps.get(month_number(year, month) + 1, 0)


def last_second_of_minute(table, label):
    """60 in the minute with an added second, 58 in that with one taken out, else 59."""
    if label.hour != 23 or label.minute != 59:
        return 59
    return 59 + step_after_day(table, label.year, label.month, label.day)


def is_admitted(table, label):
    return label.second <= last_second_of_minute(table, label)


def utc_label_of_second(table, second):
    """The UTC label that stands during a whole TAI second past 2000-01-01 12:00:00 TAI."""
    entry = bisect_right(table.held_from, second) - 1
    if entry < 0:
        raise Refused(RANGE)
    utc = second - table.offsets[entry]
    if entry + 1 < table.count and utc == first_second_of_month(table.months[entry + 1]):
        # The next entry's midnight by this entry's offset, yet that entry does not hold: the added second.
        return label_of_counted_seconds(utc - 1 + NOON_2000)._replace(second=60)
    if utc + NOON_2000 >= END_OF_DAYS * DAY_SECONDS:
        raise Refused(RANGE)
    return label_of_counted_seconds(utc + NOON_2000)


# The clock

def start(table):
    check_table(table)
    return Label(1972, 1, 1, 0, 0, 0)


def tick(table, label):
    check_table(table)
    judge_fields(table, UTC, label, 0)
    year, month, day, hour, minute, second = label
    if second < last_second_of_minute(table, label):
        return Label(year, month, day, hour, minute, second + 1)
    if minute < 59:
        return Label(year, month, day, hour, minute + 1, 0)
    if hour < 23:
        return Label(year, month, day, hour + 1, 0, 0)
    if day < days_in_month(year, month):
        return Label(year, month, day + 1, 0, 0, 0)
    if month < 12:
        return Label(year, month + 1, 1, 0, 0, 0)
    if year < LAST_YEAR:
        return Label(year + 1, 1, 1, 0, 0, 0)
    raise Refused(RANGE)


# The table of Bulletin C

BULLETIN_C = (  # (year, month, TAI-UTC from the first day of that month)
    (1972, 1, 10), (1972, 7, 11), (1973, 1, 12), (1974, 1, 13), (1975, 1, 14), (1976, 1, 15),
    (1977, 1, 16), (1978, 1, 17), (1979, 1, 18), (1980, 1, 19), (1981, 7, 20), (1982, 7, 21),
    (1983, 7, 22), (1985, 7, 23), (1988, 1, 24), (1990, 1, 25), (1991, 1, 26), (1992, 7, 27),
    (1993, 7, 28), (1994, 7, 29), (1996, 1, 30), (1997, 7, 31), (1999, 1, 32), (2006, 1, 33),
    (2009, 1, 34), (2012, 7, 35), (2015, 7, 36), (2017, 1, 37),
)


def table_of_entries(entries):
    """Each a month and its offset; judged by whoever asks."""
    return Table(len(entries), [month for month, _ in entries], [offset for _, offset in entries])


def table_of_bulletin_c():
    return table_of_entries([(month_number(year, month), offset) for year, month, offset in BULLETIN_C])


# ---------------------------------------------------------------------------
# The vouched month

BEYOND = 1  # of the marks beside an answer


def vouched_month_of_number(number):
    """The number is the month plus one; 0 says that none is given."""
    return number - 1 if number > 0 else None


def number_of_vouched_month(month):
    return 0 if month is None else month + 1


def is_good_vouched_month(month, month_of_last_entry):
    return month is None or month_of_last_entry <= month <= LAST_MONTH


def marks_of_label(table, scale, label):
    """What stands beside an answer that has this label."""
    if scale != UTC or table.vouched_month is None:
        return 0
    return BEYOND if month_number(label.year, label.month) > table.vouched_month else 0


def marks_of_instant(table, scale, instant):
    """What stands beside an answer without a label: the instant's own label decides."""
    return marks_of_label(table, scale, stamp_of(table, instant, scale).label)


# ---------------------------------------------------------------------------
# The stored block

MORE = 0x80  # the top bit, set on all groups but the last
MOST_GROUPS = 3


def number_in_block(block, place):
    """The number that begins at this place, and the place after it."""
    value = 0
    for group in range(MOST_GROUPS):
        if place + group >= len(block):
            raise Refused(CUT, place)
        byte = block[place + group]
        value |= (byte & 0x7F) << (7 * group)
        if not byte & MORE:
            if group > 0 and byte == 0:
                raise Refused(GROUPS, place)
            return value, place + group + 1
    raise Refused(GROUPS, place)


def table_from_place(block, begin):
    """The table of the old block that begins at this place and has the rest of the bytes."""
    count, place = number_in_block(block, begin)
    if not 1 <= count <= PLACES:
        raise Refused(TABLE, begin)
    months, offsets = [0], [10]
    for _ in range(1, count):
        value, next_place = number_in_block(block, place)
        gap, taken_out = divmod(value, 2)
        if gap == 0 or months[-1] + gap > LAST_MONTH:
            raise Refused(TABLE, place)
        months.append(months[-1] + gap)
        offsets.append(offsets[-1] + (-1 if taken_out else 1))
        place = next_place
    if place < len(block):
        raise Refused(TAIL, place)
    return Table(count, months, offsets)


def read_block(block):
    return table_from_place(block, 0)


def groups_of_number(value):
    groups = bytearray()
    while value > 0x7F:
        groups.append(value & 0x7F | MORE)
        value >>= 7
    groups.append(value)
    return bytes(groups)


def block_of_table(table):
    block = groups_of_number(table.count)
    for i in range(1, table.count):
        gap = table.months[i] - table.months[i - 1]
        taken_out = table.offsets[i] < table.offsets[i - 1]
        block += groups_of_number(2 * gap + taken_out)
    return block


def fit(result, room):
    """The result, where the lent buffer has room for it."""
    if len(result) > room:
        raise Refused(ROOM)
    return result


def write_block(table, room):
    check_table(table)
    return fit(block_of_table(table), room)


# The new block: the number 0, the number of the vouched month, the old block

NEW_FORM = 0  # no old block begins with it, since a table has an entry


def read_new_block(block):
    form, place_of_month = number_in_block(block, 0)
    if form != NEW_FORM:
        raise Refused(TABLE, 0)
    number, begin = number_in_block(block, place_of_month)
    if number > number_of_vouched_month(LAST_MONTH):
        raise Refused(TABLE, place_of_month)
    table = table_from_place(block, begin).vouched_to(number)
    if not table.is_good:  # its entries are good, so it is the month
        raise Refused(TABLE, place_of_month)
    return table


def read_either_block(block):
    """In the form that its first byte tells."""
    return read_new_block(block) if block[:1] == groups_of_number(NEW_FORM) else read_block(block)


def new_block_of_table(table):
    opening = groups_of_number(NEW_FORM) + groups_of_number(number_of_vouched_month(table.vouched_month))
    return opening + block_of_table(table)


def write_new_block(table, room):
    check_table(table)
    return fit(new_block_of_table(table), room)


def renew(block, number, room):
    """The new block of an old one, with this number for the vouched month."""
    return write_new_block(read_block(block).vouched_to(number), room)


def revert(block, room):
    """The old block of a new one, without its month."""
    return write_block(read_new_block(block), room)


# ---------------------------------------------------------------------------
# Pictures

MONTH_NAMES = (b'JAN', b'FEB', b'MAR', b'APR', b'MAY', b'JUN', b'JUL', b'AUG', b'SEP', b'OCT', b'NOV', b'DEC')

TIME_OF_DAY = rb'([0-9]{2}):([0-9]{2}):([0-9]{2})(?:\.([0-9]{1,6}))?'
PICTURE_0 = re.compile(rb'([0-9]{4})-([0-9]{2})-([0-9]{2})T' + TIME_OF_DAY)
PICTURE_1 = re.compile(rb'([0-9]{4})-([0-9]{3})T' + TIME_OF_DAY)
PICTURE_2 = re.compile(rb'([0-9]{4}) (' + b'|'.join(MONTH_NAMES) + rb') ([0-9]{2}) ' + TIME_OF_DAY)


def date_of_day_of_year(year, day):
    judge_year(year)
    if not 1 <= day <= days_in_year(year):
        raise Refused(DATE)
    return date_of_day(day_number(year, 1, 1) + day - 1)


def fields_of_text(text):
    """The label and microsecond that a text of one of the pictures names."""
    if found := PICTURE_0.fullmatch(text):
        year, month, day, *time = found.groups()
        date = (int(year), int(month), int(day))
    elif found := PICTURE_1.fullmatch(text):
        year, day, *time = found.groups()
        date = date_of_day_of_year(int(year), int(day))
    elif found := PICTURE_2.fullmatch(text):
        year, name, day, *time = found.groups()
        date = (int(year), MONTH_NAMES.index(name) + 1, int(day))
    else:
        raise Refused(SHAPE)
    hour, minute, second, decimals = time
    microsecond = int(decimals.ljust(6, b'0')) if decimals else 0
    return Label(*date, int(hour), int(minute), int(second)), microsecond


def read_text(table, scale, text):
    ask_scale(scale)
    check_table(table)
    label, microsecond = fields_of_text(text)
    judge_fields(table, scale, label, microsecond)
    return instant_of_admitted(table, scale, label, microsecond), Stamp(scale, label, microsecond)


def text_of_fields(picture, label, microsecond, digits):
    year, month, day, hour, minute, second = label
    if picture == 0:
        date = f'{year:04}-{month:02}-{day:02}T'
    elif picture == 1:
        date = f'{year:04}-{day_of_year(year, month, day):03}T'
    else:
        date = f'{year:04} {MONTH_NAMES[month - 1].decode()} {day:02} '
    point = '.' + f'{microsecond:06}'[:digits] if digits else ''
    return f'{date}{hour:02}:{minute:02}:{second:02}{point}'.encode()


def write_text(table, instant, picture, scale, digits, room):
    if scale > GPS or picture > 2 or digits > 6:
        raise Refused(ASK)
    stamp = stamp_of(table, instant, scale)
    return fit(text_of_fields(picture, stamp.label, stamp.microsecond, digits), room)


# ---------------------------------------------------------------------------
# The text kernel

MOST_KERNEL_BYTES = 65_536
OUR_NAME = b'DELTET/DELTA_AT'
BEGIN_TEXT = b'\\begintext'
WHITE = b' \t\r'
NAME_BYTES = bytes(byte for byte in range(33, 127) if byte not in b"(),=+'@\\")


def run_of(these_bytes):
    return re.compile(b'[' + re.escape(these_bytes) + b']*')


DATA_LINE = re.compile(rb'^[ \t\r]*\\begindata[ \t\r]*(?:\n|\Z)', re.MULTILINE)
WHITES = run_of(WHITE)
BETWEEN_TOKENS = run_of(WHITE + b'\n')
BETWEEN_ITEMS = run_of(WHITE + b'\n,')
NAME = run_of(NAME_BYTES)
RUN = run_of(NAME_BYTES + b'+@')
QUOTED_TO_ITS_END = re.compile(rb"'[^\n\\']*(?:''[^\n\\']*)*")  # not with the quote that ends it
SIGN = re.compile(rb'[+-]?')
DIGITS = re.compile(rb'[0-9]*')
DATE_OF_KERNEL = re.compile(rb'@([0-9]{4})-(' + b'|'.join(MONTH_NAMES) + rb')-0?1', re.IGNORECASE)
LATEST_DATES = [b'@9999-%s-%s' % (name, day) for name in MONTH_NAMES for day in (b'1', b'01')]


def month_of_kernel_date(run):
    """The month that a run names, or None where it is no date."""
    found = DATE_OF_KERNEL.fullmatch(run)
    if not found or int(found[1]) < FIRST_YEAR:
        return None
    return month_number(int(found[1]), MONTH_NAMES.index(found[2].upper()) + 1)


def may_become_date(run):
    """Some date begins so: if any does, then one that goes on like a late date."""
    return any(month_of_kernel_date(run + date[len(run):]) is not None for date in LATEST_DATES)


class Kernel:
    """A kernel's bytes and the place up to which they are read.

    Each method reads its part of the grammar from that place on, or refuses the
    file.  The file's end is a fault like any byte that may not stand there.
    """

    def __init__(self, file):
        self.file = file
        self.place = 0
        self.pairs = None  # (month, offset) of each pair, once our assignment is read

    def fault(self):
        return Refused(KERNEL, self.place)

    def at_end(self):
        return self.place == len(self.file)

    def next_is(self, byte):
        return self.file.startswith(byte, self.place)

    def take(self, pattern):
        found = pattern.match(self.file, self.place)
        self.place = found.end()
        return found[0]

    def need(self, pattern):
        """What is taken may not be empty."""
        if not (taken := self.take(pattern)):
            raise self.fault()
        return taken

    def need_byte(self, byte):
        if not self.next_is(byte):
            raise self.fault()
        self.place += 1

    def whole_file(self):
        while found := DATA_LINE.search(self.file, self.place):
            self.place = found.end()
            self.data()
        self.place = len(self.file)
        if self.pairs is None:
            raise self.fault()

    def data(self):
        """Assignments up to a `\\begintext` line, or to the file's end."""
        self.take(BETWEEN_TOKENS)
        while not self.at_end():
            if self.next_is(b'\\'):
                return self.text_line()
            self.assignment()
            self.take(BETWEEN_TOKENS)

    def text_line(self):
        """Nothing but white may stand before the backslash on its line."""
        line = self.file.rfind(b'\n', 0, self.place) + 1
        if self.file[line:self.place].strip(WHITE):
            raise self.fault()
        for byte in BEGIN_TEXT:
            self.need_byte(bytes([byte]))
        self.take(WHITES)
        if not self.at_end():
            self.need_byte(b'\n')

    def assignment(self):
        first = self.place
        is_ours = self.need(NAME) == OUR_NAME
        if is_ours and self.pairs is not None and not self.at_end():
            raise Refused(KERNEL, first)  # at the file's end it may yet become a longer name
        self.take(BETWEEN_TOKENS)
        if self.next_is(b'+') and not is_ours:
            self.place += 1
        self.need_byte(b'=')
        self.take(BETWEEN_TOKENS)
        if is_ours:
            self.pairs = self.in_parentheses(self.pair)
        elif self.next_is(b'('):
            self.in_parentheses(self.item)
        else:
            self.item()

    def in_parentheses(self, part):
        """What each part gives: one or more, apart from one another."""
        self.need_byte(b'(')
        self.take(BETWEEN_ITEMS)
        parts = [part()]
        apart = self.take(BETWEEN_ITEMS)
        while not self.next_is(b')'):
            if not apart:
                raise self.fault()
            parts.append(part())
            apart = self.take(BETWEEN_ITEMS)
        self.place += 1
        return parts

    def item(self):
        if self.next_is(b"'"):
            self.take(QUOTED_TO_ITS_END)
            self.need_byte(b"'")
        else:
            self.need(RUN)

    def pair(self):
        offset = self.whole_number()
        self.need(BETWEEN_ITEMS)
        return self.date(), offset

    def whole_number(self):
        sign = self.take(SIGN)
        digits = self.need(DIGITS).lstrip(b'0')
        return int(sign + (digits[:9] or b'0'))  # an offset of three digits or more is in no good table, whatever it is

    def date(self):
        first = self.place
        if not self.next_is(b'@'):
            raise self.fault()
        run = self.take(RUN)
        month = month_of_kernel_date(run)
        if month is None:
            raise self.fault() if self.at_end() and may_become_date(run) else Refused(KERNEL, first)
        return month


def read_kernel(file):
    kernel = Kernel(file[:MOST_KERNEL_BYTES])
    kernel.whole_file()
    if len(file) > MOST_KERNEL_BYTES:
        raise Refused(KERNEL, MOST_KERNEL_BYTES)
    table = table_of_entries(kernel.pairs)
    check_table(table)
    return table


def kernel_of_table(table):
    pairs = []
    for month, offset in zip(table.used_months, table.offsets):
        year, month_of_year = FIRST_YEAR + month // 12, month % 12
        pairs.append(b'%d, @%04d-%s-1' % (offset, year, MONTH_NAMES[month_of_year]))
    opening = OUR_NAME + b' = ( '
    return b'\\begindata\n' + opening + (b'\n' + b' ' * len(opening)).join(pairs) + b' )\n' + BEGIN_TEXT + b'\n'


def write_kernel(table, room):
    check_table(table)
    return fit(kernel_of_table(table), room)


# ---------------------------------------------------------------------------
# The cards

CARD_BYTES = 80
LAST_MONTH_OF_CARDS = month_number(2049, 12)
TDT_MINUS_TAI = Fraction('32.184')
PLAIN_DECIMAL = re.compile(rb' *([+-]?(?:[0-9]+(?:\.[0-9]*)?|\.[0-9]+)) *')


def card_date(month):
    year, month_of_year = FIRST_YEAR + month // 12, month % 12 + 1
    return b'%02d%03d000000.000' % (year % 100, day_of_year(year, month_of_year, 1))


MONTH_OF_CARD_DATE = {card_date(month): month for month in range(LAST_MONTH_OF_CARDS + 1)}  # every date that a card may have


def is_passed_over(line):
    return not line.strip(b' ') or line.startswith((b'*', b'C', b'c'))


def plain_decimal(field):
    """The exact value, or None where the field is none."""
    found = PLAIN_DECIMAL.fullmatch(field)
    return Fraction(found[1].decode()) if found else None


def is_blank_or_plain(field):
    return not field.strip(b' ') or plain_decimal(field) is not None


def entry_of_card(line):
    """Month and TAI-UTC, or None where the line is no TP card."""
    def columns(first, last):
        return line[first - 1:last]
    if len(line) != CARD_BYTES or columns(79, 80) != b'TP' or columns(1, 1) not in (b' ', b'1'):
        return None
    if not is_blank_or_plain(columns(17, 31)) or not is_blank_or_plain(columns(32, 46)):
        return None
    month, offset = MONTH_OF_CARD_DATE.get(columns(62, 76)), plain_decimal(columns(2, 16))
    if month is None or offset is None or offset.denominator != 1 or plain_decimal(columns(47, 61)) != TDT_MINUS_TAI:
        return None
    return month, offset.numerator


def rise_or_fall(months):
    """All of them, strictly."""
    rising = sorted(set(months))
    return months in (rising, rising[::-1])


def read_cards(file):
    entries, place = [], 0
    for line in file.split(b'\n'):  # behind a last line feed an empty line, which is passed over
        if not is_passed_over(line):
            entries.append(entry_of_card(line))
            if entries[-1] is None or not rise_or_fall([month for month, _ in entries]):
                raise Refused(CARD, place)
        place += len(line) + 1
    table = table_of_entries(sorted(entries))
    check_table(table)
    return table


def cards_of_table(table):
    return b''.join(b' %15s%30s%14s %s  TP\n' % (b'%d.0' % offset, b'', b'32.184', card_date(month))
                    for month, offset in zip(table.used_months, table.offsets))


def write_cards(table, room):
    check_table(table)
    if table.used_months[-1] > LAST_MONTH_OF_CARDS:
        raise Refused(RANGE)
    return fit(cards_of_table(table), room)


# ---------------------------------------------------------------------------
# Two-part Julian dates

MIDNIGHT_OF_DAY_0 = 2441317.5  # 1972-01-01
MIDNIGHT_OF_LAST_DAY = 5373483.5  # 9999-12-31


def length_of_day(table, scale, day):
    """The microseconds of a day counted from 1972-01-01; on UTC a second more or less where a step follows it."""
    if scale != UTC:
        return DAY
    return DAY + step_after_day(table, *date_of_day(day)) * SECOND


def write_julian(table, instant, scale):
    stamp = stamp_of(table, instant, scale)
    day = day_number(stamp.label.year, stamp.label.month, stamp.label.day)
    microsecond_of_day = second_of_day(stamp.label) * SECOND + stamp.microsecond
    # Python divides two whole numbers with one correct rounding, whatever their size.
    return MIDNIGHT_OF_DAY_0 + day, microsecond_of_day / length_of_day(table, scale, day)


def is_whole_and_half(double):
    return math.isfinite(double) and Fraction(double).denominator == 2


def nearest_microsecond(fraction, length):
    """Of the double's exact value times the day's length, a tie to the later."""
    return math.floor(Fraction(fraction) * length + Fraction(1, 2))


def read_julian(table, scale, midnight, fraction):
    ask_scale(scale)
    check_table(table)
    if not is_whole_and_half(midnight) or not 0.0 <= fraction < 1.0:  # a NaN compares false
        raise Refused(NUMBER)
    if not MIDNIGHT_OF_DAY_0 <= midnight <= MIDNIGHT_OF_LAST_DAY:
        raise Refused(RANGE)
    day = int(midnight - MIDNIGHT_OF_DAY_0)
    length = length_of_day(table, scale, day)
    microsecond_of_day = nearest_microsecond(fraction, length)
    if microsecond_of_day == length:
        day, microsecond_of_day = day + 1, 0
    if day == END_OF_DAYS:
        raise Refused(RANGE)
    # Within a day instants and microseconds go on together, so no second that the table lacks is met.
    return instant_of_admitted(table, scale, Label(*date_of_day(day), 0, 0, 0), microsecond_of_day)


# ---------------------------------------------------------------------------
# The program `ticks`

LONGEST_LINE_OF_TICKS = 1_024
MOST_TICKS = 3_600

HEX = re.compile(rb'(?:[0-9a-fA-F]{2})*')


def bytes_of_hex(text):
    if not HEX.fullmatch(text):
        raise Refused(SHAPE)
    return bytes.fromhex(text.decode())


def line_of_ticks(line):
    if len(line) > LONGEST_LINE_OF_TICKS:
        raise Refused(SHAPE)
    return line


def block_line(line):
    return read_block(bytes_of_hex(line_of_ticks(line)))


def stamp_line(table, line):
    if b'.' in line_of_ticks(line):
        raise Refused(SHAPE)
    _, stamp = read_text(table, UTC, line)
    return stamp.label


def count_line(line):
    if not line_of_ticks(line).isdigit() or int(line) > MOST_TICKS:
        raise Refused(ASK)
    return int(line)


def seconds_of_listing(table, label, count):
    """Count labels from this one on, or as many as there are."""
    for shown in range(count):
        if shown > 0:
            try:
                label = tick(table, label)
            except Refused:
                return  # the last second of 9999 is past
        yield label


def listing(lines):
    """What `ticks` prints for its three lines."""
    try:
        table = block_line(lines[0])
        label = stamp_line(table, lines[1])
        count = count_line(lines[2])
    except Refused as refused:
        return b'refused %d\n' % refused.number
    shown = [b'UTC TAI\n']
    for label in seconds_of_listing(table, label, count):
        second = instant_of(table, UTC, label, 0) // SECOND
        shown.append(b'%s %d\n' % (text_of_fields(0, label, 0, 0), second))
    return b''.join(shown)


def read_line_of_ticks(descriptor):
    """Byte by byte up to the line's end; of a line that is too long, as much as shows it."""
    line = bytearray()
    while len(line) <= LONGEST_LINE_OF_TICKS:
        byte = os.read(descriptor, 1)
        if byte in (b'', b'\n'):
            break
        line += byte
    return bytes(line)


def program_listings(stream, output):
    """Inputs of `ticks`, each but perhaps the last with a `%` and a line end after it."""
    inputs = stream.read().split(b'%')
    for number, given in enumerate(inputs):
        given = given[1:] if number > 0 else given
        if given or number + 1 < len(inputs):
            output.write(listing((given.split(b'\n') + [b''] * 3)[:3]) + b'%\n')


def program_ticks(descriptor, output):
    """Nothing past the third line is read; a line that is too long is the last one read."""
    lines = []
    while len(lines) < 3 and (not lines or len(lines[-1]) <= LONGEST_LINE_OF_TICKS):
        lines.append(read_line_of_ticks(descriptor))
    output.write(listing(lines + [b''] * (3 - len(lines))))


# ---------------------------------------------------------------------------
# The program `calls`: every public call, one to a line

LONGEST_LINE = 140_000
MOST_ROOM = 8_192
BEFORE_THE_CALL = b'\xa5'  # each byte of a lent buffer


class NoCall(Exception):
    """The line is none of the calls: it answers `?`."""


# Words of a line

DIGITS_THAT_TELL = 21  # a number of as many is too large for every type; Python makes none of thousands of digits


def number_in(low, high):
    """A reader of whole numbers of a type with these ends."""
    def read(word):
        digits = word.removeprefix(b'-')
        if not digits.isdigit():
            raise NoCall
        size = int(digits.lstrip(b'0')[:DIGITS_THAT_TELL] or b'0')
        number = -size if word.startswith(b'-') else size
        if not low <= number <= high:
            raise NoCall
        return number
    return read


def read_hex(word):
    if word == b'-':
        return b''
    if word == b'' or not HEX.fullmatch(word):
        raise NoCall
    return bytes.fromhex(word.decode())


def read_bits(word):
    if len(word) != 16 or not HEX.fullmatch(word):
        raise NoCall
    return struct.unpack('>d', bytes.fromhex(word.decode()))[0]


U32 = number_in(0, 2**32 - 1)
I32 = number_in(-2**31, 2**31 - 1)
I64 = number_in(-2**63, 2**63 - 1)
USIZE = number_in(0, 2**64 - 1)
ROOM_OF_BUFFER = number_in(0, MOST_ROOM)
PAIRS = number_in(0, PLACES)
HEX_BYTES = read_hex
BITS = read_bits


# Answers of the calls, as the words of a line

def words_of(*numbers):
    return ' '.join(map(str, numbers))


def words_of_stamp(stamp):
    return words_of(stamp.scale, *stamp.label, stamp.microsecond)


def words_of_bits(double):
    return struct.pack('>d', double).hex()


def words_of_entries(table):
    used = [i for i in range(PLACES) if table.months[i] or table.offsets[i]]
    pairs = used[-1] + 1 if used else 0
    return words_of(pairs, *(number for i in range(pairs) for number in (table.months[i], table.offsets[i])))


def words_of_table(table):
    return words_of(table.count, words_of_entries(table))


def words_of_vouched_table(table):
    return words_of(table.count, number_of_vouched_month(table.vouched_month), words_of_entries(table))


def answer_or_place(give, zeros):
    """After two zeros the words of an answer, or a refusal's number, its place and zero in all other results."""
    try:
        return words_of(0, 0, give())
    except Refused as refused:
        return words_of(refused.number, refused.place, zeros)


def answer_of_reader(read, file):
    return answer_or_place(lambda: words_of_table(read(file)), '0 0')


def answer_read_block(_, block):
    return answer_of_reader(read_block, block)


def answer_read_new_block(_, block):
    return answer_or_place(lambda: words_of_vouched_table(read_new_block(block)), '0 0 0')


def answer_read_kernel(_, file):
    return answer_of_reader(read_kernel, file)


def answer_read_cards(_, file):
    return answer_of_reader(read_cards, file)


def words_of_written(result, room):
    buffer = result + BEFORE_THE_CALL * (room - len(result))
    return words_of(len(result), buffer.hex() or '-')


def answer_of_writer(write, table, room):
    try:
        return words_of(0, words_of_written(write(table, room), room))
    except Refused as refused:
        return words_of(refused.number, words_of_written(b'', room))


def answer_write_block(table, room):
    return answer_of_writer(write_block, table, room)


def answer_write_new_block(table, room):
    return answer_of_writer(write_new_block, table, room)


def answer_renew(_, block, number, room):
    return answer_or_place(lambda: words_of_written(renew(block, number, room), room), words_of_written(b'', room))


def answer_revert(_, block, room):
    return answer_or_place(lambda: words_of_written(revert(block, room), room), words_of_written(b'', room))


def answer_write_kernel(table, room):
    return answer_of_writer(write_kernel, table, room)


def answer_write_cards(table, room):
    return answer_of_writer(write_cards, table, room)


def answer_write_text(table, instant, picture, scale, digits, room):
    try:
        text = write_text(table, instant, picture, scale, digits, room)
        return words_of(0, words_of_written(text, room), marks_of_instant(table, scale, instant))
    except Refused as refused:
        return words_of(refused.number, words_of_written(b'', room), 0)


def answer_or_zeros(give, zeros):
    """After a 0 the words of an answer and its marks, or a refusal's number and zero in all other results."""
    try:
        return words_of(0, *give())
    except Refused as refused:
        return words_of(refused.number, zeros, 0)


def answer_instant_of(table, scale, *fields):
    label, microsecond = Label(*fields[:6]), fields[6]
    return answer_or_zeros(lambda: (instant_of(table, scale, label, microsecond), marks_of_label(table, scale, label)), '0')


def answer_stamp_of(table, instant, scale):
    def give():
        stamp = stamp_of(table, instant, scale)
        return words_of_stamp(stamp), marks_of_label(table, scale, stamp.label)
    return answer_or_zeros(give, '0 0 0 0 0 0 0 0')


def answer_read_text(table, scale, text):
    def give():
        instant, stamp = read_text(table, scale, text)
        return instant, words_of_stamp(stamp), marks_of_label(table, scale, stamp.label)
    return answer_or_zeros(give, '0 0 0 0 0 0 0 0 0')


def answer_write_julian(table, instant, scale):
    def give():
        pair = write_julian(table, instant, scale)
        return *map(words_of_bits, pair), marks_of_instant(table, scale, instant)
    return answer_or_zeros(give, '0000000000000000 0000000000000000')


def answer_read_julian(table, scale, midnight, fraction):
    def give():
        instant = read_julian(table, scale, midnight, fraction)
        return instant, marks_of_instant(table, scale, instant)
    return answer_or_zeros(give, '0')


def answer_of_clock(table, give_label):
    def give():
        label = give_label()
        return *label, marks_of_label(table, UTC, label)
    return answer_or_zeros(give, '0 0 0 0 0 0')


def answer_start(table):
    return answer_of_clock(table, lambda: start(table))


def answer_tick(table, *fields):
    return answer_of_clock(table, lambda: tick(table, Label(*fields)))


CALLS = {  # each with the types of its words
    b'read_block': (answer_read_block, (HEX_BYTES,)),
    b'write_block': (answer_write_block, (ROOM_OF_BUFFER,)),
    b'read_new_block': (answer_read_new_block, (HEX_BYTES,)),
    b'write_new_block': (answer_write_new_block, (ROOM_OF_BUFFER,)),
    b'renew': (answer_renew, (HEX_BYTES, U32, ROOM_OF_BUFFER)),
    b'revert': (answer_revert, (HEX_BYTES, ROOM_OF_BUFFER)),
    b'read_kernel': (answer_read_kernel, (HEX_BYTES,)),
    b'write_kernel': (answer_write_kernel, (ROOM_OF_BUFFER,)),
    b'read_cards': (answer_read_cards, (HEX_BYTES,)),
    b'write_cards': (answer_write_cards, (ROOM_OF_BUFFER,)),
    b'instant_of': (answer_instant_of, (U32,) * 8),
    b'stamp_of': (answer_stamp_of, (I64, U32)),
    b'read_text': (answer_read_text, (U32, HEX_BYTES)),
    b'write_text': (answer_write_text, (I64, U32, U32, U32, ROOM_OF_BUFFER)),
    b'write_julian': (answer_write_julian, (I64, U32)),
    b'read_julian': (answer_read_julian, (U32, BITS, BITS)),
    b'start': (answer_start, ()),
    b'tick': (answer_tick, (U32,) * 6),
}


def values_of_words(types, words):
    if len(words) != len(types):
        raise NoCall
    return [read(word) for read, word in zip(types, words)]


def table_of_words(words):
    if len(words) < 2:
        raise NoCall
    count, pairs = values_of_words((USIZE, PAIRS), words[:2])
    numbers = values_of_words((U32, I32) * pairs, words[2:])
    return Table(count, numbers[0::2], numbers[1::2])


def answer_line(table, line):
    """The answer to a line, and the table after it."""
    if len(line) > LONGEST_LINE:
        return '?', table
    name, *words = line.split(b' ')  # exactly one blank between words: two make an empty word
    try:
        if name == b'table':
            return 'ok', table_of_words(words)
        if name == b'vouch':
            return 'ok', table.vouched_to(*values_of_words((U32,), words))
        if name not in CALLS:
            return '?', table
        answer, types = CALLS[name]
        return answer(table, *values_of_words(types, words)), table
    except NoCall:
        return '?', table


def lines_of(stream):
    """Lines without their newline; of a line that is too long, as much as shows it."""
    while chunk := stream.readline(LONGEST_LINE + 1):
        if chunk.endswith(b'\n'):
            yield chunk[:-1]
            continue
        yield chunk
        while chunk and not chunk.endswith(b'\n'):
            chunk = stream.readline(1 << 16)


def program_calls(stream, output):
    table = table_of_bulletin_c()
    for line in lines_of(stream):
        answer, table = answer_line(table, line)
        output.write(answer.encode() + b'\n')


# ---------------------------------------------------------------------------
# Bulletin C against the machine's own list (tzdata's)

ZONEINFO = '/usr/share/zoneinfo'


def entries_of_leap_seconds_list(text):
    """Lines of NTP seconds (from 1900-01-01) and TAI-UTC from then on."""
    from_1900_to_1972 = sum(map(days_in_year, range(1900, FIRST_YEAR)))
    entries = []
    for line in text.splitlines():
        words = line.split('#')[0].split()
        if words:
            day, rest = divmod(int(words[0]), DAY_SECONDS)
            date = date_of_day(day - from_1900_to_1972)
            entries.append((*date, int(words[1])) if rest == 0 else (*date, line))
    return entries


def entries_of_leapseconds(text):
    """Lines `Leap 1972 Jun 30 23:59:60 + S`, one for each second added (+) or taken out (-)."""
    entries = [(1972, 1, 1, 10)]
    for line in text.splitlines():
        words = line.split()
        if words and words[0] == 'Leap':
            _, year, name, day, _, sign, _ = words
            month = MONTH_NAMES.index(name.upper().encode()) + 1
            next_day = date_of_day(day_number(int(year), month, int(day)) + 1)
            entries.append((*next_day, entries[-1][-1] + (1 if sign == '+' else -1)))
    return entries


LISTS = (('leap-seconds.list', entries_of_leap_seconds_list), ('leapseconds', entries_of_leapseconds))


def differences_from_list(entries):
    """Bulletin C's entries that the list lacks or dates otherwise."""
    ours = [(year, month, 1, offset) for year, month, offset in BULLETIN_C]
    return [(our, theirs) for our, theirs in zip(ours, entries + [None] * len(ours)) if our != theirs]


def compare_with_list(path, entries_of, output):
    with open(path, encoding='ascii', errors='replace') as file:
        entries = entries_of(file.read())
    differences = differences_from_list(entries)
    for our, theirs in differences:
        print(f'{path}: Bulletin C here has {our}, the list {theirs}', file=output)
    print(f'{path}: {len(BULLETIN_C)} entries compared, {len(differences)} differences', file=output)
    for entry in entries[len(BULLETIN_C):]:
        print(f'{path}: later than the scope: {entry}', file=output)
    return not differences


def program_bulletin(output, folder=ZONEINFO):
    """Prints what was compared; False where a list disagrees."""
    paths = [(os.path.join(folder, name), entries_of) for name, entries_of in LISTS]
    there = [(path, entries_of) for path, entries_of in paths if os.path.exists(path)]
    if not there:
        print('this machine has no leap-second list (' + ', '.join(path for path, _ in paths)
              + '): nothing was compared', file=output)
    return all([compare_with_list(path, entries_of, output) for path, entries_of in there])


# ---------------------------------------------------------------------------

def main(words):
    if words == []:
        program_calls(sys.stdin.buffer, sys.stdout.buffer)
    elif words == ['ticks']:
        program_ticks(sys.stdin.fileno(), sys.stdout.buffer)
    elif words == ['listings']:
        program_listings(sys.stdin.buffer, sys.stdout.buffer)
    elif words == ['desk']:
        program_of_desk().program_desk(sys.stdin.buffer, sys.stdout.buffer)
    elif words[0] == 'desk-line' and len(words) > 1:
        program_of_desk().program_desk_line(list(map(os.fsencode, words[1:])), sys.stdout.buffer)
    elif words == ['bulletin']:
        return 0 if program_bulletin(sys.stdout) else 1
    else:
        print('usage: second.py [ticks | listings | desk | desk-line WORDS.. | bulletin]', file=sys.stderr)
        return 2
    return 0


def program_of_desk():
    """Imported here and not above, since desk.py imports this file."""
    import desk
    return desk


if __name__ == '__main__':
    sys.exit(main(sys.argv[1:]))
