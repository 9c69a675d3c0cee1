#!/usr/bin/env python3
"""Lines for the program `calls`, good and damaged, weighted to the edges.

    generate.py SEED COUNT     COUNT random lines
    generate.py stored         the stored input: the rows of the scope, all of Bulletin C,
                               each kind of edge in turn, then random lines with a fixed seed

And for the other programs, see desk_lines.py and ticks_inputs.py:

    generate.py desk SEED COUNT     COUNT random lines for `desk`
    generate.py desk-stored         the stored input of `desk`
    generate.py ticks SEED COUNT    COUNT random inputs for `ticks`, each in hex on a line of its own (- for an empty one)

The protocol has no comments, but a line that is no call answers `?`, so lines
that begin with `#` serve as headings in the stored input.

The second program works out which instants, labels and bytes lie at an edge;
the answers to the lines are no concern of this file.
"""

import itertools
import math
import random
import struct
import sys

import second
from second import BULLETIN_C, DAY, DAY_SECONDS, GPS, LAST_MONTH, LONGEST_LINE, MOST_ROOM, NOON_2000, PLACES, SECOND, TAI, TDT, UTC
from second import Label, Table

SCALES = (UTC, TAI, TDT, GPS)
LAST_MONTH_OF_CARDS = second.LAST_MONTH_OF_CARDS
PICTURES = (0, 1, 2)
LENGTHS = (19, 17, 20)
STORED_SEED = 1972
STORED_RANDOM_LINES = 2_500


# ---------------------------------------------------------------------------
# Dice, words and lines

class Dice:
    """Only random() is drawn from: Python promises that its sequence never changes."""

    def __init__(self, seed):
        self.random = random.Random(seed).random

    def below(self, end):
        return int(self.random() * end)

    def between(self, low, high):
        return low + self.below(high - low + 1)

    def chance(self, part):
        return self.random() < part

    def pick(self, choices):
        return choices[self.below(len(choices))]

    def weighted(self, choices):
        """Of pairs (weight, choice)."""
        place = self.below(sum(weight for weight, _ in choices))
        for weight, choice in choices:
            place -= weight
            if place < 0:
                return choice

    def bits64(self):
        return self.below(1 << 32) << 32 | self.below(1 << 32)


def hex_word(data):
    return bytes(data).hex() or '-'


def bits_word(double):
    return struct.pack('>d', double).hex()


def double_of_bits(bits):
    return struct.unpack('>d', struct.pack('>Q', bits))[0]


def beside(double, steps):
    """The double that many places above (or below) one that is not negative."""
    return double_of_bits(max(0, struct.unpack('>Q', struct.pack('>d', double))[0] + steps))


def call(name, *words):
    return ' '.join((name, *map(str, words)))


def table_line(table, pairs=None):
    """Sets this table; pairs may be more than are needed."""
    used = max((i + 1 for i in range(PLACES) if table.months[i] or table.offsets[i]), default=0)
    pairs = used if pairs is None else max(used, pairs)
    words = [word for i in range(pairs) for word in (table.months[i], table.offsets[i])]
    return call('table', table.count, pairs, *words)


def vouch_line(number):
    return call('vouch', number)


# ---------------------------------------------------------------------------
# Tables

BULLETIN = second.table_of_bulletin_c()
T = second.read_block(bytes.fromhex('030C0C'))
N = second.read_block(bytes.fromhex('020D'))
GAPS = (1, 2, 3, 6, 12, 62, 63, 64, 65, 127, 128, 8190, 8191, 8192, 8193)  # about the groups' ends


def table_of_steps(months, steps):
    """A good table: these months after the first entry, each with its step."""
    offsets = [10]
    for step in steps:
        offsets.append(offsets[-1] + step)
    return Table(len(offsets), [0, *months], offsets)


def table_of_one_step(month, step):
    return table_of_steps([month], [step])


def table_of_longest_block():
    """As many gaps of three groups as there is time for, and two groups for the rest."""
    return table_of_steps(list(itertools.accumulate([8_192] * 11 + [64] * 52)), [1] * 63)


def neighbours(first, count):
    return list(range(first, first + count))


STEPS = {
    'up': lambda i: 1,
    'down': lambda i: -1,
    'down and up': lambda i: -1 if i % 2 == 0 else 1,
    'up and down': lambda i: 1 if i % 2 == 0 else -1,
}


def good_tables():
    """Each with a heading."""
    yield 'one entry', table_of_steps([], [])
    for month in (1, 2, 6, 337, 1537, LAST_MONTH - 1, LAST_MONTH):
        for step in (1, -1):
            yield f'two entries, month {month}, step {step}', table_of_one_step(month, step)
    for name, step in STEPS.items():
        for entries in (2, 62, 63):
            steps = [step(i) for i in range(entries)]
            yield f'{entries + 1} neighbouring months from the first, {name}', table_of_steps(neighbours(1, entries), steps)
            last = neighbours(LAST_MONTH - entries + 1, entries)
            yield f'{entries + 1} neighbouring months to the last, {name}', table_of_steps(last, steps)
    for gap in (12, 63, 64, 8191, 8192):
        months = list(range(gap, LAST_MONTH + 1, gap))[:PLACES - 1]
        yield f'months {gap} apart', table_of_steps(months, [STEPS['down and up'](i) for i in range(len(months))])


def changed(table, count=None, month=None, offset=None):
    """The table with another count, or with one place (index, value) changed; good no more, mostly."""
    months, offsets = list(table.months), list(table.offsets)
    if month:
        months[month[0]] = month[1]
    if offset:
        offsets[offset[0]] = offset[1]
    return Table(table.count if count is None else count, months, offsets)


def malformed_tables(table):
    """Each kind of fault, at each end of a good table of two entries or more."""
    last = table.count - 1
    for count in (0, table.count - 1, table.count + 1, PLACES - 1, PLACES, PLACES + 1, 2**31, 2**32, 2**32 + table.count,
                  2**63, 2**64 - 1):
        if count != table.count:
            yield f'count {count}', changed(table, count=count)
    for month in (1, 2**32 - 1):
        yield f'first month {month}', changed(table, month=(0, month))
    for offset in (0, 9, 11, -10, 2**31 - 1, -2**31):
        yield f'first offset {offset}', changed(table, offset=(0, offset))
    for place in sorted({1, last}):
        before = table.offsets[place - 1]
        for month in (0, table.months[place - 1], table.months[place - 1] - 1, LAST_MONTH + 1, 2**31, 2**32 - 1):
            if month >= 0:
                yield f'month {month} at place {place}', changed(table, month=(place, month))
        for offset in (before, before + 2, before - 2, 0, 2**31 - 1, -2**31):
            if abs(offset - before) != 1:
                yield f'offset {offset} at place {place}', changed(table, offset=(place, offset))
    for place in sorted({table.count, PLACES - 1}):
        if table.count <= place < PLACES:
            yield f'unused month at place {place}', changed(table, month=(place, LAST_MONTH))
            yield f'unused offset at place {place}', changed(table, offset=(place, -1))
    if last > 1:
        yield 'the last two offsets wrap', changed(changed(table, offset=(last - 1, 2**31 - 1)), offset=(last, -2**31))


def random_months(dice, count):
    kind = dice.below(7)
    if kind == 0:
        return neighbours(dice.between(1, LAST_MONTH - count), count)
    if kind == 1:
        return neighbours(LAST_MONTH - count + 1, count)
    if kind == 2:
        return neighbours(1, count)
    if kind == 3:
        months = {6 * dice.between(1, 16_055) for _ in range(2 * count)}
        return sorted(months)[:count]
    if kind == 4:
        months, month = [], 0
        while len(months) < count and month < LAST_MONTH:
            month = min(LAST_MONTH, month + dice.pick(GAPS))
            months.append(month)
        return months
    last = LAST_MONTH if kind == 5 else LAST_MONTH_OF_CARDS
    return sorted({dice.between(1, last) for _ in range(count)})


def random_table(dice):
    entries = dice.pick((0, 1, 1, 1, 2, 2, 3, 10, 27, 62, 63, 63))
    months = random_months(dice, entries)
    step = dice.pick([*STEPS.values(), lambda i: dice.pick((1, -1)), lambda i: dice.pick((1, -1))])
    return table_of_steps(months, [step(i) for i in range(len(months))])


def random_malformed_table(dice):
    table = random_table(dice)
    if table.count == 1:
        table = T
    return dice.pick(list(malformed_tables(table)))[1]


# The vouched month

def last_entry(table):
    """The month of a good table's last entry; of any other, a month."""
    return min(max(table.months), LAST_MONTH)


def vouched_numbers(table):
    """Months plus one, about each limit: none, the first month, the last entry's, December 9999, and all of a u32."""
    last = last_entry(table)
    return sorted({0, 1, last, last + 1, last + 2, LAST_MONTH, LAST_MONTH + 1, LAST_MONTH + 2, 2**32 - 1})


def random_vouched_number(dice, table):
    last = last_entry(table)
    kind = dice.weighted(((8, 'near'), (5, 'any'), (2, 'end'), (2, 'none'), (3, 'limit')))
    if kind == 'near':
        return min(last + dice.pick((1, 1, 1, 2, 3, 12, 13)), LAST_MONTH + 1)
    if kind == 'any':
        return dice.between(last + 1, LAST_MONTH + 1)
    if kind == 'end':
        return dice.pick((LAST_MONTH, LAST_MONTH + 1))
    return 0 if kind == 'none' else dice.pick(vouched_numbers(table) + [dice.between(0, last), dice.below(2**32)])


def first_beyond(table):
    """The month after the vouched one."""
    return table.vouched_month + 1


# ---------------------------------------------------------------------------
# Labels and instants

FIRST_LABEL = Label(1972, 1, 1, 0, 0, 0)
LAST_LABEL = Label(9999, 12, 31, 23, 59, 59)
YEARS = (1972, 1973, 1976, 1999, 2000, 2001, 2004, 2096, 2099, 2100, 2101, 2104, 2200, 2300, 2399, 2400, 2401, 2800,
         4000, 8000, 9600, 9900, 9996, 9999)
TIMES = ((0, 0, 0), (11, 59, 59), (12, 0, 0), (23, 59, 57), (23, 59, 58), (23, 59, 59), (23, 59, 60), (23, 58, 59),
         (23, 58, 60), (22, 59, 60), (12, 30, 60), (0, 0, 60))
MICROSECONDS = (0, 1, 9, 10, 250_000, 499_999, 500_000, 814_000, 999_999)
WRONG = {  # for each field, values that are refused or nearly so
    'year': (0, 1, 1970, 1971, 1972, 9999, 10_000, 10_001, 12_000, 2**31, 2**32 - 1),
    'month': (0, 1, 12, 13, 14, 2**31, 2**32 - 1),
    'day': (0, 1, 28, 29, 30, 31, 32, 2**31, 2**32 - 1),
    'hour': (0, 23, 24, 25, 2**31, 2**32 - 1),
    'minute': (0, 59, 60, 61, 2**31, 2**32 - 1),
    'second': (0, 58, 59, 60, 61, 62, 2**31, 2**32 - 1),
}
SCALE_NUMBERS = (0, 1, 2, 3, 4, 5, 255, 256, 2**31, 2**32 - 1)
INSTANTS_AT_64_BITS = tuple(end + sign * inward for end, sign in ((-2**63, 1), (2**63 - 1, -1))
                            for inward in (0, 1, 999_999, 18_999_999, 19_000_000, 19_000_001, 32_183_999, 32_184_000,
                                           32_184_001, 73_000_000, NOON_2000 * SECOND))


def edges_of(table):
    """The table whose steps are worth asking about."""
    return table if table.is_good else BULLETIN


def day_before_month(month):
    return second.date_of_day(second.FIRST_DAY[month] - 1)


def labels_of_night(month, step):
    """The last seconds before a step, those of its opposite too, and the first after it."""
    seconds = (57, 58, 59, 60) if step < 0 else (58, 59, 60)
    return ([Label(*day_before_month(month), 23, 59, last) for last in seconds]
            + [Label(*second.date_of_day(second.FIRST_DAY[month]), 0, 0, 0)])


def midnights_beyond(table):
    """The instants with which the first month beyond begins, one for each scale, UTC's first."""
    midnight = second.first_second_of_month(first_beyond(table)) * SECOND
    return [midnight + table.offsets[table.count - 1] * SECOND, *(midnight - offset for offset in second.SCALE_OFFSET.values())]


def is_label(table, scale, label):
    try:
        second.judge_fields(table, scale, label, 0)
    except second.Refused:
        return False
    return True


def ends_of_scale(table, scale):
    return (second.instant_of(table, scale, FIRST_LABEL, 0), second.instant_of(table, scale, LAST_LABEL, 999_999))


def random_date(dice):
    return second.date_of_day(dice.below(second.END_OF_DAYS))


def random_time(dice):
    return dice.pick(TIMES) if dice.chance(0.5) else (dice.below(24), dice.below(60), dice.below(60))


def date_at_edge(dice):
    year, month = dice.pick(YEARS), dice.pick((1, 2, 2, 2, 3, 6, 7, 11, 12, dice.between(1, 12)))
    return year, month, dice.pick((1, 27, 28, 29, 30, 31, second.days_in_month(year, month)))


def label_at_step(dice, table):
    if not table.steps:
        return Label(*dice.pick((day_before_month(6), day_before_month(12))), 23, 59, dice.pick((59, 60)))
    month = dice.pick(list(table.steps))
    if dice.chance(0.1):  # a step's time one day off
        return dice.pick(labels_of_night(month, -1))._replace(day=dice.pick((1, 2, 27, 28, 29)))
    return dice.pick(labels_of_night(month, -1))


def label_about_vouched(dice, table):
    """The last seconds before the first month beyond and its first one, or some time in a month about it."""
    month = first_beyond(table)
    if dice.chance(0.6):
        return dice.pick(labels_of_night(month, -1))
    month = min(max(0, month + dice.pick((-13, -12, -2, -1, -1, 0, 0, 1, 11, 12))), LAST_MONTH)
    year, month = FIRST_LABEL.year + month // 12, month % 12 + 1
    return Label(year, month, dice.pick((1, dice.between(1, 28), second.days_in_month(year, month))), *random_time(dice))


def random_label(dice, table):
    if edges_of(table).vouched_month is not None and dice.chance(0.35):
        return label_about_vouched(dice, table)
    kind = dice.weighted(((30, 'step'), (20, 'edge'), (15, 'mid-year'), (10, 'ends'), (25, 'any')))
    if kind == 'step':
        return label_at_step(dice, edges_of(table))
    if kind == 'edge':
        return Label(*date_at_edge(dice), *random_time(dice))
    if kind == 'mid-year':
        date = dice.pick(((6, 30), (12, 31)))
        return Label(dice.between(1972, 9999), *date, 23, 59, dice.pick((58, 59, 60)))
    if kind == 'ends':
        return dice.pick((FIRST_LABEL, FIRST_LABEL._replace(second=dice.below(61)), LAST_LABEL,
                          LAST_LABEL._replace(second=dice.between(50, 61)), LAST_LABEL._replace(month=11, day=30),
                          LAST_LABEL._replace(month=11, day=30, second=60), FIRST_LABEL._replace(year=1971),
                          FIRST_LABEL._replace(year=10_000)))
    return Label(*random_date(dice), *random_time(dice))


def spoilt_label(dice, label):
    for _ in range(dice.pick((1, 1, 1, 2, 3))):
        field = dice.pick(list(WRONG))
        label = label._replace(**{field: dice.pick(WRONG[field])})
    return label


def any_label(dice, table):
    label = random_label(dice, table)
    return spoilt_label(dice, label) if dice.chance(0.2) else label


def random_microsecond(dice):
    return dice.pick(MICROSECONDS) if dice.chance(0.6) else dice.below(SECOND)


def random_scale(dice):
    return dice.pick(SCALE_NUMBERS) if dice.chance(0.06) else dice.weighted(((4, UTC), (2, TAI), (2, TDT), (2, GPS)))


def random_instant(dice, table):
    table = edges_of(table)
    kind = dice.weighted(((35, 'step'), (20, 'ends'), (15, 'label'), (15, 'any'), (5, 'noon'), (7, '64'), (3, 'bits')))
    near = dice.between(-3, 3) * SECOND + dice.pick((-1, 0, 0, 1, random_microsecond(dice)))
    if table.vouched_month is not None and dice.chance(0.35):
        midnights = midnights_beyond(table)
        return dice.pick(midnights[:1] * 3 + midnights) + dice.pick((-1, 0, 1, near, near, dice.between(-40, 40) * DAY))
    if kind == 'step':
        return dice.pick(table.held_from) * SECOND + near
    if kind == 'ends':
        return dice.pick(ends_of_scale(table, dice.pick(SCALES))) + dice.pick((-2, -1, 0, 1, 2, near))
    if kind == 'label':
        midnight = second.day_number(*random_date(dice)) * DAY_SECONDS - NOON_2000
        return (midnight + dice.between(-75, 75)) * SECOND + random_microsecond(dice)
    if kind == 'any':
        first, last = ends_of_scale(table, TAI)
        return dice.between(first // SECOND, last // SECOND) * SECOND + random_microsecond(dice)
    if kind == 'noon':
        return near
    return dice.pick(INSTANTS_AT_64_BITS) if kind == '64' else dice.bits64() - 2**63


# ---------------------------------------------------------------------------
# Blocks

def numbers(*values):
    return b''.join(map(second.groups_of_number, values))


def number_in_groups(value, groups):
    """The number in this many groups, the shortest form or not."""
    parts = [value >> 7 * i & 0x7F for i in range(groups)]
    return bytes(part | 0x80 for part in parts[:-1]) + bytes(parts[-1:])


def blocks_of_limits():
    """Numbers at their limits: month 96,335 and past it, the counts, the gaps of 0, the three groups."""
    for value in (0, 1, 2, 3, 63, 64, 65, 127):
        yield bytes([value])
        yield bytes([value]) + b'\x02' * max(0, value - 1)
    for value in (128, 129, 192, 16_383, 16_384, 2**21 - 1):
        yield numbers(value)
    for value in (0, 1, 2, 3, 126, 127, 128, 129, 16_382, 16_383, 16_384, 16_385, 2**21 - 1):
        yield numbers(2, value)
    for bit in (0, 1):
        for month in (LAST_MONTH - 1, LAST_MONTH, LAST_MONTH + 1):
            yield numbers(2, 2 * month + bit)
            yield numbers(3, 2 * (month - 1) + bit, 2 + bit)
            yield numbers(3, 2 + bit, 2 * (month - 1) + bit)
    for value in (0, 1, 2, 12, 64, 127):
        for groups in (1, 2, 3, 4):
            yield number_in_groups(value, groups)
            yield b'\x02' + number_in_groups(value, groups)
    for tail in (b'', b'\x00', b'\x80', b'\x80\x80\x80', b'\xff\xff\xff\xff'):
        for begin in (b'', b'\x01', b'\x02', b'\x02\x0c', b'\x02\x80', b'\x02\x80\x80', b'\x02\xff\xff\x7f'):
            yield begin + tail


def damaged_blocks(block):
    """The block wrong at each place."""
    for place in range(len(block)):
        for byte in (0x00, 0x01, 0x7F, 0x80, 0x81, 0xFF, block[place] | 0x80, block[place] ^ 0x01):
            yield block[:place] + bytes([byte]) + block[place + 1:]
        yield block[:place]
        yield block[:place] + block[place + 1:]
        yield block[:place] + b'\x80' + block[place:]
        yield block[:place] + b'\x80\x80\x80'
    for tail in (b'\x00', b'\x80', b'\x02', b'\x80\x80\x80'):
        yield block + tail


def random_block(dice, table):
    kind = dice.below(8)
    if kind == 0:
        return bytes(dice.below(256) for _ in range(dice.below(12)))
    if kind == 1:
        return dice.pick(list(blocks_of_limits()))
    if kind == 2:
        count = dice.between(1, PLACES)
        entries = [dice.pick((2, 3, 12, 13, 127, 128, 3_050, 3_059, 16_383, 16_384)) for _ in range(count - 1)]
        return numbers(count, *entries)
    block = second.block_of_table(edges_of(table) if dice.chance(0.3) else random_table(dice))
    return block if kind < 5 else dice.pick(list(damaged_blocks(block)))


# New blocks, and blocks that are moved

OPENING = numbers(0, 0)  # of a new block with no month
NUMBERS_OF_MONTHS = (0, 1, 2, 127, 128, 129, 16_383, 16_384, LAST_MONTH, LAST_MONTH + 1, LAST_MONTH + 2, 2**21 - 1, 2**21)
MONTHS_FOR_T = (0, 12, 13, LAST_MONTH + 1, LAST_MONTH + 2)  # none, the one before its last entry, that entry's, the last month, past it


def parts_of_openings():
    """First numbers, and behind a first number of 0 month numbers, at their limits and in forms that are not the shortest."""
    for begin in (b'', b'\x00'):
        for value in NUMBERS_OF_MONTHS:
            yield begin + numbers(value)
        for value in (0, 1, 13, 127):
            yield from (begin + number_in_groups(value, groups) for groups in (1, 2, 3, 4))
        yield from (begin + part for part in (b'', b'\x80', b'\xff\xff', b'\x80\x80\x80', b'\xff\xff\xff\x7f'))


def new_blocks_of_limits():
    """Openings at their limits alone and before T, months about the last entry, and of two faults the one that is answered."""
    for part in parts_of_openings():
        yield from (part, part + second.block_of_table(T))
    for table in (table_of_steps([], []), T, N, table_of_one_step(LAST_MONTH, 1), BULLETIN):
        for number in vouched_numbers(table):
            yield numbers(0, number) + second.block_of_table(table)
    for number in MONTHS_FOR_T:
        for rest in ('', '00', '01', '02', '41', '8100', '0201', '02808080', '02a0e10b', '03', '030c', '030c80', '030c8000', '030c00',
                     '030c0c00', '030c0c80'):
            yield numbers(0, number) + bytes.fromhex(rest)


def random_new_block(dice, table):
    kind = dice.weighted(((1, 'bytes'), (2, 'limit'), (1, 'old'), (2, 'opened'), (4, 'table'), (4, 'damaged')))
    if kind == 'bytes':
        return b'\x00' + bytes(dice.below(256) for _ in range(dice.below(12)))
    if kind == 'limit':
        return dice.pick(list(new_blocks_of_limits()))
    if kind == 'old':
        return random_block(dice, table)
    if kind == 'opened':
        return dice.pick(list(parts_of_openings())) + random_block(dice, table)
    table = edges_of(table) if dice.chance(0.3) else random_table(dice)
    block = numbers(0, random_vouched_number(dice, table)) + second.block_of_table(table)
    return block if kind == 'table' else dice.pick(list(damaged_blocks(block)))


def random_either_block(dice, table):
    """Mostly an old block, for a reader of these."""
    return random_new_block(dice, table) if dice.chance(0.2) else random_block(dice, table)


def table_read(read, block, other):
    """The table of the block, or the other where the block is refused."""
    try:
        return read(block)
    except second.Refused:
        return other


# ---------------------------------------------------------------------------
# Kernels

BEGIN_DATA = b'\\begindata\n'
OUR_NAME = second.OUR_NAME
OURS = OUR_NAME + b'=(10,@1972-JAN-1)'
BAD_KERNELS = (  # each with the place of its fault
    (b'', 0),
    (BEGIN_DATA, 11),
    (BEGIN_DATA + OUR_NAME, 26),
    (BEGIN_DATA + OUR_NAME + b'=(10.0', 30),
    (BEGIN_DATA + OUR_NAME + b'=(10)', 30),
    (BEGIN_DATA + OUR_NAME + b'=(10 -11', 31),
    (BEGIN_DATA + OUR_NAME + b'=(10@1972-JAN-1)', 30),
    (BEGIN_DATA + OUR_NAME + b'+=(', 26),
    (BEGIN_DATA + OUR_NAME + b'=(10,@1971', 31),
    (BEGIN_DATA + OUR_NAME + b'=(10,@197', 35),
    (BEGIN_DATA + OUR_NAME + b'=(10,@1972-JAN-1(', 42),
    (BEGIN_DATA + OURS + OURS, 43),
    (BEGIN_DATA + OURS + OUR_NAME, 58),
    (BEGIN_DATA + OURS + OUR_NAME + b'(', 43),
    (BEGIN_DATA + OURS + b'\n\\begindata', 50),
    (BEGIN_DATA + OURS + b'\\begintext', 43),
    (BEGIN_DATA + OURS + b'A=1,2', 46),
)
GOOD_KERNELS = (BEGIN_DATA + OURS + b'\n\\begintext', BEGIN_DATA + OURS + b"A='x'B=(1)C=''")
PUBLISHED_TEXT = b"""KPL/LSK

Leapseconds kernel file
===========================================================================

The variables are those of the difference between ET and UTC:
ET - UTC  =  DELTA_T_A + DELTA_AT + K sin E, where E = M + EB sin M.
A line with \\begindata and more is text, and so is DELTET/DELTA_AT = ( 1 ).

"""
PUBLISHED_CONSTANTS = b"""
DELTET/DELTA_T_A       =   32.184
DELTET/K               =    1.657D-3
DELTET/EB              =    1.671D-2
DELTET/M               = ( 6.239996D0 1.99096871D-7 )
DELTET/SOURCES         = ( 'Bulletin C', 'the observatory''s list' )

"""


def published_kernel():
    """Bulletin C as the ephemeris people publish it."""
    pairs = [b'%d,   @%d-%s-1' % (offset, year, second.MONTH_NAMES[month - 1]) for year, month, offset in BULLETIN_C]
    ours = OUR_NAME + b'        = ( ' + (b'\n' + b' ' * 27).join(pairs) + b' )\n\n'
    return PUBLISHED_TEXT + BEGIN_DATA + PUBLISHED_CONSTANTS + ours + b'\\begintext\n\nEnd of the file.\n'


def foreign_kernel():
    """The same table with carriage returns and tabs, more data before and behind, and all that is free in a date."""
    names = [second.MONTH_NAMES[month - 1] for _, month, _ in BULLETIN_C]
    cases = [(name.lower(), name.capitalize(), name, name[:2] + name[2:].lower())[i % 4] for i, name in enumerate(names)]
    pairs = [b'%s%d\t@%d-%s-%s' % (b'+00'[:i % 4], offset, year, cases[i], (b'1', b'01')[i % 2])
             for i, (year, _, offset) in enumerate(BULLETIN_C)]
    before = b" \\begindata\t\nFILES = ( 'a(1).tls', 'it''s',,'' )\nFILES += 'more = ) @'\n\\begintext \nText again: \\begintext\n"
    ours = OUR_NAME + b'\t=\n(,' + b',\n'.join(pairs) + b'\n,)'
    behind = b'X=-1.5E+3\nDELTET/DELTA_AT2 = ( DELTET/DELTA_AT @1971-JAN-2 + )\n\t\\begintext\n'
    return (before + BEGIN_DATA + ours + behind + BEGIN_DATA + b'Y = ( 1\n2 )').replace(b'\n', b'\r\n')


SMALL_KERNEL = b"\\begindata\nA='b'C+=(d)\nDELTET/DELTA_AT=(10,@1972-jan-01)\n\\begintext"
BYTES_THAT_TELL = b"\n ,()='+@\\-01A\x00\x80"


def damaged_kernels(file):
    """The file wrong at each place."""
    for place in range(len(file)):
        for byte in BYTES_THAT_TELL:
            if byte != file[place]:
                yield file[:place] + bytes([byte]) + file[place + 1:]
        yield file[:place]
        yield file[:place] + file[place + 1:]
        for byte in b"\n '1\\":
            yield file[:place] + bytes([byte]) + file[place:]


def kernel_of_pairs(*pairs):
    return BEGIN_DATA + OUR_NAME + b'=(' + b','.join(pairs) + b')'


WHOLE_NUMBERS = (b'+10', b'0010', b'+' + b'0' * 300 + b'10', b'-10', b'-0', b'0', b'9', b'11', b'010', b'1', b'100', b'2147483658',
                 b'4294967306', b'-4294967286', b'18446744073709551626', b'1' + b'0' * 299 + b'10', b'9' * 400)
NO_WHOLE_NUMBERS = (b'', b'+', b'-', b'+-10', b'--10', b'10.', b'10.0', b'.10', b'1e1', b'10D0', b'0x0A', b'1 0', b'1,0', b"'10'", b'10+',
                    b'10-', b'(10)', b'10 10', b'\xb9\xb0', b'@10', b'ten')
DATES_OF_KERNEL = (b'@1972-JAN-1', b'@1972-JAN-01', b'@1972-jan-1', b'@1972-jAn-01', b'@1972-FEB-1', b'@9999-DEC-1', b'@2000-dec-01')
NO_DATES = (b'', b'@', b'@1', b'@197', b'@1972', b'@1972-', b'@1972-J', b'@1972-JA', b'@1972-JAN', b'@1972-JAN-', b'@1972-JAN-0',
            b'@1972-JAN-00', b'@1972-JAN-2', b'@1972-JAN-12', b'@1972-JAN-011', b'@1972-JAN-1x', b'@1972-JAN-1-', b'@1972-JAN-1.',
            b'@1972-JAN-1@', b'@1972-JAN-1+', b'@1972-JAN-1/00', b'@1972-JAN-1"', b"@1972-JAN-1'", b'@1972-JAN-1=', b'@1972-JAN-1(',
            b'@1972-JAN-1\\', b'@1972-JAN-1\x80', b'@1972-JAN\x80', b'@1972-JAN=', b'@1972-01-1', b'@1972-JAM-1', b'@1972-JUM-1',
            b'@1972-MAI-1', b'@1972-JANUARY-1', b'@1972-J AN-1', b'@1972 JAN 1', b'@1972.JAN.1', b'@1971-DEC-1', b'@1969-JAN-1',
            b'@0972-JAN-1', b'@2971-JAN-1', b'@10000-JAN-1', b'@972-JAN-1', b'@+1972-JAN-1', b'@19720-JAN-1', b'@ 1972-JAN-1',
            b'@@1972-JAN-1', b'1972-JAN-1', b'x@1972-JAN-1', b"'@1972-JAN-1'", b'@\xb91972-JAN-1')
MONTHS_BEGUN = [name[:size] + other for name in second.MONTH_NAMES for size in (1, 2, 3) for other in (b'', b'Q')]
AFTER_A_NAME = (b'', b' ', b'\n', b'+', b'+ =', b'+=', b'=', b'==', b'=+', b'=)', b'=,', b'=(', b'=()', b'=(,)', b'=\\', b"='", b"='\n'",
                b"='\\'", b"=''", b"='''", b"=''''", b"='x'y", b"='x'(", b"='x'\\", b"='x' \\begintext", b"='x'\n\\begintext", b'=1',
                b'=1(', b'=1)', b"=1'", b'=1=', b'=1\\', b'=1\x80', b'=1\x00', b'=1+@2', b'=(1', b'=(1)', b"=(1'x')", b"=('x'1)",
                b"=('x''y')", b"=('x' 'y')", b"=('x')'", b"='x''\\'", b"='x''\n'", b'=((1))', b'=(1)2', b'=(1)2=3', b'=(=)', b'=(1=)',
                b'=(\\begintext\n', b'=(1\n\\begintext\n', b'=\n\\begintext\n', b'\n\\begintext\n', b'(', b')', b',', b"'", b'@', b'\\',
                b'\x7f')
TEXT_LINES = (b'\\begindata', b' \t\r\\begindata\r \t', b'x\\begindata', b'\\begindata x', b'\\begindat', b'\\begindataa', b'\\BEGINDATA',
              b'begindata', b'\\begindata\\begindata', b'\\begintext', b'\\\\begindata', b'\\begindata\x00', b'\\begindata\x0b',
              b"'\\begindata'")
DATA_LINES = (b'\\begintext', b' \t\r\\begintext\r \t', b'x\\begintext', b'\\begintext x', b'\\begintex', b'\\begintextt', b'\\BEGINTEXT',
              b'\\begin text', b'\\begindata', b' \\begindata', b'\\', b'\\\\begintext', b'\\begintext\\begintext', b'\\begintext\x00',
              b'x=1 \\begintext', b'x=1\\begintext')


def kernels_of_grammar():
    """Each part of the grammar, right and wrong, before our assignment or behind it."""
    for number in WHOLE_NUMBERS + NO_WHOLE_NUMBERS:
        yield kernel_of_pairs(number + b' @1972-JAN-1')
        yield kernel_of_pairs(b'10 @1972-JAN-1', number + b' @1972-FEB-1')
    for date in DATES_OF_KERNEL + NO_DATES + tuple(b'@1972-%s-1' % begun for begun in MONTHS_BEGUN):
        yield kernel_of_pairs(b'10 ' + date)
        yield kernel_of_pairs(b'10 @1972-JAN-1', b'11 ' + date)
        yield BEGIN_DATA + OUR_NAME + b'=(10,' + date
    for name in (b'A', b'DELTET/DELTA_A', b'DELTET/DELTA_ATT', b'deltet/delta_at', b'!"#$%&*-./09:;<>?AZ[]^_`az{|}~', b'10', OUR_NAME):
        for after in AFTER_A_NAME:
            yield BEGIN_DATA + OURS + name + after
            yield BEGIN_DATA + name + after
    for line in TEXT_LINES:
        yield line + b'\n' + OURS
        yield b'text\n' + line
    for line in DATA_LINES:
        yield BEGIN_DATA + OURS + b'\n' + line + b'\n) text'
        yield BEGIN_DATA + OURS + line
        yield BEGIN_DATA + OURS + b'\n' + line
        yield BEGIN_DATA + line + b'\n' + BEGIN_DATA + OURS
    for byte in range(256):
        yield bytes([byte]) + b'\n' + BEGIN_DATA + b"A='" + bytes([byte]) + b"'" + OURS
        yield BEGIN_DATA + OURS + bytes([byte])
        yield BEGIN_DATA + b'A=(1' + bytes([byte]) + b')' + OURS


def kernels_of_tables():
    """Pairs that are no table, and as many as a table has or more."""
    for pairs in ((b'11 @1972-JAN-1',), (b'10 @1972-FEB-1',), (b'10 @1972-JAN-1', b'10 @1972-JAN-1'),
                  (b'10 @1972-JAN-1', b'11 @1972-JAN-1'), (b'10 @1972-JAN-1', b'12 @1972-FEB-1'), (b'10 @1972-JAN-1', b'9 @9999-DEC-1'),
                  (b'10 @1972-JAN-1', b'11 @1973-JAN-1', b'12 @1972-DEC-1')):
        yield kernel_of_pairs(*pairs)
    for step in (1, -1):
        for count in (63, 64, 65, 66, 130):
            yield kernel_of_pairs(*(b'%d @%d-JAN-1' % (10 + step * i, 1972 + i) for i in range(count)))
    many = [b'%d @%d-JAN-1' % (10 + i, 1972 + i) for i in range(65)]
    yield kernel_of_pairs(*many)[:-1]
    yield kernel_of_pairs(*many, b'75 @2037-JAN-2')
    yield kernel_of_pairs(*many) + OURS


LIMIT = second.MOST_KERNEL_BYTES
LONGEST_KERNEL = (LONGEST_LINE - len('read_kernel ')) // 2


def to_size(size, begin, end):
    """A file of this size: text, one line of it long, then data."""
    return b'x' * (size - 1 - len(begin) - len(end)) + b'\n' + begin + end


def kernels_of_limit():
    """Long files, only a few, since each is a line of 131,000 bytes: what counts is on both sides of the limit."""
    good = BEGIN_DATA + OURS
    for size in (LIMIT, LIMIT + 1):
        yield to_size(size, good, b'')
    yield to_size(LIMIT, good, OUR_NAME) + b'='
    yield to_size(LIMIT, BEGIN_DATA, OUR_NAME + b'=(10 @1972-J') + b'X'
    yield to_size(LIMIT, good, b'').ljust(LONGEST_KERNEL, b'(')


# Random kernels

FREE = (b'', b'', b' ', b' ', b'\n', b'\t', b'\r\n', b'  \n ')
APART = (b' ', b',', b', ', b'\n', b' ,\n', b'\r\n\t', b',,')
OTHER_ASSIGNMENTS = (b'A=1', b"B='x'", b"C=''", b'D=(1)', b'E+=(1,2)', b"F = ( 'it''s' )", b'DELTET/K = 1.657D-3',
                     b'DELTET/DELTA_A=@1972-JAN-2', b'DELTET/M = ( 6.239996D0 1.99096871D-7 )', b'DELTET/DELTA_ATX=+1', b"G='(=),@+'")
TEXTS = (b'', b'text\n', b'KPL/LSK\n\n', b'x\\begindata\n', b'\\begindata x\n', b'\xff\x00(\n')
FRAGMENTS = (BEGIN_DATA, b'\\begintext\n', b'\\begindata', b'\\begintext', b'\\', OUR_NAME, OUR_NAME + b'=(', OURS, b'=', b'+=', b'+',
             b'(', b')', b',', b' ', b'\n', b'\t', b'\r', b"'", b"''", b'A', b'A=', b'A=(', b'10', b'11', b'-1', b'@1972-JAN-1',
             b'@1972-FEB-01', b'@1971-DEC-1', b'@197', b'@', b'10 @1972-JAN-1', b'.', b'\x00', b'\x7f', b'\x80', b'\xff')


def random_kernel_number(dice, offset):
    return dice.pick((b'%d', b'%d', b'%+d', b'%03d', b'%+012d')) % (offset + (1 if dice.chance(0.01) else 0))


def random_kernel_date(dice, month):
    name = second.MONTH_NAMES[month % 12]
    name = dice.pick((name, name, name.lower(), name.capitalize(), name.swapcase()))
    return b'@%d-%s-%s' % (1972 + month // 12, name, dice.pick((b'1', b'1', b'01')))


def random_assignment(dice, table):
    """Ours, with a pair for each entry of the table."""
    between = dice.pick(APART)
    parts = []
    for month, offset in zip(table.used_months, table.offsets):
        parts.append(random_kernel_number(dice, offset) + between + random_kernel_date(dice, month))
    pairs = dice.pick(FREE) + dice.pick(APART).join(parts) + dice.pick(FREE)
    return OUR_NAME + dice.pick(FREE) + b'=' + dice.pick(FREE) + b'(' + pairs + b')'


def random_good_kernel(dice, table):
    parts = [dice.pick(OTHER_ASSIGNMENTS) + dice.pick((b' ', b'\n', b'\r\n')) for _ in range(dice.below(4))]
    parts.insert(dice.below(len(parts) + 1), random_assignment(dice, table) + dice.pick(FREE))
    if dice.chance(0.3):
        parts.insert(dice.below(len(parts) + 1), b'\n\\begintext\n' + dice.pick(TEXTS) + dice.pick(FREE).replace(b'\n', b'') + BEGIN_DATA)
    end = dice.pick((b'', b'\n', b'\n\\begintext', b'\n \\begintext\r\n' + dice.pick(TEXTS)))
    return dice.pick(TEXTS) + BEGIN_DATA + b''.join(parts) + end


def damaged_kernel(dice, file):
    """The file with one place changed, more often near its end."""
    place = dice.below(len(file)) if dice.chance(0.5) else max(0, len(file) - 1 - dice.below(60))
    kind = dice.below(6)
    if kind == 0:
        return file[:place]
    if kind == 1:
        return file[:place] + file[place + 1:]
    if kind == 2:
        return file[:place] + bytes([dice.below(256)]) + file[place + 1:]
    if kind == 3:
        return file[:place] + bytes([dice.pick(BYTES_THAT_TELL)]) + file[place + 1:]
    return file[:place] + dice.pick(FRAGMENTS) + file[place + dice.below(2) * dice.below(12):]


def random_kernel(dice, table):
    if dice.chance(0.1):
        return dice.pick((b'', BEGIN_DATA, BEGIN_DATA + OURS)) + b''.join(dice.pick(FRAGMENTS) for _ in range(dice.below(12)))
    small = dice.pick((T, N, table_of_steps([], []), table_of_one_step(dice.between(1, LAST_MONTH), 1)))
    file = random_good_kernel(dice, edges_of(table) if dice.chance(0.1) else small)
    for _ in range(dice.pick((0, 1, 1, 1, 2))):
        file = damaged_kernel(dice, file)
    return behind_long_text(dice, file) if dice.chance(0.001) else file


def behind_long_text(dice, file):
    """The limit falls into the file or just behind it."""
    return b'x' * (LIMIT - 1 - dice.below(len(file) + 3)) + b'\n' + file


# ---------------------------------------------------------------------------
# Cards

CARD = {'control': b' ', 'tai': b'10.0', 'ut1': b'', 'rate': b'', 'tdt': b'32.184 ', 'date': b'72001000000.000', 'free': b'  ',
        'kind': b'TP'}
WIDTHS = {'control': 1, 'tai': 15, 'ut1': 15, 'rate': 15, 'tdt': 15, 'date': 15, 'free': 2, 'kind': 2}


def card(**fields):
    """The first card of Bulletin C with other fields, each at the right of its columns; one that is too long makes the card so."""
    return b''.join(field.rjust(WIDTHS[name]) for name, field in {**CARD, **fields}.items())


def cards_file(*lines):
    return b''.join(line + b'\n' for line in lines)


def card_of(month, offset, **fields):
    return card(**{'tai': b'%d.0' % offset, 'date': second.card_date(month), **fields})


FIRST_CARD, SECOND_CARD, THIRD_CARD = (card_of(month, offset) for month, offset in ((0, 10), (6, 11), (12, 12)))
TAI_FIELDS = (  # eleven
    b'11', b'11.', b'11.0', b'11.0000', b'+11', b'+11.', b'+11.000', b'011', b'000000000000011', b'+0000000000011.', b'11.000000000000',
    b'11'.ljust(15), b'+11.'.ljust(14), b'11.0'.center(15))
OTHER_TAI_FIELDS = (  # whole by value and another number
    b'9', b'9.', b'+9.000', b'12', b'23', b'23.', b'23.0000', b'+23.', b'-11', b'-0', b'0', b'+0', b'.0', b'0.', b'-.0', b'10', b'267',
    b'65547', b'2147483659', b'4294967307', b'-4294967285', b'999999999999999', b'-99999999999999', b'99999999999999.', b'100000000000011',
    b'+00000000000000')
NO_TAI_FIELDS = (b'', b'.', b'+', b'-', b'+.', b'-.', b'23.5', b'2 3', b'1 1', b'--1', b'+-11', b'-+11', b'+ 11', b'- 11', b'11 .',
                 b'11. 0', b'. 0', b'1e1', b'1E1', b'1.1D1', b'11e0', b'11,0', b'11..', b'1.1.', b'..11', b'.11.', b'11.5',
                 b'11.00000000001', b'.000000000011', b'10.999999999999', b'0x0B', b'11\t', b'\t11', b'11\r', b'1_1', b'11+', b'11-',
                 b'11.+', b'+11+', b'eleven', b'11s', b'11\x00', b'\xb9\xb9', b'inf', b'nan', b'/', b':', b'1/1')
TDT_FIELDS = (b'32.184', b'32.184'.ljust(15), b'32.1840', b'+32.184', b'032.184', b'00000000032.184', b'32.184000000000',
              b'+00032.18400000', b'32.184'.center(15))
NO_TDT_FIELDS = (b'', b'32.18', b'32.184.', b'.32184', b'-32.184', b'32', b'32.', b'32.0', b'32,184', b'3.2184e1', b'3.2184E1', b'32.184D0',
                 b'32 .184', b'32. 184', b'32.1841', b'32.18400000001', b'32.183999999999', b'321.84', b'3.2184', b'32184', b'0.5364',
                 b'132.184', b'32.184s', b'+ 32.184', b'32.184 1', b'1 32.184', b'\t32.184', b'32.184\r', b'++32.184', b'.', b'0',
                 b'\xb332.184', b'-2147483615.816', b'4294967328.184', b'4294999.480')
UT1_FIELDS = (b'0', b'-0', b'0.07174', b'-0.92429', b'+.5', b'5.', b'-.000000000001', b'123456789012345', b'-99999999999.99',
              b'1'.ljust(15), b'0.5'.center(15))
NO_UT1_FIELDS = (b'.', b'+', b'-', b'+.', b'1E0', b'1D0', b'1e-3', b'1.2.3', b'1..2', b'1 2', b'0 .5', b'- 1', b'--1', b'1-', b'0x1', b'\t',
                 b'\r', b'\x00', b'x', b'nan', b'1,5', b'\xb2', b'\xa0')
CONTROLS = (b' ', b'1', b'0', b'2', b'3', b'9', b'*', b'C', b'c', b'B', b'D', b'+', b')', b'\t', b'\r', b'\x00', b'\x1f', b'!', b'T', b'Z',
            b'\xa0', b'\xff')
FREE_COLUMNS = (b' X', b'X ', b'XX', b'00', b'TP', b'ZP', b'*C', b'\r\r', b'\t ', b'\x00\xff')
KINDS = (b'ZP', b'tp', b'Tp', b'tP', b'T ', b' P', b'  ', b'PT', b'TT', b'PP', b'6P', b'T\r', b'\xd4P', b'TQ', b'SP')
YEARS_OF_CARDS = (b'49', b'50', b'51', b'69', b'70', b'71', b'72', b'73', b'99', b'00', b'01', b'48')
DAYS_OF_CARDS = (b'000', b'001', b'002', b'031', b'032', b'033', b'060', b'061', b'091', b'092', b'181', b'182', b'183', b'335', b'336',
                 b'365', b'366', b'367', b'500', b'999')
NO_CARD_DATES = (b'', b'73  1000000.000', b'73 01000000.000', b' 2001000000.000', b'7 001000000.000', b'73001', b'73001000000',
                 b'73001000000.', b'73001000000.00', b'73001000000.00 ', b'73001000000.001', b'73001000000.100', b'73001000001.000',
                 b'73001000060.000', b'73001000100.000', b'73001010000.000', b'73001240000.000', b'73001      .   ', b'73001      .000',
                 b'73001 00000.000', b'73001000000,000', b'7300100000 .000', b'73001000000 000', b'730010000000000', b'73001.000000000',
                 b'7300100000.0000', b'1973001000000.0', b'197300100000000', b'+2001000000.000', b'-2001000000.000', b'73+01000000.000',
                 b'73-01000000.000', b'7 3001000000.00', b'73001000000.0e0', b'73001000000.000\t', b'73001000000.OOO', b'7300I000000.000',
                 b'\xb73001000000.000', b'73001000000.00\xb0', b'73/01000000.000', b'730:1000000.000', b'73001000000.00\r')
BLANK_LINES = (b'', b' ', b' ' * 12, b' ' * 79, b' ' * 80, b' ' * 81, b' ' * 200)
COMMENTS = (b'*', b'C', b'c', b'*' * 79, b'*' * 80, b'*' * 81, b'* TAI-UTC, seconds', b'C\r', b'c\x00\xff', b'Comment'.ljust(300),
            b'*TP'.rjust(80, b'*'), b'C' + FIRST_CARD[1:], b'c' + SECOND_CARD[1:])
NO_CARDS = (b'\t', b'\r', b'\x00', b'x', b'1', b'TP', b' TP', b'\xa0', b'#', b'// no comment', b' *', b' C', b'\t*', b'-', b' ' * 79 + b'x',
            b' ' * 79 + b'\t', b' ' * 80 + b'\r', b' ' * 78 + b'TP', b'1'.ljust(78) + b'TP', b' ' * 77 + b'TP', b' ' * 79 + b'TP',
            FIRST_CARD[:-1], FIRST_CARD[1:], FIRST_CARD + b' ', FIRST_CARD + b'\r', FIRST_CARD + b'\x00', b' ' + FIRST_CARD,
            FIRST_CARD + FIRST_CARD, FIRST_CARD + b' ' + SECOND_CARD, FIRST_CARD[:40], FIRST_CARD[40:], FIRST_CARD.strip(b' '),
            FIRST_CARD.lower(), FIRST_CARD.replace(b' ', b'\t'),
            b'    86 181            0.07174       -0.92429      23.00000      32.18400',
            b' 97 253  10-Sep-97   31   0.43191   -1.971    0.2125    0.4359')
SOURCE_CARDS = (  # as the description of the cards has them; three are dated a day early
    card(tai=b'23.0', date=b'85181000000.000'), card(tai=b'22.0', date=b'83181000000.000'), card(tai=b'11.0', date=b'72182000000.000'),
    card(tai=b'10.0', date=b'72001000000.000'))


def cards_of_fields():
    """Each field in turn, in the second card; in the first where this is another matter."""
    fields = (('tai', TAI_FIELDS + OTHER_TAI_FIELDS + NO_TAI_FIELDS), ('tdt', TDT_FIELDS + NO_TDT_FIELDS),
              ('ut1', UT1_FIELDS + NO_UT1_FIELDS), ('rate', UT1_FIELDS[:4] + NO_UT1_FIELDS[:8]), ('control', CONTROLS),
              ('free', FREE_COLUMNS), ('kind', KINDS), ('date', NO_CARD_DATES))
    for name, values in fields:
        for value in values:
            yield cards_file(FIRST_CARD, card_of(6, 11, **{name: value}))
    for tai in (b'10', b'+10.', b'10.000', b'0010.', b'10'.ljust(15), b'1 0', b'10.1', b'.', b'1e1'):
        yield cards_file(card(tai=tai))
    for control in CONTROLS[:9]:
        yield cards_file(card(control=control))
    zeros = [card_of(month, 10 - month) for month in range(10)]
    for tai in (b'0', b'-0', b'+0', b'-0.0', b'.0', b'-.000', b'0.', b'-00000000000000'):
        yield cards_file(*zeros, card_of(10, 0, tai=tai))
    yield cards_file(*zeros, card_of(10, 0), card_of(11, -1), card_of(12, -2, tai=b'-2.'))


def cards_of_dates():
    """Years and days about every limit: behind the first card, where all later dates rise."""
    def behind_first(date):
        return cards_file(FIRST_CARD, card(tai=b'11.0', date=date + b'000000.000'))
    for year in YEARS_OF_CARDS:
        for day in (b'001', b'002', b'366'):
            yield behind_first(year + day)
    for year in (b'72', b'73', b'00'):
        yield from (behind_first(year + day) for day in DAYS_OF_CARDS)
    for year in (1976, 2047):
        for month in range(1, 13):
            first = second.day_of_year(year, month, 1)
            yield from (behind_first(b'%02d%03d' % (year % 100, day)) for day in (first - 1, first))
    for year in (b'50', b'71', b'72', b'49'):
        yield cards_file(card(date=year + b'001000000.000'))


def cards_of_months(months):
    """A card for each, with the offset that it has where these months are a table."""
    rank = {month: 10 + place for place, month in enumerate(sorted(set(months)))}
    return [card_of(month, rank[month]) for month in months]


def cards_of_order():
    """Each order of up to four cards, also with one date twice; and order that is broken late."""
    for count in (2, 3):
        for months in itertools.product((0, 6, 12), repeat=count):
            yield cards_file(*cards_of_months(months))
    for months in itertools.permutations((0, 6, 12, 18)):
        yield cards_file(*cards_of_months(months))
    rising = list(range(0, 60, 6))
    for months in (rising, rising[::-1]):
        for place, month in ((3, 0), (3, 54), (5, months[4]), (5, months[3]), (9, months[8]), (9, months[0]), (9, 30)):
            yield cards_file(*cards_of_months(months[:place] + [month] + months[place + 1:]))
        yield cards_file(*cards_of_months(months), b'* a comment between', b'', cards_of_months(months)[0])


def cards_of_counts():
    """As many cards as a table has, or more, rising and falling: a bad line decides before their number."""
    def some(count, step=1):
        return [card_of(month, 10 + step * month) for month in range(count)]
    for count in (0, 1, 2, 64, 65):
        for step in (1, -1):
            yield cards_file(*some(count, step))
            yield cards_file(*some(count, step)[::-1])
    yield from (cards_file(*some(count)) for count in (63, 66, 130))
    many = some(65)
    for bad in (b'x', many[-1], many[0], card_of(65, 75, kind=b'ZP'), card_of(65, 75, tai=b'75.5')):
        yield cards_file(*many, bad)
        yield cards_file(*many[::-1], bad, b'y')


def cards_of_tables():
    """Good cards that are no table."""
    for entries in (((0, 11),), ((0, 9),), ((0, 0),), ((1, 10),), ((6, 11),), ((935, 10),), ((0, 10), (6, 12)), ((0, 10), (6, 10)),
                    ((0, 10), (6, 8)), ((0, 10), (6, 11), (12, 13)), ((0, 10), (6, 11), (12, 11)), ((0, 11), (6, 10)), ((0, 11), (6, 12)),
                    ((1, 10), (6, 11)), ((0, -10), (1, -9)), ((0, 10), (6, 11), (12, 10), (18, 8))):
        cards = [card_of(month, offset) for month, offset in entries]
        yield cards_file(*cards)
        if len(cards) > 1:
            yield cards_file(*cards[::-1])


def cards_of_lines():
    """Lines that are passed over and lines that are bad, before the cards, between them and behind them; and ends of files."""
    for line in BLANK_LINES + COMMENTS + NO_CARDS:
        yield cards_file(FIRST_CARD, line, SECOND_CARD)
        yield cards_file(FIRST_CARD, SECOND_CARD) + line
    for line in BLANK_LINES + COMMENTS:
        yield line
        yield cards_file(line, line, FIRST_CARD)
    good = cards_file(*COMMENTS[:3], THIRD_CARD, b'', SECOND_CARD, b' ' * 90, FIRST_CARD)
    for file in (good, good[:-1], good + b'\n', good + b'*', good + b'x', good + FIRST_CARD, good + b' ' * 80, b'\n' * 3 + good):
        yield file
    yield good.replace(b'\n', b'\r\n')
    for bad in (FIRST_CARD[:-1], card(kind=b'ZP'), FIRST_CARD + b'\r', b'1'):
        for place in range(4):
            lines = [FIRST_CARD, SECOND_CARD, THIRD_CARD]
            lines.insert(place, bad)
            yield cards_file(*lines)[:-1] if place % 2 == 1 else cards_file(*lines, b'x')


def cards_of_bulletin():
    """Bulletin C's cards cut at each kind of place, and the other way round."""
    written = second.cards_of_table(BULLETIN)
    yield written
    yield cards_file(*reversed(written.splitlines()))
    for whole, columns in ((0, (1, 12, 13, 80)), (1, (0, 1, 2, 12, 13, 15, 16, 17, 54, 60, 61, 62, 75, 76, 77, 78, 79, 80)),
                           (2, (0, 12, 13, 16, 61, 76, 79, 80)), (27, (0, 1, 12, 13, 79, 80))):
        yield from (written[:81 * whole + column] for column in columns)
    for whole in (1, 14):
        yield from (written[81 * whole + column:] for column in (0, 1, 40, 80))
    for months in ((935,), range(5, 12), range(936 - 63, 936)):
        yield second.cards_of_table(table_of_steps(months, [-1] * len(months)))


def damaged_cards(line):
    """The card wrong at each place."""
    for place in range(len(line)):
        for byte in b'0 \x80' if place % 2 == 0 else b'0 ':
            if byte != line[place]:
                yield line[:place] + bytes([byte]) + line[place + 1:]
    for place in (0, 1, 11, 12, 16, 40, 78, 79):
        yield line[:place] + b'\n' + line[place + 1:]


def cards_of_source():
    yield from (cards_file(line) for line in SOURCE_CARDS)
    yield cards_file(*SOURCE_CARDS)
    yield cards_file(*(b'*' + line[1:] for line in SOURCE_CARDS))
    a_day_later = [line.replace(b'181000', b'182000').replace(b'72182', b'72183') for line in SOURCE_CARDS]
    yield cards_file(*a_day_later)
    yield cards_file(*a_day_later[2:])


# Random cards

def random_decimal(dice, value):
    """A whole number or one with decimals, laid out in any way, at any place of its field."""
    whole, _, decimals = value.lstrip(b'-').partition(b'.')
    sign = b'-' if value.startswith(b'-') else dice.pick((b'', b'', b'', b'+'))
    decimals += b'0' * dice.pick((0, 0, 1, 3))
    text = sign + b'0' * dice.pick((0, 0, 0, 1, 2)) + whole + (b'.' + decimals if decimals or dice.chance(0.3) else b'')
    return text.ljust(len(text) + dice.below(max(1, 16 - len(text))))


def random_card(dice, month, offset):
    offset += dice.pick((1, -1)) if dice.chance(0.01) else 0
    card_fields = {'tai': random_decimal(dice, b'%d' % offset), 'tdt': random_decimal(dice, b'32.184')}
    for name in ('ut1', 'rate'):
        card_fields[name] = dice.pick(UT1_FIELDS) if dice.chance(0.3) else b''
    if dice.chance(0.2):
        card_fields['free'] = dice.pick(FREE_COLUMNS)
    return card(date=second.card_date(month), control=dice.pick((b' ', b' ', b' ', b'1')), **card_fields)


FIELDS_THAT_SPOIL = (('tai', NO_TAI_FIELDS + OTHER_TAI_FIELDS), ('tdt', NO_TDT_FIELDS), ('ut1', NO_UT1_FIELDS), ('rate', NO_UT1_FIELDS),
                     ('date', NO_CARD_DATES), ('control', CONTROLS), ('kind', KINDS), ('free', FREE_COLUMNS))


def spoilt_card(dice, month, offset):
    """A field is one of those that are mostly bad, or the date is another day."""
    if dice.chance(0.3):
        date = dice.pick(YEARS_OF_CARDS) + (dice.pick(DAYS_OF_CARDS) if dice.chance(0.5) else b'%03d' % dice.below(370)) + b'000000.000'
        return card_of(month, offset, date=date)
    name, values = dice.pick(FIELDS_THAT_SPOIL)
    return card_of(month, offset, **{name: dice.pick(values)})


def random_table_of_cards(dice, table):
    if dice.chance(0.1) and edges_of(table).used_months[-1] <= LAST_MONTH_OF_CARDS:
        return edges_of(table)
    count = dice.pick((0, 1, 1, 1, 2, 2, 3, 4, 8, dice.below(64)))
    months = sorted({dice.pick((dice.between(1, LAST_MONTH_OF_CARDS), 6 * dice.between(1, 155))) for _ in range(count)})
    return table_of_steps(months, [dice.pick((1, 1, -1)) for _ in months])


def damaged_lines_of_cards(dice, lines, entries):
    """Lines exchanged, doubled, left out or put in, or a card with a bad field."""
    place, other = dice.below(len(lines)), dice.below(len(lines))
    kind = dice.below(6)
    if kind == 0:
        lines[place], lines[other] = lines[other], lines[place]
    elif kind == 1:
        lines.insert(place, lines[other])
    elif kind == 2:
        lines.pop(place)
    elif kind == 3:
        lines.insert(place, dice.pick(NO_CARDS))
    else:
        lines[place] = spoilt_card(dice, *dice.pick(entries))


def random_cards(dice, table):
    table = random_table_of_cards(dice, table)
    entries = list(zip(table.used_months, table.offsets))
    lines = [random_card(dice, *entry) for entry in (entries[::-1] if dice.chance(0.4) else entries)]
    for _ in range(dice.pick((0, 0, 1, 3))):
        lines.insert(dice.below(len(lines) + 1), dice.pick(BLANK_LINES + COMMENTS))
    if dice.chance(0.45):
        damaged_lines_of_cards(dice, lines, entries)
    file = cards_file(*lines)
    if dice.chance(0.3):
        file = file[:-1]
    return damaged_at_byte(dice, file) if file and dice.chance(0.2) else file


def damaged_at_byte(dice, file):
    place = dice.below(len(file))
    kind = dice.below(4)
    if kind == 0:
        return file[:place]
    byte = bytes([dice.pick(b' 01.+-TP*C\n\r\t\x00\x80')]) if kind == 1 else bytes([dice.below(256)])
    return file[:place] + (byte if kind < 3 else b'') + file[place + 1:]


# ---------------------------------------------------------------------------
# Texts

DAYS_OF_YEAR = (0, 1, 31, 32, 59, 60, 61, 181, 182, 183, 364, 365, 366, 367, 400, 999)
DECIMALS = ('', '.0', '.1', '.9', '.25', '.814', '.0000', '.99999', '.000001', '.999999', '.123456', '.500000')
WRONG_DECIMALS = ('.', '..', '.1234567', '.0000000', '.1.', '.-1', '. 1', '.1 ', ',5', '.x', '.1Z', '.12345a')
WRONG_NAMES = ('Jan', 'jan', 'JUNE', 'JU', 'APT', 'MAI', '   ', '001', 'JAM', 'DEC.')
AROUND = ('\n', '\r\n', '\r', ' ', 'Z', '\x00', '+', '\t', '\ufeff')


def text_of(picture, label, decimals, day_of_year=None, name=None):
    """The picture of any fields, wrong ones too, cut to their widths."""
    year, month, day = label.year % 10_000, label.month % 100, label.day % 100
    time = f'{label.hour % 100:02}:{label.minute % 100:02}:{label.second % 100:02}{decimals}'
    if picture == 0:
        return f'{year:04}-{month:02}-{day:02}T{time}'
    if picture == 1:
        if day_of_year is None:
            day_of_year = second.day_of_year(year, month, day)
        return f'{year:04}-{day_of_year:03}T{time}'
    if name is None:
        name = second.MONTH_NAMES[month - 1].decode()
    return f'{year:04} {name} {day:02} {time}'


def wrong_characters(character):
    """What is easily taken for it, and what stands beside it in the code."""
    beside_it = {chr((ord(character) - 1) % 256), chr((ord(character) + 1) % 256)}
    return sorted((beside_it | {'0', '9', ' ', '/', ':', 'T', 't', '\xb0'}) - {character})


def damaged_texts(text):
    """The text wrong at each position."""
    for place, character in enumerate(text):
        for other in wrong_characters(character):
            yield text[:place] + other + text[place + 1:]
        yield text[:place]
        yield text[:place] + text[place + 1:]
        yield text[:place] + '0' + text[place:]
        yield text[:place] + ' ' + text[place:]
    for other in AROUND:
        yield text + other
        yield other + text


def text_word(text):
    return hex_word(text.encode('utf-8') if '\ufeff' in text else text.encode('latin-1'))


def random_text(dice, table):
    label, picture = any_label(dice, table), dice.pick(PICTURES)
    decimals = dice.pick(WRONG_DECIMALS) if dice.chance(0.05) else dice.pick(DECIMALS)
    name = None if 1 <= label.month <= 12 and not dice.chance(0.03) else dice.pick(WRONG_NAMES)
    day_of_year = None if is_date(label) and not dice.chance(0.1) else dice.pick(DAYS_OF_YEAR)
    text = text_of(picture, label, decimals, day_of_year, name)
    if dice.chance(0.03):
        return dice.pick(('', '.', 'T', '1972', text.lower(), text.replace('T', ' '), text + text, ' ' * len(text)))
    return damaged_text(dice, text) if dice.chance(0.15) else text


def is_date(label):
    return (1972 <= label.year <= 9999 and 1 <= label.month <= 12
            and 1 <= label.day <= second.days_in_month(label.year, label.month))


def damaged_text(dice, text):
    return dice.pick(list(damaged_texts(text))) if dice.chance(0.3) else damaged_once(dice, text)


def damaged_once(dice, text):
    place = dice.below(len(text))
    return text[:place] + chr(dice.below(256)) + text[place + 1:]


def random_room(dice, needed):
    if dice.chance(0.02):
        return dice.pick((MOST_ROOM - 1, MOST_ROOM, MOST_ROOM + 1, dice.below(MOST_ROOM)))
    return dice.pick((needed, needed, needed, needed - 1, needed + 1, 0, 1, 256, dice.below(257)))


# ---------------------------------------------------------------------------
# Doubles

FIRST_MIDNIGHT, LAST_MIDNIGHT = second.MIDNIGHT_OF_DAY_0, second.MIDNIGHT_OF_LAST_DAY
NOT_FINITE = tuple(map(double_of_bits, (0x7FF0000000000000, 0xFFF0000000000000, 0x7FF8000000000000, 0xFFF8000000000000,
                                        0x7FF0000000000001, 0xFFFFFFFFFFFFFFFF)))
MIDNIGHTS = (
    FIRST_MIDNIGHT, LAST_MIDNIGHT, 2451544.5, FIRST_MIDNIGHT - 1, LAST_MIDNIGHT + 1, FIRST_MIDNIGHT + 1, LAST_MIDNIGHT - 1,
    FIRST_MIDNIGHT - 0.5, FIRST_MIDNIGHT + 0.5, LAST_MIDNIGHT + 0.5, 2451545.0, 2451544.25, 2451544.75, 2400000.5, 0.5, -0.5, 1.5,
    -1.5, 0.0, -0.0, 0.25, -2451544.5, beside(2451544.5, 1), beside(2451544.5, -1), beside(LAST_MIDNIGHT, 1),
    4294967296.5, 4294967295.5, 2147483648.5, 2.0**51 + 0.5, 2.0**51 - 0.5, -(2.0**51) - 0.5, 2.0**52, 2.0**52 - 0.5, 2.0**52 + 1,
    2.0**53, 2.0**63, -(2.0**63), 2.0**64, 1e300, -1e300, sys.float_info.max, double_of_bits(1), double_of_bits(1 << 63 | 1),
    sys.float_info.min, *NOT_FINITE,
)
FRACTIONS_OF_KINDS = (
    0.0, -0.0, 0.5, 0.25, 1.0, beside(1.0, -1), beside(1.0, -2), beside(1.0, 1), -1.0, 2.0, 0.9999999, -0.5, -1e-300,
    double_of_bits(1), double_of_bits(1 << 63 | 1), double_of_bits(0x000FFFFFFFFFFFFF), sys.float_info.min, 1e-300, 1e300,
    float.fromhex('0x1.b26c2e8aee24fp-3'), *NOT_FINITE,
)


LONGER_DAY = DAY + SECOND  # a UTC day with a second added


def parts_of_ties(length):
    """The fractions of a day that lie exactly between two microseconds are odd parts of this power of two.

    It is the greatest that divides twice the length: 2^14 for 86,400 seconds, and 2^7 for one more or one less.
    """
    return 2 * (length & -length)


def tie(odd, length=DAY):
    return odd / parts_of_ties(length)


def fractions_beside_half(microsecond, length=DAY):
    """The doubles about the half after this microsecond."""
    middle = (2 * microsecond + 1) / (2 * length)
    return [beside(middle, steps) for steps in (-2, -1, 0, 1, 2)]


def fractions_of_microsecond(microsecond, length=DAY):
    exact = microsecond / length
    return [beside(exact, steps) for steps in (-1, 0, 1)]


def is_rounded_otherwise(fraction, length):
    """A product of doubles leads to another microsecond than the exact one."""
    return math.floor(fraction * length + 0.5) != second.nearest_microsecond(fraction, length)


def fractions_rounded_otherwise(dice, length, count):
    """The first that the dice find, all beside a half."""
    found = []
    while len(found) < count:
        found += [fraction for fraction in fractions_beside_half(dice.below(length), length) if is_rounded_otherwise(fraction, length)]
    return found[:count]


def microseconds_of_day(length):
    """The first, the middle, and those about the last two seconds."""
    last = length - SECOND
    return 0, 1, 2, length // 2 - 1, length // 2, last - SECOND, last - 2, last - 1, last, last + 1, length - 2, length - 1


def month_at_edge(dice, table):
    """A month with a step (where the table has one) or the first beyond the vouched one."""
    if table.vouched_month is not None and dice.chance(0.4):
        return first_beyond(table)
    return dice.pick(list(table.steps) or [6])


def length_at(table, scale, midnight):
    """The microseconds of the day that begins so; 86,400 seconds where it is no day of the scale."""
    if not table.is_good or not FIRST_MIDNIGHT <= midnight <= LAST_MIDNIGHT:
        return DAY
    return second.length_of_day(table, scale, int(midnight - FIRST_MIDNIGHT))


def last_midnight_before(month):
    return FIRST_MIDNIGHT + second.FIRST_DAY[month] - 1


def pair_line(scale, midnight, fraction):
    return call('read_julian', scale, bits_word(midnight), bits_word(fraction))


def pair_at_edge(dice, table, scale):
    """On the day before such a month, about its last two seconds."""
    midnight = last_midnight_before(month_at_edge(dice, table))
    length = length_at(table, scale, midnight)
    boundary = length - dice.pick((2, 1, 1, 0)) * SECOND
    if dice.chance(0.5):
        fraction = dice.pick(fractions_beside_half(boundary - 1, length) + fractions_of_microsecond(boundary, length))
    else:
        fraction = fractions_of_microsecond(boundary + dice.between(-SECOND, SECOND), length)[1]
    return midnight, min(fraction, beside(1.0, -1))


def random_pair(dice, table, scale):
    if table.is_good and dice.chance(0.3):
        return pair_at_edge(dice, table, scale)
    midnight = random_midnight(dice, table)
    return midnight, random_fraction(dice, length_at(table, scale, midnight))


def random_midnight(dice, table):
    kind = dice.weighted(((35, 'edge'), (25, 'any'), (15, 'ends'), (15, 'list'), (6, 'half'), (4, 'bits')))
    table = edges_of(table)
    if kind == 'edge':
        return FIRST_MIDNIGHT + second.FIRST_DAY[month_at_edge(dice, table)] - dice.pick((1, 1, 1, 0, 2))
    if kind == 'ends':
        return dice.pick((FIRST_MIDNIGHT, LAST_MIDNIGHT)) + dice.pick((-1, 0, 0, 0, 1, 0.5))
    if kind == 'list':
        return dice.pick(MIDNIGHTS)
    if kind == 'half':
        return dice.pick((1, -1)) * (float(dice.below(2**dice.between(1, 52))) + dice.pick((0, 0.5, 0.5, 0.25)))
    if kind == 'bits':
        return double_of_bits(dice.bits64())
    return FIRST_MIDNIGHT + dice.below(second.END_OF_DAYS)


def random_fraction(dice, length):
    kind = dice.weighted(((20, 'microsecond'), (20, 'half'), (15, 'tie'), (15, 'edge'), (15, 'list'), (12, 'any'), (3, 'bits')))
    microsecond = dice.pick(microseconds_of_day(length)) if dice.chance(0.5) else dice.below(length)
    if kind == 'microsecond':
        return dice.pick(fractions_of_microsecond(microsecond, length))
    if kind == 'half':
        return dice.pick(fractions_beside_half(microsecond, length))
    if kind == 'tie':
        return beside(tie(2 * dice.below(parts_of_ties(length) // 2) + 1, length), dice.pick((-1, 0, 0, 1)))
    if kind == 'edge':
        return beside(dice.pick(((length - SECOND) / length, (length - 2 * SECOND) / length, 1.0, 0.5)), dice.between(-40_000, 40_000))
    if kind == 'list':
        return dice.pick(FRACTIONS_OF_KINDS)
    return dice.random() if kind == 'any' else double_of_bits(dice.bits64())


# ---------------------------------------------------------------------------
# Lines of the protocol

LONG_LINE_SIZES = (2_048, 2_049, 4_096, 4_097)
LONG_LINES = (  # each of any size: a good call made long by leading zeros, a long file and text, and no calls
    lambda size: 'tick 1972 1 1 0 0 ' + '7'.rjust(size - 18, '0'),
    lambda size: 'stamp_of -' + '5'.rjust(size - 12, '0') + ' 1',
    lambda size: ('read_block ' if size % 2 == 1 else 'read_block -').ljust(size, '0'),
    lambda size: ('read_new_block ' if size % 2 == 1 else 'read_new_block -').ljust(size, '0'),
    lambda size: ('renew ' if size % 2 == 0 else 'renew -').ljust(size - 4, '0') + ' 0 8',
    lambda size: ('revert ' if size % 2 == 0 else 'revert -').ljust(size - 3, '0') + ' 08',
    lambda size: ('read_kernel ' if size % 2 == 0 else 'read_kernel -').ljust(size, '3'),
    lambda size: ('read_cards ' if size % 2 == 1 else 'read_cards -').ljust(size, '3'),
    lambda size: ('read_text 0 ' if size % 2 == 0 else 'read_text 00 ').ljust(size, '3'),
    lambda size: 'start'.ljust(size),
    lambda size: 'x' * size,
)


def long_lines():
    """Lines longer than most, and one that is too long."""
    for size in LONG_LINE_SIZES:
        for line in LONG_LINES:
            yield line(size)
    yield LONG_LINES[0](LONGEST_LINE + 1)


def random_long_line(dice):
    return dice.pick(LONG_LINES)(dice.pick((*LONG_LINE_SIZES, LONGEST_LINE, LONGEST_LINE + 1)))


GOOD_LINES = (
    'table 2 2 0 10 6 11', 'read_block 030C0c', 'read_block -', 'write_block 29', 'read_kernel 5C5c', 'write_kernel 60', 'read_cards 2a2A',
    'write_cards 162', 'read_new_block 000D030c0C', 'write_new_block 31', 'renew 030C0c 13 6', 'revert 000D030c0C 4',
    'instant_of 0 1972 6 30 23 59 60 250000',
    'stamp_of -867931190000000 0', 'read_text 0 313937322d30372d30315430303a30303a3030', 'read_text 1 -', 'write_text 0 0 1 3 23',
    'write_julian 0 1', 'read_julian 1 4142b42c40000000 3fe0000000000000', 'start', 'tick 1972 6 30 23 59 59', 'vouch 541',
)


OTHER_WORDS = ('', '-', '--1', '+1', '-1', '-0', '00', '01', '0x1', '1.0', '1e3', 'a', 'A5', 'abc', '1_0', '-00', '-01',
               '64', '65', str(MOST_ROOM), str(MOST_ROOM + 1),
               str(2**31 - 1), str(2**31), str(-2**31), str(-2**31 - 1), str(2**32 - 1), str(2**32), str(2**63 - 1), str(2**63),
               str(-2**63), str(-2**63 - 1), str(2**64 - 1), str(2**64), '9' * 40, '0' * 40 + '1',
               '3FE0000000000000', '3fe000000000000', '3fe00000000000000', '3fe000000000000g', '-fe0000000000000')


def damaged_lines(line):
    """A good line with wrong blanks, words too many or too few, and its first, second and last word replaced."""
    words = line.split(' ')
    yield from (' ' + line, line + ' ', line.upper(), line.capitalize(), line + ' 0', line + ' -', line + ' x', '\t' + line)
    yield from (line + '\r', line + '\t', line.replace(' ', '\t'), line.replace(' ', '  ', 1), line + '\x00')
    for place in range(len(words)):
        yield ' '.join(words[:place])
        yield ' '.join(words[:place] + words[place + 1:])
    for place in sorted({1, 2, len(words) - 1} & set(range(1, len(words)))):
        for other in OTHER_WORDS:
            yield ' '.join(words[:place] + [other] + words[place + 1:])


OTHER_LINES = ('', ' ', '-', '?', '#', 'ok', '\r', 'starts', 'star', 'START', 'table', 'table 1', 'table 0 0', 'table 1 0', 'table 1 1 0',
               'table 1 1 0 10', 'table 1 1 0 10 0', 'table 18446744073709551615 0', 'table 18446744073709551616 0', 'table -1 0',
               'table 1 65' + ' 0 0' * 65, 'table 1 64 0 10' + ' 0 0' * 63, 'table 1 -1', 'table 2 2 0 10 4294967295 2147483647',
               'table 2 2 0 10 4294967296 11', 'table 2 2 0 10 6 2147483648', 'table 2 2 0 10 6 -2147483648',
               'table 2 2 0 10 6 -2147483649', 'table 2 2 0 10 -6 11', 'table 02 02 00 010 06 0011', 'table 2 2 -0 10 6 11',
               'tick 1972 1 1 0 0 -0', 'read_block 0', 'read_block 0g', 'read_block 01 ', 'read_block 0 1', 'read_block --',
               'read_block -01', 'write_block 8192', 'write_block 8193', 'write_block -1', 'write_block 18446744073709551616',
               'write_text 0 0 0 0 8193', 'write_text 0 0 0 0 0', 'write_text 0 0 0 0 8192', 'read_kernel', 'read_kernel -',
               'read_kernel 5', 'read_kernel 5g', 'read_kernel -5c', 'write_kernel 8192', 'write_kernel 8193', 'write_kernel -1',
               'write_kernel', 'read_cards', 'read_cards -', 'read_cards 2', 'read_cards 2g', 'read_cards -2a', 'write_cards 8192',
               'write_cards 8193', 'write_cards -1', 'write_cards', 'read_card 2a', 'write_card 81', 'read_new_block',
               'read_new_block -', 'read_new_block 0', 'read_new_block 0g', 'read_new_block -00', 'read_new_block 00 01',
               'read_newblock 00', 'write_new_block', 'write_new_block 8192', 'write_new_block 8193', 'write_new_block -1', 'renew',
               'renew 01', 'renew 01 0', 'renew - 0 4', 'renew 0 0 4', 'renew 01 0 8192', 'renew 01 0 8193', 'renew 01 0 -1',
               'renew 01 -1 4', 'renew 01 -0 04', 'renew 01 4294967295 4', 'renew 01 4294967296 4', 'renew 01 0 4 0', 'renewed 01 0 4',
               'revert', 'revert 000001', 'revert - 1', 'revert 000001 8192', 'revert 000001 8193', 'revert 000001 -1', 'revert 000001 0 1',
               'revert 00000 1', 'revert 00 0001 1', 'reverted 000001 1', 'vouch', 'vouch ', 'vouch x', 'vouch 1 2', 'vouch -1',
               'vouch 4294967295', 'vouch 4294967296', 'vouched 1', 'vouch 00541', 'vouch -0', 'café',
               'read_text 0 é', '\xff\xfe', 'start\x0b', 'start #')


# ---------------------------------------------------------------------------
# Random lines

class Lines:
    """Random lines; it remembers the table that they have set."""

    WEIGHTS = ((4, 'table'), (5, 'vouch'), (10, 'read_block'), (3, 'write_block'), (9, 'read_new_block'),
               (3, 'write_new_block'), (8, 'renew'), (6, 'revert'), (14, 'read_kernel'), (2, 'write_kernel'),
               (14, 'read_cards'), (3, 'write_cards'),
               (12, 'instant_of'), (14, 'stamp_of'), (18, 'read_text'), (14, 'write_text'), (8, 'write_julian'), (14, 'read_julian'),
               (1, 'start'), (12, 'tick'), (5, 'damaged'))

    def __init__(self, seed):
        self.dice = Dice(seed)
        self.table = BULLETIN

    def next_line(self):
        if not self.table.is_good and self.dice.chance(0.2):
            return self.line_table()
        return getattr(self, 'line_' + self.dice.weighted(self.WEIGHTS))()

    def line_table(self):
        kind = self.dice.weighted(((2, 'bulletin'), (1, 'one step'), (5, 'random'), (2, 'malformed')))
        if kind == 'bulletin':
            self.table = BULLETIN
        elif kind == 'one step':
            self.table = self.dice.pick((T, N))
        else:
            self.table = random_table(self.dice) if kind == 'random' else random_malformed_table(self.dice)
        return table_line(self.table, self.dice.pick((None, None, self.table.count % 65, PLACES)))

    def line_vouch(self):
        number = random_vouched_number(self.dice, self.table)
        self.table = self.table.vouched_to(number)
        return vouch_line(number)

    def hex_in_any_case(self, data):
        word = hex_word(data)
        return word.upper() if self.dice.chance(0.2) else word

    def line_read_block(self):
        return call('read_block', self.hex_in_any_case(random_either_block(self.dice, self.table)))

    def line_write_block(self):
        return call('write_block', random_room(self.dice, len(second.block_of_table(edges_of(self.table)))))

    def line_read_new_block(self):
        return call('read_new_block', self.hex_in_any_case(random_new_block(self.dice, self.table)))

    def line_write_new_block(self):
        return call('write_new_block', random_room(self.dice, len(second.new_block_of_table(edges_of(self.table)))))

    def line_renew(self):
        block = random_either_block(self.dice, self.table)
        table = table_read(second.read_block, block, edges_of(self.table))
        number = random_vouched_number(self.dice, table)
        room = random_room(self.dice, len(second.new_block_of_table(table.vouched_to(number))))
        return call('renew', self.hex_in_any_case(block), number, room)

    def line_revert(self):
        block = random_new_block(self.dice, self.table)
        table = table_read(second.read_new_block, block, edges_of(self.table))
        return call('revert', self.hex_in_any_case(block), random_room(self.dice, len(second.block_of_table(table))))

    def line_read_kernel(self):
        return call('read_kernel', hex_word(random_kernel(self.dice, self.table)))

    def line_write_kernel(self):
        return call('write_kernel', random_room(self.dice, len(second.kernel_of_table(edges_of(self.table)))))

    def line_read_cards(self):
        return cards_line(random_cards(self.dice, self.table))

    def line_write_cards(self):
        return call('write_cards', random_room(self.dice, size_of_cards(edges_of(self.table))))

    def line_instant_of(self):
        microsecond = self.dice.pick((SECOND, SECOND + 1, 2**32 - 1)) if self.dice.chance(0.04) else random_microsecond(self.dice)
        return call('instant_of', random_scale(self.dice), *any_label(self.dice, self.table), microsecond)

    def line_stamp_of(self):
        return call('stamp_of', random_instant(self.dice, self.table), random_scale(self.dice))

    def line_read_text(self):
        return call('read_text', random_scale(self.dice), text_word(random_text(self.dice, self.table)))

    def line_write_text(self):
        dice = self.dice
        picture = dice.pick((3, 4, 2**31, 2**32 - 1)) if dice.chance(0.03) else dice.pick(PICTURES)
        digits = dice.pick((7, 8, 2**31, 2**32 - 1)) if dice.chance(0.03) else dice.below(7)
        needed = LENGTHS[picture % 3] + (digits % 7 + 1 if digits else 0)
        return call('write_text', random_instant(dice, self.table), picture, random_scale(dice), digits, random_room(dice, needed))

    def line_write_julian(self):
        return call('write_julian', random_instant(self.dice, self.table), random_scale(self.dice))

    def line_read_julian(self):
        scale = random_scale(self.dice)
        return pair_line(scale, *random_pair(self.dice, self.table, scale))

    def line_start(self):
        return 'start'

    def line_tick(self):
        return call('tick', *any_label(self.dice, self.table))

    def line_damaged(self):
        line = self.any_damaged_line()
        _, self.table = second.answer_line(self.table, line.encode('latin-1'))  # it may still set a table or a month
        return line

    def any_damaged_line(self):
        kind = self.dice.below(20)
        if kind == 0:
            return self.dice.pick(OTHER_LINES)
        if kind == 1 and self.dice.chance(0.3):
            return random_long_line(self.dice)
        if kind < 10:
            return self.damaged_at_place(self.dice.pick(GOOD_LINES))
        return self.damaged_word(self.dice.pick(GOOD_LINES))

    def damaged_at_place(self, line):
        place = self.dice.below(len(line))
        character = self.dice.pick((' ', '0', '-', '9', 'g', '\r', '\x00', '\xff', chr(self.dice.below(256)))).replace('\n', '')
        return line[:place] + character + line[place + self.dice.below(2):]

    def damaged_word(self, line):
        if self.dice.chance(0.5):
            return self.dice.pick(list(damaged_lines(line)))
        words = line.split(' ')
        words[self.dice.below(len(words))] = self.dice.pick(OTHER_WORDS)
        return ' '.join(words)


def random_lines(seed, count):
    lines = Lines(seed)
    for _ in range(count):
        yield lines.next_line()


# ---------------------------------------------------------------------------
# The stored input

def text_line(scale, text):
    return call('read_text', scale, text_word(text))


def worked_on_the_night_desk():
    """The scope's rows, in its order, each with its row as a heading."""
    rows = (
        ('P: B, UTC 1972-01-01T00:00:00 gives -883,655,990', BULLETIN, text_line(UTC, '1972-01-01T00:00:00')),
        ('P: T, UTC 1972-06-30T23:59:60 gives -867,931,190', T, text_line(UTC, '1972-06-30T23:59:60')),
        ('P: T, UTC 1972-07-01T00:00:00 gives -867,931,189', T, text_line(UTC, '1972-07-01T00:00:00')),
        ('P: N, UTC 1972-06-30T23:59:58 gives -867,931,192', N, text_line(UTC, '1972-06-30T23:59:58')),
        ('P: N, UTC 1972-07-01T00:00:00 gives -867,931,191', N, text_line(UTC, '1972-07-01T00:00:00')),
        ('P: N, UTC 1972-06-30T23:59:59 gives refusal 6', N, text_line(UTC, '1972-06-30T23:59:59')),
        ('P: B, UTC 2016-366T23:59:60 gives 536,500,836', BULLETIN, text_line(UTC, '2016-366T23:59:60')),
        ('P: B, UTC 2017-01-01T00:00:00 gives 536,500,837', BULLETIN, text_line(UTC, '2017-01-01T00:00:00')),
        ('P: B, UTC 1986 APR 12 16:31:09.814 gives -433,020,507.186', BULLETIN, text_line(UTC, '1986 APR 12 16:31:09.814')),
        ('P: TAI 2016-12-31T23:59:60 gives refusal 5', BULLETIN, text_line(TAI, '2016-12-31T23:59:60')),
        ('P: block 81 00 gives 10 at 0', BULLETIN, 'read_block 8100'),
        ('P: block 01 00 gives 12 at 1', BULLETIN, 'read_block 0100'),
        ('P: block 02 01 gives 11 at 1', BULLETIN, 'read_block 0201'),
        ('P: empty block gives 9 at 0', BULLETIN, 'read_block -'),
        ('P: block 41 gives 11 at 0', BULLETIN, 'read_block 41'),
        ('instant -1, TAI, no digits gives 2000-01-01T11:59:59', BULLETIN, 'write_text -1 0 1 0 19'),
        ('TDT 1972-01-01T00:00:00 is accepted', BULLETIN, text_line(TDT, '1972-01-01T00:00:00')),
        ('and written on TAI: refusal 7', BULLETIN, call('write_text', ends_of_scale(BULLETIN, TDT)[0], 0, TAI, 0, 19)),
        ('instant 0, TAI Julian date is 2451544.5 and 0.5', BULLETIN, 'write_julian 0 1'),
        ('B, 536,500,836.25, UTC Julian date is 2457753.5 and 3fefffedcbb7564f', BULLETIN, 'write_julian 536500836250000 0'),
        ('N, UTC Julian date 2441498.5 and 1/128 gives -868,016,915.007812', N, 'read_julian 0 4142a08d40000000 3f80000000000000'),
        ('block 03 0C 0C is T', BULLETIN, 'read_block 030C0C'),
        ('block 02 0D is N', BULLETIN, 'read_block 020D'),
        ('the clock starts', BULLETIN, 'start'),
    )
    yield from ('# B, the table that the program starts with, takes 29 bytes', 'write_block 29')
    table = BULLETIN
    for heading, wanted, line in rows:
        yield '# ' + heading
        if wanted is not table:
            table = wanted
            yield table_line(table)
        yield line
    yield from (table_line(T), 'tick 1972 6 30 23 59 59', 'tick 1972 6 30 23 59 60', table_line(BULLETIN))


def lines_of_instant(table, instant, scales=SCALES, pictures=PICTURES, digits=0):
    """All that is asked about an instant, on these scales and in these pictures, out and back."""
    for scale in scales:
        yield call('stamp_of', instant, scale)
        yield call('write_julian', instant, scale)
        for picture in pictures:
            yield call('write_text', instant, picture, scale, digits, LENGTHS[picture] + digits + (digits > 0))
        try:
            stamp = second.stamp_of(table, instant, scale)
        except second.Refused:
            continue
        yield call('instant_of', *stamp[:1], *stamp.label, stamp.microsecond)
        for picture in pictures:
            text = second.text_of_fields(picture, stamp.label, stamp.microsecond, digits)
            yield text_line(scale, text.decode())
        yield pair_line(scale, *second.write_julian(table, instant, scale))


def bulletin_c():
    """Each entry's added second, the second before and the second after, on all scales and in all pictures."""
    yield table_line(BULLETIN)
    yield from ('# 1972-01-01, the first entry', 'start', 'tick 1972 1 1 0 0 0')
    yield from lines_of_instant(BULLETIN, ends_of_scale(BULLETIN, UTC)[0])
    for year, month, offset in BULLETIN_C[1:]:
        number = second.month_number(year, month)
        yield f'# {year}-{month:02}-01, TAI-UTC {offset}'
        for label in labels_of_night(number, 1)[1:]:
            yield call('tick', *label)
            yield from lines_of_instant(BULLETIN, second.instant_of(BULLETIN, UTC, label, 0))
    yield '# the dates of the sources that are one day early'
    for year in (1972, 1983, 1985):
        yield call('instant_of', UTC, year, 6, 29, 23, 59, 60, 0)
        yield call('instant_of', UTC, year, 6, 30, 0, 0, 0, 0)


def ends_of_scales():
    for heading, table, scales in (
            ('B', BULLETIN, SCALES),
            ('63 seconds added', table_of_steps(neighbours(1, 63), [1] * 63), (UTC,)),
            ('63 seconds taken out', table_of_steps(neighbours(1, 63), [-1] * 63), (UTC,)),
            ('a second added on 30 November 9999', table_of_one_step(LAST_MONTH, 1), (UTC,))):
        yield f'# ends of each scale: {heading}'
        yield table_line(table)
        for instant in sorted({end + near for scale in scales for end in ends_of_scale(table, scale) for near in (-1, 0, 1)}):
            yield from lines_of_instant(table, instant, scales, pictures=(0,), digits=6)
    yield '# ends of 64 bits'
    for instant in INSTANTS_AT_64_BITS:
        for scale in SCALES:
            yield call('stamp_of', instant, scale)
            yield call('write_text', instant, 0, scale, 6, 0)
            yield call('write_julian', instant, scale)


def calendar():
    yield table_line(BULLETIN)
    for year in YEARS:
        for month in (2, 12):
            last = second.days_in_month(year, month)
            yield call('tick', year, month, last, 23, 59, 59)
            yield call('tick', year, month, last + 1, 0, 0, 0)
            for day in (last, last + 1):
                yield text_line(TAI, f'{year:04}-{month:02}-{day:02}T12:00:00')
        for day in (0, 1, 59, 60, 365, 366, 367):
            yield text_line(GPS, f'{year:04}-{day:03}T00:00:00.5')
        noon = second.instant_of(BULLETIN, TDT, Label(year, 3, 1, 12, 0, 0), 1)
        for before in (0, 1, 2):
            yield call('write_text', noon - before * DAY, 1, TDT, 6, 24)
    for month in range(1, 13):
        yield call('tick', 2023, month, second.days_in_month(2023, month), 23, 59, 59)
        yield call('tick', 2023, month, second.days_in_month(2023, month) + 1, 23, 59, 59)
        yield text_line(TAI, f'2024 {second.MONTH_NAMES[month - 1].decode()} 01 00:00:00')
    yield '# each field in turn, and the order of the refusals'
    for field, values in WRONG.items():
        for value in values:
            for label in (Label(2016, 12, 31, 23, 59, 59), Label(1987, 4, 12, 16, 31, 12)):
                yield call('instant_of', UTC, *label._replace(**{field: value}), 0)
                yield call('instant_of', GPS, *label._replace(**{field: value}), 999_999)
                yield call('tick', *label._replace(**{field: value}))
    for number in SCALE_NUMBERS:
        for label in (FIRST_LABEL, Label(0, 0, 0, 99, 99, 99)):
            yield call('instant_of', number, *label, SECOND)
        yield call('stamp_of', 2**63 - 1, number)
        yield call('read_text', number, '-')
        yield call('write_text', 2**63 - 1, 0, number, 0, 0)
        yield call('write_julian', 2**63 - 1, number)
        yield pair_line(number, NOT_FINITE[2], 1.0)
    for text in ('1971-13-32T24:60:61', '1972-13-32T24:60:61', '1972-366T24:60:61', '1973-366T24:60:61', '1971-000T24:00:00',
                 '1972-06-30T24:59:60',
                 '1972-06-30T23:59:61', '1972-06-30T12:30:60', '1972-06-29T23:59:60', '9999-12-31T23:59:60', '9999-12-31T23:59:59.999999',
                 '1971-12-31T23:59:60', '1971-12-31T23:59:59', '0000-00-00T00:00:00', '9999-366T00:00:00', '1972-06-30T23:59:60.999999'):
        for scale in SCALES:
            yield text_line(scale, text)
    for label in ((9999, 12, 31, 23, 59, 58), (9999, 12, 31, 23, 59, 59), (9999, 12, 31, 23, 59, 60),
                  (10000, 1, 1, 0, 0, 0), (1971, 12, 31, 23, 59, 60)):
        yield call('tick', *label)


def one_of_each_call(scale):
    """Calls with nothing else wrong, then with all else wrong: the order of 8, 11 and the rest."""
    yield from ('start', 'tick 1972 6 30 23 59 59', 'tick 0 0 0 99 99 99', 'write_block 256', 'write_block 0', 'write_kernel 256',
                'write_kernel 0', 'write_cards 256', 'write_cards 0', 'write_new_block 256', 'write_new_block 0')
    yield call('instant_of', scale, 1972, 6, 30, 23, 59, 59, 0)
    yield call('instant_of', scale, 0, 0, 0, 99, 99, 99, SECOND)
    yield call('stamp_of', -867_931_190_000_000, scale)
    yield call('stamp_of', -2**63, scale)
    yield text_line(scale, '1972-06-30T23:59:59')
    yield text_line(scale, '')
    yield call('write_text', -867_931_190_000_000, 0, scale, 6, 26)
    yield call('write_text', -2**63, 0, scale, 6, 0)
    yield call('write_julian', -867_931_190_000_000, scale)
    yield pair_line(scale, 2441498.5, 0.5)
    yield pair_line(scale, 0.0, 1.0)


def tables():
    for heading, table in good_tables():
        yield '# ' + heading
        yield table_line(table)
        size = len(second.block_of_table(table))
        yield from (call('write_block', size), call('write_block', size - 1), call('read_block', hex_word(second.block_of_table(table))))
        yield from new_block_and_back(table)
        kernel = second.kernel_of_table(table)
        yield from (call('write_kernel', len(kernel)), call('write_kernel', len(kernel) - 1), kernel_line(kernel))
        yield call('write_cards', size_of_cards(table))
        if table.used_months[-1] <= LAST_MONTH_OF_CARDS:
            yield from (call('write_cards', size_of_cards(table) - 1), cards_line(second.cards_of_table(table)))
        months = list(table.steps)
        for month in sorted(set(months[:2] + months[-1:])):
            for label in labels_of_night(month, table.steps[month]):
                yield call('tick', *label)
                yield call('instant_of', UTC, *label, 250_000)
        for place in sorted({0, 1, table.count - 1} & set(range(table.count))):
            for near in (-2, -1, 0):
                yield call('stamp_of', (table.held_from[place] + near) * SECOND + 750_000, UTC)
    yield '# malformed tables'
    for table in (T, table_of_steps(neighbours(1, 63), [1] * 63)):
        for heading, malformed in malformed_tables(table):
            yield '# malformed: ' + heading
            yield table_line(malformed)
            yield from ('start', 'tick 1972 6 30 23 59 59', 'write_block 256', 'write_kernel 0', 'write_cards 243', 'write_new_block 6')
            yield call('stamp_of', 0, TAI)
    for malformed in (changed(T, count=0), changed(N, offset=(1, 12))):
        for scale in (UTC, GPS, 4):
            yield table_line(malformed)
            yield from one_of_each_call(scale)
    yield table_line(BULLETIN)


def blocks():
    for block in blocks_of_limits():
        yield call('read_block', hex_word(block))
    yield "# T's block and B's block damaged at each place"
    for table in (T, BULLETIN):
        for block in damaged_blocks(second.block_of_table(table)):
            yield call('read_block', hex_word(block))
    yield call('read_block', hex_word(b'\x40' + b'\x02' * 63))
    yield call('read_block', hex_word(b'\x40' + b'\xf4\x17' * 63))
    yield call('read_block', hex_word(b'\x40' + b'\xf5\x17' * 63 + b'\x00'))
    yield call('read_block', hex_word(b'\x40' + b'\xf8\x17' * 63))


def new_block_and_back(table):
    """A good table's new block written, read and moved; both moves with a byte too few."""
    old, new = second.block_of_table(table), second.new_block_of_table(table)
    yield from (call('write_new_block', len(new)), call('write_new_block', len(new) - 1), call('read_new_block', hex_word(new)))
    yield from (call('renew', hex_word(old), 0, room) for room in (len(new), len(new) - 1))
    yield from (call('revert', hex_word(new), room) for room in (len(old), len(old) - 1))


def rows_of_new_blocks():
    """Bulletin C's with no month, to January 2017 and to December 9999; then refusals, each with its place."""
    for number in (0, 541, LAST_MONTH + 1):
        new = second.new_block_of_table(BULLETIN.vouched_to(number))
        yield from (table_line(BULLETIN), vouch_line(number), call('write_new_block', len(new)), call('read_new_block', hex_word(new)))
    for block in ('-', '00', '0000', '00f1f00501', '000c030c0c', '000c030c0c00', '008d00030c0c', '8000', '030c0c', '000d030c0c'):
        yield from (call('read_new_block', block), call('read_block', block))
    yield from ('renew 030c0c 12 5', 'renew 030c0c 13 5', 'renew 000d030c0c 0 7')
    yield from ('revert 000d030c0c 3', 'revert 000c030c0c 3', 'revert 030c0c 3')


def months_about_tables():
    """Each limit of the month under good tables, written and moved, in rooms about the size and in none."""
    for table in (table_of_steps([], []), T, table_of_one_step(LAST_MONTH, -1), BULLETIN, table_of_steps(neighbours(1, 63), [-1] * 63),
                  table_of_longest_block()):
        old = second.block_of_table(table)
        yield table_line(table)
        for number in vouched_numbers(table):
            new = numbers(0, number) + old
            yield vouch_line(number)
            for room in (len(new) - 1, len(new), len(new) + 1):
                yield from (call('write_new_block', room), call('renew', hex_word(old), number, room))
            yield from (call('revert', hex_word(new), room) for room in (len(old) - 1, len(old), len(old) + 1))
            yield from ('write_new_block 0', call('renew', hex_word(old), number, 0), call('revert', hex_word(new), 0))
    yield table_line(BULLETIN)


def moves_of_faults():
    """Blocks with faults and good ones in enough room, and T's also with a month that it cannot carry and no room."""
    for block in blocks_of_limits():
        yield call('renew', hex_word(block), 0, len(block) + len(OPENING))
    for block in damaged_blocks(second.block_of_table(T)):
        yield call('renew', hex_word(block), 12, 0)
        yield call('renew', hex_word(block), 13, 5)
    for block in new_blocks_of_limits():
        yield call('revert', hex_word(block), max(0, len(block) - len(OPENING)))


def new_blocks():
    yield from rows_of_new_blocks()
    yield '# openings, and old blocks behind one'
    yield from (call('read_new_block', hex_word(block)) for block in new_blocks_of_limits())
    yield from (call('read_new_block', hex_word(OPENING + block)) for block in blocks_of_limits())
    yield "# T's and B's damaged at each place"
    for table in (T.vouched_to(13), T.vouched_to(LAST_MONTH + 1), BULLETIN.vouched_to(541)):
        for block in damaged_blocks(second.new_block_of_table(table)):
            yield call('read_new_block', hex_word(block))
    yield '# months about the last entry, and room'
    yield from months_about_tables()
    yield '# moves of blocks with faults'
    yield from moves_of_faults()


def kernel_line(file):
    return call('read_kernel', hex_word(file))


def kernels():
    for file, place in BAD_KERNELS:
        yield f'# 14 at {place}: {file!r}'
        yield kernel_line(file)
    yield '# good'
    yield from map(kernel_line, GOOD_KERNELS)
    yield '# as it is published, and as another system might write it'
    for file in (published_kernel(), foreign_kernel()):
        yield kernel_line(file)
        yield kernel_line(file + OURS)
    yield '# each part of the grammar'
    yield from map(kernel_line, kernels_of_grammar())
    yield '# pairs that are no table, and many'
    yield from map(kernel_line, kernels_of_tables())
    yield '# a small kernel damaged at each place'
    yield from map(kernel_line, damaged_kernels(SMALL_KERNEL))
    yield '# at the limit and past it'
    yield from map(kernel_line, kernels_of_limit())
    yield '# written'
    yield table_line(BULLETIN)
    for room in (0, 1_031, 1_032, 1_033, MOST_ROOM, MOST_ROOM + 1):
        yield call('write_kernel', room)


def cards_line(file):
    return call('read_cards', hex_word(file))


def size_of_cards(table):
    return (second.CARD_BYTES + 1) * table.count


def written_cards():
    """Rooms about each size; the last year of cards and the next; months that the table is vouched for."""
    def down(months):
        return table_of_steps(months, [-1] * len(months))
    yield table_line(BULLETIN)
    for room in (0, 1, 80, 81, 2_267, 2_268, 2_269, MOST_ROOM - 1, MOST_ROOM, MOST_ROOM + 1):
        yield call('write_cards', room)
    last = LAST_MONTH_OF_CARDS
    for table in (table_of_steps([], []), table_of_one_step(last, 1), table_of_one_step(last, -1), down(neighbours(1, 63)),
                  down(neighbours(last - 62, 63)), table_of_steps(neighbours(last - 62, 63), [1] * 63)):
        yield table_line(table)
        size = size_of_cards(table)
        yield from (call('write_cards', room) for room in (0, size - 81, size - 1, size, size + 1))
    for table in (table_of_one_step(last + 1, 1), table_of_steps((last, last + 1), (1, -1)), table_of_one_step(LAST_MONTH, -1),
                  down(neighbours(last - 61, 63))):
        yield table_line(table)
        yield from (call('write_cards', room) for room in (0, 81, size_of_cards(table), MOST_ROOM, MOST_ROOM + 1))
    yield '# vouched'
    for table in (T, table_of_one_step(last, 1), table_of_one_step(last + 1, 1)):
        yield table_line(table)
        for number in vouched_numbers(table):
            yield from (vouch_line(number), call('write_cards', size_of_cards(table)))
        yield from ('write_cards 1', vouch_line(0), 'write_cards 1')
    yield '# not accepted, and with an entry after the last year of cards'
    for _, malformed in list(malformed_tables(table_of_one_step(last + 1, -1)))[::4]:
        yield from (table_line(malformed), 'write_cards 162', 'write_cards 0')
    yield table_line(BULLETIN)


PARTS_OF_CARDS = (
    ('as the description of the cards has them', cards_of_source),
    ("Bulletin C's, whole and cut", cards_of_bulletin),
    ('each field', cards_of_fields),
    ('years and days', cards_of_dates),
    ('order', cards_of_order),
    ('many, and too many', cards_of_counts),
    ('good cards that are no table', cards_of_tables),
    ('lines that are no cards', cards_of_lines),
)


def cards():
    for heading, part in PARTS_OF_CARDS:
        yield '# cards: ' + heading
        yield from map(cards_line, part())
    yield '# a card damaged at each place, behind another'
    yield from (cards_line(cards_file(FIRST_CARD, line)) for line in damaged_cards(SECOND_CARD))
    yield '# cards written'
    yield from written_cards()


def texts():
    yield table_line(BULLETIN)
    label = Label(2016, 12, 31, 23, 59, 60)
    for picture in PICTURES:
        for decimals in DECIMALS + WRONG_DECIMALS:
            yield text_line(UTC, text_of(picture, label, decimals))
        for text in damaged_texts(text_of(picture, label, '.814')):
            yield text_line(UTC, text)
    for name in WRONG_NAMES:
        yield text_line(UTC, text_of(2, label, '', name=name))
    for text in ('', '.', 'T', '1986 APR  5 16:31:09', '1986 APR 5 16:31:09', '1986-4-12T16:31:09',
                 '1986 12 APR 16:31:09', '1986-APR-12T16:31:09'):
        yield text_line(UTC, text)


def buffers():
    instant = second.instant_of(BULLETIN, UTC, Label(2016, 12, 31, 23, 59, 60), 999_999)
    for picture in PICTURES:
        for digits in range(7):
            needed = LENGTHS[picture] + digits + (digits > 0)
            for room in (needed - 1, needed, needed + 1):
                yield call('write_text', instant, picture, UTC, digits, room)
    for picture, scale, digits in ((3, 0, 0), (0, 4, 0), (0, 0, 7), (3, 4, 7), (2**32 - 1, 0, 0), (0, 0, 2**32 - 1)):
        for room in (0, 26):
            yield call('write_text', instant, picture, scale, digits, room)
    for room in (0, 1, 28, 29, 30, 256, 257, MOST_ROOM, MOST_ROOM + 1):
        yield call('write_block', room)
    block, new = (hex_word(part(BULLETIN)) for part in (second.block_of_table, second.new_block_of_table))
    for room in (0, 1, 30, 31, 32, MOST_ROOM, MOST_ROOM + 1):
        yield from (call('write_new_block', room), call('renew', block, 0, room), call('revert', new, room))
    for room in (256, 257, MOST_ROOM, MOST_ROOM + 1):
        yield call('write_text', instant, 0, UTC, 6, room)
    for near in range(-3, 3):
        yield call('write_text', near, 0, TAI, 6, 26)
        yield call('write_text', near, 0, TAI, 3, 23)
        yield call('write_text', near, 0, UTC, 0, 19)


def doubles():
    yield table_line(N)
    for midnight in MIDNIGHTS:
        for fraction in (0.0, 0.5, 1.0):
            yield pair_line(TAI, midnight, fraction)
    taken_out = 2441498.5  # 1972-06-30, whose 23:59:59 N takes out
    for fraction in FRACTIONS_OF_KINDS:
        for midnight in (taken_out, LAST_MIDNIGHT, -0.5, NOT_FINITE[0]):
            yield pair_line(UTC, midnight, fraction)
    for scale, midnight in ((UTC, taken_out), (UTC, LAST_MIDNIGHT), (GPS, LAST_MIDNIGHT)):
        length = length_at(N, scale, midnight)
        for microsecond in microseconds_of_day(length):
            for fraction in fractions_beside_half(microsecond, length) + fractions_of_microsecond(microsecond, length):
                yield pair_line(scale, midnight, fraction)
    yield '# ties: odd parts of 2^14'
    for odd in (1, 3, 5, 7, 8_191, 8_193, 16_379, 16_381, 16_383):
        for steps in (-1, 0, 1):
            yield pair_line(TAI, 2451544.5, beside(tie(odd), steps))
    yield '# the pair of an added second'
    yield table_line(BULLETIN)
    added = second.instant_of(BULLETIN, UTC, Label(2016, 12, 31, 23, 59, 60), 250_000)
    for instant in (added - SECOND, added, added + SECOND):
        yield from lines_of_instant(BULLETIN, instant, scales=(UTC,), digits=2)


def rows_of_quasi_julian_dates():
    """The added second at the end of 2016, ties, and a fraction that a product of doubles takes for a microsecond more."""
    yield table_line(BULLETIN)
    for instant in (536_457_636_000_000, 536_500_836_250_000, 536_500_836_999_999, 536_500_837_250_000):
        yield from (call('write_julian', instant, UTC), pair_line(UTC, *second.write_julian(BULLETIN, instant, UTC)))
    for fraction in (1 / 128, float.fromhex('0x1.f8613e657d96fp-1')):
        yield pair_line(UTC, 2457753.5, fraction)
    yield from (table_line(N), pair_line(UTC, 2441498.5, 1 / 128))


def pairs_out_and_back(table, month, microseconds):
    """On the day before the month, by its microseconds."""
    day = Label(*day_before_month(month), 0, 0, 0)
    for microsecond in microseconds:
        instant = second.instant_of(table, UTC, day, 0) + microsecond
        yield from (call('write_julian', instant, UTC), pair_line(UTC, *second.write_julian(table, instant, UTC)))


def uneven_day(table, month):
    """The day before a step, of its own length: its ends and those of its neighbours, ties, and what rounds up to its end."""
    midnight = last_midnight_before(month)
    length = length_at(table, UTC, midnight)
    last = length - SECOND
    yield from pairs_out_and_back(table, month, (-1, 0, 1, length // 2, last - 1, last, last + 250_000, length - 1, length))
    for microsecond in (last, length - 1):
        for fraction in fractions_of_microsecond(microsecond, length)[::2]:
            yield pair_line(UTC, midnight, fraction)
    for odd in (1, 63, 65, 127):
        for steps in (-1, 0, 1):
            yield pair_line(UTC, midnight, beside(tie(odd, length), steps))
    for fraction in (tie(1), tie(16_383), *fractions_beside_half(length - 1, length), beside(1.0, -1),
                     *fractions_rounded_otherwise(Dice(month), length, 4)):
        yield pair_line(UTC, midnight, fraction)
    for fraction in (tie(1, length), beside(1.0, -1)):
        yield pair_line(TAI, midnight, fraction)


def uneven_days():
    down_and_up = table_of_steps(neighbours(1, 63), [STEPS['down and up'](i) for i in range(63)])
    up_and_down = table_of_steps(neighbours(LAST_MONTH - 62, 63), [STEPS['up and down'](i) for i in range(63)])
    for heading, table, months in (
            ('B', BULLETIN, (6, 540)), ('N', N, (6,)), ('neighbouring months from the first', down_and_up, (1, 2, 3)),
            ('neighbouring months to the last', up_and_down, (LAST_MONTH - 1, LAST_MONTH)),
            ('a second taken out on 30 November 9999', table_of_one_step(LAST_MONTH, -1), (LAST_MONTH,))):
        yield '# days before a step: ' + heading
        yield table_line(table)
        for month in months:
            yield from uneven_day(table, month)
        yield from (pair_line(UTC, LAST_MIDNIGHT, fraction) for fraction in (*fractions_beside_half(DAY - 1), beside(1.0, -1)))
    yield '# each added second of B'
    yield table_line(BULLETIN)
    for month in BULLETIN.steps:
        yield from pairs_out_and_back(BULLETIN, month, (DAY + 250_000, LONGER_DAY - 1))


def even_days():
    """UTC days beside those with a step have 86,400 seconds, and a table's last day too."""
    for table, month in ((BULLETIN, 540), (N, 6)):
        yield table_line(table)
        for midnight in (last_midnight_before(month) - 1, last_midnight_before(month) + 1):
            for odd in (1, 3, 8_191, 8_193, 16_383):
                for steps in (-1, 0, 1):
                    yield pair_line(UTC, midnight, beside(tie(odd), steps))
            for fraction in (tie(1, LONGER_DAY), beside(1.0, -1), *fractions_rounded_otherwise(Dice(month), DAY, 4)):
                for scale in (UTC, GPS):
                    yield pair_line(scale, midnight, fraction)


def refused_pairs():
    """8, 11, 13 and 7, one before the other, and no 6: every microsecond of a day is one of the table's."""
    for table in (BULLETIN, N, changed(N, count=0)):
        yield table_line(table)
        for scale in (UTC, 4):
            for midnight, fraction in (
                    (NOT_FINITE[2], 1.0), (2441499.0, 0.5), (2441498.5, 1.0), (2441498.5, double_of_bits(1 << 63 | 1)),
                    (2441498.5, NOT_FINITE[2]), (FIRST_MIDNIGHT - 1, 1.0), (FIRST_MIDNIGHT - 1, beside(1.0, -1)),
                    (LAST_MIDNIGHT + 1, -0.0), (LAST_MIDNIGHT, beside(1.0, -1)), (2441498.5, beside(1.0, -1)), (2441498.5, -0.0)):
                yield pair_line(scale, midnight, fraction)


def quasi_julian_dates():
    yield from rows_of_quasi_julian_dates()
    yield from uneven_days()
    yield '# days of 86,400 seconds'
    yield from even_days()
    yield '# refused'
    yield from refused_pairs()
    yield table_line(BULLETIN)


def rows_of_vouched_month():
    """Bulletin C vouched to January 2017, then to the month before its last entry."""
    yield from (table_line(BULLETIN), vouch_line(541))
    for instant in (539_179_236_999_999, 539_179_237_000_000):
        for scale in (UTC, TAI):
            yield call('stamp_of', instant, scale)
    yield from ('tick 2017 1 31 23 59 58', 'tick 2017 1 31 23 59 59', vouch_line(540))
    for scale in (TAI, 4):
        yield call('stamp_of', 0, scale)


def vouched_tables():
    """Each with a heading and a month that it is vouched for."""
    yield 'one entry, to January 1972', table_of_steps([], []).vouched_to(1)
    yield 'T, to its last entry', T.vouched_to(13)
    yield 'N, to its last entry', N.vouched_to(7)
    for month in (1, LAST_MONTH - 1, LAST_MONTH):
        for step in (1, -1):
            yield f'month {month}, step {step}, to that month', table_of_one_step(month, step).vouched_to(month + 1)
    yield '64 neighbouring months, up and down, to the last', table_of_steps(neighbours(1, 63), [1, -1] * 31 + [1]).vouched_to(64)
    yield 'T, to February 2000', T.vouched_to(338)
    yield 'N, to February 2100', N.vouched_to(1_538)
    yield 'B, to November 9999', BULLETIN.vouched_to(LAST_MONTH)
    yield 'B, to December 9999', BULLETIN.vouched_to(LAST_MONTH + 1)


def end_of_vouched_month(table, scales, pictures, digits):
    """The table's last step, which is not beyond, then the vouched month's last seconds and the first one beyond."""
    yield from (table_line(table), vouch_line(first_beyond(table)), 'start')
    for month, step in list(table.steps.items())[-1:] + [(first_beyond(table), -1)]:
        for label in labels_of_night(month, step):
            yield call('tick', *label)
            yield call('instant_of', UTC, *label, 999_999)
    yield from lines_of_instant(table, table.held_from[-1] * SECOND - 1, (UTC,), pictures, digits)
    for near in (-1, 0):
        yield from lines_of_instant(table, midnights_beyond(table)[0] + near, scales, pictures, digits)


def ends_of_vouched_months():
    table = BULLETIN.vouched_to(541)
    yield '# Bulletin C, vouched to January 2017'
    yield from end_of_vouched_month(table, SCALES, PICTURES, 6)
    for scale in (TAI, TDT, GPS):
        yield from lines_of_instant(table, midnights_beyond(table)[scale], (UTC, scale), (0,), 0)
    for place, (heading, table) in enumerate(vouched_tables()):
        yield '# vouched: ' + heading
        yield from end_of_vouched_month(table, (UTC, place + 1) if place < 3 else (UTC,), (place % 3,), place % 7)


def julian_dates_of_vouched_month():
    """The vouched month's last day rounds into the next month, beyond; the day before a step into the last entry's, not beyond."""
    for table, month in ((BULLETIN, 541), (N, 7), (N, LAST_MONTH + 1)):
        yield from (table_line(table), vouch_line(month))
        last_day = last_midnight_before(month)
        for fraction in fractions_beside_half(DAY - 1)[1:] + [beside(1.0, -1)]:
            for scale in (UTC, GPS):
                yield pair_line(scale, last_day, fraction)
        yield pair_line(UTC, last_day + 1, 0.0)
    length = length_at(N, UTC, 2441498.5)
    for microsecond in (length - SECOND - 1, length - SECOND, length - 1):
        yield pair_line(UTC, 2441498.5, microsecond / length)
    for table, month in ((BULLETIN, 540), (N, 6)):
        yield from (table_line(table), vouch_line(month + 1))
        length = length_at(table, UTC, last_midnight_before(month))
        for fraction in fractions_beside_half(length - 1, length)[1:] + [beside(1.0, -1)]:
            yield pair_line(UTC, last_midnight_before(month), fraction)
        yield from pairs_out_and_back(table, month, (length - 1, length))


def years_about_vouched_month():
    """Earlier months of later years and later months of earlier years."""
    yield from (table_line(BULLETIN), vouch_line(582))  # June 2020
    for year, month in ((1972, 12), (2016, 7), (2019, 6), (2019, 12), (2020, 5), (2020, 6), (2020, 7), (2021, 1), (2021, 6), (2100, 1),
                        (2420, 5), (2420, 6), (9999, 1)):
        label = Label(year, month, second.days_in_month(year, month), 12, 0, 0)
        yield call('tick', *label)
        for scale in (UTC, TDT):
            yield call('instant_of', scale, *label, 0)
            yield text_line(scale, text_of(month % 3, label, ''))


def refusals_beyond_vouched_month():
    """A refused answer has no mark, whatever its label."""
    yield from (table_line(BULLETIN), vouch_line(541))
    label = Label(2020, 6, 30, 23, 59, 59)
    for field, values in (('year', (1971, 9999, 10_000)), ('month', (0, 13)), ('day', (0, 31)), ('hour', (24,)), ('minute', (60,)),
                          ('second', (60, 61))):
        for value in values:
            spoilt = label._replace(**{field: value})
            yield from (call('tick', *spoilt), call('instant_of', UTC, *spoilt, 0), text_line(UTC, text_of(0, spoilt, '')))
    yield call('instant_of', UTC, *label, SECOND)
    yield from (text_line(UTC, text) for text in ('', '2020-06-30T23:59:59.', '2020-06-30T23:59:59Z', '2020-367T23:59:59'))
    first, last = ends_of_scale(BULLETIN, UTC)
    for instant in (first - 1, last, last + 1, 2**63 - 1):
        yield from (call('stamp_of', instant, UTC), call('write_text', instant, 0, UTC, 0, 19), call('write_julian', instant, UTC))
    for picture, scale, digits, room in ((0, 0, 6, 25), (0, 0, 6, 26), (3, 0, 0, 26), (0, 4, 0, 26), (0, 0, 7, 26), (1, 0, 0, 16)):
        yield call('write_text', last, picture, scale, digits, room)
    for midnight, fraction in ((LAST_MIDNIGHT, 0.5), (LAST_MIDNIGHT, 1.0), (NOT_FINITE[2], 0.5), (LAST_MIDNIGHT + 1, 0.5),
                               (LAST_MIDNIGHT, beside(1.0, -1))):
        yield pair_line(UTC, midnight, fraction)
    yield from ('tick 9999 12 31 23 59 58', 'tick 9999 12 31 23 59 59')


def judged_vouched_months():
    """Each limit of the number under good tables, and any number under malformed ones."""
    last_tick = call('tick', *LAST_LABEL._replace(second=58))  # beyond every month but December 9999
    for table in (BULLETIN, N, table_of_steps([], []), table_of_steps(neighbours(LAST_MONTH - 63, 63), [1] * 63)):
        yield table_line(table)
        for number in vouched_numbers(table):
            yield from (vouch_line(number), last_tick, call('stamp_of', 0, TAI), call('write_block', len(second.block_of_table(table))))
            yield call('write_kernel', 60)
    for number, scale in ((12, UTC), (12, 4), (13, UTC), (LAST_MONTH + 2, GPS)):
        yield from (table_line(T), vouch_line(number))
        yield from one_of_each_call(scale)
    for heading, malformed in malformed_tables(T):
        yield '# malformed and vouched: ' + heading
        yield from (table_line(malformed), vouch_line(13), last_tick)
    for count in (0, PLACES + 1, 2**64 - 1):
        yield table_line(changed(T, count=count))
        for number in (1, 12, LAST_MONTH + 1, 2**32 - 1):
            yield from (vouch_line(number), call('stamp_of', 0, UTC), call('stamp_of', 0, 4), 'write_block 0')


def numbers_in_force():
    """What sets the number and what leaves it, each with a call that shows it."""
    beyond = call('stamp_of', 539_179_237_000_000, UTC)
    block, kernel = (hex_word(part(BULLETIN)) for part in (second.block_of_table, second.kernel_of_table))
    yield from (table_line(BULLETIN), beyond, vouch_line(541), beyond, vouch_line(542), beyond, vouch_line(540), beyond, vouch_line(541))
    for line in ('table', 'table 1 1 0', 'table 1 65', 'write_block 29', 'write_kernel 1032', call('read_block', block), 'read_block 01',
                 call('read_kernel', kernel), 'write_cards 2268', cards_line(second.cards_of_table(BULLETIN)), 'read_new_block 000001',
                 'read_new_block 0', 'write_new_block 32', call('renew', block, 542, 32), 'revert 000101 1', 'vouch 1 2', 'vouch', '',
                 table_line(BULLETIN)):
        yield from (line, beyond)
    for word in ('', 'x', '-1', '-0', '00', '+541', '0x21d', '541 ', '541\r', '0' * 40 + '541', str(2**32 - 1), str(2**32), '9' * 40):
        yield from (vouch_line(541), vouch_line(word), beyond)


def vouched_month():
    yield from rows_of_vouched_month()
    yield from ends_of_vouched_months()
    yield '# rounded beyond the vouched month'
    yield from julian_dates_of_vouched_month()
    yield '# about the vouched month, and far from it'
    yield from years_about_vouched_month()
    yield '# refused beyond the vouched month'
    yield from refusals_beyond_vouched_month()
    yield '# the number judged'
    yield from judged_vouched_months()
    yield '# the number in force'
    yield from numbers_in_force()
    yield table_line(BULLETIN)


def protocol():
    yield from OTHER_LINES
    yield table_line(BULLETIN)
    yield from long_lines()
    for line in GOOD_LINES:
        yield from damaged_lines(line)
        yield table_line(BULLETIN)


SECTIONS = (
    ('Worked on the night desk', worked_on_the_night_desk),
    ('Bulletin C', bulletin_c),
    ('Ends of each scale and of 64 bits', ends_of_scales),
    ('The calendar and the order of the refusals', calendar),
    ('Tables', tables),
    ('Blocks', blocks),
    ('New blocks and moves', new_blocks),
    ('Kernels', kernels),
    ('Cards', cards),
    ('Texts wrong at each position', texts),
    ('Buffers', buffers),
    ('Doubles', doubles),
    ('Julian dates of UTC days of each length', quasi_julian_dates),
    ('The vouched month', vouched_month),
    ('Lines that are no calls', protocol),
)


def stored_lines():
    """All ASCII and no NUL, so that tools for text take the file for one; random lines have the other bytes too.

    Long lines make it large: it has those of its sections and no random ones.
    """
    for heading, section in SECTIONS:
        yield '# ' + heading
        yield from filter(is_plain, section())
    yield f'# Random lines, seed {STORED_SEED}'
    yield from (line for line in random_lines(STORED_SEED, STORED_RANDOM_LINES) if is_plain(line) and len(line) < 10_000)


def is_plain(line):
    return line.isascii() and '\x00' not in line


# ---------------------------------------------------------------------------

def lines_of_words(words):
    """The lines that are asked for, or None; the other files are imported here, since they import this one."""
    if words == ['stored']:
        return stored_lines()
    if words == ['desk-stored']:
        import desk_lines
        return desk_lines.stored_lines()
    *program, seed, count = words if len(words) in (2, 3) else ('', '')
    if not seed.isdigit() or not count.isdigit():
        return None
    if program == []:
        return random_lines(int(seed), int(count))
    if program == ['desk']:
        import desk_lines
        return desk_lines.random_lines(int(seed), int(count))
    if program == ['ticks']:
        import ticks_inputs
        return map(hex_word, ticks_inputs.random_inputs(int(seed), int(count)))
    return None


def main(words):
    lines = lines_of_words(words)
    if lines is None:
        print('usage: generate.py [desk | ticks] SEED COUNT | generate.py stored | generate.py desk-stored', file=sys.stderr)
        return 2
    for line in lines:
        sys.stdout.buffer.write(line.encode('latin-1') + b'\n')
    return 0


if __name__ == '__main__':
    sys.exit(main(sys.argv[1:]))
