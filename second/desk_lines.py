"""Lines for the program `desk`, good and damaged; generate.py prints them.

As in generate.py, what an answer is is no concern of this file; it asks the
second program only which table a line sets, so that the stamps of the next
lines lie about that table's leap seconds.  Lines are text of the characters 0
to 255, one to a byte, without line feeds.
"""

import os
import re
import shutil

import desk
import second
from generate import (BEGIN_DATA, BULLETIN, COMMENTS, DECIMALS, FIRST_CARD, N, OURS, PICTURES, SECOND_CARD, SOURCE_CARDS, T, THIRD_CARD,
                      WRONG_DECIMALS, Dice, card_of, cards_file, damaged_once, edges_of, published_kernel, random_block, random_instant,
                      random_new_block, random_table, random_text, random_vouched_number)
from second import GPS, LAST_MONTH, SECOND, TAI, TDT, UTC, Refused

CLOCKS = [name.decode() for name in desk.CLOCKS]
NO_CLOCKS = ('', 'utc', 'UT1', 'GPS ', 'GPS\r', 'UTC on GPS')
LIMIT = desk.LONGEST_LINE


# Two seconds taken out, half a year apart.
TWO_DOWN = second.read_block(bytes.fromhex('030d0d'))


def block_line(table):
    return 'table block ' + second.block_of_table(table).hex()


def new_block_line(table):
    """It sets the month too."""
    return 'table block ' + second.new_block_of_table(table).hex()


def month_text(month):
    return f'{1972 + month // 12}-{month % 12 + 1:02}'


def vouched_line(month):
    return 'vouched ' + month_text(month)


def to_size(begin, end, size, filling='x'):
    return begin + filling * (size - len(begin) - len(end)) + end


# ---------------------------------------------------------------------------
# Files that are laid beside the stored ones for random lines

KERNEL_FILES = {
    'published.tls': published_kernel(),
    'taken out, and "named".tls': second.kernel_of_table(N),
    'no table.tls': second.kernel_of_table(T).replace(b'11,', b'12,'),
    'fault.tls': published_kernel().replace(b'JUL-1', b'JUL-2', 1),
    'empty.tls': b'',
    'full.tls': (BEGIN_DATA + OURS).ljust(desk.MOST_FILE_BYTES),
    'long.tls': (BEGIN_DATA + OURS).ljust(desk.MOST_FILE_BYTES + 1),
    'f\xc3\xbcr to on.tls': second.kernel_of_table(T),
}
CARD_FILES = {
    'falling.tp': cards_file(*COMMENTS, THIRD_CARD, b'', SECOND_CARD, FIRST_CARD),
    'taken out, and "named".tp': second.cards_of_table(N),
    'no table.tp': cards_file(FIRST_CARD, card_of(6, 12)),
    'fault.tp': cards_file(FIRST_CARD, COMMENTS[0], card_of(6, 11, kind=b'ZP'), THIRD_CARD),
    'order.tp': cards_file(THIRD_CARD, FIRST_CARD, SECOND_CARD),
    'tcon.tim': cards_file(*COMMENTS, *SOURCE_CARDS),
    'many.tp': cards_file(*(card_of(month, 10 + month) for month in range(65))),
    'empty.tp': b'',
    'full.tp': cards_file(FIRST_CARD).ljust(desk.MOST_FILE_BYTES),
    'long.tp': cards_file(FIRST_CARD).ljust(desk.MOST_FILE_BYTES + 1),
    'long and bad.tp': b'x\n'.ljust(desk.MOST_FILE_BYTES + 1),
    'f\xc3\xbcr to on.tp': second.cards_of_table(T),
}
CLOSED_FILES = {  # good, under names that are not UTF-8, by which no file is opened
    'f\xfcr to on.tls': second.kernel_of_table(T),
    'f\xfcr to on.tp': second.cards_of_table(T),
}
FILES = {**KERNEL_FILES, **CARD_FILES}
STORED_KERNEL, STORED_CARDS = 'leapseconds.tls', 'leapseconds.tp'  # both of Bulletin C
NO_FILES = ('no-such-file', '.', '..', '', ' ', './', 'no-such-file/x', STORED_KERNEL + '/x', STORED_KERNEL + ' ', ' ' + STORED_KERNEL,
            STORED_KERNEL + '\x00', STORED_CARDS + '/x', STORED_CARDS + '.', '\xff\xfe', 'n' * 300, *CLOSED_FILES)


def lay_out_files(folder):
    """For `desk` to run there."""
    for name in (STORED_KERNEL, STORED_CARDS):
        shutil.copy(os.path.join(os.path.dirname(os.path.abspath(__file__)), '..', 'examples', name), folder)
    for name, file in (*FILES.items(), *CLOSED_FILES.items()):
        with open(os.path.join(os.fsencode(folder), name.encode('latin-1')), 'wb') as output:
            output.write(file)


def table_of_file(name, read, stored):
    """No file is opened here: lines do not depend on where the generator runs."""
    if re.fullmatch(r'(\./+)?' + re.escape(stored), name):
        return BULLETIN
    if name not in FILES:
        return desk.NO_TABLE
    try:
        return read(FILES[name])
    except Refused:
        return desk.NO_TABLE


def table_of_cards(file):
    """A file that is too long leaves no table."""
    return desk.NO_TABLE if len(file) > desk.MOST_FILE_BYTES else second.read_cards(file)


REQUESTS_WITH_FILES = {  # each with its reader, and the stored file that it takes
    'table kernel ': (second.read_kernel, STORED_KERNEL),
    'table cards ': (table_of_cards, STORED_CARDS),
}


def table_behind(table, line):
    """The table in force behind a line, or none."""
    for words, (read, stored) in REQUESTS_WITH_FILES.items():
        if line.startswith(words) and len(line) <= LIMIT:
            return table_of_file(line[len(words):], read, stored)
    return desk.answer(table, line.encode('latin-1')).table if line.startswith(('table ', 'vouched ')) else table


# ---------------------------------------------------------------------------
# Random stamps

DAMAGED_STAMPS = (
    lambda stamp: stamp[:4] + stamp[4:].replace('T', ' '),
    lambda stamp: stamp + 'Z',
    lambda stamp: stamp[:stamp.rindex(':')],
    lambda stamp: stamp[:4] + stamp[4:].title(),
    lambda stamp: stamp[:3].lower() + stamp[3:],
    lambda stamp: stamp[4:],
    lambda stamp: stamp[:3],
    lambda stamp: stamp[:4],
    lambda stamp: '',
    lambda stamp: stamp + ' ',
    lambda stamp: stamp + '\r',
    lambda stamp: ' ' + stamp,
    lambda stamp: stamp[:4] + ' ' + stamp[4:],
    lambda stamp: stamp[:3] + '\t' + stamp[4:],
    lambda stamp: 'UT1' + stamp[3:],
    lambda stamp: 'UTCX' + stamp[3:],
    lambda stamp: 'TAI' + stamp[3:],
    lambda stamp: stamp[:stamp.rindex(':') + 1] + '60',
    lambda stamp: stamp[:stamp.rindex(':') + 1] + '61',
    lambda stamp: stamp.replace('-', ''),
)


def on_one_line(text):
    return text.replace('\ufeff', '\xef\xbb\xbf').replace('\n', '\x0b')


def in_capitals(line):
    """ASCII letters only: the capitals of some others are no bytes."""
    return line.encode('latin-1').upper().decode('latin-1')


def stamp_of_instant(dice, table, instant, scale):
    """The stamp in any picture and with any digits, or None where the scale has no such label."""
    try:
        stamp = second.stamp_of(table, instant, scale)
    except Refused:
        return None
    text = second.text_of_fields(dice.pick(PICTURES), stamp.label, stamp.microsecond, dice.pick((0, 0, 0, 1, 3, 6, dice.below(7))))
    return f'{CLOCKS[scale]} {text.decode()}'


def random_scale(dice):
    return dice.weighted(((6, UTC), (2, TAI), (1, TDT), (2, GPS)))


def good_stamp(dice, table):
    """With its instant."""
    while True:
        instant = random_instant(dice, table)
        stamp = stamp_of_instant(dice, table, instant, random_scale(dice))
        if stamp:
            return stamp, instant


def damaged_stamp(dice, stamp):
    kind = dice.below(4)
    if kind == 0:
        return stamp + dice.pick(WRONG_DECIMALS) if '.' not in stamp else stamp + dice.pick(('0000000', '.', 'x'))
    return on_one_line(damaged_once(dice, stamp)) if kind == 1 else dice.pick(DAMAGED_STAMPS)(stamp)


def spoilt(dice, table, stamp):
    """Mostly the stamp as it is."""
    kind = dice.weighted(((88, 'good'), (5, 'any text'), (7, 'damaged')))
    if kind == 'any text':
        return f'{dice.pick(CLOCKS)} {on_one_line(random_text(dice, table))}'
    return stamp if kind == 'good' else damaged_stamp(dice, stamp)


def random_stamp(dice, table):
    return spoilt(dice, table, good_stamp(dice, table)[0])


NEAR = (-2 * SECOND, -SECOND, -SECOND // 2, -1, 0, 1, SECOND // 2, SECOND, 2 * SECOND, 181 * SECOND, 86_400 * SECOND, 86_401 * SECOND)


def stamps_across_step(dice, table):
    """On UTC, on both sides of a leap second, in either order; of a table without one, on both sides of its start, and so None."""
    step = dice.pick(table.held_from[1:] or table.held_from) * SECOND
    instants = [step + sign * dice.below(100 * SECOND) for sign in (-1, 1)]
    first, last = (stamp_of_instant(dice, table, instant, UTC) for instant in (reversed(instants) if dice.chance(0.3) else instants))
    return first, last


def two_stamps(dice, table):
    """Often about a leap second, near each other or a few years apart, so that few leap seconds lie between them."""
    if dice.chance(0.25):
        first, last = stamps_across_step(dice, table)
        if first and last:
            return first, last
    first, instant = good_stamp(dice, table)
    last = None
    if dice.chance(0.7):
        apart = dice.pick(NEAR) if dice.chance(0.6) else dice.between(-2_000, 2_000) * 86_400 * SECOND + dice.below(SECOND)
        scale = CLOCKS.index(first[:3]) if dice.chance(0.8) else random_scale(dice)
        last = stamp_of_instant(dice, table, instant + apart, scale)
    last = last or good_stamp(dice, table)[0]
    return spoilt(dice, table, first), spoilt(dice, table, last)


# ---------------------------------------------------------------------------
# Random words of requests

NO_SECONDS = ('', '+', '-', '.', '.5', '-.5', '1.1234567', '1.0000000', '1000000000000', '-1000000000000', '1000000000000.0', '9' * 40,
              '1e3', '1,5', ' 90', '90 ', '--1', '+-1', '- 1', '0x10', '1_0', '90.5.', '90..5', '90.-5', '90 s', 'ninety', '\xb2', '9\r',
              '1.5 to')
EDGES_OF_SECONDS = ('0', '-0', '+0', '0.0', '-0.000000', '00', '90.', '-3.', '999999999999', '-999999999999', '999999999999.999999',
                    '-999999999999.999999', '0999999999999', '0' * 40 + '90', '+90.5', '-0.5', '-0.000001', '0.000001', '+0.999999', '1',
                    '-1', '253402300800', '-253402300800')


def random_seconds(dice):
    kind = dice.weighted(((50, 'near'), (20, 'far'), (15, 'edge'), (10, 'none'), (5, 'digits')))
    if kind == 'edge':
        return dice.pick(EDGES_OF_SECONDS)
    if kind == 'none':
        return dice.pick(NO_SECONDS)
    if kind == 'digits':
        return ''.join(dice.pick('0123456789') for _ in range(dice.between(9, 14))) + dice.pick(('', '', '.5'))
    whole = dice.below(100) if kind == 'near' else dice.below(10**dice.between(2, 10))
    return dice.pick(('', '', '-', '-', '+')) + str(whole) + dice.pick(('', '', *DECIMALS[1:]))


NAMES = ('AURORA-3', 'X', 'A B', 'from here to there', 'a to b', 'x and y on z', ' ', ' leading', 'trailing ', "it's", 'a;b', '?', 'UTC',
         'refused 8 ASK', 'caf\xe9', '\x01\x7f\x80\xff', 'tab\there', '\r', 'n\x00l', '-', 'to', 'from')
NO_NAMES = ('', ',', 'a,b', '"', '"quoted"', 'a, b', 'a"')


def random_name(dice):
    return dice.pick(NO_NAMES) if dice.chance(0.06) else dice.pick(NAMES)


NO_HEX = ('0', '010', 'zz', '0g', '0x01', '01 ', ' 01', '01 02', '01\r', '-', '030C0C1', '\xb9\xb2', '030C,0C', 'block', '000d030c0',
          '00 0d030c0c')
NO_MONTHS = ('', '2026', '2026-', '2026-00', '2026-13', '2026-1', '2026-1 ', '2026-012', '2026/12', '202612', '1971-12', '0000-01',
             '10000-01', '2026-12-01', '2026-12 ', ' 2026-12', '2026-12\r', '2O26-12', '-026-12', '+2026-12', '2026-1\xb2',
             'December 2026', '9999-13')
NO_REFUSALS = ('', '0', '16', '17', '99', '06', '00', '001', '+6', '-6', '6.', '6.0', ' 6', '6 ', '6\r', 'six', 'ROOM', '1 4', '\xb2',
               '4294967302', '18446744073709551622')
NO_REQUESTS = (' ', '?', '# a note', 'hello', 'Help', 'HELP', 'help ', ' help', 'help me', 'help\r', 'table ', 'Table', 'tables',
               'table x', 'table blocks 01', 'table block', 'table kernel', 'table kernels x', 'table cards', 'table card x',
               'table cards\tx', 'vouch 2026-12', 'vouched', 'why', 'why?', 'between', 'show', 'after', 'add', 'pass',
               'between\tUTC 2016-12-31T23:58:30',
               'Between UTC 2016-12-31T23:58:30 and UTC 2016-12-31T23:58:30',
               'UTC 2016-12-31T23:58:30', 'show  UTC 2016-12-31T23:58:30 on GPS', '\r', '\x00', '\x7f\x80\xff', 'caf\xe9', 'a,b', '"')
LONG_LINES = (
    lambda size: to_size('pass ', ' from UTC 2016-12-31T23:58:30 to UTC 2017-01-01T00:01:30', size),
    lambda size: to_size('add ', '1 to UTC 2016-12-31T23:59:59', size, '0'),
    lambda size: to_size('table block ', '', size, '0'),
    lambda size: to_size('table block 01', '', size, '8'),
    lambda size: to_size('table kernel ', '', size),
    lambda size: to_size('table kernel .', STORED_KERNEL, size, '/'),
    lambda size: to_size('table cards ', '', size),
    lambda size: to_size('table cards .', STORED_CARDS, size, '/'),
    lambda size: to_size('after UTC 2016-12-31T23:59:59', '', size, ' '),
    lambda size: to_size('why ', '6', size, '0'),
    lambda size: to_size('', '', size, '\xff'),
)


def random_long_line(dice):
    return dice.pick(LONG_LINES)(dice.pick((LIMIT - 1, LIMIT, LIMIT, LIMIT + 1, LIMIT + 1, 3_000)))


# ---------------------------------------------------------------------------
# Random lines

class Lines:
    """Random lines; it remembers the table that they have set, or that they have lost."""

    WEIGHTS = ((20, 'between'), (20, 'show'), (12, 'after'), (20, 'add'), (18, 'pass'), (1, 'table'), (5, 'block'), (3, 'kernel'),
               (3, 'cards'), (5, 'vouched'), (3, 'why'), (1, 'help'), (3, 'other'), (4, 'cut'), (3, 'damaged'), (1, 'long'))

    def __init__(self, seed):
        self.dice = Dice(seed)
        self.table = BULLETIN

    @property
    def about(self):
        """The table about whose leap seconds the stamps lie."""
        return edges_of(self.table)

    def next_line(self):
        line = self.line_of_kind()
        self.table = table_behind(self.table, line)
        return line

    def line_of_kind(self):
        """Few lines without a table are good, so one is soon loaded."""
        if not self.table.is_good and self.dice.chance(0.5):
            return self.line_good_table()
        if self.table.is_good and self.table.months != BULLETIN.months and self.dice.chance(0.03):
            return block_line(BULLETIN)
        return getattr(self, 'line_' + self.dice.weighted(self.WEIGHTS))()

    def line_good_table(self):
        if self.dice.chance(0.2):
            words = self.dice.pick(list(REQUESTS_WITH_FILES))
            return words + self.stored_name(words)
        return block_line(self.dice.pick((BULLETIN, BULLETIN, T, N, TWO_DOWN, None, None)) or random_table(self.dice))

    def stored_name(self, words):
        return self.dice.pick(('', './')) + REQUESTS_WITH_FILES[words][1]

    def line_between(self):
        return 'between {} and {}'.format(*two_stamps(self.dice, self.about))

    def line_show(self):
        clocks = NO_CLOCKS if self.dice.chance(0.05) else CLOCKS
        clock = self.dice.pick(clocks)
        return f'show {random_stamp(self.dice, self.about)} on {clock}'

    def line_after(self):
        return 'after ' + random_stamp(self.dice, self.about)

    def line_add(self):
        return f'add {random_seconds(self.dice)} to {random_stamp(self.dice, self.about)}'

    def line_pass(self):
        return 'pass {} from {} to {}'.format(random_name(self.dice), *two_stamps(self.dice, self.about))

    def line_table(self):
        return 'table'

    def line_block(self):
        kind = self.dice.weighted(((3, 'any'), (3, 'any new'), (1, 'no hex'), (7, 'table')))
        if kind == 'no hex':
            return 'table block ' + self.dice.pick(NO_HEX)
        if kind == 'table':
            line = self.line_block_of_table()
        else:
            line = 'table block ' + (random_block if kind == 'any' else random_new_block)(self.dice, self.table).hex()
        return 'table block ' + line[12:].upper() if self.dice.chance(0.2) else line

    def line_block_of_table(self):
        """Half of them new blocks, most with a month, of which some are too early."""
        table = self.dice.pick((BULLETIN, self.dice.pick((T, N, TWO_DOWN)), None, None, None, None)) or random_table(self.dice)
        if self.dice.chance(0.5):
            return block_line(table)
        return new_block_line(table.vouched_to(random_vouched_number(self.dice, table)))

    def line_kernel(self):
        return self.line_of_file('table kernel ', KERNEL_FILES)

    def line_cards(self):
        return self.line_of_file('table cards ', CARD_FILES)

    def line_of_file(self, words, files):
        kind = self.dice.weighted(((9, 'none'), (5, 'its kind'), (1, 'any kind'), (9, 'stored')))
        if kind == 'stored':
            return words + self.stored_name(words)
        return words + self.dice.pick({'none': NO_FILES, 'its kind': list(files), 'any kind': [*FILES, STORED_KERNEL, STORED_CARDS]}[kind])

    def line_vouched(self):
        if self.dice.chance(0.15):
            return 'vouched ' + self.dice.pick(NO_MONTHS)
        return vouched_line(min(max(0, random_vouched_number(self.dice, self.about) - 1), LAST_MONTH))

    def line_why(self):
        return 'why ' + (self.dice.pick(NO_REFUSALS) if self.dice.chance(0.3) else str(self.dice.between(1, 15)))

    def line_help(self):
        return 'help'

    def line_other(self):
        return '' if self.dice.chance(0.3) else self.dice.pick(NO_REQUESTS)

    def line_long(self):
        return random_long_line(self.dice)

    def line_of_stamps(self):
        return getattr(self, 'line_' + self.dice.pick(('between', 'show', 'after', 'add', 'pass')))()

    def line_cut(self):
        """Without its keyword, or up to any place."""
        line = self.line_of_stamps()
        if self.dice.chance(0.5):
            return line[:self.dice.below(len(line) + 1)]
        for keyword in (' and ', ' on ', ' to ', ' from '):
            line = line.replace(keyword, self.dice.pick((' ', keyword[:-1], keyword.upper(), ' , ')), 1)
        return line

    def line_damaged(self):
        line = self.line_of_stamps()
        return self.dice.pick((lambda: on_one_line(damaged_once(self.dice, line)), lambda: line + '\r', lambda: ' ' + line,
                               lambda: line.replace(' ', '  ', 1), lambda: in_capitals(line), lambda: line + ' '))()


def random_lines(seed, count):
    lines = Lines(seed)
    for _ in range(count):
        yield lines.next_line()


# ---------------------------------------------------------------------------
# The stored input: one run, so each section leaves Bulletin C's table without a month behind it

EXAMPLES = (
    'between UTC 2016-12-31T23:58:30 and UTC 2017-01-01T00:01:30',
    'show UTC 2016-12-31T23:59:60 on GPS',
    'after UTC 2016-12-31T23:59:59',
    'add 90.5 to UTC 2016-12-31T23:58:30',
    'pass AURORA-3 from UTC 2016-12-31T23:58:30 to UTC 2017-01-01T00:01:30',
    'table',
    'table kernel leapseconds.tls',
    'table cards leapseconds.tp',
    block_line(BULLETIN),
    'vouched 2026-12',
    'why 6',
    'help',
    block_line(BULLETIN),
)

DIFFERENCES = (
    'between UTC 2017-01-01T00:01:30 and UTC 2016-12-31T23:58:30',
    'between UTC 2016-12-31T23:59:59 and UTC 2016-12-31T23:59:60',
    'between UTC 2016-12-31T23:59:60 and UTC 2017-01-01T00:00:00',
    'between UTC 2016-12-31T23:59:59.999999 and UTC 2016-12-31T23:59:60',
    'between UTC 2016-12-31T23:59:60.5 and UTC 2016-12-31T23:59:60',
    'between UTC 2016-12-31T23:59:60.25 and UTC 2016-12-31T23:59:59.999',
    'between TAI 2000-01-01T12:00:00 and TAI 2000-01-01T12:00:00.000000',
    'between TAI 2000-01-01T12:00:00.000001 and TAI 2000-01-01T12:00:00',
    'between UTC 2017-01-01T00:00:00 and TAI 2017-01-01T00:00:37',
    'between TAI 2017-01-01T00:00:00 and GPS 2017-01-01T00:00:00',
    'between TDT 2017-01-01T00:00:00 and TAI 2017-01-01T00:00:00',
    'between GPS 2017-01-01T00:00:00 and UTC 2016-366T23:59:42',
    'between UTC 1972-01-01T00:00:00 and UTC 9999-12-31T23:59:59.999999',
    'between UTC 9999-12-31T23:59:59.999999 and TDT 1972-01-01T00:00:00',
    'between UTC 1986 APR 12 16:31:09.814 and UTC 1986-102T16:31:09.815',
    'between UTC 1972-06-30T23:59:60 and UTC 1972-183T00:00:00',
    'between UTC 2016-12-31T23:58:30 and',
    'between UTC 2016-12-31T23:58:30 and ',
    'between UTC 2016-12-31T23:58:30',
    'between UTC 2016-12-31T23:58:30 UTC 2017-01-01T00:01:30',
    'between UTC 2016-12-31T23:58:30  and  UTC 2017-01-01T00:01:30',
    'between  and UTC 2016-12-31T23:58:30',
    'between and UTC 2016-12-31T23:58:30',
    'between ',
    'between UTC 2016-12-31T23:58:30 and UTC 2016-12-31T23:58:30 and UTC 2016-12-31T23:58:30',
    'between UTC 2016-12-31T23:58:3O and utc 2016-12-31T23:58:30',
    'between 2016-12-31T23:58:30 and UTC 1971-12-31T23:58:30',
    'between UTC 2016-12-31T23:58:30 and 2016-12-31T23:58:30',
)

SHOWN = (
    'show UTC 2016-12-31T23:59:60.999999 on UTC',
    'show UTC 2016-12-31T23:59:60.999999 on TAI',
    'show UTC 2016-366T23:59:60.5 on TDT',
    'show UTC 2017-01-01T00:00:00 on GPS',
    'show GPS 2017 JAN 01 00:00:17.25 on UTC',
    'show TAI 2017-01-01T00:00:35.999999 on UTC',
    'show TAI 2017-01-01T00:00:36 on UTC',
    'show TAI 2017-01-01T00:00:37 on UTC',
    'show TDT 2000-01-01T12:00:32.184 on TAI',
    'show TAI 2000-01-01T12:00:00.1 on UTC',
    'show TAI 1999-12-31T23:59:59.999999 on TDT',
    'show TAI 1972-01-01T00:00:10 on UTC',
    'show TAI 1972-01-01T00:00:09.999999 on UTC',
    'show TDT 1972-01-01T00:00:00 on TAI',
    'show TAI 1972-01-01T00:00:18.999999 on GPS',
    'show TAI 1972-01-01T00:00:19 on GPS',
    'show UTC 9999-12-31T23:59:22.999999 on TAI',
    'show UTC 9999-12-31T23:59:23 on TAI',
    'show TAI 9999-12-31T23:59:27.815999 on TDT',
    'show TAI 9999-12-31T23:59:27.816 on TDT',
    'show GPS 9999-12-31T23:59:59.999999 on UTC',
    'show UTC 2016-12-31T23:59:60 on',
    'show UTC 2016-12-31T23:59:60 on ',
    'show UTC 2016-12-31T23:59:60',
    'show UTC 2016-12-31T23:59:60 on gps',
    'show UTC 2016-12-31T23:59:60 on UT1',
    'show UTC 2016-12-31T23:59:60 on GPS ',
    'show UTC 2016-12-31T23:59:60 on GPS on TAI',
    'show TDT 1972-01-01T00:00:00 on Tai',
    'show UTC 2016-12-31T23:59:61 on Tai',
    'show ',
    'show UTC on GPS',
    'show  on GPS',
)

NEXT_SECONDS = (
    'after UTC 2016-12-31T23:59:58',
    'after UTC 2016-12-31T23:59:59.999999',
    'after UTC 2016-12-31T23:59:60',
    'after UTC 2016-12-31T23:59:60.5',
    'after UTC 2015-12-31T23:59:59',
    'after UTC 2000 FEB 28 23:59:59',
    'after UTC 2100-059T23:59:59',
    'after TAI 2016-12-31T23:59:59',
    'after TDT 2016-12-31T23:59:59.184',
    'after GPS 1980-01-05T23:59:59',
    'after UTC 9999-12-31T23:59:58.999999',
    'after UTC 9999-12-31T23:59:59',
    'after GPS 9999-365T23:59:59.000001',
    'after UTC 2015-12-31T23:59:60',
    'after TAI 2016-12-31T23:59:60',
    'after ',
    'after  UTC 2016-12-31T23:59:59',
    'after UTC 2016-12-31T23:59:59 ',
)

SUMS = (
    'add 0 to UTC 2016-12-31T23:59:60',
    'add 1 to UTC 2016-12-31T23:59:59',
    'add 2 to UTC 2016-12-31T23:59:59',
    'add -1 to UTC 2017-01-01T00:00:00',
    'add +1 to UTC 2016-12-31T23:59:60',
    'add -0.5 to UTC 2017-01-01T00:00:00',
    'add -0.000001 to UTC 2017-01-01T00:00:00',
    'add 0.000001 to UTC 2016-12-31T23:59:59.999999',
    'add -0 to TAI 2000-01-01T12:00:00',
    'add -3 to GPS 2000-01-01T00:00:02',
    'add +90.25 to TDT 2016-12-31T23:58:30.75',
    'add 86400 to UTC 2016-12-31T12:00:00',
    'add 86401 to UTC 2016-12-31T12:00:00',
    'add 00000000000000000090.5 to UTC 2016-12-31T23:58:30',
    'add 90. to UTC 2016-12-31T23:58:30',
    'add 1.123456 to TAI 2000 JAN 01 12:00:00',
    'add 253370764799.999999 to TAI 1972-01-01T00:00:00',
    'add 253339228799.999999 to TAI 1972-01-01T00:00:00',
    'add 253339228800 to TAI 1972-01-01T00:00:00',
    'add 253339228826.999999 to UTC 1972-01-01T00:00:00',
    'add 253339228827 to UTC 1972-01-01T00:00:00',
    'add -0.000001 to UTC 1972-01-01T00:00:00',
    'add -253339228826 to UTC 9999-12-31T23:59:59',
    'add -253339228827 to UTC 9999-12-31T23:59:59',
    'add 999999999999 to UTC 2016-12-31T23:58:30',
    'add -999999999999.999999 to GPS 2016-12-31T23:58:30',
    'add 1000000000000 to UTC 2016-12-31T23:58:30',
    'add 0999999999999 to UTC 2016-12-31T23:58:30',
    'add 1.1234567 to UTC 2016-12-31T23:58:30',
    'add  to UTC 2016-12-31T23:58:30',
    'add to UTC 2016-12-31T23:58:30',
    'add + to UTC 2016-12-31T23:58:30',
    'add - to UTC 2016-12-31T23:58:30',
    'add .5 to UTC 2016-12-31T23:58:30',
    'add 1e3 to UTC 2016-12-31T23:58:30',
    'add 1,5 to UTC 2016-12-31T23:58:30',
    'add --1 to UTC 2016-12-31T23:58:30',
    'add 90.5 s to UTC 2016-12-31T23:58:30',
    'add  90 to UTC 2016-12-31T23:58:30',
    'add 90 UTC 2016-12-31T23:58:30',
    'add 90 to',
    'add 90 to ',
    'add 90',
    'add ',
    'add 90 to 2016-12-31T23:58:30',
    'add x to 2016-12-31T23:58:30',
    'add 90 to UTC 2016-12-31T23:58:60',
    'add 999999999999 to UTC 2016-12-31',
)

PASSES = (
    'pass AURORA-3 from UTC 2017-01-01T00:01:30 to UTC 2016-12-31T23:58:30',
    'pass AURORA-3 from UTC 2016-12-30T23:58:30 to UTC 2016-12-31T00:01:30',
    'pass AURORA-3 from UTC 2016-12-31T23:59:60 to UTC 2016-12-31T23:59:60.5',
    'pass AURORA-3 from UTC 2015-06-30T23:59:59 to UTC 2017-01-01T00:00:00',
    'pass AURORA-3 from UTC 1972-01-01T00:00:00 to UTC 2017-01-01T00:00:00',
    'pass AURORA-3 from TAI 2016-12-31T23:58:30 to TAI 2017-01-01T00:01:30',
    'pass AURORA-3 from GPS 2017-001T00:00:00.5 to GPS 2016 DEC 31 23:59:59.25',
    'pass AURORA-3 from UTC 2016-12-31T23:58:30 to GPS 2017-01-01T00:01:30',
    'pass AURORA-3 from TDT 2016-12-31T23:58:30 to TAI 2017-01-01T00:01:30',
    'pass Aurora 3; the second one? from UTC 2016-12-31T23:58:30 to UTC 2017-01-01T00:01:30',
    'pass to and on from UTC 2016-12-31T23:58:30 to UTC 2017-01-01T00:01:30',
    'pass a to b from UTC 2016-12-31T23:58:30 to UTC 2017-01-01T00:01:30',
    'pass   from UTC 2016-12-31T23:58:30 to UTC 2017-01-01T00:01:30',
    'pass tab\there\x7f from UTC 2016-12-31T23:58:30 to UTC 2017-01-01T00:01:30',
    'pass  from UTC 2016-12-31T23:58:30 to UTC 2017-01-01T00:01:30',
    'pass from UTC 2016-12-31T23:58:30 to UTC 2017-01-01T00:01:30',
    'pass AURORA, 3 from UTC 2016-12-31T23:58:30 to UTC 2017-01-01T00:01:30',
    'pass "AURORA" from UTC 2016-12-31T23:58:30 to UTC 2017-01-01T00:01:30',
    'pass "\t" from 2016-12-31T23:58:30 to UTC 2017-01-01T00:01:30',
    'pass AURORA-3 from 2016-12-31T23:58:30 to 2017-01-01T00:01:30',
    'pass AURORA-3 from UTC 2016-12-31T23:58:30 to 2017-01-01T00:01:30',
    'pass AURORA-3 from UTC 2016-12-31T23:58:30 to UTC 2017-01-01T00:01',
    'pass AURORA-3 from UTC 2016-12-31T23:58:30',
    'pass AURORA-3 from UTC 2016-12-31T23:58:30 to ',
    'pass AURORA-3 UTC 2016-12-31T23:58:30 to UTC 2017-01-01T00:01:30',
    'pass AURORA-3',
    'pass ',
    'pass A from B from UTC 2016-12-31T23:58:30 to UTC 2017-01-01T00:01:30',
    'pass A from UTC 2016-12-31T23:58:30 to B to UTC 2017-01-01T00:01:30',
)

REFUSED_STAMPS = (
    'after UTC 2016-12-31 23:59:59',
    'after UTC 2016-12-31T23:59:59Z',
    'after UTC 2016-12-31T23:59',
    'after UTC 2016 Dec 31 23:59:59',
    'after UTC 2016-12-31T23:59:59.',
    'after UTC 2016-12-31T23:59:59.1234567',
    'after UTC 2016-12-31T23:59:59\r',
    'after UTC',
    'after UTC ',
    'after UTC\t2016-12-31T23:59:59',
    'after UTC  2016-12-31T23:59:59',
    'after utc 2016-12-31T23:59:59',
    'after UT1 2016-12-31T23:59:59',
    'after UTCC 2016-12-31T23:59:59',
    'after 2016-12-31T23:59:59',
    'after 2016 DEC 31 23:59:59',
    'after 2016-12-31T23:59:59 UTC',
    'after UTC 1971-12-31T23:59:60',
    'after GPS 0000-001T00:00:00',
    'after UTC 2017-02-29T00:00:00',
    'after UTC 2017-13-01T00:00:00',
    'after UTC 2017-366T00:00:00',
    'after UTC 2017 JAN 00 00:00:00',
    'after UTC 2017-01-01T24:00:00',
    'after UTC 2017-01-01T00:60:00',
    'after UTC 2016-12-31T23:59:61',
    'after TAI 2016-12-31T23:59:60.5',
    'after UTC 2016-12-31T23:58:60',
    'after UTC 2016-06-30T23:59:60',
    'after UTC 1971-13-32T24:60:61',
)

ONE_ENTRY = second.read_block(b'\x01')
SIXTY_FOUR_DOWN = second.read_block(b'\x40' + b'\x03' * 63)

BLOCKS = (
    block_line(N),
    'table',
    'after UTC 1972-06-30T23:59:58',
    'after UTC 1972-06-30T23:59:58.5',
    'after UTC 1972-06-30T23:59:59',
    'between UTC 1972-06-30T23:59:58 and UTC 1972-07-01T00:00:00',
    'add 1.5 to UTC 1972-06-30T23:59:58',
    'show TAI 1972-07-01T00:00:09 on UTC',
    'pass N from UTC 1972-06-30T23:59:58 to UTC 1972-07-01T00:00:00',
    'pass N from UTC 1972-07-01T00:00:00 to UTC 1972-06-30T23:59:58',
    'table block 030D0D',
    'pass two from UTC 1972-01-01T00:00:00 to UTC 1973-01-01T00:00:00',
    'table block 030c0d',
    'pass none from UTC 1972-01-01T00:00:00 to UTC 1973-01-01T00:00:00',
    'pass one from UTC 1972-07-01T00:00:00 to UTC 1973-01-01T00:00:00',
    block_line(ONE_ENTRY),
    'table',
    'after UTC 2016-12-31T23:59:60',
    'add 253339228799.999999 to UTC 1972-01-01T00:00:00',
    block_line(SIXTY_FOUR_DOWN),
    'table',
    'show UTC 1980-01-01T00:00:00 on TAI',
    'pass all from UTC 1972-01-31T23:59:58 to UTC 1977-04-01T00:00:00',
    'table block 029EE10B',
    'after UTC 9999-11-30T23:59:59',
    'table block 029fe10b',
    'after UTC 9999-11-30T23:59:58',
    block_line(T),
    'vouched 1973-01',
    'table block ',
    'table block 02',
    'table block 8100',
    'table block 02808080',
    'table block 0100',
    'table block 0180',
    'table block 0201',
    'table block 41',
    'table block 00',
    'table block 02A0E10B',
    'table block 030C0',
    'table block 030C0g',
    'table block 03 0C 0C',
    'table block 0x030C0C',
    'table block 030C0C\r',
    block_line(T),
    'vouched 1973-01',
    'table block',
    'table  block 01',
    'table',
    'after UTC 1973-01-31T23:59:59',
    block_line(BULLETIN),
)

NEW_BLOCKS = (
    new_block_line(BULLETIN),
    'after UTC 9999-12-31T23:59:58',
    new_block_line(BULLETIN.vouched_to(660)),
    'after UTC 2026-12-31T23:59:58',
    'after UTC 2026-12-31T23:59:59',
    'show TAI 2027-01-01T00:00:36.999999 on UTC',
    'show TAI 2027-01-01T00:00:37 on UTC',
    'pass AURORA-3 from UTC 2026-12-31T23:58:30 to UTC 2027-01-01T00:01:30',
    'table',
    'vouched 2027-01',
    'after UTC 2026-12-31T23:59:59',
    'table block ' + second.new_block_of_table(BULLETIN.vouched_to(541)).hex().upper(),
    'after UTC 2017-01-31T23:59:59',
    'vouched 2016-12',
    'after UTC 2017-01-31T23:59:59',
    block_line(BULLETIN),
    'after UTC 2017-01-31T23:59:59',
    new_block_line(BULLETIN.vouched_to(LAST_MONTH)),
    'after UTC 9999-11-30T23:59:59',
    new_block_line(BULLETIN.vouched_to(LAST_MONTH + 1)),
    'after UTC 9999-12-31T23:59:58',
    'table cards leapseconds.tp',
    'table block 000101',
    'after UTC 1972-01-31T23:59:59',
    'after TAI 1972-01-31T23:59:59',
    'table block 0007020D',
    'after UTC 1972-06-30T23:59:58',
    'after UTC 1972-06-30T23:59:59',
    'after UTC 1972-07-31T23:59:59',
    'table block 00d0f005029fe10b',
    'after UTC 9999-12-31T23:59:58',
    'table block 00cff005029fe10b',
    new_block_line(SIXTY_FOUR_DOWN.vouched_to(64)),
    'after UTC 1977-04-30T23:59:59',
    new_block_line(T.vouched_to(13)),
    'after UTC 1973-01-31T23:59:59',
    new_block_line(T),
    'after UTC 1973-01-31T23:59:59',
    *('table block ' + block for block in (
        '00', '0000', '000000', '000002', '000041', '0080', '008080', '00808080', '008000', '008d00030c0c', '8000', '800000', '800d030c0c',
        '00f1f00501', '00d1f00501', '00d1f005', '00ffff7f01', '000c030c0c', '000c030c0c00', '000c030c', '000d03', '000d030c', '000d030c80',
        '000d030c8000', '000d0300', '000d030c0c00', '009d040100', '00d0f00502a0e10b', '01000d030c0c', '000d000d030c0c', '000d030c0',
        '000d 030c0c', '00 0d030c0c')),
)

KERNELS = (
    block_line(T),
    'table kernel no-such-file',
    'table kernel .',
    'table kernel ',
    'table kernel',
    'table kernel leapseconds.tls ',
    'table kernel leapseconds.tls/x',
    'table kernel no\tfile, "none"',
    block_line(T),
    'table',
    'table kernel leapseconds.tls',
    'table kernel ./leapseconds.tls',
    'after UTC 2016-12-31T23:59:59',
)

CARDS = (
    block_line(T),
    'table cards no-such-file',
    'table cards .',
    'table cards ',
    'table cards',
    'table cards\tleapseconds.tp',
    'table card leapseconds.tp',
    'table cards leapseconds.tp ',
    'table cards  leapseconds.tp',
    'table cards leapseconds.tp/x',
    'table cards no\tfile, "none"',
    'table cards leapseconds.tls',
    'table kernel leapseconds.tp',
    block_line(T),
    'vouched 1973-01',
    'table cards leapseconds.tp',
    'table',
    'table cards ./leapseconds.tp',
    'after UTC 2016-12-31T23:59:59',
    'vouched 2026-12',
    'table cards .//leapseconds.tp',
    'after UTC 2026-12-31T23:59:59',
)

VOUCHED = (
    'vouched 2026-12',
    'after UTC 2026-12-31T23:59:58',
    'after UTC 2026-12-31T23:59:59',
    'after UTC 2027-01-01T00:00:00',
    'after TAI 2027-01-01T00:00:00',
    'between UTC 2026-12-31T23:59:59 and UTC 2027-01-01T00:00:00',
    'between UTC 2027-01-01T00:00:00 and TAI 2026-01-01T00:00:00',
    'between TAI 2027-01-01T00:00:00 and GPS 2028-01-01T00:00:00',
    'show UTC 2027-01-01T00:00:00 on GPS',
    'show TAI 2027-01-01T00:00:36.999999 on UTC',
    'show TAI 2027-01-01T00:00:37 on UTC',
    'show GPS 2027-02-01T00:00:00 on TDT',
    'add -1 to UTC 2027-01-01T00:00:00',
    'add 1 to UTC 2026-12-31T23:59:59',
    'add 0.999999 to UTC 2026-12-31T23:59:59',
    'add 1 to GPS 2027-01-01T00:00:00',
    'pass AURORA-3 from UTC 2026-12-31T23:58:30 to UTC 2027-01-01T00:01:30',
    'pass AURORA-3 from UTC 2027-01-01T00:01:30 to TAI 2026-01-01T00:00:00',
    'pass AURORA-3 from TAI 2027-01-01T00:01:30 to TAI 2028-01-01T00:00:00',
    'after UTC 2027-06-30T23:59:60',
    'vouched 2016-12',
    'vouched 1972-01',
    'vouched 1971-12',
    'vouched 2026-13',
    'vouched 2026-00',
    'vouched 2026-1',
    'vouched 2026/12',
    'vouched 10000-01',
    'vouched 2026-12 ',
    'vouched December 2026',
    'vouched ',
    'vouched',
    'after UTC 2026-12-31T23:59:59',
    'vouched 2017-01',
    'after UTC 2017-01-31T23:59:59',
    'vouched 2017-02',
    'vouched 2017-03',
    'vouched 2018-04',
    'vouched 2019-05',
    'vouched 2020-06',
    'vouched 2021-07',
    'vouched 2022-08',
    'vouched 2023-09',
    'vouched 2024-10',
    'vouched 2025-11',
    'vouched 9999-12',
    'after UTC 9999-12-31T23:59:58',
    'vouched 9999-11',
    'after UTC 9999-12-31T23:59:58',
    'after UTC 9999-12-31T23:59:59',
    'table block 0',
    'after UTC 9999-12-31T23:59:58',
    'table',
    block_line(BULLETIN),
    'after UTC 9999-12-31T23:59:58',
)

REASONS = (
    *(f'why {number}' for number in range(17)),
    'why 06',
    'why ',
    'why',
    'why 6 ',
    'why -6',
    'why ROOM',
    'why 18446744073709551622',
)

OTHER_LINES = (
    '',
    ' ',
    'hello, "desk"',
    'Help',
    'help ',
    ' help',
    'help\r',
    'table ',
    'tables',
    'table file x',
    'TABLE',
    'vouch 2026-12',
    'between',
    'show',
    'after',
    'add',
    'pass',
    'UTC 2016-12-31T23:59:59',
    'Show UTC 2016-12-31T23:59:60 on GPS',
    'show\tUTC 2016-12-31T23:59:60 on GPS',
    'odd bytes \x01\x1f ~ \x7f',
    '',
    *(line(size) for line in LONG_LINES[:-1] for size in (LIMIT, LIMIT + 1)),
    'x' * 3_000,
    '\t' * 39 + 'ab' + ' ' * 1_000,
    'help',
)


# Here a line that loses the table has lines without one behind it.
WITHOUT_TABLE = (
    'vouched 2026-12',
    'table block 030C0',
    'pass AURORA-3 from UTC 2016-12-31T23:58:30 to UTC 2017-01-01T00:01:30',
    'pass AURORA, 3 from UTC 2016-12-31T23:58:30 to UTC 2017-01-01T00:01:30',
    'pass AURORA-3 from TAI 2016-12-31T23:58:30 to 2017-01-01T00:01:30',
    'pass AURORA-3 from 2016-12-31T23:58:30 to UTC 2017-01-01T00:01:30',
    'pass AURORA-3',
    'between UTC 2016-12-31T23:58:30 and UTC 2017-01-01T00:01:30',
    'between TAI 2000-01-01T12:00:00 and TAI 2000-01-01T12:00:00',
    'between UTC x and x',
    'between x and UTC 2017-01-01T00:01:30',
    'between GPS',
    'between ',
    'show UTC 2016-12-31T23:59:60 on GPS',
    'show TAI 2017-01-01T00:00:36 on TDT',
    'show TDT 1972-01-01T00:00:00 on TAI',
    'show UTC 2016-12-31T23:59:60 on gps',
    'show UTC 2016-12-31 23:59:60\t on GPS',
    'show utc 2016-12-31T23:59:60 on GPS',
    'after UTC 1971-13-32T24:60:61',
    'after UT1 2016-12-31T23:59:59',
    'add 90.5 to UTC 2016-12-31T23:58:30',
    'add 0 to GPS 2000-01-01T00:00:00',
    'add 1e3 to UTC 2016-12-31T23:58:30',
    'add 90.5 to 2016-12-31T23:58:30',
    'table',
    'vouched 2026-12',
    'vouched 2026-13',
    'vouched 1972-01',
    'table',
    'why 11',
    'why 0',
    'help',
    '',
    'hello',
    to_size('table block 01', '', LIMIT + 1, '8'),
    'table',
    'table block 01',
    'table',
    'vouched 2026-12',
    'after UTC 2016-12-31T23:59:59',
    'table block 0x',
    'table block 01 ',
    'after UTC 2016-12-31T23:59:59',
    'table kernel leapseconds.tls',
    'after UTC 2026-12-31T23:59:59',
    'table cards no-such-file',
    'table cards leapseconds.tp',
    'after UTC 2016-12-31T23:59:59',
    *(line for losing in ('table block ', 'table block 02', 'table block 8100', 'table block 0201', 'table block 41', 'table block 0100',
                          'table block 000c030c0c', 'table block zz', 'table kernel no-such-file', 'table kernel ',
                          'table kernel leapseconds.tp', 'table cards no-such-file', 'table cards ', 'table cards leapseconds.tls')
      for line in (losing, 'after UTC 2016-12-31T23:59:59', block_line(BULLETIN))),
    'table block',
    'table kernel',
    'table cards',
    'after UTC 2016-12-31T23:59:59',
)


def with_table_again(lines):
    """Behind each line that loses the table, Bulletin C's."""
    table = BULLETIN
    for line in lines:
        table = table_behind(table, line)
        yield line
        if not table.is_good:
            table = BULLETIN
            yield block_line(BULLETIN)


def stored_lines():
    """All ASCII and no NUL, so that tools for text take the file for one; random lines have the other bytes too."""
    for section in (EXAMPLES, DIFFERENCES, SHOWN, NEXT_SECONDS, SUMS, PASSES, REFUSED_STAMPS, BLOCKS, NEW_BLOCKS, KERNELS, CARDS,
                    VOUCHED):
        yield from with_table_again(section)
    yield from WITHOUT_TABLE
    for section in (REASONS, OTHER_LINES):
        yield from with_table_again(section)
