"""Inputs for the program `ticks`, good and damaged; generate.py prints them.

An input is three lines, a block in hex, a UTC stamp and a count, or fewer, or
more.  Each part is mostly good, so that the later ones are reached.
"""

import second
from desk_lines import on_one_line
from generate import (BULLETIN, LAST_LABEL, N, PICTURES, T, WRONG_DECIMALS, Dice, is_label, label_at_step, random_either_block,
                      random_label, random_table, random_text, text_of)
from second import UTC

LONGEST, MOST = second.LONGEST_LINE_OF_TICKS, second.MOST_TICKS

NO_HEX = ('0', '010', '030C0C0', 'zz', '0041zz', '0x01', '03 0C 0C', ' 01', '01 ', '01\r', '01\t', '-', '\xb9\xb2', '01\x00', '01%')
LONG_BLOCKS = ('01' * (LONGEST // 2), '01' * (LONGEST // 2 + 1), '0' * (LONGEST + 1), 'z' * LONGEST, 'z' * 3_000)
LONG_STAMPS = ('1972-01-01T00:00:00'.ljust(LONGEST), '1972-01-01T00:00:00'.ljust(LONGEST + 1), '1972-01-01T00:00:00.' + '0' * 3_000)
NO_COUNTS = ('', str(MOST + 1), '36000', '9' * 20, '4294967299', '18446744073709551619', '+3', '-0', '-3', ' 3', '3 ', '3\r', '3.0', '0x3',
             '1e1', 'three', '3\x00', '\xb3', '9' * LONGEST)
LONG_COUNTS = ('3'.rjust(LONGEST, '0'), '3'.rjust(LONGEST + 1, '0'), '9' * (LONGEST + 1), '3'.ljust(2_000))
COUNTS = ('0', '1', '2', '3', '3', '4', '5', '6', '10', '61', '003', '0000', '0' * 30 + '7')
LONG_LISTINGS = (str(MOST), str(MOST - 1), f'0{MOST}', str(MOST).rjust(LONGEST, '0'))


def block_of(dice):
    """The line and the table that the rest of the input is about."""
    kind = dice.weighted(((50, 'known'), (30, 'random'), (8, 'any'), (6, 'no hex'), (3, 'long'), (3, 'empty')))
    table = random_table(dice) if kind == 'random' else dice.pick((BULLETIN, T, T, N, N))
    line = second.block_of_table(table).hex()
    if kind == 'any':
        line = random_either_block(dice, table).hex()
    elif kind == 'no hex':
        line = dice.pick(NO_HEX)
    elif kind == 'long':
        line = dice.pick(LONG_BLOCKS)
    elif kind == 'empty':
        line = ''
    return dice.pick((line, line.upper(), line.swapcase())), table


def label_about_edge(dice, table):
    kind = dice.weighted(((6, 'step'), (2, 'end'), (2, 'any')))
    if kind == 'end':
        return LAST_LABEL._replace(minute=dice.pick((59, 59, 0)), second=dice.between(50, 59))
    return label_at_step(dice, table) if kind == 'step' else random_label(dice, table)


def good_label(dice, table):
    while True:
        label = label_about_edge(dice, table)
        if is_label(table, UTC, label):
            return label


def stamp_of(dice, table):
    kind = dice.weighted(((78, 'good'), (12, 'any'), (4, 'fraction'), (4, 'damaged'), (2, 'long')))
    if kind == 'any':
        return on_one_line(random_text(dice, table)).split('.')[0]
    if kind == 'long':
        return dice.pick(LONG_STAMPS)
    decimals = dice.pick(('.0', '.5', '.000000', *WRONG_DECIMALS)) if kind == 'fraction' else ''
    text = text_of(dice.pick(PICTURES), good_label(dice, table), decimals)
    return text + dice.pick(('Z', ' ', '\r', '\x00')) if kind == 'damaged' else text


def count_of(dice):
    kind = dice.weighted(((84, 'good'), (10, 'none'), (3, 'too long'), (3, 'many')))
    return dice.pick({'good': COUNTS, 'none': NO_COUNTS, 'too long': LONG_COUNTS, 'many': LONG_LISTINGS}[kind])


def random_input(dice):
    block, table = block_of(dice)
    lines = [block, stamp_of(dice, table), count_of(dice)]
    lines = lines[:dice.pick((0, 1, 2))] if dice.chance(0.05) else lines
    end = dice.pick(('\n', '\n', '\n', '', '\nnot read', '\n\n', '\n01\n1972-01-01T00:00:00\n1\n'))
    return ('\n'.join(lines) + end).encode('latin-1')


def random_inputs(seed, count):
    dice = Dice(seed)
    for _ in range(count):
        yield random_input(dice)
