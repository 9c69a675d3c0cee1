#!/usr/bin/env python3
"""Self-checks of the second program: python3 test_second.py

Expected answers are written by hand from the scope and from the readings of
its silent places, not taken from the program.
"""

import datetime
import io
import itertools
import math
import os
import re
import shlex
import shutil
import struct
import subprocess
import sys
import tempfile
from fractions import Fraction

import desk
import desk_lines
import generate
import second
import ticks_inputs
from second import GPS, TAI, TDT, UTC, Label

HERE = os.path.dirname(os.path.abspath(__file__))
B_LINE = 'table 28 28 ' + ' '.join(f'{(year - 1972) * 12 + month - 1} {offset}' for year, month, offset in second.BULLETIN_C)
T_LINE = 'table 3 3 0 10 6 11 12 12'
N_LINE = 'table 2 2 0 10 6 9'
CALLS_WITH_MARKS = ('instant_of', 'stamp_of', 'read_text', 'write_text', 'write_julian', 'read_julian', 'start', 'tick')


def answers(*lines, end='\n'):
    """What the program `calls` answers to these lines."""
    output = io.BytesIO()
    second.program_calls(io.BytesIO('\n'.join(lines).encode('latin-1') + end.encode()), output)
    return output.getvalue().decode().splitlines()


def expect(line, answer, table=B_LINE):
    """The answer without its marks: a table line gives no month, so they are 0."""
    if line.split(' ')[0] in CALLS_WITH_MARKS:
        answer += ' 0'
    ok, found = answers(table, line)
    assert (ok, found) == ('ok', answer), f'{table[:40]} | {line[:200]}: expected {answer}, found {found}'


def text_call(scale, text):
    return f'read_text {scale} ' + (text.encode('latin-1').hex() or '-')


def expect_text(scale, text, instant, fields, table=B_LINE):
    expect(text_call(scale, text), f'0 {instant} {scale} {fields}', table)


def expect_refusal(scale, text, number, table=B_LINE):
    expect(text_call(scale, text), f'{number} 0 0 0 0 0 0 0 0 0', table)


def kernel_call(file):
    return 'read_kernel ' + (file.hex() or '-')


def expect_kernel(file, answer):
    expect(kernel_call(file), answer)


def expect_kernel_fault(file, place):
    expect_kernel(file, f'14 {place} 0 0')


def cards_call(file):
    return 'read_cards ' + (file.hex() or '-')


def expect_cards(file, answer):
    expect(cards_call(file), answer)


def expect_card_fault(file, place):
    expect_cards(file, f'15 {place} 0 0')


def expect_written(instant, picture, scale, digits, text):
    expect(f'write_text {instant} {picture} {scale} {digits} {len(text)}', f'0 {len(text)} {text.encode().hex()}')


def bits(double):
    return struct.pack('>d', double).hex()


def expect_julian(midnight, fraction, answer, scale=TAI, table=B_LINE):
    expect(f'read_julian {scale} {bits(midnight)} {bits(fraction)}', answer, table)


# ---------------------------------------------------------------------------
# The scope

def test_worked_on_the_night_desk():
    expect_text(UTC, '1972-01-01T00:00:00', -883_655_990_000_000, '1972 1 1 0 0 0 0')
    expect_text(UTC, '1972-06-30T23:59:60', -867_931_190_000_000, '1972 6 30 23 59 60 0', T_LINE)
    expect_text(UTC, '1972-07-01T00:00:00', -867_931_189_000_000, '1972 7 1 0 0 0 0', T_LINE)
    expect_text(UTC, '1972-06-30T23:59:58', -867_931_192_000_000, '1972 6 30 23 59 58 0', N_LINE)
    expect_text(UTC, '1972-07-01T00:00:00', -867_931_191_000_000, '1972 7 1 0 0 0 0', N_LINE)
    expect_refusal(UTC, '1972-06-30T23:59:59', 6, N_LINE)
    expect_text(UTC, '2016-366T23:59:60', 536_500_836_000_000, '2016 12 31 23 59 60 0')
    expect_text(UTC, '2017-01-01T00:00:00', 536_500_837_000_000, '2017 1 1 0 0 0 0')
    expect_text(UTC, '1986 APR 12 16:31:09.814', -433_020_507_186_000, '1986 4 12 16 31 9 814000')
    expect_refusal(TAI, '2016-12-31T23:59:60', 5)
    expect('read_block 8100', '10 0 0 0')
    expect('read_block 0100', '12 1 0 0')
    expect('read_block 0201', '11 1 0 0')
    expect('read_block -', '9 0 0 0')
    expect('read_block 41', '11 0 0 0')
    expect_written(-1, 0, TAI, 0, '2000-01-01T11:59:59')
    expect_text(TDT, '1972-01-01T00:00:00', -883_656_032_184_000, '1972 1 1 0 0 0 0')
    expect('write_text -883656032184000 0 1 0 19', '7 0 ' + 'a5' * 19)
    expect('write_julian 0 1', f'0 {bits(2451544.5)} {bits(0.5)}')
    expect('write_julian 536500836250000 0', f'0 {bits(2457753.5)} 3fefffedcbb7564f')
    expect_julian(2441498.5, 1 / 128, '0 -868016915007812', UTC, N_LINE)


def test_table_and_clock():
    assert answers('write_block 29') == ['0 29 1c0c0c18181818181818241818303c3018241818242424a80148544824']
    assert answers('write_block 29', B_LINE, 'write_block 29')[0::2] == answers('write_block 29') * 2
    expect('read_block 030C0c', '0 0 3 3 0 10 6 11 12 12')
    expect('read_block 020d', '0 0 2 2 0 10 6 9')
    expect('read_block 01', '0 0 1 1 0 10')
    expect('start', '0 1972 1 1 0 0 0')
    expect('tick 1972 6 30 23 59 59', '0 1972 6 30 23 59 60', T_LINE)
    expect('tick 1972 6 30 23 59 60', '0 1972 7 1 0 0 0', T_LINE)
    expect('tick 1972 6 30 23 59 58', '0 1972 7 1 0 0 0', N_LINE)
    expect('tick 1972 6 30 23 59 59', '6 0 0 0 0 0 0', N_LINE)
    expect('tick 9999 12 31 23 59 59', '7 0 0 0 0 0 0')
    expect('tick 9999 12 31 23 59 58', '0 9999 12 31 23 59 59')


def test_neighbouring_steps():
    down_up = 'table 3 3 0 10 1 9 2 10'
    expect('tick 1972 1 31 23 59 58', '0 1972 2 1 0 0 0', down_up)
    expect('tick 1972 2 29 23 59 59', '0 1972 2 29 23 59 60', down_up)
    up_down = 'table 3 3 0 10 1 11 2 10'
    expect('tick 1972 1 31 23 59 59', '0 1972 1 31 23 59 60', up_down)
    expect('tick 1972 2 29 23 59 58', '0 1972 3 1 0 0 0', up_down)
    expect('tick 9999 11 30 23 59 59', '0 9999 11 30 23 59 60', 'table 2 2 0 10 96335 11')


def test_listing():
    def listing(*lines):
        return second.listing(list(lines))
    assert listing(b'030C0C', b'1972-06-30T23:59:59', b'3') == (
        b'UTC TAI\n1972-06-30T23:59:59 -867931191\n1972-06-30T23:59:60 -867931190\n1972-07-01T00:00:00 -867931189\n')
    good = (b'01', b'9999-365T23:59:58', b'3600')
    assert listing(*good) == b'UTC TAI\n9999-12-31T23:59:58 252455572808\n9999-12-31T23:59:59 252455572809\n'
    for place, line, number in ((0, b'', 9), (0, b'0041zz', 2), (0, b'0041', 11), (0, b'010', 2), (0, b'0x01', 2), (0, b'01\r', 2),
                                (0, b'01' * 512, 12), (0, b'01' * 513, 2), (1, b'', 2), (1, b'1972-01-01T00:00:00.0', 2),
                                (1, b'1971-01-01T00:00:00', 3), (1, b'1972-01-01T00:00:00\r', 2), (1, b'1972-06-30T23:59:60', 6),
                                (2, b'', 8), (2, b'3601', 8), (2, b'+3', 8), (2, b'-0', 8), (2, b'3 ', 8), (2, b'3\r', 8),
                                (2, b'9' * 1024, 8), (2, b'0' * 1025, 2)):
        lines = [*good[:place], line, *good[place + 1:]]
        assert listing(*lines) == b'refused %d\n' % number, lines
    assert listing(b'zz', b'', b'') == b'refused 2\n' and listing(b'01', b'1971-01-01T00:00:00', b'x') == b'refused 3\n'
    assert listing(b'01', b'1972-01-01T00:00:00', b'0') == b'UTC TAI\n'
    assert listing(b'01', b'1972-01-01T00:00:00', b'0' * 1023 + b'1') == b'UTC TAI\n1972-01-01T00:00:00 -883655990\n'


def test_ticks_reads_three_lines_only():
    def ticks_then_rest(given):
        script = shlex.join([sys.executable, '-B', os.path.join(HERE, 'second.py'), 'ticks']) + '; cat'
        return subprocess.run(['sh', '-c', script], input=given, stdout=subprocess.PIPE, check=True).stdout
    assert ticks_then_rest(b'01\n1972-01-01T00:00:00\n1\nrest') == b'UTC TAI\n1972-01-01T00:00:00 -883655990\nrest'
    assert ticks_then_rest(b'') == b'refused 9\n'
    assert ticks_then_rest(b'01\n1972-001T00:00:00') == b'refused 8\n'
    assert ticks_then_rest(b'01' * 600 + b'\n\n\n').startswith(b'refused 2\n')


# ---------------------------------------------------------------------------
# The kernel

H = b'\\begindata\n'
NAME = b'DELTET/DELTA_AT'
G = b'DELTET/DELTA_AT=(10,@1972-JAN-1)'
ONE_ENTRY = '0 0 1 1 0 10'
B_WORDS = '0 0 ' + B_LINE.removeprefix('table ')


def test_rows_of_the_kernel():
    assert len(generate.BAD_KERNELS) == 17 and len(generate.GOOD_KERNELS) == 2
    for file, place in generate.BAD_KERNELS:
        expect_kernel_fault(file, place)
    for file in generate.GOOD_KERNELS:
        expect_kernel(file, ONE_ENTRY)
    expect_kernel(generate.published_kernel(), B_WORDS)
    expect_kernel(generate.foreign_kernel(), B_WORDS)
    expect_kernel_fault(generate.published_kernel().replace(b'JUL-1', b'JUL-2', 1), generate.published_kernel().index(b'@1972-JUL'))


def test_places_in_dates():
    for date in (b'@1972-JAN-1', b'@1972-jan-01', b'@1972-jAN-1'):
        expect_kernel(H + NAME + b'=(10 ' + date + b')', ONE_ENTRY)
    for date in (b'@1972-JAN-12', b'@1972-JAN-1x', b'@1972-JAN', b'@1972-JAN-', b'@1972-JAN-0', b'@1972-JAN-2', b'@1972-JAN-011', b'@',
                 b'@1971-DEC-1', b'@1972-JAN-1@', b'@1972-JAN-1+', b'@972-JAN-1', b'@10000-JAN-1', b'@1972-01-1', b'@1972-MAI-1',
                 b'@+1972-JAN-1'):
        for after in b'), \t\r\n(=\'\\\x00\x80':
            expect_kernel_fault(H + NAME + b'=(10 ' + date + bytes([after]), 31)
    for date in (b'@1971', b'@196', b'@18', b'@0', b'@1972-O1', b'@1972-JU-', b'@1972-JAN-3', b'@1972-JAN-00', b'@1972-JAN-1a', b'@x'):
        expect_kernel_fault(H + NAME + b'=(10 ' + date, 31)
    for date in (b'@', b'@1', b'@19', b'@2', b'@9', b'@1999', b'@1972-', b'@1972-d', b'@1972-jU', b'@1972-DEC-', b'@1972-DEC-0',
                 b'@1972-DEC-01'):
        expect_kernel_fault(H + NAME + b'=(10 ' + date, 31 + len(date))
    for after in b"(='\\\x00\x80":
        expect_kernel_fault(H + NAME + b'=(10 @1972-JAN-1' + bytes([after]), 42)


def test_places_in_our_assignment():
    for wrong, place in ((b'=1', 27), (b"='x'", 27), (b'==', 27), (b' +=(', 27), (b'+', 26), (b'(', 26), (b'\\', 26), (b'=()', 28),
                         (b'=(,)', 29), (b'=(@1972-JAN-1)', 28), (b'=(+)', 29), (b'=(--1', 29), (b"=('10'", 28), (b'=(1e1', 29),
                         (b'=(10 11 @', 31), (b'=(10,)', 31), (b'=(10\n\\begintext', 31), (b'=(10 @1972-JAN-1,@1972-FEB-1)', 43),
                         (b'=(10 @1972-JAN-1 11)', 45), (b'=(\x80', 28), (b'=', 27), (b'=(', 28), (b'=(+', 29), (b'=(10', 30),
                         (b'=(10 ', 31), (b'=(10 @1972-JAN-1', 42), (b'=(10 @1972-JAN-1, ', 44)):
        expect_kernel_fault(H + NAME + wrong, place)
    for number in (b'+10', b'0010', b'+' + b'0' * 5_000 + b'10'):
        expect_kernel(H + NAME + b' = (' + number + b',@1972-JAN-1)', ONE_ENTRY)
    for number in (b'-10', b'9', b'4294967306', b'18446744073709551626', b'1' + b'0' * 5_000 + b'10', b'-0'):
        expect_kernel(H + NAME + b'=(' + number + b',@1972-JAN-1)', '11 0 0 0')
    expect_kernel(H + NAME + b'=(10,@1972-JAN-1,9,@9999-DEC-1)', '0 0 2 2 0 10 96335 9')
    expect_kernel(H + NAME + b'=(10,@1972-FEB-1)', '11 0 0 0')
    for count, number in ((64, 0), (65, 11), (200, 11)):
        pairs = b' '.join(b'%d @%d-JAN-1' % (10 + i, 1972 + i) for i in range(count))
        assert answers(kernel_call(H + NAME + b'=(' + pairs + b')'))[0].startswith(f'{number} 0 ')
        expect_kernel_fault(H + NAME + b'=(' + pairs, 28 + len(pairs))


def test_places_between_assignments():
    for after, place in ((b'A', 44), (b'A ', 45), (b'A B', 45), (b'A+ =', 45), (b'A+', 45), (b'A=', 45), (b'A=(', 46), (b'A=()', 46),
                         (b'A=(1', 47), (b"A=(1'x')", 47), (b"A=('x'1)", 49), (b'A=((', 46), (b'A=(=', 46), (b'A=1=', 46), (b'A=1(', 46),
                         (b"A=1'", 46), (b'A=1\\', 46), (b"A='", 46), (b"A='x\n'", 47), (b"A='\\", 46), (b"A='''", 48),
                         (b"A='x'\\begintext", 48), (b"A='x' 'y'", 49), (b'A=\x7f', 45), (b'A=\n\\begintext', 46), (b'(', 43), (b')', 43),
                         (b'@', 43), (b'+', 43), (b'=', 43), (b"'", 43), (b'\x80', 43), (b'\x00', 43), (NAME + b' ', 43),
                         (NAME + b'+=(', 43), (NAME + b'\\', 43), (NAME + b'\x80', 43), (NAME + b'X', 59), (NAME, 58), (b'\n\\', 45),
                         (b'\n\\begintex', 53), (b'\n\\begintextt', 54), (b'\n\\begintext x', 55), (b'\n\\begintext\\', 54),
                         (b'\n\\Begintext', 45)):
        expect_kernel_fault(H + G + after, place)
    for after in (b'', b'A=1', b'A+=+', b"A=''''", b"A=('x''y')", b"A='x'B='\x00\xff\r'", b'A=(,1,,2\n,)', b'A\n=\n1', NAME + b'X=1',
                  b'A=' + NAME, b'deltet/delta_at=1', b'\n\\begintext', b'\r\n\t\\begintext \r', b'\n\\begintext\n' + G,
                  b'\n\\begintext\n\\begindata', b'\n\\begintext\n\\begindata\nA=1'):
        expect_kernel(H + G + after, ONE_ENTRY)
    for before in (b'text\n', b'\xff\x00\n', b'\\begindata x\n', b'x \\begindata\n', b'\\begindataa\n', b'\\begintext\n',
                   b'\\begindata\n\n\\begintext\n', b' \t\r'):
        expect_kernel(before + H + G, ONE_ENTRY)
    for text in (b'\\begindata x\n' + G, b'x\\begindata\n' + G, b'\\BEGINDATA\n' + G, H + b'A=1\n\\begintext\n' + G):
        expect_kernel_fault(text, len(text))
    expect_kernel_fault(H + G + b'\n\\begintext\n' + H + G, 66)


def test_limit_of_kernels():
    def padded(size, end):
        return b'x' * (size - 1 - len(end)) + b'\n' + end
    for size in (65_535, 65_536):
        expect_kernel(padded(size, H + G), ONE_ENTRY)
        expect_kernel_fault(padded(size, H), size)
    for size in (65_537, 65_538, 69_994):
        expect_kernel_fault(padded(size, H + G), 65_536)
        expect_kernel_fault((H + G + b'(').ljust(size), 43)
    expect_kernel_fault(padded(65_536, H + G + NAME) + b'=', 65_536)
    expect_kernel_fault(padded(65_536, H + G + NAME + b'=') + b'=', 65_520)
    expect_kernel_fault(padded(65_536, H + NAME + b'=(10 @1972-JA') + b'X', 65_536)
    expect_kernel_fault(padded(65_536, H + NAME + b'=(10 @1972-JX') + b'X', 65_528)
    expect_kernel_fault(padded(65_536, H + G) + b'(', 65_536)
    expect_kernel_fault(padded(65_536, G), 65_536)
    for worst in (b'A=1 ', b'A=(1,,1)', b"A=''", b'\n\\begintext\n\\begindata\n', b' ', b"A='''" + b"''" * 40 + b"'"):
        expect_kernel(H + G + worst * ((65_536 - 43) // len(worst)), ONE_ENTRY)


def test_written_kernels():
    one = b'\\begindata\nDELTET/DELTA_AT = ( 10, @1972-JAN-1 )\n\\begintext\n'
    expect('write_kernel 60', f'0 60 {one.hex()}', 'table 1 1 0 10')
    expect('write_kernel 61', f'0 60 {one.hex()}a5', 'table 1 1 0 10')
    expect('write_kernel 59', '1 0 ' + 'a5' * 59, 'table 1 1 0 10')
    two = b'\\begindata\nDELTET/DELTA_AT = ( 10, @1972-JAN-1\n                    9, @9999-DEC-1 )\n\\begintext\n'
    expect('write_kernel 95', f'0 95 {two.hex()}', 'table 2 2 0 10 96335 9')
    expect('write_kernel 2', '11 0 a5a5', 'table 2 2 0 10 96335 8')
    expect('write_kernel 0', '11 0 -', 'table 0 0')
    assert len(second.write_kernel(second.table_of_bulletin_c(), 1_032)) == 1_032
    sizes = [len(second.write_kernel(table, 4_096)) for _, table in generate.good_tables()]
    assert (min(sizes), max(sizes)) == (60, 2_362)


# ---------------------------------------------------------------------------
# The cards

FIRST = b'            10.0                                      32.184 72001000000.000  TP'
JULY = b'            11.0                                      32.184 72183000000.000  TP'
NEXT = b'            12.0                                      32.184 73001000000.000  TP'
TWO_ENTRIES = '0 0 2 2 0 10 6 11'


def in_columns(line, first, field):
    """The card with this field from a column on, counted from 1."""
    assert len(line) == 80 and first + len(field) <= 81
    return line[:first - 1] + field + line[first - 1 + len(field):]


def second_card(first, field):
    return FIRST + b'\n' + in_columns(JULY, first, field) + b'\n'


def test_cards_are_written_at_their_columns():
    one, down = FIRST + b'\n', b'             9.0                                      32.184 49335000000.000  TP\n'
    assert len(one) == len(down) == 81 and one[12:16] == b'10.0' and one[54:60] == b'32.184' and one[61:66] == b'72001'
    expect('write_cards 81', f'0 81 {one.hex()}', 'table 1 1 0 10')
    expect('write_cards 83', f'0 81 {one.hex()}a5a5', 'table 1 1 0 10')
    expect('write_cards 80', '1 0 ' + 'a5' * 80, 'table 1 1 0 10')
    expect('write_cards 0', '1 0 -', 'table 1 1 0 10')
    expect('write_cards 162', f'0 162 {(one + down).hex()}', 'table 2 2 0 10 935 9')
    expect('write_cards 2', '7 0 a5a5', 'table 2 2 0 10 936 9')
    expect('write_cards 0', '7 0 -', 'table 2 2 0 10 96335 11')
    expect('write_cards 2', '11 0 a5a5', 'table 2 2 0 10 936 8')
    expect('write_cards 0', '11 0 -', 'table 0 0')
    most = answers('table 64 64 ' + ' '.join(f'{month} {10 - month}' for month in range(64)), 'write_cards 5184')[1]
    last = b'           -53.0                                      32.184 77091000000.000  TP\n'
    assert most.startswith('0 5184 ') and most.endswith(last.hex())
    written = bytes.fromhex(answers('write_cards 2268')[0].removeprefix('0 2268 '))
    lines = written.splitlines()
    assert lines[:3] == [FIRST, JULY, NEXT] and len(lines) == 28 and set(map(len, lines)) == {80}
    assert written.endswith(b'            37.0                                      32.184 17001000000.000  TP\n')
    expect_cards(written, B_WORDS)
    sizes = [len(second.write_cards(table, 8_192)) for _, table in generate.good_tables() if table.used_months[-1] <= 935]
    assert (min(sizes), max(sizes)) == (81, 5_184)


def test_order_of_cards():
    expect_cards(b'\n'.join((FIRST, JULY, NEXT)), '0 0 3 3 0 10 6 11 12 12')
    expect_cards(b'\n'.join((NEXT, JULY, FIRST)), '0 0 3 3 0 10 6 11 12 12')
    for cards, place in (((FIRST, FIRST), 81), ((FIRST, JULY, FIRST), 162), ((FIRST, JULY, JULY), 162), ((JULY, FIRST, NEXT), 162),
                         ((NEXT, FIRST, JULY), 162), ((FIRST, NEXT, JULY), 162), ((NEXT, JULY, JULY, FIRST), 162), ((NEXT, NEXT, b'x'), 81),
                         ((FIRST, JULY, NEXT, JULY), 243), ((FIRST, JULY, NEXT, NEXT), 243), ((NEXT, JULY, FIRST, JULY), 243)):
        expect_card_fault(b'\n'.join(cards) + b'\n', place)
        expect_card_fault(b'* a comment\n\n' + b'\n'.join(cards), 13 + place)
    for cards in ((JULY,), (JULY, NEXT), (NEXT, JULY), (FIRST, NEXT), (in_columns(FIRST, 13, b'11.0'),),
                  (FIRST, in_columns(JULY, 13, b'10.0')), (in_columns(FIRST, 13, b'11.0'), in_columns(JULY, 13, b'10.0'))):
        expect_cards(b'\n'.join(cards), '11 0 0 0')


def test_number_of_cards():
    def some(count, step=1):
        return [in_columns(in_columns(FIRST, 12, b'%3d.0' % (10 + step * i)), 62, b'%02d001' % ((72 + i) % 100)) for i in range(count)]
    for count in (64, 65, 66, 78):
        for lines in (some(count), some(count)[::-1], some(count, -1)):
            answer = answers(cards_call(b'\n'.join(lines)))[0]
            assert answer.startswith('0 0 64 64 0 10 12 ' if count == 64 else '11 0 0 0'), answer
            expect_card_fault(b'\n'.join([*lines, b'x']), 81 * count)
            expect_card_fault(b'\n'.join([*lines, lines[-1]]), 81 * count)
    months = [FIRST[:61] + second.card_date(month) + FIRST[76:] for month in range(864)]
    assert len('read_cards ') + 2 * 864 * 81 < 140_000 and len(set(months)) == 864
    expect_cards(b'\n'.join(months) + b'\n', '11 0 0 0')
    expect_card_fault(b'\n'.join(months[:-1]) + b'\n' + months[0] + b'\n', 81 * 863)
    for none in (b'', b'\n', b'\n\n', b' ', b' ' * 80, b'*', b'C' + FIRST[1:], b'c\n \n'):
        expect_cards(none, '11 0 0 0')


def test_lines_of_cards():
    """What is passed over, of any length, and what is bad: each between two cards and behind them."""
    passed = (b'', b' ', b' ' * 79, b' ' * 80, b' ' * 81, b' ' * 5_000, b'*', b'C', b'c', b'*\r', b'Comment', b'c\xff\x00', b'*' * 5_000,
              b'*' + JULY[1:], b'C' + JULY[1:])
    for line in passed:
        expect_cards(FIRST + b'\n' + line + b'\n' + JULY + b'\n' + line, TWO_ENTRIES)
    bad = (b'\r', b'\t', b'\x00', b'x', b' *', b'TP', b' ' * 78 + b'TP', JULY[:-1], JULY[1:], JULY + b' ', JULY + b'\r', b' ' + JULY,
           JULY + JULY, JULY.lower(), in_columns(JULY, 79, b'ZP'), in_columns(JULY, 79, b'tp'), in_columns(JULY, 79, b' P'),
           in_columns(JULY, 80, b' '), in_columns(JULY, 1, b'0'), in_columns(JULY, 1, b'2'), in_columns(JULY, 1, b'\t'),
           in_columns(JULY, 1, b'\xa0'), b' ' * 80 + b'\r')
    for line in bad:
        expect_card_fault(FIRST + b'\n' + line + b'\n' + JULY + b'\n', 81)
        expect_card_fault(FIRST + b'\n' + JULY + b'\n' + line, 162)
        expect_card_fault(b'* x\n' + line + b'\nx', 4)
    for first, field in ((1, b'1'), (77, b'XY'), (77, b'\x00\xff'), (77, b'TP')):
        expect_cards(second_card(first, field), TWO_ENTRIES)
    expect_cards(b'\n'.join((b'', FIRST, b'', JULY)), TWO_ENTRIES)
    expect_card_fault(b'\r\n'.join((FIRST, JULY)), 0)
    expect_card_fault(b'\n' + FIRST + b'\n\n  \n' + JULY[:79] + b'\n' + b'x', 86)


def test_fields_of_cards():
    for tai in (b'             11', b'            11.', b'11             ', b'   +11.000     ', b'000000000000011', b'+11.00000000000',
                b'11.000000000000'):
        expect_cards(second_card(2, tai), TWO_ENTRIES)
    for tai in (b'             12', b'            -11', b'             -0', b'             .0', b'999999999999999', b'-99999999999999',
                b'4294967307     ', b'100000000000011', b'            23.'):
        expect_cards(second_card(2, tai), '11 0 0 0')
    for tai in (b'', b'.', b'+', b'-.', b'11.5', b'1 1', b'+ 11', b'--11', b'1e1', b'11D0', b'11..', b'1.1.', b'11,0', b'\t11', b'11\x00',
                b'\xb911', b'11.00000000001', b'10.999999999999', b'0x0B', b'1_1', b'11+', b'11 0'):
        expect_card_fault(second_card(2, tai.rjust(15)), 81)
        expect_card_fault(second_card(2, tai.ljust(15)), 81)
    for tdt in (b'         32.184', b'32.1840        ', b'+32.184        ', b'32.184000000000', b'00000000032.184'):
        expect_cards(second_card(47, tdt), TWO_ENTRIES)
    for tdt in (b'', b'32.18', b'32.184.', b'.32184', b'-32.184', b'32.1841', b'32.18400000001', b'32.183999999999', b'32', b'3.2184e1',
                b'32 .184', b'+ 32.184', b'32.184x', b'4294999.480', b'321.84'):
        expect_card_fault(second_card(47, tdt.rjust(15)), 81)
    for first in (17, 32):
        for ut1 in (b'0', b'-0.92429', b'+.5', b'5.', b'123456789012345'):
            expect_cards(second_card(first, ut1.rjust(15)), TWO_ENTRIES)
            expect_cards(second_card(first, ut1.ljust(15)), TWO_ENTRIES)
        for ut1 in (b'.', b'-', b'1E0', b'1.2.3', b'1 2', b'\t', b'- 1', b'x', b'\xb2'):
            expect_card_fault(second_card(first, ut1.rjust(15)), 81)
    expect_cards(second_card(31, b'12'), TWO_ENTRIES)
    expect_card_fault(second_card(31, b' .'), 81)
    expect_card_fault(second_card(46, b'1-'), 81)
    zero = b'\n'.join(in_columns(in_columns(FIRST, 12, b'%3d.0' % (10 - i)), 62, b'%02d001' % (72 + i)) for i in range(11))
    for tai in (b'  0.0', b'   -0', b' -.00', b'   .0'):
        assert answers(cards_call(zero[:-80] + in_columns(zero[-80:], 12, tai)))[0].endswith(' 108 1 120 0')


def test_dates_of_cards():
    for date, month in ((b'72032', 1), (b'72061', 2), (b'73060', 14), (b'73091', 15), (b'76092', 51), (b'99335', 335), (b'00001', 336),
                        (b'00061', 338), (b'00336', 347), (b'01060', 350), (b'49001', 924), (b'49335', 935), (b'48336', 923)):
        expect_cards(second_card(62, date), f'0 0 2 2 0 10 {month} 11')
    for date in (b'72000', b'72002', b'72031', b'72060', b'73061', b'73366', b'72366', b'72367', b'72999', b'72182', b'83181', b'85181',
                 b'50001', b'71001', b'71335', b'00060', b'49336', b'01061', b'72 32', b' 2032', b'7203 ', b'72+32'):
        expect_card_fault(second_card(62, date), 81)
    for rest in (b'000001.000', b'010000.000', b'240000.000', b'000000.001', b'000000 000', b'000000.00 ', b' 00000.000', b'      .   ',
                 b'0000000000', b'000000,000'):
        expect_card_fault(second_card(67, rest), 81)
    for year, answer in ((b'72', '0 0 1 1 0 10'), (b'71', '15 0 0 0'), (b'50', '15 0 0 0'), (b'49', '11 0 0 0'), (b'00', '11 0 0 0'),
                         (b'99', '11 0 0 0')):
        expect_cards(in_columns(FIRST, 62, year), answer)
    first_days = [datetime.date(year, month, 1) for year in range(1972, 2050) for month in range(1, 13)]
    assert [second.card_date(month) for month in range(936)] == [day.strftime('%y%j000000.000').encode() for day in first_days]
    for lines, answer in ((generate.SOURCE_CARDS, '15 0 0 0'), (generate.SOURCE_CARDS[1:], '15 0 0 0'),
                          (generate.SOURCE_CARDS[2:], '15 0 0 0'), (generate.SOURCE_CARDS[3:], ONE_ENTRY),
                          (generate.SOURCE_CARDS[:1:-1], '15 81 0 0')):
        expect_cards(b'\n'.join(lines), answer)


def test_random_cards():
    """Each kind of answer, often; what is written reads back, also the other way round; lines are not too long."""
    dice, found = generate.Dice(5), {}
    for _ in range(2_000):
        line = generate.cards_line(generate.random_cards(dice, generate.BULLETIN))
        number = answers(line)[0].split()[0]
        found[number] = found.get(number, 0) + 1
        assert len(line) < 140_000
    assert set(found) == {'0', '11', '15'} and min(found.values()) > 80, found
    for _ in range(200):
        table = generate.random_table_of_cards(dice, generate.BULLETIN)
        written = second.write_cards(table.vouched_to(dice.pick((0, 936, 96_336))), 8_192)
        assert second.read_cards(written).__dict__ == second.read_cards(b'\n'.join(written.splitlines()[::-1])).__dict__ == table.__dict__


# ---------------------------------------------------------------------------
# The vouched month

def expect_vouched(number, table, *lines_and_answers):
    """Whole answers, with their marks, once this number is set."""
    for line, answer in lines_and_answers:
        found = answers(table, f'vouch {number}', line)
        assert found == ['ok', 'ok', answer], f'{table[:40]} | vouch {number} | {line}: expected {answer}, found {found}'


def test_rows_of_the_vouched_month():
    expect_vouched(541, B_LINE, ('stamp_of 539179236999999 0', '0 0 2017 1 31 23 59 59 999999 0'),
                   ('stamp_of 539179237000000 0', '0 0 2017 2 1 0 0 0 0 1'), ('stamp_of 539179237000000 1', '0 1 2017 2 1 0 0 37 0 0'),
                   ('tick 2017 1 31 23 59 59', '0 2017 2 1 0 0 0 1'))
    expect_vouched(540, B_LINE, ('stamp_of 0 1', '11 0 0 0 0 0 0 0 0 0'), ('stamp_of 0 4', '8 0 0 0 0 0 0 0 0 0'))


def test_marks_of_each_call():
    """T is vouched to January 1973, its last entry's month: 31 days after -852,033,588, the second -849,355,188 is the first beyond."""
    january, february = bits(2441713.5), f'{bits(2441714.5)} {bits(0.0)}'  # the days 1973-01-31 and 1973-02-01
    last = bits(86_399_999_999 / 86_400_000_000)
    expect_vouched(
        13, T_LINE, ('instant_of 0 1973 1 31 23 59 59 999999', '0 -849355188000001 0'),
        ('instant_of 0 1973 2 1 0 0 0 0', '0 -849355188000000 1'), ('stamp_of -849355188000001 0', '0 0 1973 1 31 23 59 59 999999 0'),
        ('stamp_of -849355188000000 0', '0 0 1973 2 1 0 0 0 0 1'),
        (text_call(UTC, '1973-031T23:59:59.999999'), '0 -849355188000001 0 1973 1 31 23 59 59 999999 0'),
        (text_call(UTC, '1973 FEB 01 00:00:00'), '0 -849355188000000 0 1973 2 1 0 0 0 0 1'),
        ('write_text -849355188000001 0 0 0 20', '0 19 ' + b'1973-01-31T23:59:59'.hex() + 'a5 0'),
        ('write_text -849355188000000 1 0 1 19', '0 19 ' + b'1973-032T00:00:00.0'.hex() + ' 1'),
        ('write_julian -849355188000001 0', f'0 {january} {last} 0'), ('write_julian -849355188000000 0', f'0 {february} 1'),
        (f'read_julian 0 {january} {last}', '0 -849355188000001 0'), (f'read_julian 0 {february}', '0 -849355188000000 1'),
        (f'read_julian 0 {january} {bits(1 - 2.0**-53)}', '0 -849355188000000 1'),
        ('start', '0 1972 1 1 0 0 0 0'), ('tick 1973 1 31 23 59 58', '0 1973 1 31 23 59 59 0'),
        ('tick 1973 1 31 23 59 59', '0 1973 2 1 0 0 0 1'), ('tick 1973 2 1 0 0 0', '0 1973 2 1 0 0 1 1'),
        ('tick 1974 1 1 0 0 0', '0 1974 1 1 0 0 1 1'), ('tick 1972 12 31 0 0 0', '0 1972 12 31 0 0 1 0'))


def test_no_marks_on_uniform_scales():
    midnight = '1973 2 1 0 0 0 0'
    for scale, instant in ((TAI, -849_355_200_000_000), (TDT, -849_355_232_184_000), (GPS, -849_355_181_000_000)):
        expect_vouched(13, T_LINE, (f'instant_of {scale} {midnight}', f'0 {instant} 0'),
                       (f'stamp_of {instant} {scale}', f'0 {scale} {midnight} 0'),
                       (text_call(scale, '1973-032T00:00:00'), f'0 {instant} {scale} {midnight} 0'),
                       (f'write_text {instant} 1 {scale} 0 17', f'0 17 {b"1973-032T00:00:00".hex()} 0'),
                       (f'write_julian {instant} {scale}', f'0 {bits(2441714.5)} {bits(0.0)} 0'),
                       (f'read_julian {scale} {bits(2441714.5)} {bits(0.0)}', f'0 {instant} 0'))


def test_steps_at_the_vouched_month():
    """The second before the last entry is not beyond, added or taken out; one at the vouched month's end has its entry after it."""
    expect_vouched(13, T_LINE, ('tick 1972 12 31 23 59 59', '0 1972 12 31 23 59 60 0'),
                   ('tick 1972 12 31 23 59 60', '0 1973 1 1 0 0 0 0'),
                   ('instant_of 0 1972 12 31 23 59 60 250000', '0 -852033588750000 0'),
                   ('stamp_of -852033588750000 0', '0 0 1972 12 31 23 59 60 250000 0'),
                   ('write_julian -852033588750000 0', f'0 {bits(2441682.5)} {bits(86_400_250_000 / 86_401_000_000)} 0'),
                   (f'read_julian 0 {bits(2441682.5)} {bits(1 - 2.0**-53)}', '0 -852033588000000 0'),
                   (text_call(UTC, '1973-01-31T23:59:60'), '6 0 0 0 0 0 0 0 0 0 0'))
    expect_vouched(12, T_LINE, ('tick 1972 12 31 23 59 59', '11 0 0 0 0 0 0 0'))
    expect_vouched(7, N_LINE, ('tick 1972 6 30 23 59 58', '0 1972 7 1 0 0 0 0'), ('tick 1972 6 30 23 59 59', '6 0 0 0 0 0 0 0'),
                   ('tick 1972 7 31 23 59 59', '0 1972 8 1 0 0 0 1'), ('stamp_of -865252791000001 0', '0 0 1972 7 31 23 59 59 999999 0'),
                   ('stamp_of -865252791000000 0', '0 0 1972 8 1 0 0 0 0 1'))
    expect_vouched(6, N_LINE, ('tick 1972 6 30 23 59 58', '11 0 0 0 0 0 0 0'))


def test_ends_of_the_vouched_month():
    one = 'table 1 1 0 10'
    expect_vouched(1, one, ('start', '0 1972 1 1 0 0 0 0'), ('tick 1972 1 31 23 59 59', '0 1972 2 1 0 0 0 1'))
    for number, marks in ((0, 0), (96_335, 1), (96_336, 0)):
        expect_vouched(number, one, ('tick 9999 11 30 23 59 59', f'0 9999 12 1 0 0 0 {marks}'),
                       ('tick 9999 12 31 23 59 58', f'0 9999 12 31 23 59 59 {marks}'), ('tick 9999 12 31 23 59 59', '7 0 0 0 0 0 0 0'),
                       ('tick 9999 11 30 23 59 58', '0 9999 11 30 23 59 59 0'),
                       ('stamp_of 252455572809999999 0', f'0 0 9999 12 31 23 59 59 999999 {marks}'))
    last = 'table 2 2 0 10 96335 9'
    expect_vouched(96_336, last, ('tick 9999 11 30 23 59 58', '0 9999 12 1 0 0 0 0'), ('write_block 4', '0 4 029fe10b'))
    for number in (1, 96_335, 96_337, 2**31, 2**32 - 1):
        expect_vouched(number, last, ('start', '11 0 0 0 0 0 0 0'))


def test_refusals_with_a_vouched_month():
    for number in (1, 12, 96_337, 4_294_967_295):
        expect_vouched(
            number, T_LINE, ('start', '11 0 0 0 0 0 0 0'), ('tick 0 0 0 0 0 0', '11 0 0 0 0 0 0 0'), ('write_block 2', '11 0 a5a5'),
            ('write_kernel 2', '11 0 a5a5'), ('write_cards 2', '11 0 a5a5'), ('instant_of 3 0 0 0 99 99 99 1000000', '11 0 0'),
            ('instant_of 4 0 0 0 99 99 99 1000000', '8 0 0'), (text_call(TAI, ''), '11 0 0 0 0 0 0 0 0 0 0'),
            (text_call(4, ''), '8 0 0 0 0 0 0 0 0 0 0'), ('write_text 0 0 1 0 1', '11 0 a5 0'), ('write_text 0 3 1 0 1', '8 0 a5 0'),
            ('write_julian 0 2', '11 0000000000000000 0000000000000000 0'), ('read_julian 1 7ff8000000000000 7ff8000000000000', '11 0 0'),
            ('read_block 030c0c', '0 0 3 3 0 10 6 11 12 12'))
    for table in ('table 0 0', 'table 0 1 0 10', 'table 65 1 0 10', 'table 18446744073709551615 1 0 10', 'table 2 2 0 10 6 12',
                  'table 1 2 0 10 6 0'):
        for number in (0, 1, 7, 96_336, 4_294_967_295):
            expect_vouched(number, table, ('stamp_of 0 0', '11 0 0 0 0 0 0 0 0 0'), ('stamp_of 0 4', '8 0 0 0 0 0 0 0 0 0'))
    expect_vouched(
        541, B_LINE, ('tick 10000 1 1 0 0 0', '3 0 0 0 0 0 0 0'), ('tick 2020 13 1 0 0 0', '4 0 0 0 0 0 0 0'),
        ('tick 2020 1 1 24 0 0', '5 0 0 0 0 0 0 0'), ('instant_of 0 2020 6 30 23 59 60 0', '6 0 0'),
        (text_call(UTC, '2020-06-30T23:59:59.'), '2 0 0 0 0 0 0 0 0 0 0'), ('stamp_of 252455572837000000 0', '7 0 0 0 0 0 0 0 0 0'),
        ('write_text 600000000000000 0 0 0 3', '1 0 a5a5a5 0'), ('write_text 600000000000000 0 0 7 0', '8 0 - 0'),
        ('write_julian 252455572837000000 0', '7 0000000000000000 0000000000000000 0'),
        (f'read_julian 0 {bits(5373483.5)} {bits(1.0)}', '13 0 0'), (f'read_julian 0 {bits(5373483.5)} {bits(1 - 2.0**-53)}', '7 0 0'))


def test_number_in_force():
    """A table line takes the month away; a line that is no call, a reader or a writer leaves it."""
    beyond, marked, plain = 'tick 2020 1 1 0 0 0', '0 2020 1 1 0 0 1 1', '0 2020 1 1 0 0 1 0'
    assert answers(beyond, 'vouch 541', beyond, B_LINE, beyond) == [plain, 'ok', marked, 'ok', plain]
    assert answers('vouch 540', beyond, 'vouch 541', beyond, 'vouch 0', beyond) == ['ok', '11 0 0 0 0 0 0 0', 'ok', marked, 'ok', plain]
    assert answers('vouch 0000541', beyond, 'vouch -0', beyond) == ['ok', marked, 'ok', plain]
    for line in ('vouch', 'vouch x', 'vouch 1 2', 'vouch 4294967296', 'table 1 1 0', 'read_block 01', 'read_block 00', 'write_block 0',
                 'write_kernel 1', kernel_call(H + G), 'write_cards 1', cards_call(FIRST)):
        assert answers('vouch 541', line, beyond)[-1] == marked, line
    for writer in ('write_block 29', 'write_kernel 1032', 'write_cards 2268'):
        assert answers('vouch 541', writer, 'vouch 0', writer)[1::2] == answers(writer) * 2


# ---------------------------------------------------------------------------
# New blocks, and blocks that are moved

B_HEX = '1c0c0c18181818181818241818303c3018241818242424a80148544824'
T_HEX = '030c0c'
NO_TABLE_LINE = 'table 0 0'
UNTOUCHED = 'a5'  # each byte of a lent buffer that is not written


def expect_new_block(block, answer):
    """Whatever table is in force."""
    for table in (B_LINE, NO_TABLE_LINE):
        expect('read_new_block ' + block, answer, table)


def expect_new_block_fault(block, number, place):
    """Read, and moved with no room and with room enough, into bytes that stay as they were."""
    expect_new_block(block, f'{number} {place} 0 0 0')
    expect(f'revert {block} 0', f'{number} {place} 0 -')
    expect(f'revert {block} 40', f'{number} {place} 0 ' + UNTOUCHED * 40)


def expect_block_fault(block, number, place):
    """The same of an old block; a month that no table can carry does not come before it."""
    expect('read_block ' + block, f'{number} {place} 0 0')
    for vouched in (0, 1, 96_337):
        expect(f'renew {block} {vouched} 0', f'{number} {place} 0 -', NO_TABLE_LINE)
        expect(f'renew {block} {vouched} 40', f'{number} {place} 0 ' + UNTOUCHED * 40)


def test_new_blocks_of_bulletin_c():
    entries = B_LINE.removeprefix('table 28 ')
    for number, opening in ((0, '0000'), (541, '009d04'), (96_336, '00d0f005')):
        size = len(opening + B_HEX) // 2
        assert size in (31, 32, 33)
        assert answers(f'vouch {number}', f'write_new_block {size}', f'write_new_block {size - 1}') == [
            'ok', f'0 {size} {opening}{B_HEX}', '1 0 ' + UNTOUCHED * (size - 1)]
        expect_new_block(opening + B_HEX, f'0 0 28 {number} {entries}')
        expect_new_block((opening + B_HEX).upper(), f'0 0 28 {number} {entries}')
        expect(f'renew {B_HEX} {number} {size}', f'0 0 {size} {opening}{B_HEX}', NO_TABLE_LINE)
        expect(f'revert {opening}{B_HEX} 29', f'0 0 29 {B_HEX}', NO_TABLE_LINE)
    expect_new_block_fault('009c04' + B_HEX, 11, 1)


def test_new_blocks_read():
    t_entries = '3 0 10 6 11 12 12'
    for number, month in ((0, '00'), (13, '0d'), (127, '7f'), (128, '8001'), (16_383, 'ff7f'), (16_384, '808001'), (96_335, 'cff005'),
                          (96_336, 'd0f005')):
        expect_new_block(f'00{month}{T_HEX}', f'0 0 3 {number} {t_entries}')
    expect_new_block('000001', '0 0 1 0 1 0 10')
    expect_new_block('000101', '0 0 1 1 1 0 10')
    expect_new_block('0007020d', '0 0 2 7 2 0 10 6 9')
    expect_new_block('00d0f005029fe10b', '0 0 2 96336 2 0 10 96335 9')


def test_openings_refused():
    """The first number, then the month's, each by its form and then by its value, before anything behind it."""
    for block, number, place in (('-', 9, 0), ('80', 9, 0), ('8080', 9, 0), ('808080', 10, 0), ('8000', 10, 0), ('808000', 10, 0),
                                 ('8100', 10, 0), ('01', 11, 0), ('02', 11, 0), ('7f', 11, 0), ('8001', 11, 0), ('ffff7f', 11, 0),
                                 ('01808080', 11, 0), ('03ffff7f', 11, 0)):
        expect_new_block_fault(block, number, place)
    for block, number, place in (('00', 9, 1), ('0080', 9, 1), ('008d', 9, 1), ('008080', 9, 1), ('00d1f0', 9, 1), ('00808080', 10, 1),
                                 ('00ffffff', 10, 1), ('008000', 10, 1), ('00808000', 10, 1), ('008d00030c0c', 10, 1),
                                 ('00d0f08500030c0c', 10, 1), ('00f1f00501', 11, 1), ('00d1f005', 11, 1), ('00d1f00501', 11, 1),
                                 ('00d1f0058000', 11, 1), ('00d1f00541', 11, 1), ('00d1f0050100', 11, 1), ('00ffff7f', 11, 1)):
        expect_new_block_fault(block, number, place)


def test_old_parts_refused():
    """With the opening's bytes before each place, also where the month would be too early; the month is judged last of all."""
    faults = (('', 9, 0), ('80', 9, 0), ('00', 11, 0), ('41', 11, 0), ('8100', 10, 0), ('808080', 10, 0), ('02', 9, 1), ('028080', 9, 1),
              ('02808080', 10, 1), ('0200', 11, 1), ('0201', 11, 1), ('02a0e10b', 11, 1), ('0100', 12, 1), ('018080', 12, 1), ('03', 9, 1),
              ('030c', 9, 2), ('030c8c', 9, 2), ('030c8000', 10, 2), ('030c01', 11, 2), ('030c0c00', 12, 3), ('030c0c80', 12, 3))
    for opening in ('0000', '0001', '000c', '000d', '009d04', '00d0f005'):
        for block, number, place in faults:
            expect_new_block_fault(opening + block, number, place + len(opening) // 2)
    expect_new_block_fault('0000', 9, 2)
    expect_new_block_fault('000c030c0c', 11, 1)
    expect_new_block_fault('000c030c0c00', 12, 5)
    expect_new_block_fault('0001030c0c', 11, 1)
    expect_new_block_fault('0006020d', 11, 1)
    expect_new_block_fault('00cff005029ee10b', 11, 1)


def test_each_form_read_as_the_other():
    for block in ('01', '020d', T_HEX, B_HEX, '029fe10b'):
        expect_new_block_fault(block, 11, 0)
    for block in ('000001', '000101', '0000030c0c', '000d030c0c', '00d0f005029fe10b', '0000' + B_HEX, '009d04' + B_HEX, '00'):
        expect_block_fault(block, 11, 0)
        assert second.listing((block.encode(), b'1972-01-01T00:00:00', b'1')) == b'refused 11\n'


def test_new_blocks_written():
    expect('write_new_block 3', '0 3 000001', 'table 1 1 0 10')
    expect('write_new_block 7', '0 5 0000030c0ca5a5', T_LINE)
    expect('write_new_block 4', '1 0 a5a5a5a5', T_LINE)
    expect('write_new_block 0', '1 0 -', T_LINE)
    expect_vouched(13, T_LINE, ('write_new_block 5', '0 5 000d030c0c'), ('write_new_block 6', '0 5 000d030c0ca5'),
                   ('write_new_block 4', '1 0 a5a5a5a5'), ('write_block 3', '0 3 030c0c'))
    expect_vouched(128, T_LINE, ('write_new_block 6', '0 6 008001030c0c'), ('write_new_block 5', '1 0 a5a5a5a5a5'))
    expect_vouched(16_384, T_LINE, ('write_new_block 7', '0 7 00808001030c0c'), ('write_new_block 6', '1 0 a5a5a5a5a5a5'))
    for number in (1, 12, 96_337, 4_294_967_295):
        expect_vouched(number, T_LINE, ('write_new_block 9', '11 0 ' + UNTOUCHED * 9), ('write_new_block 0', '11 0 -'))
    for table in (NO_TABLE_LINE, 'table 2 2 0 10 6 12', 'table 1 2 0 10 0 1', 'table 65 1 0 10'):
        expect('write_new_block 2', '11 0 a5a5', table)
    down = 'table 64 64 0 10 ' + ' '.join(f'{month} {10 - month}' for month in range(1, 64))
    expect('write_new_block 66', '0 66 000040' + '03' * 63, down)
    expect('write_new_block 65', '1 0 ' + UNTOUCHED * 65, down)


def test_the_longest_new_block():
    """The longest old block has 138 bytes; a month number of three bytes makes it 142."""
    months = [*range(0, 90_113, 8_192), *range(90_176, 93_441, 64)]
    table = 'table 64 64 ' + ' '.join(f'{month} {10 + place}' for place, month in enumerate(months))
    old = '40' + '808001' * 11 + '8001' * 52
    new = '00d0f005' + old
    assert (len(old), len(new)) == (2 * 138, 2 * 142)
    expect('write_block 138', f'0 138 {old}', table)
    expect_vouched(96_336, table, ('write_new_block 142', f'0 142 {new}'), ('write_new_block 141', '1 0 ' + UNTOUCHED * 141))
    expect(f'renew {old} 96336 142', f'0 0 142 {new}')
    expect(f'renew {old} 93440 142', '11 0 0 ' + UNTOUCHED * 142)
    expect(f'revert {new} 138', f'0 0 138 {old}')
    expect(f'revert {new} 137', '1 0 0 ' + UNTOUCHED * 137)


def test_old_blocks_renewed():
    for number, month in ((0, '00'), (13, '0d'), (14, '0e'), (128, '8001'), (16_384, '808001'), (96_336, 'd0f005')):
        new = f'00{month}{T_HEX}'
        size = len(new) // 2
        for table in (T_LINE, NO_TABLE_LINE):
            expect(f'renew {T_HEX} {number} {size}', f'0 0 {size} {new}', table)
            expect(f'renew {T_HEX} {number} {size + 2}', f'0 0 {size} {new}a5a5', table)
            expect(f'renew {T_HEX} {number} {size - 1}', '1 0 0 ' + UNTOUCHED * (size - 1), table)
            expect(f'renew {T_HEX} {number} 0', '1 0 0 -', table)
    for number in (1, 12, 96_337, 2**21, 2**31, 4_294_967_295):
        expect(f'renew {T_HEX} {number} 0', '11 0 0 -')
        expect(f'renew {T_HEX} {number} 5', '11 0 0 a5a5a5a5a5')
    expect('renew 01 1 3', '0 0 3 000101')
    expect('renew 029FE10B 96336 8', '0 0 8 00d0f005029fe10b')
    expect('renew 029fe10b 96335 8', '11 0 0 ' + UNTOUCHED * 8)
    for block, number, place in (('-', 9, 0), ('02', 9, 1), ('8100', 10, 0), ('41', 11, 0), ('0201', 11, 1), ('0100', 12, 1),
                                 ('030c0c00', 12, 3)):
        expect_block_fault(block, number, place)


def test_new_blocks_reverted():
    for month in ('00', '0d', '8001', 'd0f005'):
        for table in (B_LINE, NO_TABLE_LINE):
            expect(f'revert 00{month}{T_HEX} 3', f'0 0 3 {T_HEX}', table)
            expect(f'revert 00{month}{T_HEX} 5', f'0 0 3 {T_HEX}a5a5', table)
            expect(f'revert 00{month}{T_HEX} 2', '1 0 0 a5a5', table)
            expect(f'revert 00{month}{T_HEX} 0', '1 0 0 -', table)
    expect('revert 000101 1', '0 0 1 01')
    expect('revert 00D0F005029FE10B 4', '0 0 4 029fe10b')


def test_moves_leave_the_table():
    for line in ('read_new_block 000001', 'read_new_block 00', 'write_new_block 32', 'write_new_block 0', 'renew 01 0 3',
                 f'renew {B_HEX} 542 32', 'revert 000001 1', 'revert 00 1'):
        assert answers('vouch 541', line, 'tick 2020 1 1 0 0 0', 'write_block 29')[2:] == ['0 2020 1 1 0 0 1 1', f'0 29 {B_HEX}'], line


# ---------------------------------------------------------------------------
# What the scope leaves open, as docs/DECISIONS.md settles it

def test_readings_of_instants():
    ends = {UTC: (-883_655_990_000_000, 252_455_572_836_999_999), TAI: (-883_656_000_000_000, 252_455_572_799_999_999),
            TDT: (-883_656_032_184_000, 252_455_572_767_815_999), GPS: (-883_655_981_000_000, 252_455_572_818_999_999)}
    for scale, (first, last) in ends.items():
        expect(f'stamp_of {first} {scale}', f'0 {scale} 1972 1 1 0 0 0 0')
        expect(f'stamp_of {last} {scale}', f'0 {scale} 9999 12 31 23 59 59 999999')
        for outside in (first - 1, last + 1, -2**63, 2**63 - 1):
            expect(f'stamp_of {outside} {scale}', '7 0 0 0 0 0 0 0 0')
            expect(f'write_julian {outside} {scale}', '7 0000000000000000 0000000000000000')
    down = 'table 64 64 0 10 ' + ' '.join(f'{month} {10 - month}' for month in range(1, 64))
    expect('stamp_of 252455572746999999 0', '0 0 9999 12 31 23 59 59 999999', down)
    expect('stamp_of 252455572747000000 0', '7 0 0 0 0 0 0 0 0', down)
    expect('instant_of 4294967295 0 0 0 99 99 99 1000000', '8 0')
    expect('stamp_of 0 4', '8 0 0 0 0 0 0 0 0')


def test_readings_of_tables():
    for table in ('table 0 0', 'table 1 0', 'table 2 1 0 10', 'table 1 2 0 10 6 11', 'table 65 1 0 10',
                  'table 18446744073709551615 1 0 10', 'table 1 1 1 10', 'table 1 1 0 9', 'table 2 2 0 10 0 11',
                  'table 3 3 0 10 6 11 6 12', 'table 3 3 0 10 6 11 5 12', 'table 2 2 0 10 6 10', 'table 2 2 0 10 6 12',
                  'table 2 2 0 10 6 8', 'table 2 2 0 10 96336 11', 'table 1 2 0 10 0 1', 'table 1 2 0 10 1 0',
                  'table 1 64 0 10' + ' 0 0' * 62 + ' 0 1', 'table 2 2 0 10 4294967295 11', 'table 3 3 0 10 1 2147483647 2 -2147483648'):
        expect('start', '11 0 0 0 0 0 0', table)
        expect('tick 0 0 0 0 0 0', '11 0 0 0 0 0 0', table)
        expect('write_block 2', '11 0 a5a5', table)
        expect('stamp_of 0 1', '11 0 0 0 0 0 0 0 0', table)
        expect('stamp_of 0 4', '8 0 0 0 0 0 0 0 0', table)
        expect_refusal(GPS, '', 11, table)
        expect_refusal(4, '', 8, table)
        expect('instant_of 4 0 0 0 99 99 99 1000000', '8 0', table)
        expect('write_text 0 3 1 0 0', '8 0 -', table)
        expect('read_julian 4 7ff8000000000000 7ff8000000000000', '8 0', table)
        expect('read_julian 1 7ff8000000000000 7ff8000000000000', '11 0', table)
    for table in ('table 1 1 0 10', 'table 1 64 0 10' + ' 0 0' * 63, 'table 2 2 0 10 96335 9', 'table 3 3 0 10 1 11 2 10'):
        expect('start', '0 1972 1 1 0 0 0', table)


def test_readings_of_the_clock():
    expect('tick 9999 12 31 23 59 60', '6 0 0 0 0 0 0')
    expect('tick 10000 1 1 0 0 0', '3 0 0 0 0 0 0')
    expect('tick 1971 13 1 0 0 0', '3 0 0 0 0 0 0')
    expect('tick 1972 6 30 12 30 60', '6 0 0 0 0 0 0')
    expect('tick 2016 12 31 23 58 60', '6 0 0 0 0 0 0')
    expect('tick 2016 12 31 23 58 59', '0 2016 12 31 23 59 0')
    expect('tick 2016 12 30 23 59 60', '6 0 0 0 0 0 0')
    expect('tick 1972 6 31 24 0 0', '4 0 0 0 0 0 0')
    expect('tick 1972 6 30 23 59 61', '5 0 0 0 0 0 0')


def test_readings_of_blocks():
    for block, number, place in (('02', 9, 1), ('028080', 9, 1), ('02808080', 10, 1), ('808080', 10, 0), ('8080', 9, 0), ('80', 9, 0),
                                 ('808000', 10, 0), ('C100', 10, 0), ('8000', 10, 0), ('00', 11, 0), ('0200', 11, 1), ('0201', 11, 1),
                                 ('02A0E10B', 11, 1), ('02A1E10B', 11, 1), ('0180', 12, 1), ('01808080', 12, 1), ('030C', 9, 2),
                                 ('030C8000', 10, 2), ('02FFFFFF', 10, 1), ('02FFFF7F', 11, 1), ('8101', 11, 0), ('020C00', 12, 2)):
        expect(f'read_block {block}', f'{number} {place} 0 0')
    expect('read_block 029EE10B', '0 0 2 2 0 10 96335 11')
    expect('read_block 029fe10b', '0 0 2 2 0 10 96335 9')
    expect('write_block 3', '1 0 a5a5a5', 'table 2 2 0 10 96335 9')
    expect('write_block 5', '0 4 029fe10ba5', 'table 2 2 0 10 96335 9')


def test_readings_of_texts():
    months = ('JAN', 'FEB', 'MAR', 'APR', 'MAY', 'JUN', 'JUL', 'AUG', 'SEP', 'OCT', 'NOV', 'DEC')
    for number, name in enumerate(months, 1):
        ok = answers(text_call(UTC, f'1999 {name} 02 03:04:05'))[0]
        assert ok.endswith(f' 0 1999 {number} 2 3 4 5 0 0') and ok.startswith('0 '), ok
    for text in ('', '.', '1986 Apr 12 16:31:09', '1986 APX 12 16:31:09', '1986-04-12T16:31:09.', '1986-04-12T16:31:09.1234567',
                 '1986 APR  5 16:31:09',
                 '1986 APR 5 16:31:09', '1986-04-12T16:31:09\n', '1986-04-12T16:31:09Z', ' 1986-04-12T16:31:09', '1986-04-12t16:31:09',
                 '1986-04-12 16:31:09', '1971-13-32T24:60:61.', '\xef\xbb\xbf1986-04-12T16:31:09',
                 '1986-04-12T16:31:09\x00', '1986-04-12T16:31:0\xb2'):
        expect_refusal(UTC, text, 2)
    for text, number in (('1971-13-01T24:00:00', 3), ('1972-13-01T24:00:00', 4), ('1972-366T24:00:00', 5), ('1973-366T24:00:00', 4),
                         ('1972-000T24:00:00', 4), ('1971-000T00:00:00', 3), ('1972-06-30T24:59:60', 5), ('1972-02-30T00:00:00', 4),
                         ('1972-06-30T12:30:60', 6), ('1972-06-30T23:59:61', 5), ('2016-06-30T23:59:60', 6), ('1972-06-29T23:59:60', 6)):
        expect_refusal(UTC, text, number)
    expect_refusal(GPS, '1972-06-30T12:30:60', 5)
    expect_text(UTC, '2016-366T23:59:60.5', 536_500_836_500_000, '2016 12 31 23 59 60 500000')
    expect('instant_of 0 1972 6 30 12 30 60 1000000', '5 0')
    expect('instant_of 0 10000 6 30 12 30 60 1000000', '3 0')
    expect('instant_of 0 1972 6 30 23 59 60 999999', '0 -867931189000001')


def test_readings_of_written_texts():
    expect('write_text 9223372036854775807 0 1 0 0', '7 0 -')
    expect('write_text 0 3 1 0 2', '8 0 a5a5')
    expect('write_text 0 0 1 7 2', '8 0 a5a5')
    expect('write_text 0 0 1 0 18', '1 0 ' + 'a5' * 18)
    expect('write_text 0 1 1 0 18', '0 17 ' + b'2000-001T12:00:00'.hex() + 'a5')
    expect_written(-1, 0, TAI, 6, '2000-01-01T11:59:59.999999')
    expect_written(-1, 2, TAI, 1, '2000 JAN 01 11:59:59.9')
    expect_written(536_500_836_999_999, 0, UTC, 3, '2016-12-31T23:59:60.999')
    expect_written(536_500_836_999_999, 1, UTC, 0, '2016-366T23:59:60')


def expect_pair(instant, midnight, fraction, scale=UTC, table=B_LINE):
    """The pair of an instant, both parts as bits, written and read back."""
    expect(f'write_julian {instant} {scale}', f'0 {midnight} {fraction}', table)
    expect(f'read_julian {scale} {midnight} {fraction}', f'0 {instant}', table)


def test_a_utc_day_counts_its_own_length():
    """31 December 2016 has 86,401 seconds from 536,414,436 on; 30 June 1972 has 86,399 under N and 86,401 under B, from -868,017,590 on."""
    day, next_day = bits(2457753.5), bits(2457754.5)
    assert day == '4142c04cc0000000'
    expect_pair(536_414_436_000_000, day, bits(0.0))
    expect_pair(536_457_636_000_000, day, '3fdfffe7ba49c869')
    expect_pair(536_457_636_500_000, day, bits(0.5))
    expect_pair(536_500_835_250_000, day, bits(86_399_250_000 / 86_401_000_000))
    expect_pair(536_500_836_250_000, day, '3fefffedcbb7564f')
    expect_pair(536_500_836_999_999, day, '3feffffffffe68c7')
    expect_pair(536_500_837_000_000, next_day, bits(0.0))
    expect_pair(536_500_837_250_000, next_day, bits(250_000 / 86_400_000_000))
    expect_pair(536_414_435_999_999, bits(2457752.5), bits(86_399_999_999 / 86_400_000_000))
    june = bits(2441498.5)
    for table, noon, last_instant, last in ((N_LINE, '3fe0000c22ed8511', -867_931_191_000_001, '3feffffffffe68c5'),
                                            (B_LINE, '3fdfffe7ba49c869', -867_931_189_000_001, '3feffffffffe68c7')):
        expect_pair(-867_974_390_000_000, june, noon, table=table)
        expect_pair(last_instant, june, last, table=table)
        expect_pair(last_instant + 1, bits(2441499.5), bits(0.0), table=table)
    expect_pair(-867_931_191_000_000 - 750_000, june, bits(86_398_250_000 / 86_399_000_000), table=N_LINE)


def test_uniform_days_count_86400_seconds():
    """Also those that are 31 December 2016 and 30 June 1972."""
    for scale, instant in ((TAI, 536_457_600_000_000), (TDT, 536_457_567_816_000), (GPS, 536_457_619_000_000)):
        expect_pair(instant, bits(2457753.5), bits(0.5), scale)
        expect_pair(instant + 43_199_250_000, bits(2457753.5), bits(86_399_250_000 / 86_400_000_000), scale)
    expect_pair(-867_974_400_000_000, bits(2441498.5), bits(0.5), TAI, N_LINE)
    expect_julian(2441498.5, 1 / 128, '0 -868016925000000', TAI, N_LINE)


def test_readings_of_utc_pairs():
    """Nearest to the double's exact value times the day's length, a tie to the later, and the length itself is the next midnight."""
    december, june = 536_414_436_000_000, -868_017_590_000_000
    for midnight, first, table, microsecond, fraction in (
            (2457753.5, december, B_LINE, 675_007_813, '3f80000000000000'), (2457753.5, december, B_LINE, 675_007_812, '3f7fffffffffffff'),
            (2457753.5, december, B_LINE, 675_007_813, '3f80000000000001'), (2441498.5, june, B_LINE, 675_007_813, '3f80000000000000'),
            (2441498.5, june, N_LINE, 674_992_188, '3f80000000000000'), (2441498.5, june, N_LINE, 674_992_187, '3f7fffffffffffff'),
            (2457753.5, december, B_LINE, 2_025_023_438, bits(3 / 128)), (2457753.5, december, B_LINE, 85_725_992_188, bits(127 / 128)),
            (2441498.5, june, N_LINE, 85_724_007_813, bits(127 / 128)), (2457753.5, december, B_LINE, 5_273_499, bits(1 / 16384)),
            (2457752.5, december - 86_400_000_000, B_LINE, 5_273_438, bits(1 / 16384)),
            (2457752.5, december - 86_400_000_000, B_LINE, 675_000_000, bits(1 / 128)),
            (2457753.5, december, B_LINE, 85_115_086_212, '3fef8613e657d96f'),
            (2457753.5, december, B_LINE, 86_401_000_000, bits(1 - 2.0**-53)), (2457753.5, december, B_LINE, 0, bits(-0.0)),
            (2441498.5, june, N_LINE, 86_399_000_000, bits(1 - 2.0**-53)), (2441498.5, june, N_LINE, 0, bits(-0.0))):
        expect(f'read_julian 0 {bits(midnight)} {fraction}', f'0 {first + microsecond}', table)
    assert 86_401_000_000 * float.fromhex('0x1.f8613e657d96fp-1') == 85_115_086_212.5  # where the exact product is below the half
    # On a day of 86,400 seconds this is 23:59:59.5, a second that N takes out; on N's and B's own day it is another.
    for table, answer in ((N_LINE, -867_931_191_499_994), (B_LINE, -867_931_189_500_006)):
        expect_julian(2441498.5, 86_399_500_000 / 86_400_000_000, f'0 {answer}', UTC, table)


def test_refusals_of_utc_pairs():
    """8, 11, 13, 7 and 7 again, and never 6."""
    nan, whole = float('nan'), 1 - 2.0**-53
    for midnight, fraction in ((nan, nan), (2441498.5, 0.5), (0.5, 0.5)):
        expect_julian(midnight, fraction, '8 0', 4, 'table 0 0')
        expect_julian(midnight, fraction, '11 0', UTC, 'table 0 0')
    for table in (B_LINE, N_LINE):
        for midnight, fraction in ((nan, 0.5), (2441498.5, nan), (2441498.5, 1.0), (2441498.5, -2.0**-1074), (2441499.0, 0.5), (0.5, 1.0)):
            expect_julian(midnight, fraction, '13 0', UTC, table)
        for midnight, fraction in ((2441316.5, 0.5), (2441316.5, whole), (5373484.5, 0.0), (0.5, 0.5), (5373483.5, whole)):
            expect_julian(midnight, fraction, '7 0', UTC, table)
    expect_julian(5373483.5, 86_399_999_999 / 86_400_000_000, '0 252455572836999999', UTC)
    for table, instant in (('table 2 2 0 10 96335 11', 252_452_894_411_000_000), ('table 2 2 0 10 96335 9', 252_452_894_409_000_000)):
        expect_julian(5373452.5, whole, f'0 {instant}', UTC, table)  # the day before 1 December 9999
        expect_julian(5373483.5, whole, '7 0', UTC, table)


def test_readings_of_julian_dates():
    noon = 43_200_000_000
    expect_julian(2451544.5, float.fromhex('0x1.b26c2e8aee24fp-3'), f'0 {18_327_202_812 - noon}')
    expect_julian(2451544.5, 1 / 16384, f'0 {5_273_438 - noon}')
    expect_julian(2451544.5, 3 / 16384, f'0 {15_820_313 - noon}')
    for midnight in (-0.5, 0.5, 4294967296.5, 2.0**51 + 0.5, 2441316.5, 5373484.5):
        expect_julian(midnight, 0.5, '7 0')
    for midnight in (-0.0, 2451545.0, 2451544.25, 2.0**52, float('inf'), float('-inf'), float('nan')):
        expect_julian(midnight, 0.5, '13 0')
    smallest = struct.unpack('>d', bytes(7) + b'\x01')[0]
    for fraction, answer in ((-0.0, f'0 {-noon}'), (-smallest, '13 0'), (smallest, f'0 {-noon}'), (1 - 2.0**-53, f'0 {noon}'),
                             (1.0, '13 0'), (float('nan'), '13 0'), (float('inf'), '13 0')):
        expect_julian(2451544.5, fraction, answer)
    expect_julian(0.5, 1.0, '13 0')
    expect_julian(5373483.5, 1 - 2.0**-53, '7 0')
    expect_julian(5373483.5, 86_399_999_999 / 86_400_000_000, '0 252455572799999999')
    for length, table, first_of_july in ((86_399_000_000, N_LINE, -867_931_191_000_000), (86_401_000_000, B_LINE, -867_931_189_000_000)):
        expect_julian(2441498.5, (length - 0.5) / length + 2.0**-53, f'0 {first_of_july}', UTC, table)
        expect_julian(2441498.5, (length - 0.5) / length - 2.0**-52, f'0 {first_of_july - 1}', UTC, table)
        expect_julian(2441498.5, 1 - 2.0**-53, f'0 {first_of_july}', UTC, table)
    expect('write_julian -43200000000 1', '0 4142b42c40000000 0000000000000000')


DAYS_OF_EACH_LENGTH = (  # each with its table, scale, first instant, midnight and microseconds
    (generate.BULLETIN, TAI, -43_200_000_000, 2451544.5, 86_400_000_000),
    (generate.BULLETIN, UTC, -43_168_000_000, 2451544.5, 86_400_000_000),
    (generate.BULLETIN, UTC, -868_017_590_000_000, 2441498.5, 86_401_000_000),
    (generate.N, UTC, -868_017_590_000_000, 2441498.5, 86_399_000_000),
)


def test_fraction_is_rounded_once():
    """No double lies nearer to the exact fraction, which is off by at most one part in 2^54 of that day, whatever its length."""
    dice = generate.Dice(2)
    for table, scale, first, day, length in DAYS_OF_EACH_LENGTH:
        for microsecond in [1, 3, 7, length - 1, *(dice.below(length) for _ in range(2_000))]:
            midnight, fraction = second.write_julian(table, first + microsecond, scale)
            exact = Fraction(microsecond, length)
            error = abs(Fraction(fraction) - exact)
            assert midnight == day and error <= Fraction(1, 2**54)
            assert all(error <= abs(Fraction(generate.beside(fraction, steps)) - exact) for steps in (-1, 1))
            assert fraction == float(microsecond) / float(length)  # and one division of two doubles gives it


def test_product_is_exact():
    """Just below a half a product of doubles leads to the later microsecond; the nearest one is read, and of the next double the later."""
    dice = generate.Dice(6)
    for table, scale, first, day, length in DAYS_OF_EACH_LENGTH:
        for below in generate.fractions_rounded_otherwise(dice, length, 200):
            later = math.floor(below * length + 0.5)
            for fraction, expected in ((below, later - 1), (generate.beside(below, 1), later)):
                microsecond = second.read_julian(table, scale, day, fraction) - first
                assert abs(microsecond - Fraction(fraction) * length) < Fraction(1, 2), fraction.hex()
                assert microsecond == expected, fraction.hex()


# ---------------------------------------------------------------------------
# The protocol

def test_lines():
    start = '0 1972 1 1 0 0 0 0'
    assert answers('start', end='') == [start] and answers(end='') == []
    assert answers('', 'start', '') == ['?', start, '?']
    for line in ('start ', ' start', 'start\r', 'START', 'start 0', 'stamp_of 0', 'stamp_of  0 1', 'stamp_of 0 1 1', 'stamp_of 0\t1',
                 '# start', 'stamp_of +0 1', 'stamp_of 0x0 1', 'stamp_of - 1', 'stamp_of --1 1', 'stamp_of 1_0 1',
                 'stamp_of 9223372036854775808 1', 'stamp_of -9223372036854775809 1', 'stamp_of 0 4294967296', 'stamp_of 0 -1',
                 'read_block 0', 'read_block 0g', 'read_block', 'read_block 01 02', 'read_block --', 'write_block 8193', 'write_block -1',
                 'write_text 0 0 0 0 8193', 'read_julian 1 - -', 'read_kernel', 'read_kernel 5', 'read_kernel 5g', 'read_kernel 5c 5c',
                 'read_new_block', 'read_new_block 0', 'read_new_block 0g', 'read_new_block 00 01', 'write_new_block',
                 'write_new_block 8193', 'write_new_block -1', 'renew', 'renew 01', 'renew 01 0', 'renew 01 0 8193',
                 'renew 01 0 -1', 'renew 01 -1 4', 'renew 01 4294967296 4', 'renew 0 0 4', 'renew  0 4', 'renew 01 0 4 0',
                 'renew 01 x 4', 'revert', 'revert 000001', 'revert 000001 8193', 'revert 000001 -1', 'revert 00000 1',
                 'revert 000001 1 1', 'Renew 01 0 4', 'read_newblock 00',
                 'write_kernel', 'write_kernel 8193', 'write_kernel -1', 'read_cards', 'read_cards 2', 'read_cards 2g', 'read_cards 2a 2a',
                 'write_cards', 'write_cards 8193', 'write_cards -1', 'read_julian 1 3fe000000000000 3fe0000000000000',
                 'read_julian 1 03fe0000000000000 3fe0000000000000', 'table', 'table 1', 'table 1 1 0', 'table 1 1 0 10 6',
                 'table 1 65' + ' 0 0' * 65, 'table 18446744073709551616 0', 'table 1 1 4294967296 10', 'table 1 1 0 2147483648',
                 'table 1 1 0 -2147483649', 'table -1 0', 'stamp_of 1\u00b2 1', 'vouch', 'vouch ', 'vouch x', 'vouch 1 2', 'vouch -1',
                 'vouch  1', 'vouch 1 ', 'vouch +1', 'vouch 0x1', 'vouch 4294967296', 'VOUCH 1', 'vouched 1'):
        assert answers(line, 'start') == ['?', start], line
    expect('stamp_of -0 0001', '0 1 2000 1 1 12 0 0 0')
    expect('tick 1972 1 1 0 0 -0', '0 1972 1 1 0 0 1')
    expect('read_julian 1 4142B42C40000000 3fE0000000000000', '0 0')
    expect('write_block 0', '1 0 -')
    expect('renew 01 -0 004', '0 0 3 000001a5')
    for place, writers in ((2, ('write_block', 'write_new_block', 'write_kernel', 'write_cards', 'write_text 0 1 1 0')),
                           (3, ('renew 01 0', 'revert 000001'))):
        for writer, room in itertools.product(writers, (4_097, 8_192)):
            assert len(answers(f'{writer} {room}')[0].split()[place]) == 2 * room
    expect('write_block 8192', '0 1 01' + 'a5' * 8_191, 'table 1 1 0 10')
    expect('write_text 0 1 1 0 8192', '0 17 ' + b'2000-001T12:00:00'.hex() + 'a5' * 8_175)
    for table in ('table 1 1 0 -2147483648', 'table 1 1 4294967295 2147483647', 'table 18446744073709551615 0'):
        expect('start', '11 0 0 0 0 0 0', table)


def test_long_lines():
    def tick(size):
        return 'tick 1972 1 1 0 0 ' + '7'.rjust(size - 18, '0')
    next_label, next_start = '0 1972 1 1 0 0 8 0', '0 1972 1 1 0 0 0 0'
    for size in (2048, 2049, 139_999, 140_000):
        assert answers(tick(size), 'start') == [next_label, next_start]
        assert answers(tick(size), end='') == [next_label]
    for size in (140_001, 140_002, 280_000, 280_001, 280_002, 1_000_000):
        assert answers(tick(size), 'start') == ['?', next_start]
        assert answers(tick(size), end='') == ['?']
    assert answers('stamp_of ' + '9' * 139_989 + ' 1') == ['?'] and answers('stamp_of -' + '0' * 139_988 + ' 1')[0].startswith('0 1 2000 ')
    assert answers('read_text 0 ' + '3' * 139_988)[0].startswith('2 ')
    assert answers('read_kernel ' + '33' * 69_994) == ['14 65536 0 0']
    assert answers('read_new_block 000001' + '00' * 69_989) == ['12 3 0 0 0'] and answers('read_new_block ' + '00' * 69_993) == ['?']
    assert answers('renew ' + '00' * 69_995 + ' 0 1') == ['11 0 0 a5'] and answers('renew ' + '00' * 69_996 + ' 0 1') == ['?']
    assert answers('revert ' + '00' * 69_995 + ' 1') == ['11 2 0 a5'] and answers('revert ' + '00' * 69_996 + ' 1') == ['?']
    assert answers('read_cards ' + '2a' * 69_994) == ['11 0 0 0'] and answers('read_cards ' + '20' * 69_993 + '33') == ['15 0 0 0']


# ---------------------------------------------------------------------------
# The program `desk`

KERNEL_FILE, CARDS_FILE = (os.path.join(HERE, '..', 'examples', name) for name in ('leapseconds.tls', 'leapseconds.tp'))
B_BLOCK = 'table block ' + B_HEX
BEYOND = ', beyond the month that the table is vouched for'
NIGHT = 'UTC 2016-12-31T23:58:30', 'UTC 2017-01-01T00:01:30'


def desk_output(given):
    output = io.BytesIO()
    desk.program_desk(io.BytesIO(given), output)
    return output.getvalue()


def desk_answers(*lines):
    """The answers' lines, without the last one of how many were good."""
    return desk_output('\n'.join((*lines, '')).encode('latin-1')).decode('latin-1').split('\n')[:-2]


def expect_desk(line, answer, *before):
    """The answer to a line behind others, each with one line for an answer."""
    found = '\n'.join(desk_answers(*before, line)[len(before):])
    assert found == answer, f'{before} | {line[:100]}: expected {answer}, found {found}'


def refused(number, given, sentence=None):
    name, usual, _ = (word.decode() for word in desk.REFUSALS[number])
    return f'refused {number} {name}: {sentence or usual} Given: {given}'


def expect_desk_refusal(line, number, given, *before, sentence=None):
    """In a sheet a comma would end the cell, and a quote open one."""
    shown = given.replace(',', '?').replace('"', '?')
    expect_desk(line, refused(number, shown, sentence and sentence.decode()), *before)


def test_examples_of_the_desk():
    """From 23:58:30 there are 30 seconds to 23:59:00, 61 to midnight, and 90 to 00:01:30."""
    expect_desk('between {} and {}'.format(*NIGHT), '181.000000 s')
    expect_desk('show UTC 2016-12-31T23:59:60 on GPS', 'GPS 2017-01-01T00:00:17.000000')
    expect_desk('after UTC 2016-12-31T23:59:59', 'UTC 2016-12-31T23:59:60')
    expect_desk('add 90.5 to UTC 2016-12-31T23:58:30', 'UTC 2016-12-31T23:59:60.500000')
    expect_desk('pass AURORA-3 from {} to {}'.format(*NIGHT), 'AURORA-3,{},{},181.000000,1 second added'.format(*NIGHT))
    entries = desk_answers('table')
    assert entries == [f'{year}-{month:02}-01 {offset} s' for year, month, offset in second.BULLETIN_C] and len(entries) == 28
    expect_desk('table kernel ' + KERNEL_FILE, '28 entries, the last 2017-01-01 with 37 s, no month vouched for', 'table block 01')
    expect_desk('table cards ' + CARDS_FILE, '28 entries, the last 2017-01-01 with 37 s, no month vouched for', 'table block 01')
    expect_desk(B_BLOCK, '28 entries, the last 2017-01-01 with 37 s, no month vouched for', 'vouched 2026-12')
    expect_desk('vouched 2026-12', '28 entries, the last 2017-01-01 with 37 s, vouched to December 2026')
    expect_desk('why 6', '6 NOSECOND: UTC has no such second under the table in force. What to do: Check the stamp; if it is right then'
                         ' load a newer table.')


def test_words_of_the_desk_are_those_of_its_page():
    with open(os.path.join(HERE, '..', 'docs', 'DESK.md'), encoding='utf-8') as file:
        page = file.read()
    rows = re.findall(r'^\| (\d+) \| ([A-Z]+) \| (.*?) \| (.*?) \|$', page, re.MULTILINE)
    refusals, of_their_own = rows[:15], rows[15:]
    for number, (row, name, sentence, advice) in enumerate(refusals, 1):
        assert row == str(number)
        expect_desk(f'why {number}', f'{number} {name}: {sentence} What to do: {advice}')
    own = (desk.LONG_LINE, desk.NO_SECONDS, desk.NO_NAME, desk.NO_MONTH, desk.NO_REFUSAL, desk.NO_HEX, desk.NO_FILE, desk.NO_FILE)
    assert [row[2] for row in of_their_own] == [sentence.decode() for sentence in own]
    assert all(',' not in row[2] for row in rows)
    assert '## Help\n\n```\n' + '\n'.join(desk_answers('help')) + '\n```\n' in page


def test_differences_at_the_desk():
    expect_desk('between {1} and {0}'.format(*NIGHT), '-181.000000 s')
    expect_desk('between UTC 2016-12-31T23:59:60.5 and UTC 2016-12-31T23:59:60', '-0.500000 s')
    expect_desk('between TAI 2000-01-01T12:00:00 and TAI 2000-001T12:00:00.0', '0.000000 s')
    expect_desk('between TAI 2000-01-01T12:00:00.000001 and TAI 2000 JAN 01 12:00:00', '-0.000001 s')
    expect_desk('between TAI 2017-01-01T00:00:00 and GPS 2017-01-01T00:00:00', '19.000000 s')
    expect_desk('between TDT 2017-01-01T00:00:00 and TAI 2017-01-01T00:00:00', '32.184000 s')
    expect_desk('between UTC 2017-01-01T00:00:00 and TAI 2017-01-01T00:00:37', '0.000000 s')
    expect_desk('between UTC 1972-06-30T23:59:58 and UTC 1972-07-01T00:00:00', '1.000000 s', 'table block 020D')
    expect_desk('between UTC 1972-01-01T00:00:00 and UTC 9999-12-31T23:59:59.999999', '253339228826.999999 s')


def test_stamps_that_the_desk_shows():
    expect_desk('show TAI 2017-01-01T00:00:36 on UTC', 'UTC 2016-12-31T23:59:60.000000')
    expect_desk('show TAI 2017-01-01T00:00:35.999999 on UTC', 'UTC 2016-12-31T23:59:59.999999')
    expect_desk('show UTC 2016 DEC 31 23:59:60.999999 on TDT', 'TDT 2017-01-01T00:01:09.183999')
    expect_desk('show UTC 9999-12-31T23:59:22.999999 on TAI', 'TAI 9999-12-31T23:59:59.999999')
    expect_desk('after UTC 2016-12-31T23:59:60.999999', 'UTC 2017-01-01T00:00:00')
    expect_desk('after UTC 1972-06-30T23:59:58.5', 'UTC 1972-07-01T00:00:00', 'table block 020D')
    expect_desk('after TAI 2016-12-31T23:59:59', 'TAI 2017-01-01T00:00:00')
    expect_desk('after GPS 2000-059T23:59:59.9', 'GPS 2000-02-29T00:00:00')
    for line in ('show UTC 9999-12-31T23:59:23 on TAI', 'show TDT 1972-01-01T00:00:00 on TAI', 'after UTC 9999-12-31T23:59:59',
                 'after TDT 9999-365T23:59:59.5', 'add 253339228827 to UTC 1972-01-01T00:00:00',
                 'add -0.000001 to UTC 1972-01-01T00:00:00', 'add 999999999999.999999 to UTC 1972-01-01T00:00:00',
                 'add -999999999999 to GPS 9999-12-31T23:59:59'):
        expect_desk_refusal(line, 7, line)
    for clock in ('', 'gps', 'UT1', 'GPS ', 'GPS on TAI'):
        line = 'show TDT 1972-01-01T00:00:00 on ' + clock
        expect_desk_refusal(line, 8, line)
    expect_desk_refusal('show UTC 2016-12-31T23:59:60', 8, 'show UTC 2016-12-31T23:59:60')
    expect_desk_refusal('show UTC 2016-12-31T23:59:61 on gps', 5, 'UTC 2016-12-31T23:59:61')


def test_sums_of_the_desk():
    start = 'UTC 2016-12-31T23:59:59'
    for seconds, answer in (('0', '2016-12-31T23:59:59.000000'), ('1', '2016-12-31T23:59:60.000000'),
                            ('+2', '2017-01-01T00:00:00.000000'), ('-0.5', '2016-12-31T23:59:58.500000'),
                            ('1.999999', '2016-12-31T23:59:60.999999'), ('-0', '2016-12-31T23:59:59.000000'),
                            ('0000000000000001.5', '2016-12-31T23:59:60.500000'),
                            ('2.', '2017-01-01T00:00:00.000000'), ('86401.0', '2017-01-01T23:59:59.000000')):
        expect_desk(f'add {seconds} to {start}', 'UTC ' + answer)
    expect_desk('add 253339228826.999999 to UTC 1972-01-01T00:00:00', 'UTC 9999-12-31T23:59:59.999999')
    expect_desk('add 0.184 to TDT 2000-01-01T12:00:32', 'TDT 2000-01-01T12:00:32.184000')
    for seconds in ('', '+', '-', '.', '.5', '1.1234567', '1000000000000', '9' * 400, '1e3', '1,5', ' 1', '1 ', '--1', '0x1', '1\xb2'):
        expect_desk_refusal(f'add {seconds} to ', 8, seconds.replace('\xb2', '?'), sentence=desk.NO_SECONDS)
    expect_desk_refusal('add 90 UTC 2016-12-31T23:58:30', 8, '90 UTC 2016-12-31T23:58:30', sentence=desk.NO_SECONDS)
    expect_desk_refusal('add 90', 8, '')
    expect_desk_refusal('add 999999999999 to UTC 2016-12-31', 2, 'UTC 2016-12-31')


def test_passes_of_the_desk():
    def expect_steps(first, last, seconds, steps, *before):
        expect_desk(f'pass X from {first} to {last}', f'X,{first},{last},{seconds},{steps}', *before)
    expect_steps(*reversed(NIGHT), '-181.000000', '1 second added')
    expect_steps('UTC 2016-12-31T23:59:60', 'UTC 2016-366T23:59:60.5', '0.500000', 'no second added')
    expect_steps('UTC 2015-06-30T23:59:59', 'UTC 2017 JAN 01 00:00:00', '47520003.000000', '2 seconds added')  # 550 days and 3 s
    expect_steps('TAI 2016-12-31T23:59:59', 'TAI 2017-01-01T00:00:00', '1.000000', 'no second added')
    expect_steps('UTC 2017-01-01T00:00:00', 'TAI 2017-01-01T00:00:00', '-37.000000', 'different clocks')
    expect_steps('TAI 2017-01-01T00:00:00', 'GPS 2017-01-01T00:00:00', '19.000000', 'different clocks')
    expect_steps('UTC 1972-06-30T23:59:58', 'UTC 1972-07-01T00:00:00', '1.000000', '1 second taken out', 'table block 020D')
    expect_steps('UTC 1972-06-30T00:00:00', 'UTC 1973-01-01T00:00:00', '15983998.000000', '2 seconds taken out', 'table block 030D0D')
    expect_steps('UTC 1972-06-30T00:00:00', 'UTC 1973-01-01T00:00:00', '15984000.000000', 'no second added', 'table block 030C0D')
    for name, shown in ((' ', ' '), ('a to b', 'a to b'), ('to', 'to'), ("it's; 3?", "it's; 3?"), ('\x01\x80\xff\r', '????')):
        expect_desk('pass {} from {} to {}'.format(name, *NIGHT), '{},{},{},181.000000,1 second added'.format(shown, *NIGHT))
    for name in ('', ',', 'a,b', '"', '"\t"'):
        expect_desk_refusal(f'pass {name} from x to y', 8, name.replace('\t', '?'), sentence=desk.NO_NAME)
    for rest, given in (('X from UTC 2016-12-31T23:59:59', ''), ('X', ''), ('from {} to {}'.format(*NIGHT), ''),
                        ('X from Y from Z to A', 'Y from Z'), ('X from {} to Y to {}'.format(*NIGHT), 'Y to ' + NIGHT[1]),
                        ('X from  to ' + NIGHT[0], '')):
        expect_desk_refusal('pass ' + rest, 8, given)


def test_stamps_that_the_desk_refuses():
    for stamp, number in (('UTC 2016-12-31 23:59:59', 2), ('UTC 2016-12-31T23:59:59Z', 2), ('UTC 2016-12-31T23:59', 2),
                          ('UTC', 2), ('UTC ', 2), ('UTC 2016 Dec 31 23:59:59', 2), ('UTC  2016-12-31T23:59:59', 2),
                          ('UTC 2016-12-31T23:59:59 ', 2), ('UTC 1971-12-31T23:59:59', 3), ('UTC 2017-366T00:00:00', 4),
                          ('GPS 2016-12-31T23:59:60', 5), ('UTC 2015-12-31T23:59:60', 6), ('2016-12-31T23:59:59', 8),
                          ('utc 2016-12-31T23:59:59', 8), ('', 8), ('UT1 2016-12-31T23:59:59', 8), ('2016 DEC 31 23:59:59', 8),
                          (' UTC 2016-12-31T23:59:59', 8)):
        expect_desk_refusal('after ' + stamp, number, stamp)
        expect_desk_refusal(f'between {stamp} and x', number, stamp)
        expect_desk_refusal(f'pass X from {NIGHT[0]} to {stamp}', number, stamp)
    expect_desk_refusal('after UTC 2016-12-31T23:59:59\r', 2, 'UTC 2016-12-31T23:59:59?')
    expect_desk_refusal('after UTC\t2016-12-31T23:59:59', 8, 'UTC?2016-12-31T23:59:59')
    expect_desk_refusal('between ' + NIGHT[0], 8, '')


def test_tables_of_the_desk():
    expect_desk('table block 01', '1 entry, the last 1972-01-01 with 10 s, no month vouched for', 'vouched 2026-12')
    expect_desk('table block 029Fe10b', '2 entries, the last 9999-12-01 with 9 s, no month vouched for')
    expect_desk('table', '1972-01-01 10 s\n1972-07-01 9 s', 'table block 020d')
    assert desk_answers('table block 40' + '03' * 63, 'table')[-1] == '1977-04-01 -53 s'
    for block, number, place in (('', 9, 0), ('02', 9, 1), ('8100', 10, 0), ('0100', 12, 1), ('0201', 11, 1), ('41', 11, 0),
                                 ('030C8000', 10, 2)):
        expect_desk_refusal('table block ' + block, number, f'{block} at byte {place}')
    for block in ('0', '0g', '03 0C', '01\r', 'zz'):
        expect_desk_refusal('table block ' + block, 8, block.replace('\r', '?'), sentence=desk.NO_HEX)
    for line in ('table block', 'table kernel', 'table cards', 'table card x', 'table ', 'table x', 'tables', 'Table'):
        expect_desk_refusal(line, 8, line)


def test_new_blocks_at_the_desk():
    """A new block's table has its month; of an old block, a kernel and cards it has none, whatever stood before."""
    b_words = '28 entries, the last 2017-01-01 with 37 s, '
    for opening, month in (('0000', 'no month vouched for'), ('009d04', 'vouched to January 2017'), ('009405', 'vouched to December 2026'),
                           ('00D0F005', 'vouched to December 9999')):
        expect_desk('table block ' + opening + B_HEX, b_words + month, 'vouched 2030-01')
        expect_desk(B_BLOCK, b_words + 'no month vouched for', 'table block ' + opening + B_HEX)
        for file in ('kernel ' + KERNEL_FILE, 'cards ' + CARDS_FILE):
            expect_desk('table ' + file, b_words + 'no month vouched for', 'table block ' + opening + B_HEX)
    loaded = 'table block 009405' + B_HEX
    expect_desk('after UTC 2026-12-31T23:59:58', 'UTC 2026-12-31T23:59:59', loaded)
    expect_desk('after UTC 2026-12-31T23:59:59', 'UTC 2027-01-01T00:00:00' + BEYOND, loaded)
    expect_desk('after TAI 2027-01-31T23:59:59', 'TAI 2027-02-01T00:00:00', loaded)
    expect_desk('show TAI 2027-01-01T00:00:37 on UTC', 'UTC 2027-01-01T00:00:00.000000' + BEYOND, loaded)
    expect_desk('vouched 2027-01', b_words + 'vouched to January 2027', loaded)
    expect_desk('after UTC 2026-12-31T23:59:59', 'UTC 2027-01-01T00:00:00', loaded, 'vouched 2027-01')
    expect_desk('table block 000101', '1 entry, the last 1972-01-01 with 10 s, vouched to January 1972', loaded)
    expect_desk('after UTC 1972-07-31T23:59:59', 'UTC 1972-08-01T00:00:00' + BEYOND, 'table block 0007020d')
    for block, number, place in (('00', 9, 1), ('0000', 9, 2), ('000d030c', 9, 4), ('008d00030c0c', 10, 1), ('8000', 10, 0),
                                 ('00f1f00501', 11, 1), ('000c030c0c', 11, 1), ('000c030c0c00', 12, 5), ('000000', 11, 2),
                                 ('800d01', 11, 0), ('009d04' + B_HEX + '00', 12, 32), ('009c04' + B_HEX, 11, 1), ('0100', 12, 1)):
        expect_desk_refusal('table block ' + block, number, f'{block} at byte {place}')
        expect_desk_refusal('after UTC 2026-12-31T23:59:59', 11, 'UTC 2026-12-31T23:59:59', loaded, 'table block ' + block)
    for block in ('0', '000', '00 0d030c0c', '000d030c0g'):
        expect_desk_refusal('table block ' + block, 8, block, sentence=desk.NO_HEX)


def test_refused_tables_leave_none():
    after = 'after UTC 1972-07-31T23:59:59'
    for losing in ('0', 'zz', '01 ', '', '02', '8100', '0100', '0201', '41', '00'):
        expect_desk_refusal(after, 11, after[6:], 'table block ' + losing)
    with tempfile.TemporaryDirectory() as folder:
        for number, file in enumerate((b'', H + G + b'(', H + G.replace(b'10', b'11'), (H + G).ljust(65_537))):
            path = os.path.join(folder, str(number))
            with open(path, 'wb') as output:
                output.write(file)
            expect_desk_refusal(after, 11, after[6:], 'table kernel ' + path)
        for number, file in enumerate((b'', b'x', JULY, FIRST + b'\r', FIRST.ljust(65_537))):
            path = os.path.join(folder, f'cards {number}')
            with open(path, 'wb') as output:
                output.write(file)
            expect_desk_refusal(after, 11, after[6:], 'table cards ' + path)
        for none in (folder, folder + '/none', '', folder + '/0/x', folder + '/\x00'):
            for words in ('table kernel ', 'table cards '):
                expect_desk_refusal(after, 11, after[6:], words + none)
    for other in ('table block', 'table kernel', 'table cards', 'table x', 'Table block 0', 'vouched 1972-06', 'vouched 1972-6', 'vouched',
                  'hello', 'why 0', 'after UTC x', 'after x', 'add x to y', 'show UTC 1972-01-01T00:00:00 on x', 'pass , from x to y',
                  'x' * 1_025, 'table block ' + '0' * 1_013, 'table kernel ' + 'x' * 1_012, 'table cards ' + 'x' * 1_013):
        expect_desk(after, 'UTC 1972-08-01T00:00:00' + BEYOND, 'table block 020d', 'vouched 1972-07', other)


def test_lines_without_a_table():
    def expect_none(line, number, given, sentence=None):
        expect_desk_refusal(line, number, given, 'vouched 2026-12', 'table block 0', sentence=sentence)
    first, last = NIGHT
    for stamp in (first, 'TAI 2000-01-01T12:00:00', 'GPS x', 'UTC', 'TDT ', 'UTC 1971-13-32T24:60:61', 'GPS 2016-12-31T23:59:60'):
        for line in (f'between {stamp} and {last}', f'between {stamp} and x', 'between ' + stamp, f'show {stamp} on TAI',
                     f'show {stamp} on x', 'show ' + stamp, 'after ' + stamp, 'add 1 to ' + stamp, 'add 999999999999 to ' + stamp,
                     f'pass X from {stamp} to {last}', f'pass X from {stamp} to x', 'pass X from ' + stamp):
            expect_none(line, 11, stamp)
    for stamp in ('', 'x', 'UTX 2016-12-31T23:59:60', 'utc 2016-12-31T23:59:59', first[4:]):
        for line in (f'between {stamp} and {last}', f'show {stamp} on x', 'after ' + stamp, 'add 1 to ' + stamp,
                     f'pass X from {stamp} to {last}'):
            expect_none(line, 8, stamp)
    expect_none('show UTC x on gps on TAI', 11, 'UTC x')
    expect_none('after UTC \t', 11, 'UTC ?')
    expect_none('add x to ' + first, 8, 'x', desk.NO_SECONDS)
    expect_none(f'pass , from {first} to {last}', 8, ',', desk.NO_NAME)
    expect_none('pass X', 8, '')
    for month in ('2026-12', '1972-01', '9999-12'):
        expect_none('vouched ' + month, 11, month)
    expect_none('vouched 2026-13', 8, '2026-13', desk.NO_MONTH)
    expect_none('why 0', 8, '0', desk.NO_REFUSAL)
    expect_none('hello', 8, 'hello')
    expect_none('table block 02', 9, '02 at byte 1')
    expect_desk('table', '', 'table block 0')
    assert desk_output(b'table block 0\ntable\n\n').endswith(b'0\n\n\n2 of 3 lines good - not good: 1\n')
    for line in ('', 'help', 'why 11'):
        assert desk_answers('table block 0', line)[1:] == desk_answers(line)


def test_tables_behind_none():
    lost = 'vouched 2026-12', 'table block 0', 'vouched 2026-12', 'after ' + NIGHT[0], 'table', 'hello', 'table kernel .', 'table cards .'
    expect_desk('table block 01', '1 entry, the last 1972-01-01 with 10 s, no month vouched for', *lost)
    expect_desk(B_BLOCK, '28 entries, the last 2017-01-01 with 37 s, no month vouched for', *lost)
    for file in ('kernel ' + KERNEL_FILE, 'cards ' + CARDS_FILE):
        expect_desk('table ' + file, '28 entries, the last 2017-01-01 with 37 s, no month vouched for', *lost)
    expect_desk('after UTC 2016-12-31T23:59:59', 'UTC 2017-01-01T00:00:00', *lost, 'table block 01')
    expect_desk('after UTC 2027-01-01T00:00:00', 'UTC 2027-01-01T00:00:01', *lost, B_BLOCK)
    expect_desk('vouched 2026-12', '1 entry, the last 1972-01-01 with 10 s, vouched to December 2026', *lost, 'table block 01')
    expect_desk_refusal('after ' + NIGHT[0], 11, NIGHT[0], *lost)


def test_files_of_the_desk():
    with tempfile.TemporaryDirectory() as folder:
        def path_of(name, file):
            with open(os.path.join(folder, name), 'wb') as output:
                output.write(file)
            return os.path.join(folder, name)
        path = path_of('a, "b" \x7f', H + G)
        for good in (path, path_of('full', (H + G).ljust(65_536))):
            expect_desk('table kernel ' + good, '1 entry, the last 1972-01-01 with 10 s, no month vouched for')
        for file, number, place in ((b'', 14, 0), (H + G + b'(', 14, 43), (H + G.replace(b'10', b'11'), 11, 0),
                                    ((H + G).ljust(65_537), 14, 65_536), ((H + G).ljust(70_000), 14, 65_536)):
            expect_desk_refusal('table kernel ' + path_of('a\tb', file), number, f'{folder}/a?b at byte {place}')
        for none in (folder, folder + '/none', '', path + '/x', path + ' ', path + '\x00', folder + '/' + 'n' * 300):
            for words, number in (('table kernel ', 14), ('table cards ', 15)):
                expect_desk_refusal(words + none, number, none.replace('\x00', '?').replace('\x7f', '?'), sentence=desk.NO_FILE)
        full = FIRST + b'\n' + b' ' * (65_536 - 81)
        for file in (FIRST, FIRST + b'\n', b'* x\n\n' + FIRST, full, FIRST + b'\n' + b'*' * (65_536 - 81)):
            expect_desk('table cards ' + path_of('good', file), '1 entry, the last 1972-01-01 with 10 s, no month vouched for')
        for file, number, place in ((b'', 11, 0), (b'* x\n', 11, 0), (JULY, 11, 0), (FIRST + b'\n' + JULY[:79], 15, 81),
                                    (FIRST + b'\n*\n' + FIRST, 15, 83), (H + G, 15, 0), (b'x' + full[1:], 15, 0)):
            expect_desk_refusal('table cards ' + path_of('a\tb', file), number, f'{folder}/a?b at byte {place}')
        for file in (full + b' ', full + b'\n', b'x' + full, b'x'.ljust(70_000)):
            expect_desk_refusal('table cards ' + path_of('long', file), 15, folder + '/long', sentence=desk.LONG_FILE)
        with open(CARDS_FILE, 'rb') as file:
            comment, written = file.read().split(b'\n', 1)
        assert comment.startswith(b'*') and written == second.write_cards(second.table_of_bulletin_c(), 2_268)


def test_vouched_months_of_the_desk():
    def expect_beyond(line, answer):
        expect_desk(line, answer + BEYOND, 'vouched 2026-12')
    expect_beyond('after UTC 2026-12-31T23:59:59', 'UTC 2027-01-01T00:00:00')
    expect_beyond('between TAI 2020-01-01T00:00:00 and UTC 2027-01-01T00:00:00', '220924837.000000 s')
    expect_beyond('show UTC 2027-01-01T00:00:00 on TAI', 'TAI 2027-01-01T00:00:37.000000')
    expect_beyond('show TAI 2027-01-01T00:00:37 on UTC', 'UTC 2027-01-01T00:00:00.000000')
    expect_beyond('add -1 to UTC 2027-01-01T00:00:00', 'UTC 2026-12-31T23:59:59.000000')
    expect_beyond('add 1 to UTC 2026-12-31T23:59:59', 'UTC 2027-01-01T00:00:00.000000')
    expect_beyond('pass X from TAI 2027-01-01T00:00:37 to UTC 2027-01-01T00:00:00',
                  'X,TAI 2027-01-01T00:00:37,UTC 2027-01-01T00:00:00,0.000000,different clocks')
    for line, answer in (('after UTC 2026-12-31T23:59:58', 'UTC 2026-12-31T23:59:59'),
                         ('after TAI 2027-01-01T00:00:00', 'TAI 2027-01-01T00:00:01'),
                         ('show TAI 2027-01-01T00:00:36.999999 on UTC', 'UTC 2026-12-31T23:59:59.999999'),
                         ('show TAI 2027-01-01T00:00:37 on GPS', 'GPS 2027-01-01T00:00:18.000000')):
        expect_desk(line, answer, 'vouched 2026-12')
    expect_desk('after UTC 2027-01-01T00:00:00', 'UTC 2027-01-01T00:00:01', 'vouched 2026-12', B_BLOCK)
    expect_desk('vouched 2017-01', '28 entries, the last 2017-01-01 with 37 s, vouched to January 2017', 'vouched 9999-12')
    expect_desk_refusal('vouched 2016-12', 11, '2016-12')
    for month in ('', '2026', '2026-00', '2026-13', '2026-1', '1971-12', '10000-01', '2026/12', '2026-12 ', '+026-12'):
        expect_desk_refusal('vouched ' + month, 8, month, sentence=desk.NO_MONTH)
    expect_desk_refusal('vouched', 8, 'vouched')


def test_lines_of_the_desk():
    for number in ('', '0', '16', '00', '6 ', '-6', 'six', '18446744073709551622'):
        expect_desk_refusal('why ' + number, 8, number, sentence=desk.NO_REFUSAL)
    for line in (' ', 'hello, "desk"', 'Help', 'help ', 'why', 'between', 'pass', 'after', 'show\tUTC'):
        expect_desk_refusal(line, 8, line.replace('\t', '?'))
    expect_desk_refusal('odd \x00\x1f ~ \x7f\x80\xff\r', 8, 'odd ?? ~ ????')
    expect_desk_refusal('\x80' * 39 + 'ab' + 'c' * 984, 8, '?' * 39 + 'a', sentence=desk.LONG_LINE)
    expect_desk_refusal('x' * 1_024, 8, 'x' * 1_024)
    expect_desk_refusal('x' * 300_000, 8, 'x' * 40, sentence=desk.LONG_LINE)
    assert desk_answers('x' * 300_000, 'after TAI 2000-01-01T12:00:00')[1] == 'TAI 2000-01-01T12:00:01'
    assert desk_output(b'') == b'0 of 0 lines good\n'
    assert desk_output(b'\n') == b'\n1 of 1 lines good\n'
    assert desk_output(b'\n\nafter UTC 2016-12-31T23:59:59') == b'\n\nUTC 2016-12-31T23:59:60\n3 of 3 lines good\n'
    assert desk_output(b'x\n\nx').endswith(b'\n1 of 3 lines good - not good: 1 3\n')
    twenty = b'1 2 3 4 5 6 7 8 9 10 11 12 13 14 15 16 17 18 19 20'
    assert desk_output(b'x\n' * 20 + b'\n').endswith(b'\n1 of 21 lines good - not good: ' + twenty + b'\n')
    assert desk_output(b'x\n' * 25).endswith(b'\n0 of 25 lines good - not good: ' + twenty + b' and 5 more\n')


def test_words_behind_the_name_are_a_line():
    def one_line(*words):
        command = [sys.executable, '-B', os.path.join(HERE, 'second.py'), 'desk-line', *words]
        return subprocess.run(command, stdout=subprocess.PIPE, check=True).stdout
    assert one_line('add', '1', 'to', 'UTC 2016-12-31T23:59:59') == b'UTC 2016-12-31T23:59:60.000000\n'
    assert one_line('table', 'block', '') == refused(9, ' at byte 0').encode() + b'\n'
    assert one_line('') == b'\n'


def answered_beside_files(lines):
    """Each line with the table that it meets and its answer, in a folder with the files that the lines name."""
    here = os.getcwd()
    with tempfile.TemporaryDirectory() as folder:
        desk_lines.lay_out_files(folder)
        os.chdir(folder)
        try:
            return list(desk.answered(line.encode('latin-1') for line in lines))
        finally:
            os.chdir(here)


def test_inputs_of_desk_and_ticks():
    """Each kind of answer is found, some without a table; about three quarters are good; the lines are the same each time."""
    stored = list(desk_lines.stored_lines())
    assert len(stored) > 200 and all(map(generate.is_plain, stored))
    assert {'table kernel leapseconds.tls', 'table cards leapseconds.tp'} <= set(stored)
    for lines in (stored, list(desk_lines.random_lines(1, 24_000))):
        assert all('\n' not in line for line in lines)
        answered = answered_beside_files(lines)
        found = '\n'.join(given.text.decode('latin-1') for _, _, given in answered)
        assert set(re.findall('^refused ([0-9]+) ', found, re.MULTILINE)) == set(map(str, (*range(2, 13), 14, 15)))
        for words in (desk.LONG_LINE, desk.NO_SECONDS, desk.NO_NAME, desk.NO_MONTH, desk.NO_REFUSAL, desk.NO_HEX, desk.NO_FILE):
            assert words.decode() in found, words
        for words in ('1 second added', '2 seconds added', '1 second taken out', '2 seconds taken out', 'no second added',
                      'different clocks', BEYOND):
            assert words in found, words
        for line, table, given in answered:
            behind = desk_lines.table_behind(table, line.decode('latin-1'))
            assert second.new_block_of_table(behind) == second.new_block_of_table(given.table), line
        from_new = [given.table for line, _, given in answered if line.startswith(b'table block 00') and given.is_good]
        assert {table.vouched_month is None for table in from_new} == {True, False}
        without = [line for line, table, _ in answered if not table.is_good]
        for words in (b'between ', b'show ', b'after ', b'add ', b'pass ', b'vouched ', b'table block ', b'table kernel ', b'table cards ',
                      b'why '):
            assert any(line.startswith(words) for line in without), words
        assert {b'', b'table', b'help'} <= set(without)
    assert 0.7 < sum(given.is_good for _, _, given in answered) / len(answered) < 0.8 and 0.01 < len(without) / len(answered) < 0.1
    assert list(desk_lines.random_lines(7, 300)) == list(desk_lines.random_lines(7, 300)) != list(desk_lines.random_lines(8, 300))
    inputs = list(ticks_inputs.random_inputs(1, 2_000))
    assert inputs[:300] == list(ticks_inputs.random_inputs(1, 300))
    listings = [second.listing((given.split(b'\n') + [b''] * 3)[:3]) for given in inputs]
    first_lines = {listing.split(b'\n')[0] for listing in listings}
    assert first_lines == {b'UTC TAI', *(b'refused %d' % number for number in (2, 3, 4, 5, 6, 8, 9, 10, 11, 12))}
    assert max(map(len, listings)) > 100_000 and any(b'9999-12-31T23:59:59' in listing for listing in listings)


def test_comparison_in_a_folder_with_blanks():
    """The second program in each program's place; then what repeats its input, and what does not run."""
    with tempfile.TemporaryDirectory(prefix='a b ') as top:
        folder = os.path.join(top, 'second')
        shutil.copytree(HERE, folder, ignore=shutil.ignore_patterns('__pycache__'))
        os.mkdir(os.path.join(top, 'examples'))
        for file in (KERNEL_FILE, CARDS_FILE):
            shutil.copy(file, os.path.join(top, 'examples'))

        def compare(words, command=''):
            commands = {'MUNDREFF_' + program: command for program in ('CALLS', 'DESK', 'TICKS')}
            return subprocess.run([sys.executable, os.path.join(folder, 'compare'), *words.split()], env={**os.environ, **commands},
                                  stdout=subprocess.DEVNULL, stderr=subprocess.DEVNULL, timeout=100).returncode
        second_program = [sys.executable, '-B', os.path.join(folder, 'second.py')]
        for words, more in (('1 50', ()), ('desk 1 50', ('desk',)), ('desk stored', ('desk',)), ('ticks 1 5', ('ticks',))):
            assert compare(words, shlex.join([*second_program, *more])) == 0, words
            assert compare(words, 'cat') == 1, words
        for words in ('1 1000000000', 'desk 1 1000000000', 'ticks 1 1000000000', 'stored'):
            assert compare(words) == compare(words, '/no/such/program') == compare(words, 'false') == 2, words
        assert compare('ticks stored', 'cat') == compare('desk', 'cat') == 2


# ---------------------------------------------------------------------------
# One part against another, and against Python's own calendar

def test_calendar_against_datetime():
    day_0 = datetime.date(1972, 1, 1).toordinal()
    assert second.END_OF_DAYS == datetime.date.max.toordinal() - day_0 + 1 == 2_932_167
    for number in [*range(0, second.END_OF_DAYS, 101), second.END_OF_DAYS - 1]:
        date = datetime.date.fromordinal(number + day_0)
        assert second.date_of_day(number) == (date.year, date.month, date.day)
        assert second.day_number(date.year, date.month, date.day) == number
        assert second.day_of_year(date.year, date.month, date.day) == date.timetuple().tm_yday


def test_clock_against_instants():
    """Ticks and instants go on together over every step, on both sides of it."""
    for _, table in generate.good_tables():
        for month in table.steps:
            label = Label(*generate.day_before_month(month), 23, 59, 50)
            instant = second.instant_of(table, UTC, label, 7)
            for _ in range(20):
                assert second.stamp_of(table, instant, UTC) == (UTC, label, 7)
                assert second.instant_of(table, UTC, label, 7) == instant
                label, instant = second.tick(table, label), instant + second.SECOND


def test_round_trips():
    """Over random good tables and instants: text and Julian date read back, and blocks and kernels too."""
    dice = generate.Dice(1)
    for _ in range(3_000):
        table, scale, picture = generate.random_table(dice), dice.pick(generate.SCALES), dice.pick(generate.PICTURES)
        assert second.read_block(second.write_block(table, 256)).__dict__ == table.__dict__
        assert second.read_kernel(second.write_kernel(table, 4_096)).__dict__ == table.__dict__
        instant = generate.random_instant(dice, table)
        try:
            stamp = second.stamp_of(table, instant, scale)
        except second.Refused as refused:
            assert refused.number == second.RANGE
            continue
        text = second.write_text(table, instant, picture, scale, 6, 256)
        assert second.read_text(table, scale, text) == (instant, stamp)
        assert second.read_julian(table, scale, *second.write_julian(table, instant, scale)) == instant


def test_blocks_there_and_back():
    """Over random good tables and months: old to new to old is the same bytes, and new to old to new loses only the month."""
    dice = generate.Dice(6)
    for _ in range(3_000):
        table = generate.random_table(dice)
        number = dice.pick((0, dice.between(table.used_months[-1], second.LAST_MONTH) + 1))
        vouched = table.vouched_to(number)
        old, new = second.write_block(vouched, 256), second.write_new_block(vouched, 256)
        assert second.read_new_block(new).__dict__ == second.read_either_block(new).__dict__ == vouched.__dict__
        assert second.read_block(old).__dict__ == second.read_either_block(old).__dict__ == table.__dict__
        assert second.renew(old, number, 256) == new and second.revert(new, 256) == old
        without = second.renew(second.revert(new, 256), 0, 256)
        assert second.read_new_block(without).__dict__ == table.__dict__ and (without == new) == (number == 0)
        assert len(without) == len(old) + 2 and without[2:] == old == new[-len(old):]


def refusal_of(read, *given):
    """Its number and place, or None."""
    try:
        read(*given)
    except second.Refused as refused:
        return refused.number, refused.place
    return None


def test_each_table_has_one_new_block():
    """Of all short blocks of some bytes: one that is read is the one that is written, and no other form reads it."""
    read_as_new = read_as_old = 0
    for size in range(6):
        for block in map(bytes, itertools.product((0x00, 0x01, 0x02, 0x03, 0x0C, 0x0D, 0x7F, 0x80, 0x8D), repeat=size)):
            as_new, as_old = refusal_of(second.read_new_block, block), refusal_of(second.read_block, block)
            assert refusal_of(second.revert, block, 256) == as_new and refusal_of(second.renew, block, 0, 256) == as_old
            if as_new is None:
                read_as_new += 1
                assert as_old == (second.TABLE, 0)
                assert second.write_new_block(second.read_new_block(block), size) == block
            if as_old is None:
                read_as_old += 1
                assert as_new == (second.TABLE, 0)
                assert second.write_block(second.read_block(block), size) == block
    assert read_as_new > 100 and read_as_old > 50, (read_as_new, read_as_old)


def expect_own_pairs(table, scale, instants):
    """Each comes back, and a later one has a later pair, so that none is shared."""
    before = (0.0, 0.0)
    for instant in instants:
        pair = second.write_julian(table, instant, scale)
        assert pair > before and 0.0 <= pair[1] < 1.0, (instant, pair, before)
        assert second.read_julian(table, scale, *pair) == instant
        before = pair


def test_no_pair_is_shared():
    """On every day with a step of every kind of table and about both its midnights, and on the uniform scales on the same days."""
    dice = generate.Dice(4)
    for table in (generate.BULLETIN, *(table for _, table in generate.good_tables())):
        for month in list(table.steps)[:2] + list(table.steps)[-2:]:
            end = table.held_from[table.used_months.index(month)] * second.SECOND  # as an instant, the midnight after the step
            begin = end - second.DAY - table.steps[month] * second.SECOND
            offsets = [whole * second.SECOND + part for whole in range(-3, 3) for part in (0, 1, 250_000, 999_999)]
            near = [edge + offset for edge in (begin, end) for offset in offsets]
            inside = [dice.between(begin, end) for _ in range(20)]
            for scale in (UTC, TAI):
                expect_own_pairs(table, scale, sorted({*near, *inside}))
    for table, midnight in ((generate.BULLETIN, 536_500_837_000_000), (generate.N, -867_931_191_000_000)):
        for scale in generate.SCALES:
            expect_own_pairs(table, scale, range(midnight - 300, midnight + 300))
            expect_own_pairs(table, scale, range(midnight - 3 * second.SECOND, midnight + 3 * second.SECOND, 7_919))


def test_pairs_against_the_clock():
    """Another way to a day's length: the clock ticks as many times from midnight to midnight."""
    for table, date, length in ((generate.T, (1972, 6, 30), 86_401), (generate.N, (1972, 6, 30), 86_399),
                                (generate.T, (1972, 6, 29), 86_400)):
        label, ticks = Label(*date, 0, 0, 0), 0
        while label[:3] == date:
            if ticks % 997 == 0 or ticks > 86_390:
                midnight, fraction = second.write_julian(table, second.instant_of(table, UTC, label, 0), UTC)
                assert midnight == 2441317.5 + second.day_number(*date) and fraction == ticks / length
            label, ticks = second.tick(table, label), ticks + 1
        assert ticks == length


def test_pairs_of_random_lines():
    """Random lines meet days of each length and ties on each, and no pair is refused with 6."""
    table, lengths, ties = generate.BULLETIN, set(), set()
    for line in generate.random_lines(5, 30_000):
        words = line.split(' ')
        given = table
        answer, table = second.answer_line(given, line.encode('latin-1'))
        if words[0] == 'read_julian' and answer[0] != '?':
            assert answer.split()[0] in ('0', '7', '8', '11', '13')
            if words[1] == '0' and answer[:2] == '0 ':
                midnight, fraction = (struct.unpack('>d', bytes.fromhex(word))[0] for word in words[2:])
                length = generate.length_at(given, UTC, midnight)
                lengths.add(length)
                if Fraction(fraction) * length % 1 == Fraction(1, 2):
                    ties.add(length)
    assert lengths == ties == {86_399_000_000, 86_400_000_000, 86_401_000_000}


def test_blocks_of_random_lines():
    """Random lines meet each refusal of the calls of new blocks, and of a move the one of a month too."""
    found = {b'read_new_block': set(), b'write_new_block': set(), b'renew': set(), b'revert': set()}
    table, months_refused = generate.BULLETIN, 0
    for line in generate.random_lines(6, 8_000):
        name, *words = line.encode('latin-1').split(b' ')
        answer, table = second.answer_line(table, line.encode('latin-1'))
        if name in found and answer != '?':
            found[name].add(int(answer.split()[0]))
            if name == b'renew' and answer.startswith('11 ') and refusal_of(second.read_block, second.read_hex(words[0])) is None:
                assert answer.startswith('11 0 0 ')
                months_refused += 1
    assert found == {b'read_new_block': {0, 9, 10, 11, 12}, b'write_new_block': {0, 1, 11}, b'renew': {0, 1, 9, 10, 11, 12},
                     b'revert': {0, 1, 9, 10, 11, 12}}
    assert months_refused > 5


def test_marks_against_instants():
    """The answers are those without the month; beyond begins with one instant, the first midnight after the vouched month."""
    dice = generate.Dice(3)
    for _ in range(300):
        table = generate.random_table(dice)
        last_entry = table.months[table.count - 1]
        vouched = table.vouched_to(dice.pick((last_entry, dice.between(last_entry, 96_335))) + 1)
        assert second.read_block(second.write_block(vouched, 256)).__dict__ == table.__dict__
        assert second.read_kernel(second.write_kernel(vouched, 4_096)).__dict__ == table.__dict__
        midnight = generate.midnights_beyond(vouched)[0]
        for instant in (midnight - 1, midnight, generate.random_instant(dice, vouched)):
            for scale in generate.SCALES:
                is_beyond = scale == UTC and instant >= midnight
                for line in generate.lines_of_instant(table, instant, (scale,), (dice.pick(generate.PICTURES),), 6):
                    *answer, marks = second.answer_line(vouched, line.encode())[0].split()
                    assert [*answer, '0'] == second.answer_line(table, line.encode())[0].split()
                    assert marks == ('1' if answer[0] == '0' and is_beyond else '0'), (line, vouched.__dict__)


def test_bulletin_can_disagree():
    with tempfile.TemporaryDirectory() as folder:
        output = io.StringIO()
        assert second.program_bulletin(output, folder) and 'no leap-second list' in output.getvalue()
        good = 'Leap\t1972\tJun\t30\t23:59:60\t+\tS\n'
        with open(os.path.join(folder, 'leapseconds'), 'w', encoding='ascii') as file:
            file.write(good)
        assert not second.program_bulletin(io.StringIO(), folder)
    assert second.entries_of_leapseconds(good) == [(1972, 1, 1, 10), (1972, 7, 1, 11)]
    assert second.entries_of_leap_seconds_list('#x\n2272060800\t10\t# 1 Jan 1972\n2287785600 11\n') == [(1972, 1, 1,
                                                                                                         10), (1972, 7, 1, 11)]


def test_stored_input():
    lines = list(generate.stored_lines())
    assert 20_000 < len(lines) < 25_000 and all('\n' not in line for line in lines)
    assert lines == list(generate.stored_lines())
    found = {answer.split()[0] for answer in answers(*lines)}
    assert found == {'ok', '?', *map(str, range(16))}, found


def main():
    tests = [(name, check) for name, check in globals().items() if name.startswith('test_')]
    for name, check in tests:
        check()
        print(name, 'holds')


if __name__ == '__main__':
    main()
