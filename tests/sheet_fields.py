#!/usr/bin/env python3
"""Writes crates/sheetfields/stdin: one line of each kind, with every number and text that it uses set."""
import os
import sys

sys.path.insert(0, os.path.dirname(os.path.abspath(__file__)))
import sheet_cases

TEST = (b'bin', b'a "test"')
TAKEN = {6: 6, 7: 999999999}
LINES = [
    ('RST', {}, b'id', b'rack'),
    ('RFN', {}, b'', b''),
    ('CAN', {1: 2, 2: 3}, b'signal', b''),
    ('PAU', {1: 4, 2: 5}, b'', b''),
    ('CON', {1: 6, 2: 7}, b'', b''),
    ('TST', {1: 2, 3: 3}, *TEST),
    ('RTR', {1: 8, 3: 65535, 4: 2, 5: 5}, *TEST),
    ('AFR', {1: 7, 4: 2, 5: 5, 8: 1, **TAKEN}, *TEST),
    ('TFN', {1: 4294967295, 4: 2, 5: 5, 9: 9, 10: 10, 11: 11, 12: 12, 13: 13, **TAKEN}, *TEST),
    ('SST', {3: 65535}, b'db', b''),
    ('SFN', {3: 3, 8: 1, **TAKEN}, b'db', b''),
    ('SUB', {}, b'', b''),
    ('SUF', {}, b'', b''),
    ('SLW', {4: 4, 8: 1, **TAKEN}, *TEST),
    ('SSL', {**TAKEN}, b'db', b''),
    ('SKP', {}, *TEST),
]


def main():
    top = os.path.dirname(os.path.dirname(os.path.abspath(__file__)))
    sheet = b''
    for time, (word, used, a, b) in enumerate(LINES):
        numbers = [time] + [used.get(k, 0) for k in range(1, 14)]
        sheet += sheet_cases.made(word, numbers, a, b)
    with open(os.path.join(top, 'crates', 'sheetfields', 'stdin'), 'wb') as f:
        f.write(sheet)


if __name__ == '__main__':
    main()
