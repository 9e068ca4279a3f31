#!/usr/bin/env python3
"""Writes the sample run sheets beside this file.

A line: the kind word, N0 to N13 in 20 columns each, the lengths of the texts A and B in 4 columns each, A, B, a line feed.
"""
import os

PLACES = {'tests': 1, 'scripts': 2, 'slot': 3, 'index': 3, 'attempt': 4, 'total': 5, 'seconds': 6, 'nanoseconds': 7,
          'flag': 8, 'passed': 9, 'flaky': 10, 'failed': 11, 'exec_failed': 12, 'failed_timed_out': 13}
START = 1_790_000_000_000_000


def line(kind, millis, a='', b='', **numbers):
    ns = [START + millis * 1000] + [0] * 13
    for name, n in numbers.items():
        ns[PLACES[name]] = n
    return kind + ''.join('%20d' % n for n in ns) + '%4d%4d' % (len(a), len(b)) + a + b + '\n'


MOUNT = ('flashfs::mount', 'replays_journal_after_power_loss')
WEAR = ('flashfs::wear', 'levels_over_a_thousand_erases')
TRIM = ('flashfs::mount', 'trims_a_full_card')


def plain():
    """One run of two tests on two readers."""
    return [
        line('RST', 0, '5d1f0a52-7f0e-4c69-9f3f-3f3a6f0b2c11', 'rack'),
        line('TST', 12, *MOUNT, tests=1, slot=0),
        line('TST', 13, *WEAR, tests=2, slot=1),
        line('SKP', 14, *TRIM),
        line('TFN', 840, *MOUNT, tests=1, attempt=1, total=2, nanoseconds=828_000_000, passed=1),
        line('SLW', 2013, *WEAR, attempt=1, seconds=2),
        line('TFN', 2600, *WEAR, attempt=1, total=2, seconds=2, nanoseconds=587_000_000, flag=1, passed=2),
        line('RFN', 2610),
    ]


def battery_swap():
    """A pause while a test runs, and a retry that moves from reader 1 to reader 0."""
    return [
        line('RST', 0, '0b8f6c1e-51b6-4b52-8d5a-b1a2f1c7d9e4', 'rack'),
        line('TST', 10, *MOUNT, tests=1, slot=0),
        line('TST', 11, *WEAR, tests=2, slot=1),
        line('PAU', 500, tests=2),
        line('CON', 95_500, tests=2),
        line('TFN', 95_900, *MOUNT, tests=1, attempt=1, total=3, nanoseconds=890_000_000, passed=1),
        line('AFR', 96_400, *WEAR, tests=0, attempt=1, total=3, seconds=1, nanoseconds=389_000_000, flag=1),
        line('RTR', 96_450, *WEAR, tests=1, slot=0, attempt=2, total=3),
        line('TFN', 97_300, *WEAR, attempt=2, total=3, nanoseconds=850_000_000, passed=1, flaky=1),
        line('RFN', 97_310),
    ]


def stress():
    """Two setup scripts, two stress sub-runs, and a cancelled end."""
    return [
        line('RST', 0, 'c2a7c3de-9a44-4a0f-8a9f-6e5e6f1f4a77', 'stress'),
        line('SST', 5, 'format-card', index=0),
        line('SST', 6, 'power-supply', index=1),
        line('SSL', 1005, 'format-card', seconds=1),
        line('SFN', 1500, 'power-supply', index=1, seconds=1, nanoseconds=494_000_000),
        line('SFN', 1800, 'format-card', index=0, seconds=1, nanoseconds=795_000_000, flag=1),
        line('SUB', 1810),
        line('TST', 1820, *MOUNT, tests=1, slot=0),
        line('TFN', 2400, *MOUNT, attempt=1, total=1, nanoseconds=580_000_000, passed=1),
        line('SUF', 2410),
        line('SUB', 2411),
        line('TST', 2420, *MOUNT, tests=1, slot=0),
        line('CAN', 2600, 'signal', tests=1),
        line('TFN', 2700, *MOUNT, attempt=1, total=1, nanoseconds=280_000_000, failed=1),
        line('SUF', 2710),
        line('RFN', 2720),
    ]


def main():
    here = os.path.dirname(os.path.abspath(__file__))
    for sheet in (plain, battery_swap, stress):
        with open(os.path.join(here, sheet.__name__ + '.sheet'), 'w', newline='') as out:
            out.write(''.join(sheet()))


if __name__ == '__main__':
    main()
