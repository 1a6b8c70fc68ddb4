#!/usr/bin/env python3
"""Writes crates/line_cases/stdin, lines to make, and crates/line_cases/stdout, what should come of each.

What should come of a line is worked out here from the rules of docs/lines.md, with none of the engine's code.
"""
import os

KINDS = {
    1: 'SheetTooLong', 2: 'CutShort', 3: 'UnknownTag', 4: 'WrongLength', 5: 'NameByte', 6: 'NameRepeated', 7: 'Undeclared',
    8: 'TooWide', 9: 'TooMany', 10: 'PastEnd', 11: 'TableSize', 12: 'WorldSize', 13: 'BadLink', 20: 'BookFull', 21: 'NoOwnAxiom',
    22: 'ListFull', 23: 'ClosureFull',
}
NAMES = ['p', 'payroll', 'wages-' + '0' * 34, '~' * 40]

asked, told = [], []

def case(question, size, refusals, line):
    """The call in a buffer of so many dots refuses with the first of the numbers, or makes the line."""
    asked.append(question)
    if refusals:
        told.append(f'Fault {{ kind: {KINDS[refusals[0]]}, place: 0, layer: Line }}\n' + '.' * size)
    else:
        told.append(f'{len(line)} bytes\n' + line + '.' * (size - len(line)))

def under(size, lower, upper):
    there = lower < declared and upper < declared
    case(f'under {size} {lower} {upper}', size, [10] * (not there) + [11] * (size < 88),
         there and f'{NAMES[lower]} under {NAMES[upper]}\n')

def refusal(size, number, place):
    case(f'refusal {size} {number} {place}', size, [11] * (size < 88), f'refused {number} at {place}\n')

# no class yet, and then one by one
declared = 0
under(88, 0, 0)
under(0, 0, 0)
for name in NAMES:
    asked.append(f'class {name}')
    declared += 1
    under(88, declared - 1, declared - 1)
    under(88, declared, 0)
    under(88, 0, declared)
# every pair, short names and long ones, in both orders
for lower in range(declared):
    for upper in range(declared):
        under(88, lower, upper)
# the buffer from both sides, and which check wins
for size in (0, 1, 35, 87, 88, 89, 300):
    under(size, 3, 2)
    under(size, 0, 0)
    under(size, 255, 0)
    under(size, 0, 64)
    refusal(size, 7, 0)
# every refusal, and places of every length
for number in KINDS:
    refusal(88, number, 0)
for place in [0, 9, 10, 99, 100, 4095, 59999, 60000] + [10 ** k - d for k in range(3, 20) for d in (0, 1)] + [2 ** 63, 2 ** 64 - 1]:
    refusal(88, 2, place)
    refusal(90, 23, place)

where = os.path.join(os.path.dirname(os.path.abspath(__file__)), '..', 'crates', 'line_cases')
with open(os.path.join(where, 'stdin'), 'w') as stdin, open(os.path.join(where, 'stdout'), 'w') as stdout:
    stdin.write(''.join(line + '\n' for line in asked))
    stdout.write(''.join(text + '\n' for text in told))
