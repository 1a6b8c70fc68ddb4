#!/usr/bin/env python3
"""Writes crates/sheet_cases/stdin, sheets to open, and crates/sheet_cases/stdout, what should come of each.

What should come of a sheet is worked out here from the rules of docs/sheets.md, with none of the engine's code.
The sheets are examples for every refusal, each limit from both sides, and sheets made by chance from a fixed number.
"""
import os
import random

def opened(text):
    if len(text) > 60000:
        return 'refused 1 at 0'
    names = {1: [], 2: []}
    axioms = 0
    at = 0
    while at < len(text):
        refused = lambda number: f'refused {number} at {at}'
        length = int.from_bytes(text[at + 1:at + 3], 'big')
        if len(text) < at + 3 or len(text) < at + 3 + length:
            return refused(2)
        tag, body = text[at], text[at + 3:at + 3 + length]
        if not 1 <= tag <= 7:
            return refused(3)
        if length not in {1: range(1, 41), 2: range(1, 41), 3: [16], 4: [3], 5: [3], 6: [3], 7: [2]}[tag]:
            return refused(4)
        if tag <= 2:
            if any(not 33 <= byte <= 126 for byte in body):
                return refused(5)
            if body in names[tag]:
                return refused(6)
            if len(names[tag]) == {1: 64, 2: 16}[tag]:
                return refused(9)
            names[tag].append(body)
        else:
            if tag == 3:
                lower, upper = int.from_bytes(body[:8], 'big'), int.from_bytes(body[8:], 'big')
                classes = [a for a in range(64) if (lower | upper) >> a & 1]
                roles = []
            else:
                lower = 0
                classes = {4: [body[0], body[2]], 5: body[1:], 6: [body[0], body[2]], 7: []}[tag] if tag < 7 else []
                roles = {4: [body[1]], 5: [body[0]], 6: [body[1]]}[tag] if tag < 7 else body
            if any(a >= len(names[1]) for a in classes) or any(p >= len(names[2]) for p in roles):
                return refused(7)
            if bin(lower).count('1') > 3:
                return refused(8)
            if axioms == 1024:
                return refused(9)
            axioms += 1
        at += 3 + length
    return f'{len(names[1])} classes, {len(names[2])} roles, {axioms} axioms'

def field(tag, body):
    return bytes([tag]) + len(body).to_bytes(2, 'big') + body

def inclusion(lower, upper):
    return field(3, lower.to_bytes(8, 'big') + upper.to_bytes(8, 'big'))

def declared(tag, count):
    return b''.join(field(tag, bytes([33 + i])) for i in range(count))

cases = []  # each a list of (count, bytes)

def case(*parts):
    cases.append([part if isinstance(part, tuple) else (1, part) for part in parts])

A, B, P = field(1, b'A'), field(1, b'B'), field(2, b'p')
payroll = b''.join(field(1, n) for n in (b'payroll', b'finance', b'wages', b'shared')) + inclusion(1, 6) + inclusion(2, 8) + inclusion(4, 8)
assert len(payroll) == 94
full = [declared(1, 64), declared(2, 16)]

case(bytes.fromhex('01000141'))
case(bytes.fromhex('01000241'))
case(bytes.fromhex('040003000000'))
case(payroll)
case((0, b'\0'))
# 1, and 60,000 from both sides
case((60000, b'\0')); case((60001, b'\0')); case(payroll, (59906, b'\0')); case(payroll, (59907, b'\0'))
case((12000, field(7, b'\0\0'))); case((12000, field(7, b'\0\0')), b'\7')
# 2, also within the leading bytes, and whatever the tag
for text in (b'\1', b'\1\0', b'\0', b'\7\0', b'\1\0\1', b'\1\1\0A', b'\7\xff\xff\0\0', b'\x63\0\2A', b'\3\0\x10' + bytes(15)):
    case(text); case(A + text)
# 3
for tag in (0, 8, 9, 128, 255):
    case(field(tag, b'')); case(A + field(tag, b'A'))
# 4: each tag with lengths around its own
for tag, right in ((1, (1, 40)), (2, (1, 40)), (3, (16,)), (4, (3,)), (5, (3,)), (6, (3,)), (7, (2,))):
    for length in sorted({0} | {n + d for n in right for d in (-1, 0, 1)} | {256, 259}):
        case(A + P + field(tag, bytes([66] * length if tag <= 2 else [0] * length)))
# 5: bytes on both sides, first and last
for byte in (0, 31, 32, 33, 34, 125, 126, 127, 128, 255):
    for name in (bytes([byte]), bytes([byte]) + b'A', b'A' * 39 + bytes([byte])):
        case(field(1, name)); case(field(2, name))
# 6: within classes, within roles, not across, case matters
case(A + A); case(P + P); case(A + field(2, b'A')); case(A + field(1, b'a')); case(A + B + A); case(A + field(1, b'AA')); case(field(1, b'AA') + A)
# 7 and 8: each form, each part, before and after its declaration
for tag in (4, 5, 6):
    for body in (b'\0\0\0', b'\1\0\0', b'\0\1\0', b'\0\0\1', b'\xff\0\0', b'\0\xff\0', b'\0\0\xff'):
        case(A + P + field(tag, body)); case(A + field(tag, body)); case(P + field(tag, body)); case(field(tag, body) + A + P)
for body in (b'\0\0', b'\1\0', b'\0\1', b'\x10\0', b'\0\xff'):
    case(P + field(7, body)); case(A + field(7, body))
for lower, upper in ((0, 0), (1, 0), (0, 1), (1, 1), (2, 0), (0, 2), (1 << 63, 0), (0, 1 << 63), (3, 3)):
    case(A + inclusion(lower, upper)); case(inclusion(lower, upper)); case(A + B + inclusion(lower, upper))
for lower in (7, 15, 14, 31, 1 << 63, 1 | 1 << 31 | 1 << 63, 7 << 61, 15 << 60, (1 << 64) - 1):
    case(declared(1, 64) + inclusion(lower, (1 << 64) - 1)); case(declared(1, 5) + inclusion(lower, 1))
# 9, and the counts from both sides
for count in (63, 64, 65): case(declared(1, count))
for count in (15, 16, 17): case(declared(2, count))
for count in (1023, 1024, 1025): case(P, (count, field(7, b'\0\0'))); case(A, (count, inclusion(1, 1)))
case(*full, (1024, inclusion(7 << 61, (1 << 64) - 1)))
# which check wins
case(b'\x63\0'); case(field(1, b'') + b'\x63'); case(field(1, b' ' * 41)); case(A + field(1, b' ')); case(field(1, b' ') + field(1, b' '))
case(declared(1, 64) + field(1, b'!')); case(declared(1, 64) + field(1, b'AA')); case(declared(2, 16) + field(2, b'!'))
case(declared(1, 3) + inclusion(15, 0)); case(declared(1, 4) + inclusion(15, 0)); case(declared(1, 4), (1024, inclusion(1, 1)), inclusion(15, 0)); case(declared(1, 4), (1024, inclusion(1, 1)), inclusion(31, 0))
# declarations between axioms
case(A + inclusion(1, 1) + B + inclusion(3, 2) + P + field(4, b'\0\0\1') + field(2, b'q') + field(7, b'\0\1'))

chance = random.Random(20261117)
def by_chance():
    text = b''
    for _ in range(chance.randrange(1, 24)):
        tag = chance.choice((1, 1, 1, 2, 2, 3, 3, 4, 5, 6, 7, chance.randrange(256)))
        if tag <= 2:
            body = bytes(chance.choice((33, 65, 66, 67, 126, chance.randrange(30, 130))) for _ in range(chance.choice((1, 1, 2, 3, 40, 41, 0))))
        elif tag == 3:
            body = sum(1 << chance.randrange(5) for _ in range(chance.randrange(3))).to_bytes(8, 'big') + chance.randrange(16).to_bytes(8, 'big')
        else:
            body = bytes(chance.randrange(4) for _ in range(2 if tag == 7 else 3))
        if chance.randrange(20) == 0:
            body = body[:-1]
        text += field(tag, body)
    if chance.randrange(10) == 0:
        text = text[:chance.randrange(len(text) + 1)]
    return text
for _ in range(400):
    case(by_chance())

where = os.path.join(os.path.dirname(os.path.abspath(__file__)), '..', 'crates', 'sheet_cases')
with open(os.path.join(where, 'stdin'), 'w') as stdin, open(os.path.join(where, 'stdout'), 'w') as stdout:
    for parts in cases:
        text = b''.join(part * count for count, part in parts)
        print(' '.join(f'{count} {part.hex()}' for count, part in parts), file=stdin)
        print(opened(text), file=stdout)
