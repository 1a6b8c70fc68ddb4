#!/usr/bin/env python3
"""Writes crates/book_cases/stdin, calls on books, and crates/book_cases/stdout, what should come of each.

What should come of a call is worked out here from the rules of docs/book.md, with none of the engine's code.
The cases are each limit from both sides, every refusal, books over books, and calls made by chance from a fixed number.
"""
import os
import random

CLASSES = 5

def refused(number, layer='Book'):
    return f'refused {number} at 0 in {layer}'

class Book:
    def __init__(self, below):
        self.below = below
        self.own = []

    def axioms(self):
        return self.below + self.own

    def fault_of(self, axiom):
        if axiom >= 1 << CLASSES:
            return refused(7)
        if bin(axiom).count('1') > 3:
            return refused(8)
        return None

    def make(self, word):
        kind, rest = word.split(':', 1)
        if kind == 'add':
            axiom = int(rest)
            fault = self.fault_of(axiom)
            if not fault and len(self.own) == 64:
                fault = refused(20)
            if not fault and len(self.axioms()) == 1024:
                fault = refused(22)
            if fault:
                return fault
            self.own.append(axiom)
        elif kind == 'amend':
            number, axiom = map(int, rest.split(':'))
            fault = self.fault_of(axiom)
            if not fault and number >= len(self.own):
                fault = refused(21)
            if fault:
                return fault
            self.own[number] = axiom
        elif kind == 'strike':
            number = int(rest)
            if number >= len(self.own):
                return refused(21)
            del self.own[number]
        elif kind == 'axiom':
            number = int(rest)
            return f'gives {self.axioms()[number]}' if number < len(self.axioms()) else refused(10)
        elif kind == 'length':
            return 'gives 0' if int(rest) < CLASSES else refused(10)
        else:
            return refused(10)
        return f'gives {len(self.own)}'

    def make_all(self, words):
        said = [f'{word} {self.make(word)}' for word in words]
        own = ''.join(f' {axiom}' for axiom in self.own)
        return said + [f'list of {len(self.axioms())}, own:{own}']

def answer(records, lower, upper):
    book = Book([1] * records)
    said = book.make_all(lower)
    if upper is not None:
        said += Book(book.axioms()).make_all(upper)
    return said

chance = random.Random(64)
FORMED = [axiom for axiom in range(32) if bin(axiom).count('1') <= 3]

def any_call():
    axiom = chance.choice(FORMED) if chance.random() < 0.85 else chance.randrange(70)
    return chance.choice([
        f'add:{axiom}', f'add:{axiom}', f'add:{axiom}', f'amend:{chance.randrange(8)}:{axiom}', f'amend:{chance.randrange(4)}:{axiom}',
        f'strike:{chance.randrange(8)}', f'strike:{chance.randrange(4)}', f'axiom:{chance.randrange(12)}', f'length:{chance.randrange(7)}', f'byte:{chance.randrange(7)}'])

def adds(count):
    return [f'add:{FORMED[i % len(FORMED)]}' for i in range(count)]

filled = adds(64)
some = ['add:2', 'add:3', 'add:4', 'add:5', 'add:6']
cases = [
    (0, adds(63), None),
    (0, filled, None),
    (0, adds(65), None),
    (3, filled + ['add:8', 'add:15', 'add:32', 'add:255', 'strike:63', 'add:8', 'add:9', 'amend:63:9', 'amend:64:9', 'axiom:66', 'axiom:67'], None),
    (1023, ['add:2', 'add:3', 'axiom:1022', 'axiom:1023', 'axiom:1024', 'strike:0', 'add:4'], None),
    (1024, ['add:2', 'add:15', 'add:32', 'axiom:1023', 'axiom:1024', 'strike:0', 'amend:0:2'], None),
    (960, filled + ['add:8'], None),
    (961, filled, None),
    (2, some + ['strike:0', 'axiom:2', 'axiom:5', 'axiom:6'], None),
    (2, some + ['strike:2', 'axiom:4', 'axiom:5', 'axiom:6'], None),
    (2, some + ['strike:4', 'axiom:5', 'axiom:6'], None),
    (2, some + ['strike:5', 'strike:4', 'strike:3', 'strike:2', 'strike:1', 'strike:0', 'strike:0'], None),
    (2, some + ['amend:0:9', 'amend:4:10', 'amend:2:11', 'amend:5:12', 'amend:0:15', 'amend:0:32', 'amend:9:15', 'amend:9:47', 'axiom:2', 'axiom:6'], None),
    (2, ['length:0', 'length:4', 'length:5', 'length:255', 'byte:0', 'byte:4', 'byte:5', 'axiom:0', 'axiom:1', 'axiom:2'], None),
    (2, some, ['add:7', 'axiom:1', 'axiom:6', 'axiom:7', 'axiom:8', 'strike:0', 'strike:0', 'amend:0:8', 'length:4', 'length:5', 'byte:0', 'byte:5']),
    (959, filled, ['add:2', 'add:3', 'axiom:1023', 'axiom:1024']),
    (3, filled, filled + ['add:2']),
    (1, ['add:2'], ['amend:1:3', 'strike:1', 'add:3', 'amend:0:4', 'axiom:0', 'axiom:1', 'axiom:2', 'axiom:3']),
]
for _ in range(40):
    cases.append((chance.randrange(4), [any_call() for _ in range(24)], None))
for _ in range(20):
    cases.append((chance.randrange(4), [any_call() for _ in range(8)], [any_call() for _ in range(16)]))

folder = os.path.join(os.path.dirname(os.path.abspath(__file__)), '..', 'crates', 'book_cases')
with open(os.path.join(folder, 'stdin'), 'w') as text:
    for records, lower, upper in cases:
        text.write(' '.join([str(records)] + lower + ([] if upper is None else ['|'] + upper)) + '\n')
with open(os.path.join(folder, 'stdout'), 'w') as text:
    for case in cases:
        text.write('\n'.join(answer(*case)) + '\n')
