#!/usr/bin/env python3
"""The closure of docs/closure.md, worked out naively from its rules, with none of the engine's code.

    closure.py examples              the worked examples of crates/closure/specs/Examples.antt: prints each and compares its counts
    closure.py SHEET ask HELD DENIED the verdict, the number of contexts and the number of clauses; classes by name, with commas, or -
    closure.py SHEET list            each class under another, by rising lower and then upper class
    closure.py SHEET counts          how many contexts and clauses the asks of a listing have

Every rule is tried on everything that is there, and what it gives is added, until nothing is new.
A closure of more than 64 contexts or 1,024 clauses is full, as it is for the listing.
"""
import collections
import itertools
import sys

MOST_CONTEXTS, MOST_CLAUSES = 64, 1024

def bits(numbers):
    return sum(1 << a for a in set(numbers))

def members(mask):
    return [a for a in range(mask.bit_length()) if mask >> a & 1]

class Axioms:
    """The axioms by form: L and M are masks, a and b classes, p and q roles."""

    def __init__(self, inclusions=(), exists=(), exists_lower=(), forall=(), roles=()):
        self.inclusions = [(members(lower), upper) for lower, upper in inclusions]
        self.exists, self.exists_lower, self.forall = list(exists), list(exists_lower), list(forall)
        self.reached = {p: {p} for p in range(16)}
        for _ in range(16):
            for p in self.reached:
                self.reached[p] |= {sup for sub, sup in roles if sub in self.reached[p]}

def closure(axioms, goal):
    """The contexts and the clauses of the goal's closure, or None where it is full.

    A context is a pair of masks, held and denied. A clause is its context, its classes, and None or a role with a context."""
    contexts, clauses = {goal}, set()
    while True:
        new = one_round(axioms, contexts, clauses)
        targets = {part[1] for _, _, part in new | clauses if part}
        if new <= clauses and targets <= contexts:
            return contexts, clauses
        clauses |= new
        contexts |= targets
        if len(contexts) > MOST_CONTEXTS or len(clauses) > MOST_CLAUSES:
            return None

def one_round(axioms, contexts, clauses):
    """What the rules give of these contexts and clauses at once."""
    headed = collections.defaultdict(list)  # by context and head: the rest of each clause without role part
    toward = collections.defaultdict(list)  # by context: the clauses with a role part
    for context, classes, part in clauses:
        if part:
            toward[context].append((classes, part))
        elif classes:
            head = classes.bit_length() - 1
            headed[context, head].append(classes ^ 1 << head)
    new = set()
    for context in contexts:
        held, denied = context
        for a in members(held):
            new.add((context, 1 << a, None))
        for a in members(denied):
            for rest in headed[context, a]:
                new.add((context, rest, None))
        for lower, upper in axioms.inclusions:
            for chosen in itertools.product(*(headed[context, a] for a in lower)):
                whole = upper
                for rest in chosen:
                    whole |= rest
                new.add((context, whole, None))
        for a, p, b in axioms.exists:
            for rest in headed[context, a]:
                new.add((context, rest, (p, (1 << b, 0))))
        for classes, (p, target) in toward[context]:
            if (target, 0, None) in clauses:
                new.add((context, classes, None))
            for q, a, b in axioms.exists_lower:
                if q in axioms.reached[p] and headed[target, a]:
                    new.add((context, classes | 1 << b, (p, (target[0], target[1] | 1 << a))))
            for a, q, b in axioms.forall:
                if q in axioms.reached[p]:
                    for rest in headed[context, a]:
                        new.add((context, classes | rest, (p, (target[0] | 1 << b, target[1]))))
    return new

def ask(axioms, held, denied):
    """The verdict, the number of contexts and the number of clauses; None for numbers of a full closure."""
    made = closure(axioms, (held, denied))
    if made is None:
        return 'full', None, None
    contexts, clauses = made
    return 'none' if ((held, denied), 0, None) in clauses else 'some', len(contexts), len(clauses)

def read_sheet(text):
    """The names of the classes and the axioms of a sheet that opens, by docs/sheets.md."""
    names, forms, at = [], {tag: [] for tag in range(2, 8)}, 0
    while at < len(text):
        tag, length = text[at], int.from_bytes(text[at + 1:at + 3], 'big')
        body = text[at + 3:at + 3 + length]
        at += 3 + length
        if tag == 1:
            names.append(body.decode('ascii'))
        elif tag == 3:
            forms[3].append((int.from_bytes(body[:8], 'big'), int.from_bytes(body[8:], 'big')))
        else:
            forms[tag].append(tuple(body))
    return names, Axioms(inclusions=forms[3], exists=forms[4], exists_lower=forms[5], forall=forms[6], roles=forms[7])

def pairs(names):
    return ((a, b) for a in range(len(names)) for b in range(len(names)))

def print_list(names, axioms):
    """The lines of a listing, or only that of its refusal."""
    lines = []
    for a, b in pairs(names):
        verdict, _, _ = ask(axioms, 1 << a, 1 << b)
        if verdict == 'full':
            print(f'refused 23 at {a * 64 + b}')
            return
        if a != b and verdict == 'none':
            lines.append(f'{names[a]} under {names[b]}')
    for line in lines:
        print(line)

def print_counts(names, axioms):
    answers = [ask(axioms, 1 << a, 1 << b) for a, b in pairs(names)]
    print('asks', len(answers), dict(collections.Counter(verdict for verdict, _, _ in answers)))
    for what, place in (('contexts', 1), ('clauses', 2)):
        counts = sorted(answer[place] for answer in answers if answer[0] != 'full')
        at = lambda part: counts[min(len(counts) - 1, int(part * len(counts)))]
        print(what, 'sum', sum(counts), 'least', counts[0], 'half', at(.5), 'nine in ten', at(.9), '99 in 100', at(.99), 'most', counts[-1])

def examples():
    payroll = (0b0001, 0b1000)
    some, within, exists_lower = [(0, 0, 1)], [(0b0010, 0b0100)], [(0, 2, 3)]
    rows = [
        (Axioms([(1, 6), (2, 8), (4, 8)]), payroll, ('none', 1, 6)),
        (Axioms([(1, 6), (2, 8)]), payroll, ('some', 1, 2)),
        (Axioms(within, some, exists_lower), payroll, ('none', 3, 10)),
        (Axioms(within, some, [(1, 2, 3)]), payroll, ('some', 2, 4)),
        (Axioms(within, some, [(1, 2, 3)], roles=[(0, 1)]), payroll, ('none', 3, 10)),
        (Axioms([(6, 0)], some, forall=[(0, 0, 2)]), (1, 0), ('none', 3, 8)),
        (Axioms(), (0, 0), ('some', 1, 0)),
        (Axioms([(0, 0)]), (0, 0), ('none', 1, 1)),
        (Axioms(exists=[(0, 0, 0)]), (1, 2), ('some', 2, 4)),
    ]
    for number, (axioms, goal, wanted) in enumerate(rows):
        given = ask(axioms, *goal)
        print('row', number, *given, '' if given == wanted else f'but {wanted} is wanted')
    return all(ask(axioms, *goal) == wanted for axioms, goal, wanted in rows)

def main(words):
    if words == ['examples']:
        return 0 if examples() else 1
    if len(words) < 2:
        print(__doc__, file=sys.stderr)
        return 2
    with open(words[0], 'rb') as sheet:
        names, axioms = read_sheet(sheet.read())
    if words[1:] == ['list']:
        print_list(names, axioms)
    elif words[1:] == ['counts']:
        print_counts(names, axioms)
    elif len(words) == 4 and words[1] == 'ask':
        held, denied = (bits(names.index(name) for name in word.split(',') if name != '-') for word in words[2:])
        print(*ask(axioms, held, denied))
    else:
        print(__doc__, file=sys.stderr)
        return 2
    return 0

if __name__ == '__main__':
    sys.exit(main(sys.argv[1:]))
