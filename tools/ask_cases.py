#!/usr/bin/env python3
"""Writes crates/ask_cases/stdin, questions to ask, and crates/ask_cases/stdout, what should come of each.

What should come of a question is worked out by tools/closure.py from the rules of docs/closure.md, with none of the engine's code.
The questions are the worked examples, each limit from both sides, and questions made by chance from a fixed number.
"""
import collections
import os
import random
import sys

from closure import Axioms, closure

INCLUSION, EXISTS, EXISTS_LOWER, FORALL, ROLES = 3, 4, 5, 6, 7

# the program's own naive closure has room for so much
ROOM_CONTEXTS, ROOM_CLAUSES = 32, 256

Case = collections.namedtuple('Case', 'classes roles held denied contexts clauses words axioms')

def made(case):
    """The contexts and the clauses of the case's closure."""
    form = lambda number: [axiom[1:] for axiom in case.axioms if axiom[0] == number]
    return closure(Axioms(form(INCLUSION), form(EXISTS), form(EXISTS_LOWER), form(FORALL), form(ROLES)), (case.held, case.denied))

def row(case):
    """How many words an element has in a model table."""
    return 1 + 4 * case.roles

def word(goal, clauses):
    """The classes of the goal's element: by rising class those that a clause has as its head while its other classes are out."""
    classes = 0
    for a in range(64):
        for context, of, part in clauses:
            if context == goal and part is None and of.bit_length() == a + 1 and not (of ^ 1 << a) & classes:
                classes |= 1 << a
    return classes

def told(case):
    """What the call should tell."""
    refused = lambda number: f'refused {number} at 0, layer Ask'
    if (case.held | case.denied) >> case.classes:
        return refused(10)
    if case.contexts > 256 or case.clauses > 65535 or case.words is not None and case.words < case.contexts * row(case):
        return refused(11)
    contexts, clauses = made(case)
    if len(contexts) > case.contexts or len(clauses) > case.clauses:
        return refused(23)
    goal = (case.held, case.denied)
    counts = f'contexts {len(contexts)}, clauses {len(clauses)}'
    if (goal, 0, None) in clauses:
        return f'none, {counts}, word 0'
    return f'some, {counts}, word {0 if case.words is None else word(goal, clauses)}'

def line(case):
    words = '-' if case.words is None else case.words
    axioms = [','.join(map(str, axiom)) for axiom in case.axioms]
    return ' '.join(map(str, [case.classes, case.roles, case.held, case.denied, case.contexts, case.clauses, words] + axioms))

def lent(case, contexts, clauses, model=False):
    """The case with so many slots, and with just the words that they ask for where there is a model table."""
    return case._replace(contexts=contexts, clauses=clauses, words=contexts * row(case) if model else None)

def question(classes, roles, held, denied, axioms):
    return Case(classes, roles, held, denied, 0, 0, None, axioms)

def examples():
    """The questions of crates/closure/specs/Examples.antt."""
    some, within = (EXISTS, 0, 0, 1), (INCLUSION, 0b0010, 0b0100)
    kept = (0b0001, 0b1000)
    return [question(4, 2, *goal, axioms) for goal, axioms in [
        (kept, [(INCLUSION, 0b0001, 0b0110), (INCLUSION, 0b0010, 0b1000), (INCLUSION, 0b0100, 0b1000)]),
        (kept, [(INCLUSION, 0b0001, 0b0110), (INCLUSION, 0b0010, 0b1000)]),
        (kept, [some, within, (EXISTS_LOWER, 0, 2, 3)]),
        (kept, [some, within, (EXISTS_LOWER, 1, 2, 3)]),
        (kept, [some, within, (EXISTS_LOWER, 1, 2, 3), (ROLES, 0, 1)]),
        ((0b0001, 0), [some, (FORALL, 0, 0, 2), (INCLUSION, 0b0110, 0)]),
        ((0, 0), []),
        ((0, 0), [(INCLUSION, 0, 0)]),
        ((0b0001, 0b0010), [(EXISTS, 0, 0, 0)]),
    ]]

def around(case):
    """The case with exactly enough slots, more, and one too few of each table, with and without a model table, and with no slots."""
    contexts, clauses = map(len, made(case))
    for model in (False, True):
        yield lent(case, contexts, clauses, model)
        yield lent(case, contexts + 3, clauses + 7, model)
        yield lent(case, contexts - 1, clauses, model)
        if clauses:
            yield lent(case, contexts, clauses - 1, model)
    yield lent(case, 0, 0)

def limits():
    """Each limit from both sides, and which check comes first."""
    rows = examples()
    wages, chain = rows[1], rows[8]
    for model in (False, True):
        for case in (wages, chain):
            for contexts in (256, 257):
                for clauses in (65535, 65536):
                    yield lent(case, contexts, clauses, model)
    for case in (wages, chain, wages._replace(roles=0), wages._replace(roles=16)):
        fits = lent(case, 4, 9, True)
        for change in (-1, 1, -fits.words):
            yield fits._replace(words=fits.words + change)
    yield lent(wages, 0, 9, True)
    for classes in range(5):
        case = chain._replace(classes=classes, axioms=[])
        for held, denied in ((1, 0), (0, 1), (8, 0), (0, 8), (1 << 63, 0), (0, 1 << 63), (16, 16)):
            yield lent(case._replace(held=held, denied=denied), 4, 9)
    past = wages._replace(held=0b10001)
    for case in (past, past._replace(held=1, denied=16), wages):
        for contexts, clauses in ((257, 9), (4, 65536), (4, 0), (0, 0), (257, 0)):
            yield lent(case, contexts, clauses)
            yield lent(case, contexts, clauses, True)._replace(words=0)
    for roles in (0, 16):
        yield from around(question(0, roles, 0, 0, []))
        yield from around(question(0, roles, 0, 0, [(INCLUSION, 0, 0)]))
    yield from around(question(3, 1, 0b011, 0b010, []))
    yield from around(question(3, 1, 0b111, 0b111, [(INCLUSION, 0b111, 0)]))
    yield from around(question(3, 0, 0b101, 0b010, [(INCLUSION, 0b101, 0b010), (INCLUSION, 0, 0b110)]))
    top = 63
    yield from around(question(64, 16, 1 << top, 1, [(EXISTS, top, 15, top), (FORALL, top, 14, 62), (ROLES, 15, 14), (EXISTS_LOWER, 15, 62, 61)]))
    yield from around(question(64, 16, 1 << top, 1, [(INCLUSION, 1 << top, 1 << 62 | 1 << 61 | 1), (INCLUSION, 1 << 62, 1 << 61), (INCLUSION, 1 << 61, 1)]))
    chain_of_roles = [(ROLES, p + 1, p) for p in range(15)]
    yield from around(question(3, 16, 1, 2, [(EXISTS, 0, 15, 2), (EXISTS_LOWER, 0, 2, 1)] + chain_of_roles))
    yield from around(question(3, 16, 1, 2, [(EXISTS, 0, 0, 2), (EXISTS_LOWER, 15, 2, 1)] + chain_of_roles))

def made_axiom(chance, classes, roles):
    some = lambda most: sum({1 << chance.randrange(classes) for _ in range(chance.randrange(most + 1))})
    form = chance.choice([INCLUSION, INCLUSION, INCLUSION, EXISTS, EXISTS, EXISTS_LOWER, FORALL, ROLES])
    if form == INCLUSION:
        return (form, some(3) or some(3), some(3))
    a, b, p = chance.randrange(classes), chance.randrange(classes), chance.randrange(roles)
    return {EXISTS: (form, a, p, b), EXISTS_LOWER: (form, p, a, b), FORALL: (form, a, p, b), ROLES: (form, p, chance.randrange(roles))}[form]

def by_chance(number):
    """Small questions made by chance whose closure the program has room for; the greater part has more than one context or a few clauses."""
    chance = random.Random(20)
    count = 0
    while count < number:
        classes, roles = chance.randint(3, 6), chance.randint(1, 3)
        held = sum({1 << chance.randrange(classes) for _ in range(chance.randrange(3))})
        denied = sum({1 << chance.randrange(classes) for _ in range(chance.randrange(3))})
        case = question(classes, roles, held, denied, [made_axiom(chance, classes, roles) for _ in range(chance.randint(1, 8))])
        got = made(case)
        if got is None or len(got[0]) > ROOM_CONTEXTS or len(got[1]) > ROOM_CLAUSES:
            continue
        if len(got[1]) < 4 and chance.random() < 0.9 or len(got[0]) == 1 and chance.random() < 0.6:
            continue
        count += 1
        slots = lambda n: chance.choice([n] * 5 + [n + chance.randrange(9)] * 4 + [chance.randrange(n + 1)])
        yield lent(case, slots(len(got[0])), slots(len(got[1])), chance.random() < 0.6)

def main():
    here = os.path.join(os.path.dirname(os.path.abspath(__file__)), '..', 'crates', 'ask_cases')
    cases = [case for example in examples() for case in around(example)] + list(limits()) + list(by_chance(300))
    with open(os.path.join(here, 'stdin'), 'w') as stdin, open(os.path.join(here, 'stdout'), 'w') as stdout:
        for case in cases:
            stdin.write(line(case) + '\n')
            stdout.write(told(case) + ': ok\n')
    kinds = collections.Counter(' '.join(told(case).split()[:2]) if told(case).startswith('refused') else told(case)[:4] for case in cases)
    print(len(cases), 'cases', dict(kinds), file=sys.stderr)

if __name__ == '__main__':
    main()
