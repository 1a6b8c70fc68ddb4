#!/usr/bin/env python3
"""Writes crates/ask_bench/stdin, how many clauses a closure is to have, and crates/ask_bench/stdout, what the ask should tell.

The axioms are those that the program makes; what should be told is worked out by tools/closure.py.
"""
import os

import closure

closure.MOST_CONTEXTS, closure.MOST_CLAUSES = 256, 4096

# the depth and the width of the office for about so many clauses
OFFICES = {100: (3, 6), 300: (5, 10), 1000: (14, 10)}

def office(depth, width):
    only = lambda mark: 1 << depth + mark
    levels = [(1 << level, only(0) if level % 2 == 0 else only(0) | only(1)) for level in range(depth)]
    marks = [(only(mark - 1), only(mark)) for mark in range(1, width)]
    neighbours = [(only(mark - 2) | only(mark - 1), only(mark)) for mark in range(2, width)]
    above = depth + width
    return closure.Axioms(
        levels + marks + neighbours,
        exists=[(level - 1, (level - 1) % 2, level) for level in range(1, depth)],
        exists_lower=[(1, above - 1, above)],
        forall=[(above, 1, above + 1)],
        roles=[(0, 1)])

def main():
    here = os.path.join(os.path.dirname(os.path.abspath(__file__)), '..', 'crates', 'ask_bench')
    with open(os.path.join(here, 'stdin'), 'w') as stdin, open(os.path.join(here, 'stdout'), 'w') as stdout:
        for number, shape in OFFICES.items():
            verdict, contexts, clauses = closure.ask(office(*shape), 1, 0)
            stdin.write(f'{number}\n')
            stdout.write(f'{verdict}, contexts {contexts}, clauses {clauses}\n')

if __name__ == '__main__':
    main()
