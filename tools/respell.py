#!/usr/bin/env python3
"""Spells this repository's own definitions and lemmas as today's library does: words in snake case, facts and types in camel case.

usage: python3 tools/respell.py        once, at the top of the repository, right after the kit's port.py

It collects the names that specs/ and proofs/ declare, works out their new spelling, and turns them as whole words:
in the texts of specs/ and proofs/, in the clauses of src/ and of must-fail edits, and in the code spans of the pages.
What Rattle names after the source (a goal, a step of a proof) stays; so do functions, fields and variables of src/.
It says where two names of a file would fall together (a definition that has the name of a method is no fault).
"""

import os
import re
import sys

WORD = r'[^\s(){}.;,@"«»\x60]+'
QUIET = re.compile(r'"(?:[^"\\\n]|\\.)*"|(?<![^\s(){}.;,@"«»])--[^\n]*|\{-.*?-\}', re.S)
DECLARED = re.compile(r"(?m)^ *(?:(?:pub|abbrev|unfoldable) )*([^\s(){}]+)(?: \{[^{}\n]*\}| \([^()\n]*\))* : (\S+)")
NAMED = re.compile(r"(?m)^ *(?:pub )?(?:data|record|ruleset) (\S+)")
BOUND = re.compile(r"[({]((?:[^\s(){}:,;]+ )+): ")
# In a proof of one function, the first word behind one of these is a goal or a step that Rattle names.
HEADS = re.compile(r"(?:goal|c|w|l|g)[0-9']*\.$")
SPAN = re.compile(r"\x60[^\x60\n]+\x60")

# What is not spelled by the rule: the rule would meet another name, or keep a word that the library no longer has.
CHOSEN = {
    "refusalLine": "refusal_bytes",
    "underLine": "under_bytes",
    "roomOf": "RoomOf",
    "slot-at": "slot_at_stands",
    "name-at": "name_at_lem",
    "link-word": "link_word_lem",
    "is-in": "is_in_lem",
    "context-in": "context_in_lem",
    "count-below": "count_below_lem",
    "getD-mem": "get_or_mem",
    "getD-zeros": "get_or_zeros",
    "mem-getD": "mem_get_or",
    "holds-getD": "holds_get_or",
}


def spelled(name):
    if name in CHOSEN:
        return CHOSEN[name]
    if name[0].isupper():
        return "".join(part[0].upper() + part[1:] for part in name.split("-"))
    return re.sub(r"(?<=[a-z0-9])[A-Z]", lambda m: "_" + m[0].lower(), name).replace("-", "_")


def files(ending, top="crates"):
    for folder, folders, names in os.walk(top):
        folders[:] = sorted(it for it in folders if it not in ("out", ".git", "target"))
        for it in sorted(names):
            if it.endswith(ending):
                yield os.path.join(folder, it)


def read(path):
    with open(path, encoding="utf-8") as f:
        return f.read()


def of_a_function(path):
    return os.path.basename(path) in ("Answers.antt", "Invariants.antt")


def own_names():
    found, brought = set(), set()
    for path in files(".antt"):
        text = QUIET.sub(" ", read(path))
        for m in re.finditer(r"(?m)^(?:pub )?use (\S+)\.\{([^}]*)\}", text):
            if m[1].split(".")[0] != "Rattle" or m[1].split(".")[1] == "std":
                brought.update(re.findall(WORD, m[2]))
        found.update(name for name, kind in DECLARED.findall(text) if not kind.startswith("goal."))
        found.update(NAMED.findall(text))
        if not of_a_function(path):
            found.update(name for names in BOUND.findall(text) for name in names.split() if "-" in name)
    odd = {it for it in found if re.search(r"[a-z0-9]-[A-Za-z0-9]|^[A-Z][a-z]*-|^[a-z0-9]+[A-Z]|-[a-z]", it)}
    return {it: spelled(it) for it in odd - brought if spelled(it) != it}


def turned(text, table, made):
    def one(m):
        if made and HEADS.search(text[max(0, m.start() - 12) : m.start()]):
            return m[0]
        return table.get(m[0], m[0])

    return re.sub(WORD, one, text)


def outside_strings(text, change):
    out, at = [], 0
    for m in re.finditer(r'"(?:[^"\\\n]|\\.)*"', text):
        out += [change(text[at : m.start()]), m[0]]
        at = m.end()
    return "".join(out + [change(text[at:])])


def main():
    table = own_names()
    changed = {}
    for path in [*files(".antt"), *files(".rt"), *files(".edit")]:
        text = read(path)
        made = of_a_function(path)
        bare = QUIET.sub(" ", text) if path.endswith(".antt") else text
        words = set(re.findall(WORD, bare))
        for old in sorted(words & set(table)):
            others = {it for it in words if it != old and table.get(it, it) == table[old]}
            if others and not (made and re.search(re.escape("." + table[old]) + r"\.", bare)):
                print(f"{path}: {old} would meet {', '.join(sorted(others))}")
        new = outside_strings(text, lambda t: turned(t, table, made))
        if new != text:
            changed[path] = new
    for path in [*files(".md", "docs"), "README.md"]:
        if os.path.exists(path):
            text = read(path)
            new = SPAN.sub(lambda m: turned(m[0], table, False), text)
            if new != text:
                changed[path] = new
    for path, new in changed.items():
        with open(path, "w", encoding="utf-8") as f:
            f.write(new)
    print(f"{len(table)} names, {len(changed)} files")


if __name__ == "__main__":
    sys.exit(main())
