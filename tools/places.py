#!/usr/bin/env python3
"""Lists the places in the sources where an older form may stand, by the points of docs/DESIGN-PASS.md.

    tools/places.py [COMMIT] [-l]

counts them in a commit (by default in the files as they are), and with -l prints each. A place is a line that a pattern finds; for
points 2 and 5 it is a repeated piece of text, a repeated clause or a group of parameters. Whether a place is one of the point is for a reader to say.
"""
import collections
import re
import subprocess
import sys

LINES = {
    "1a enums": r"^\s*(pub(\([a-z]+\))? )?enum ",
    "1b flags in results and fields": r"-> (bool|Result<bool)|^\s*(pub )?\w+: bool,",
    "1c numbers for kinds": r"^\s+\d+(\.\.=\d+)?( if .*)? => ",
    "1d sentinels": r"::MAX\b(?!_)|One more than|one more than",
    "1e results handed on by hand": r"Err\((\w+)\) => (return )?Err\(\1\)|Err\(_\) => (unreachable|Err|None|Ok)|None => return |Ok\((\w+)\) => (Ok|Some)\(\3\)|None => continue",
    "3a while loops": r"^\s*('\w+: )?while ",
    "3b loops over numbers": r"^\s*('\w+: )?for \w+ in .*\.\.",
    "3c loops with an early answer": r"^\s+return (true|false|Some\(.*\)|Ok\(Place.*);",
    "4a impls of equality, order, copy, conversion, printing": r"^impl.* (PartialEq|Eq|PartialOrd|Ord|Clone|Copy|Hash|Default|From<.*>|TryFrom<.*>|FromStr|Same|fmt::Display|fmt::Debug) for ",
    "4b conversions by a method": r"fn (from_\w+|to_\w+|as_\w+|into_\w+|number|bits|same|kind_of|told|byte|digit)\(",
    "6a arrays": r"\[[^\[\]]+; [A-Za-z0-9_: ]+\]",
    "6b counts beside": r"^\s*(pub |pub\(crate\) )?(len|count|used|counts|size): ",
    "7 switches, function values": r"\b\w+: bool\b|: fn\(|dyn ",
}


def files(commit):
    args = ["git", "ls-tree", "-r", "--name-only", commit] if commit else ["git", "ls-files"]
    names = subprocess.run(args, capture_output=True, text=True, check=True).stdout.split()
    for name in sorted(names):
        if re.fullmatch(r"crates/\w+/src/.*\.rt", name):
            if commit:
                yield name, subprocess.run(["git", "show", f"{commit}:{name}"], capture_output=True, text=True, check=True).stdout
            else:
                try:
                    yield name, open(name, encoding="utf-8").read()
                except FileNotFoundError:
                    pass


def functions(text):
    """The functions of a file: line, name, parameters, clauses."""
    for m in re.finditer(r"\bfn (\w+)(?:<[^{;]*?>)?\(((?:[^()]|\([^()]*\))*)\)", text):
        rest = text[m.end():]
        end = re.search(r"\n\s*\{\n|;\n|\n\s*\{\}\n| \{\n", rest)
        head = rest[: end.start()] if end else ""
        parameters = [p.strip() for p in re.split(r",(?![^<]*>)", m.group(2)) if p.strip()]
        clauses = re.findall(r"(?:requires|ensures)(?: \w+)? \{ (.*?) \}(?=\s*(?:requires|ensures|$|\n|;))", head, re.S)
        yield text.count("\n", 0, m.start()) + 1, m.group(1), parameters, [" ".join(c.split()) for c in clauses]


def main():
    words = [a for a in sys.argv[1:] if a != "-l"]
    commit = words[0] if words else None
    show = "-l" in sys.argv
    texts = list(files(commit))
    for point, pattern in LINES.items():
        found = [(n, i, line.strip()) for n, t in texts for i, line in enumerate(t.split("\n"), 1) if re.search(pattern, line) and not line.strip().startswith("//")
                 or (point.startswith("1d") and re.search(pattern, line) and line.strip().startswith("///"))]
        print(f"{point}: {len(found)}")
        if show:
            for n, i, line in found:
                print(f"    {n}:{i}: {line}")
    heads, clauses, groups = collections.defaultdict(list), collections.defaultdict(list), collections.defaultdict(list)
    for n, t in texts:
        lines = [line.strip() for line in t.split("\n")]
        for i in range(len(lines) - 5):
            piece = lines[i:i + 6]
            if all(len(x) > 3 and not x.startswith(("//", "ghost use", "use ")) for x in piece):
                heads["\n".join(piece)].append(f"{n}:{i + 1}")
        for line, name, parameters, cs in functions(t):
            for c in set(cs):
                clauses[c].append(f"{n}:{line} {name}")
            for i in range(len(parameters)):
                for j in range(i + 2, len(parameters) + 1):
                    groups[", ".join(re.sub(r"^mut ", "", p) for p in parameters[i:j])].append(f"{n}:{line} {name}")
    for point, table, least in (("2 pieces of six lines that stand twice", heads, 2), ("5a clauses of three or more functions", clauses, 3),
                                ("5b parameters that travel together in three or more functions", groups, 3)):
        found = {k: v for k, v in table.items() if len(v) >= least}
        if table is groups:  # the longest groups only
            found = {k: v for k, v in found.items() if not any(k != o and k in o and len(w) >= len(v) for o, w in found.items())}
        print(f"{point}: {len(found)}")
        if show:
            for k, v in sorted(found.items(), key=lambda e: -len(e[1])):
                print("    " + k.replace("\n", " | ")[:160])
                print("        " + "; ".join(v))


main()
