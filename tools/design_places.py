#!/usr/bin/env python3
"""Lists places in src/ that today's forms of Rattle may replace, point by point, at the working tree or at a commit.

    python3 tools/design_places.py          counts
    python3 tools/design_places.py -v       the places too
    python3 tools/design_places.py -v REV   at a commit

A line is a place to look at and no verdict: docs/DESIGN-PASS.md says what each one was or is. Twins are looked for with the command
`duplicates` besides, over copies of the files (it reads no .rt).
"""
import collections
import re
import subprocess
import sys

POINTS = [
    ("1 enums", r"^\s*(pub(\(crate\))? )?enum \w+"),
    ("1 codes and flags", r"fn .*-> i8|fn .*\w+: bool[,)]|match F::heads\(\)|^    fn (number|section)\(self\)|^    pub fn (number|section)\(self\)"),
    ("3 loops with an index", r"^\s*for (\w+ in [^&]*\.\.|.*enumerate\(\))|^\s*(while|loop) "),
    ("3 runs over constant places", r"\w\[0\].*\w\[1\]|positions\[[123]\] =|node\.masters\[[012]\]|, [012]\)[;,]$|, 0\) \+ "),
    ("3 tests of a place against a length", r"\b\w+ <=? \w+(\.\w+)?\.len\(\)|\w+ >= \w+(\.\w+)?\.len\(\)"),
    ("4 equality, order, copies, printing by hand", r"a\.u == b\.u|impl \w*(PartialEq|PartialOrd|Eq|Ord|Clone|Copy|Debug) for"),
    ("4 matches that turn an Option or a Result", r"^\s*(Err|Ok|Some|None)(\(\w*\)|\(\(\)\))? => "),
    ("4 casts", r" as (u8|u16|u32|u64|i8|i16|i32|i64|usize)\b"),
    ("5 positions passed in threes", r"\ba: Position, b: Position, c: Position|^\s+a: Position,$"),
    ("5 bytes and a section", r"fn \w+\(bytes: &\[u8\]"),
    ("6 arrays with a count, and numbers of nodes", r"\[\w+; MOST_\w+\]|Option<u16>|\) -> \(.*usize\)"),
    ("7 switches on a step", r"match (tip|F::heads\(\)|call) \{|dyn |\bfn\("),
]


def files(rev):
    if rev:
        names = subprocess.run(["git", "ls-tree", "-r", "--name-only", rev, "crates"], capture_output=True, text=True, check=True).stdout.split()
        for name in names:
            if re.fullmatch(r"crates/\w+/src/\w+\.rt", name):
                yield name, subprocess.run(["git", "show", f"{rev}:{name}"], capture_output=True, text=True, check=True).stdout
    else:
        names = subprocess.run(["git", "ls-files", "crates"], capture_output=True, text=True, check=True).stdout.split()
        for name in names:
            if re.fullmatch(r"crates/\w+/src/\w+\.rt", name):
                try:
                    yield name, open(name).read()
                except FileNotFoundError:
                    pass


def clauses(text):
    """Each clause of a contract, in one line."""
    for m in re.finditer(r"\b(requires|ensures)\b[ \w]*\{", text):
        depth, i = 1, m.end()
        while depth and i < len(text):
            depth += {"{": 1, "}": -1}.get(text[i], 0)
            i += 1
        yield re.sub(r"\s+", " ", text[m.end() : i - 1]).strip()


def main():
    verbose = "-v" in sys.argv
    rest = [a for a in sys.argv[1:] if a != "-v"]
    sources = [(n, t) for n, t in files(rest[0] if rest else None) if not n.endswith("optical_table.rt")]
    for title, pattern in POINTS:
        # the tables of cases in samples are data
        hits = [(n, i, l.strip()) for n, t in sources for i, l in enumerate(t.split("\n"), 1) if re.search(pattern, l) and not l.strip().startswith("//") and not (title.startswith("3 runs") and "/samples/" in n)]
        print(f"{len(hits):4}  {title}")
        if verbose:
            for n, i, l in hits:
                print(f"        {n}:{i}: {l[:110]}")
    seen = collections.Counter(c for _, t in sources for c in clauses(t))
    often = [(k, c) for c, k in seen.most_common() if k >= 3]
    print(f"{len(often):4}  5 clauses that stand in three or more contracts")
    if verbose:
        for k, c in often:
            print(f"        {k}x {c[:110]}")


if __name__ == "__main__":
    main()
