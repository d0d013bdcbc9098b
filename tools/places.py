#!/usr/bin/env python3
"""Counts, for a commit, the places that docs/DESIGN-PASS.md speaks of: python3 tools/places.py COMMIT [--show]
Each count is of lines (or names, facts, pairs) in crates/*/src/*.rt that match; --show prints them too."""
import collections
import re
import subprocess
import sys

PATTERNS = [
    ("1", "kinds by number", r"\b(opening|noted|ranked|graded|carried)\([0-9]+,|^ +([0-9]+|_) => \w+\(r, view\)"),
    ("1", "places of the table of counts by number", r"(counted_at|count_at|gained|certify)\([^)]*\b(8|9|10|11)\b|counts\[11\]|^ +(8|9|10|11),$"),
    ("1", "refusals as an Option", r"Option<(Option<)?Refusal>"),
    ("1", "flags in structs, and plain parameters on a line of their own", r"^ +(pub(\(crate\))? )?\w+: bool,$"),
    ("1", "numbers of refusals, layers and sorts", r"fn (layer_)?number\((self|layer)|fn lengths"),
    ("1", "an Option or Result taken apart and put together by hand",
     r"(None|Err\(_\)) => (None|false|0|Set::EMPTY|unreachable\(\)|Err)|let (Some|Ok)\(.*\) = .* else|Some\(e\) =>"),
    ("2", "functions that only carry a law, with a made-up result", r"^    0$"),
    ("3", "loops", r"^ *(for|while|loop)\b"),
    ("3", "loops written out eight times", r"(heard_tag\(m, set, |key\(bytes, )7|t\[7\]"),
    ("4", "fields copied one by one", r"^ +(\w+): (\w+\.)+\1,$"),
    ("4", "equality, names, numbers and digits by hand",
     r"fn (is_idle|awaits_\w+|name|(layer|sort)_name|reason_text|is_of|has_words|hex_digit|nibble|decimal)\b"),
    ("4", "types with no derive but Clone and Copy", r"derive\(Clone, Copy\)"),
    ("6", "arrays and vectors in types, signatures and values", r"\[[a-zA-Z0-9]+; [0-9]+\]|Vec<u8>"),
    ("7", "enums, of which those count that only pick a step", r"^(pub(\(crate\))? )?enum"),
]


def run(*args):
    return subprocess.run(args, capture_output=True, text=True, check=True).stdout


def sources(commit):
    names = run("git", "ls-tree", "-r", "--name-only", commit, "crates").split("\n")
    for name in names:
        if re.search(r"/src/.*\.rt$", name):
            yield name, run("git", "show", f"{commit}:{name}")


def repeated_names(files):
    where = collections.defaultdict(set)
    for name, text in files:
        for found in re.finditer(r"\bfn (\w+)", text):
            where[found.group(1)].add((name, found.start()))
    return sorted(n for n, places in where.items() if len(places) > 1)


def repeated_facts(files):
    count = collections.Counter()
    for _, text in files:
        for line in re.findall(r"^\s+requires(?: \w+)? \{ (.*) \}$", text, re.M):
            for fact in line.split(" × "):
                fact = re.sub(r"[()]|row\.old\.|\.(old|now|new)\b", "", fact).strip()
                count[fact] += 1
    return sorted(f for f, n in count.items() if n > 2)


def travelling_pairs(files):
    count = collections.Counter()
    for _, text in files:
        for params in re.findall(r"fn \w+(?:<[^>{]*>)?\(([^)]*)\)", text):
            named = set()
            for p in re.sub(r"\s+", " ", params).split(","):
                if ":" in p:
                    n, t = p.split(":", 1)
                    named.add((n.replace("mut ", "").strip(), re.sub(r"'\w+ |<'\w+>", "", t.strip())))
            named = sorted(named)
            for i, a in enumerate(named):
                for b in named[i + 1:]:
                    count[a, b] += 1
    return sorted(str(p) for p, n in count.items() if n > 2)


def main():
    commit, show = sys.argv[1], "--show" in sys.argv
    files = list(sources(commit))
    rows = []
    for point, what, pattern in PATTERNS:
        lines = [f"{n}:{i}:{l}" for n, text in files for i, l in enumerate(text.split("\n"), 1) if re.search(pattern, l)]
        rows.append((point, what, lines))
    rows.append(("2", "functions of one name", repeated_names(files)))
    rows.append(("5", "facts that three or more requires state", repeated_facts(files)))
    rows.append(("5", "pairs of parameters that three or more functions take", travelling_pairs(files)))
    for point, what, lines in sorted(rows, key=lambda r: r[0]):
        print(f"{point}  {len(lines):4}  {what}")
        if show:
            print("".join(f"        {line}\n" for line in lines), end="")


main()
