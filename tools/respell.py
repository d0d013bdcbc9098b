#!/usr/bin/env python3
"""Brings this repository's own definitions and lemmas to the spelling of today's Rattle, once, after the kit's port script.

usage: python3 tools/respell.py [--dry]     at the top of the repository, on a tree that the kit's port script has just turned

Types become upper camel case; all other names snake case, wherever specs/ and proofs/ name them, in clauses, and where comments
and the pages in docs/ cite them. In the proofs of functions, a name made from a function's name takes that function's spelling.
Names of the library, functions, fields and constants of src/, strings, inputs and outputs stay as they are. It stops before it
writes if two names fall together in one file.
"""
import collections
import glob
import re
import sys

ID = r"[A-Za-z_][\w'₀-₉]*(?:-[\w'₀-₉]+)*"
TOKEN = re.compile(r'"(?:\\.|[^"\\])*"|(?:--|//).*|' + ID)
# Names that would fall together with another one of the crate, and what they are called there instead.
OTHERWISE = {("sending", "number-of"): "number_of_tag_bytes", ("words", "bits-of"): "bits_of_words"}


def code_files():
    return sorted(f for e in ("antt", "rt") for f in glob.glob(f"crates/**/*.{e}", recursive=True) if "/out/" not in f)


def is_comment(token, file):
    return token.startswith("--") if file.endswith(".antt") else token.startswith("//")


def declared():
    """Each name that a file of specs/ or proofs/ declares, with its kinds; goals of functions are left out."""
    kinds = collections.defaultdict(set)
    for f in code_files():
        if not f.endswith(".antt"):
            continue
        inside = None
        for line in open(f, encoding="utf-8"):
            line = re.sub(r"--.*", "", line.rstrip("\n"))
            for n in re.findall(r" as (" + ID + ")[,}]", line):
                kinds[n].add("type" if n[0].isupper() else "term")
            for n in re.findall(r"\blet (" + ID + ") [:=]", line):
                kinds[n].add("term")
            m = re.match(r"^(?:  )?(?:(?:pub|abbrev|unfoldable|pattern) )*(data|record) (" + ID + ")", line)
            if m:
                kinds[m[2]].add("type")
                inside = m[1]
                continue
            if line and not line[0].isspace():
                inside = None
            m = re.match(r"^(\s*)(?:(?:pub|abbrev|unfoldable|pattern) )*((?:" + ID + r" )*" + ID + r")(?:\s*\{[^}]*\})?\s*:\s*(.*)", line)
            if not m or m[3].startswith("goal.") or (m[1] and not inside and not re.match(r"^ +(?:pub |abbrev |unfoldable )*" + ID + r" ?(\{[^}]*\} ?)?: ", line)):
                continue
            for n in m[2].split():
                kind = "type" if re.search(r"(^|→ )Type( \S+)?\s*$", m[3]) and not (m[1] and inside) else "term"
                kinds[n].add(kind)
    return kinds


def of_library(text, crates):
    """The names that a file imports from a library of the kit."""
    uses = re.findall(r"^(?:ghost )?(?:pub )?use (\w+)\.(\w+)[^{\n]*\{([^}]*)\}", text, re.M)
    return {n.split(" as ")[0].strip() for top, second, items in uses if top != "Rattle" or second not in crates for n in items.split(",")}


def rust_names():
    names = set()
    for f in code_files():
        if f.endswith(".rt"):
            for line in open(f, encoding="utf-8"):
                names |= set(re.findall(r"\bfn (\w+)", line))
    return {n for n in names if "_" in n}


def camel(n):
    return "".join(p[0].upper() + p[1:] for p in re.split("[-_]", n))


def spelled(n, kinds):
    return camel(n) if "type" in kinds or n[0].isupper() else snake(n)


def snake(n):
    n = n.replace("-", "_")
    return n if n[:1].isupper() else re.sub(r"(?<=[a-z0-9])[A-Z]", lambda m: "_" + m[0].lower(), n)


def made(token, rust):
    """A name that Rattle makes, with each function's name in it as the function spells it."""
    parts = token.split("-")
    out, i = [], 0
    while i < len(parts):
        for j in range(len(parts), i + 1, -1):
            if "_".join(parts[i:j]) in rust:
                out.append("_".join(parts[i:j]))
                i = j
                break
        else:
            out.append(parts[i])
            i += 1
    return "-".join(out)


def main():
    dry = "--dry" in sys.argv
    kinds = declared()
    rust = rust_names()
    crates = {f.split("/")[1] for f in code_files()}
    new = {n: spelled(n, k) for n, k in kinds.items() if "-" in n or "′" in n or re.search(r"^[a-z].*[a-z][A-Z]", n) or ("_" in n and "type" in k)}
    new = {n: v for n, v in new.items() if v != n}
    texts, bad = {}, []
    for f in code_files():
        text = open(f, encoding="utf-8").read()
        answers = re.search(r"/proofs/.+/(Answers|Invariants)\.antt$", f)
        crate = f.split("/")[1]
        theirs = of_library(text, crates)
        names = {n: v for n, v in (new | {n: v for (c, n), v in OTHERWISE.items() if c == crate}).items() if n not in theirs}
        code = {t for t in TOKEN.findall(re.sub(r"\bRattle(\.\w+)+", "", text)) if not is_comment(t, f) and t[0] != '"'}
        here = {n: names[n] for n in code if n in names}
        back = collections.Counter(here.values())
        for n, v in here.items():
            if (v in code and v not in here and not (f.endswith(".rt") and v in rust)) or back[v] > 1:
                bad.append(f"{f}: {n} -> {v}")

        def turn(m):
            t, dotted = m[0], m.start() > 0 and text[m.start() - 1] == "."
            if t[0] == '"':
                return t
            if is_comment(t, f):
                return re.sub(r"(?<![\w-])" + ID, lambda w: names[w[0]] if w[0] in names and (w[0][0].isupper() or t[max(w.start() - 1, 0)] == "`") else w[0], t)
            if answers and "-" in t and (dotted or re.match(r"^(pub )?$", text[text.rfind("\n", 0, m.start()) + 1 : m.start()]) or t.startswith(("then-", "else-", "in-", "if-"))) and (t not in new or (dotted and new[t] in rust)):
                return made(t, rust)
            return names.get(t, t)

        turned = TOKEN.sub(turn, text)
        if turned != text:
            texts[f] = turned
    for f in ["README.md", *sorted(glob.glob("docs/*.md"))]:
        text = open(f, encoding="utf-8").read()
        turned = re.sub(r"(?<![\w-])" + ID, lambda m: new[m[0]] if m[0] in new and (m[0][0].isupper() or (text[m.start() - 1] == "`" and text[m.end()] == "`")) else m[0], text)
        if turned != text:
            texts[f] = turned
    print("\n".join(f"{n} -> {v}" for n, v in sorted(new.items())) if dry else f"{len(new)} names")
    if bad:
        print("fall together:\n" + "\n".join(sorted(bad)))
        return 1
    if not dry:
        for f, text in texts.items():
            open(f, "w", encoding="utf-8").write(text)
    print(f"{len(texts)} files")
    return 0


if __name__ == "__main__":
    sys.exit(main())
