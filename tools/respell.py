#!/usr/bin/env python3
"""Brings this repository's own antt names to the library's spelling: functions, lemmas, fields and constructors
in snake case, facts and types in camel case. Run once, at the top, after the kit's own script.

usage: tools/respell.py          rewrites crates/*/{specs,proofs,src,must-fail} in place and prints each renaming
       tools/respell.py --dry    prints the renamings and what falls together, and writes nothing

A name is the repository's own if a file of specs/ or proofs/ declares it, binds it, or if it is a label of a clause
or a function of src/ that a proof file spells with dashes. Names of goals and of the library keep their spelling.
"""
import collections
import glob
import os
import re
import sys

NAME = r"[^\s(){}\[\];,.\"`⟦⟧λ:|]+"
TOKEN = re.compile(NAME)
DECLARED = re.compile(r"^\s*(?:(?:abbrev|unfoldable|pub|data|record|ruleset|module)\s+)*(" + NAME + r")\s*(?=:|\(|\{)")
LET = re.compile(r"\blet (" + NAME + r")")
BINDER = re.compile(r"λ ((?:" + NAME + r"\s*)+)\.")
TYPED = re.compile(r"[({]((?:" + NAME + r"\s+)+):")
LABEL = re.compile(r"\b(?:ensures|requires|ghost(?: invariant)?) (\w+)\s*[:={]")
FN = re.compile(r"\bfn (\w+)")
ALIAS = re.compile(r"\bas (" + NAME + r")")
GOAL = re.compile(r"^(?:abbrev )?pub (" + NAME + r") : (?:goal|given)\.")


def new_spelling(name):
    if name[:1].isupper():
        head, *rest = name.split("-")
        return head + "".join(part[:1].upper() + part[1:] for part in rest)
    return name.replace("-", "_")


def is_own(name):
    return "-" in name.strip("-") and not name.startswith("-") and re.fullmatch(r"[A-Za-z][\w'₀-₉-]*", name) is not None


def files(kind):
    return sorted(p for p in glob.glob("crates/**/*" + kind, recursive=True) if "/out/" not in p)


def imported(text):
    for path, names in re.findall(r"^use ([\w.+-]+)\.\{([^}]*)\}", text, re.M):
        if not re.match(r"Rattle\.(?:" + "|".join(map(re.escape, CRATES)) + r")\.", path):
            for item in names.split(","):
                yield item.strip().split(" as ")[0]


CRATES = sorted(os.path.basename(os.path.dirname(p)) for p in glob.glob("crates/*/src"))


def gather():
    own, goals, theirs, source = set(), set(), set(), set()
    for p in files(".antt"):
        text = open(p, encoding="utf-8").read()
        theirs.update(imported(text))
        for line in text.split("\n"):
            if line.startswith("use "):
                own.update(n for n in ALIAS.findall(line) if is_own(n))
                continue
            if line.lstrip().startswith("--"):
                continue
            g = GOAL.match(line)
            if g:
                goals.add(g.group(1))
                continue
            found = [m.group(1) for m in [DECLARED.match(line)] if m] + LET.findall(line)
            for group in BINDER.findall(line) + TYPED.findall(line):
                found += group.split()
            own.update(n for n in found if is_own(n))
    for p in files(".rt"):
        text = open(p, encoding="utf-8").read()
        source.update(LABEL.findall(text) + FN.findall(text))
    return own - goals, goals, theirs, source


def renamings():
    own, goals, theirs, source = gather()
    for n in sorted(own & theirs):
        print("kept, the library has it too: " + n)
    names = {n: new_spelling(n) for n in own - theirs}
    labels = {s.replace("_", "-"): s for s in source if "_" in s}
    for n, s in labels.items():
        if n not in goals and n not in theirs:
            names.setdefault(n, s)
    return names


def in_code(line, names):
    """Renames in code; in a comment only what stands between backticks; nothing in a text."""
    mark = re.search(r"(^|\s)(--|//)(\s|$)", line)
    code, comment = (line[: mark.start()], line[mark.start():]) if mark else (line, "")

    def rename(text):
        return TOKEN.sub(lambda m: names.get(m.group(0), m.group(0)), text)

    parts = re.split(r'("(?:[^"\\]|\\.)*")', code)
    code = "".join(part if k % 2 else rename(part) for k, part in enumerate(parts))
    comment = re.sub(r"`([^`]*)`", lambda m: "`" + rename(m.group(1)) + "`", comment)
    return code + comment


def main():
    dry = "--dry" in sys.argv
    names = renamings()
    used = collections.Counter()
    for p in files(".antt") + files(".rt") + files(".edit"):
        with open(p, encoding="utf-8") as f:
            old = f.read()
        here = collections.defaultdict(set)
        for m in TOKEN.finditer(re.sub(r'"(?:[^"\\]|\\.)*"', "", re.sub(r"(?m)(^|\s)--.*$", "", old))):
            t = m.group(0)
            here[names.get(t, t)].add(t)
            if t in names:
                used[t] += 1
        if not p.endswith(".rt"):
            for new, olds in sorted(here.items()):
                if len(olds) > 1:
                    print(f"falls together in {p}: {', '.join(sorted(olds))} as {new}")
        new = "\n".join(in_code(line, names) for line in old.split("\n"))
        if new != old and not dry:
            with open(p, "w", encoding="utf-8") as f:
                f.write(new)
    for n in sorted(used):
        print(f"{n} -> {names[n]}")


if __name__ == "__main__":
    main()
