#!/usr/bin/env python3
"""Brings the definitions and lemmas of this repository to today's spelling: words in snake case, types and modules in camel case.

usage: python3 tools/rename.py [FOLDER]     once, after port.py, at the top of the repository (or on the repository in FOLDER)

A name counts as the repository's own where specs/ or a file of lemmas in proofs/ declares it, or binds it as a local name and no library has it.
Names of the toolchain's, of functions of src/ and of what the toolchain makes of them keep their spelling; so do strings, and in comments and
pages what does not stand between backticks.
"""
import collections
import glob
import os
import re
import sys

TOKEN = re.compile(r"[^\s(){}\[\],;.«»`\"|:@]+")
CAMEL = re.compile(r"^[a-z][A-Za-z0-9_']*[A-Z]")
DASHED = re.compile(r"^[A-Za-z][A-Za-z0-9_']*-[A-Za-z0-9_'-]+$")
# a library's, cited by its path
KEPT = {"not-nil"}
# names that a script before this one garbled, and names that would fall together with another one's
OWN = {
    "nothing_Lent": "nothing_lent",
    "groups-fit": "groups_all_fit",
    "smp-serve": "smp_serve_call",
    "smp-event": "smp_event_call",
    "smp-link-change": "smp_link_change_call",
    "smp-notice": "smp_notice_call",
    "smp-reach": "smp_reach_call",
}
DECLARED = re.compile(r"(?m)^\s*(?:abbrev |unfoldable |pub |data |record )*([^\s(){}\[\],;.:]+)(?:\s+(?:\([^)]*\)|\{[^}]*\}))*\s+:\s")


def of_a_function(path):
    parts = path.split("/proofs/")
    return len(parts) > 1 and any(not x[:1].isupper() for x in parts[1].split("/")[:-1])


def bare(text):
    return re.sub(r"--[^\n]*", "", text)


def snake(name):
    name = name.replace("-", "_")
    name = re.sub(r"(?<=[a-z0-9])([A-Z])", r"_\1", name)
    return re.sub(r"__+", "_", name).lower()


def read(path):
    with open(path, encoding="utf-8") as f:
        return f.read()


def names(root):
    """The new spelling of each name that gets one."""
    declared, foreign, used = set(), set(), collections.Counter()
    for path in sorted(glob.glob(root + "/crates/*/specs/**/*.antt", recursive=True) + glob.glob(root + "/crates/*/proofs/**/*.antt", recursive=True)):
        body = bare(read(path))
        for m in re.finditer(r"(?m)^use\s+([^{\n]*)(\{[^}]*\})?", body):
            if not m.group(1).startswith("Rattle.") or m.group(1).startswith("Rattle.std"):
                foreign.update(TOKEN.findall(m.group(2) or ""))
                foreign.add(m.group(1).strip().rstrip(".").split(".")[-1])
        if not of_a_function(path):
            declared.update(m.group(1) for m in DECLARED.finditer(body))
            used.update(TOKEN.findall(body))
    turn = {}
    own = [n for n in used if (CAMEL.match(n) or DASHED.match(n) or n in OWN) and n not in foreign | KEPT]
    defined = {snake(n) for n in own if "-" not in n} | {n for n in declared if n not in own}
    for name in own:
        # a lemma that would have its definition's name gets _lem
        turn[name] = OWN.get(name) or (snake(name) + "_lem" if "-" in name and snake(name) in defined else snake(name))
    taken = set(used) - set(turn)
    for old, new in sorted(turn.items()):
        if new in taken or new in foreign:
            print(f"look: {old} becomes {new}, which stands already" + (" in a library" if new in foreign else ""))
    for new, n in collections.Counter(turn.values()).items():
        if n > 1:
            print(f"look: {new} was {', '.join(o for o in turn if turn[o] == new)}")
    return turn


def turned(turn, text):
    return TOKEN.sub(lambda m: turn.get(m.group(0), m.group(0)), text)


def in_backticks(turn, text):
    return re.sub(r"`[^`\n]*`", lambda m: turned(turn, m.group(0)), text)


def antt(turn, text):
    out = []
    for line in text.split("\n"):
        code, dash, comment = line.partition("--")
        out.append(turned(turn, code) + (dash + in_backticks(turn, comment) if dash else ""))
    return "\n".join(out)


def rt(turn, text):
    out = []
    for line in text.split("\n"):
        code, slash, comment = line.partition("//")
        pieces = re.split(r'("(?:[^"\\]|\\.)*")', code)
        code = "".join(p if i % 2 else turned(turn, p) for i, p in enumerate(pieces))
        out.append(code + (slash + in_backticks(turn, comment) if slash else ""))
    return "\n".join(out)


def main():
    root = sys.argv[1] if len(sys.argv) > 1 else "."
    turn = names(root)
    for path in sorted(glob.glob(root + "/crates/**/*", recursive=True)):
        if "/out/" in path or not os.path.isfile(path):
            continue
        if path.endswith(".antt"):
            new = antt(turn, read(path))
        elif path.endswith(".rt"):
            new = rt(turn, read(path))
        else:
            continue
        if new != read(path):
            with open(path, "w", encoding="utf-8") as f:
                f.write(new)
    for path in sorted([root + "/README.md"] + glob.glob(root + "/docs/*.md")):
        if os.path.isfile(path):
            new = in_backticks(turn, read(path))
            if new != read(path):
                with open(path, "w", encoding="utf-8") as f:
                    f.write(new)
    print(f"{len(turn)} names")


main()
