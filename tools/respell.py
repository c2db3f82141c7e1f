#!/usr/bin/env python3
"""Respells the repository's own definitions, fields and lemmas in snake case.

usage: python3 tools/respell.py            in the repository, once, right after the kit's port.py

Names that the check makes (goals, and what a goal's context holds) keep their dashes, and so do names that end in a symbol.
Two names that would fall together are told apart by LEMMAS. Functions of src/, strings and inputs are not touched.
"""

import collections
import glob
import re

# of two names that fall together, the lemma's
LEMMAS = {
    "no-load": "no_load_asked",
    "struck-rows": "struck_rows_are",
    "reach-all": "reach_all_is",
    "spare-at": "spare_at_is",
    "own-part": "own_part_is",
    "charge-shares": "charged_shares",
    "charge-spends": "charged_spends",
    "resource-helps": "one_resource_helps",
}

ANTT = re.compile(r"[^\s(){}.,;\[\]]+")
RUST = re.compile(r"[^\s(){}.,;\[\]<>&*!]+")
CAMEL = re.compile(r"[a-z]\w*[A-Z]")
DECLARES = re.compile(r"(\s*)((?:abbrev |unfoldable |pub |private )*)([^\s:(){}]+)\s*((?:[({][^:]*:.*?[)}]\s*)*):\s*(.*)")


def files(ending):
    return sorted(p for p in glob.glob("crates/**/*" + ending, recursive=True) if "/out/" not in p)


def own_names():
    """The names that are declared in specs/ and proofs/, those of them that are fields, and the names of goals."""
    names, fields, goals = set(), set(), set()
    for path in files(".antt"):
        in_record = False
        for line in open(path, encoding="utf-8"):
            if line.lstrip().startswith("--"):
                continue
            if re.match(r"\s*(pub |abbrev |unfoldable )*record ", line):
                in_record = True
            elif line.strip() and not line.startswith(" "):
                in_record = False
            m = DECLARES.match(line)
            if not m or re.match(r"\s*(let|in|use)\b", line):
                continue
            if m.group(5).startswith("goal."):
                goals.add(m.group(3))
                continue
            names.add(m.group(3))
            if in_record and m.group(1):
                fields.add(m.group(3))
    return names - goals, fields - goals


def snake(name):
    if name in LEMMAS:
        return LEMMAS[name]
    name = name.replace("getD", "get_or").replace("′", "'")
    name = re.sub(r"(?<=[a-z0-9])([A-Z])", lambda m: "_" + m.group(1).lower(), name)
    return re.sub(r"-(?=\w)", "_", name)


def respelled(text, tokens, new, fields, comment):
    out = []
    for line in text.split("\n"):
        at = line.find(comment)
        code, rest = (line, "") if at < 0 else (line[:at], line[at:])

        def one(m):
            word = m.group(0)
            if word not in new:
                return word
            after_dot = m.start() > 0 and code[m.start() - 1] == "."
            return new[word] if not after_dot or word in fields else word

        code = "".join(p if p.startswith('"') else tokens.sub(one, p) for p in re.split(r'("[^"]*")', code)) if '"' in code else tokens.sub(one, code)
        rest = ANTT.sub(lambda m: new.get(m.group(0), m.group(0)) if CAMEL.match(m.group(0)) else m.group(0), rest)
        out.append(code + rest)
    return "\n".join(out)


def main():
    names, fields = own_names()
    new = {n: snake(n) for n in names if (CAMEL.match(n) or "-" in n or "′" in n) and re.match(r"[a-z]", n)}
    new = {a: b for a, b in new.items() if a != b}
    together = collections.defaultdict(set)
    for n in names:
        together[new.get(n, n)].add(n)
    for n, olds in sorted(together.items()):
        if len(olds) > 1:
            print(f"fall together: {sorted(olds)} as {n}")
    values = set(new.values())
    for path in files(".antt") + files(".rt"):
        text = open(path, encoding="utf-8").read()
        antt = path.endswith(".antt")
        here = {m.group(0) for m in (ANTT if antt else RUST).finditer(text)}
        if antt:
            met = sorted(n for n in here & values if any(o in here for o in new if new[o] == n))
            if met:
                print(f"already there: {path}: {met}")
        turned = respelled(text, ANTT if antt else RUST, new, fields, "--" if antt else "//")
        if turned != text:
            open(path, "w", encoding="utf-8").write(turned)
    print(f"{len(new)} names")


main()
