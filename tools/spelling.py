#!/usr/bin/env python3
"""Respells the repository's own definitions and lemmas, after port.py: words in snake case, a dash only between two names.

Run once, at the top. Renames what specs/*.antt and proofs/*.antt declare (names of types keep their case), with the fields of
records, in every .antt file, in the clauses and ghost items of .rt files, and between backquotes in docs/ and README.md.
Names that Rattle makes (goals and their steps), and names of src/, stay.
"""
import os
import re
import sys

DECLARED = re.compile(
    r"^(?P<indent>\s*)(?P<marks>(?:(?:unfoldable|abbrev|pub|data|record|ruleset|open)\s+)*)(?P<name>[^\s:(){};,.]+)(?:\s+\(.*\))*\s+:\s"
)
PART = r"[\w'\-]"
# Names of the older library within a name; and lemmas that would have a definition's name.
CHOSEN = {
    "getD-laid": "get_or-laid",
    "getD-items": "get_or-items",
    "isSome-mapped": "is_some-mapped",
    "eqb-flip": "nat_eq_flip",
}


def files(ending):
    for folder, _, names in sorted(os.walk(".")):
        if "/out" in folder or "/." in folder or "/target" in folder:
            continue
        for name in sorted(names):
            if name.endswith(ending):
                yield os.path.join(folder, name)


def snake(name):
    name = re.sub(r"([a-z0-9])([A-Z])", lambda m: m.group(1) + "_" + m.group(2).lower(), name)
    return name.replace("-", "_")


def lemma(name, known):
    """Dashes stay between names that are known; plain words are joined on by an underscore."""
    words = re.sub(r"([a-z0-9])([A-Z])", lambda m: m.group(1) + "_" + m.group(2).lower(), name).split("-")
    parts, at = [], 0
    while at < len(words):
        for end in range(len(words), at, -1):
            joined = "_".join(words[at:end])
            if joined in known:
                parts.append((joined, True))
                at = end
                break
        else:
            parts.append((words[at], False))
            at += 1
    result, named = parts[0]
    for word, is_known in parts[1:]:
        named = named and is_known
        result += ("-" if named else "_") + word
    return result


def declared():
    specs, lemmas, fields = set(), set(), set()
    for path in files(".antt"):
        is_spec = "/specs/" in path
        is_shared = re.search(r"/proofs/[^/]*\.antt$", path)
        for line in open(path, encoding="utf-8"):
            found = DECLARED.match(line)
            if line.startswith("use Rattle."):
                specs.update(word for word in re.findall(r" as ([^\s,}]+)", line) if word[0].islower())
            if not (is_spec or is_shared) or not found or not found["name"][0].islower():
                continue
            if found["indent"]:
                fields.add(found["name"])
            is_definition = found["indent"] or "abbrev" in found["marks"] or "unfoldable" in found["marks"]
            (specs if is_spec and is_definition else lemmas).add(found["name"])
    return specs, lemmas, fields


def known_names(specs):
    known = {snake(name) for name in specs}
    for path in files(".antt"):
        for line in open(path, encoding="utf-8"):
            found = re.match(r"use Rattle\.std\.[^{]*\{(.*)\}", line)
            if found:
                known.update(word.split()[0] for word in found[1].split(",") if word.strip())
    for path in files(".rt"):
        for line in open(path, encoding="utf-8"):
            known.update(re.findall(r"\bfn (\w+)", line))
    return known


def table():
    specs, lemmas, fields = declared()
    known = known_names(specs)
    new = {}
    for name in sorted(specs | lemmas):
        if name in CHOSEN:
            new[name] = CHOSEN[name]
        elif name in specs:
            new[name] = snake(name)
        else:
            new[name] = lemma(name, known)
    for name in sorted(new):
        twins = [other for other in new if new[other] == new[name] and other != name]
        if twins:
            print(f"fall together: {name} {' '.join(twins)}", file=sys.stderr)
    return {old: word for old, word in new.items() if old != word}, fields


def respell(text, new, fields):
    def one(found):
        before, name = found[1], found[2]
        if name not in new:
            return found[0]
        if before.endswith(".") and name not in fields and not re.search(r"\b[A-Z]\w*\.$", before):
            return found[0]
        return before + new[name]

    return re.sub(rf"((?:[\w'\-]+\.)*)({PART}+)", one, text)


def main():
    new, fields = table()
    for path in files(".antt"):
        old = open(path, encoding="utf-8").read()
        lines = [line if line.lstrip().startswith("--") and "`" not in line else respell(line, new, fields) for line in old.split("\n")]
        text = "\n".join(lines)
        if text != old:
            open(path, "w", encoding="utf-8").write(text)
    for path in files(".rt"):
        old = open(path, encoding="utf-8").read()
        lines = [
            respell(line, new, fields) if re.match(r"\s*(ghost |requires|ensures|where .*ensures)", line) else line for line in old.split("\n")
        ]
        text = "\n".join(lines)
        if text != old:
            open(path, "w", encoding="utf-8").write(text)
    for path in ["README.md"] + [p for p in files(".md") if p.startswith("./docs/")]:
        old = open(path, encoding="utf-8").read()
        text = re.sub(r"`[^`\n]+`", lambda found: respell(found[0], new, fields), old)
        if text != old:
            open(path, "w", encoding="utf-8").write(text)
    for name in sorted(new):
        print(f"{name} {new[name]}")


main()
