#!/usr/bin/env python3
"""Spells the repository's own definitions and lemmas as today's Rattle does: words in snake case, types in camel case.

usage: python3 tools/respell.py        at the top of the repository, once, right after port.py

A name with a hyphen that a file of specs/ or a lemma file of proofs/ declares, or that an import gives, is turned in every .antt and .rt file:
`rules-of` to `rules_of`, `Known-head` to `KnownHead`. Goals keep the names that Rattle gives them, strings keep their
text, and a name that would fall together with another is said and left.
"""
import collections
import glob
import re
import sys

NAME = r"[A-Za-z][\w'-]*"
DECLARED = re.compile(
    rf"^[ ]*(?:(?:pub|abbrev|unfoldable|record|data)[ ]+)*({NAME})[ ]*(?:\([^:=]*:.*\)[ ]*)*:(?!:)", re.M
)
ALIAS = re.compile(rf" as ({NAME})[,}}]")
WORD = re.compile(rf"(?<![\w'-]){NAME}")
STRING = re.compile(r'"(?:\\.|[^"\\])*"')


def sources():
    for f in sorted(glob.glob("crates/*/**/*", recursive=True)):
        if f.endswith((".antt", ".rt")) and "/out/" not in f:
            yield f


def spelled(name):
    """The new spelling of a name."""
    if name[0].isupper():
        return "".join(part[:1].upper() + part[1:] for part in name.split("-"))
    words = name.replace("getD", "get_or").replace("-", "_")
    return re.sub(r"(?<=[a-z])([A-Z])", lambda m: "_" + m.group(1).lower(), words)


def declared():
    """Every name with a hyphen that a definition or a lemma of the repository has, with where it stands."""
    found = collections.defaultdict(set)
    for f in sources():
        if re.match(r"crates/\w+/(specs|proofs)/\w+\.antt$", f):
            with open(f, encoding="utf-8") as opened:
                text = re.sub(r"--.*", "", opened.read())
            for m in DECLARED.finditer(text):
                if "-" in m.group(1):
                    found[m.group(1)].add(f)
        with open(f, encoding="utf-8") as opened:
            for name in ALIAS.findall(opened.read()):
                if "-" in name:
                    found[name].add(f)
    return found


def main():
    texts = {}
    for f in sources():
        with open(f, encoding="utf-8") as opened:
            texts[f] = opened.read()
    used = collections.defaultdict(set)
    for f, text in texts.items():
        for word in WORD.findall(text):
            used[word].add(f)
    names = declared()
    table = {}
    for name in sorted(names):
        new = spelled(name)
        if new in table.values():
            sys.exit(f"two names fall together as {new}")
        if new in used:
            print(f"look: {name} -> {new}, which stands in {', '.join(sorted(used[new])[:4])}")
        table[name] = new

    def turned(text):
        return WORD.sub(lambda m: table.get(m.group(0), m.group(0)), text)

    changed = 0
    for f, text in texts.items():
        if f.endswith(".rt"):
            parts, last = [], 0
            for m in STRING.finditer(text):
                parts += [turned(text[last : m.start()]), m.group(0)]
                last = m.end()
            new = "".join(parts) + turned(text[last:])
        else:
            new = turned(text)
        if new != text:
            changed += 1
            with open(f, "w", encoding="utf-8") as opened:
                opened.write(new)
    print(f"{len(table)} names, {changed} files")


if __name__ == "__main__":
    main()
