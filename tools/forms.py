#!/usr/bin/env python3
"""Lists the places in crates/*/src where the code may have an older form than it needs: python3 tools/forms.py [POINT..]

Points 1 to 8 are those of docs/DESIGN-PASS.md. Each line is a place to look at; whether the form is right there is for a reader to say.
"""
import collections
import pathlib
import re
import sys

TOP = pathlib.Path(__file__).resolve().parent.parent
SOURCES = sorted(TOP.glob("crates/*/src/**/*.rt"))


def lines():
    for path in SOURCES:
        for number, line in enumerate(path.read_text().splitlines(), 1):
            code = line.split("//")[0]
            if code.strip() and not re.match(r"\s*(ghost use|requires|ensures|ghost)\b", code):
                yield path, number, code


def matching(pattern):
    return [f"{p.relative_to(TOP)}:{n}: {c.strip()}" for p, n, c in lines() if re.search(pattern, c)]


def functions():
    """Each function: its path, line, name, parameters, clauses, and its text without clauses."""
    for path in SOURCES:
        text = path.read_text().splitlines()
        at = 0
        while at < len(text):
            found = re.match(r"(\s*)(pub(\(\w+\))? )?(extern \"C\" )?fn (\w+)", text[at])
            if not found:
                at += 1
                continue
            end = at
            while end < len(text) and not re.match(found.group(1) + r"\}|.*;$|.*\{\}$", text[end]):
                end += 1
            block = text[at : end + 1]
            clauses = [l.strip() for l in block if re.match(r"\s*(requires|ensures)\b", l)]
            body = "\n".join(l for l in block if not re.match(r"\s*(requires|ensures|//)", l))
            head = body.split("{")[0]
            head = re.sub(r"^.*?fn \w+(<.*?>(?=\())?", "", head, flags=re.S)
            inside = re.sub(r"<[^<>]*>", "", head[head.find("(") + 1 : head.rfind(")")])
            parameters = [" ".join(p.split()) for p in re.findall(r"\w+: [^,()]+", inside)]
            yield path, at + 1, found.group(5), parameters, clauses, body
            at = end + 1


def twins():
    groups = collections.defaultdict(list)
    for path, line, name, _, _, body in functions():
        shape = re.sub(r"^.*?fn \w+", "fn f", body, flags=re.S)
        shape = re.sub(r'b?"[^"]*"', "S", shape)
        shape = re.sub(r"\b[0-9][0-9_]*\b", "0", shape)
        shape = re.sub(r"\b(u8|u16|u32|usize)\b|\b[A-Z]\w*\b", "T", shape)
        shape = " ".join(shape.split())
        if body.count("\n") >= 3:
            groups[shape].append(f"{path.relative_to(TOP)}:{line}: {name}")
    return [" = ".join(g) for g in groups.values() if len(g) > 1]


def together():
    clauses = collections.Counter()
    pairs = collections.Counter()
    for _, _, _, parameters, stated, _ in functions():
        clauses.update({re.sub(r"^(requires|ensures)( \w+)?", r"\1", c) for c in stated})
        for i, one in enumerate(parameters):
            for other in parameters[i + 1 :]:
                pairs[(one, other)] += 1
    found = [f"{n} functions: {c}" for c, n in clauses.most_common() if n > 2]
    return found + [f"{n} functions: ({a}, {b})" for (a, b), n in pairs.most_common() if n > 2]


def proofs():
    found = []
    for crate in sorted(TOP.glob("crates/*")):
        answers = list(crate.glob("proofs/**/Answers.antt"))
        lemmas = list(crate.glob("proofs/*.antt"))
        if answers or lemmas:
            count = lambda files: sum(len(f.read_text().splitlines()) for f in files)
            found.append(f"{crate.name}: {len(answers)} answer files, {count(answers)} lines; {count(lemmas)} lines of lemmas")
    return found


POINTS = {
    "1": ("flags, enums of one's own, numbers for kinds or refusals", lambda: matching(r"\w+: bool\b|\benum\b|refusal: u\d|WANT_OF|fn number\b|&mut [^)]*\) -> bool")),
    "2": ("functions of one shape", twins),
    "3": ("loops that may count by hand", lambda: matching(r"\bwhile\b|\bfor (?!_ )\w+ in \(?[\w:<>().]*\.\.|\+= 1;|saturating_add\(1\)")),
    "4": ("equality, order, copies, conversions and printing by hand", lambda: matching(
        r"\bimpl\b.*\b(Clone|Copy|PartialEq|Eq|PartialOrd|Ord|Hash|Debug|Display|Default|From<|TryFrom<).* for "
        r"|\bfn (same\w*|sign|sense_of|number|in_numbers|refused|packed|numbers_of|cells_of|row_of|push_\w+|print_\w+|condition|message|copy|is_alike)\b")),
    "5": ("facts and parameters that stand together in three functions or more", together),
    "6": ("arrays in structs, counts, and searches by hand", lambda: matching(r"^\s*(pub(\(crate\))? )?\w+: \[[^\]]*\](; \d+)?\]?,|^\s*(pub(\(crate\))? )?(count|len|written|used): \w+,|\bfn find\b")),
    "7": ("switches on what to do, tables of functions", lambda: matching(r"\bfn\(|\bdyn\b|if (backwards|band|cannot)\b|backwards: bool")),
    "8": ("proof files", proofs),
}


def main():
    for point in sys.argv[1:] or POINTS:
        title, places = POINTS[point]
        found = places()
        print(f"{point}. {title}: {len(found)}")
        for place in found:
            print(f"   {place}")


main()
