#!/usr/bin/env python3
"""Brings the names of definitions, lemmas, constructors and fields below crates/*/specs and crates/*/proofs to one spelling:
words in snake case, types and what answers a type in camel case. Names of functions in src/, strings, inputs and outputs stay.

usage: python3 tools/respell_names.py          at the top of the repository, once; prints the names that fell together and how they were told apart
       python3 tools/respell_names.py --list   prints old and new name of each, and changes nothing
"""

import collections
import glob
import os
import re
import sys

# In antt a name ends only at white space, a bracket, a comma, a semicolon or a dot.
TOKEN = re.compile(r'[^\s(){}\[\];.,"`]+')
SIGNATURE = re.compile(r"^(\s*)((?:abbrev |unfoldable |pub |data |record |ruleset )*)([^\s(){}\[\];.,\"`]+(?: [^\s(){}\[\];.,\"`:]+)*)((?: ?[({][^()]*(?:\([^()]*\)[^()]*)*[)}])*) :(?= |$)(.*)$")
GENERATED = re.compile(r"(?:goal|need|c|l|w)\.([^\s(){}\[\];.,\"`]+)")
KEYWORDS = {"abbrev", "unfoldable", "pub", "data", "record", "ruleset", "use", "mod", "where", "let", "in", "elim", "as", "unfolding"}
# Said apart by hand, where the rule alone would not.
BY_HAND = {"getD": "get_or"}
# A name of the library that looks like one of these files' own: it stays as the library spells it.
LIBRARY = {"eq-eqb"}
# Lemmas that have the name which a definition gets, in these files alone; a field that has the name of the function's own field is no clash.
LEMMAS = {n: n + "_lem" for n in ("call_line", "first_said", "goes_on", "names_in", "no_room", "out_of_range", "too_long")}
SAME_FIELD = {"mayHold"}


def sources(pattern):
    return sorted(p for p in glob.glob(pattern, recursive=True) if "/out/" not in p)


def snake(name):
    for old, new in BY_HAND.items():
        name = re.sub(rf"(^|-){old}(?=-|$)", rf"\1{new}", name)
    name = re.sub(r"(?<=[a-z0-9])([A-Z])", r"_\1", name)
    return name.replace("-", "_").replace("\u2032", "'").lower()


def camel(name):
    return "".join(w[:1].upper() + w[1:] for w in re.split(r"[-_]", name)).replace("\u2032", "'")


def is_type(rest):
    """Does a signature's text end in Type, as that of a family does."""
    return re.search(r"(^|→ )Type [0-9]$", rest.strip()) is not None


def defined(paths):
    """Names that the files define, with what each is: 'type' or 'word'; and names that Rattle generated, which stay."""
    names, generated = {}, set()
    for p in paths:
        text = open(p, encoding="utf-8").read()
        generated.update(GENERATED.findall(text))
        for line in text.splitlines():
            m = SIGNATURE.match(line)
            if not m or line.lstrip().startswith("--"):
                continue
            for name in m.group(3).split():
                if name in KEYWORDS or re.match(r"\s*(goal|need)\.", m.group(5)):
                    continue
                kind = "type" if is_type(m.group(5)) and "data" not in m.group(2) else "word"
                if names.get(name) != "type":
                    names[name] = kind
    return names, generated


def plan(paths):
    names, generated = defined(paths)
    new = {}
    for name, kind in names.items():
        if name in LIBRARY or name in generated and not re.search(r"[a-z][A-Z]", name):
            continue
        if kind == "type" and re.match(r"[a-z]", name) and len(name) > 1:
            new[name] = camel(name)
        elif re.match(r"[a-z]", name) and re.search(r"[a-z0-9][A-Z]|-|\u2032", name):
            new[name] = snake(name)
        elif "\u2032" in name:
            new[name] = name.replace("\u2032", "'")
    return new


def apart(new, tokens):
    """Two names that would fall together: what was a lemma, with dashes, gets _lem; prints them."""
    said = []
    groups = collections.defaultdict(set)
    for old, name in new.items():
        groups[name].add(old)
    for name, olds in sorted(groups.items()):
        taken = name in tokens and name not in new and name not in LEMMAS and not olds & SAME_FIELD
        ordered = sorted(olds, key=lambda o: ("-" in o, o))
        keep = None if taken else ordered[0]
        for old in ordered:
            if old == keep:
                continue
            other = name + "_lem"
            while other in tokens or other in new.values():
                other += "_2"
            new[old] = other
            said.append(f"{old} and {keep or name}: {new[old]}")
    return said


def respell(text, new):
    return TOKEN.sub(lambda m: new.get(m.group(0), m.group(0)), text)


def respell_source(text, new):
    """In a source file comments and strings stay as they are."""
    out = []
    for line in text.splitlines(keepends=True):
        code, mark, comment = line.partition("// ")
        parts = re.split(r'("(?:[^"\\]|\\.)*")', code)
        out.append("".join(s if s.startswith('"') else respell(s, new) for s in parts) + mark + comment)
    return "".join(out)


def main(argv):
    antt = sources("crates/*/specs/**/*.antt") + sources("crates/*/proofs/**/*.antt")
    rust = sources("crates/*/src/**/*.rt")
    tokens = set()
    for p in antt:
        tokens.update(t for line in open(p, encoding="utf-8") if not line.startswith("use ") for t in TOKEN.findall(line.partition("-- ")[0]))
    # A definition may have the name of the function that it describes, but a parameter, a field or a variable would hide it.
    for p in rust:
        text = open(p, encoding="utf-8").read()
        tokens.update(re.findall(r"\b([a-z_0-9]+): ", text) + re.findall(r"\blet (?:mut )?([a-z_0-9]+)", text))
    new = plan(antt)
    said = apart(new, tokens)
    said += [f"{old}, a lemma: {name}" for old, name in LEMMAS.items()]
    if argv[:1] == ["--list"]:
        print("\n".join(f"{o} {n}" for o, n in sorted(new.items())))
    else:
        for p in antt + rust:
            text = open(p, encoding="utf-8").read()
            turned = respell_source(text, new) if p.endswith(".rt") else respell(text, new | LEMMAS)
            if turned != text:
                with open(p, "w", encoding="utf-8") as f:
                    f.write(turned)
    print("\n".join(said), file=sys.stderr)
    print(f"{len(new)} names, {len(said)} of them told apart", file=sys.stderr)
    return 0


if __name__ == "__main__":
    os.chdir(os.path.join(os.path.dirname(os.path.abspath(__file__)), ".."))
    raise SystemExit(main(sys.argv[1:]))
