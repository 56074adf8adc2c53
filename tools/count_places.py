#!/usr/bin/env python3
"""Lists places in crates/*/src that may be written in an older form, by the point that they fall under.

    python3 tools/count_places.py [FOLDER] [--list]

FOLDER holds the crates (the repository's top if none is given). It prints a count for each search, with --list each hit too. A hit is a
place to look at, not a verdict: docs/DESIGN-PASS.md says what was found at each.
"""
import collections
import pathlib
import re
import sys

# (point, what is searched for, pattern over one line)
LINES = [
    (1, "success or a state as a bool", r"^\s+(pub(\(crate\))? )?\w+: bool,|fn \w+[^=]*&mut [^=]*-> bool"),
    (1, "a kind or a refusal as a number", r"\b(kind|tag): u8|match (kind|tag|number) \{|\bput_front\(\w+, \d"),
    (1, "0 for none", r"\.0 [!=]= 0\b|\b(Session|Seq)\(0\)|\bNothing\b"),
    (1, "an Option or Result taken apart to be put together again", r"(Some|Ok)\(.*\) => (Some|Ok)\(|None => None|Err\(_\) => None"),
    (3, "an index counted by hand", r"^\s*('\w+: )?for \w+ in [^{]*\.\.|^\s*while "),
    (4, "a comparison of fields by hand", r"\.0 (==|!=|<|>|<=|>=) \w+(\.\w+)*\.0\b|\bsame_bytes\("),
    (4, "a conversion or printing by hand", r"fn (text|number|of|kind_of|number_of|answer_of|told|code)\b"),
    (6, "an array or vector that runs beside another", r"^\s+(pub(\(crate\))? )?\w+: (\[\w+; \d+\]|Vec<.*>),"),
    (6, "a list searched or sorted by hand", r"\blo\b.*\bhi\b|\bsort"),
    (7, "a switch on which step to run, a table of functions", r"\bwhich\b.*: Which|\bfn\(|\bdyn |if \w+\(\w+, b\"|if \w+ == b\""),
]


def code(text):
    """The text without its comments, line for line."""
    return re.sub(r"//[^\n]*", "", text)


def functions(text):
    """Each function's name and signature with its clauses, up to its body."""
    for m in re.finditer(r"\bfn (\w+)", text):
        depth, i = 0, m.start()
        brace = 0
        while i < len(text):
            c = text[i]
            if c == "{":
                head = text[m.start():i]
                if not re.search(r"(requires|ensures\*?)(\s+\w+)?\s*$", head):
                    break
                depth = 1
                while depth:
                    i += 1
                    depth += {"{": 1, "}": -1}.get(text[i], 0)
            elif c == ";" and text[m.start():i].count("(") == text[m.start():i].count(")"):
                break
            i += 1
        yield m.group(1), text[m.start():i]


def clauses(head):
    for m in re.finditer(r"\b(requires|ensures)(?:\s+\w+)?\s*\{((?:[^{}]|\{[^{}]*\})*)\}", head):
        yield m.group(1), re.sub(r"\s+", " ", m.group(2)).strip()


def main():
    arguments = [a for a in sys.argv[1:] if not a.startswith("--")]
    top = pathlib.Path(arguments[0] if arguments else ".")
    shown = "--list" in sys.argv
    hits = collections.defaultdict(list)
    facts = collections.defaultdict(list)
    together = collections.defaultdict(list)
    ends = []
    passed = []
    built = []
    for path in sorted(top.glob("crates/*/src/**/*.rt")):
        name = str(path.relative_to(top))
        text = code(path.read_text())
        for number, line in enumerate(text.split("\n"), 1):
            for point, what, pattern in LINES:
                if re.search(pattern, line):
                    hits[point, what].append(f"{name}:{number}: {line.strip()}")
        for m in re.finditer(r"let (?:Some|Ok)\([^=]*= [^;{]*?else \{\s*return (None|Err\(.*?\)|false);", text):
            passed.append(f"{name}:{text.count(chr(10), 0, m.start()) + 1}: {' '.join(m.group(0).split())}")
        for m in re.finditer(r"if ([^{};]*) \{\s*Some\([^{}]*\)\s*\} else \{\s*None\s*\}", text):
            built.append(f"{name}:{text.count(chr(10), 0, m.start()) + 1}: if {m.group(1)}")
        for m in re.finditer(r"if (!?\w+\.(is_empty\(\)|len\(\) [!=]= 0)) \{\s*return None;\s*\}\s*(return )?Some", text):
            ends.append(f"{name}:{text.count(chr(10), 0, m.start()) + 1}: {m.group(1)}")
        for function, head in functions(text):
            for kind, fact in clauses(head):
                # a parameter's name is no part of the fact
                facts[kind, re.sub(r"\b(v|out|buf|lapsed|message|outputs|greeting|spots|heads|log)\.", "_.", fact)].append(f"{name}: {function}")
            parameters = re.findall(r"\b(\w+): (&(?:'\w+ )?(?:mut )?[\w\[\]<>']+|[A-Z]\w*|u\d+|usize|bool)", head.split("requires")[0].split("ensures")[0])
            names = sorted(set(p for p in parameters if p[0] not in ("self", "v", "out", "s", "console", "number")))
            for i in range(len(names)):
                for j in range(i + 1, len(names)):
                    together[names[i][0], names[j][0]].append(f"{name}: {function}")
    hits[1, "an error or None passed on by `let .. else`"] = passed
    hits[1, "an Option built from a bool"] = built
    hits[2, "a reader that ends with the same two lines"] = ends
    for (kind, fact), where in sorted(facts.items(), key=lambda x: -len(x[1])):
        if len(where) >= 3:
            hits[5, f"{kind} {{ {fact} }}"] = where
    for pair, where in sorted(together.items(), key=lambda x: -len(x[1])):
        if len(where) >= 4:
            hits[5, f"parameters {pair[0]}, {pair[1]}"] = where
    for (point, what), where in sorted(hits.items(), key=lambda x: x[0][0]):
        print(f"{point}  {len(where):3}  {what}")
        if shown:
            for hit in where:
                print(f"        {hit}")


if __name__ == "__main__":
    main()
