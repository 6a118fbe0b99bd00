#!/usr/bin/env python3
"""Counts the places in crates/*/src that docs/DESIGN-PASS.md speaks of, point by point.

    python3 tools/places.py          the counts
    python3 tools/places.py --list   each place too

It reads text by patterns, so a place that it lists is one to look at. Tests (`tests.rt`) do not count.
"""
import collections
import glob
import re
import sys

LIST = "--list" in sys.argv


def sources():
    for path in sorted(glob.glob("crates/*/src/*.rt")):
        if not path.endswith("tests.rt"):
            text = open(path, encoding="utf-8").read()
            yield path, re.sub(r"//[^\n]*", "", text)


def say(name, places):
    print(f"{name}: {len(places)}")
    if LIST:
        for place in places:
            print(f"    {place}")


def matches(pattern, flags=re.M):
    found = []
    for path, text in sources():
        for m in re.finditer(pattern, text, flags):
            line = text.count("\n", 0, m.start()) + 1
            while text.split("\n")[line - 1].strip() == "":
                line += 1
            found.append(f"{path}:{line}: {' '.join(m.group(0).split())[:110]}")
    return found


def body_at(text, start):
    depth, i = 0, start
    while True:
        depth += {"{": 1, "}": -1}.get(text[i], 0)
        i += 1
        if depth == 0:
            return text[start:i]


def functions():
    """Each function with a body: path, name, parameters, body."""
    for path, text in sources():
        for m in re.finditer(r"\bfn (\w+)(<[^(]*>)?\(([^)]*)\)", text):
            rest = text[m.end():]
            end = re.search(r"^\s*\{\s*$|\{\s*$|;\s*$|\{\}", rest, re.M)
            lone = re.search(r"^[ ]*\{(\}|\s*$)|^[^\n]*[^\n}] \{\s*$", rest, re.M)
            if end is None or lone is None or rest[end.start():].lstrip().startswith(";"):
                continue
            start = m.end() + lone.start() + lone.group(0).index("{")
            parameters = [p for p in m.group(3).split(",") if p.strip()]
            yield path, m.group(1), parameters, body_at(text, start)


def two_variant_enums():
    found = []
    for path, text in sources():
        for m in re.finditer(r"\benum (\w+) \{", text):
            body = body_at(text, m.end() - 1)[1:-1]
            flat = re.sub(r"\{[^{}]*\}|\([^()]*\)", "*", body)
            variants = [v.strip() for v in flat.split(",") if v.strip()]
            if len(variants) == 2 and any("*" in v for v in variants):
                found.append(f"{path}: {m.group(1)}: {', '.join(variants)}")
    return found


def same_shape():
    """Functions whose bodies are the same but for names and numbers, of at least a dozen words."""
    groups = collections.defaultdict(list)
    for path, name, _, body in functions():
        words = re.findall(r"\w+|[^\w\s]", body)
        shape = tuple("0" if w[0].isdigit() else "x" if w[0].isalpha() or w[0] == "_" else w for w in words)
        if len(shape) >= 12:
            groups[shape].append(f"{path}: {name}")
    return [", ".join(g) for g in groups.values() if len(g) > 1]


def repeated_requires():
    facts = collections.Counter()
    for _, text in sources():
        for m in re.finditer(r"^\s*requires(?: \w+)? \{ (.*) \}\s*$", text, re.M):
            facts[re.sub(r"\.(now|old)\b", "", m.group(1))] += 1
    return [f"{n} times: {fact}" for fact, n in facts.most_common() if n > 2]


def proofs():
    files = glob.glob("crates/*/proofs/**/*.antt", recursive=True)
    lines = sum(len(open(f, encoding="utf-8").read().splitlines()) for f in files)
    answers = [f for f in files if f.endswith("Answers.antt")]
    invariants = [f for f in files if f.endswith("Invariants.antt")]
    print(f"8  files of proofs: {len(files)}, with {lines} lines; of answers {len(answers)}, of invariants {len(invariants)}")


say("1a enums of two variants, with a value in one", two_variant_enums())
say("1b gives up by hand", matches(r"return Answer::Refused\([^)]*\)|return Err\([^;]*\);|return None;|Err\(\w+\) =>|Ok\(_\) =>"))
say("1c some value or none by `if`", matches(r"\{\s*Some\((?:[^{}]|\{[^{}]*\})*\)\s*\}\s*else\s*\{\s*None\s*\}|\{\s*[^{};]*\s*\}\s*else\s*\{\s*None\s*\}"))
say("1d numbers for kinds", matches(r"=> \d+,$|^ +\d+ =>"))
say("2  functions of one shape", same_shape())
say("3a loops", matches(r"^\s*(?:for|while)\b[^\n]*\{$|\bloop \{$"))
say("3b of these, `while` or `loop`", matches(r"^\s*while\b[^\n]*\{$|\bloop \{$"))
say("3c of these, over numbers", matches(r"^\s*for \w+ in [^\n]*\.\.[^\n]*\{$"))
say("3d of these, a search", matches(r"^\s*for [^\n]* \{\n(?:(?!\n    \}|\n\}).|\n(?!    \}|\})){0,160}?return\b", re.M))
say("3e reads an element after a test of its place", matches(r"if [^\n]* (?:<|>=) [^\n]*len\(\) \{"))
say("4a casts", matches(r"\bas (?:u8|u16|u32|u64|usize|i32|i64|char)\b"))
say("4b types made to be printed", matches(r"^struct \w+\(\w+\);"))
say("4c a match for `true` and `false`", matches(r"=> (?:true|false),$"))
say("5a facts asked three times or more", repeated_requires())
say("5b functions of six parameters or more", [f"{p}: {n}: {len(a)}" for p, n, a, _ in functions() if len(a) >= 6])
say("6a arrays in types", matches(r"\[(?:Option<\w+>|Labelled); ?\w+\]"))
say("6b a count or a place beside what it counts", matches(r"^\s*(?:pub )?(?:place|count): usize,$|^\s*let mut (?:depth|length|at|end) = |Vec<bool>"))
say("7  a switch on what to work out", matches(r"enum Operation\b|\bdyn \w|\bfn\(\w"))
proofs()
