#!/usr/bin/env python3
"""Lists the places of the design pass in crates/*/src, point by point, and counts them.

    tools/places.py         the counts
    tools/places.py 3       the places of point 3

What is listed is what a pattern finds: docs/DESIGN-PASS.md says of each place what became of it.
"""
import re
import sys
from collections import defaultdict
from pathlib import Path

SOURCES = sorted(Path("crates").glob("*/src/**/*.rt"))

LINES = {
    "1 shapes": [
        # own enums, to be read for the shape of Option and Result
        r"^\s*(pub |pub\(\w+\) )?enum \w+",
        # a yes or no that stands beside the value it speaks of
        r"\b(known|accepted|decides|scattered): (bool|NodeSet)",
        # numbers for kinds
        r"\b(kind|other): u8\b|\bkind: [12]\b|\bkind == [12]|TOKEN: u8|first, 1, second, 2",
        # Option and Result handed on by hand
        r"Err\((why|_)\) => (Err\(why\)|None|false)|None => (0|false|None|Ok\(\(\)\))|return None;|return false;",
    ],
    "4 by hand": [
        # comparisons and conversions with a body
        r"fn (before|equals|equal|infimum|reason|number|is_start|of_words|columns|character)\b.*[^;]$",
        # a first value, field by field
        r"fn (new|none|nothing|blank)\(\) ->",
        # fields printed one by one
        r"fn fmt\b|fn (tell|show)_(refusal|verdict|account|inventory|ranks|decision)\b",
    ],
    "7 switches": [
        r"\bmatch (which|self \{|self\.generator|outcome|fate|plan\.event|kept\.standing|standing|record\.standing)",
        r"fn (note_start|note_handled|send_both|send_kind)\b",
    ],
}


def numbered():
    for path in SOURCES:
        for n, line in enumerate(path.read_text().splitlines(), 1):
            if not line.lstrip().startswith("//"):
                yield f"{path}:{n}", line


def by_line(patterns):
    tests = [re.compile(p) for p in patterns]
    return [f"{at}: {line.strip()}" for at, line in numbered() if any(t.search(line) for t in tests)]


def loops():
    """Loops whose variable indexes what they go over, or that count beside it."""
    found = []
    for path in SOURCES:
        lines = path.read_text().splitlines()
        for n, line in enumerate(lines):
            loop = re.match(r"( *)for (?:\((\w+), \w+\)|(\w+)) in (.*)\{$", line)
            if not loop:
                counter = re.match(r"\s*(\w+) [-+]= 1;", line)
                if counter:
                    found.append(f"{path}:{n + 1}: {line.strip()}")
                continue
            indent, paired, single, over = loop.groups()
            body = []
            for later in lines[n + 1:]:
                if later == indent + "}":
                    break
                body.append(later)
            code, variable = "\n".join(body), paired or single
            counted = "enumerate" in over if paired else ".." in over
            if counted and re.search(r"\[[^\]]*\b" + variable + r"\b|\brow\b|takes\(.*\b" + variable + r"\b|return (true|false)|" + variable + r" \+ 1 ==|push\(", code):
                found.append(f"{path}:{n + 1}: {line.strip()}")
            elif variable == "_" and re.search(r"\*|push\(|saturating_mul", code):
                found.append(f"{path}:{n + 1}: {line.strip()}")
    return found


def buffers():
    """In structs: places with a length or a mark beside them, and tables side by side."""
    found = []
    for path in SOURCES:
        for struct in re.finditer(r"struct (\w+).*?\{\n(.*?)\n\}", path.read_text(), re.S):
            fields = re.findall(r"^    (?:pub |pub\(\w+\) )?(\w+): (.*),$", struct[2], re.M)
            filled = [f"{name}: {kind}" for name, kind in fields if kind.startswith(("[", "&'a ", "Vec<"))]
            beside = [f"{name}: {kind}" for name, kind in fields if name in ("count", "len", "nodes", "known")]
            if filled and (beside or len(filled) > 1):
                found.append(f"{path}: {struct[1]} has {'; '.join(filled + beside)}")
    return found


def functions():
    """Each function: where it is, its name, its parameters, its clauses and its body."""
    head = re.compile(r"^( *)(?:pub |pub\(\w+\) )?(?:unsafe )?(?:extern \"C\" )?fn (\w+)", re.M)
    for path in SOURCES:
        text = path.read_text()
        for m in head.finditer(text):
            rest = text[m.start():]
            start = re.search(r"\n" + m[1] + r"\{|\{\n|;\n|\{\}\n", rest)
            if not start:
                continue
            signature = rest[: start.start()]
            end = re.search(r"\n" + m[1] + r"\}", rest[start.start():])
            body = rest[start.start(): start.start() + end.end()] if end and not rest[start.start():].startswith(";") else ""
            yield f"{path}:{text[:m.start()].count(chr(10)) + 1}", m[2], signature, body


def twins():
    """Functions whose text is the same but for names and numbers."""
    shapes = defaultdict(list)
    for at, name, signature, body in functions():
        code = re.sub(r"//.*", "", body)
        shape = re.sub(r"\b\d[\w]*\b", "0", re.sub(r"[A-Za-z_]\w*", "a", re.sub(r"\s+", "", code)))
        if len(shape) > 12:
            shapes[shape].append(f"{at} {name}")
    return [" ~ ".join(group) for group in shapes.values() if len(group) > 1]


def parameters(signature):
    inside = re.search(r"fn \w+(?:<[^(]*>)?\((.*?)\)(?: ->|\s*$|\s+(?:requires|ensures))", signature, re.S)
    if not inside:
        return []
    return [re.sub(r"^mut ", "", p.strip()) for p in inside[1].split(",") if ":" in p]


def facts():
    """Clauses whose text stands in three or more contracts, and groups of parameters that go together in three."""
    clauses, together = defaultdict(list), defaultdict(list)
    for at, name, signature, _ in functions():
        for kind, fact in re.findall(r"\b(requires|ensures)\b[^{]*\{ (.*) \}", signature):
            clauses[f"{kind} {fact}"].append(f"{at} {name}")
        names = [p.split(":")[0] for p in parameters(signature)]
        for width in (4, 3, 2):
            for i in range(len(names) - width + 1):
                together[", ".join(names[i: i + width])].append(f"{at} {name}")
    found = [f"{fact}: {len(p)} contracts: {'; '.join(p)}" for fact, p in clauses.items() if len(p) > 2]
    for group, places in together.items():
        wider = any(group != g and group in g and len(p) >= len(places) for g, p in together.items())
        if len(places) > 2 and not wider:
            found.append(f"parameters {group}: {len(places)} functions: {'; '.join(places)}")
    return found


def proofs():
    """The answers in proofs/: a file for each function that has some."""
    return [str(p) for p in sorted(Path("crates").glob("*/proofs/**/Answers.antt"))]


POINTS = {
    "1": ("shapes", lambda: by_line(LINES["1 shapes"])),
    "2": ("twins", twins),
    "3": ("loops", loops),
    "4": ("by hand", lambda: by_line(LINES["4 by hand"])),
    "5": ("facts and parameters", facts),
    "6": ("buffers", buffers),
    "7": ("switches", lambda: by_line(LINES["7 switches"])),
    "8": ("answers", proofs),
}

if __name__ == "__main__":
    for point in sys.argv[1:]:
        print("\n".join(POINTS[point][1]()))
    if not sys.argv[1:]:
        for point, (name, find) in POINTS.items():
            print(f"{point} {name}: {len(find())}")
