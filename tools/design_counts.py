#!/usr/bin/env python3
"""design_counts.py [DIR] [--list]: the places of crates/*/src that the points of docs/DESIGN-PASS.md are about, counted in DIR (the checkout, else).

With --list each place is printed before its count. A place is something to look at, not a verdict: docs/DESIGN-PASS.md says of each what became of it.
"""
import collections
import glob
import os
import re
import sys

words = [a for a in sys.argv[1:] if a != "--list"]
show = "--list" in sys.argv
root = words[0] if words else os.path.join(os.path.dirname(os.path.abspath(__file__)), "..")
files = sorted(glob.glob(os.path.join(root, "crates/*/src/**/*.rt"), recursive=True))


def code(text):
    """The text with its comments blanked, so that lines keep their numbers."""
    return re.sub(r"//[^\n]*", lambda m: " " * len(m[0]), text)


texts = {os.path.relpath(f, root): code(open(f).read()) for f in files}


def functions(text):
    """(line, name, parameters, clauses, body) of each function."""
    for m in re.finditer(r"\bfn (\w+)(?:<[^>(]*>)?\(", text):
        i, depth = m.end(), 1
        while depth:
            depth += {"(": 1, ")": -1}.get(text[i], 0)
            i += 1
        parameters = text[m.end():i - 1]
        body = re.compile(r"^ *\{$", re.M).search(text, i)
        body = body.start() if body else text.index("{", i)
        j = text.index("{", body)
        k, depth = j + 1, 1
        while depth:
            depth += {"{": 1, "}": -1}.get(text[k], 0)
            k += 1
        yield text.count("\n", 0, m.start()) + 1, m[1], parameters, text[i:j], text[j:k]


def lines(pattern):
    for name, text in texts.items():
        for number, line in enumerate(text.split("\n"), 1):
            if re.search(pattern, line):
                yield f"{name}:{number}: {line.strip()}"


def split(parameters):
    """The parameters, one by one."""
    flat = re.sub(r"<[^<>]*>", "", parameters)
    return [p.strip() for p in flat.split(",") if p.strip()]


def index_loops():
    """while loops whose condition has a variable that the body counts up or down by 1."""
    for name, text in texts.items():
        for m in re.finditer(r"\bwhile ([^{\n]*)\{", text):
            i, depth = m.end(), 1
            while depth:
                depth += {"{": 1, "}": -1}.get(text[i], 0)
                i += 1
            counted = set(re.findall(r"\b(\w+) [+-]= 1;", text[m.end():i]))
            if counted & set(re.findall(r"\w+", m[1])):
                yield f"{name}:{text.count(chr(10), 0, m.start()) + 1}: while {m[1].strip()}"


def twins():
    """Functions of three lines and more that are the same but for names, types and numbers."""
    shapes = collections.defaultdict(list)
    for name, text in texts.items():
        for line, function, _, _, body in functions(text):
            if body.count("\n") < 3:
                continue
            shape = re.sub(r"\b\d[\d_]*\b", "0", body)
            shape = re.sub(r"\b(?!if|else|while|for|in|let|mut|return|match|as|true|false|loop)[A-Za-z_]\w*\b", "x", shape)
            shapes[re.sub(r"\s+", " ", shape)].append(f"{name}:{line}: fn {function}")
    for places in shapes.values():
        if len(places) > 1:
            yield from places


def long_lists():
    """Functions with five or more parameters."""
    for name, text in texts.items():
        for line, function, parameters, _, _ in functions(text):
            count = len(split(parameters))
            if count >= 5:
                yield f"{name}:{line}: fn {function}, {count} parameters"


def shared_facts():
    """Facts that stand in the requires of three or more functions of one crate."""
    for crate in sorted({name.split("/")[1] for name in texts}):
        facts = collections.Counter()
        for name, text in texts.items():
            if name.split("/")[1] == crate:
                for _, _, _, clauses, _ in functions(text):
                    facts.update(set(re.findall(r"\b([A-Z]\w+) ", " ".join(re.findall(r"requires[^{]*\{([^\n]*)\}", clauses)))))
        for fact, count in sorted(facts.items()):
            if count >= 3:
                yield f"crates/{crate}: {fact} in {count} functions"


def stores():
    """Arrays of fixed size that are made."""
    yield from lines(r"\[[\w ]+(u8|u16|u32|u64|usize)?; [\w* +]+\]")


points = [
    ("1a own enums", lambda: lines(r"^\s*(pub )?enum ")),
    ("1b numbers for kinds: fields, parameters and results", lambda: lines(r"\b(kind|number|which|end|mark|sort): (u8|u32|u64|usize)|fn (kind|sort)\w*\(.*-> u")),
    ("1c refusals passed on case by case", lambda: lines(r"(if let|match|=>).*::Refused\(|::Refused\(\w+\) =>")),
    ("2 functions alike but for names, types and numbers", twins),
    ("3 loops that count an index", index_loops),
    ("4 conversions, copies, least and greatest by hand", lambda: lines(
        r"[*/%] (256|65_536|16_777_216|4_294_967_296)\b|48 \+|\[(\w+(?: \+ \w+)?)\] = \w+\[\w+\];|\{ a \} else \{ b \}|\{ a - b \} else|wrapping_add_u32\(|u64::trailing_zeros\(|::(Nothing|Block|Group|Link)(\(\w\))? => (\d|k)")),
    ("5a functions with five parameters and more", long_lists),
    ("5b facts in the requires of three functions of a crate and more", shared_facts),
    ("6 arrays of fixed size that are made", stores),
    ("7 function pointers, dyn, boxed closures", lambda: lines(r"\bfn\(|\bdyn\b|Box<")),
]

for title, find in points:
    places = list(find())
    if show:
        print(*places, sep="\n")
    print(f"{len(places):4} {title}")
answers = sum(len(re.findall(r"^pub \S+ : goal\.", open(f).read(), re.M)) for f in glob.glob(os.path.join(root, "crates/*/proofs/**/Answers.antt"), recursive=True))
proof_lines = sum(open(f).read().count("\n") for f in glob.glob(os.path.join(root, "crates/*/proofs/**/*.antt"), recursive=True))
print(f"{answers:4} 8a answers in proofs/")
print(f"{proof_lines:4} 8b lines of proofs/")
