#!/usr/bin/env python3
"""Lists the places of src/ that docs/DESIGN-PASS.md counts, point by point.

    tools/places.py [--at COMMIT] [POINT..]     each place, and a last line with the counts; without POINT all of 1 to 7

1  own enums of the shape of Option or Result, structs that hold a result or a flag beside values, numbers that stand for a kind or for none
2  twins: functions, enums and structs that are the same but for names of types, fields and values
3  loops that count an index by hand: a while or loop that moves by one a variable it tests or indexes with
4  conversions, comparisons and choices by hand: functions of numbers and enums alone that call nothing and multiply nothing
5  facts in three contracts or more, and parameters that travel together through four functions or more
6  buffers with a length beside them
7  a switch on which step to run, tables of functions
"""
import re
import subprocess
import sys
from collections import defaultdict
from pathlib import Path

ROOT = Path(__file__).resolve().parent.parent
NUMBER = r"(?:u8|u16|u32|u64|usize|i32|i64|f32|bool)"
WORDS = {"fn", "pub", "let", "mut", "if", "else", "match", "while", "loop", "return", "for", "in", "as", "break", "enum", "struct",
         "true", "false", "Some", "None", "Ok", "Err", "self"}


def sources(commit):
    """Each file of src/ with its text, without comments."""
    if commit:
        names = subprocess.run(["git", "ls-tree", "-r", "--name-only", commit, "crates"], cwd=ROOT, capture_output=True, text=True, check=True)
        for name in names.stdout.split():
            if re.fullmatch(r"crates/\w+/src/.*\.rt", name):
                text = subprocess.run(["git", "show", f"{commit}:{name}"], cwd=ROOT, capture_output=True, text=True, check=True).stdout
                yield name, re.sub(r"//[^\n]*", "", text)
    else:
        for path in sorted(ROOT.glob("crates/*/src/**/*.rt")):
            yield str(path.relative_to(ROOT)), re.sub(r"//[^\n]*", "", path.read_text(encoding="utf-8"))


def closing(text, start):
    """The place behind the brace that closes the one at start."""
    depth = 0
    for i in range(start, len(text)):
        depth += {"{": 1, "}": -1}.get(text[i], 0)
        if depth == 0:
            return i + 1
    return len(text)


class Item:
    """A function, enum or struct: its file, line, name, head (signature), contract and body."""

    def __init__(self, file, text, m):
        self.kind, self.name = m[1], m[2]
        self.where = f"{file}:{text.count(chr(10), 0, m.start()) + 1} {self.name}"
        stop = re.compile(r"\{|;").search(text, m.end())
        self.head = text[m.start():stop.start()] if stop else ""
        self.contract, self.body, at = "", "", stop.start() if stop else len(text)
        if self.kind == "fn":
            clause = re.compile(r"\s*(requires|ensures)\b[^{]*\{")
            first = re.search(r"\n\s*(requires|ensures)\b", self.head)
            if first:
                at = m.start() + first.start()
                self.head = text[m.start():at]
                while c := clause.match(text, at):
                    end = closing(text, c.end() - 1)
                    self.contract += " ".join(text[at:end].split()) + "\n"
                    at = end
            at = text.find("{", at)
        if at >= 0 and at < len(text) and text[at] == "{":
            self.body = text[at:closing(text, at)]

    def shape(self):
        """The item with every name, type and value but the words of the language as one letter; of a struct the types alone."""
        if self.kind == "struct":
            return re.sub(r"(:|\(pub) [^,;)]+", r"\1 x", " ".join(self.body.split()))
        text = re.sub(r"^(fn|enum) \w+", r"\1 x", self.head) + self.body
        tokens = re.findall(r"\w+|[^\w\s]", text)
        return " ".join(t if t in WORDS or not re.match(r"\w", t) else "x" for t in tokens)

    def parameters(self):
        inside = re.search(r"\((.*)\)", self.head, re.S)
        return [" ".join(p.split()) for p in re.split(r",(?![^\[<(]*[\]>)])", inside[1]) if p.strip()] if inside else []


def items(files):
    for file, text in files:
        for m in re.finditer(r"(?:^|(?<=\s))(fn|enum|struct) (\w+)", text):
            yield Item(file, text, m)


def point1(files, found):
    for it in found:
        if it.kind == "enum":
            variants = [v for v in re.split(r",(?![^(]*\))", it.body[1:-1]) if v.strip()]
            empty = [v for v in variants if "(" not in v]
            if len(variants) == 2 and (len(empty) == 1 or any("Refusal" in v for v in variants)):
                yield f"{it.where}: enum of the shape of Option or Result"
        if it.kind == "struct" and re.search(r":\s*(?:refusal::)?(?:Checked|Answer|Opt(?!ion)\w+)\b", it.body):
            yield f"{it.where}: struct with a result or an option of its own beside values"
    for file, text in files:
        for m in re.finditer(r"\bmatch kind\b|\bkind [!=]= \d+|\bNO_PLACE\b|\bflag: u32|\*?fault (?:>|=) |\bcode\(\d+", text):
            yield f"{file}:{text.count(chr(10), 0, m.start()) + 1} {m[0]}: a number for a kind, or for none"


def point2(_, found):
    groups = defaultdict(list)
    for it in found:
        if len(it.body.split()) > (6 if it.kind == "fn" else 2):
            groups[it.shape()].append(it.where)
    for group in groups.values():
        if len(group) > 1:
            for where in group:
                yield f"{where}: one of {len(group)} of the same shape"


def point3(files, _):
    for file, text in files:
        for m in re.finditer(r"\b(while [^{]*|loop )\{", text):
            body = text[m.end() - 1:closing(text, m.end() - 1)]
            for step in re.finditer(r"\b(\w+) [+-]= 1;", body):
                if re.search(rf"\b{step[1]}\b", m[1]) or re.search(rf"\[[^\]]*\b{step[1]}\b", body):
                    yield f"{file}:{text.count(chr(10), 0, m.start()) + 1} {' '.join(m[1].split())}: counts {step[1]}"
                    break


def point4(_, found):
    for it in found:
        ps = it.parameters()
        by_itself = not re.search(r"\b(while|loop|for)\b|\b[a-z]\w*\(|[*/%]|<<", it.body)
        if it.kind == "fn" and ps and "->" in it.head and by_itself:
            if all(re.search(rf": (?:{NUMBER}|[\w:]*(?:Refusal|Kind|Numeral|Checked|Answer|Found|Mark|Opt(?!ion)\w+|Token|Ms|Cs|Option<{NUMBER}>))$", p) for p in ps):
                yield f"{it.where}: of numbers and enums alone"


def point5(_, found):
    facts, together = defaultdict(list), defaultdict(list)
    for it in found:
        for r in re.findall(r"requires \{ (.*) \}\n", it.contract):
            for fact in {re.sub(r"\b(?!length\b|text\b|table\b|path\b|now\b|old\b)[a-z]\w*\b", "x", f.strip(" ()")) for f in r.split("×")}:
                facts[fact].append(it.where)
        names = [p.split(":")[0].removeprefix("mut ") for p in it.parameters() if ":" in p]
        for i in range(len(names) - 2):
            together[tuple(names[i:i + 3])].append(it.where)
    for fact, places in sorted(facts.items(), key=lambda kv: -len(kv[1])):
        if len(places) >= 3:
            yield f"{len(places)} contracts: {fact}"
    for names, places in sorted(together.items(), key=lambda kv: -len(kv[1])):
        if len(places) >= 4:
            yield f"{len(places)} functions: {', '.join(names)}"


def point6(_, found):
    for it in found:
        text = it.body if it.kind == "struct" else it.head
        if re.search(r"\[\w+; \w+\]", text) and re.search(r"\b(count|n|len|size|words): (?:usize|u32)", text):
            yield f"{it.where}: an array with a count beside it"
        elif it.kind == "fn" and re.search(r"\b(n|count|len|size): usize", it.head) and re.search(r"&mut \[", it.head):
            yield f"{it.where}: a lent slice with a count beside it"


def point7(files, _):
    for file, text in files:
        for m in re.finditer(r"\bmatch (class|step|op|which)\b|: fn\(|\bdyn\b", text):
            yield f"{file}:{text.count(chr(10), 0, m.start()) + 1} {m[0]}"


POINTS = {"1": point1, "2": point2, "3": point3, "4": point4, "5": point5, "6": point6, "7": point7}


def main(words):
    commit = words.pop(words.index("--at") + 1) if "--at" in words else None
    files = list(sources(commit))
    found = list(items(files))
    counts = []
    for point in [w for w in words if w in POINTS] or POINTS:
        places = list(POINTS[point](files, found))
        print("".join(f"{point}  {place}\n" for place in places), end="")
        counts.append(f"{point}: {len(places)}")
    print("  ".join(counts))


main(sys.argv[1:])
