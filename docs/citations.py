#!/usr/bin/env python3
"""Whether what cites the scope ("01", docs/SCOPE.md) and the requests ("02", docs/REQUESTS.md) leads anywhere.

- A section of 01, named behind "01" and a comma, is the beginning of a heading of SCOPE.md, or a value with a row there;
  "ground" and a number is a row of its grounds.
- A request, N and its number, is a row of REQUESTS.md.
- A quote in a comment of crates/*/specs stands on one of the two pages, or it is the Rust's own and stands in
  oracle/upstream. In other files a quote is held to the pages if it comes right behind "01", with or without a section,
  or begins a row of a table. Line breaks and letter case aside, the words are the same; dots join parts of one quote.

A line for each that leads nowhere, and status 1; else one line, and status 0.
"""
import re
import sys
from pathlib import Path

ROOT = Path(__file__).resolve().parent.parent
PLACES = ["crates", "docs", "README.md", "CONTRIBUTING.md", "include", "host", "oracle", "examples"]
KINDS = {".antt", ".rt", ".edit", ".md", ".h", ".c", ".rs", ".py", ".sh"}
NOT_OURS = {"target", "out", "upstream", "built", "citations.py"}

BEGINS = re.compile(r"^\s*(?:--+|//[/!]?|/?\*+/?|#+)\s?")  # what a line of a comment begins with
COMMENT = re.compile(r"(?:^|\s)--+\s(.*)")
SECTION = re.compile(r"(?<![\w.,])01,\s+\"?(ground \d+|src/\w+\.rs|[A-Z][\w'\s]*)")
REQUEST = re.compile(r"\bN(\d{1,2})\b")
QUOTE = re.compile(r'"((?:[^"\n]|\n(?=\S))+)"')
QUOTE_OF_01 = re.compile(r'(?:(?<![\w.,])01(?:, "[^"]*"|,[^"|]{0,60}?)?(?:,|:| says)\s+|^\| )"([^"]+)"', re.M)


def read(path):
    return (ROOT / path).read_text(encoding="utf-8")


def flat(text): return " ".join(text.split()).casefold()


def words(path, specs):
    """The text without what begins its comments; of definitions the comments alone, line by line."""
    lines = read(path).split("\n")
    if specs:
        lines = [found[0].strip() if (found := COMMENT.search(line)) else "" for line in lines]
    return "\n".join(BEGINS.sub("", line) for line in lines)


def stands(quote, page):
    parts = re.split(r"\s*\.\.+\s*", flat(quote))
    return re.search(".*".join(map(re.escape, parts)), page) is not None


def main():
    scope = read("docs/SCOPE.md")
    headings = re.findall(r"^#+ (.*)$", scope, re.M) + re.findall(r"^\| `(\w+)` \|", scope, re.M)
    rows = (scope + "\n## Grounds").split("\n## Grounds")[1].split("\n## ")[0]
    grounds = ["ground " + no for no in re.findall(r"^\| (\d+) \|", rows, re.M)]
    requests = re.findall(r"^\| N(\d+) \|", read("docs/REQUESTS.md"), re.M)
    rust = flat(" ".join(words(path, False) for path in (ROOT / "oracle/upstream").glob("*.rs")))
    pages = flat(re.sub(r'^\| "[^"]*"', "|", scope, flags=re.M) + read("docs/REQUESTS.md"))
    lost, count, tops = [], 0, [ROOT / place for place in PLACES]
    for path in sorted(p for top in tops for p in ([top] if top.is_file() else top.rglob("*"))):
        name = path.relative_to(ROOT)
        if path.suffix not in KINDS or NOT_OURS & set(name.parts) or not path.is_file():
            continue
        specs, found = name.match("crates/*/specs/*"), []
        text = words(path, specs)
        for m in SECTION.finditer(text):
            x = " ".join(m[1].split())
            there = any((h + " ").startswith(x + " ") or x.startswith(h + " ") for h in headings) or x in grounds
            found.append((m, there, f"01, {x}: no such heading or ground in docs/SCOPE.md"))
        found += [(m, m[1] in requests, f"{m[0]}: no such row in docs/REQUESTS.md") for m in REQUEST.finditer(text)]
        for m in (QUOTE if specs else QUOTE_OF_01).finditer(text):
            there = stands(m[1], pages) or (specs and stands(m[1], rust))
            found.append((m, there, f'"{" ".join(m[1].split())}": not in docs/SCOPE.md'))
        lost += [f"{name}:{text.count(chr(10), 0, m.start()) + 1}: {what}" for m, there, what in found if not there]
        count += len(found)
    print("\n".join(lost) if lost else f"{count} citations and quotes, each found")
    return 1 if lost else 0


sys.exit(main())
