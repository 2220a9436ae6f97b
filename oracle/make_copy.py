#!/usr/bin/env python3
"""Make the built copy of the two Rust files by mechanical edits alone.

  make_copy.py copy    write src/built/animate.rs and src/built/drawing.rs
  make_copy.py diff    write built.diff, the difference between upstream/ and the copy
  make_copy.py check   exit with status 1 unless built.diff is what `diff` would write

Every edit states how often its pattern stands in the file. Any other number is an error, and so is
an upstream file that is not the published one.
"""

import difflib
import hashlib
import pathlib
import sys

HERE = pathlib.Path(__file__).resolve().parent
UPSTREAM = HERE / "upstream"
BUILT = HERE / "src" / "built"
DIFF = HERE / "built.diff"

PUBLISHED = {
    "animate.rs": "5a09f5160a64fddb06a5d4f0236a2d5a584652d690e0de05719ef7ec56182e05",
    "drawing.rs": "e57b90a4cfd78037fc01ac8aaf6942fd2f3896aa486bd7bb884b127731ebc404",
}


class EditError(Exception):
    pass


def replace(old, new, times=1):
    """Replace a text that stands `times` times."""

    def edit(text):
        found = text.count(old)
        if found != times:
            raise EditError(f"{old!r} stands {found} times, not {times}")
        return text.replace(old, new)

    return edit


def drop(first, behind):
    """Drop everything from `first` up to, not including, the next `behind`."""

    def edit(text):
        if text.count(first) != 1:
            raise EditError(f"{first!r} stands {text.count(first)} times, not 1")
        start = text.index(first)
        end = text.find(behind, start)
        if end < 0:
            raise EditError(f"{behind!r} does not stand after {first!r}")
        return text[:start] + text[end:]

    return edit


def public(name):
    return replace(f"\nfn {name}(", f"\npub fn {name}(")


ANIMATE = [
    # The core crate is not there; the stand-ins of 01, Evaluation, are methods of f32.
    replace(
        "use oxideav_core::{Segment, SubtitleCue, Transform2D};",
        "use crate::stand_in::StandIn;",
    ),
    replace(".powf(", ".power("),
    replace(".to_radians()", ".radians()", times=3),
    replace(".max(0.0)", ".max_zero()", times=7),
    # The affine transform (01: "without `transform`").
    drop("    /// Combined affine transform", "    /// `\\frz` rotation in radians"),
    replace("            transform: Transform2D::identity(),\n", ""),
    replace("        st.transform = compose_transform(&st);\n", ""),
    drop("fn compose_transform(", "fn apply_tag("),
    # The walk over segments of the core crate.
    drop("/// Walk `cue.segments`", "fn parse_raw_block("),
    # \t nests sixteen deep (02, N7).
    replace("const MAX_T_DEPTH: usize = 8;", "const MAX_T_DEPTH: usize = 16;"),
    # What the comparison calls itself.
    public("parse_raw_block"),
    public("read_param"),
    public("parse_alpha_byte"),
    public("parse_int_list"),
    public("parse_float_list"),
    public("parse_finite_f32"),
    public("parse_color_rgb"),
    public("lerp_f32"),
]

DRAWING = [
    replace(
        "use oxideav_core::{Path, Point};", "use crate::stand_in::{Path, Point};"
    ),
]

EDITS = {"animate.rs": ANIMATE, "drawing.rs": DRAWING}


def upstream(name):
    content = (UPSTREAM / name).read_bytes()
    if hashlib.sha256(content).hexdigest() != PUBLISHED[name]:
        sys.exit(f"make_copy.py: {name} is not the published file")
    return content.decode("utf-8")


def built(name):
    text = upstream(name)
    for edit in EDITS[name]:
        try:
            text = edit(text)
        except EditError as error:
            sys.exit(f"make_copy.py: {name}: {error}")
    return text


def whole_diff():
    lines = []
    for name in EDITS:
        lines += difflib.unified_diff(
            upstream(name).splitlines(keepends=True),
            built(name).splitlines(keepends=True),
            f"upstream/{name}",
            f"src/built/{name}",
        )
    return "".join(lines)


def write_copy():
    BUILT.mkdir(parents=True, exist_ok=True)
    for name in EDITS:
        path, text = BUILT / name, built(name)
        if not path.exists() or path.read_text(encoding="utf-8") != text:
            path.write_text(text, encoding="utf-8")


def check():
    if DIFF.read_text(encoding="utf-8") != whole_diff():
        sys.exit("make_copy.py: built.diff is not the difference that the edits make")


def main(words):
    if words == ["copy"]:
        write_copy()
    elif words == ["diff"]:
        DIFF.write_text(whole_diff(), encoding="utf-8")
    elif words == ["check"]:
        check()
    else:
        sys.stderr.write("usage: make_copy.py copy|diff|check\n")
        sys.exit(2)


if __name__ == "__main__":
    main(sys.argv[1:])
