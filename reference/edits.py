#!/usr/bin/env python3
"""Reads the Rust source and writes the patched text of one build.

    edits.py SOURCE_DIR OUT_DIR BUILD      BUILD: exported, platform or counted

Every departure from the source is one entry of EDITS, with the number of times that it must
match; another number stops the build. Nothing of the source stands in this file but the few
tokens that a pattern needs. The counted build also gets counters (see `count_branches`).
"""
import re
import sys
from dataclasses import dataclass
from pathlib import Path

PORTED = ("exported", "counted")
ALL = ("exported", "platform", "counted")


@dataclass
class Edit:
    file: str
    why: str
    old: str             # regular expression
    new: str
    times: int = 1
    until: str = ""      # if given, the edit replaces from `old` up to, not including, this
    stays: bool = False  # what `old` finds stays, and `new` comes after it
    builds: tuple = ALL


def method(file, name, times):
    """An elementary function by the port's own: the call stays, its name changes."""
    return Edit(file, f"{name} from the exported functions",
                rf"\.{name}\(", f".ported_{name}(", times, builds=PORTED)


EDITS = [
    # The scope, "What changes shape": the elementary functions are the port's own.
    Edit("ekf.rs", "name the exported functions", r"\A", "use elementary::Ported;\n", builds=PORTED),
    Edit("dsp.rs", "name the exported functions", r"\A", "use elementary::Ported;\n", builds=PORTED),
    method("ekf.rs", "sin", 1),
    method("ekf.rs", "cos", 3),
    method("ekf.rs", "atan2", 2),
    method("ekf.rs", "hypot", 1),
    method("ekf.rs", "sqrt", 1),
    method("dsp.rs", "sin", 7),
    method("dsp.rs", "cos", 7),
    method("dsp.rs", "atan2", 2),
    method("dsp.rs", "log10", 2),
    # The other three roots of dsp.rs are in parts that the port leaves out.
    Edit("dsp.rs", "root of the signal-to-noise estimate", r"\bv\.sqrt\(", "v.ported_sqrt(", builds=PORTED),

    # The scope, "What changes shape": the window is a ring in lent memory. As a queue it is the same;
    # only so can a block meet contents that it did not leave there.
    Edit("ekf.rs", "the window in lent memory", r"use std::collections::VecDeque;",
         "use crate::window::Ring as VecDeque;", builds=PORTED),

    # The request for one name for half a turn: after each wrap minus half takes the place of plus half.
    Edit("ekf.rs", "the wrapped innovation, at plus half", r"let z = \(z \+[^;]*;",
         " let z = if z >= half_limit { -half_limit } else { z };", stays=True, builds=PORTED),
    Edit("ekf.rs", "the wrapped phase, at plus half", r"self\.x\[idx\] = \(self[^;]*;",
         " if self.x[idx] >= half_limit { self.x[idx] = -half_limit; }", stays=True, builds=PORTED),

    # The scope: the reference begins at the decimated samples. The caller puts the lists into the
    # channel and hands over the flag; the callers that hand over raw samples are cut off.
    Edit("dsp.rs", "entry: flag in place of raw samples",
         r"pub fn process_block_with_center\([^)]*\) \{",
         "pub fn process_block_with_center(&mut self, _: &[Complex<f32>], _: f64) {\n"
         "        unreachable!(\"the reference begins at the decimated samples\")\n"
         "    }\n\n"
         "    pub fn process_decimated(&mut self, flag: u64) {\n"
         "        let raw_iq: &[Complex<f32>] = &[];"),
    Edit("dsp.rs", "flag 4: no raw pairs", r"if raw_iq\.is_empty\(\)", "if flag == 4"),
    Edit("dsp.rs", "flags 1, 2, 3: the raw scan is the caller's", r"for &sample in raw_iq \{",
         "has_signal = flag == 1;\n        has_nan = flag == 2;\n        has_clipping = flag == 3;\n\n        ",
         until=r"if has_nan"),
    Edit("dsp.rs", "mean removal, mixing and decimation are the caller's", r"let f_shift =", "",
         until=r"// Dynamic SNR"),

    # The correction alone is called on built values.
    Edit("ekf.rs", "the correction can be called by itself", r"\bfn update_channel", "pub fn update_channel"),
]

# Taken out whole, as a function of its own: the raw scan that the entry above no longer has.
SURVEY_FROM, SURVEY_UNTIL = r"for &sample in raw_iq \{", r"if has_nan"
SURVEY_HEAD = """// The raw scan of the source, cut out of its function.
use num_complex::Complex;

pub fn survey(raw_iq: &[Complex<f32>]) -> u64 {
    if raw_iq.len() == 0 {
        return 4;
    }
    let (mut has_signal, mut has_nan, mut has_clipping) = (false, false, false);
    """
SURVEY_FOOT = """if has_nan {
        2
    } else if has_clipping {
        3
    } else if has_signal {
        1
    } else {
        0
    }
}
"""

# Functions of the source whose branches the counted build counts.
COUNTED = {
    "ekf.rs": [r"pub fn reset\(", r"pub fn predict\(&mut self\)", r"fn update_channel\(",
               r"pub fn update\(&mut self, sample", r"pub fn update_dual\(",
               r"pub fn compute_tracker_discrepancy\(", r"pub fn collect_tracker_features\(",
               r"pub fn compute_tracker_frequency_diffs\(", r"pub fn cancel\("],
    "dsp.rs": [r"pub fn process_block_with_center\(", r"pub fn reset_to_idle\(",
               r"pub fn estimate_frequency_esprit\("],
}


def stop(message):
    sys.exit(f"reference: {message}")


def span(text, old, until, what):
    starts = list(re.finditer(old, text))
    if len(starts) != 1:
        stop(f"{what}: the start is there {len(starts)} times, not once")
    end = re.compile(until).search(text, starts[0].end())
    if not end:
        stop(f"{what}: no end after the start")
    return starts[0].start(), end.start()


def apply(edit, text):
    what = f"{edit.file}, {edit.why}"
    if edit.until:
        start, end = span(text, edit.old, edit.until, what)
        return text[:start] + edit.new + text[end:]
    text, times = re.subn(edit.old, lambda found: found.group() * edit.stays + edit.new, text)
    if times != edit.times:
        stop(f"{what}: found {times} times, not {edit.times}; is this another source?")
    return text


# ---- counters ----

def without_comments_and_strings(text):
    """The text with comments and strings blanked, so that places stay the same."""
    blank = lambda m: re.sub(r"[^\n]", " ", m.group())
    return re.sub(r'//[^\n]*|"(?:[^"\\]|\\.)*"', blank, text)


def body(plain, head, file):
    starts = list(re.finditer(head, plain))
    if len(starts) != 1:
        stop(f"{file}: the function {head} is there {len(starts)} times, not once")
    at = plain.index("{", starts[0].end())
    depth, i = 1, at + 1
    while depth:
        depth += {"{": 1, "}": -1}.get(plain[i], 0)
        i += 1
    return at, i


TOKEN = re.compile(r"\b(?:if|else|for|while|match|let)\b|=>|[{}();]|\.clamp\(|\.max\(|\.rem_euclid\(")


def find_points(plain, start, end, name):
    """Places to count at: (position, kind, number of the enclosing point or None)."""
    points = [(start + 1, f"fn {name}", None)]
    stack = [0]              # for each open brace: the point that it opened, or the outer one's
    waiting = None           # keyword whose block is still to open
    paren = 0
    i = start + 1
    while i < end - 1:
        token = TOKEN.search(plain, i, end - 1)
        if not token:
            break
        i = token.end()
        word = token.group()
        if word in ("if", "else", "for", "while", "match"):
            waiting = word
        elif word == "let":
            if waiting not in ("if", "while"):
                waiting = None
        elif word == "=>":
            after = plain[i:i + 2].strip()
            if after.startswith("{"):
                waiting = "arm"
            else:
                waiting = None
                points.append((i, "arm expression", stack[-1]))
        elif word == "{":
            if waiting in ("if", "else", "for", "while", "arm"):
                points.append((i, waiting, stack[-1]))
                stack.append(len(points) - 1)
            else:
                stack.append(stack[-1])
            waiting = None
        elif word == "}":
            stack.pop()
        elif word == ";":
            waiting = None
        elif word.startswith("."):
            points.append((i, word[1:-1], stack[-1]))
    return points


def count_branches(file, text, first):
    """Counters at every block and arm, and at each clamp, max and remainder. Only the counted
    build has them. Done before the edits, so that the line numbers are the source's."""
    plain = without_comments_and_strings(text)
    inserts, table = [], []
    for head in COUNTED[file]:
        start, end = body(plain, head, file)
        name = re.search(r"fn (\w+)", head).group(1)
        base = first + len(table)
        for position, kind, parent in find_points(plain, start, end, name):
            number = first + len(table)
            line = text.count("\n", 0, position) + 1
            table.append((number, file, line, kind, -1 if parent is None else base + parent))
            if kind == "arm expression":
                stop_at = plain.index("\n", position)
                comma = plain.rindex(",", position, stop_at + 1)
                inserts.append((position, f" {{ crate::counts::hit({number});"))
                inserts.append((comma, " }"))
            elif kind in ("clamp", "max", "rem_euclid"):
                method_start = position - len(kind) - 1
                inserts.append((method_start, "counted_"))
                inserts.append((position, f"{number}, "))
            else:
                inserts.append((position, f" crate::counts::hit({number});"))
    for position, what in sorted(inserts, reverse=True):
        text = text[:position] + what + text[position:]
    if any(kind in ("clamp", "max", "rem_euclid") for _, _, _, kind, _ in table):
        text = "use crate::counts::Counted;\n" + text
    return text, table


def write_table(table, texts, out):
    """The points that the edits left in, as a Rust table beside the text."""
    left = [row for row in table
            if re.search(rf"(?:hit\(|counted_\w+\(){row[0]}\b", texts[row[1]])]
    rows = "".join(f'    ({n}, "{f[:-3]}", {line}, "{kind}", {parent}),\n' for n, f, line, kind, parent in left)
    size = 3 * (max((row[0] for row in table), default=0) + 1)
    (out / "points.rs").write_text(
        f"pub const SIZE: usize = {size};\n"
        f"pub const POINTS: &[(usize, &str, u32, &str, i64)] = &[\n{rows}];\n")


def main():
    if len(sys.argv) != 4 or sys.argv[3] not in ALL:
        sys.exit(__doc__)
    source, out, build = Path(sys.argv[1]), Path(sys.argv[2]), sys.argv[3]
    out.mkdir(parents=True, exist_ok=True)
    texts, table = {}, []
    for file in ("ekf.rs", "dsp.rs"):
        try:
            texts[file] = (source / file).read_text(encoding="utf-8")
        except OSError as error:
            stop(f"no source: {error}")
    start, end = span(texts["dsp.rs"], SURVEY_FROM, SURVEY_UNTIL, "dsp.rs, the raw scan")
    survey = SURVEY_HEAD + texts["dsp.rs"][start:end] + SURVEY_FOOT
    if build == "counted":
        for file in texts:
            texts[file], points = count_branches(file, texts[file], len(table))
            table += points
    for edit in EDITS:
        if build in edit.builds:
            texts[edit.file] = apply(edit, texts[edit.file])
    for file, text in texts.items():
        (out / file).write_text(text, encoding="utf-8")
    (out / "survey.rs").write_text(survey, encoding="utf-8")
    if build == "counted":
        write_table(table, texts, out)


main()
