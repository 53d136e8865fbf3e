#!/usr/bin/env python3
"""Writes the crates that decide conditions as plain Rust, builds them with rustc, and times the conditions of a program.

A design can so be timed before it is proved: contracts are taken out, the crates become modules, and bench/plain/kit.rs stands in for the types of
the kit. Nothing that is built here is proved. The conditions are those of bench/smt.py; those with an `exists` under a `forall` are left out.

Use: bench/plain.py PROGRAM LEVEL [KIND]   a line for each condition up to the level (or those whose kind has KIND in it): its verdict, passes,
                                           clauses and time; then all together
"""
import os
import re
import subprocess
import sys
import tempfile

HERE = os.path.dirname(os.path.abspath(__file__))
sys.path.insert(0, HERE)
import smt

CRATES = ["csdn_core", "clause_log", "clause_search", "fol_forms", "ground_inst", "form_trees", "copy_truth", "lazy_ground"]


# ---- Rattle as Rust
def end_of_braces(text, start):
    """Behind the braces that begin first from here on."""
    at = text.index("{", start)
    depth = 0
    while True:
        depth += {"{": 1, "}": -1}.get(text[at], 0)
        at += 1
        if depth == 0:
            return at


def without(text, pattern, end):
    """Without what matches and goes on to an end."""
    while True:
        found = re.search(pattern, text, re.M)
        if not found:
            return text
        text = text[: found.start()] + text[end(text, found) :]


def ghost_end(text, found):
    at, depth = found.start(), 0
    while text[at] != ";" or depth:
        depth += {"{": 1, "}": -1}.get(text[at], 0)
        at += 1
    return at + 1


def plain(text, crate):
    text = without(text, r"^impl(<[^>]*>)? (Model|Drop) for [^{]*\{", lambda t, f: end_of_braces(t, f.start()))
    text = re.sub(r"(?m)^\s*ghost use [^;]*;\n", "", text)
    text = re.sub(r"(?m)^\s*ghost \w+: \{.*\},\n", "", text)
    text = without(text, r"^\s+(ensures|requires|decreases)\b[^{\n]*\{", lambda t, f: end_of_braces(t, f.end() - 1))
    text = without(text, r"^\s*ghost [^\n{;]*[;{=]", ghost_end)
    text = re.sub(r"(?m)^\s*#!?\[(tactic|cycle|error)\b.*\]\n", "", text)
    text = re.sub(r"#\[derive\((Debug, )?Drop(, Error)?\)\]\n", "", text)
    text = text.replace("use std::marker::Model;", "").replace("use thiserror::Error;", "")
    text = re.sub(r"trait (\w+) \{", r"trait \1: Sized {", text)
    text = re.sub(r"\bDrop\b", "Sized", text)
    text = re.sub(r"vec!\[in alloc; (\w+); (\w+)\]", r"vec_of(\1, \2)", text)
    text = re.sub(r"\bcrate::", f"crate::{crate}::", text)
    for other in CRATES:
        text = re.sub(rf"(?m)^(\s*)(pub )?use {other}::", rf"\1\2use crate::{other}::", text)
    text = re.sub(r"use (std::alloc|std::collections|sqlite_items|arrayvec)::", "use crate::kit::", text)
    lines = text.split("\n")
    at = 0
    while at < len(lines) and (lines[at].startswith("//!") or lines[at].startswith("#!") or not lines[at].strip()):
        at += 1
    lines.insert(at, "#[allow(unused_imports)]\nuse crate::kit::prelude::*;")
    return "\n".join(lines)


def built(folder):
    """Writes the modules and builds them."""
    head = ["#![allow(dead_code, unused, non_snake_case)]", f'#[path = "{HERE}/plain/kit.rs"] mod kit;', f'#[path = "{HERE}/plain/conditions.rs"] mod conditions;']
    for crate in CRATES:
        source = os.path.join(HERE, "..", "crates", crate, "src")
        os.makedirs(os.path.join(folder, crate))
        for name in os.listdir(source):
            to = "mod.rs" if name == "lib.rt" else name.replace(".rt", ".rs")
            with open(os.path.join(folder, crate, to), "w") as f:
                f.write(plain(open(os.path.join(source, name)).read(), crate))
        head.append(f"mod {crate};")
    main = os.path.join(folder, "main.rs")
    with open(main, "w") as f:
        f.write("\n".join(head + ["fn main() { conditions::main() }", ""]))
    program = os.path.join(folder, "plain")
    subprocess.run(["rustc", "--edition", "2021", "-C", "opt-level=3", "-g", "-A", "warnings", main, "-o", program], check=True)
    return program


# ---- conditions as words
class Words:
    """A condition's formulas in Polish notation; the bound variables of each are numbered from 0."""

    def __init__(self, program):
        self.relations = [name for name, _, _ in program.relations + program.statics]
        self.constants = [name for name, _ in program.constants]

    def term(self, t, scope):
        if isinstance(t, int):
            return f"p{t}"
        return f"v{scope[t]}" if t in scope else f"c{self.constants.index(t)}"

    def formula(self, f, scope, bound):
        kind = f[0]
        if kind in ("true", "false"):
            return kind
        if kind == "row":
            name = f[1] if f[1] in ("ft", "sent", "rcv_this") else f"r{self.relations.index(f[1])}"
            return " ".join([f"row {name} {len(f[2])}"] + [self.term(t, scope) for t in f[2]])
        if kind == "=":
            return f"= {self.term(f[1], scope)} {self.term(f[2], scope)}"
        if kind in ("forall", "exists"):
            number = bound[0]
            bound[0] += 1
            return f"{kind} {number} {f[2]} " + self.formula(f[3], {**scope, f[1]: number}, bound)
        return " ".join([kind] + [self.formula(g, scope, bound) for g in f[1:]])


def is_inside(f, sign, under):
    """Whether no `exists` of the normal form stands under a `forall`."""
    kind = f[0]
    if kind in ("true", "false", "row", "="):
        return True
    if kind == "not":
        return is_inside(f[1], not sign, under)
    if kind == "imp":
        return is_inside(f[1], not sign, under) and is_inside(f[2], sign, under)
    if kind == "iff":
        return all(is_inside(g, way, under) for g in f[1:] for way in (True, False))
    if kind in ("forall", "exists"):
        some = (kind == "exists") == sign
        return not (some and under) and is_inside(f[3], sign, under or not some)
    return all(is_inside(g, sign, under) for g in f[1:])


def lines_of(program, level):
    words = Words(program)
    declared = [sorts for _, sorts, _ in program.relations + program.statics]
    yield str(len(declared))
    for sorts in declared:
        yield " ".join([str(len(sorts))] + sorts)
    yield " ".join([str(len(program.constants))] + [sort for _, sort in program.constants])
    yield " ".join([str(len(program.numerals))] + [str(k) for k in program.numerals])
    for below in range(level + 1):
        hypotheses = program.hypotheses(below)
        for kind, names, goal in program.conditions(below):
            if below < level and not kind.startswith(("step", "trans")):
                continue
            if not is_inside(goal, False, False) or not all(is_inside(f, True, False) for name in names for f in hypotheses[name]):
                continue
            parts = [words.formula(f, {}, [0]) for name in names for f in hypotheses[name]]
            sentence = "not " + words.formula(goal, {}, [0])
            for part in reversed(parts):
                sentence = f"and {part} {sentence}"
            yield f"{below} {kind.replace(' ', '_')} {sentence}"


def main(words):
    sys.setrecursionlimit(1000000)
    program = smt.Program(open(words[0]).read())
    with tempfile.TemporaryDirectory() as folder:
        run = built(folder)
        listed = os.path.join(folder, "conditions")
        with open(listed, "w") as f:
            f.write("\n".join(lines_of(program, int(words[1]))) + "\n")
        subprocess.run([run, listed] + words[2:], check=True)


if __name__ == "__main__":
    main(sys.argv[1:])
