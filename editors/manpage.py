#!/usr/bin/env python3
"""Prints docs/COMMANDS.md as a page of the manual, section 1: manpage.py > vericon.1"""
import os
import re

PAGE = os.path.join(os.path.dirname(os.path.dirname(os.path.realpath(__file__))), "docs", "COMMANDS.md")


def plain(text):
    """A text in which nothing has a meaning to roff."""
    text = text.replace("\\", "\\e").replace("-", "\\-")
    return "\\&" + text if text.startswith((".", "'")) else text


def inline(text):
    """A line of text: what stands in backquotes or between ** is bold."""
    parts = re.split(r"(``?[^`]+``?|\*\*[^*]+\*\*)", text)
    made = "".join(f"\\fB{plain(part.strip('`*'))}\\fR" if part[:1] == "`" or part[:2] == "**" else plain(part) for part in parts)
    return "\\&" + made if made.startswith((".", "'")) else made


def cells(line):
    return [cell.strip().replace("\\|", "|") for cell in re.split(r"(?<!\\)\|", line.strip())[1:-1]]


def row(line):
    """A row of a table: its first cell as a term, and the others below it."""
    first, *others = cells(line)
    return [".TP", inline(first), inline("; ".join(other for other in others if other))]


def joined(lines):
    """The lines with each paragraph on one line; tables, headings and code stay as they are."""
    out, is_code, is_open = [], False, False
    for line in lines:
        is_fence = line.startswith("```")
        is_text = not is_code and not is_fence and line != "" and line[0] not in "#|"
        if is_text and is_open and not line.startswith("- "):
            out[-1] += " " + line.strip()
        else:
            out.append(line)
        is_open = is_text
        is_code ^= is_fence
    return out


def page(lines):
    out = [".TH VERICON 1", ".SH NAME", "vericon \\- decides whether controller programs of software\\-defined networks keep their invariants"]
    is_code = False
    for number, line in enumerate(lines):
        if line.startswith("```"):
            out += [".fi", ".RE"] if is_code else [".PP", ".RS 4", ".nf"]
            is_code = not is_code
        elif is_code:
            out.append(plain(line))
        elif line.startswith("# "):
            out.append(".SH DESCRIPTION")
        elif line.startswith("## "):
            out.append(".SH " + plain(line[3:].strip("`")).upper())
        elif line.startswith("|"):
            is_head = number + 1 < len(lines) and lines[number + 1].startswith("|---")
            out += [] if is_head or line.startswith("|---") else row(line)
        elif line.startswith("- "):
            out += [".IP \\(bu 2", inline(line[2:])]
        elif line and out[-1].startswith(".SH"):
            out.append(inline(line))
        elif line:
            out += [".PP", inline(line)]
    return out


with open(PAGE, encoding="utf-8") as file:
    print("\n".join(page(joined(file.read().split("\n")))))
