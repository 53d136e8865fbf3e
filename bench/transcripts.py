"""Runs the transcripts of pages and compares them with what is printed: transcripts.py FOLDER [--write] [PAGE..].

A transcript is a block between lines of three backquotes whose first line begins with `$ `. Its commands
run in FOLDER, where `examples` is a copy of the repository's and `./vericon` the program that VERICON names. The block of a
page is wanted to be each command with its output and, where that isn't 0, a line `status N`.
"""
import os
import re
import shutil
import subprocess
import sys

ROOT = os.path.dirname(os.path.dirname(os.path.abspath(__file__)))
BLOCK = re.compile(r"^```\n(\$ .*?)^```$", re.DOTALL | re.MULTILINE)


def prepared(folder):
    """The folder with what the commands need."""
    shutil.copytree(f"{ROOT}/examples", f"{folder}/examples")
    os.symlink(os.path.abspath(os.environ["VERICON"]), f"{folder}/vericon")
    shutil.copy(f"{ROOT}/vericon-places", f"{folder}/vericon-places")


def played(block, folder):
    """The block with what its commands print now."""
    text = []
    for command in (line for line in block.split("\n") if line.startswith("$ ")):
        run = subprocess.run(["sh", "-c", command[2:]], cwd=folder, stdout=subprocess.PIPE, stderr=subprocess.STDOUT)
        text.append(command + "\n" + run.stdout.decode())
        if run.returncode:
            text.append(f"status {run.returncode}\n")
    return "".join(text)


def main():
    folder, *rest = sys.argv[1:]
    is_written = rest[:1] == ["--write"]
    pages = rest[is_written:] or [f"{ROOT}/README.md"] + sorted(f"{ROOT}/docs/{name}" for name in os.listdir(f"{ROOT}/docs"))
    prepared(folder)
    good = bad = 0
    for page in pages:
        with open(page, encoding="utf-8") as file:
            text = file.read()

        def renewed(found):
            nonlocal good, bad
            now = played(found[1], folder)
            same = now == found[1]
            good, bad = good + same, bad + (not same)
            if not same and not is_written:
                print(f"{page}: wanted\n{found[1]}but printed\n{now}")
            return f"```\n{now}```"

        new = BLOCK.sub(renewed, text)
        if is_written and new != text:
            with open(page, "w", encoding="utf-8") as file:
                file.write(new)
    print(f"{good} transcripts as printed, {bad} {'renewed' if is_written else 'not'}")
    sys.exit(1 if bad and not is_written else 0)


main()
