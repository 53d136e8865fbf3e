#!/usr/bin/env python3
"""fuzz.py [--count N] [--minutes M] [--seed S] [READER..]: N inputs (1,000,000), or as many as come in M minutes, for each reader of the built
program, or for those named, made by changing worked ones. Each answer is held against what the formats say of that input (expected.py), so a
crash, a call of more than ten seconds of the processor, and a line or a status that is not to be are found; an input whose answer is of a new
form is changed further.

The program's `main` is called again and again in one process (again.c): some 10,000 to 40,000 calls a second. For each reader there is a line
with the number of inputs, of the forms of answers, and of the answers with each status. What was found is written to found-READER-N, and ends the
script with status 1.
"""
import argparse
import collections
import mmap
import os
import random
import re
import signal
import struct
import subprocess
import sys
import tempfile
import time

import decided
import drawn
import expected

HERE = os.path.dirname(os.path.abspath(__file__))
VERICON = os.path.abspath(os.environ.get("VERICON", os.path.join(HERE, "../crates/vericon/out/vericon")))
SHARED = 1 << 25
BATCH = 400


class Program:
    """The program in a process of its own, with a folder for its files."""

    def __init__(self, library, fixed):
        self.library, self.fixed = library, fixed
        self.folder = tempfile.TemporaryDirectory(dir="/dev/shm")
        self.begin()

    def begin(self):
        shared = os.path.join(self.folder.name, "again")
        with open(shared, "wb") as it:
            it.truncate(SHARED)
        with open(shared, "r+b") as it:
            self.area = mmap.mmap(it.fileno(), SHARED)
        for name, held in self.fixed.items():
            with open(os.path.join(self.folder.name, name), "wb") as it:
                it.write(held)
        to_read, self.to = os.pipe()
        self.back, to_write = os.pipe()

        def lay():
            os.dup2(to_read, 13)
            os.dup2(to_write, 14)
            os.dup2(13, 3)
            os.dup2(14, 4)

        given = {**os.environ, "LD_PRELOAD": self.library, "AGAIN": shared}
        self.process = subprocess.Popen([VERICON], cwd=self.folder.name, env=given, preexec_fn=lay, pass_fds=(3, 4), stdout=subprocess.DEVNULL)
        os.close(to_read)
        os.close(to_write)

    def run(self, calls):
        """The status and the output of each call (words, files); the last is None where that call ended the process."""
        parts = [struct.pack("<I", len(calls))]
        for words, files in calls:
            parts.append(struct.pack("<I", len(words) + 1))
            for word in (b"vericon", *words):
                parts += [struct.pack("<I", len(word)), word]
            parts.append(struct.pack("<I", len(files)))
            for name, held in files:
                parts += [struct.pack("<I", len(name)), name, struct.pack("<I", len(held)), held]
        laid = b"".join(parts)
        assert len(laid) <= SHARED // 2
        self.area[: len(laid)] = laid
        os.write(self.to, b".")
        ended = os.read(self.back, 1) == b""
        at = SHARED // 2
        (count,) = struct.unpack_from("<I", self.area, at)
        at += 4
        answers = []
        for _ in range(count):
            status, size = struct.unpack_from("<iI", self.area, at)
            at += 8
            if size == 0xFFFFFFFF:
                answers.append((status, None))
                continue
            answers.append((status, self.area[at : at + size]))
            at += size
        if ended:
            answers.append(None)
        return answers

    def end(self):
        """How the process ended, and a new one."""
        os.close(self.to)
        os.close(self.back)
        code = self.process.wait()
        self.begin()
        return "hang" if code in (-signal.SIGALRM, -signal.SIGPROF) else f"ended with {code}"

    def close(self):
        os.close(self.to)
        self.process.wait()
        self.folder.cleanup()


def change(chance, seeds, tokens):
    """A worked input, changed in one place or more."""
    data = bytearray(chance.choice(seeds))
    while True:
        size = len(data)
        at = int(chance.random() * (size + 1))
        kind = int(chance.random() * 16)
        if kind == 0 and size:
            data[at % size] ^= 1 << int(chance.random() * 8)
        elif kind == 1 and size:
            data[at % size] = int(chance.random() * 256)
        elif kind == 2:
            data.insert(at, int(chance.random() * 256))
        elif kind == 3:
            del data[at : at + 1 + int(chance.random() * 8)]
        elif kind == 4:
            upto = at + 1 + int(chance.random() * 40)
            to = int(chance.random() * (size + 1))
            data[to:to] = data[at:upto]
        elif kind == 5:
            del data[at:]
        elif kind == 6:
            other = chance.choice(seeds)
            data[at:] = other[int(chance.random() * (len(other) + 1)) :]
        elif kind == 7 and size:
            data[at % size] = chance.choice(b"\x00\x01\x7f\x80\xff 019\n#")
        elif kind == 8 and size >= 2:
            at %= size - 1
            data[at : at + 2] = struct.pack(">H", chance.choice((0, 1, 7, 8, 12, 16, 31, 32, 33, 72, 80, 88, 255, 256, 65535, int(chance.random() * 65536))))
        elif kind in (9, 10):
            upto = at if kind == 9 else at + 1 + int(chance.random() * 6)
            data[at:upto] = chance.choice(tokens)
        elif kind in (11, 12):
            # another digit, or none that stands behind this place
            while at < size and not 48 <= data[at] <= 57:
                at += 1
            if at < size:
                data[at] = 48 + int(chance.random() * 10)
        else:
            # a line twice, none, or in the place of another
            lines = data.split(b"\n")
            at, to = int(chance.random() * len(lines)), int(chance.random() * len(lines))
            lines[to : to + (kind > 13)] = [] if kind == 15 else [lines[at]]
            data = bytearray(b"\n".join(lines))
        if len(data) > 4000:
            del data[4000:]
        if chance.random() < 0.6:
            return bytes(data)


FORM = re.compile(rb"[0-9a-f]*[0-9][0-9a-f]*")


def form(answer):
    """An answer without its numbers."""
    status, text = answer
    lines = FORM.sub(b"0", text[:2000]).split(b"\n")
    return status, tuple(dict.fromkeys(lines))


class Tally:
    def __init__(self, reader):
        self.reader, self.count, self.statuses, self.found, self.forms = reader, 0, collections.Counter(), 0, set()

    def keep(self, given, why):
        self.found += 1
        name = f"found-{self.reader.name}-{self.found}"
        if self.found <= 20:
            with open(name, "wb") as it:
                it.write(given if isinstance(given, bytes) else b"\0".join(part if isinstance(part, bytes) else str(part).encode() for part in given))
            print(f"{self.reader.name}: {name}: {why}", flush=True)

    def take(self, given, answer, seeds):
        self.count += 1
        if answer[1] is None:
            return self.keep(given, "more than a MiB is written")
        why = self.reader.differs(given, *answer)
        if why:
            return self.keep(given, why)
        self.statuses[answer[0]] += 1
        if len(self.forms) < 20000:
            its_form = form(answer)
            if its_form not in self.forms:
                self.forms.add(its_form)
                seeds.append(given)


def fuzz(reader, library, told):
    chance = random.Random(f"{told.seed} {reader.name}")
    program = Program(library, reader.fixed)
    tally = Tally(reader)
    seeds = list(reader.seeds)
    given = list(seeds)
    since = time.perf_counter()
    while tally.count < told.count and time.perf_counter() - since < 60 * told.minutes:
        given += [reader.change(chance, seeds) for _ in range(BATCH - len(given))]
        answers = program.run([reader.call(it) for it in given])
        again = []
        for it, answer in zip(given, answers):
            if answer is None:
                tally.count += 1
                tally.keep(it, program.end())
                break
            tally.take(it, answer, seeds)
            again += reader.next(it, answer, chance)
        given = again[:BATCH]
    taken = time.perf_counter() - since
    program.close()
    statuses = ", ".join(f"status {status}: {number}" for status, number in sorted(tally.statuses.items()))
    print(f"{reader.name}: {tally.count} inputs in {taken:.0f} s, {len(tally.forms)} forms, {statuses}{reader.said()}; found {tally.found}", flush=True)
    return tally.found


class Reader:
    """One file of one command; the others hold the same in every call."""

    def __init__(self, name, words, file, fixed, seeds, tokens, differs, next_of=None):
        self.name, self.words, self.file, self.fixed = name, [word.encode() for word in words.split()], file.encode(), fixed
        self.seeds, self.tokens, self.differs, self.next_of = seeds, tokens, differs, next_of

    def next(self, given, answer, chance):
        """Inputs that follow from an answer."""
        more = self.next_of(answer) if self.next_of and chance.random() < 0.1 else None
        return [] if more is None else [more]

    def change(self, chance, seeds):
        return change(chance, seeds, self.tokens)

    def call(self, given):
        return self.words, [(self.file, given)]

    def said(self):
        """What is said behind the statuses."""
        return ""


class Words:
    """The words of a call."""

    name = "words"
    fixed = {"p": expected.ARMED, "n": expected.TWO, "j": expected.ENTERED, "s": expected.STREAM, "log": expected.LOG}
    seeds = [tuple(it.split()) for it in expected.CALLS]
    differs = staticmethod(expected.words_differ)

    def change(self, chance, seeds):
        words = list(chance.choice(seeds))
        while True:
            at = int(chance.random() * (len(words) + 1))
            kind = int(chance.random() * 4)
            if kind == 0:
                del words[at : at + 1]
            elif kind == 1 and at < len(words):
                words[at] = chance.choice(expected.WORDS)
            elif kind == 2:
                words.insert(at, chance.choice(expected.WORDS))
            elif at < len(words) and words[at]:
                changed = bytearray(words[at])
                changed[int(chance.random() * len(changed))] = 1 + int(chance.random() * 255)
                words[at] = bytes(changed).replace(b"/", b"-")
            if chance.random() < 0.7:
                return tuple(words[:20])

    def call(self, given):
        return given, [(name.encode(), held) for name, held in self.fixed.items()]

    def next(self, given, answer, chance):
        return []

    def said(self):
        return ""


class Decided:
    """Programs that are checked, changed ones and drawn ones. What is answered is held against decided.py; a counterexample is to break its
    condition by `eval` too, a log is to be accepted, and what z3 finds broken without an answer is to be what can't be decided."""

    name = "decided"
    fixed = {}

    def __init__(self):
        self.seeds = [("check", it, 0) for it in expected.PROGRAMS]
        self.account = decided.Account()
        self.differs, self.said = self.account.differs, self.account.said

    def change(self, chance, seeds):
        level = int(chance.random() < 0.02)
        if chance.random() < 0.5:
            return "drawn", drawn.draw(chance), level
        programs = [it for it in seeds if it[0] in ("check", "drawn")]
        return "check", change(chance, [chance.choice(programs)[1]], expected.PROGRAM_TOKENS), level

    def call(self, given):
        words, program = given[0], given[1]
        level = b"%d" % given[2]
        if words == "eval":
            return [b"eval", b"p", b"n", level, given[4]], [(b"p", program), (b"n", given[3])]
        if words == "clauses":
            return [b"clauses", b"l"], []
        options = [b"--instances", b"16384", b"--strengthen", level]
        if words == "conditions":
            return [b"conditions", *options, b"p"], [(b"p", program)]
        log = [b"--log", b"l"] if words == "log" else []
        return [b"check", *options, *log, b"p"], [(b"p", program)]

    def next(self, given, answer, chance):
        status, text = answer
        if given[0] not in ("check", "drawn"):
            return []
        program = given[1]
        level, doubtful = self.account.doubtful.pop(program, (0, []))
        more = [("conditions", program, level, doubtful)] if doubtful else []
        if chance.random() < 0.5:
            return more
        if status == 1:
            first, _, case = text.partition(b"\n")
            return [*more, ("eval", program, given[2], case, first.split(b" ")[4])]
        return [*more, ("log", program, given[2]), ("clauses", program, given[2])] if status == 0 else more


def readers():
    e = expected
    numbers = [b"0", b"1", b"2", b"3", b"9", b"01", b"10", b"4294967295", b"4294967296", b"18446744073709551615", b"18446744073709551616", b"-1", b"+1", b" ", b"\n", b"#", b"x"]
    lines = [b"\n" + it for it in e.NET_LINES + e.JOURNAL_LINES]
    yield Reader("program", "show p", "p", {}, e.PROGRAMS, e.PROGRAM_TOKENS, e.program_differs, e.shown)
    yield Reader("network", "eval p n", "n", {"p": e.NET_PROGRAM}, e.NETS, numbers + lines, e.net_differs)
    yield Reader("journal", "trace p n j", "j", {"p": e.FIREWALL, "n": e.TWO}, e.JOURNALS, numbers + lines, e.journal_differs)
    yield Reader("clauses", "clauses f", "f", {}, e.LOGS, numbers + e.LOG_TOKENS, e.log_differs)
    yield Reader("frames", "frames f", "f", {}, e.FRAMES, e.FRAME_TOKENS, e.frames_differ)
    yield Reader("stream", "replay p n j 1 s", "s", {"p": e.FIREWALL, "n": e.TWO, "j": e.ENTERED}, e.STREAMS, e.FRAME_TOKENS, e.stream_differs)
    yield Words()
    yield Decided()


def main():
    told = argparse.ArgumentParser()
    told.add_argument("--count", type=int, default=1_000_000)
    told.add_argument("--minutes", type=float, default=float("inf"))
    told.add_argument("--seed", type=int, default=1)
    told.add_argument("readers", nargs="*")
    told = told.parse_args()
    with tempfile.TemporaryDirectory() as work:
        library = os.path.join(work, "again.so")
        subprocess.run(["cc", "-O2", "-shared", "-fPIC", "-o", library, os.path.join(HERE, "again.c"), "-ldl"], check=True)
        found = sum(fuzz(it, library, told) for it in readers() if not told.readers or it.name in told.readers)
    sys.exit(1 if found else 0)


if __name__ == "__main__":
    main()
