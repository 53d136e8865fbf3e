#!/usr/bin/env python3
"""greatest.py [--part N] [NAME..]: hostile files of the greatest lengths, and of half of them (divided by N): for each the seconds of the
processor and the memory at its peak, of which some 12 MB are this script's. Both are to grow no faster than the file. A program is timed as 20 calls.

Ends with status 1 where a whole file takes more than 2.8 times as long as a half one, and more than a tenth of a second, or more than 2.8 times the
memory, and more than 20 MB; or where the answer of a file that isn't divided isn't the one that stands here.
"""
import argparse
import os
import re
import subprocess
import sys
import tempfile

HERE = os.path.dirname(os.path.abspath(__file__))
VERICON = os.path.abspath(os.environ.get("VERICON", os.path.join(HERE, "../crates/vericon/out/vericon")))
FIREWALL = os.path.join(HERE, "../examples/firewall.csdn")
TWO = os.path.join(HERE, "../examples/two.net")
ENTERED = b"vericon-journal 1\nend\n"

PROGRAM, NET, JOURNAL, LOG = 65_536, 16_777_216, 536_870_912, 268_435_456


def filled(front, piece, back, size):
    """A text of so many bytes, or a few less, of pieces between a front and a back."""
    return front + piece * ((size - len(front) - len(back)) // len(piece)) + back


LEAST = 10_000_000


def counted(front, line, back, size, order=range):
    """Lines with numbers of eight digits, as many as fit."""
    count = (size - len(front) - len(back)) // len(line % LEAST)
    return front + b"".join(line % (LEAST + number) for number in order(count)) + back


def falling(count):
    return range(count - 1, -1, -1)


def scattered(count):
    return (number * 7919 % count if count % 7919 else number for number in range(count))


def tree(size):
    """A formula over p() whose parts are halved."""
    if size < 20:
        return b"p()"
    return b"(" + tree((size - 7) // 2) + b" and " + tree((size - 7) // 2) + b")"


def many_invariants(size):
    each = size // 64 - 30
    return b"rel p();\n" + b"".join(b"safety A%d: %s;\n" % (number, tree(each)) for number in range(63))


def many_handlers(size):
    name = b"r" * 64
    block = (name + b".insert(a); ") * (size // 32 // 80)
    return b"rel " + name + b"(HO);\n" + b"".join(b"pktIn(s, a->b, prt(%d)) { %s}\n" % (number, block) for number in range(1, 33))


def wide_value(size):
    name = b"a" * 29
    row = b"(" + name + b", " + name + b")"
    return filled(b"const " + name + b":HO;\nrel r(HO, HO) = {" + row, b", " + row, b"};\n", size)


def hex_frames(text, size):
    frame = bytes.fromhex(text)
    return frame * (size // len(frame))


def long_frames(kind, size):
    frame = bytes([1, kind, 255, 255, 0, 0, 0, 1]) + bytes(65_527)
    return frame * (size // len(frame))


def flow_mods(size):
    actions = bytes.fromhex("0000000800010000") * 8000
    frame = bytes.fromhex("010e") + (72 + len(actions)).to_bytes(2, "big") + bytes(68) + actions
    return frame * (size // len(frame))


def queues(size):
    properties = bytes.fromhex("0002000800000000") * 4000
    queue = bytes(4) + (8 + len(properties)).to_bytes(2, "big") + bytes(2) + properties
    frame = bytes.fromhex("0115") + (16 + 2 * len(queue)).to_bytes(2, "big") + bytes(12) + queue * 2
    return frame * (size // len(frame))


HOSTS = 1200
HOSTS_HEAD = b"vericon-net 1\nsw 1\nho " + b" ".join(b"%d" % (1000 + it) for it in range(HOSTS)) + b"\npr 1\nstate\n"


def tuples(line, size, order=lambda number: number):
    """Lines with two hosts, each another, as many as fit."""
    count = min((size - len(HOSTS_HEAD) - 4) // len(line % (1000, 1000)), HOSTS * HOSTS)
    return HOSTS_HEAD + b"".join(line % tuple(1000 + it for it in divmod(order(number), HOSTS)) for number in range(count)) + b"end\n"


def pairs(size):
    return tuples(b"t tr %d %d\n", size, lambda number: number * 7919 % (HOSTS * HOSTS))


def sent(size):
    return tuples(b"sent 1 %d %d 1 1\n", size)


def few_tuples(size):
    """The same 1,200 tuples again and again."""
    return filled(HOSTS_HEAD, b"".join(b"t seen %d\n" % (1000 + it) for it in range(HOSTS)), b"end\n", size)


HELLO = "0100000800000001"
NET_HEAD = b"vericon-net 1\nsw 1\nho 1\npr 1 2\n"
NET_PROGRAM = b"rel tr(HO, HO); rel seen(HO); safety A: forall X:HO. tr(X, X) -> tr(X, X);"
ALL_HOSTS = b"vericon-net 1\nsw 1\nho "
BLOCK = b"vericon-log 1\nblock b\natoms 4000000000\n"

# A name; the words, where f is the file and p, n, j, s are smaller ones; the limit; the file of a size; the status and the last line's form.
FILES = [
    ("parentheses", "show f", PROGRAM, lambda size: b"(" * size, 3, rb"f refused at 0: Unexpected"),
    ("deep-formula", "show f", PROGRAM, lambda size: filled(b"safety A: ", b"(", b"", size), 3, rb"f refused at 73: TooDeep"),
    ("comment", "show f", PROGRAM, lambda size: filled(b"//", b"x", b"", size), 3, rb"f refused at \d+: Unexpected"),
    ("one-word", "show f", PROGRAM, lambda size: b"x" * size, 3, rb"f refused at 0: BadName"),
    ("one-number", "show f", PROGRAM, lambda size: b"1" * size, 3, rb"f refused at 0: BadNumber"),
    ("declarations", "show f", PROGRAM, lambda size: counted(b"", b"rel r%d();", b"", size), 3, rb"f refused at \d+: TooMany"),
    ("wide-value", "show f", PROGRAM, wide_value, 0, rb".*\};"),
    ("invariants", "show f", PROGRAM, many_invariants, 0, rb".*;"),
    ("handlers", "show f", PROGRAM, many_handlers, 0, rb"\}"),
    ("rising-hosts", "eval p f", NET, lambda size: counted(ALL_HOSTS, b"%d ", b"\npr 1\nend\n", size), 0, rb""),
    ("falling-hosts", "eval p f", NET, lambda size: counted(ALL_HOSTS, b"%d ", b"\npr 1\nend\n", size, falling), 0, rb""),
    ("scattered-hosts", "eval p f", NET, lambda size: counted(ALL_HOSTS, b"%d ", b"\npr 1\nend\n", size, scattered), 0, rb""),
    ("host-twice", "eval p f", NET, lambda size: counted(ALL_HOSTS, b"%d ", b"10000000\npr 1\nend\n", size), 3, rb"f refused line 3: Repeated"),
    ("few-tuples", "eval p f", NET, few_tuples, 0, rb"safety A true"),
    ("same-tuple", "eval p f", NET, lambda size: filled(b"vericon-net 1\nsw 1\nho 1\npr 1\nstate\n", b"t tr 1 1\n", b"end\n", size), 0, rb"safety A true"),
    ("pairs", "eval p f", NET, pairs, 0, rb"safety A true"),
    ("sent", "eval p f", NET, sent, 0, rb"safety A true"),
    ("net-lines", "eval p f", NET, lambda size: b"\n" * size, 3, rb"f refused line \d+: Header"),
    ("net-spaces", "eval p f", NET, lambda size: b" " * size, 3, rb"f refused line 2: Header"),
    ("net-word", "eval p f", NET, lambda size: b"x" * size, 3, rb"f refused line 1: Header"),
    ("net-number", "eval p f", NET, lambda size: filled(b"vericon-net 1\nsw ", b"9", b"", size), 3, rb"f refused line 2: Number"),
    ("packets", "trace q n f", JOURNAL, lambda size: filled(b"vericon-journal 1\n", b"packet 0 1 1 1 2 1\n", b"end\n", size), 0, rb"end"),
    ("joins", "trace q n f", JOURNAL, lambda size: filled(b"vericon-journal 1\n", b"join 0 1 1\n", b"end\n", size), 0, rb"end"),
    ("many-entries", "replay q n f 1 s", JOURNAL, lambda size: filled(b"vericon-journal 1\n", b"join 0 2 1\n", b"end\n", size), 3, rb"entry 4194305: full"),
    ("journal-lines", "trace q n f", JOURNAL, lambda size: b"\n" * size, 3, rb"f refused line \d+"),
    ("journal-word", "trace q n f", JOURNAL, lambda size: filled(b"vericon-journal 1\njoin 0 1 ", b"1", b"", size), 3, rb"f refused line 2"),
    ("long-clause", "clauses f", LOG, lambda size: counted(BLOCK + b"c ", b"%d ", b"0\nend\n", size), 0, rb"(b: model)?[ \d]*"),
    ("unit-clauses", "clauses f", LOG, lambda size: counted(BLOCK, b"c %d 0\n", b"end\n", size), 0, rb"(b: model)?[ \d]*"),
    ("empty-clauses", "clauses f", LOG, lambda size: filled(BLOCK, b"c 0\n", b"end\n", size), 0, rb"s 0 \d+ 0"),
    ("blocks", "clauses f", LOG, lambda size: filled(b"vericon-log 1\n", b"block b\natoms 0\nend\n", b"", size), 0, rb"b: model"),
    ("long-hints", "clauses f", LOG, lambda size: filled(BLOCK + b"c 1 0\ns 0", b" 1", b" 0\nend\n", size), 1, rb"b: not accepted"),
    ("many-steps", "clauses f", LOG, lambda size: filled(BLOCK + b"c 1 0\nc -1 0\n", b"s 2 0 1 2 0\n", b"s 0 1 2 0\nend\n", size), 0, rb"b: accepted"),
    ("log-lines", "clauses f", LOG, lambda size: b"\n" * size, 3, rb"f refused line \d+"),
    ("hellos", "frames f", NET, lambda size: hex_frames(HELLO, size), 0, rb"\d+ HELLO length 8 xid 1"),
    ("long-echoes", "frames f", NET, lambda size: long_frames(2, size), 0, rb"\d+ ECHO_REQUEST length 65535 xid 1"),
    ("flow-mods", "frames f", NET, flow_mods, 0, rb"\d+ FLOW_MOD length 64072 xid 0"),
    ("queues", "frames f", NET, queues, 0, rb"\d+ QUEUE_GET_CONFIG_REPLY length \d+ xid 0"),
    ("stream-hellos", "replay q n j 1 f", NET, lambda size: hex_frames(HELLO, size), 0, rb"end closed ignored \d+"),
    ("stream-echoes", "replay q n j 1 f", NET, lambda size: hex_frames("0102000800000001", size), 0, rb"end closed ignored 0"),
    ("stream-long-echoes", "replay q n j 1 f", NET, lambda size: long_frames(2, size), 0, rb"end closed ignored 0"),
]


def lay(path, build, size):
    """Writes a file, in a process of its own, whose memory doesn't count. The answer is its length."""
    process = os.fork()
    if process == 0:
        with open(path, "wb") as it:
            it.write(build(size))
        os._exit(0)
    os.waitpid(process, 0)
    return os.path.getsize(path)


def run(words, folder, calls):
    """The seconds, the memory at its peak in MB, the status and the last line."""
    taken = 0.0
    for _ in range(calls):
        with open(os.path.join(folder, "out"), "wb") as out:
            process = subprocess.Popen([VERICON, *words], cwd=folder, stdout=out)
            _, status, used = os.wait4(process.pid, 0)
            process.returncode = os.waitstatus_to_exitcode(status)
            taken += used.ru_utime + used.ru_stime
    with open(os.path.join(folder, "out"), "rb") as it:
        it.seek(max(0, os.path.getsize(it.name) - 200))
        end = it.read()
    return taken, used.ru_maxrss / 1024, process.returncode, end.rstrip(b"\n").split(b"\n")[-1]


def tell(case, part):
    name, words, limit, build, status, form = case
    figures, good = [], True
    with tempfile.TemporaryDirectory() as folder:
        for file, source in (("q", open(FIREWALL, "rb").read()), ("n", open(TWO, "rb").read()), ("j", ENTERED), ("p", NET_PROGRAM), ("s", b"")):
            with open(os.path.join(folder, file), "wb") as it:
                it.write(source)
        for size in (limit // 2 // part, limit // part):
            length = lay(os.path.join(folder, "f"), build, size)
            taken, memory, ended, line = run(words.split(), folder, 20 if limit == PROGRAM else 1)
            if part == 1 and (ended != status or not re.fullmatch(form, line)):
                good = False
                print(f"{name}: status {ended}, {line[:150]!r}", flush=True)
            figures.append((length, taken, memory))
    (half, first, small), (whole, second, large) = figures
    grows = second > 2.8 * first and second > 0.1 or large > 2.8 * small and large > 20
    print(f"{name}: {half:,} bytes {first:.3f} s {small:.0f} MB; {whole:,} bytes {second:.3f} s {large:.0f} MB{'; GROWS FASTER' if grows else ''}", flush=True)
    return good and not grows


def main():
    told = argparse.ArgumentParser()
    told.add_argument("--part", type=int, default=1)
    told.add_argument("names", nargs="*")
    told = told.parse_args()
    good = [tell(it, told.part) for it in FILES if not told.names or it[0] in told.names]
    sys.exit(0 if all(good) else 1)


main()
