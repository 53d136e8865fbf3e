#!/usr/bin/env python3
"""refusals.py [--kind KIND].. [ROW..]: refuses each allocation of the built program in turn, and each of its opens, reads and writes, over worked
calls, and holds each answer against the whole one. Rows and kinds of refusals that aren't named are all.

A process of its own is forked at each call that is to be refused (refuse.c), so that no run begins anew. It goes on with the
refusal to its end:

  an allocation      status 7, and what was written is `memory` or a front of the whole output; or the whole output with its status, where
                     it was room that is asked for beforehand: std asks for it again when it is needed
  .. and all later   status 7, and `memory` or a front
  an open or a read  status 5, and `read fault NAME`
  a write            status 8, and a front of the whole output
  a write to memory  that finds none: as a write
  one byte alone     where a read or a write was to move more: the whole output, with its status

`run` serves one session over loopback, in a run of its own for each refusal, from the program's `listen` on: there the answer may also be a
session that ends by `memory`, `read fault` or `write fault`, with a front of the session's bytes and of the journal, or `listen fault`.

Prints a line for each call of the program and each kind of refusal, with the number of refusals and what they were answered by.
Ends with status 1 where one of them was answered otherwise.
"""
import argparse
import os
import re
import socket
import subprocess
import sys
import tempfile
import time

HERE = os.path.dirname(os.path.abspath(__file__))
VERICON = os.path.abspath(os.environ.get("VERICON", os.path.join(HERE, "../crates/vericon/out/vericon")))
TRIAL = os.path.abspath(os.environ.get("TRIAL", os.path.join(HERE, "../crates/refusal_trial/out/refusal_trial")))

ARMED = "rel armed(); safety A: not armed(); pktIn(s, src->dst, i) { skip; }"
FIREWALL = """rel tr(SW, HO);
safety guarded: forall S:SW, A:HO, B:HO. S.sent(A->B, prt(2)->prt(1)) -> tr(S, A);
pktIn(s, src->dst, prt(1)) {
  s.forward(src->dst, prt(1)->prt(2));
  tr.insert(s, dst);
  s.install(src->dst, prt(1)->prt(2));
}
pktIn(s, src->dst, prt(2)) {
  if tr(s, src) {
    s.forward(src->dst, prt(2)->prt(1));
    s.install(src->dst, prt(2)->prt(1));
  }
}
"""
OPEN_FIREWALL = FIREWALL.replace("  if tr(s, src) {\n", "").replace("  }\n}\n", "}\n")
TWO = "vericon-net 1\nsw 1\nho 1 2\npr 1 2\nend\n"
CLAUSES = "c 1 2 0\nc 1 -2 0\nc -1 2 0\nc -1 -2 0\n"
HELLO = "0100000800000000"
FEATURES = "0106002000000002000000000000000100000100010000000000000000000fff"
PACKET = "010a00200000000000000005000e000100000000000000020000000000010800"


def block(text):
    return f"vericon-log 1\nblock b\natoms 2\n{text}end\n"


def journal(*notes):
    return "".join(f"{line}\n" for line in ("vericon-journal 1", *notes, "end"))


STREAM = bytes.fromhex(HELLO + FEATURES + PACKET)
ENTERED = journal("join 0 1 1", "packet 0 1 1 1 2 1")
CHECK = ["check", "p"]
HIGHER = ["check", "--strengthen", "1", "p"]
TRACE = ["trace", "p", "n", "j"]
SOLVE = ["clauses", "p"]
REPLAY = ["replay", "p", "n", "j", "1", "s"]

# A name, the words, what the files p, n, j and s hold, the status, and how the output begins.
CALLS = [
    ("armed", CHECK, [ARMED], 0, "yes level 0\n"),
    ("firewall", CHECK, [FIREWALL], 1, "counterexample level 0 condition 3 step guarded pktFlow\n"),
    ("firewall-one", HIGHER, [FIREWALL], 0, "yes level 1\n"),
    ("open-firewall", HIGHER, [OPEN_FIREWALL], 1, "counterexample level 1 condition 2 init 1 guarded\n"),
    ("trace", TRACE, [FIREWALL, TWO, journal("packet 0 1 1 1 2 1", "flow 1 1 2 1 2")], 0, "1 ok\n2 ok\n"),
    ("not-enabled", TRACE, [FIREWALL, TWO, journal("flow 1 2 1 2 1")], 3, "entry 1: not enabled\n"),
    ("accepted", SOLVE, [block(CLAUSES + "s 1 0 1 2 0\ns 0 5 3 4 0\n")], 0, "b: accepted\n"),
    ("cut-log", SOLVE, [block(CLAUSES + "s 1 0 1 2 0\n")], 1, "b: not accepted\n"),
    ("refuted", SOLVE, [block(CLAUSES)], 0, "b: refuted\n"),
    ("model", SOLVE, [block("".join(CLAUSES.splitlines(True)[:3]))], 0, "b: model 1 2\n"),
    ("replay", REPLAY, [FIREWALL, TWO, ENTERED, STREAM], 0, "out 0100000800000001\n"),
    ("differs", REPLAY, [FIREWALL, TWO, journal("join 0 1 1"), STREAM], 3, "ask 2: differs\n"),
]

# Each kind of refusal, and the answers that may be given.
KINDS = [
    ("allocations", ("memory", "front", "whole")),
    ("memory", ("memory", "front")),
    ("calls", ("read-fault", "cut")),
    ("bytes", ("whole",)),
]


# The same, of the program refusal_trial: a session over a link in memory, and a check into a sink in memory. A write that finds no memory fails.
TRIALS = [
    ("link-in-memory", ["session"], [], 0, "01000008000000010105000800000002"),
    ("sink-in-memory", ["check"], [], 1, "counterexample level 0 condition 2 step one pktIn\n"),
]
TRIAL_KINDS = [
    ("allocations", ("memory", "front", "cut", "whole")),
    ("memory", ("memory", "front", "cut")),
]


def build(work):
    """The library that refuses."""
    library = os.path.join(work, "refuse.so")
    subprocess.run(["cc", "-O2", "-shared", "-fPIC", "-o", library, os.path.join(HERE, "refuse.c"), "-ldl"], check=True)
    return library


def refuse(library, program, folder, words, kind, status):
    """What a run says in which each call of this kind is refused."""
    given = {**os.environ, "LD_PRELOAD": library, "REFUSE": kind, "REFUSE_WHOLE": "whole", "REFUSE_STATUS": str(status)}
    ran = subprocess.run([program, *words], cwd=folder, env=given, stdout=subprocess.DEVNULL, stderr=subprocess.PIPE, text=True)
    lines = ran.stderr.splitlines()
    counts = dict(re.findall(r"(\S+)=(\d+)", lines[-1])) if lines else {}
    return lines[:-1], {name: int(count) for name, count in counts.items()}


def tell(library, call, program, kinds):
    """Prints the lines of a call. The answer says whether all was as it is to be."""
    name, words, files, status, begins = call
    good = True
    with tempfile.TemporaryDirectory() as folder:
        for file, held in zip("pnjs", files):
            with open(os.path.join(folder, file), "wb") as it:
                it.write(held if isinstance(held, bytes) else held.encode())
        ran = subprocess.run([program, *words], cwd=folder, stdout=subprocess.PIPE)
        if ran.returncode != status or not ran.stdout.startswith(begins.encode()):
            print(f"{name}: without a refusal status {ran.returncode}, {ran.stdout!r}")
            return False
        with open(os.path.join(folder, "whole"), "wb") as it:
            it.write(ran.stdout)
        for kind, answers in kinds:
            said, counts = refuse(library, program, folder, words, kind, status)
            told = sum(counts.get(answer, 0) for answer in answers)
            all_told = counts.get("same") == 1 and told == counts.get("refused")
            good = good and all_told
            parts = ", ".join(f"{answer} {count}" for answer, count in counts.items() if answer not in ("same", "refused") and (count or answer in answers))
            print(f"{name}: {' '.join(words)}: {kind}: {counts.get('refused')} refused: {parts}{'' if all_told else ', AND OTHERWISE'}", flush=True)
            for line in said[:5] if not all_told else []:
                print(f"    {line}")
    return good


KEPT = open(os.path.join(HERE, "../examples/firewall_kept.csdn")).read()
RUN = ["run", "--workers", "1", "--sessions", "1"]

# What a run over loopback may be answered by, of each kind of refusal: the status and how its one session ended.
RUN_ENDS = {
    "allocations": {(0, b"memory"), (0, b"write fault"), (7, b"")},
    "memory": {(0, b"memory"), (7, b"")},
    "calls": {(0, b"read fault"), (0, b"write fault"), (8, b""), (9, b"")},
    "bytes": set(),
}
SESSION_LINE = re.compile(rb"session 1 (.*) ignored 0\n")


def free_port():
    with socket.socket() as it:
        it.bind(("127.0.0.1", 0))
        return it.getsockname()[1]


def speak(port, process):
    """What the program says to a switch that sends its stream and closes; nothing where nobody listens any more."""
    while process.poll() is None:
        try:
            with socket.create_connection(("127.0.0.1", port), 300) as link:
                link.sendall(STREAM)
                link.shutdown(socket.SHUT_WR)
                heard = b""
                while part := link.recv(65536):
                    heard += part
                return heard
        except ConnectionRefusedError:
            time.sleep(0.002)
        except OSError:
            return None
    return b""


def serve(library, folder, kind, number):
    """A run whose call of this number is refused: its status, its output, what the switch heard, and how many calls there were."""
    port = free_port()
    given = {**os.environ, "LD_PRELOAD": library, "REFUSE": kind, "REFUSE_AT": str(number), "REFUSE_FROM": "listen"}
    process = subprocess.Popen([VERICON, *RUN, "--port", str(port), "p", "n"], cwd=folder, env=given, stdout=subprocess.PIPE, stderr=subprocess.PIPE)
    heard = speak(port, process)
    out, said = process.communicate(timeout=600)
    found = re.search(rb"calls=(\d+)", said)
    return process.returncode, out, heard, int(found[1]) if found else 0


def is_served(answer, whole, kind):
    """Whether a run is answered so that nothing is lost but by its cause."""
    status, out, heard, _ = answer
    wanted, text, said, _ = whole
    if heard is not None and not said.startswith(heard):
        return False
    if (status, out) == (wanted, text):
        return kind != "memory"
    front = text[: text.index(b"session 1 ")]
    found = SESSION_LINE.search(out)
    if found:
        # the journal is a front of the whole one
        entries = text[text.index(b"vericon-journal") : -len(b"end\n")]
        rest = out[found.end() :].removesuffix(b"listen fault\n" if status == 9 else b"")
        is_front = out.startswith(front) and rest.endswith(b"end\n") and entries.startswith(rest[:-4])
        return is_front and ((status, found[1]) in RUN_ENDS[kind] or (status, b"") in RUN_ENDS[kind] and found[1] == b"closed")
    # nobody was served
    told = front + b"vericon-journal 1\nend\n" + (b"listen fault\n" if status == 9 else b"")
    return (status, b"") in RUN_ENDS[kind] and (out == told or status != 9 and front.startswith(out))


def tell_run(library, kinds):
    good = True
    with tempfile.TemporaryDirectory() as folder:
        for file, held in (("p", KEPT), ("n", TWO)):
            with open(os.path.join(folder, file), "w") as it:
                it.write(held)
        for kind in kinds:
            whole = serve(library, folder, kind, 0)
            if whole[0] != 0 or len(whole[2]) != 204:
                print(f"run: without a refusal {whole}")
                return False
            counts = {}
            for number in range(1, whole[3] + 1):
                answer = serve(library, folder, kind, number)
                if is_served(answer, whole, kind):
                    end = SESSION_LINE.search(answer[1])
                    name = f"status {answer[0]} {end[1].decode() if end else 'no session'}"
                    counts[name] = counts.get(name, 0) + 1
                else:
                    good = False
                    print(f"run: {kind} {number}: {answer}")
            told = ", ".join(f"{name} {count}" for name, count in sorted(counts.items()))
            print(f"run: {' '.join(RUN)} p n: {kind}: {whole[3]} refused: {told}", flush=True)
    return good


def main():
    told = argparse.ArgumentParser()
    told.add_argument("--kind", action="append", choices=list(RUN_ENDS), default=[])
    told.add_argument("rows", nargs="*")
    told = told.parse_args()
    wanted = lambda name: not told.rows or name in told.rows
    kinds_of = lambda kinds: [it for it in kinds if not told.kind or it[0] in told.kind]
    with tempfile.TemporaryDirectory() as work:
        library = build(work)
        good = [tell(library, call, VERICON, kinds_of(KINDS)) for call in CALLS if wanted(call[0])]
        good += [tell(library, call, TRIAL, kinds_of(TRIAL_KINDS)) for call in TRIALS if wanted(call[0])]
        if wanted("run"):
            good.append(tell_run(library, [it for it in RUN_ENDS if not told.kind or it in told.kind]))
    sys.exit(0 if all(good) else 1)


main()
