"""What the formats and the commands say of inputs, for fuzz.py: worked inputs, and for each reader a function that gives None where an
answer is the one of docs/COMMANDS.md, docs/FORMATS.md and docs/OPENFLOW.md, and else what differs."""
import re
import struct

# ------------------------------------------------------------------ lines and words


def lines_of(data):
    lines = data.split(b"\n")
    if lines[-1] == b"":
        lines.pop()
    return lines


def words_of(line):
    """The words of a line, or None where it is passed over."""
    words = [it for it in line.split(b" ") if it]
    return None if not words or words[0].startswith(b"#") else words


NUMBER = re.compile(rb"(?:0|[1-9][0-9]*)\Z")


def number(word, below=1 << 64):
    """The number that a word is, or None."""
    if not NUMBER.match(word) or len(word) > 20:
        return None
    value = int(word)
    return value if value < below else None


def only(status, line):
    return lambda got, text: None if (got, text) == (status, line) else f"status {got}, {text[:200]!r}, not {status}, {line!r}"


# ------------------------------------------------------------------ programs

ARMED = b"rel armed(); safety A: not armed(); pktIn(s, src->dst, i) { skip; }"
FIREWALL = b"""rel tr(SW, HO);
safety guarded: forall S:SW, A:HO, B:HO. S.sent(A->B, prt(2)->prt(1)) -> tr(S, A);
pktIn(s, src->dst, prt(1)) {
  s.forward(src->dst, prt(1)->prt(2));
  tr.insert(s, dst);
  s.install(src->dst, prt(1)->prt(2));
}
pktIn(s, src->dst, prt(2)) {
  if tr(s, src) {
    s.forward(src->dst, prt(2)->prt(1));
    s.install(src->dst, prt(2)->prt(1));
  }
}
"""
LEARNING = b"""rel conn(SW, PR, HO);
topology two: not prt(1) = prt(2);
trans no_black_hole: forall S:SW, A:HO, B:HO, I:PR. S.rcv_this(A->B, I) -> (exists O:PR. S.sent(A->B, I->O));
pktIn(s, src->dst, i) {
  conn.insert(s, i, src);
  pick o:PR where conn(s, o, dst) { s.install(src->dst, i->o); s.forward(src->dst, i->o); } else { s.flood(src->dst, i); }
}
"""
PROGRAMS = [
    ARMED,
    FIREWALL,
    LEARNING,
    b"timeout 30; const a:HO; const b:HO; static link(SW, PR, HO); rel r(HO, HO) = {(a, b), (b, a)};\n// c\nsafety A: (r(a, b) <-> r(b, a)) or not (true and false -> a = b);",
    b"rel r(HO); safety one: forall X:HO, Y:HO. r(X) and r(Y) -> X = Y; pktIn(s, src->dst, i) { if not (exists Z:HO. r(Z)) { r.insert(src); s.uninstall(src->dst, i->i); } else { r.remove(src); } }",
]
PROGRAM_TOKENS = [
    it.encode()
    for it in "static const rel topology safety trans pktIn skip if else pick where insert remove install uninstall forward flood timeout ft sent rcv_this forall exists not and or true false prt SW HO PR <-> -> ( ) { } , ; : . = // a b r s src dst i X S A prt(1) prt(2) 0 1 65280 65281 not( ( p(){ } , -- < /".split()
] + [b" ", b"\n", b"x" * 64, b"x" * 65, b"(" * 63, b")" * 63, b"not " * 20, b"{ " * 30, b"\x80"]
PROGRAM_REFUSED = re.compile(rb"p refused at (0|[1-9]\d*): (BadByte|BadNumber|BadName|Unexpected|TooDeep|Duplicate|Unknown|WrongArity|WrongSort|NotAllowed|TooMany)\n\Z")
SHOWN = set()


def program_differs(given, status, text):
    if status == 0:
        if given in SHOWN:
            SHOWN.discard(given)
            return None if text == given else "what is shown is shown otherwise"
        return None if text.endswith(b"\n") and b"  \n" not in text else f"shown as {text[:200]!r}"
    found = PROGRAM_REFUSED.match(text)
    if given in SHOWN:
        return f"what is shown is refused: {text!r}"
    if status == 3 and found and int(found[1]) <= len(given):
        # the text in front of the place is no cause: what is refused there is refused whatever follows
        return None
    return f"status {status}, {text[:200]!r}"


def shown(answer):
    """What was shown, which is to be shown again as it is."""
    status, text = answer
    if status != 0 or len(text) > 4000:
        return None
    SHOWN.add(text)
    return text


# ------------------------------------------------------------------ networks

NET_PROGRAM = b"static link(SW, PR); const gate: HO; rel tr(SW, HO); rel armed(); topology T: forall S:SW. link(S, prt(1)); safety A: not armed(); trans B: forall S:SW, X:HO, Y:HO, I:PR. S.rcv_this(X->Y, I) -> tr(S, X);"
TWO = b"vericon-net 1\nsw 1\nho 1 2\npr 1 2\nend\n"
NETS = [
    b"vericon-net 1\nsw 1\nho 1 2\npr 1 2\nc gate 2\nend\n",
    b"vericon-net 1\nsw 1 7\nho 1 2 18446744073709551615\npr 1 2\nc gate 2\nt link 1 1\nt link 7 1\nstate\nt tr 1 1\nt armed\nft 1 1 2 1 2\nsent 1 1 2 1 2\npacket 1 1 2 1\nend\n",
    b"# a net\n\n vericon-net  1\nsw 1\nho 3 1 2\npr 2 1\nt link 1 2\nc gate 3\nstate\nt tr 1 2\nt tr 1 2\npacket 1 1 2 2\nend\n# over",
]
NET_LINES = [b"vericon-net 1", b"sw 1", b"ho 1 2", b"pr 1 2", b"c gate 1", b"t link 1 1", b"state", b"t tr 1 1", b"t armed", b"t", b"ft 1 1 2 1 2", b"sent 1 1 2 1 1", b"packet 1 1 2 1", b"end", b"sw", b"pr 2"]
STATICS = {b"link": ("sw", "pr")}
RELATIONS = {b"tr": ("sw", "ho"), b"armed": ()}
PACKETS = {b"ft": ("sw", "ho", "ho", "pr", "pr"), b"sent": ("sw", "ho", "ho", "pr", "pr"), b"packet": ("sw", "ho", "ho", "pr")}
SORT_LINES = [b"sw", b"ho", b"pr"]


class Net:
    """What was read of a network text, line by line."""

    def __init__(self):
        self.stage, self.sorts, self.gate, self.tuples, self.packet, self.has_state = 0, {}, None, set(), None, False

    def why(self, words):
        """The first reason for which a line is refused; None where it is taken."""
        first, rest = words[0], words[1:]
        if self.stage == 0:
            if words != [b"vericon-net", b"1"]:
                return "Header"
            self.stage = 1
            return None
        if self.stage in (1, 2, 3):
            return self.sort_line(first, rest)
        if self.stage == 7:
            return "Shape"
        if first == b"c" and self.stage == 4:
            return self.constant(rest)
        if first == b"t" and self.stage in (4, 5):
            if not rest:
                return "Shape"
            return self.row(rest[0], rest[1:], (STATICS if self.stage == 4 else RELATIONS).get(rest[0]))
        if first in (b"ft", b"sent") and self.stage == 5:
            return self.row(first, rest, PACKETS[first])
        if first == b"state" and self.stage == 4 and not rest:
            self.stage, self.has_state = 5, True
            return None
        if first == b"packet" and self.stage == 5 and len(rest) == 4:
            why = self.row(first, rest, PACKETS[first])
            if why is None:
                self.stage, self.packet = 6, tuple(map(int, rest))
            return why
        if first == b"end" and not rest:
            if self.gate is None:
                return "Missing"
            self.stage = 7
            return None
        return "Shape"

    def sort_line(self, first, rest):
        if first != SORT_LINES[self.stage - 1]:
            return "Shape"
        elements = [number(it) for it in rest]
        if None in elements:
            return "Number"
        if not elements:
            return "Empty"
        if len(set(elements)) < len(elements):
            return "Repeated"
        if first == b"pr" and 1 not in elements:
            return "NoPort"
        self.sorts[first.decode()] = set(elements)
        self.stage += 1
        return None

    def constant(self, rest):
        if len(rest) != 2 or (rest[0] == b"gate" and self.gate is not None):
            return "Shape"
        value = number(rest[1])
        if value is None:
            return "Number"
        if rest[0] != b"gate":
            return "Name"
        if value not in self.sorts["ho"]:
            return "Stranger"
        self.gate = value
        return None

    def row(self, name, rest, sorts):
        elements = [number(it) for it in rest]
        if None in elements:
            return "Number"
        if sorts is None:
            return "Name"
        if len(sorts) != len(elements):
            return "Arity"
        if any(it not in self.sorts[sort] for it, sort in zip(elements, sorts)):
            return "Stranger"
        self.tuples.add((name, *elements))
        return None


def net_differs(given, status, text):
    net = Net()
    lines = lines_of(given)
    for place, line in enumerate(lines):
        words = words_of(line)
        why = None if words is None else net.why(words)
        if why:
            return only(3, b"n refused line %d: %s\n" % (place + 1, why.encode()))(status, text)
    if net.stage != 7:
        why = b"Header" if net.stage == 0 else b"Missing"
        return only(3, b"n refused line %d: %s\n" % (len(lines) + 1, why))(status, text)
    said = b"topology T %s\n" % truth(all((b"link", s, 1) in net.tuples for s in net.sorts["sw"]))
    if net.has_state:
        said += b"safety A %s\n" % truth((b"armed",) not in net.tuples)
    if net.packet:
        said += b"trans B %s\n" % truth((b"tr", *net.packet[:2]) in net.tuples)
    return only(0, said)(status, text)


def truth(holds):
    return b"true" if holds else b"false"


# ------------------------------------------------------------------ journals

ENTERED = b"vericon-journal 1\njoin 0 1 1\npacket 0 1 1 1 2 1\nend\n"
JOURNALS = [
    ENTERED,
    b"vericon-journal 1\npacket 0 1 1 1 2 1\nflow 1 1 2 1 2\nend\n",
    b"\n# two\n vericon-journal 2 \njoin 0 1 1\npacket 0 1 1 2 1 2\npacket 0 1 1 1 2 1\n\npacket 0 1 1 2 1 2\nflow 1 2 1 2 1\nexpire 0 1 1 1 2 1 2\nend",
]
JOURNAL_LINES = [b"vericon-journal 1", b"vericon-journal 2", b"join 0 1 1", b"packet 0 1 1 1 2 1", b"packet 1 2 1 2 1 2", b"flow 1 1 2 1 2", b"flow 1 2 1 2 1", b"expire 0 1 1 1 2 1 0", b"end", b"join", b"packet 0 1 1 1 2 3"]
NOTES = {b"join": 3, b"packet": 6, b"expire": 7, b"flow": 5}


def note_of(words, version):
    """The note of a line; None where it is refused."""
    count = NOTES.get(words[0])
    if count is None or len(words) != 1 + count or (words[0] == b"expire" and version < 2):
        return None
    small = 0 if words[0] == b"flow" else 2
    numbers = [number(it, 1 << 32 if place < small else 1 << 64) for place, it in enumerate(words[1:])]
    return None if None in numbers else (words[0], *numbers)


def read_journal(data):
    """The notes of a journal, or the number of the line that is refused."""
    notes, version, is_over = [], 0, False
    lines = lines_of(data)
    for place, line in enumerate(lines):
        words = words_of(line)
        if words is None:
            continue
        if version == 0:
            if words not in ([b"vericon-journal", b"1"], [b"vericon-journal", b"2"]):
                return place + 1
            version = int(words[1])
        elif is_over:
            return place + 1
        elif words == [b"end"]:
            is_over = True
        else:
            note = note_of(words, version)
            if note is None:
                return place + 1
            notes.append(note)
    return notes if is_over else len(lines) + 1


class Firewall:
    """The firewall over one switch, two hosts and two ports."""

    def __init__(self):
        self.trusted, self.ft, self.sent = set(), set(), set()

    def knows(self, s, hosts, ports):
        return s == 1 and all(it in (1, 2) for it in hosts + ports)

    def packet(self, a, b, i):
        """The rule that the packet has then; whether it is let through."""
        out = 2 if i == 1 else 1
        if i == 1:
            self.trusted.add(b)
        elif a not in self.trusted:
            return False
        self.ft.add((1, a, b, i, out))
        self.sent.add((1, a, b, i, out))
        return True


def journal_differs(given, status, text):
    notes = read_journal(given)
    if isinstance(notes, int):
        return only(3, b"j refused line %d\n" % notes)(status, text)
    wall, said = Firewall(), b""
    for place, (kind, *it) in enumerate(notes):
        if kind == b"join":
            known = it[2] == 1
        elif kind == b"flow":
            known = wall.knows(it[0], it[1:3], it[3:])
            if known and tuple(it) not in wall.ft:
                return only(3, said + b"entry %d: not enabled\n" % (place + 1))(status, text)
            wall.sent.add(tuple(it))
        else:
            known = kind == b"packet" and wall.knows(it[2], it[3:5], it[5:])
            if known:
                wall.packet(*it[3:])
        if not known:
            return only(3, said + b"entry %d: stranger\n" % (place + 1))(status, text)
        said += b"%d ok\n" % (place + 1)
    said += b"vericon-net 1\nsw 1\nho 1 2\npr 1 2\nstate\n"
    said += b"".join(b"t tr 1 %d\n" % it for it in sorted(wall.trusted))
    for name, tuples in ((b"ft", wall.ft), (b"sent", wall.sent)):
        said += b"".join(b"%s %d %d %d %d %d\n" % (name, *it) for it in sorted(tuples))
    return only(0, said + b"end\n")(status, text)


# ------------------------------------------------------------------ clauses and logs

LOG = b"vericon-log 1\nblock b\natoms 2\nc 1 2 0\nc 1 -2 0\nc -1 2 0\nc -1 -2 0\ns 1 0 1 2 0\ns 0 5 3 4 0\nend\n"
LOGS = [
    LOG,
    b"vericon-log 1\nblock one\natoms 2\nc 1 2 0\nc 1 -2 0\nc -1 2 0\nend\nblock two words\natoms 2\nc 1 2 0\nc 1 -2 0\nc -1 2 0\nc -1 -2 0\nend\n",
    b"# log\n vericon-log 1\n\nblock  chain \natoms 6\nc -1 2 0\nc -2 3 0\nc -3 4 0\nc 1 5 6 0\nc -5 -6 0\nc -4 5 0\ns -1 3 0 1 2 0\ns -1 4 0 7 3 0\nend\nblock none\natoms 0\nend",
    b"vericon-log 1\nblock eight\natoms 8\nc 1 2 3 0\nc -1 4 0\nc -2 5 -6 0\nc -3 -4 7 0\nc 6 8 0\nc -7 -8 0\nc -5 -4 0\nc 1 -8 0\nend\n",
]
LOG_TOKENS = [b"\nblock x", b"\natoms 3", b"\nc 1 -2 0", b"\nc 0", b"\ns 1 0 1 2 0", b"\ns 0 1 0", b"\ns 0 5 3 4 0", b"\nend", b"\nc 3 0", b" -3 ", b" 4 ", b"9223372036854775807", b"9223372036854775808", b"4611686018427387903", b"4611686018427387904", b"-0", b"\nc -1 0"]


def literals_of(words, atoms):
    """The literals and the number of words read with the 0 behind them; None where they are none."""
    literals = []
    for place, word in enumerate(words):
        sign, digits = (-1, word[1:]) if word.startswith(b"-") else (1, word)
        value = number(digits)
        if value is None:
            return None
        if value == 0:
            return (literals, place + 1) if sign == 1 else None
        if value > atoms or any(abs(it) == value for it in literals):
            return None
        literals.append(sign * value)
    return None


def read_log(data):
    """The blocks of a log text, each a name, atoms, clauses and steps, or the number of the line that is refused."""
    blocks, began, block = [], False, None
    lines = lines_of(data)
    for place, line in enumerate(lines):
        words = words_of(line)
        if words is None:
            continue
        if not began:
            if words != [b"vericon-log", b"1"]:
                return place + 1
            began = True
        elif block is None:
            name = line.strip(b" ")[5:].strip(b" ")
            if words[0] != b"block" or not 1 <= len(name) <= 200 or any(not 0x20 <= it <= 0x7E for it in name):
                return place + 1
            block = [name, None, [], []]
        elif not log_line(block, words):
            return place + 1
        elif words == [b"end"]:
            blocks.append(block)
            block = None
    return blocks if began and block is None else len(lines) + 1


def log_line(block, words):
    """Whether a line stands in a block, which takes it."""
    atoms = block[1]
    if words[0] == b"atoms":
        value = number(words[1], 1 << 62) if len(words) == 2 else None
        if atoms is not None or value is None:
            return False
        block[1] = value
        return True
    if atoms is None:
        return False
    if words == [b"end"]:
        return True
    found = literals_of(words[1:], atoms) if words[0] in (b"c", b"s") else None
    if found is None:
        return False
    literals, used = found
    rest = words[1 + used :]
    if words[0] == b"c":
        block[2].append(literals)
        return not rest and not block[3]
    hints = [number(it, 1 << 63) for it in rest]
    if not hints or None in hints or hints[-1] != 0 or 0 in hints[:-1]:
        return False
    block[3].append((literals, hints[:-1]))
    return True


def is_refutation(clauses, steps):
    """Whether each step holds, and the last has no literal."""
    clauses = [list(it) for it in clauses]
    for literals, hints in steps:
        false = {-it for it in literals}        # the literals that are true
        for place, hint in enumerate(hints):
            if hint > len(clauses):
                return False
            left = [it for it in clauses[hint - 1] if -it not in false]
            if place + 1 == len(hints):
                if left:
                    return False
            elif len(left) != 1 or left[0] in false:
                return False
            else:
                false.add(left[0])
        if not hints:
            return False
        clauses.append(literals)
    return bool(steps) and not steps[-1][0]


MODEL = re.compile(rb"model((?: -?[1-9]\d*)*)\Z")


def log_differs(given, status, text):
    blocks = read_log(given)
    if isinstance(blocks, int):
        return only(3, b"f refused line %d\n" % blocks)(status, text)
    if not text.endswith(b"\n") and text:
        return f"no end of line: {text[-80:]!r}"
    lines = text.split(b"\n")[:-1]
    wanted = 0
    for name, _, clauses, steps in blocks:
        head = name + b": "
        if not lines or not lines[0].startswith(head):
            return f"block {name!r}: {lines[:1]!r}"
        said = lines.pop(0)[len(head) :]
        if steps:
            holds = is_refutation(clauses, steps)
            if said != (b"accepted" if holds else b"not accepted"):
                return f"block {name!r} is {said!r}"
            wanted = wanted if holds else 1
        elif said == b"refuted":
            logged = []
            while lines and lines[0].startswith(b"s "):
                logged.append(lines.pop(0))
            again = read_log(b"\n".join([b"vericon-log 1", b"block b", b"atoms %d" % (2**62 - 1), b"c 1 0", *logged, b"end"]))
            if isinstance(again, int) or not is_refutation(clauses, again[0][3]):
                return f"block {name!r}: no refutation: {logged[:3]!r}"
        else:
            found = MODEL.match(said)
            chosen = [int(it) for it in found[1].split()] if found else None
            named = sorted({abs(it) for clause in clauses for it in clause})
            if chosen is None or [abs(it) for it in chosen] != named or not all(set(clause) & set(chosen) for clause in clauses):
                return f"block {name!r}: no model: {said!r}"
    return None if not lines and status == wanted else f"status {status}, lines are left: {lines[:2]!r}"


# ------------------------------------------------------------------ OpenFlow messages

TYPES = "HELLO ERROR ECHO_REQUEST ECHO_REPLY VENDOR FEATURES_REQUEST FEATURES_REPLY GET_CONFIG_REQUEST GET_CONFIG_REPLY SET_CONFIG PACKET_IN FLOW_REMOVED PORT_STATUS PACKET_OUT FLOW_MOD PORT_MOD STATS_REQUEST STATS_REPLY BARRIER_REQUEST BARRIER_REPLY QUEUE_GET_CONFIG_REQUEST QUEUE_GET_CONFIG_REPLY".split()
EXACT = {5: 8, 7: 8, 8: 12, 9: 12, 11: 88, 12: 64, 15: 32, 18: 8, 19: 8, 20: 12}
LEAST = {0: 8, 1: 12, 2: 8, 3: 8, 4: 12, 6: 32, 10: 18, 13: 16, 14: 72, 16: 12, 17: 12, 21: 16}
ACTIONS = {0: 8, 1: 8, 2: 8, 3: 8, 4: 16, 5: 16, 6: 8, 7: 8, 8: 8, 9: 8, 10: 8, 11: 16}
STATS_ASKED = {0: 0, 1: 44, 2: 44, 3: 0, 4: 8, 5: 8}


def two(data, at):
    return int.from_bytes(data[at : at + 2], "big")


def actions_refused(frame, at, end):
    while at < end:
        if end - at < 4:
            return at, "BadAction"
        kind, size = two(frame, at), two(frame, at + 2)
        fits = size >= 8 and size % 8 == 0 if kind == 65535 else ACTIONS.get(kind) == size
        if not fits or size > end - at:
            return at, "BadAction"
        at += size
    return None


def entries_refused(frame):
    at = 12
    while at < len(frame):
        left = len(frame) - at
        if left < 88 or not 88 <= two(frame, at) <= left:
            return at, "BadStat"
        refused = actions_refused(frame, at + 88, at + two(frame, at))
        if refused:
            return refused
        at += two(frame, at)
    return None


def stats_refused(frame):
    kind, size, is_asked = two(frame, 8), len(frame) - 12, frame[1] == 16
    if kind == 65535:
        return None if size >= 4 else (12, "BadStat")
    if kind > 5:
        return 8, "BadStat"
    if kind == 1 and not is_asked:
        return entries_refused(frame)
    units = {0: 1056, 2: 24} if not is_asked else STATS_ASKED
    if kind in units:
        return None if size == units[kind] else (12, "BadStat")
    return None if size % {3: 64, 4: 104, 5: 32}[kind] == 0 else (12, "BadStat")


def queues_refused(frame):
    at = 16
    while at < len(frame):
        left = len(frame) - at
        size = two(frame, at + 4)
        if left < 8 or not 8 <= size <= left:
            return at, "BadProperty"
        end, inner = at + size, at + 8
        while inner < end:
            kind, length = two(frame, inner), two(frame, inner + 2)
            if end - inner < 8 or length < 8 or (kind == 1 and length != 16) or length > end - inner:
                return inner, "BadProperty"
            inner += length
        at = end
    return None


def body_refused(frame):
    """Where and why a whole frame with a good header is no message; None where it is one."""
    kind, size = frame[1], len(frame)
    if kind in EXACT and size != EXACT[kind] or kind in LEAST and size < LEAST[kind] or kind == 6 and (size - 32) % 48:
        return 2, "BadLength"
    if kind == 13:
        if two(frame, 14) > size - 16:
            return 14, "BadLength"
        return actions_refused(frame, 16, 16 + two(frame, 14))
    if kind == 14:
        return actions_refused(frame, 72, size)
    if kind in (16, 17):
        return stats_refused(frame)
    return queues_refused(frame) if kind == 21 else None


def next_frame(data, at):
    """What stands at a place: a whole message, a refusal with its place and reason, or a rest."""
    if len(data) - at < 8:
        return "cut", None
    version, kind, size = data[at], data[at + 1], two(data, at + 2)
    if version != 1 and kind != 0:
        return "refused", (at, "BadVersion")
    if kind > 21:
        return "refused", (at + 1, "BadType")
    if size < 8:
        return "refused", (at + 2, "BadLength")
    if size > len(data) - at:
        return "cut", None
    frame = data[at : at + size]
    refused = body_refused(frame)
    if refused:
        return "refused", (at + refused[0], refused[1])
    return "message", frame


def frames_differ(given, status, text):
    at, said = 0, []
    while at < len(given):
        what, it = next_frame(given, at)
        if what == "message":
            said.append("%d %s length %d xid %d\n" % (at, TYPES[it[1]], len(it), int.from_bytes(it[4:8], "big")))
            at += len(it)
            continue
        said.append("%d refused %s\n" % it if what == "refused" else "%d cut %d\n" % (at, len(given) - at))
        return only(3, "".join(said).encode())(status, text)
    return only(0, "".join(said).encode())(status, text)


def frame(kind, body=b"", xid=1, version=1):
    return struct.pack(">BBHI", version, kind, 8 + len(body), xid) + body


OUT = struct.pack(">HHHH", 0, 8, 2, 0)
ACTION = struct.pack(">HH", 4, 16) + bytes(12)
FRAMES = [
    frame(0) + frame(2, b"abcd", 9) + frame(1, bytes(4)) + frame(3) + frame(4, bytes(9)),
    frame(6, bytes(24 + 48)) + frame(10, bytes(30)) + frame(11, bytes(80)) + frame(12, bytes(56)),
    frame(13, bytes(6) + struct.pack(">H", 24) + OUT + ACTION + b"rest") + frame(14, bytes(64) + OUT + ACTION),
    frame(15, bytes(24)) + frame(18) + frame(19) + frame(20, bytes(4)) + frame(5) + frame(7) + frame(8, bytes(4)) + frame(9, bytes(4)),
    b"".join(frame(16, struct.pack(">HH", kind, 0) + bytes(size)) for kind, size in STATS_ASKED.items()),
    frame(17, struct.pack(">HH", 1, 0) + (struct.pack(">H", 112) + bytes(86) + OUT + ACTION) * 2) + frame(17, struct.pack(">HH", 2, 0) + bytes(24)),
    frame(17, struct.pack(">HH", 3, 0) + bytes(128)) + frame(17, struct.pack(">HH", 5, 0) + bytes(64)) + frame(17, struct.pack(">HH", 65535, 0) + bytes(7)),
    frame(21, bytes(8) + struct.pack(">IHH", 1, 36, 0) + struct.pack(">HH", 1, 16) + bytes(12) + struct.pack(">HH", 7, 12) + bytes(8)),
    frame(0, b"abc", 4294967295, 4),
]
FRAME_TOKENS = [frame(kind) for kind in range(23)] + [frame(2, bytes(4)), OUT, ACTION, b"\xff\xff", b"\xff\xff\x00\x08", b"\x00\x58", b"\x01", b"\x04", b"\x00\x00\x00\x08"]

# ------------------------------------------------------------------ sessions

STREAM = bytes.fromhex("01000008000000000106002000000002000000000000000100000100010000000000000000000fff010a00200000000000000005000e000100000000000000020000000000010800")
STREAMS = [
    STREAM,
    STREAM[:8] + frame(2, b"abcd", 7) + STREAM[8:40] + frame(10, bytes(12), 3) + frame(2, b"", 8) + STREAM[40:] + frame(3) + frame(18)[:0] + frame(19),
    STREAM[:40] + frame(11, bytes(80)) + frame(12, bytes(56)) + STREAM[40:] + frame(1, bytes(4)) + frame(8, bytes(4)) + frame(21, bytes(8)),
]
DELETE = struct.pack(">I", 0x003FFFFF) + bytes(36) + bytes(8) + bytes.fromhex("0003000000000000ffffffffffff0000")
RULE = bytes.fromhex("003ffff20001000000000001000000000002") + bytes(22) + bytes(8) + bytes.fromhex("0000000000008000ffffffffffff0000") + bytes.fromhex("0000000800020000")


class Session:
    """The firewall's side of a session whose entries are a join of switch 1 and the packet from host 1 to host 2 on port 1."""

    def __init__(self):
        self.out, self.xid, self.asks, self.ignored, self.phase = [], 0, 0, 0, 0

    def say(self, kind, body=b"", xid=None):
        if xid is None:
            self.xid = (self.xid + 1) % (1 << 32)
            xid = self.xid
        self.out.append(frame(kind, body, xid))

    def ask(self, entry):
        """Whether the next entry is this one."""
        entries = [("join", 1), ("packet", 1, 2, 1)]
        self.asks += 1
        return self.asks <= 2 and entries[self.asks - 1] == entry

    def join(self, s):
        if s != 1:
            return "unknown switch %d" % s
        if not self.ask(("join", s)):
            return "differs"
        self.phase = 2
        self.say(9, b"\0\0\xff\xff")
        self.say(14, DELETE)
        return None

    def packet(self, it):
        if len(it) < 30:
            self.ignored += 1
            return None
        b, a, i = int.from_bytes(it[18:24], "big"), int.from_bytes(it[24:30], "big"), two(it, 14)
        if self.s != 1 or a not in (1, 2) or b not in (1, 2) or i not in (1, 2):
            self.ignored += 1
            return None
        if not self.ask(("packet", a, b, i)):
            return "differs"
        self.say(14, RULE)
        buffer, rest = it[8:12], it[18:] if it[8:12] == b"\xff\xff\xff\xff" else b""
        if 24 + len(rest) <= 65535:
            self.say(13, buffer + b"\0\x01\0\x08" + bytes.fromhex("0000000800020000") + rest)
        return None

    def hear(self, it, at):
        """How the session ends at a message; None where it goes on."""
        kind = it[1]
        if kind == 0 and it[0] == 0:
            self.say(1, bytes(4))
            return "incompatible"
        if kind == 2:
            self.out.append(frame(3, it[8:], int.from_bytes(it[4:8], "big")))
        elif kind == 0 and self.phase == 0:
            self.phase = 1
            self.say(5)
        elif kind in (0, 1, 3, 4):
            self.ignored += 1
        elif kind == 6 and self.phase == 1:
            self.s = int.from_bytes(it[8:16], "big")
            return self.join(self.s)
        elif self.phase == 0 or kind not in (6, 8, 10, 11, 12, 17, 19, 21):
            return "out of turn %d" % at
        elif kind == 10 and self.phase == 2:
            return self.packet(it)
        else:
            self.ignored += 1
        return None

    def end_of(self, data):
        at = 0
        while at < len(data):
            what, it = next_frame(data, at)
            if what == "refused":
                return "wire %d %s" % it
            if what == "cut":
                break
            end = self.hear(it, at)
            if end:
                return end
            at += len(it)
        return "closed"


def stream_differs(given, status, text):
    session = Session()
    session.say(0)
    end = session.end_of(given)
    if end == "differs":
        return only(3, b"ask %d: differs\n" % session.asks)(status, text)
    if session.asks < 2:
        return only(3, b"ask %d: differs\n" % (session.asks + 1))(status, text)
    said = "".join("out %s\n" % it.hex() for it in session.out) + "end %s ignored %d\n" % (end, session.ignored)
    return only(0 if end == "closed" else 3, said.encode())(status, text)


# ------------------------------------------------------------------ words

CALLS = [
    b"check p",
    b"check --strengthen 0 --instances 100 --log l p",
    b"show p",
    b"eval p n",
    b"eval p n 0 1",
    b"conditions --strengthen 1 --instances 5 p",
    b"trace p n j",
    b"clauses log",
    b"frames s",
    b"replay p n j 1 s",
    b"make 2 m",
    b"run p n",
    b"run --workers 1 --sessions 1 --port 7000 --history 9 --strengthen 0 --instances 100 p n",
]
WORDS = [it.encode() for it in "check show eval conditions trace clauses frames replay make run p n j s log q --log --strengthen --instances --workers --sessions --port --history 0 1 2 9 10 01 60 61 64 65 65535 65536 1048576 1048577 4194304 4194305 4294967295 4294967296 9007199254740992 9007199254740993 -1 --".split()] + [b"", b" ", b"\xff", "é".encode(), b"--help"]
SIZES = {b"--strengthen": (0, 9), b"--instances": (1, 1 << 53)}
OPTIONS = {
    b"check": {**SIZES, b"--log": None},
    b"conditions": SIZES,
    b"run": {**SIZES, b"--workers": (1, 64), b"--sessions": (1, 1 << 20), b"--port": (1, 65535), b"--history": (1, 1 << 22)},
}
OPERANDS = {b"check": 1, b"show": 1, b"conditions": 1, b"trace": 3, b"clauses": 1, b"frames": 1, b"run": 2}


def is_form(words):
    """Whether words have a stated form."""
    try:
        for word in words:
            word.decode()
    except UnicodeDecodeError:
        return False
    if not words:
        return False
    command, rest = words[0], list(words[1:])
    options, seen = OPTIONS.get(command, {}), set()
    while rest and rest[0] in options:
        option = rest.pop(0)
        if option in seen or not rest:
            return False
        seen.add(option)
        bounds, value = options[option], rest.pop(0)
        if bounds and not (number(value) is not None and bounds[0] <= number(value) <= bounds[1]):
            return False
    if command in OPERANDS:
        return len(rest) == OPERANDS[command]
    if command == b"eval":
        return len(rest) == 2 or len(rest) == 4 and number(rest[2], 10) is not None and number(rest[3], 1 << 32) is not None
    if command == b"replay":
        return len(rest) == 5 and number(rest[3], 1 << 32) is not None
    return command == b"make" and len(rest) == 2 and number(rest[0], 61) not in (None, 0)


LAST = re.compile(
    rb"(yes level \d|end|no network|(safety|topology|trans) \w+ (true|false)|hypothesis \w+|goal \w+|\d+ \w.*|[^\n]+: (accepted|not accepted|model.*|refuted)|(out|s) .*"
    rb"|.* refused at \d+: \w+|.* refused line \d+(: \w+)?|.* refused: (TooLong|state|not servable)|entry \d+: (stranger|not enabled|full)|ask \d+: differs|end .* ignored \d+"
    rb"|missing .*|read fault .*|\}|.*;|unknown level .*|[^\n]* breaks \w+|listen fault|)\Z",
    re.S,
)


UNSERVED = re.compile(rb"yes level \d\nvericon-journal 1\nend\nlisten fault\n\Z")


def words_differ(given, status, text):
    if not is_form(given):
        return only(6, b"usage\n")(status, text)
    if text == b"usage\n":
        # `eval` of a condition, over a network without a state
        return None if status == 6 and given[0] == b"eval" and len(given) == 5 else f"usage, status {status}"
    # a name of a file may be any text
    last = text[:-1] if text.startswith((b"missing ", b"read fault ")) else text[:-1].split(b"\n")[-1]
    if not 0 <= status <= 9 or status in (6, 7) or not LAST.match(last) or text and not text.endswith(b"\n"):
        return f"status {status}, {text[-200:]!r}"
    if (status == 5) != (last.startswith(b"missing ") or last.startswith(b"read fault ")):
        return f"status {status}, {last!r}"
    # a program that is accepted finds its port taken (again.c); no other call listens
    if (status == 9) != (UNSERVED.match(text) is not None) or given[0] == b"run" and status == 0:
        return f"status {status}, {text[-200:]!r}"
    return None
