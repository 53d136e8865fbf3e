#!/bin/sh
# Times `frames` on files of OpenFlow messages, against reading the file once (`wc -c` and `cat`): echoes of mixed sizes;
# FEATURES_REPLY, PACKET_IN and FLOW_REMOVED; and all types mixed. The time must grow linearly with the file. Where they are
# installed, `ovs-ofctl ofp-parse` reads the file of all types too, message by message, and tshark the same bytes as the
# payload of one TCP stream; of its segments tshark takes only some messages apart, so its time stands beside their number.
. "$(dirname "$0")/common.sh"
python3 - "$work" <<'PY'
import random, struct, sys
work = sys.argv[1]
random.seed(1)
def frame(kind, xid, body):
    return struct.pack(">BBHI", 1, kind, 8 + len(body), xid & 0xffffffff) + body
def some(*sizes):
    return random.randbytes(random.choice(sizes))
def output(port):
    return struct.pack(">HHHH", 0, 8, port, 128)
def actions():
    return b"".join(output(n) for n in range(random.choice([0, 1, 4]))) + struct.pack(">HH", 4, 16) + some(12)
def flow_entry():
    rest = actions()
    return struct.pack(">H", 88 + len(rest)) + some(86) + rest
def packet_out():
    rest = actions()
    return some(6) + struct.pack(">H", len(rest)) + rest + some(0, 64, 1400)
def queue():
    rate = struct.pack(">HH", 1, 16) + some(12)
    return some(4) + struct.pack(">H", 8 + len(rate)) + some(2) + rate
def request():
    kind, size = random.choice([(0, 0), (1, 44), (2, 44), (3, 0), (4, 8), (5, 8), (65535, 20)])
    return struct.pack(">HH", kind, 0) + some(size)
def reply():
    kind, body = random.choice([
        (0, some(1056)), (1, b"".join(flow_entry() for _ in range(20))), (2, some(24)), (3, some(64, 640)),
        (4, some(104, 1040)), (5, some(32, 320)), (65535, some(40)),
    ])
    return struct.pack(">HH", kind, 0) + body
bodies = {
    0: lambda: some(0, 8), 1: lambda: some(4, 68), 2: lambda: some(0, 4, 64, 1400), 3: lambda: some(0, 4, 64, 1400),
    4: lambda: some(4, 40), 5: lambda: b"", 6: lambda: some(24 + 48 * random.choice([0, 4, 24])), 7: lambda: b"",
    8: lambda: some(4), 9: lambda: some(4), 10: lambda: some(10, 74, 1410), 11: lambda: some(80), 12: lambda: some(56),
    13: packet_out, 14: lambda: some(64) + actions(), 15: lambda: some(24), 16: request, 17: reply, 18: lambda: b"",
    19: lambda: b"", 20: lambda: some(4), 21: lambda: some(8) + queue() + queue(),
}
def write(name, size, kinds):
    out = bytearray()
    xid = 0
    # no file is longer than its size: `frames` reads at most 16,777,216 bytes
    while True:
        kind = random.choice(kinds)
        more = frame(kind, xid, bodies[kind]())
        if len(out) + len(more) > size:
            break
        out += more
        xid += 1
    open(f"{work}/{name}", "wb").write(out)
    return out
for mib in (4, 8, 16):
    write(f"echoes-{mib}", mib * 1048576, [2, 3])
    write(f"switch-{mib}", mib * 1048576, [6, 10, 11])
    mixed = write(f"mixed-{mib}", mib * 1048576, list(range(22)))
# the last as a capture of one TCP stream to port 6653
with open(f"{work}/mixed.pcap", "wb") as pcap:
    pcap.write(struct.pack("<IHHiIII", 0xa1b2c3d4, 2, 4, 0, 0, 65535, 1))
    for at in range(0, len(mixed), 1400):
        part = bytes(mixed[at:at + 1400])
        tcp = struct.pack(">HHIIBBHHH", 40000, 6653, at, 1, 0x50, 0x18, 65535, 0, 0)
        ip = struct.pack(">BBHHHBBHII", 0x45, 0, 40 + len(part), 0, 0, 64, 6, 0, 0x0a000001, 0x0a000002)
        packet = bytes(12) + b"\x08\x00" + ip + tcp + part
        pcap.write(struct.pack("<IIII", at // 1400, 0, len(packet), len(packet)) + packet)
PY
for name in echoes switch mixed; do
    for mib in 4 8 16; do
        ours=$(seconds "$vericon" frames "$work/$name-$mib")
        count=$(seconds wc -c "$work/$name-$mib")
        copy=$(seconds cat "$work/$name-$mib")
        echo "$name, $mib MiB: $ours s, wc $count s (ratio $(ratio "$ours" "$count")), cat $copy s (ratio $(ratio "$ours" "$copy"))"
    done
done
messages=$("$vericon" frames "$work/mixed-16" | wc -l)
if command -v ovs-ofctl >/dev/null; then
    theirs=$(seconds ovs-ofctl ofp-parse "$work/mixed-16")
    echo "mixed, 16 MiB, $messages messages: ovs-ofctl $theirs s, ours $ours s (ratio $(ratio "$theirs" "$ours"))"
else
    echo 'ovs-ofctl is not installed'
fi
if command -v tshark >/dev/null; then
    theirs=$(seconds tshark -r "$work/mixed.pcap" -T fields -e openflow_1_0.type)
    named=$(tshark -r "$work/mixed.pcap" -T fields -e openflow_1_0.type 2>/dev/null | tr ',' '\n' | grep -c .)
    echo "mixed, 16 MiB: tshark $theirs s, and names the types of $named messages of $messages"
else
    echo 'tshark is not installed'
fi
