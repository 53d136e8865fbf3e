#!/bin/sh
# Times `trace` of a learning switch over 200 hosts and 48 ports: 25,000, 50,000 and 100,000 packets from random hosts to
# random hosts, each host at one port. The time must grow linearly with the journal. The transition invariant that no packet
# vanishes looks at 1,920,000 packets each time (200 * 200 * 48); the last line says how long one look takes.
. "$(dirname "$0")/common.sh"
python3 - "$vericon" "$work" <<'PY'
import os, random, subprocess, sys, time
vericon, work = sys.argv[1:]
random.seed(1)
relation = "rel conn(SW, PR, HO);\n"
invariant = "trans no_black_hole: forall S:SW, A:HO, B:HO, I:PR. S.rcv_this(A->B, I) -> (exists O:PR. S.sent(A->B, I->O));\n"
handler = """pktIn(s, src->dst, i) {
  conn.insert(s, i, src);
  pick o:PR where conn(s, o, dst) { s.install(src->dst, i->o); s.forward(src->dst, i->o); } else { s.flood(src->dst, i); }
}
"""
hosts, ports = 200, 48
at = {host: random.randint(1, ports) for host in range(1, hosts + 1)}

def write(name, text):
    path = os.path.join(work, name)
    open(path, "w").write(text)
    return path

def seconds(program, count):
    lines = ["vericon-journal 1", "join 0 1 1"]
    for _ in range(count):
        source, destination = random.sample(range(1, hosts + 1), 2)
        lines.append(f"packet 0 1 1 {source} {destination} {at[source]}")
    journal = write("journal", "\n".join(lines) + "\nend\n")
    start = time.perf_counter()
    answer = subprocess.run([vericon, "trace", program, net, journal], stdout=subprocess.PIPE)
    taken = time.perf_counter() - start
    if answer.returncode not in (0, 1):
        sys.exit(f"status {answer.returncode}")
    said = answer.stdout.decode().split("\n")
    return taken, f"status {answer.returncode}, {sum(line.endswith(' ok') for line in said)} ok, {sum(line.startswith('sent ') for line in said)} sent"

net = write("net", "vericon-net 1\nsw 1\nho " + " ".join(map(str, at)) + "\npr " + " ".join(map(str, range(1, ports + 1))) + "\nend\n")
switch = write("switch", relation + handler)
for count in (25000, 50000, 100000):
    taken, said = seconds(switch, count)
    print(f"{count} packets: {taken:.2f} s, {taken / count * 1e6:.1f} us a packet ({said})")
watched = write("watched", relation + invariant + handler)
taken, said = seconds(watched, 10)
print(f"10 packets with the invariant: {taken / 10:.2f} s a look ({said})")
PY
