# What bench/run.sh does: `run.py FOLDER VERICON PROGRAM OPTIONS`.
import argparse, collections, os, shutil, socket, subprocess, sys, time

words = argparse.ArgumentParser()
words.add_argument("work")
words.add_argument("vericon")
words.add_argument("program")
words.add_argument("--seconds", type=float, default=3)
words.add_argument("--window", type=int, default=16)
words.add_argument("--rounds", type=int, default=3)
words.add_argument("--sessions", type=int, nargs="+", default=[1, 8, 64])
words.add_argument("--entries", type=int, default=0)
asked = words.parse_args()

HOSTS = 16
VANISHING = 8
# as many switches as ovs-testcontroller serves
MOST_BESIDE = 16

Sent = collections.namedtuple("Sent", "rate p50 p99 cost packets seconds memory")


def network():
    """64 switches and those that vanish, and four ports, of which the program names two."""
    name = os.path.join(asked.work, "net")
    with open(name, "w") as out:
        out.write("vericon-net 1\n")
        for sort, count in (("sw", 64 + VANISHING), ("ho", HOSTS), ("pr", 4)):
            out.write(" ".join([sort, *map(str, range(1, count + 1))]) + "\n")
        out.write("end\n")
    return name


def free_port():
    with socket.socket() as taken:
        taken.bind(("127.0.0.1", 0))
        return taken.getsockname()[1]


def send(port, sessions, unit, amount, vanishing):
    """What the sender says: sent, answered, seconds, p50, p99."""
    command = [os.path.join(asked.work, "sender"), port, sessions, asked.window, HOSTS, unit, amount, vanishing]
    told = subprocess.run(list(map(str, command)), capture_output=True, text=True)
    if told.returncode:
        raise RuntimeError(told.stderr.strip())
    said = told.stdout.split()
    return {said[k]: float(said[k + 1]) for k in range(0, len(said), 2)}


def ended(child, stop):
    """The status and the usage of a child, which is told to stop, or ends by itself within a minute."""
    if stop:
        child.terminate()
    for _ in range(6000):
        pid, status, usage = os.wait4(child.pid, os.WNOHANG)
        if pid:
            child.returncode = os.waitstatus_to_exitcode(status)
            return child.returncode, usage
        time.sleep(0.01)
    child.kill()
    child.wait()
    raise RuntimeError("it doesn't end")


def result(said, usage):
    seconds, answered = said["seconds"], said["answered"]
    cost = (usage.ru_utime + usage.ru_stime) / answered * 1e6
    return Sent(answered / seconds, said["p50"], said["p99"], cost, int(said["sent"]), seconds, usage.ru_maxrss)


def check(lines, sessions, vanishing, sent):
    """Whether `run` printed what it was sent: a line for each session, and a journal of all packets."""
    if not lines[0].startswith("yes level "):
        raise RuntimeError(f"it printed {lines[0]}")
    begin = lines.index("vericon-journal 1")
    notes = [line.split() for line in lines[begin + 1:-1]]
    switch_of = {note[2]: int(note[3]) for note in notes if note[0] == "join"}
    packets = collections.Counter(note[2] for note in notes if note[0] == "packet")
    if len(switch_of) != sessions + vanishing or begin - 1 != sessions + vanishing:
        raise RuntimeError(f"{len(switch_of)} sessions joined, and {begin - 1} have a line")
    for line in lines[1:begin]:
        _, number, *end = line.split()
        gone = switch_of[number] > sessions
        if " ".join(end) != "closed ignored 0" and not (gone and end[0] in ("closed", "read", "write")):
            raise RuntimeError(f"{'gone, ' if gone else ''}{line}")
        if gone and packets[number] != 3:
            raise RuntimeError(f"session {number} sent 3 packets, of which {packets[number]} are in the journal")
    if packets.total() != sent + 3 * vanishing:
        raise RuntimeError(f"{sent + 3 * vanishing} packets were sent, and {packets.total()} are in the journal")


def ours(net, sessions, unit, amount, vanishing=0):
    port = free_port()
    told = os.path.join(asked.work, "told")
    count = sessions + vanishing
    command = [asked.vericon, "run", "--workers", min(count, 64), "--sessions", count, "--port", port, asked.program, net]
    with open(told, "w") as out:
        child = subprocess.Popen(list(map(str, command)), stdout=out)
        try:
            said = send(port, sessions, unit, amount, vanishing)
        except RuntimeError:
            child.kill()
            raise
        status, usage = ended(child, False)
    if status:
        raise RuntimeError(f"status {status}")
    check(open(told).read().splitlines(), sessions, vanishing, int(said["sent"]))
    return result(said, usage)


def theirs(sessions, unit, amount):
    port = free_port()
    command = ["ovs-testcontroller", f"--unixctl={asked.work}/control", f"ptcp:{port}:127.0.0.1"]
    child = subprocess.Popen(command, stderr=subprocess.DEVNULL)
    try:
        said = send(port, sessions, unit, amount, 0)
    finally:
        _, usage = ended(child, True)
    return result(said, usage)


def told(sent):
    return f"{sent.rate:,.0f} packets/s, p50 {sent.p50:,.0f} us, p99 {sent.p99:,.0f} us, {sent.cost:.1f} us of a processor each"


def main():
    net = network()
    beside = shutil.which("ovs-testcontroller") is not None
    if not beside:
        print("ovs-testcontroller is not installed")
    slow = False
    for sessions in asked.sessions:
        rows, others = [], []
        for _ in range(asked.rounds):
            rows.append(ours(net, sessions, "seconds", asked.seconds))
            if beside and sessions <= MOST_BESIDE:
                others.append(theirs(sessions, "seconds", asked.seconds))
        best = max(rows)
        print(f"sessions {sessions}: {told(best)}", end="")
        if others:
            other = max(others)
            slow = slow or best.rate <= other.rate
            print(f"; ovs-testcontroller {told(other)}; ratio {best.rate / other.rate:.2f}{'' if best.rate > other.rate else ', too few'}", end="")
        print(flush=True)
    sent = ours(net, 8, "seconds", asked.seconds, VANISHING)
    print(f"sessions 8, and {VANISHING} that vanish in the middle of a frame: {told(sent)}; every packet is in the journal", flush=True)
    if asked.entries:
        sent = ours(net, 8, "packets", asked.entries - 8)
        print(f"sessions 8, {sent.packets + 8:,} entries: {told(sent)}; {sent.seconds:.1f} s, {sent.memory / 1024:,.0f} MiB", flush=True)
    return slow


try:
    sys.exit(main())
except RuntimeError as why:
    sys.exit(str(why))
