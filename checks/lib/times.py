"""What `smbfs run` costs, for many stats of one file at a Samba server: its time beside that of a raw client in C and of smbclient, its
processor time, its system calls, and its memory."""
import os
import resource
import shutil
import statistics
import subprocess
import threading
import time

import peers
import smb

CHECK = "stat"
STATS, ROUNDS, LANES = 2000, 5, 16
# lines of a short run and of a long one, and what may grow from the one to the other: the memory by so many KiB, which is less than six bytes
# a line, and the processor's time for a line so many times
FEW, MANY, GROWTH, SLOWER = 1000, 100000, 512, 2
LONGEST = 300  # seconds, of any run
RAW = os.path.join(os.path.dirname(os.path.abspath(__file__)), "raw_stat.c")


def script(number, lanes):
    return "".join(f"{n % lanes} stat /one\n" for n in range(number))


def in_lanes(lanes):
    return "in one lane" if lanes == 1 else f"in {lanes} lanes"


def is_answered(printed, number, line):
    """Whether each line of such a script has this answer, in whichever order."""
    found = sorted(printed.splitlines(), key=lambda text: int(text.split()[0]) if text.split()[:1] and text.split()[0].isdigit() else 0)
    return found == [f"{n} {line}" for n in range(1, number + 1)]


def built(folder):
    """The raw client, built, or None where there is no C compiler."""
    if not shutil.which("cc"):
        return None
    to = os.path.join(folder, "raw_stat")
    done = subprocess.run(["cc", "-std=c11", "-D_DEFAULT_SOURCE", "-O2", "-o", to, RAW], capture_output=True, timeout=120)
    return to if done.returncode == 0 else None


def processor():
    """The seconds of a processor that the processes took which are ended."""
    used = resource.getrusage(resource.RUSAGE_CHILDREN)
    return used.ru_utime + used.ru_stime


class Client:
    """One that is timed: its name, its words, what it reads, and whether what it printed is right. `took` are the seconds of each run,
    `used` those of a processor."""

    def __init__(self, name, words, reads, is_right):
        self.name, self.words, self.reads, self.is_right, self.took, self.used = name, words, reads, is_right, [], []

    def run(self):
        """Runs it once more; what it came to, where that is wrong."""
        before, begin = processor(), time.monotonic()
        done = subprocess.run(self.words, input=self.reads, capture_output=True, text=True, timeout=LONGEST)
        self.took.append(time.monotonic() - begin)
        self.used.append(processor() - before)
        if done.returncode != 0 or not self.is_right(done.stdout):
            return f"{self.name}: status {done.returncode}, {done.stdout[:200]!r}, {done.stderr[:200]!r}"
        return None

    def median(self):
        return statistics.median(self.took)

    def told(self):
        used = statistics.median(self.used) / STATS * 1e6
        return f"{self.name} {self.median():.2f} s ({min(self.took):.2f} to {max(self.took):.2f}), {used:.0f} µs of a processor for each"


def ours(program, port):
    return [program, "run", "127.0.0.1", str(port), "share"]


def clients(program, raw, samba, lanes, line):
    """Those that are timed, by a word for each, in the order of their turns."""
    def smbfs(name, lanes):
        return Client(name, ours(program, samba.port), script(STATS, lanes), lambda printed: is_answered(printed, STATS, line))

    def raw_client(name, flight):
        return Client(name, [raw, "127.0.0.1", str(samba.port), "share", "one", str(STATS), flight], "", lambda printed: float(printed) > 0)

    found = {"one": smbfs(f"smbfs {in_lanes(1)}", 1)}
    if raw:
        found["apart"] = raw_client("the raw client with three frames apart", "apart")
        found["raw one"] = raw_client("the raw client with 1 chain in flight", "1")
    if lanes > 1:
        found["lanes"] = smbfs(f"smbfs {in_lanes(lanes)}", lanes)
    if raw:
        found["raw lanes"] = raw_client(f"the raw client with {LANES} chains in flight", str(LANES))
    if shutil.which("smbclient"):
        found["smbclient"] = Client("smbclient's allinfo", peers.smbclient(samba.port, ";".join(STATS * ["allinfo one"]), samba.folder), "",
                                    lambda printed: printed.count("stream: [::$DATA], 1 bytes\n") == STATS)
    return found


def race(program, raw, samba, lanes, line):
    """Times 2,000 stats of each client, with their mounts and their ends, in turns. What is wrong is given back."""
    found = clients(program, raw, samba, lanes, line)
    for _ in range(ROUNDS):
        for client in found.values():
            wrong = client.run()
            if wrong:
                return wrong
    peers.say(CHECK, f"{STATS} stats, medians of {ROUNDS} runs: " + "; ".join(client.told() for client in found.values()))
    for one, other in (("one", "apart"), ("one", "raw one"), ("lanes", "raw lanes"), ("smbclient", "one"), ("smbclient", "lanes")):
        if one in found and other in found:
            ratio = found[one].median() / found[other].median()
            peers.say(CHECK, f"{found[one].name} takes {ratio:.2f} times as long as {found[other].name}")
    if "smbclient" in found:
        peers.say(CHECK, f"an allinfo is {requests_of_smbclient(samba):g} requests, a stat 3")
    return None


def requests_of_smbclient(samba):
    """How many requests smbclient sends for an `allinfo`."""
    counts = []
    for number in (1, 11):
        relay = peers.Relay(samba.port)
        relay.start()
        try:
            subprocess.run(peers.smbclient(relay.port, ";".join(number * ["allinfo one"]), samba.folder), stdin=subprocess.DEVNULL,
                           capture_output=True, timeout=60)
        finally:
            relay.end()
        counts.append(sum(len(list(smb.parts(frame))) for frame in smb.frames(bytes(relay.sent))))
    return (counts[1] - counts[0]) / 10


def calls_of(words, reads, folder):
    """How often a run makes each system call, or None where strace tells nothing of it."""
    file = os.path.join(folder, "calls")
    done = subprocess.run(["strace", "-f", "-c", "-o", file, *words], input=reads, capture_output=True, text=True, timeout=LONGEST)
    if done.returncode != 0 or not os.path.exists(file):
        return None
    with open(file) as f:
        rows = [line.split() for line in f]
    return {row[-1]: int(row[3]) for row in rows if len(row) in (5, 6) and row[3].isdigit() and row[-1] != "total"}


def system_calls(program, samba, lanes, folder):
    """Says how many system calls a stat makes: the difference of a run over 1,100 and one over 100."""
    if not shutil.which("strace"):
        return peers.say(CHECK, "the system calls' part is skipped, no strace")
    few, more = (calls_of(ours(program, samba.port), script(number, lanes), folder) for number in (100, 1100))
    if not few or not more:
        return peers.say(CHECK, "the system calls' part is skipped, strace may not trace")
    each = {name: (more[name] - few.get(name, 0)) / 1000 for name in more}
    told = ", ".join(f"{name} {each[name]:.2f}" for name in sorted(each, key=each.get, reverse=True) if each[name] >= 0.005)
    return peers.say(CHECK, f"a stat {in_lanes(lanes)} makes {sum(each.values()):.2f} system calls: {told}")


class Long:
    """A run over so many lines. When they are answered, and before its end, the memory is looked at: the most that the process had (VmHWM),
    in KiB. A last line makes it answer all before: `wait`, or, where there is one lane, one more stat. `each` is the time from an answer to
    the next one, and `used` the processor's time for a line."""

    def __init__(self, program, samba, lanes, number):
        self.number, self.printed, self.times, self.peak = number, bytearray(), [], None
        self.answers = number if lanes > 1 else number + 1
        text = script(self.answers, lanes) + ("wait\n" if lanes > 1 else "")
        self.answered, before = threading.Event(), processor()
        with subprocess.Popen(ours(program, samba.port), stdin=subprocess.PIPE, stdout=subprocess.PIPE) as process:
            watch = threading.Timer(LONGEST, process.kill)
            watch.start()
            writer = threading.Thread(target=self.write, args=(process.stdin, text))
            writer.start()
            self.read(process)
            self.answered.set()
            self.printed += process.stdout.read()
            writer.join()
            self.status = process.wait()
            watch.cancel()
        self.used = (processor() - before) / number
        self.each = (self.times[-1] - self.times[0]) / (number - 1) if len(self.times) > 1 else 0

    def write(self, to, text):
        try:
            to.write(text.encode())
            to.flush()
            self.answered.wait(LONGEST)
            to.close()
        except OSError:
            pass

    def read(self, process):
        lines = 0
        while lines < self.number:
            data = os.read(process.stdout.fileno(), 65536)
            if not data:
                return
            self.printed += data
            lines += data.count(b"\n")
            self.times.append(time.monotonic())
        with open(f"/proc/{process.pid}/status") as f:
            self.peak = next((int(line.split()[1]) for line in f if line.startswith("VmHWM:")), None)

    def wrong(self, line):
        if self.status == 0 and self.peak and is_answered(self.printed.decode(), self.answers, line):
            return None
        return f"{self.number} lines: status {self.status}, {bytes(self.printed[-200:])!r}, a peak of {self.peak}"


def memory(program, samba, lanes, line):
    """Says what 100,000 lines take beside 1,000. What is wrong is given back."""
    few, many = (Long(program, samba, lanes, number) for number in (FEW, MANY))
    wrong = few.wrong(line) or many.wrong(line)
    if wrong:
        return wrong
    peers.say(CHECK, f"{MANY} lines beside {FEW}, {in_lanes(lanes)}: at most {many.peak} and {few.peak} KiB of memory, {many.each * 1e6:.0f} "
              f"and {few.each * 1e6:.0f} µs a line, {many.used * 1e6:.0f} and {few.used * 1e6:.0f} µs of a processor")
    if many.used > SLOWER * few.used:
        return f"a line takes the processor {many.used / few.used:.1f} times as long"
    return f"the memory grows from {few.peak} to {many.peak} KiB" if many.peak > few.peak + GROWTH else None
