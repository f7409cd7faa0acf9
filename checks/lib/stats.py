"""`smbfs run` against a Samba server. Each printed answer has two readers, and neither is the program: the folder that the server serves,
and the bytes of the server's reply, which a relay between the two keeps. Where the folder and the server differ (a directory's size and
links, the read-only mark) the reply decides, and a capture read by tshark has to say the same of it. A stat is three frames, or one frame of
three requests. Behind come the same answers over all lanes, and what many stats cost."""
import errno
import os
import shutil
import string
import struct
import subprocess
import sys
import tempfile
import xml.etree.ElementTree as xml

import lanes
import peers
import smb
import times

CHECK, PROGRAM = "stat", sys.argv[1]
CHARACTERS = string.ascii_letters + string.digits + "_-"
DEEP, DEEPEST = "/".join(f"level-{n}" for n in range(1, 21)), "x/" * 126 + "xy"
# path in the script: path in the folder
THERE = {
    "/": "", "/empty": "empty", "/one": "one", "/large": "large", "/links/x": "links/x", "/links/y": "links/y", "/links/z": "links/z",
    "/links": "links", "/hollow": "hollow", "//links//": "links", f"/{DEEP}": DEEP, f"/{DEEP}/file": f"{DEEP}/file",
    f"/{DEEPEST}": DEEPEST, "/" + 254 * "n": 254 * "n", f"/{CHARACTERS}": CHARACTERS, "/free": "free", "/guarded": "guarded",
    "/guarded-directory": "guarded-directory", "/marked": "marked", "/marked-directory": "marked-directory",
    **{f"/characters/{c}": f"characters/{c}" for c in CHARACTERS}}
# path in the script: the server's status (MS-ERREF 2.3.1). A name beneath a file has that of a name beneath nothing, as in docs/SHARE.md
REFUSED = {"/none": smb.MISSING, "/none/below": smb.NO_PATH, "/one/below": smb.NO_PATH, "/closed/below": smb.DENIED}
# the numbers of Linux for these statuses, as cifs.ko has them
ERRORS = {smb.MISSING: errno.ENOENT, smb.NO_PATH: errno.ENOENT, smb.DENIED: errno.EACCES}
NAMES = {**THERE, **{path: path[1:] for path in REFUSED}}
SCRIPT = "".join(f"0 stat {path}\n" for path in NAMES)
READ_ONLY = 1  # FILE_ATTRIBUTE_READONLY (MS-FSCC 2.6)

faults = []


def fault(text):
    faults.append(text)
    peers.say(CHECK, text)


def tell(text):
    """Says what was as it should be, where all was so far."""
    if not faults:
        peers.say(CHECK, text)


def fill(share):
    """Makes what the script asks for. Each file has a size of its own, as far as that can be."""
    for name in ("links", "hollow", DEEP, DEEPEST, "closed", "guarded-directory", "marked-directory", "characters"):
        os.makedirs(os.path.join(share, name))
    sizes = {"empty": 0, "one": 1, "large": 2**33 + 54321, "links/x": 77, f"{DEEP}/file": 1000, 254 * "n": 254, CHARACTERS: 64, "free": 3,
             "guarded": 4, "marked": 5, "closed/below": 6, **{f"characters/{c}": 100 + ord(c) for c in CHARACTERS}}
    for name, size in sizes.items():
        with open(os.path.join(share, name), "wb") as f:
            f.truncate(size)
    for name in ("links/y", "links/z"):
        os.link(os.path.join(share, "links/x"), os.path.join(share, name))
    for name, mode in (("free", 0o666), ("guarded", 0o444), ("guarded-directory", 0o555), ("marked", 0o666), ("marked-directory", 0o777),
                       ("closed", 0)):
        os.chmod(os.path.join(share, name), mode)


def run(port, share, script):
    done = subprocess.run([PROGRAM, "run", "127.0.0.1", str(port), share], input=script, capture_output=True, text=True, timeout=90)
    return done.returncode, done.stdout, done.stderr


def cut(data):
    """The messages of a stream, which has no more than these."""
    found = list(smb.frames(bytes(data)))
    if sum(4 + len(frame) for frame in found) != len(data):
        fault("a stream ends within a frame")
    return [part for frame in found for part in smb.parts(frame)]


class Run:
    """A run through a relay: what it came to, and each request with its reply. Where `folder` is given, a capture of it lies there."""

    def __init__(self, samba, share, script, folder=None, pause=0):
        relay, capture = peers.Relay(samba.port, pause), None
        self.port, self.file = relay.port, None
        if folder:
            capture = peers.Capture(self.port, folder)
            self.file = capture.file if capture.up else None
        relay.start()
        try:
            self.status, self.printed, self.complaint = run(relay.port, share, script)
        finally:
            relay.end()
            if capture:
                capture.end()
        self.requests, self.log = cut(relay.sent), relay.log
        replies = [part for part in cut(relay.got) if smb.status(part) != smb.PENDING]
        self.replies = {smb.message_id(part): part for part in replies}
        ids = [smb.message_id(part) for part in self.requests]
        if ids != list(range(len(ids))):
            fault(f"share {share}: the message ids are {ids}, and do not go up by one")
        answered, asked = ([(smb.message_id(part), smb.command(part)) for part in parts] for parts in (replies, self.requests))
        if sorted(answered) != asked:
            fault(f"share {share}: the replies are not one for each request")
        self.is_in_order = answered == asked
        self.is_chained = any(smb.command(part) == smb.CREATE and smb.following(part) != 0 for part in self.requests)


def information(reply):
    """What a QUERY_INFO reply (MS-SMB2 2.2.38) says of a file (MS-FSCC 2.4.2): attributes, size, links, directory, number."""
    at, length = struct.unpack_from("<HI", reply, 66)
    said = reply[at:at + length]
    attributes, = struct.unpack_from("<I", said, 32)
    size, links, _, directory = struct.unpack_from("<QIBB", said, 48)
    number, = struct.unpack_from("<Q", said, 64)
    return attributes, size, links, directory, number


def answer(attributes, size, links, directory, number):
    """The answer that this information stands for: without options the mode is 0755, less the bits for writing where it is read-only."""
    mode = 0o755 & (0o555 if attributes & READ_ONLY else 0o777)
    return f"stat {'dir' if directory else 'file'} {size} {mode:04o} {links} {number}"


def differs(line, path):
    """Whether the folder says something else of this path. The size and the links of a directory and the mode are not compared."""
    words, said = line.split(), os.stat(path)
    if os.path.isdir(path):
        return words[1:2] + words[5:] != ["dir", str(said.st_ino)]
    return words[1:3] + words[4:] != ["file", str(said.st_size), str(said.st_nlink), str(said.st_ino)]


def judge(samba, share, is_read_only, done):
    """Compares a run over the whole script with the server's replies and with the folder. `is_read_only` says by the manual page of the
    server, smb.conf(5), which names have to be read-only. The answers are given back, by their paths."""
    if faults:
        return None
    commands, refused = [smb.command(part) for part in done.requests], smb.STAT if done.is_chained else [smb.CREATE]
    if commands != smb.MOUNT + len(THERE) * smb.STAT + len(REFUSED) * refused + smb.BYE or not done.is_in_order:
        return fault(f"share {share}: {(done.status, done.printed[:200], done.complaint)}, commands {commands}")
    if done.is_chained and lanes.Flights(done.log, SCRIPT.splitlines()).early:
        fault(f"share {share}: a call began before the one before it was answered")
    wanted, at = {}, len(smb.MOUNT)
    for path, name in NAMES.items():
        request, reply = done.requests[at], done.replies[at]
        if done.is_chained and not lanes.is_chain(done.requests[at:at + 3]):
            fault(f"share {share}: the requests for {path} are no chain")
        if smb.created_name(request) != name.replace("/", "\\"):
            fault(f"share {share}: the CREATE for {path} has the name {smb.created_name(request)}")
        if smb.status(reply) != REFUSED.get(path, 0):
            return fault(f"share {share}: the CREATE for {path} has the status {smb.status(reply):08X}")
        if path in REFUSED:
            wanted[path] = f"err {ERRORS[REFUSED[path]]}"
            at += len(refused)
            continue
        query, said, close = done.requests[at + 1], done.replies[at + 1], done.requests[at + 2]
        file = lanes.EVERY_BIT if done.is_chained else reply[128:144]
        if tuple(query[66:68]) != (1, 18) or query[88:104] != file or close[72:88] != file:
            fault(f"share {share}: for {path} another class is asked for, or another file")
        if smb.status(said) != 0:
            return fault(f"share {share}: the QUERY_INFO for {path} has the status {smb.status(said):08X}")
        found = information(said)
        wanted[path] = answer(*found)
        if differs(wanted[path], os.path.join(samba.share, name)):
            fault(f"share {share}: of {path} the server says {wanted[path]}, and the folder {os.stat(os.path.join(samba.share, name))}")
        if (found[0] & READ_ONLY != 0) != is_read_only(name):
            fault(f"share {share}: {path} has the attributes {found[0]:08X}")
        at += 3
    lines = [f"{number} {text}" for number, text in enumerate(wanted.values(), 1)]
    for got, want in zip(done.printed.splitlines(), lines):
        if got != want:
            fault(f"share {share}: {got!r} was printed where {want!r} was wanted")
    if (done.status, done.printed, done.complaint) != (0, "\n".join(lines) + "\n", ""):
        fault(f"share {share}: status {done.status}, {len(done.printed)} bytes printed, {done.complaint!r}")
    return wanted


def tshark(file, port, only, *fields):
    """The fields of each frame that tshark shows, as lists of texts."""
    words = [word for field in fields for word in ("-e", field)]
    done = subprocess.run(["tshark", "-n", "-r", file, "-d", f"tcp.port=={port},nbss", "-Y", only, "-T", "fields", *words],
                          capture_output=True, text=True, timeout=120)
    if done.returncode != 0:
        fault(f"tshark ended with status {done.returncode}: {done.stderr.strip()[-200:]}")
    return [line.split("\t") for line in done.stdout.splitlines()]


def messages(file, port):
    """What tshark shows of each message: the first text of each field, by its name."""
    done = subprocess.run(["tshark", "-n", "-r", file, "-d", f"tcp.port=={port},nbss", "-Y", "smb2", "-T", "pdml"], capture_output=True,
                          timeout=120)
    found = []
    for part in xml.fromstring(done.stdout).iter("proto"):
        if part.get("name") == "smb2":
            found.append(dict(reversed([(field.get("name"), field.get("show")) for field in part.iter("field")])))
    return found


def number_in(text):
    return {"False": 0, "True": 1}[text] if text in ("False", "True") else int(text, 0)


def bad_frames(file, port):
    """The frames that are malformed, and those of which tshark has an error to tell; of the program's own frames also a warning. Not
    among them is Samba's security blob in the reply to NEGOTIATE: its negHints (MS-SPNG 2.2.1) tshark reads as a mechListMIC of RFC 4178."""
    error, warning = 0x800000, 0x600000
    only = f"_ws.malformed || _ws.expert.severity >= {error} || (tcp.dstport == {port} && _ws.expert.severity >= {warning})"
    found = tshark(file, port, only, "frame.number", "tcp.srcport", "smb2.cmd", "_ws.expert.message")
    return [each for each in found if each[1:3] != [str(port), str(smb.NEGOTIATE)] or not each[3].startswith("BER Error: OctetString expected")]


def packets(file, port, *sent):
    """Writes a capture with one packet for each of these frames, sent to this port: raw IPv4, with no checksums."""
    with open(file, "wb") as f:
        f.write(struct.pack("<IHHiIII", 0xA1B2C3D4, 2, 4, 0, 0, 65535, 101))
        at = 1
        for data in sent:
            tcp = struct.pack(">HHIIBBHHH", 40000, port, at, 1, 0x50, 0x18, 65535, 0, 0) + data
            ip = struct.pack(">BBHHHBBH4s4s", 0x45, 0, 20 + len(tcp), 0, 0, 64, 6, 0, bytes([127, 0, 0, 1]), bytes([127, 0, 0, 1])) + tcp
            f.write(struct.pack("<IIII", 0, 0, len(ip), len(ip)) + ip)
            at += len(data)


def judge_capture(done, folder):
    """What tshark says of a run over the whole script, beside what was read here."""
    found = messages(done.file, done.port)
    read = [tuple(number_in(each[f"smb2.{name}"]) for name in ("cmd", "msg_id")) for each in found if not number_in(each["smb2.flags.response"])]
    replies = [each for each in found if number_in(each["smb2.flags.response"])]
    calls, there = len(NAMES), len(THERE)
    asked = calls if done.is_chained else there
    wanted = {smb.NEGOTIATE: 1, smb.SETUP: 2, smb.TREE: 1, smb.CREATE: calls, smb.QUERY: asked, smb.CLOSE: asked, smb.LEAVE: 1, smb.LOGOFF: 1}
    counted = {kind: [each for each, _ in read].count(kind) for kind in {each for each, _ in read}}
    if counted != wanted:
        fault(f"tshark saw {counted} requests of each command, where {wanted} were sent")
    if [number for _, number in read] != list(range(sum(wanted.values()))) or \
            [tuple(number_in(each[f"smb2.{name}"]) for name in ("cmd", "msg_id")) for each in replies] != read:
        fault("tshark saw message ids that do not go up by one, or other replies")
    fields = ("file_attribute", "eof", "nlinks", "is_directory", "file_id")
    told = [tuple(number_in(each[f"smb2.{name}"]) for name in fields) for each in replies
            if number_in(each["smb2.cmd"]) == smb.QUERY and number_in(each["smb2.nt_status"]) == 0]
    if told != [information(reply) for _, reply in sorted(done.replies.items()) if smb.command(reply) == smb.QUERY and smb.status(reply) == 0]:
        fault("tshark reads something else of a file in the replies to QUERY_INFO")
    for bad in bad_frames(done.file, done.port):
        fault(f"tshark finds a bad frame: {bad}")
    # the filter finds something where there is something to find: a CREATE request whose name is cut off
    create = next(part for part in done.requests if smb.command(part) == smb.CREATE and smb.created_name(part))
    create = create[:20] + bytes(4) + create[24:]
    file = os.path.join(folder, "broken")
    packets(file, done.port, smb.frame(create))
    good = bad_frames(file, done.port)
    packets(file, done.port, smb.frame(create[:100]))
    if good or not bad_frames(file, done.port):
        fault(f"tshark finds {good} in a good frame, or nothing in a broken one")
    return sum(wanted.values())


def number_of_lanes(samba, line):
    """How many lanes the program has: 16, or 1 where it refuses the line of another one."""
    said = run(samba.port, "share", "1 stat /one\n")
    if said == (2, "fault 2 line 1\n", ""):
        peers.say(CHECK, "the lanes' part is skipped, the program has one lane")
        return 1
    if said != (0, f"1 {line}\n", ""):
        fault(f"a line of lane 1: {said}")
    return lanes.LANES


def judge_lanes(samba, answers):
    """Compares a run over all lanes with the answers of one lane. The replies are held back a little, so that all lanes are under way."""
    lines = lanes.script(NAMES)
    done = Run(samba, "share", "\n".join(lines), pause=lanes.PAUSE)
    for text in lanes.faults(done, lines, NAMES, answers):
        fault(f"{lanes.LANES} lanes: {text}")
    tell(f"{len(done.printed.splitlines())} answers over {lanes.LANES} lanes are those of one lane, each where it may come")
    said = run(samba.port, "share", "16 stat /one\n")
    if said != (2, "fault 2 line 1\n", ""):
        fault(f"a line of lane 16: {said}")


def measure(samba, number, line, folder):
    """What many stats cost, in one lane and in all."""
    raw = times.built(folder)
    if not raw:
        peers.say(CHECK, "the raw client's part is skipped, no cc")
    if not shutil.which("smbclient"):
        peers.say(CHECK, "smbclient's part is skipped, there is none")
    wrong = times.race(PROGRAM, raw, samba, number, line)
    for each in sorted({1, number}):
        times.system_calls(PROGRAM, samba, each, folder)
    wrong = wrong or times.memory(PROGRAM, samba, number, line)
    if wrong:
        fault(wrong)


def keeps_attributes(share):
    """Whether the file system has extended attributes, where Samba keeps the read-only mark."""
    try:
        os.setxattr(os.path.join(share, "hollow"), "user.smbfs", b"1")
        return True
    except OSError:
        return False


def main(folder):
    os.umask(0o022)
    # two shares of one folder: in the first Samba keeps the read-only mark in an extended attribute, and does not take it from the mode;
    # in the second it is set where the owner may not write
    samba = peers.Samba(share_options=["[mapped]", "copy = share", "store dos attributes = no", "map readonly = yes"])
    try:
        if not samba.up:
            peers.say(CHECK, "skipped, smbd does not start")
            sys.exit(0)
        fill(samba.share)
        marked = ()
        if not shutil.which("smbclient") or not keeps_attributes(samba.share):
            peers.say(CHECK, "the read-only mark's part is skipped, no smbclient, or no extended attributes in the file system")
        else:
            for name in ("marked", "marked-directory"):
                if os.geteuid() == 0:
                    shutil.chown(os.path.join(samba.share, name), "nobody")
            done = subprocess.run(peers.smbclient(samba.port, "setmode marked +r; setmode marked-directory +r", samba.folder),
                                  stdin=subprocess.DEVNULL, capture_output=True, text=True, timeout=60)
            marked = ("marked", "marked-directory")
            if done.returncode != 0 or done.stderr:
                fault(f"smbclient's setmode: {done.stdout}{done.stderr}")
        done = Run(samba, "share", SCRIPT, folder if shutil.which("tshark") else None)
        answers = judge(samba, "share", lambda name: name in marked, done)
        if faults:
            return
        judge(samba, "mapped", lambda name: name in ("guarded", "guarded-directory"), Run(samba, "mapped", SCRIPT))
        tell(f"{peers.version('smbd', '--version')}: {len(THERE) + len(REFUSED)} answers from each of two shares are those of its replies and of "
             f"its folder; {len(marked)} names are read-only in the first, 2 in the second")
        if done.file:
            number = judge_capture(done, folder)
            tell(f"{' '.join(peers.version('tshark', '--version').split()[:3])}: {number} requests and as many replies, none malformed")
        else:
            peers.say(CHECK, "tshark's part is skipped, there is none, or it may not capture")
        for share, script, want in [("none", "0 stat /\n", (4, "fault 4 mount tree C00000CC\n", "")),
                                    ("share", "# a path that does not begin with a slash\n0 stat one\n", (2, "fault 2 line 2\n", ""))]:
            said = run(samba.port, share, script)
            if said != want:
                fault(f"share {share}: {said} where {want} was wanted")
        number = number_of_lanes(samba, answers["/one"])
        if number > 1:
            judge_lanes(samba, answers)
        if not faults:
            measure(samba, number, answers["/one"], folder)
    finally:
        if os.path.exists(os.path.join(samba.share, "closed")):
            os.chmod(os.path.join(samba.share, "closed"), 0o700)
        samba.end()


with tempfile.TemporaryDirectory(prefix="smbfs-stat-") as room:
    main(room)
peers.say(CHECK, "failed" if faults else "all as it should be")
sys.exit(1 if faults else 0)
