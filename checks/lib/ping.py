"""`smbfs ping` against real peers: what it printed must be what the peer was told to say."""
import os
import shutil
import socket
import struct
import subprocess
import sys
import tempfile
import threading
import time

import peers
from smb import frame, message

PROGRAM = sys.argv[1]
GUID = bytes(range(0xF0, 0x100))


def reply(length=0, buffer=b""):
    return struct.pack("<HHHH16sIIIIQQHHI", 65, 1, 0x0210, 0, GUID, 6, 1048576, 524288, 262144, 0, 0, 128, length, 0) + buffer


GOOD = 0, f"smb 0x0210 caps 6 transact 1048576 read 524288 write 262144 guid {GUID.hex()}\n"

# other answers are rows, which checks/run plays
CASES = [
    ("a reply", frame(message(body=reply())), GOOD),
    ("a reply with a token", frame(message(body=reply(length=5, buffer=b"token"))), GOOD),
    ("the end in mid-frame", frame(message(body=reply()))[:100], (6, "fault 6 cuts 1\n")),
]

HEAD = bytes.fromhex("00000066fe534d4240000000000000000000200000000000000000000000000000000000"
                     "0000000000000000000000000000000000000000000000000000000000000000"
                     "240001000100000000000000")
TAIL = bytes.fromhex("00000000000000001002")


def run(words, stdout=subprocess.PIPE):
    """The status, what was printed, and what came on standard error."""
    done = subprocess.run([PROGRAM, *words], stdin=subprocess.DEVNULL, stdout=stdout, stderr=subprocess.PIPE, timeout=60)
    return done.returncode, (done.stdout or b"").decode(), done.stderr


def ping(port):
    return run(["ping", "127.0.0.1", str(port)])


def answered(data, dribble):
    """What `ping` says to a server that sends these bytes once it has the request, and what the request was."""
    asked = []
    with socket.socket() as listener:
        listener.bind(("127.0.0.1", 0))
        listener.listen(1)

        def serve():
            peer, _ = listener.accept()
            with peer:
                peer.settimeout(30)
                peer.setsockopt(socket.IPPROTO_TCP, socket.TCP_NODELAY, 1)
                got = b""
                while len(got) < 106:
                    more = peer.recv(4096)
                    if not more:
                        break
                    got += more
                asked.append(got)
                try:
                    for at in range(0, len(data), 1 if dribble else len(data) or 1):
                        peer.sendall(data[at:at + (1 if dribble else len(data))])
                        if dribble:
                            time.sleep(0.0005)
                except OSError:
                    pass

        thread = threading.Thread(target=serve)
        thread.start()
        said = ping(listener.getsockname()[1])
        thread.join(60)
    return said, asked[0] if asked else b""


failed = 0


def expect(name, said, want):
    global failed
    if said[:2] != want or said[2]:
        failed += 1
        peers.say("ping", f"{name}: {said} where {want} was wanted")


seeds = set()
for name, data, want in CASES:
    for dribble in (False, True):
        said, asked = answered(data, dribble)
        expect(name, said, want)
        if asked[:80] != HEAD or asked[96:] != TAIL:
            failed += 1
            peers.say("ping", f"{name}: another request, {asked.hex()}")
        seeds.add(asked[80:96])
if len(seeds) != 2 * len(CASES):
    failed += 1
    peers.say("ping", "a client id came twice")
expect("a closed port", ping(peers.free_port()), (6, "fault 6 connects 1\n"))
peers.say("ping", f"{2 * len(CASES)} answers of a small responder, and a closed port")

WORDS = [[], [b"Ping", b"127.0.0.1", b"1"], [b"ping", b"\xff", b"1"], [b"ping", b"127.0.0.1", b"1", b"\xff"]]
for words in WORDS:
    expect(f"the words {words}", run(words), (1, "fault 1 words\n"))
peers.say("ping", f"{len(WORDS)} lists of other words")

if os.path.exists("/dev/full"):
    with open("/dev/full", "wb") as full:
        expect("an output that is full, with other words", run([], stdout=full), (8, ""))
        expect("an output that is full, with a closed port", run([b"ping", b"127.0.0.1", b"%d" % peers.free_port()], stdout=full), (8, ""))
    peers.say("ping", "an output that is full")

if shutil.which("smbd"):
    samba = peers.Samba(["smb2 max trans = 524288", "smb2 max read = 131072", "smb2 max write = 262144"])
    try:
        said = ping(samba.port)
        peers.say("ping", f"{peers.version('smbd', '--version')} said: {said[1].strip()}")
        words = said[1].split()
        if said[0] != 0 or words[:2] != ["smb", "0x0210"] or words[4:10] != ["transact", "524288", "read", "131072", "write", "262144"]:
            failed += 1
            peers.say("ping", f"Samba was told to say other numbers: {said}")
    finally:
        samba.end()
else:
    peers.say("ping", "Samba's part is skipped, no smbd")

EXAMPLE = "/usr/share/doc/python3-impacket/examples/smbserver.py"
server = shutil.which("impacket-smbserver") or shutil.which("smbserver.py") or (os.path.exists(EXAMPLE) and EXAMPLE)
if server:
    port = peers.free_port()
    with tempfile.TemporaryDirectory() as folder:
        process = subprocess.Popen(["/usr/bin/python3", server, "-smb2support", "-ip", "127.0.0.1", "-port", str(port), "share", folder],
                                   stdin=subprocess.DEVNULL, stdout=subprocess.DEVNULL, stderr=subprocess.DEVNULL)
        try:
            if peers.wait_for(port):
                expect("impacket's server, which knows 2.002 alone", ping(port), (4, "fault 4 mount dialect 0x0202\n"))
                peers.say("ping", "impacket's server answers dialect 0x0202, as it should")
            else:
                peers.say("ping", "impacket's part is skipped, its server did not start")
        finally:
            process.terminate()
            process.wait(20)
else:
    peers.say("ping", "impacket's part is skipped, no smbserver")

peers.say("ping", "failed" if failed else "all as it should be")
sys.exit(1 if failed else 0)
