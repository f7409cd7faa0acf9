"""`smbfs run` and `smbfs ping` over TCP: each row of crates/fs_rows/stdin that has a peer, with the program as it is built."""
import os
import subprocess
import sys
from concurrent.futures import ThreadPoolExecutor

import peers
import rows
import smb
from lanes import EVERY_BIT

PROGRAM = sys.argv[1]
SESSION, TREE, FILE = 0x1122334455667788, 0x99, bytes(range(1, 17))
failed = []


def fault(text):
    failed.append(text)
    peers.say("run", text)


def words_for(row, port):
    """The row's words, with this machine and port where they are to be taken."""
    if row.status == 1:
        return row.words
    return [row.words[0], "127.0.0.1", str(port), *row.words[3:]]


def judge(messages):
    """What is wrong with the requests of a run: their message ids, the session and the tree that they are in, their share and their file."""
    for number, data in enumerate(messages):
        command, tree, session = smb.command(data), int.from_bytes(data[36:40], "little"), int.from_bytes(data[40:48], "little")
        if smb.message_id(data) != number:
            yield f"message id {smb.message_id(data)} where {number} was free"
        if session != (0 if number < 2 else SESSION):
            yield f"session {session:x} in command {command}"
        if tree != (0 if command in (smb.NEGOTIATE, smb.SETUP, smb.TREE, smb.LOGOFF) else TREE):
            yield f"tree {tree:x} in command {command}"
        if command == smb.TREE and "\\\\127.0.0.1\\s".encode("utf-16-le") not in data:
            yield "another path of a share"
        if command in (smb.QUERY, smb.CLOSE) and (EVERY_BIT if smb.is_related(data) else FILE) not in data:
            yield "another file id"


def run(words, script, stdout=subprocess.PIPE):
    return subprocess.run([PROGRAM, *words], input=script, stdout=stdout, stderr=subprocess.PIPE, timeout=90)


def play(row, size, stdout=subprocess.PIPE):
    """What the program printed, its status, and the messages of each frame that it sent."""
    if row.refused:
        done, frames = run(words_for(row, peers.free_port()), row.script, stdout), []
    else:
        peer = rows.Peer(row, size)
        done = run(words_for(row, peer.port), row.script, stdout)
        frames = peer.end()
    return (done.returncode, done.stdout, done.stderr), [list(smb.parts(frame)) for frame in frames]


def expect(row):
    for size in row.pieces:
        found, frames = play(row, size)
        commands = [[smb.command(data) for data in messages] for messages in frames]
        if found != (row.status, row.printed, b""):
            fault(f"row {row.name} in pieces of {size}: {found} where {(row.status, row.printed)} was wanted")
        if row.sent is not None and commands != row.sent:
            fault(f"row {row.name} in pieces of {size}: the commands {commands} where {row.sent} were wanted")
        if row.words[:1] == ["run"]:
            for text in judge([data for messages in frames for data in messages]):
                fault(f"row {row.name} in pieces of {size}: {text}")


known = rows.read()
played = [row for row in known if row.is_for_tcp()]
with ThreadPoolExecutor(4) as pool:
    for done in [pool.submit(expect, row) for row in sorted(played, key=lambda row: 300 not in row.steps)]:
        done.result()
peers.say("run", f"{len(played)} rows of {len(known)} over TCP")

if os.path.exists("/dev/full"):
    with open("/dev/full", "wb") as full:
        found, _ = play(next(row for row in known if row.name == "five_stats"), 65536, full)
    if found != (8, None, b""):
        fault(f"an output that is full: {found}")
    peers.say("run", "an output that is full")

ROWS = os.path.join(os.path.dirname(rows.FILE), "out", "fs_rows")
# the lines of a bad row, and the number of the line that is wrong
BAD = [("word", 1), ("row a\nstrange", 2), ("row a\nwords ping\n\nstatus +1", 4), ("row", 1), ("row a\nrow a", 2), ("row a as b", 1),
       ("bytes b 0", 1), ("row a\ngot $b", 2), ("row a\nturns serve*x", 2), ("row a\nact 1 fly a", 2), ("row a\nhead 00", 2),
       ("row a\npeer\ngot 00000001 00\npatch 1 1 00", 4), ("row a\nbox room 1", 2), ("row a\nquiet 1 2", 2), ("row a\ncredits 65536", 2),
       ("row a\nserve 1*", 2), ("row a\nserve *2", 2), ("row a\nserve 1*100001", 2), ("row a\nsent 5+", 2), ("row a\nsent 5++6", 2),
       ("row a\nstory begin fly", 2), ("row a\npeer\nreply 5 4 0\njoin 1", 4), ("row a\npeer\nreply 5 4 0\njoin 2", 4),
       ("row a\npeer\nreply 5 4 0\nquiet\nreply 5 5 0\njoin 2", 6), ("row a\npeer\nreply 5 4 0\ngot 00000000\njoin 2", 5),
       ("row a\nbox room 1 credits 1\nreply 5 4 0\nreply 5 5 0\njoin 2", 5),
       ("row a\npeer\nreply 5 4 0\nreply 5 5 0\njoin 2\nreply 5 6 0\njoin 2", 7)]
if os.path.exists(ROWS):
    for text, number in BAD:
        done = subprocess.run([ROWS], input=text.encode(), capture_output=True, timeout=60)
        if (done.returncode, done.stdout) != (1, b"") or f"line {number}".encode() not in done.stderr:
            fault(f"the row {text!r}: {done}")
    peers.say("run", f"{len(BAD)} malformed rows")
else:
    peers.say("run", "the malformed rows' part is skipped, crates/fs_rows is not built")

peers.say("run", "failed" if failed else "all as it should be")
sys.exit(1 if failed else 0)
