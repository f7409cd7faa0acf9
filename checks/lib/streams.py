"""The program started with its standard streams closed, each set of them, against a small server of this machine: nothing but requests may
come there, and a closed stream is one that cannot be read or written."""
import itertools
import os
import subprocess
import sys

import peers
from server import Server
from smb import BYE, LEAVE, MOUNT, NEGOTIATE, STAT, TREE

CHECK, PROGRAM = "streams", sys.argv[1]
INPUT, OUTPUT, ERROR = range(3)
PING = "smb 0x0210 caps 7 transact 1048576 read 1048576 write 1048576 guid " + 32 * "0" + "\n"
SCRIPT, ANSWER = b"0 stat /a\n", "1 stat file 5 0755 1 2\n"


def close(streams):
    for number in streams:
        os.close(number)


def started(words, closed, **how):
    """The status, what was printed, and the server, of a start with these streams closed."""
    server = Server(**how)
    with subprocess.Popen([PROGRAM, words[0], "127.0.0.1", str(server.port), *words[1:]], stdin=subprocess.PIPE, stdout=subprocess.PIPE,
                          stderr=subprocess.PIPE, preexec_fn=lambda: close(closed)) as process:
        said, errors = process.communicate(SCRIPT, timeout=90)
    server.end()
    return process.returncode, said.decode(), errors, server


def wanted(words, closed):
    """The status, the output and the commands of such a start."""
    if words == ["ping"]:
        return (8, "", [NEGOTIATE]) if OUTPUT in closed else (0, PING, [NEGOTIATE])
    if INPUT in closed:
        return (8, "", MOUNT + BYE) if OUTPUT in closed else (7, "fault 7 source\n", MOUNT + BYE)
    return (8, "", MOUNT + STAT) if OUTPUT in closed else (0, ANSWER, MOUNT + STAT + BYE)


failed = 0


def expect(words, closed, want, **how):
    global failed
    status, said, errors, server = started(words, closed, **how)
    if (status, said, server.commands) != want or errors or server.rest or server.faults:
        failed += 1
        peers.say(CHECK, f"{words[0]} with {closed} closed: {status}, {said!r}, {errors}; where {want} was wanted; "
                         f"commands {server.commands}, {server.rest}, {server.faults}")


starts = [(words, closed) for words in (["ping"], ["run", "public"]) for number in (1, 2, 3)
          for closed in itertools.combinations((INPUT, OUTPUT, ERROR), number)]
for words, closed in starts:
    expect(words, closed, wanted(words, closed))
# a line that the server sends is no line of the script, but a frame that begins wrong
expect(["run", "public"], (INPUT,), (5, "fault 5 frame 5 length\n", MOUNT + [LEAVE]), behind={TREE: SCRIPT})
peers.say(CHECK, "failed" if failed else f"{len(starts) + 1} starts, all as it should be")
sys.exit(1 if failed else 0)
