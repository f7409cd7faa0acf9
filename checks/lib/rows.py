"""The rows of crates/fs_rows/stdin, for a peer over TCP. docs/ROWS.md has their form."""
import os
import socket
import struct
import threading

import smb

HERE = os.path.dirname(os.path.abspath(__file__))
FILE = os.path.join(HERE, "..", "..", "crates", "fs_rows", "stdin")
REPLY, INTERIM, PENDING = 1, 3, 0x103
# the id of a message that answers no request, and the seconds of a moment
NOTICE, MOMENT = 2**64 - 1, 0.2
# what a row says of a run with another side, and of an outside that fails
OTHERS = {"box", "mount", "says", "turns", "serve", "act", "connect", "receive", "over", "send", "ask", "request", "story", "clock", "fail-read", "fail-write"}
EXPECTED = {">", "status", "sent", "connects", "frame", "marks"}


class Row:
    """What a row gives to the program, what its peer does, and what has to come of it."""

    def __init__(self, name):
        self.name, self.words, self.script, self.refused, self.steps = name, None, b"", 0, []
        self.pieces, self.head, self.others = [65536], bytes(64), set()
        self.printed, self.status, self.sent, self.connects = b"", None, None, None

    def given(self, word, rest, names):
        if word == "words":
            self.words = rest.split()
        elif word == "word":
            self.words.append(rest)
        elif word == "letters":
            self.words[-1] += names.bytes(rest).decode()
        elif word == "no-script":
            self.script = b""
        elif word == "script":
            self.script += rest.encode() + b"\n"
        elif word == "text":
            self.script += rest.encode()
        elif word == "repeat":
            times, _, text = rest.partition(" ")
            self.script += int(times) * text.encode()
        elif word == "input":
            self.script += names.bytes(rest)
        elif word == "pieces":
            self.pieces = [int(size) for size in rest.split()]
        elif word == "peer":
            self.steps, self.refused = [], 0
        elif word == "refuse":
            self.refused = int(rest)
        else:
            self.comes(word, rest, names)

    def comes(self, word, rest, names):
        if word == "head":
            self.head = names.bytes(rest)
        elif word == "credits":
            self.head = self.head[:14] + struct.pack("<H", int(rest)) + self.head[16:]
        elif word == "got":
            self.steps.append(names.bytes(rest))
        elif word == "reply":
            command, mid, status, body = (rest.split(" ", 3) + [""])[:4]
            self.reply(int(command), int(mid), int(status, 16), REPLY, names.bytes(body))
        elif word == "interim":
            command, mid, body = (rest.split(" ", 2) + [""])[:3]
            self.reply(int(command), int(mid), PENDING, INTERIM, names.bytes(body))
        elif word == "quiet":
            self.steps.append(int(rest or 1))
        elif word == "cut":
            self.steps.append(None)
        elif word == "patch":
            number, place, patch = rest.split(" ", 2)
            self.patch(int(number), int(place), names.bytes(patch))
        elif word == "join":
            self.join(int(rest))
        else:
            self.others.add(word)

    def reply(self, command, mid, status, flags, body):
        head = bytearray(self.head)
        head[8:14] = struct.pack("<IH", status, command)
        head[16] = flags
        head[24:32] = struct.pack("<Q", mid)
        self.steps.append(struct.pack(">I", 64 + len(body)) + head + body)

    def patch(self, number, place, patch):
        frames = [at for at, step in enumerate(self.steps) if isinstance(step, bytes)]
        at = frames[number - 1]
        frame = bytearray(self.steps[at])
        frame[4 + place:4 + place + len(patch)] = patch
        self.steps[at] = bytes(frame)

    def join(self, many):
        """Makes one frame of the last ones: each message but the last is filled up to a multiple of eight, and says where the next begins."""
        self.steps, frames = self.steps[:-many], self.steps[-many:]
        whole = b""
        for frame in frames[:-1]:
            message = frame[4:] + bytes(-(len(frame) - 4) % 8)
            whole += message[:20] + struct.pack("<I", len(message)) + message[24:]
        self.steps.append(smb.frame(whole + frames[-1][4:]))

    def wanted(self, word, rest):
        if word == ">":
            self.printed += rest.encode() + b"\n"
        elif word == "status":
            self.status = int(rest)
        elif word == "sent":
            self.sent = [[int(command) for command in frame.split("+")] for frame in rest.split()]
        elif word == "connects":
            self.connects = int(rest)

    def is_for_tcp(self):
        """A row of a run with a peer, which waits for no time or for the end of the client's patience. What nothing listens to refuses each
        connect."""
        waits = [step for step in self.steps if isinstance(step, int)]
        return (self.words is not None and not self.others and (not waits or (waits == [300] and self.steps[-1] == 300))
                and (self.refused == 0 or self.refused == self.connects))


class Names(dict):
    """Bytes by their names."""

    def bytes(self, words):
        out = b""
        for word in words.split():
            if word.startswith("$"):
                name, colon, front = word[1:].partition(":")
                out += self[name][:int(front)] if colon else self[name]
            else:
                digits, _, times = word.partition("*")
                out += bytes.fromhex(digits) * int(times or 1)
        return out


def read():
    """All rows."""
    names, rows, givens = Names(), [], {}
    with open(FILE, encoding="ascii") as file:
        lines = [line.removesuffix("\n") for line in file]
    for line in lines:
        word, _, rest = line.partition(" ")
        if not line or line.startswith("#"):
            continue
        if word == "bytes":
            name, _, pieces = rest.partition(" ")
            names[name] = names.bytes(pieces)
        elif word == "more":
            names[name] += names.bytes(rest)
        elif word == "row":
            row, _, other = rest.partition(" as ")
            rows.append(Row(row))
            givens[row] = []
            for again in givens[other] if other else []:
                rows[-1].given(*again, names)
        elif word in EXPECTED:
            rows[-1].wanted(word, rest)
        else:
            givens[rows[-1].name].append((word, rest))
            rows[-1].given(word, rest, names)
    return rows


def answered(frame):
    """The ids of the requests that a frame's messages answer."""
    parts = [part for part in smb.parts(frame[4:]) if part.startswith(b"\xfeSMB") and len(part) >= 64]
    return [smb.message_id(part) for part in parts if smb.message_id(part) != NOTICE]


class Peer:
    """Plays a row's steps over one connection. Each frame comes once the requests that it answers came, or where they do not come, once the
    program is silent for a moment. It keeps the frames that came."""

    def __init__(self, row, size):
        self.steps, self.size, self.frames, self.held = list(row.steps), size, [], b""
        self.sent = len(row.sent) if row.sent is not None else None
        self.listener = socket.socket()
        self.listener.bind(("127.0.0.1", 0))
        self.listener.listen(1)
        self.listener.settimeout(60)
        self.port = self.listener.getsockname()[1]
        self.thread = threading.Thread(target=self.serve)
        self.thread.start()

    def end(self):
        """Ends the wait for a connection that does not come, and gives the frames that came."""
        try:
            socket.create_connection(("127.0.0.1", self.port), 1).close()
        except OSError:
            pass
        self.thread.join(90)
        self.listener.close()
        return self.frames

    def serve(self):
        try:
            peer, _ = self.listener.accept()
        except OSError:
            return
        with peer:
            peer.setsockopt(socket.IPPROTO_TCP, socket.TCP_NODELAY, 1)
            try:
                self.play(peer)
            except OSError:
                pass

    def play(self, peer):
        for step in self.steps:
            if step is None:
                break
            if isinstance(step, int):
                # the client's patience ends before this time
                while self.hear(peer, 60):
                    pass
                return
            self.wait_for(peer, answered(step))
            for at in range(0, len(step), self.size):
                peer.sendall(step[at:at + self.size])
        # behind the last step the program may still ask, and then the connection ends
        while self.hear(peer, MOMENT if self.sent is not None and len(self.frames) >= self.sent else 2):
            pass

    def wait_for(self, peer, ids):
        """Waits until requests with these ids came."""
        while not ids or max(ids) >= sum(1 for frame in self.frames for _ in smb.parts(frame)):
            if not self.hear(peer, MOMENT):
                return

    def hear(self, peer, seconds):
        """Takes what the program sends next, and says whether it sent something within so many seconds."""
        peer.settimeout(seconds)
        try:
            data = peer.recv(65536)
        except socket.timeout:
            return False
        self.held += data
        for frame in smb.frames(self.held):
            self.held = self.held[4 + len(frame):]
            self.frames.append(frame)
        return data != b""
