"""A small server of SMB 2.1 at a port of its own, whose share `public` holds a file of five bytes under each name."""
import socket
import struct
import threading

import smb
from smb import CLOSE, CREATE, MORE, NEGOTIATE, QUERY, SETUP, TREE, frame, message

SESSION, DISK, FILE = 0x1122334455667788, 0x99, bytes(range(16))
CHALLENGE = b"NTLMSSP\0" + struct.pack("<IHHII", 2, 0, 0, 56, 0x00080001) + b"\x11" * 8 + bytes(8) + struct.pack("<HHI", 0, 0, 56) + bytes(8)
# FileAllInformation (MS-FSCC 2.4.2): five bytes, one link, the number 2
INFORMATION = struct.pack("<40xQQIBBHQ28x", 0, 5, 1, 0, 0, 0, 2)


class Server:
    """Serves one connection. `behind` gives bytes that come behind the reply to a command. `commands` are those that came, `rest` what came
    behind the last whole frame, and `faults` what is wrong with the requests."""

    def __init__(self, behind={}):
        self.behind, self.commands, self.rest, self.faults = behind, [], b"", []
        self.listener = socket.socket()
        self.listener.bind(("127.0.0.1", 0))
        self.listener.settimeout(60)
        self.listener.listen(1)
        self.port = self.listener.getsockname()[1]
        self.thread = threading.Thread(target=self.serve)
        self.thread.start()

    def end(self):
        self.thread.join(90)
        self.listener.close()

    def serve(self):
        try:
            peer, _ = self.listener.accept()
        except OSError:
            self.faults.append("no connection came")
            return
        with peer:
            peer.settimeout(60)
            peer.setsockopt(socket.IPPROTO_TCP, socket.TCP_NODELAY, 1)
            while self.one(peer):
                pass

    def got(self, peer, number):
        """So many bytes, or none where the stream ends before; what came then is kept."""
        data = b""
        while len(data) < number:
            try:
                more = peer.recv(number - len(data))
            except OSError:
                more = b""
            if not more:
                self.rest += data
                return None
            data += more
        return data

    def one(self, peer):
        """Answers one request. What is none ends the connection."""
        head = self.got(peer, 4)
        if head is None:
            return False
        data = self.got(peer, int.from_bytes(head[1:], "big"))
        if data is None or head[0] != 0 or len(data) < 64:
            self.rest = head + (self.rest if data is None else data)
            return False
        command, mid = smb.command(data), smb.message_id(data)
        if mid != len(self.commands):
            self.faults.append(f"message id {mid} where {len(self.commands)} was free")
        self.commands.append(command)
        status, body = self.answer(command)
        reply = message(status=status, body=body, mid=mid, session=SESSION, tree=DISK, command=command)
        try:
            peer.sendall(frame(reply) + self.behind.get(command, b""))
        except OSError:
            return False
        return True

    def answer(self, command):
        """The status and the body of the reply (MS-SMB2 2.2)."""
        if command == NEGOTIATE:
            return 0, struct.pack("<HHHH16sIIIIQQHHI", 65, 1, 0x0210, 0, bytes(16), 7, 1048576, 1048576, 1048576, 0, 0, 128, 0, 0)
        if command == SETUP and self.commands.count(SETUP) == 1:
            return MORE, struct.pack("<HHHH", 9, 0, 72, len(CHALLENGE)) + CHALLENGE
        if command == SETUP:
            return 0, struct.pack("<HHHH", 9, 2, 72, 0)
        if command == TREE:
            return 0, struct.pack("<HBBIII", 16, 1, 0, 0, 0, 0x1F01FF)
        if command == CREATE:
            return 0, struct.pack("<HBBIQQQQQQII", 89, 0, 0, 1, 0, 0, 0, 0, 0, 0, 0, 0) + FILE + bytes(8)
        if command == QUERY:
            return 0, struct.pack("<HHI", 9, 72, len(INFORMATION)) + INFORMATION
        if command == CLOSE:
            return 0, struct.pack("<HHI52x", 60, 0, 0)
        return 0, struct.pack("<HH", 4, 0)
