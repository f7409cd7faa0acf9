"""Messages of SMB 2 (MS-SMB2 2.2.1): as a server sends them, and cut from a stream."""
import struct

NEGOTIATE, SETUP, LOGOFF, TREE, LEAVE, CREATE, CLOSE, QUERY = 0, 1, 2, 3, 4, 5, 6, 16
PENDING, MORE, DENIED, MISSING, NO_PATH = 0x103, 0xC0000016, 0xC0000022, 0xC0000034, 0xC000003A
# what a run sends: at its beginning, for a stat of what is there, and at its end
MOUNT, STAT, BYE = [NEGOTIATE, SETUP, SETUP, TREE], [CREATE, QUERY, CLOSE], [LEAVE, LOGOFF]


def message(magic=b"\xfeSMB", size=64, status=0, command=0, flags=1, nxt=0, mid=0, body=b"", tree=0, session=0, credits=1):
    return (magic + struct.pack("<HHIHHIIQIIQ", size, 0, status, command, credits, flags, nxt, mid, 0, tree, session) + bytes(16) + body)


def error(count=0, data=b""):
    return struct.pack("<HBBI", 9, 0, 0, count) + data


def frame(data, first=0, length=None):
    return bytes([first]) + struct.pack(">I", len(data) if length is None else length)[1:] + data


def frames(data):
    """The whole frames of a stream."""
    while len(data) >= 4 and len(data) >= 4 + int.from_bytes(data[1:4], "big"):
        size = int.from_bytes(data[1:4], "big")
        yield data[4:4 + size]
        data = data[4 + size:]


def parts(data):
    """The messages of a frame, by NextCommand."""
    while data:
        behind = following(data)
        yield data[:behind] if behind else data
        data = data[behind:] if behind else b""


def status(data):
    return int.from_bytes(data[8:12], "little")


def command(data):
    return int.from_bytes(data[12:14], "little")


def message_id(data):
    return int.from_bytes(data[24:32], "little")


def is_reply(data):
    return data[16] & 1 == 1


def is_related(data):
    """Whether a request has the flag of one that is related to the request before it."""
    return data[16] & 4 == 4


def following(data):
    """Where the next message of the frame begins, or 0 (NextCommand)."""
    return int.from_bytes(data[20:24], "little")


def created_name(data):
    """The name in a CREATE request (MS-SMB2 2.2.13)."""
    at, length = struct.unpack_from("<HH", data, 108)
    return data[at:at + length].decode("utf-16-le")
