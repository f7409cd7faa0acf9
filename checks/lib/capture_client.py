"""What smbclient never sends, sent with impacket's structures: leases and their breaks, durable handles, locks, flushes, the
classes of information one by one. Run as: PORT SHARE COMMAND.., where the command opens the file that has a lease. Prints the ports
that it connected from."""
import random
import struct
import subprocess
import sys
import time

try:
    from impacket.smb3 import SMB3
    from impacket import smb3structs as s
except ImportError:
    print("no impacket")
    sys.exit(3)

PORT, SHARE, BREAKER = int(sys.argv[1]), sys.argv[2], sys.argv[3:]
READ, WRITE, ATTRIBUTES, DELETE = 0x100081, 0x100086, 0x100080, 0x110080
KEY = bytes(range(0xA0, 0xB0))
ports = []


def connect():
    random.seed(1)  # impacket takes its ClientGuid from there, and an open is reclaimed by the same client alone
    c = SMB3("127.0.0.1", "127.0.0.1", sess_port=PORT, timeout=15, preferredDialect=s.SMB2_DIALECT_21)
    ports.append(c.get_socket().getsockname()[1])
    c.login("", "")
    return c, c.connectTree(SHARE)


def context(name, data, last):
    c = s.SMB2CreateContext()
    c["NameOffset"], c["NameLength"], c["DataOffset"], c["DataLength"] = 16, 4, 24, len(data)
    c["Buffer"] = name + bytes(4) + data
    c["Next"] = 0 if last else 24 + len(data)
    return c


def contexts(*pairs):
    return [context(name, data.getData(), n + 1 == len(pairs)) for n, (name, data) in enumerate(pairs)]


def lease(key):
    x = s.SMB2_CREATE_REQUEST_LEASE()
    x["LeaseKey"], x["LeaseState"] = key, 7
    return x


def durable():
    x = s.SMB2_CREATE_DURABLE_HANDLE_REQUEST()
    x["DurableRequest"] = bytes(16)
    return x


def reclaim(fid):
    x = s.SMB2_FILEID(fid)
    y = s.SMB2_CREATE_DURABLE_HANDLE_RECONNECT()
    y["Data"] = x
    return y


def ask(c, tree, command, body):
    packet = c.SMB_PACKET()
    packet["Command"], packet["TreeID"], packet["Data"] = command, tree, body
    return c.recvSMB(c.sendSMB(packet))


def lock(c, tree, fid, offset, length, flags):
    element = s.SMB2_LOCK_ELEMENT()
    element["Offset"], element["Length"], element["Flags"] = offset, length, flags
    body = s.SMB2Lock()
    body["FileID"], body["LockCount"], body["Locks"] = s.SMB2_FILEID(fid), 1, element.getData()
    return ask(c, tree, s.SMB2_LOCK, body)


def refused(f, *args):
    try:
        f(*args)
    except Exception:
        pass


def plain(c, tree):
    fid = c.create(tree, "b", READ | WRITE, 7, 0x40, 5, 0x80)
    c.write(tree, fid, b"hello", 0, 5)
    c.read(tree, fid, 0, 5)
    c.read(tree, fid, 2, 1)
    c.flush(tree, fid)
    lock(c, tree, fid, 1, 3, 2 | 16)
    lock(c, tree, fid, 1, 3, 4)
    for kind, number in ((1, 4), (1, 5), (1, 6), (1, 18), (2, 7)):
        c.queryInfo(tree, fid, infoType=kind, fileInfoClass=number)
    c.setInfo(tree, fid, struct.pack("<Q", 3), fileInfoClass=20)
    c.close(tree, fid)
    fid = c.create(tree, "b", DELETE | 0x100, 7, 0, 1, 0x80)
    c.setInfo(tree, fid, struct.pack("<QQQQII", 0, 0, 0, 0, 0x80, 0), fileInfoClass=4)
    name = "c".encode("utf-16le")
    c.setInfo(tree, fid, struct.pack("<B7xQI", 0, 0, len(name)) + name, fileInfoClass=10)
    name = "d".encode("utf-16le")
    refused(lambda: c.setInfo(tree, fid, struct.pack("<B7xQI", 0, 0, len(name)) + name, fileInfoClass=11))
    c.setInfo(tree, fid, b"\x01", fileInfoClass=13)
    c.close(tree, fid)
    fid = c.create(tree, "dir", READ, 7, 1, 1, 0)
    c.queryDirectory(tree, fid, "*", informationClass=38, maxBufferSize=65536)
    refused(lambda: c.queryDirectory(tree, fid, "*", informationClass=38, maxBufferSize=65536))
    c.close(tree, fid)
    refused(c.create, tree, "x", READ, 7, 0x40, 1, 0x80)
    c.echo()


def broken(c, tree):
    """The breaker opens the file, the server breaks the lease, and the break is acknowledged."""
    c.create(tree, "a", READ | WRITE, 7, 0x40, 1, 0x80, oplockLevel=0xFF,
             createContexts=contexts((b"RqLs", lease(KEY)), (b"DHnQ", durable())))
    other = subprocess.Popen(BREAKER, stdin=subprocess.DEVNULL, stdout=subprocess.DEVNULL, stderr=subprocess.DEVNULL)
    # not by recvSMB, which would take a message id back for the notification's charge of 0
    told = s.SMB2LeaseBreakNotification(s.SMB2Packet(c._NetBIOSSession.recv_packet(15).get_trailer())["Data"])
    body = s.SMB2LeaseBreakAcknowledgement()
    body["LeaseKey"], body["LeaseState"] = told["LeaseKey"], told["NewLeaseState"]
    ask(c, tree, s.SMB2_OPLOCK_BREAK, body)
    other.wait(timeout=20)


def reclaimed():
    key = bytes(range(0xC0, 0xD0))
    c, tree = connect()
    fid = c.create(tree, "r", READ | WRITE, 7, 0x40, 5, 0x80, oplockLevel=0xFF,
                   createContexts=contexts((b"RqLs", lease(key)), (b"DHnQ", durable())))
    c.get_socket().close()
    time.sleep(0.5)
    c, tree = connect()
    c.create(tree, "r", READ | WRITE, 7, 0x40, 1, 0x80, oplockLevel=0xFF,
             createContexts=contexts((b"RqLs", lease(key)), (b"DHnC", reclaim(fid))))
    return c, tree


try:
    c, tree = connect()
    plain(c, tree)
    broken(c, tree)
    c.disconnectTree(tree)
    c.logoff()
    reclaimed()
finally:
    print(*ports)
