"""One request and one reply of each kind of message, from the traffic of a Samba server, as hex and as tshark reads it."""
import os
import re
import shutil
import subprocess
import sys
import tempfile
import xml.etree.ElementTree as xml

import peers
import smb

CHECK = "capture"
HERE = os.path.dirname(os.path.abspath(__file__))
COMMANDS = {0: "NEGOTIATE", 1: "SESSION_SETUP", 2: "LOGOFF", 3: "TREE_CONNECT", 4: "TREE_DISCONNECT", 5: "CREATE", 6: "CLOSE",
            7: "FLUSH", 8: "READ", 9: "WRITE", 10: "LOCK", 13: "ECHO", 14: "QUERY_DIRECTORY", 16: "QUERY_INFO", 17: "SET_INFO",
            18: "OPLOCK_BREAK"}
PENDING, MORE, OVERFLOW = 0x103, 0xC0000016, 0x80000005
SCRIPT = ("ls; put {0}/a a; put {0}/a e; ls a; allinfo a; setmode a +r; setmode a -r; get a {0}/got; "
          "mkdir dir; put {0}/a dir/f; put {0}/a dir/gg; ls dir/*; rename e f; hardlink f h; del f; del h; "
          "get x {0}/none; mkdir g; rmdir g; volume; du; echo 1 hello; tdis; logoff")


def with_impacket():
    for python in ("/usr/bin/python3", sys.executable):
        try:
            if subprocess.run([python, "-c", "import impacket"], capture_output=True, timeout=60).returncode == 0:
                return python
        except (OSError, subprocess.TimeoutExpired):
            pass
    return None


class Message:
    """A message, its place among the streams, and what tshark says of it."""

    def __init__(self, stream, source, data):
        self.stream, self.source, self.data, self.fields = stream, source, data, []
        self.command, self.status, self.is_reply, self.id = smb.command(data), smb.status(data), smb.is_reply(data), smb.message_id(data)


def reading(field):
    """What tshark says of a field. A time of 0 it shows like one of 1970, and tells of it in its longer text alone."""
    return "0, no time" if "No time specified" in field.get("showname", "") else field.get("show")


def messages(file, port):
    """All messages of a capture. The bytes are cut here, the fields are tshark's, and both tell of the same messages in order."""
    tshark = ["tshark", "-n", "-r", file, "-d", f"tcp.port=={port},nbss"]
    columns = [word for name in ("stream", "srcport", "payload") for word in ("-e", f"tcp.{name}")]
    raw = subprocess.run([*tshark, "-Y", "tcp.len > 0", "-T", "fields", *columns], capture_output=True, text=True, timeout=120).stdout
    streams = {}
    for line in raw.splitlines():
        stream, source, payload = line.split("\t")
        streams.setdefault((int(stream), int(source)), bytearray()).extend(bytes.fromhex(payload))
    cut = {way: [Message(*way, part) for frame in smb.frames(bytes(data)) for part in smb.parts(frame)] for way, data in streams.items()}
    pdml = subprocess.run([*tshark, "-Y", "smb2", "-T", "pdml"], capture_output=True, timeout=120).stdout
    seen = dict.fromkeys(cut, 0)
    for packet in xml.fromstring(pdml).iter("packet"):
        way = tuple(int(packet.find(f".//field[@name='tcp.{name}']").get("show")) for name in ("stream", "srcport"))
        for proto in packet.iter("proto"):
            if proto.get("name") != "smb2":
                continue
            message = cut[way][seen[way]]
            seen[way] += 1
            message.fields = [(f.get("name"), reading(f)) for f in proto.iter("field") if f.get("name")]
            said = dict(reversed(message.fields))
            if (int(said["smb2.cmd"]), int(said["smb2.msg_id"]) % 2**64) != (message.command, message.id):
                raise ValueError("tshark tells of another message")
    if any(seen[way] != len(cut[way]) for way in cut):
        raise ValueError("tshark tells of other messages")
    return [message for way in cut.values() for message in way]


def kind(request, reply):
    name = COMMANDS.get(request.command)
    if name is None or reply.status == PENDING:
        return None
    if request.command == 1:
        return f"{name}, {'first' if reply.status == MORE else 'last'}" if reply.status in (0, MORE) else None
    if request.command == 16:
        name += f" of type {request.data[66]} and class {request.data[67]}"
        return name if reply.status in (0, OVERFLOW) else None
    if request.command == 17:
        name += f" of class {request.data[67]}"
    if request.command == 3:
        name += f" of share type {reply.data[66]}"
    if request.command == 14:
        name += f" of class {request.data[66]}"
    if request.command == 5 and any(request.data[116:120]):
        names = [show for field, show in request.fields if field == "smb2.tag"]
        name += " with " + " and ".join(names)
    return name if reply.status == 0 else f"{COMMANDS[request.command]} refused"


def kinds(found, own_ports):
    """For each kind a request and its reply: of smbclient where it sent any, and the shortest."""
    replies = {(m.stream, m.id): m for m in found if m.is_reply and m.status != PENDING and m.id != 2**64 - 1}
    best = {}
    for m in found:
        if m.is_reply and m.id == 2**64 - 1:
            best.setdefault("lease break notification", (0, None, m, "smbd"))
        reply = replies.get((m.stream, m.id))
        if m.is_reply or reply is None:
            continue
        name = kind(m, reply)
        client = "impacket" if m.source in own_ports else "smbclient"
        rank = (client == "impacket", len(m.data) + len(reply.data))
        if name and (name not in best or rank < best[name][0]):
            best[name] = (rank, m, reply, client)
    return best


# tshark's own notes, the single bits of flags, and what is alike in all headers
NOTES = re.compile(r"response_(to|in)|smb2\.time$|_frame$|_hash|\.(host|pid|protocol_id|header_len|signature|channel_sequence)$"
                   r"|smb2\.(flags|capabilities|buffer_code|file_attribute|mode|share_flags|share_caps|lease\.lease_state)\."
                   r"|smb\.(access|share\.access|nt\.create_options)\.")


def show(name, way, message, client):
    print(f"\n== {name}: {way} ({client})")
    print(message.data.hex())
    for field, text in message.fields:
        if text and field.startswith(("smb2.", "smb.", "ntlmssp.messagetype")) and not NOTES.search(field):
            print(f"    {field} = {text}")


def main():
    if os.geteuid() != 0:
        peers.say(CHECK, "skipped, tshark needs root to capture")
        return 0
    server = peers.Samba()
    folder = tempfile.mkdtemp(prefix="smbfs-capture-")
    sniffer = None
    try:
        if not server.up:
            peers.say(CHECK, "skipped, smbd does not start")
            return 0
        with open(os.path.join(folder, "a"), "w") as f:
            f.write("hello")
        sniffer = peers.Capture(server.port, folder)
        if not sniffer.up:
            peers.say(CHECK, "skipped, tshark may not capture on lo")
            return 0
        done = subprocess.run(peers.smbclient(server.port, SCRIPT.format(folder), folder),
                              stdin=subprocess.DEVNULL, capture_output=True, text=True, timeout=60)
        if "-v" in sys.argv:
            print(done.stdout, done.stderr)
        own_ports, python = [], with_impacket()
        if python is None:
            peers.say(CHECK, "impacket's part is skipped, no impacket: smbclient's messages alone")
        else:
            breaker = peers.smbclient(server.port, f"get a {folder}/again", folder)
            done = subprocess.run([python, os.path.join(HERE, "capture_client.py"), str(server.port), "share", *breaker],
                                  stdin=subprocess.DEVNULL, capture_output=True, text=True, timeout=90)
            if done.returncode != 0:
                peers.say(CHECK, f"impacket's part ended early: {done.stderr.strip().splitlines()[-1:]}")
                if "-v" in sys.argv:
                    print(done.stdout, done.stderr)
            own_ports = [int(word) for word in done.stdout.split()[-20:] if word.isdigit()]
        sniffer.end()
        best = kinds(messages(sniffer.file, server.port), own_ports)
        print("server:", peers.version("smbd", "--version"))
        print("clients: smbclient", peers.version("smbclient", "--version"), "and impacket",
              python and peers.version(python, "-c", "import importlib.metadata as m; print(m.version('impacket'))"))
        print("reader:", peers.version("tshark", "--version"))
        for name in sorted(best):
            _, request, reply, client = best[name]
            if request:
                show(name, "request", request, client)
            show(name, "reply" if request else "notification", reply, "smbd")
        seen = [name for name in best if not name.endswith("refused")]
        wanted = set(COMMANDS.values()) | {"lease break notification"}
        missing = [name for name in sorted(wanted) if not any(have.startswith(name) for have in seen)]
        peers.say(CHECK, f"{len(best)} kinds" + (", none of " + ", ".join(missing) if missing else ""))
        return 1 if missing and python else 0
    finally:
        if sniffer:
            sniffer.end()
        server.end()
        shutil.rmtree(folder, ignore_errors=True)


sys.exit(main())
