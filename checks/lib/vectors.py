"""What tshark reads of the messages among the vectors, beside the lines that are to be printed of them."""
import os
import struct
import subprocess
import sys
import tempfile
import xml.etree.ElementTree as xml

# a field, and what tshark calls it
NAMES = {
    "StructureSize": "buffer_code", "DialectCount": "dialect_count", "ClientGuid": "client_guid", "Dialects": "dialect",
    "SecurityMode": "sec_mode", "DialectRevision": "dialect", "ServerGuid": "server_guid", "Capabilities": "capabilities share_caps",
    "MaxTransactSize": "max_trans_size", "MaxReadSize": "max_read_size", "MaxWriteSize": "max_write_size", "SystemTime": "current_time",
    "ServerStartTime": "boot_time", "SecurityBufferLength": "olb.length", "PreviousSessionId": "previous_sesid",
    "SessionFlags": "session_flags", "PathLength": "olb.length", "ShareType": "share_type", "ShareFlags": "share_flags",
    "MaximalAccess": "smb.access_mask", "RequestedOplockLevel": "create.oplock", "DesiredAccess": "smb.access_mask",
    "FileAttributes": "file_attribute", "ShareAccess": "smb.share_access", "CreateDisposition": "create.disposition",
    "CreateOptions": "smb.create_options", "NameLength": "olb.length", "CreateContextsLength": "olb.length", "Name": "filename",
    "OplockLevel": "create.oplock", "Flags": "create.rep_flags close.flags lock_flags find.flags lease.lease_flags",
    "CreateAction": "create.action", "CreationTime": "create.time", "LastAccessTime": "last_access.time",
    "LastWriteTime": "last_write.time", "ChangeTime": "last_change.time", "AllocationSize": "allocation_size", "EndofFile": "eof",
    "Length": "read_length write_length lock_length", "Offset": "file_offset", "DataLength": "olb.length",
    "DataRemaining": "read_remaining", "Count": "write.count", "Remaining": "write.remaining",
    "WriteChannelInfoOffset": "channel_info_offset", "WriteChannelInfoLength": "channel_info_length", "LockCount": "lock_count",
    "FileInformationClass": "find.infolevel", "FileNameLength": "olb.length",
    "OutputBufferLength": "output_buffer_len olb.length max_response_size", "InfoType": "class",
    "FileInfoClass": "file_info.infolevel fs_info.infolevel",
    "BufferLength": "setinfo_size", "ErrorContextCount": "error.context_count", "ByteCount": "error.byte_count",
    "NewEpoch": "lease.lease_oplock", "LeaseKey": "lease.lease_key", "CurrentLeaseState": "lease.lease_state",
    "NewLeaseState": "lease.lease_state", "BreakReason": "lease.lease_break_reason", "AccessMaskHint": "lease.access_mask_hint",
    "ShareMaskHint": "lease.share_mask_hint", "LeaseState": "lease.lease_state", "LeaseDuration": "lease.lease_duration",
    "Buffer": "security_blob tree read.blob write.data find.pattern find.info_blob smb2.unknown",
}
# the same for a header; a request has its channel sequence where a reply has its status
HEAD = {
    "StructureSize": "header_len", "CreditCharge": "credit.charge", "Status": "nt_status channel_sequence", "Command": "cmd",
    "CreditRequest/CreditResponse": "credits.requested credits.granted", "Flags": "flags", "NextCommand": "chain_offset",
    "MessageId": "msg_id", "TreeId": "tid", "AsyncId": "aid", "SessionId": "sesid",
}
# what tshark takes apart, and shows as no field of its own
APART = {("create_request", "CreateContexts"), ("create_reply", "CreateContexts"), ("set_info_request", "Buffer"),
         ("write_request", "Buffer"), ("buffer_reply", "Buffer")}


def vectors(folder):
    """Each vector with the lines that are to be printed of it."""
    blocks = []
    with open(os.path.join(folder, "stdout")) as f:
        for line in f.read().splitlines()[:-1]:
            if line.startswith("  "):
                blocks[-1][1].append(line.split())
            elif line and not line.startswith("#"):
                blocks.append((line, []))
    with open(os.path.join(folder, "stdin")) as f:
        lines = [line.split() for line in f.read().splitlines() if line and not line.startswith("#")]
    if [kind for kind, _ in lines] != [kind for kind, _ in blocks]:
        raise ValueError("stdin and stdout tell of other vectors")
    return [(kind, b"" if text == "-" else bytes.fromhex(text), fields) for (kind, text), (_, fields) in zip(lines, blocks)]


def packet(number, message):
    """A message in a frame of a TCP stream of its own."""
    ports = (445, 20000 + number) if message[16] & 1 else (20000 + number, 445)
    data = len(message).to_bytes(4, "big") + message
    tcp = struct.pack(">HHIIBBHHH", *ports, 1, 1, 0x50, 0x18, 8192, 0, 0)
    ip = struct.pack(">BBHHHBBH4s4s", 0x45, 0, 40 + len(data), 0, 0, 64, 6, 0, b"\x7f\0\0\1", b"\x7f\0\0\1")
    whole = bytes(12) + b"\x08\0" + ip + tcp + data
    return struct.pack("<IIII", number, 0, len(whole), len(whole)) + whole


def read(messages):
    """What tshark reads of each message: the bytes of each field, by its name."""
    with tempfile.NamedTemporaryFile(suffix=".pcap") as f:
        f.write(struct.pack("<IHHiIII", 0xA1B2C3D4, 2, 4, 0, 0, 65535, 1))
        for number, message in enumerate(messages):
            f.write(packet(number, message))
        f.flush()
        told = subprocess.run(["tshark", "-n", "-r", f.name, "-T", "pdml"], capture_output=True, timeout=120, check=True).stdout
    seen = []
    for one in xml.fromstring(told).iter("packet"):
        fields = {}
        for field in one.iter("field"):
            if field.get("name", "").startswith("smb") and field.get("value"):
                fields.setdefault(field.get("name"), []).append(field.get("value"))
        seen.append(fields)
    return seen


def is_told(kind, name, value, fields):
    half = {"FileId.Persistent": slice(0, 16), "FileId.Volatile": slice(16, 32)}.get(name)
    if half:
        found = [text[half] for text in fields.get("smb2.fid", [])]
    else:
        names = [word if word.startswith("smb") else "smb2." + word for word in (HEAD if kind == "head" else NAMES).get(name, "").split()]
        found = [text for word in names for text in fields.get(word, [])]
    if value in found:
        return True
    return value.isdigit() and any(len(text) % 2 == 0 and int.from_bytes(bytes.fromhex(text), "little") == int(value) for text in found)


def compare(folder):
    real = [(kind, data, fields) for kind, data, fields in vectors(folder)
            if data[:4] == b"\xfeSMB" and kind not in ("split", "first_part") and fields[0][0] != "fault"]
    told, wrong = 0, []
    for (kind, data, fields), seen in zip(real, read([data for _, data, _ in real])):
        for name, value in (field for field in fields if len(field) == 2):
            if value in ("-", "again") or (kind, name) in APART:
                continue
            told += 1
            if not is_told(kind, name, value, seen):
                wrong.append(f"{kind} {name} {value}")
    print(f"checks/vectors: {len(real)} messages, {told} fields beside tshark's" + "".join(f"\n  not so: {text}" for text in wrong))
    return bool(wrong) or told < 290


def refusals(program):
    """That lines which are no vectors end the program with their number."""
    if not os.access(program, os.X_OK):
        print(f"checks/vectors: {program} is not built: its part is skipped")
        return False
    lines, bad = ("empty", "emty 00", "empty 0g", "empty 0", " empty 00", "from_wire_sfm 61", "to_wire_sfm ff", "empty 00 00"), 0
    for line in lines:
        done = subprocess.run([program], input=f"# one\n\nempty -\n{line}\nempty -\n", capture_output=True, text=True, timeout=60)
        if done.returncode != 1 or "line 4:" not in done.stderr or "vectors" in done.stdout:
            print(f"checks/vectors: {line!r} gives status {done.returncode} and {done.stderr!r}")
            bad += 1
    print(f"checks/vectors: {len(lines) - bad} of {len(lines)} lines that are no vectors end it with their number")
    return bad > 0


def main():
    differs = compare(sys.argv[1])
    return 1 if refusals(sys.argv[2]) or differs else 0


sys.exit(main())
