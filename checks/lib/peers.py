"""Peers of the checks: a port of this machine, a Samba server with a folder of its own, smbclient, and what listens to their traffic."""
import os
import shutil
import signal
import socket
import subprocess
import sys
import tempfile
import threading
import time


def free_port():
    with socket.socket() as s:
        s.bind(("127.0.0.1", 0))
        return s.getsockname()[1]


def wait_for(port, seconds=20):
    end = time.time() + seconds
    while time.time() < end:
        with socket.socket() as s:
            s.settimeout(1)
            if s.connect_ex(("127.0.0.1", port)) == 0:
                return True
        time.sleep(0.1)
    return False


class Samba:
    """A Samba server on a port of its own, that grants a guest session. Ended by its pid."""

    def __init__(self, options=(), share_options=()):
        self.folder = tempfile.mkdtemp(prefix="smbfs-samba-")
        os.chmod(self.folder, 0o711)
        for name in ("private", "lock", "state", "cache", "pid", "share"):
            os.mkdir(os.path.join(self.folder, name))
        self.share = os.path.join(self.folder, "share")
        os.chmod(self.share, 0o777)
        users = os.path.join(self.folder, "users")
        with open(users, "w") as f:
            f.write('ghost = ""\n')
        self.port = free_port()
        lines = [
            "[global]",
            f"smb ports = {self.port}",
            "interfaces = lo",
            "bind interfaces only = yes",
            "server min protocol = SMB2_02",
            "map to guest = Bad User",
            f"username map = {users}",
            "disable spoolss = yes",
            "load printers = no",
            "mangled names = no",
            "smb2 leases = yes",
            "durable handles = yes",
            "kernel oplocks = no",
            "kernel share modes = no",
            "posix locking = no",
            f"private dir = {self.folder}/private",
            f"lock directory = {self.folder}/lock",
            f"state directory = {self.folder}/state",
            f"cache directory = {self.folder}/cache",
            f"pid directory = {self.folder}/pid",
            f"log file = {self.folder}/log",
            *options,
            "[share]",
            f"path = {self.share}",
            "guest ok = yes",
            "read only = no",
            *share_options,
        ]
        config = os.path.join(self.folder, "smb.conf")
        with open(config, "w") as f:
            f.write("\n".join(lines) + "\n")
        with open(os.path.join(self.folder, "out"), "w") as out:
            self.process = subprocess.Popen(
                ["setsid", "smbd", "-F", "--no-process-group", f"--configfile={config}"],
                stdin=subprocess.DEVNULL, stdout=out, stderr=out)
        self.up = wait_for(self.port)

    def end(self):
        try:
            os.kill(self.process.pid, signal.SIGTERM)
            self.process.wait(timeout=20)
        except (ProcessLookupError, subprocess.TimeoutExpired):
            pass
        shutil.rmtree(self.folder, ignore_errors=True)


def smbclient(port, script, folder):
    """The words that run a script of smbclient's in dialect 2.1, as an anonymous user; what it keeps goes into the folder."""
    return ["smbclient", "//127.0.0.1/share", "-p", str(port), "-U%", "--option=client min protocol=SMB2_10",
            "--option=client max protocol=SMB2_10", f"--option=lock directory={folder}", "-c", script]


class Relay:
    """Takes one connection at a port of its own, hands its bytes on to another port of this machine and back, and keeps them. What comes
    back is handed on after a pause of so many seconds. `log` tells of each piece whether it was sent or got, in their order, and its bytes."""

    def __init__(self, to, pause=0):
        self.to, self.pause, self.sent, self.got, self.log = to, pause, bytearray(), bytearray(), []
        self.listener = socket.socket()
        self.listener.bind(("127.0.0.1", 0))
        self.listener.settimeout(60)
        self.port = self.listener.getsockname()[1]
        self.thread = threading.Thread(target=self.serve)

    def start(self):
        self.listener.listen(1)
        self.thread.start()

    def end(self):
        self.thread.join(90)
        self.listener.close()

    def serve(self):
        try:
            client, _ = self.listener.accept()
        except OSError:
            return
        with client, socket.create_connection(("127.0.0.1", self.to)) as server:
            back = threading.Thread(target=self.carry, args=(server, client, self.got))
            back.start()
            self.carry(client, server, self.sent)
            back.join(60)

    def carry(self, source, to, kept):
        source.settimeout(60)
        to.setsockopt(socket.IPPROTO_TCP, socket.TCP_NODELAY, 1)
        try:
            while data := source.recv(65536):
                if kept is self.got:
                    time.sleep(self.pause)
                kept.extend(data)
                self.log.append((kept is self.sent, data))
                to.sendall(data)
            to.shutdown(socket.SHUT_WR)
        except OSError:
            pass


class Capture:
    """What tshark captures of a port of this machine, into a file of the folder. Ended by its pid."""

    def __init__(self, port, folder):
        self.file, log = os.path.join(folder, "packets"), os.path.join(folder, "log")
        with open(log, "w") as out:
            self.process = subprocess.Popen(
                ["tshark", "-n", "-i", "lo", "-f", f"tcp port {port}", "-w", self.file, "-a", "duration:120"],
                stdin=subprocess.DEVNULL, stdout=out, stderr=out)
        end = time.time() + 20
        while "Capturing on" not in open(log).read() and time.time() < end and self.process.poll() is None:
            time.sleep(0.1)
        time.sleep(1)
        self.up = time.time() < end and self.process.poll() is None

    def end(self):
        """Waits until no more comes, a second at least, and ends it."""
        if self.process.poll() is not None:
            return
        size, until = -1, time.time() + 20
        while self.size() != size and time.time() < until:
            size = self.size()
            time.sleep(1)
        self.process.send_signal(signal.SIGINT)
        try:
            self.process.wait(timeout=20)
        except subprocess.TimeoutExpired:
            self.process.terminate()
            self.process.wait(timeout=20)

    def size(self):
        return os.path.getsize(self.file) if os.path.exists(self.file) else 0


def version(*command):
    try:
        return subprocess.run(command, capture_output=True, text=True, timeout=20).stdout.strip().splitlines()[0]
    except (OSError, IndexError, subprocess.TimeoutExpired):
        return None


def say(check, text):
    print(f"checks/{check}: {text}")
    sys.stdout.flush()
