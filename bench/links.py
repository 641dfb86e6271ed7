"""Servers that are started, and links to them, for the programs beside this one."""
import os
import select
import signal
import socket
import subprocess
import sys
import tempfile
import time

# Bytes of a reply of NLM's LOCK or UNLOCK, framed (XNFS 14.4).
REPLY = 36


class Server:
    """The program, which serves the files that header lines name on two ports. Its record is in a file of a folder: a new folder of its own,
    so that no grace runs, if nothing is said."""

    def __init__(self, program, ports, lines, folder=None, lanes=2, turns=1_000_000, written=subprocess.PIPE):
        words = [program, "serve", "--rpc", str(ports[0]), "--smb", str(ports[1]), "--lanes", str(lanes), "--turns", str(turns)]
        self.own = None if folder else tempfile.TemporaryDirectory()
        words += ["--record", os.path.join(folder or self.own.name, "record")]
        self.process = subprocess.Popen(words, stdin=subprocess.PIPE, stdout=written, stderr=subprocess.PIPE)
        self.process.stdin.write(lines)
        self.process.stdin.close()

    def wait_until_open(self):
        """Waits for the line that says that the ports are open."""
        line = self.process.stderr.readline()
        if b"serving" not in line:
            sys.exit(f"the server says {line!r}")

    def captured(self):
        """What it writes once its turns are done."""
        return self.process.stdout.read()

    def kill(self):
        self.process.send_signal(signal.SIGKILL)
        self.process.wait()

    def close(self):
        for stream in self.process.stdout, self.process.stderr:
            if stream:
                stream.close()
        if self.own:
            self.own.cleanup()

    def __enter__(self):
        self.wait_until_open()
        return self

    def __exit__(self, *_):
        if self.process.returncode is None:
            self.kill()
        self.close()


def connect(port, seconds=None):
    """A connection to a port of this machine, whose calls fail after so many seconds."""
    link = socket.create_connection(("127.0.0.1", port), seconds)
    link.setsockopt(socket.IPPROTO_TCP, socket.TCP_NODELAY, 1)
    return link


def take(link, count, seconds=10):
    """So many bytes of a link, or those that came until it was closed or the time was over."""
    taken, end = b"", time.monotonic() + seconds
    while len(taken) < count and time.monotonic() < end:
        if not select.select([link], [], [], max(0, end - time.monotonic()))[0]:
            break
        piece = link.recv(count - len(taken))
        if not piece:
            break
        taken += piece
    return taken


def ended(process):
    """How a program ended: its status, the seconds of the processor, and the most bytes of memory that it held."""
    _, status, used = os.wait4(process.pid, 0)
    process.returncode = os.waitstatus_to_exitcode(status)
    return process.returncode, used.ru_utime + used.ru_stime, used.ru_maxrss * 1024
