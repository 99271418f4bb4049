"""Services that scripts start, and connections to them: frames out, frames in. Used by scripts that ask services."""

import atexit
import socket
import struct
import subprocess

from wire import frame

PATIENCE = 120.0


def same(what, wanted, found):
    if wanted != found:
        raise SystemExit(f"{what}: wanted {wanted!r}, found {found!r}")


class Service:
    """A running service, by its words. Its first line says where it listens. It does not outlive the script."""

    def __init__(self, words, **how):
        self.process = subprocess.Popen(
            [str(word) for word in words], stdout=subprocess.PIPE, text=True, **how
        )
        atexit.register(self.process.kill)
        word, _, address = self.process.stdout.readline().strip().partition(" ")
        same("the first word of its line", "listening", word)
        host, port = address.rsplit(":", 1)
        self.address = host, int(port)

    def connect(self):
        client = socket.create_connection(self.address, PATIENCE)
        client.setsockopt(socket.IPPROTO_TCP, socket.TCP_NODELAY, 1)
        return client

    def memory(self):
        """What it holds of the machine's memory, in KiB."""
        for line in open(f"/proc/{self.process.pid}/status"):
            if line.startswith("VmRSS:"):
                return int(line.split()[1])

    def ends(self, connections, faults):
        """The service ends by itself, with this line and nothing else, at status 0."""
        rest = self.process.stdout.read()
        same("its last line", f"connections {connections} faults {faults}\n", rest)
        same("its exit status", 0, self.process.wait(PATIENCE))


def exactly(client, count):
    """`count` bytes, or fewer at the end of the input."""
    parts = b""
    while len(parts) < count:
        part = client.recv(count - len(parts))
        if not part:
            break
        parts += part
    return parts


def read_reply(client):
    """The body of the next frame, or None at the end."""
    head = exactly(client, 4)
    if not head:
        return None
    return exactly(client, struct.unpack(">I", head)[0])


def whole_frames(data):
    """The bodies of the whole frames that a bytearray begins with. They are taken out of it."""
    bodies, at = [], 0
    while len(data) >= at + 4 and len(data) >= (
        end := at + 4 + struct.unpack_from(">I", data, at)[0]
    ):
        bodies.append(bytes(data[at + 4 : end]))
        at = end
    del data[:at]
    return bodies


def asked(client, body):
    client.sendall(frame(body))
    return read_reply(client)


def all_replies(client):
    """The replies up to the end. A connection that is given up with bytes unread may end in a reset."""
    replies = []
    try:
        while (reply := read_reply(client)) is not None:
            replies.append(reply)
    except ConnectionResetError:
        pass
    client.close()
    return replies
