"""The reference model of scripts/model.py as a service over TCP, for tests of clients: it starts at once and needs no prover.

Usage: scripts/model serve --listen ADDRESS --table FILE --primary N [--dbs N] [--audit N] [--workers N] [--connections N]
                           [--idle-polls N]

It answers the request frames of any number of connections for 1 to 16 databases, as docs/FORMATS.md says, until it is
ended. The pass in an entry of the audit list is the number of its connection. It never replies NoMemory or Spent, takes all
the time and memory that Python takes, and nothing is proved of it. It has a thread for each connection, and no limit of them.
"""

import argparse
import pathlib
import socketserver
import sys
import threading

sys.dont_write_bytecode = True
from model import MalformedBody, Model, read_request
from table_text import Texts
from wire import frame

LONGEST_REQUEST, LONGEST_TEXT = 65536, 65506
NO_DATABASE = b"\x09"


class Databases:
    """Models by their numbers, each with its lock. They share the texts of tables."""

    def __init__(self, count, table, primary, limit):
        texts = Texts()
        self.found = [(threading.Lock(), Model(texts, table, primary, limit)) for _ in range(count)]

    def reply(self, body, under):
        try:
            q = read_request(body)
        except MalformedBody as fault:
            return bytes([10, fault.code])
        if q["database"] >= len(self.found):
            return NO_DATABASE
        lock, model = self.found[q["database"]]
        with lock:
            return model.answer(q, under)[1]


class Connection(socketserver.StreamRequestHandler):
    """One connection: each reply is written before the next frame is read. A frame that is cut or too long ends it."""

    disable_nagle_algorithm = True

    def handle(self):
        number = self.server.number_of_connection()
        try:
            while len(head := self.rfile.read(4)) == 4:
                length = int.from_bytes(head, "big")
                if length > LONGEST_REQUEST:
                    return
                body = self.rfile.read(length)
                if len(body) < length:
                    return
                self.wfile.write(frame(self.server.databases.reply(body, number)))
        except ConnectionError:
            pass


class Server(socketserver.ThreadingTCPServer):
    allow_reuse_address, daemon_threads, request_queue_size = True, True, 64

    def __init__(self, address, databases):
        self.databases, self.connections, self.counting = databases, 0, threading.Lock()
        super().__init__(address, Connection)

    def number_of_connection(self):
        with self.counting:
            self.connections += 1
            return self.connections


def number_up_to(least, most):
    def parsed(text):
        if not least <= int(text) <= most:
            raise ValueError
        return int(text)

    parsed.__name__ = f"number from {least} to {most}"
    return parsed


def arguments():
    parser = argparse.ArgumentParser(
        prog="model", description="The reference model of pagelog as a service over TCP."
    )
    serve = parser.add_subparsers(required=True).add_parser(
        "serve", help="answers the request frames of connections"
    )
    serve.add_argument(
        "--listen",
        required=True,
        metavar="ADDRESS",
        help="as 127.0.0.1:7400; port 0 takes a free one",
    )
    serve.add_argument(
        "--table",
        required=True,
        metavar="FILE",
        type=pathlib.Path,
        help="the table of each database",
    )
    serve.add_argument(
        "--primary",
        required=True,
        metavar="N",
        type=number_up_to(0, 2**32 - 1),
        help="the first primary",
    )
    serve.add_argument(
        "--dbs",
        default=1,
        metavar="N",
        type=number_up_to(1, 16),
        help="how many databases there are, 1 to 16",
    )
    serve.add_argument(
        "--audit",
        default=65536,
        metavar="N",
        type=number_up_to(1, 2**24),
        help="how many entries each audit list holds",
    )
    for word in ("--workers", "--connections", "--idle-polls"):
        serve.add_argument(
            word, metavar="N", type=int, help="taken as pagelog takes it, and without effect"
        )
    return parser.parse_args()


def fail(fault):
    sys.exit(f"fault: {fault}")


def main():
    words = arguments()
    try:
        text = words.table.read_bytes()
    except OSError:
        fail("file")
    if len(text) > LONGEST_TEXT:
        fail("file")
    table = Texts()[text]
    if isinstance(table, int):
        fail(f"table {table}")
    if words.primary not in table.tokens:
        fail("not listed")
    host, _, port = words.listen.rpartition(":")
    try:
        server = Server((host, int(port)), Databases(words.dbs, table, words.primary, words.audit))
    except (OSError, ValueError, OverflowError):
        fail("address")
    print("listening {}:{}".format(*server.server_address), flush=True)
    print(
        "model: this is the reference model in Python, and not pagelog: nothing is proved of it",
        file=sys.stderr,
        flush=True,
    )
    try:
        server.serve_forever()
    except KeyboardInterrupt:
        pass


main()
