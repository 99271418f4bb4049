"""The client's own calls, by ctypes, from the library with sanitizers."""

import ctypes
import os
from ctypes import (
    POINTER,
    Structure,
    byref,
    c_bool,
    c_char_p,
    c_int,
    c_size_t,
    c_ssize_t,
    c_uint,
    c_uint8,
    c_uint16,
    c_uint32,
    c_uint64,
)
from ctypes import c_void_p

from service import CLIENT

LIBRARY = os.environ.get("PAGELOG_LIBRARY") or str(CLIENT / "out" / "checked" / "pagelog_vfs.so")
lib = ctypes.CDLL(LIBRARY)

OUTCOMES = [
    "done",
    "lost",
    "fenced",
    "in doubt",
    "conflict",
    "denied",
    "no memory",
    "audit list full",
    "malformed",
]
DONE, LOST, FENCED, IN_DOUBT, CONFLICT, DENIED, NO_MEMORY, AUDIT_FULL, MALFORMED = OUTCOMES
PRIMARY, SECONDARY, PAGE_SERVER, OPERATOR = 1, 2, 3, 4
NO_SPIN = 2**32 - 1
Token = c_uint8 * 16


def token(principal):
    return Token(*[0x11 * principal % 256] * 16)


class Request(Structure):
    _fields_ = [
        ("principal", c_uint32),
        ("token", Token),
        ("role", c_uint8),
        ("database", c_uint32),
        ("epoch", c_uint32),
        ("operation", c_uint8),
        ("copy", c_uint8),
        ("exact", c_uint8),
        ("lo", c_uint16),
        ("hi", c_uint16),
        ("max", c_uint16),
        ("partition", c_uint16),
        ("steps", c_uint16),
        ("page", c_uint32),
        ("to", c_uint32),
        ("lsn", c_uint64),
        ("bytes", c_void_p),
        ("length", c_size_t),
    ]


class Reply(Structure):
    _fields_ = [
        ("kind", c_uint8),
        ("section", c_uint8),
        ("row", c_uint16),
        ("value", c_uint64),
        ("code", c_uint8),
        ("count", c_uint16),
        ("next", c_uint64),
        ("at", c_uint64),
        ("epoch", c_uint32),
        ("primary", c_uint32),
        ("hard", c_uint64),
        ("pending", c_uint64),
        ("landing", c_uint64),
        ("bytes", c_void_p),
        ("length", c_size_t),
    ]

    def data(self):
        return ctypes.string_at(self.bytes, self.length) if self.bytes else b""


class AuditLine(Structure):
    _fields_ = [
        ("number", c_uint64),
        ("pass_", c_uint64),
        ("principal", c_uint32),
        ("role", c_uint8),
        ("epoch", c_uint32),
        ("operation", c_uint8),
        ("a", c_uint64),
        ("b", c_uint64),
        ("section", c_uint8),
        ("row", c_uint16),
        ("value", c_uint64),
    ]


class Record(Structure):
    _fields_ = [("page", c_uint32), ("offset", c_uint16), ("length", c_uint16), ("bytes", c_void_p)]


class Records(Structure):
    _fields_ = [("lsn", c_uint64), ("left", c_uint16), ("at", c_void_p)]


class Options(Structure):
    _fields_ = [
        ("address", c_char_p),
        ("principal", c_uint32),
        ("token", Token),
        ("database", c_uint32),
        ("connect_ms", c_uint),
        ("reply_ms", c_uint),
        ("patience_ms", c_uint),
        ("spin_us", c_uint),
        ("copies", c_uint),
        ("quorum", c_uint),
        ("tls", c_void_p),
    ]


class Zone(Structure):
    _fields_ = [("copies", c_uint), ("quorum", c_uint), ("is_seen", c_bool)]


class Counts(Structure):
    _fields_ = [
        (name, c_uint64)
        for name in (
            "requests",
            "replies",
            "bytes_sent",
            "bytes_received",
            "round_trips",
            "connects",
        )
    ]


def declare(name, result, *arguments):
    function = getattr(lib, name)
    function.restype, function.argtypes = result, arguments


declare("pagelog_new", c_void_p, POINTER(Options))
declare("pagelog_blocks_new", c_void_p)
declare("pagelog_blocks_restart", None, c_void_p, c_uint64)
declare("pagelog_blocks_put", c_uint, c_void_p, c_uint32, c_uint16, c_char_p, c_uint16)
declare("pagelog_blocks_room", c_uint64, c_void_p, c_uint32, c_uint16)
declare("pagelog_blocks_is_fresh", c_bool, c_void_p)
declare("pagelog_blocks_zero", c_uint, c_void_p, c_uint32)
declare("pagelog_blocks_difference", c_uint, c_void_p, c_uint32, c_char_p, c_char_p)
declare("pagelog_blocks_end", c_uint, c_void_p)
declare("pagelog_blocks_count", c_size_t, c_void_p)
declare("pagelog_blocks_drop", None, c_void_p, c_size_t)
declare("pagelog_blocks_at", c_void_p, c_void_p, c_size_t, POINTER(c_size_t))
declare("pagelog_blocks_free", None, c_void_p)
declare("pagelog_encode_request", c_size_t, POINTER(Request), c_char_p, c_size_t)
declare("pagelog_decode_reply", c_uint, c_char_p, c_size_t, POINTER(Reply))
declare("pagelog_outcome_of", c_uint, POINTER(Reply))
declare("pagelog_block_fault", c_uint, c_char_p, c_size_t)
declare("pagelog_read_audit_line", None, c_char_p, POINTER(AuditLine))
declare("pagelog_records_begin", None, POINTER(Records), c_char_p)
declare("pagelog_records_next", c_bool, POINTER(Records), POINTER(Record))
declare("pagelog_next_block", c_void_p, POINTER(Reply), POINTER(c_size_t), POINTER(c_size_t))
declare("pagelog_end", c_uint64, c_void_p)
declare("pagelog_zone_of", Zone, c_void_p)
declare("pagelog_epoch", c_uint32, c_void_p)
declare("pagelog_writing_epoch", c_uint32, c_void_p)
declare("pagelog_is_restarted", c_bool, c_void_p)
declare("pagelog_refused", POINTER(Reply), c_void_p)
declare("pagelog_explain", None, c_void_p, c_char_p, c_size_t)
declare("pagelog_counts_of", Counts, c_void_p)
declare("pagelog_set_spin", None, c_void_p, c_uint)
declare("pagelog_spin", c_uint, c_void_p)
declare("pagelog_outcome_name", c_char_p, c_uint)
declare("pagelog_send", c_uint, c_void_p, POINTER(Request))
declare("pagelog_send_as", c_uint, c_void_p, POINTER(Request))
declare("pagelog_receive", c_uint, c_void_p, POINTER(Reply))
declare("pagelog_in_flight", c_size_t, c_void_p)
declare("pagelog_status", c_uint, c_void_p, c_uint, POINTER(Reply))
declare("pagelog_get", c_uint, c_void_p, c_uint, c_uint64, POINTER(c_uint32), c_size_t, c_char_p)
declare("pagelog_pull", c_uint, c_void_p, c_uint64, c_uint, POINTER(Reply))
declare("pagelog_take_over", c_uint, c_void_p, c_uint32, POINTER(c_uint8), c_uint32)
declare("pagelog_join", c_uint, c_void_p)
declare("pagelog_append", c_uint, c_void_p, c_void_p, c_uint)
declare("pagelog_append_ahead", None, c_void_p, c_void_p, c_uint)
declare("pagelog_append_unwaited", c_bool, c_void_p, c_void_p, c_uint)
declare("pagelog_append_is_due", c_bool, c_void_p)
declare("pagelog_append_is_answered", c_bool, c_void_p)
declare("pagelog_tidy_up", None, c_void_p, c_uint32, POINTER(c_uint8))
declare("pagelog_disconnect", None, c_void_p)
declare("pagelog_free", None, c_void_p)

assert [lib.pagelog_outcome_name(i).decode() for i in range(9)] == OUTCOMES


def name(outcome):
    return OUTCOMES[outcome]


def request(role, operation, data=None, **fields):
    made = Request(role=role, operation=operation, **fields)
    if data is not None:
        made.kept = ctypes.create_string_buffer(data, max(len(data), 1))
        made.bytes, made.length = ctypes.cast(made.kept, c_void_p), len(data)
    return made


def encode(made):
    body = ctypes.create_string_buffer(65536)
    length = lib.pagelog_encode_request(byref(made), body, 65536)
    return body.raw[:length]


def exact_buffer(data):
    """The bytes in memory of just their length, so that a sanitizer sees a read past their end."""
    return (ctypes.c_char * len(data)).from_buffer_copy(data) if data else (ctypes.c_char * 1)()


def decode(body):
    """Fault and reply."""
    reply = Reply()
    reply.kept = exact_buffer(body)
    return (
        lib.pagelog_decode_reply(ctypes.cast(reply.kept, c_char_p), len(body), byref(reply)),
        reply,
    )


def outcome_of(reply):
    return name(lib.pagelog_outcome_of(byref(reply)))


def records_of(block):
    """LSN and records of a block, as (page,) or (page, offset, bytes)."""
    kept = exact_buffer(block)
    records, record, found = Records(), Record(), []
    lib.pagelog_records_begin(byref(records), ctypes.cast(kept, c_char_p))
    while lib.pagelog_records_next(byref(records), byref(record)):
        put = (
            (record.offset, ctypes.string_at(record.bytes, record.length)) if record.length else ()
        )
        found.append((record.page, *put))
    return records.lsn, found


def blocks_of(reply):
    at, length, found = c_size_t(0), c_size_t(0), []
    while True:
        block = lib.pagelog_next_block(byref(reply), byref(at), byref(length))
        if not block:
            return found
        found.append(ctypes.string_at(block, length.value))


class Blocks:
    def __init__(self, first_lsn=1):
        self.made = lib.pagelog_blocks_new()
        lib.pagelog_blocks_restart(self.made, first_lsn)

    def __del__(self):
        lib.pagelog_blocks_free(self.made)

    def put(self, page, offset, data):
        return name(lib.pagelog_blocks_put(self.made, page, offset, data, len(data)))

    def room(self, page, length):
        return lib.pagelog_blocks_room(self.made, page, length)

    def zero(self, page):
        return name(lib.pagelog_blocks_zero(self.made, page))

    def difference(self, page, old, new):
        return name(lib.pagelog_blocks_difference(self.made, page, old, new))

    def end(self):
        return name(lib.pagelog_blocks_end(self.made))

    def drop(self, count):
        lib.pagelog_blocks_drop(self.made, count)

    def all(self):
        length, found = c_size_t(), []
        for i in range(lib.pagelog_blocks_count(self.made)):
            at = lib.pagelog_blocks_at(self.made, i, byref(length))
            found.append(ctypes.string_at(at, length.value))
        return found


def numbered(first, count, size=20, page=0):
    """`count` blocks, each of which puts its LSN again and again, in at least `size` bytes."""
    blocks = Blocks(first)
    for lsn in range(first, first + count):
        assert blocks.put(page, 0, lsn.to_bytes(8, "big") * (size // 8 + 1)) == DONE
        assert blocks.end() == DONE
    return blocks


class TlsFiles(Structure):
    _fields_ = [("sslrootcert", c_char_p), ("sslcert", c_char_p), ("sslkey", c_char_p)]


declare("pagelog_tls_new", c_void_p, POINTER(TlsFiles), c_char_p, c_size_t)
declare("pagelog_tls_free", None, c_void_p)
declare("pagelog_secure_begin", c_void_p, c_void_p, c_int, c_char_p, c_char_p)
declare("pagelog_secure_shake", c_int, c_void_p)
declare("pagelog_secure_receive", c_ssize_t, c_void_p, c_void_p, c_size_t, c_int)
declare("pagelog_secure_holds", c_bool, c_void_p)
declare("pagelog_secure_has_ended", c_bool, c_void_p)
declare("pagelog_secure_end", None, c_void_p)


class Tls:
    """Whom a client believes. It is kept as long as what uses it."""

    def __init__(self, sslrootcert=None, sslcert=None, sslkey=None):
        why, files = ctypes.create_string_buffer(256), (sslrootcert, sslcert, sslkey)
        self.made = lib.pagelog_tls_new(
            byref(TlsFiles(*(path and path.encode() for path in files))), why, 256
        )
        self.why = why.value.decode()

    def __del__(self):
        lib.pagelog_tls_free(self.made)


class Log:
    """An object of the wire."""

    def __init__(
        self,
        address,
        principal,
        database=0,
        key=None,
        connect_ms=0,
        reply_ms=300000,
        patience_ms=0,
        copies=0,
        quorum=0,
        spin_us=0,
        tls=None,
    ):
        options = Options(
            address.encode(),
            principal,
            key or token(principal),
            database,
            connect_ms,
            reply_ms,
            patience_ms,
            spin_us,
            copies,
            quorum,
            tls and tls.made,
        )
        self.tls = tls
        self.made = lib.pagelog_new(byref(options))

    def __enter__(self):
        return self

    def __exit__(self, *_):
        lib.pagelog_free(self.made)
        self.made = None

    def send(self, made, whole=False):
        call = lib.pagelog_send_as if whole else lib.pagelog_send
        return name(call(self.made, byref(made)))

    def receive(self):
        reply = Reply()
        return name(lib.pagelog_receive(self.made, byref(reply))), reply

    def ask(self, role, operation, data=None, **fields):
        sent = self.send(request(role, operation, data, **fields))
        return self.receive() if sent == DONE else (sent, Reply())

    def in_flight(self):
        return lib.pagelog_in_flight(self.made)

    def status(self, role=PRIMARY):
        reply = Reply()
        return name(lib.pagelog_status(self.made, role, byref(reply))), reply

    def get(self, role, lsn, pages):
        out = ctypes.create_string_buffer(max(8192 * len(pages), 1))
        outcome = name(
            lib.pagelog_get(self.made, role, lsn, (c_uint32 * len(pages))(*pages), len(pages), out)
        )
        return outcome, [out.raw[8192 * i : 8192 * (i + 1)] for i in range(len(pages))]

    def pull(self, lsn, most=16):
        reply = Reply()
        return name(lib.pagelog_pull(self.made, lsn, most, byref(reply))), reply

    def take_over(self, expected=0, operator=1):
        return name(lib.pagelog_take_over(self.made, operator, token(operator), expected))

    def join(self):
        return name(lib.pagelog_join(self.made))

    def append(self, blocks, copies=0):
        return name(lib.pagelog_append(self.made, blocks.made, copies))

    def append_ahead(self, blocks, copies=0):
        lib.pagelog_append_ahead(self.made, blocks.made, copies)

    def append_unwaited(self, blocks, copies=0):
        return lib.pagelog_append_unwaited(self.made, blocks.made, copies)

    def is_due(self):
        return lib.pagelog_append_is_due(self.made)

    def is_answered(self):
        return lib.pagelog_append_is_answered(self.made)

    def tidy_up(self, operator=1):
        """In the name of an operator, or of none."""
        lib.pagelog_tidy_up(self.made, operator or 0, token(operator) if operator else None)

    def disconnect(self):
        lib.pagelog_disconnect(self.made)

    def set_spin(self, us):
        lib.pagelog_set_spin(self.made, us)

    @property
    def zone(self):
        """Copies, quorum, and whether replies have shown them."""
        zone = lib.pagelog_zone_of(self.made)
        return zone.copies, zone.quorum, zone.is_seen

    spin = property(lambda self: lib.pagelog_spin(self.made))
    end = property(lambda self: lib.pagelog_end(self.made))
    epoch = property(lambda self: lib.pagelog_epoch(self.made))
    writing_epoch = property(lambda self: lib.pagelog_writing_epoch(self.made))
    is_restarted = property(lambda self: lib.pagelog_is_restarted(self.made))
    counts = property(lambda self: lib.pagelog_counts_of(self.made))
    refused = property(lambda self: lib.pagelog_refused(self.made).contents)

    @property
    def row(self):
        return "?ABC"[self.refused.section] + str(self.refused.row), self.refused.value

    @property
    def words(self):
        text = ctypes.create_string_buffer(200)
        lib.pagelog_explain(self.made, text, 200)
        return text.value.decode()


DATABASE = "00000000-0000-4000-8000-000000000001"  # of a stub, by default


class Place(Structure):
    _fields_ = [
        ("generation", c_uint64),
        ("database", ctypes.c_char * 40),
        ("ancestor", ctypes.c_char * 256),
        ("run", ctypes.c_char * 80),
        ("after", ctypes.c_char * 80),
        ("address", ctypes.c_char * 256),
        ("lines", ctypes.c_char * 256),
        ("archived", c_uint64),
        ("base", c_uint64),
        ("shift", ctypes.c_int64),
        ("kept", c_uint64),
        ("copied", c_uint64),
        ("pages", c_uint),
        ("is_page_server", c_bool),
    ]


class Fate(Structure):
    _fields_ = [("end", c_uint64), ("is_over", c_bool), ("loss", c_uint)]


declare("pagelog_keepers_new", c_void_p, c_char_p, c_char_p, c_void_p)
declare("pagelog_keepers_free", None, c_void_p)
declare("pagelog_where", c_uint, c_void_p, c_uint64, POINTER(Place))
declare("pagelog_fate_of", c_uint, c_void_p, c_char_p, POINTER(Place), c_uint64, POINTER(Fate))
declare("pagelog_token_of_run", None, c_void_p, Token, c_char_p, Token)
declare("pagelog_keepers_prove", None, c_void_p, c_uint32, Token)
declare("pagelog_read_nonce", None, c_char_p, c_char_p)
declare("pagelog_write_proof", c_size_t, c_void_p, c_char_p, c_char_p)


class Proof(Structure):
    """What is proved to a keeper, and the line that does."""

    _fields_ = [
        ("is_there", c_bool),
        ("principal", c_uint32),
        ("token", Token),
        ("name", ctypes.c_char * 256),
        ("of", ctypes.c_char * 120),
    ]

    def line(self, nonce):
        text = ctypes.create_string_buffer(1024)
        length = lib.pagelog_write_proof(byref(self), nonce, text)
        return text.raw[:length]


def nonce_of(answer):
    """What a keeper has said to prove something with, in its answer to the greeting."""
    nonce = ctypes.create_string_buffer(33)
    lib.pagelog_read_nonce(answer, nonce)
    return nonce.value


class Keepers:
    """What keepers say of a database."""

    def __init__(self, addresses, name="shop", tls=None):
        self.tls = tls
        self.made = lib.pagelog_keepers_new(addresses.encode(), name.encode(), tls and tls.made)

    def __enter__(self):
        return self

    def __exit__(self, *_):
        lib.pagelog_keepers_free(self.made)

    def where(self, least=0):
        place = Place()
        return name(lib.pagelog_where(self.made, least, byref(place))), place

    def fate(self, generation, position, lines=None, database=DATABASE, run=None):
        """Of the run of a stub's generation, by default."""
        fate, place = Fate(), Place(
            generation=generation,
            database=database.encode(),
            run=(run or f"run{generation}").encode(),
        )
        return (
            name(
                lib.pagelog_fate_of(
                    self.made, lines and lines.encode(), byref(place), position, byref(fate)
                )
            ),
            fate,
        )

    def prove(self, principal, key):
        lib.pagelog_keepers_prove(self.made, principal, Token(*key))

    def token(self, key, run):
        made = Token()
        lib.pagelog_token_of_run(self.made, Token(*key), run.encode(), made)
        return bytes(made)


class FileOptions(Structure):
    _fields_ = [
        ("service", Options),
        ("reads_only", c_bool),
        ("has_operator", c_bool),
        ("operator", c_uint32),
        ("operator_token", Token),
        ("written", c_uint),
        ("unwaited", c_uint),
        ("check_ms", c_uint),
        ("cache_pages", c_size_t),
        ("at", c_uint64),
        ("may_be_stale", c_bool),
        ("name", c_char_p),
        ("keepers", c_char_p),
        ("database_name", c_char_p),
        ("move_ms", c_uint),
        ("durable_only", c_bool),
        ("pages", c_uint),
    ]


class State(Structure):
    _fields_ = [
        ("is_writer", c_bool),
        ("is_fenced", c_bool),
        ("is_broken", c_bool),
        ("is_stale", c_bool),
        ("is_restarted", c_bool),
        ("is_foreign", c_bool),
        ("is_misnamed", c_bool),
        ("is_over", c_bool),
        ("is_named", c_bool),
        ("is_gone", c_bool),
        ("is_dropped", c_bool),
        ("generation", c_uint64),
        ("position", c_uint64),
        ("durable", c_uint64),
        ("committed", c_uint64),
        ("moves", c_uint64),
        ("resent", c_uint64),
        ("lsn", c_uint64),
        ("end", c_uint64),
        ("size", c_uint64),
        ("transaction", c_uint64),
        ("epoch", c_uint32),
        ("writing_epoch", c_uint32),
        ("zone", Zone),
        ("cached_pages", c_size_t),
        ("check_ms", c_uint),
        ("spin_us", c_uint),
        ("unwaited", c_uint),
        ("on_their_way", c_uint64),
        ("losses", c_uint64),
        ("commits", c_uint64),
        ("repairs", c_uint64),
        ("pages_fetched", c_uint64),
        ("blocks_written", c_uint64),
        ("pages_copied", c_uint64),
        ("wire", Counts),
    ]


declare("pagelog_file_new", c_void_p, POINTER(FileOptions))
declare("pagelog_file_free", None, c_void_p)
declare("pagelog_file_open", c_uint, c_void_p)
declare("pagelog_file_begin", c_uint, c_void_p)
declare("pagelog_file_read", c_uint, c_void_p, c_uint64, c_char_p, c_size_t, POINTER(c_size_t))
declare("pagelog_file_write", c_uint, c_void_p, c_uint64, c_char_p, c_size_t)
declare("pagelog_file_resize", c_uint, c_void_p, c_uint64)
declare("pagelog_file_size", c_uint64, c_void_p)
declare("pagelog_file_commit", c_uint, c_void_p)
declare("pagelog_file_settle", c_uint, c_void_p)
declare("pagelog_file_undo", None, c_void_p)
declare("pagelog_file_state_of", State, c_void_p)
declare("pagelog_file_explain", None, c_void_p, c_char_p, c_size_t)
declare("pagelog_stand", None, c_void_p, c_uint)
declare("pagelog_have", None, c_void_p, c_uint)
declare("pagelog_go", None, c_void_p, c_uint)
declare("pagelog_hear", None, c_void_p, c_uint)


class File:
    """A file with transactions."""

    def __init__(
        self,
        address,
        principal,
        reads_only=False,
        operator=None,
        written=0,
        check_ms=0,
        cache_pages=0,
        at=0,
        may_be_stale=False,
        database=0,
        reply_ms=300000,
        patience_ms=0,
        copies=0,
        quorum=0,
        unwaited=0,
        name=None,
        keepers=None,
        tokens=token,
    ):
        service = Options(
            address and address.encode(),
            principal,
            tokens(principal),
            database,
            0,
            reply_ms,
            patience_ms,
            0,
            copies,
            quorum,
        )
        options = FileOptions(
            service,
            reads_only,
            operator is not None,
            operator or 0,
            tokens(operator or 0),
            written,
            unwaited,
            check_ms,
            cache_pages,
            at,
            may_be_stale,
            None if keepers else name and name.encode(),
            keepers and keepers.encode(),  # who know the name
            keepers and name.encode(),
            300000,
        )
        self.made = lib.pagelog_file_new(byref(options))

    def __enter__(self):
        return self

    def __exit__(self, *_):
        lib.pagelog_file_free(self.made)
        self.made = None

    def open(self):
        return name(lib.pagelog_file_open(self.made))

    def begin(self):
        return name(lib.pagelog_file_begin(self.made))

    def read(self, offset, length):
        out, count = ctypes.create_string_buffer(max(length, 1)), c_size_t()
        outcome = name(lib.pagelog_file_read(self.made, offset, out, length, byref(count)))
        return outcome, out.raw[: count.value]

    def write(self, offset, data):
        return name(lib.pagelog_file_write(self.made, offset, data, len(data)))

    def resize(self, size):
        return name(lib.pagelog_file_resize(self.made, size))

    def commit(self):
        return name(lib.pagelog_file_commit(self.made))

    def settle(self):
        return name(lib.pagelog_file_settle(self.made))

    def undo(self):
        lib.pagelog_file_undo(self.made)

    size = property(lambda self: lib.pagelog_file_size(self.made))
    state = property(lambda self: lib.pagelog_file_state_of(self.made))

    @property
    def words(self):
        text = ctypes.create_string_buffer(200)
        lib.pagelog_file_explain(self.made, text, 200)
        return text.value.decode()

    def whole(self):
        """All bytes of the file."""
        outcome, data = self.read(0, self.size)
        assert outcome == DONE, (outcome, self.words)
        return data
