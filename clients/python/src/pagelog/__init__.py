"""A client of Kayakugli, the log and page service for databases.

    from pagelog import Primary, Put, Reader

    with Primary.at("127.0.0.1:7403", 2, "22222222222222222222222222222222") as primary:
        primary.append(Put(page=0, offset=0, data=b"hello"))
        lsn = primary.commit()

    with Reader.at("127.0.0.1:7403", 3, "33333333333333333333333333333333") as reader:
        print(reader.page(0, lsn).data[:5])
        for block in reader.blocks(1, follow=False):
            print(block.lsn, block.records)

`Primary`, `Reader`, `PageServer` and `Operator` ask in the four roles, each over a `Connection`. Whatever goes wrong is
an exception below `PagelogError`. The library needs nothing but Python 3.11.
"""

from pagelog.block import PAGE_SIZE, Block, Put, Record, Zero
from pagelog.connection import Address, Connection
from pagelog.credentials import Account, Accounts, Credentials, load
from pagelog.errors import (
    AuditListFull,
    ConnectionLost,
    CredentialsError,
    Fault,
    HoldsSqlite,
    InDoubt,
    LogWentBack,
    OutOfMemory,
    PagelogError,
    Refusal,
    TimedOut,
    TurnsSpent,
    UnexpectedReply,
    UnknownDatabase,
    Unreachable,
)
from pagelog.faults import BlockFault, FrameFault, MalformedRequest, ReplyFault, RequestFault
from pagelog.group import Group, Unwritten
from pagelog.operator import Operator
from pagelog.named import NamedPrimary
from pagelog.named_reader import NamedReader
from pagelog.page_server import PageServer
from pagelog.place import BelowBase, Dropped, Lost, NoKeeper, OlderKeepers, UnknownName, WrongToken
from pagelog.primary import Primary
from pagelog.reader import Reader, Span
from pagelog.reply import Blocks, Entry, Page, State
from pagelog.request import Operation, Role
from pagelog.rules import (
    AboveTheEnd,
    AboveTheWindow,
    BelowQuorum,
    Denial,
    HardenedAlready,
    LastEpoch,
    NewerEpoch,
    NoRowMatches,
    NoSuchCopy,
    NoTable,
    OlderEpoch,
    OtherContent,
    OtherPrimary,
    RoleLacksOperation,
    Section,
    TableFault,
    TableRow,
    UnknownPrincipal,
    UnlistedPrimary,
)
from pagelog.secure import Trust

__version__ = "0.2.0"

__all__ = [
    "AboveTheEnd",
    "AboveTheWindow",
    "Account",
    "Accounts",
    "Address",
    "AuditListFull",
    "BelowBase",
    "BelowQuorum",
    "Block",
    "BlockFault",
    "Blocks",
    "Connection",
    "ConnectionLost",
    "Credentials",
    "CredentialsError",
    "Denial",
    "Dropped",
    "Entry",
    "Fault",
    "FrameFault",
    "Group",
    "HardenedAlready",
    "HoldsSqlite",
    "InDoubt",
    "LastEpoch",
    "LogWentBack",
    "Lost",
    "MalformedRequest",
    "NamedPrimary",
    "NamedReader",
    "NewerEpoch",
    "NoKeeper",
    "NoRowMatches",
    "NoSuchCopy",
    "NoTable",
    "OlderEpoch",
    "OlderKeepers",
    "Operation",
    "Operator",
    "OtherContent",
    "OtherPrimary",
    "OutOfMemory",
    "PAGE_SIZE",
    "Page",
    "PageServer",
    "PagelogError",
    "Primary",
    "Put",
    "Reader",
    "Record",
    "Refusal",
    "ReplyFault",
    "RequestFault",
    "Role",
    "RoleLacksOperation",
    "Section",
    "Span",
    "State",
    "TableFault",
    "TableRow",
    "TimedOut",
    "Trust",
    "TurnsSpent",
    "UnexpectedReply",
    "UnknownDatabase",
    "UnknownName",
    "UnknownPrincipal",
    "UnlistedPrimary",
    "Unreachable",
    "Unwritten",
    "WrongToken",
    "Zero",
    "load",
]
