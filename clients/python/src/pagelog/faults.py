"""The faults of blocks, requests and replies: a class for each code of docs/FORMATS."""

from __future__ import annotations

from typing import ClassVar

from pagelog.errors import Fault, Refusal, first_line


class FrameFault(Fault):
    """A frame is longer than its kind may be."""

    def __init__(self, length: int) -> None:
        super().__init__(f"a frame of {length} bytes is too long")


class _CodedFault(Fault):
    """Of one kind of bytes, which has codes for its faults."""

    kind: ClassVar[str]

    def __init__(self, detail: str = "", of: type[Fault] | None = None) -> None:
        sentence = first_line((of or type(self)).__doc__)
        super().__init__(f"{self.kind} fault {self.code}: {sentence}{detail and ': ' + detail}")


# A block: codes 1 to 9.


class BlockFault(_CodedFault):
    """A block's bytes are not in the format."""

    kind = "block"


class BlockEndsInField(BlockFault):
    """The block's bytes end inside a field."""

    code = 1


class LsnOutOfRange(BlockFault):
    """The block's LSN is 0 or above 2^48."""

    code = 2


class PartitionsNotRising(BlockFault):
    """A partition of the annotations is not above the one before it."""

    code = 3


class UnknownRecordKind(BlockFault):
    """The kind of a record is not 1 or 2."""

    code = 4


class EmptyPut(BlockFault):
    """A Put has no bytes."""

    code = 5


class PutPastPage(BlockFault):
    """A Put ends past its page of 8,192 bytes."""

    code = 6


class BytesAfterRecords(BlockFault):
    """There are bytes after the last record."""

    code = 7


class WrongAnnotations(BlockFault):
    """The annotations are not the partitions that the records touch."""

    code = 8


class BlockTooLong(BlockFault):
    """The block has more than 32,768 bytes."""

    code = 9


BLOCK_FAULTS: dict[int, type[BlockFault]] = {
    kind.code: kind
    for kind in (
        BlockEndsInField,
        LsnOutOfRange,
        PartitionsNotRising,
        UnknownRecordKind,
        EmptyPut,
        PutPastPage,
        BytesAfterRecords,
        WrongAnnotations,
        BlockTooLong,
    )
}
FIRST_OF_A_BLOCK = 7


class _OfABlock(_CodedFault):
    def __init__(self, code: int) -> None:
        self.code = code  # type: ignore[misc]
        self.block_fault: type[BlockFault] = BLOCK_FAULTS[code - 6]
        super().__init__(of=self.block_fault)


# A request: codes 1 to 6, and 7 to 15 for the faults of its block.


class RequestFault(_CodedFault):
    """A request's body, or a value for it, is not in the format."""

    kind = "request"


class BodyTooShort(RequestFault):
    """The body has fewer than 30 bytes."""

    code = 1


class UnknownRole(RequestFault):
    """The role is not 1 to 4."""

    code = 2


class UnknownOperation(RequestFault):
    """There is no operation of this number."""

    code = 3


class BodyEndsInArgument(RequestFault):
    """The body ends inside an argument."""

    code = 4


class BytesAfterArguments(RequestFault):
    """There are bytes after the last argument."""

    code = 5


class ArgumentOutOfRange(RequestFault):
    """An argument, or the length of a text, is out of its range."""

    code = 6


class FaultyBlock(_OfABlock, RequestFault):
    """The block of the request is faulty. `code` is the block's fault plus 6, and `block_fault` its class."""


REQUEST_FAULTS: dict[int, type[RequestFault]] = {
    kind.code: kind
    for kind in (
        BodyTooShort,
        UnknownRole,
        UnknownOperation,
        BodyEndsInArgument,
        BytesAfterArguments,
        ArgumentOutOfRange,
    )
}


def request_fault(code: int) -> RequestFault:
    """The fault of this code, 1 to 15."""
    return FaultyBlock(code) if code >= FIRST_OF_A_BLOCK else REQUEST_FAULTS[code]()


class MalformedRequest(Refusal):
    """Malformed: the service found that the body is not a request. `code` is 1 to 15, and `fault` the fault of that code."""

    def __init__(self, code: int) -> None:
        self.code = code
        self.fault = request_fault(code)
        super().__init__(str(self.fault))


# A reply: codes 1 to 6, and 7 to 15 for the faults of its blocks.


class ReplyFault(_CodedFault):
    """A reply's body is not in the format."""

    kind = "reply"


class EmptyReply(ReplyFault):
    """The reply has no byte."""

    code = 1


class UnknownRoleOfLine(ReplyFault):
    """The role of a line of the audit list is not 1 to 4."""

    code = 2


class UnknownReply(ReplyFault):
    """There is no reply of this kind, or no operation of a line's number."""

    code = 3


class ReplyEndsInField(ReplyFault):
    """The reply ends inside a field."""

    code = 4


class BytesAfterReply(ReplyFault):
    """There are bytes after the last field of the reply."""

    code = 5


class FieldOutOfRange(ReplyFault):
    """A count, a code or a section of the reply is out of its range."""

    code = 6


class FaultyBlockInReply(_OfABlock, ReplyFault):
    """A block of the reply is faulty. `code` is the block's fault plus 6, and `block_fault` its class."""
