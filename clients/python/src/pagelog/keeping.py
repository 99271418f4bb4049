"""What is done with an archive and services, by one name: archiving, comparing, restoring and moving."""

from pagelog.archive.archiving import Archiver
from pagelog.comparing import (
    PULLS,
    OtherLog,
    Progress,
    Verified,
    all_blocks,
    compare,
    no_progress,
    verify,
    whole,
)
from pagelog.moving import Move, Moved, NoRoom, NotFenced, SameDatabase
from pagelog.restoring import OtherService, fill, restore

__all__ = [
    "PULLS",
    "Archiver",
    "Move",
    "Moved",
    "NoRoom",
    "NotFenced",
    "OtherLog",
    "OtherService",
    "Progress",
    "SameDatabase",
    "Verified",
    "all_blocks",
    "compare",
    "fill",
    "no_progress",
    "restore",
    "verify",
    "whole",
]
