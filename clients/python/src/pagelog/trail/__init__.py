"""The trail of a database: the lines of its audit list, each with the time at which it was seen, and what follows from them."""

from pagelog.trail.keeper import TrailKeeper
from pagelog.trail.store import BrokenTrail, NoTrail, OtherKeeper, Start, Trail, TrailList
from pagelog.trail.texts import TrailError

__all__ = [
    "BrokenTrail",
    "NoTrail",
    "OtherKeeper",
    "Start",
    "Trail",
    "TrailError",
    "TrailKeeper",
    "TrailList",
]
