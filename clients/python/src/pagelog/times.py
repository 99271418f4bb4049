"""Times as people write and read them: one reader and one spelling for all tools."""

from __future__ import annotations

import re
from datetime import datetime, time, timedelta, timezone, tzinfo

FORMS = "14:05, 14:05:30, 2026-11-28T14:05 or 2026-11-28T14:05+01:00"
"""How a time may be written."""
_OF_DAY = re.compile(r"\d\d(:|$)")


def moment(text: str, after: datetime | None, now: datetime) -> datetime:
    """The time of a text as 14:05, 14:05:30 or 2026-11-28T14:05, in the zone of `now` unless it names one. Where `now` has none, it is
    this machine's, by the rules that it had at that time.

    A time of day is the last one that has passed, or with `after` the first one behind that. Raises `ValueError`.
    """
    try:
        return _moment(text, after, now)
    except OverflowError as error:  # of a year at the end of the calendar, in another zone
        raise ValueError(str(error)) from error


def _moment(text: str, after: datetime | None, now: datetime) -> datetime:
    if _OF_DAY.match(text) is None:
        found = datetime.fromisoformat(text)
        return found if found.tzinfo else _in_zone(found, now.tzinfo)
    of_day = time.fromisoformat(text)
    zone = of_day.tzinfo or now.tzinfo
    base = (after or now).astimezone(zone)
    near = [
        datetime.combine(base.date() + timedelta(days), of_day.replace(tzinfo=None))
        for days in (-1, 0, 1)
    ]
    if after is None:
        return max(found for found in (_in_zone(each, zone) for each in near) if found <= base)
    return min(found for found in (_in_zone(each, zone) for each in near) if found > base)


def _in_zone(found: datetime, zone: tzinfo | None) -> datetime:
    return found.astimezone() if zone is None else found.replace(tzinfo=zone)


def in_both_zones(when: datetime | None) -> str:
    """A time in this machine's zone and in UTC, once where they are the same.

    What is below a millisecond is rounded up, so that the time of what is kept may be given back to `restore --at`.
    """
    if when is None:
        return "a time that was not noted"
    if when.microsecond % 1000:
        when += timedelta(microseconds=-when.microsecond % 1000)
    here, utc = when.astimezone(), when.astimezone(timezone.utc).replace(tzinfo=None)
    said = f"{_spelled(utc)} UTC"
    return said if here.utcoffset() == timedelta() else f"{_spelled(here)} ({said})"


def _spelled(when: datetime) -> str:
    return when.isoformat(sep=" ", timespec="milliseconds" if when.microsecond else "seconds")


def duration(seconds: float | None) -> str:
    """As people read it: `45 s`, `12 min`, `3.2 h`, `9 d`."""
    if seconds is None:
        return "-"
    for size, unit in ((86400 * 2, 86400), (7200, 3600), (120, 60)):
        if seconds >= size:
            word = {86400: "d", 3600: "h", 60: "min"}[unit]
            return f"{seconds / unit:.1f} {word}"
    return f"{seconds:.0f} s"
