"""SQLAlchemy's own tests of a database, those that each dialect has to pass."""

from __future__ import annotations

from sqlalchemy.testing.suite import *  # noqa: F401, F403
