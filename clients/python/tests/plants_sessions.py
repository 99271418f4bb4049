"""Of a keeper's sessions at PostgreSQL."""

from plant import Plant

PLANTS = {
    "sessions, never retrieved": Plant("session", "                _look_at(work)  # it may", "                # it may", "meanwhile", "never_retrieved"),
}  # fmt: skip
