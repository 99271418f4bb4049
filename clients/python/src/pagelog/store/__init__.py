"""Moves what is old from PostgreSQL into an object store, and sees to what is there. PostgreSQL stays the referee: its rows say which object
has what, and a listing never does."""
