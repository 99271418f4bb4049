"""The reference model: what a database decides and does, written from docs/RULES.md, FORMATS.md and TABLES.md alone.

It shares no code with the service, nor with the client library, and needs nothing but Python. The scripts test the service
against it, and `pagelogctl replay` decides the lines of an audit list again by it.
"""
