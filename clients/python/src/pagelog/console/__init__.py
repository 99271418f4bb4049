"""A page that shows named databases: it reads PostgreSQL, writes nothing, and asks no keeper and no service.

`source` asks, in a thread of its own, and `board` makes of its looks what is shown; `web` serves that to browsers.
"""
