"""Page servers: copies of a named database on a disk of their own, which readers use.

    process     one `pagelog-pages`, which keeps the pages of a database and answers: what it is told, and where it is
    table       the table of a page server's run, as that program takes it
    following   one database: its rows in PostgreSQL, where its page server begins, and the archived blocks that it is given
    serving     all databases of a folder: `pagelogctl pages`
    metrics     what Prometheus is told of them, and of their certificate
"""
