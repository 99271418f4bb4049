"""Keepers: named databases that live on several machines, with one PostgreSQL as the referee.

A keeper runs on each machine, as `pagelogctl keep`. It starts services, archives what they harden, answers clients where a
named database is and how far it is durable, and takes over what another keeper has let go of.

    session     the event loop's way to the statements of pagelog.referee
    table       the table of one run of a service, whose tokens clients make too; `grants` says who may see it
    run         one process of a service, its files, its adoption; their folder is locked by `folder`
    runner      has services run as another user, by runner_process; `unix` has sockets by paths
    loading     fills a service from the archive, as frames
    machine     what a keeper decides, without any IO
    looker      looks at a service in the event loop
    served      a service that this keeper has, what is known of it, and what is asked of it
    fast_path   archives what is hardened, in a thread of C: fast_plane is that thread and its sessions (`quick`), fast_path_plane.c
                its loop, fast_path_service.c pulls, fast_path_statement.c keeps, fast_path_lines.c answers
    archiver    begins that for a database, and sees to what it leaves; doubts looks up what became of a batch
    recorder    keeps the audit lists beside the blocks
    lines       the line protocol; waits has who waits, turns whose turn it is to write, proving who a line's principal is
    front       the one haproxy by which clients reach all of it by TLS; haproxy is its process, front_care sees to it, certificate reads
                its files, fronted and proxied hear the lines that come through it
    shared      what the databases of a keeper share
    database    one database of a keeper: does what is decided; beginning, standing, succession, switch and ending have how
    basing      makes images of pages; storing takes old blocks to a store
    keeping     the loop around all of it
"""
