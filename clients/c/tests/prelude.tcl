# Runs a script of SQLite's own tests (test/*.test of its sources) over the service.
#
#   testfixture prelude.tcl EXTENSION ADDRESS SCRIPT
#
# Databases named test.db, test2.db and so on are the databases 0, 1 .. of the service at ADDRESS, or where that is `where=KEEPERS`
# the databases t0, t1 .. of these keepers, also in an ATTACH by name; every other file stays where it was. A database that a script
# deletes is made empty instead, since the service keeps what it has. Tests that look at the files themselves cannot pass: their names
# and sizes, the journal beside them, how often they were synced, a second process, WAL.

set extension [lindex $argv 0]
set address [lindex $argv 1]
set script [lindex $argv 2]
set argv [lrange $argv 3 end]
set argv0 $script

rename sqlite3 sqlite3_plain
sqlite3_plain loader :memory:
sqlite3_enable_load_extension loader 1
loader eval {SELECT load_extension($extension)}
loader close

# The number of the database that a file of the tests is, or -1.
proc database_of {name} {
    switch -- [file tail $name] {
        test.db {return 0}
        test2.db - test.db2 {return 1}
        test3.db - test.db3 {return 2}
        test4.db - test.db4 {return 3}
    }
    return -1
}

proc uri_of {number} {
    set two [string repeat 22 16]
    set one [string repeat 11 16]
    set account "id=2&token=$two&op=1&optoken=$one"
    if {[string match where=* $::address]} {return "file:t$number?vfs=pagelog&$::address&name=t$number&$account"}
    return "file:test$number?vfs=pagelog&to=$::address&db=$number&$account&check=1000"
}

proc sqlite3 {args} {
    if {[llength $args] >= 2} {
        set number [database_of [lindex $args 1]]
        if {$number >= 0} {
            lset args 1 [uri_of $number]
            lappend args -uri 1
        }
    }
    set made [uplevel 1 [list sqlite3_plain {*}$args]]
    if {[string match where=* $::address] && [llength $args] >= 2 && $number >= 0} {
        # Where its keeper was killed a process that had no turn before is busy for three seconds.
        uplevel 1 [list [lindex $args 0] timeout 5000]
    }
    return $made
}

# Makes a database empty, in place of deleting its file.
proc make_empty {number} {
    sqlite3_plain emptied [uri_of $number] -uri 1
    emptied timeout 60000
    sqlite3_db_config emptied RESET_DB 1
    emptied eval VACUUM
    sqlite3_db_config emptied RESET_DB 0
    emptied close
}

rename file file_plain
proc file {args} {
    if {[lindex $args 0] eq "delete"} {
        foreach name [lrange $args 1 end] {
            set number [database_of $name]
            if {$number >= 0} {make_empty $number}
        }
    }
    uplevel 1 [list file_plain {*}$args]
}

# An ATTACH of such a file in a statement is one of the database.
proc attached {sql} {
    while {[regexp -nocase {attach\s+(?:database\s+)?'((?:[^'/]*/)?test[.]?[2-4]?[.]?db[2-4]?)'} $sql -> name] && [database_of $name] >= 0} {
        set sql [string map [list '$name' '[uri_of [database_of $name]]'] $sql]
    }
    return $sql
}

# The procedures of tester.tcl that run statements are there once a script has read it.
rename source source_plain
proc source {args} {
    set result [uplevel 1 [list source_plain {*}$args]]
    if {[file_plain tail [lindex $args end]] eq "tester.tcl" && [info commands execsql_plain] eq ""} {
        foreach name {execsql catchsql} {
            rename $name ${name}_plain
            proc $name {sql {db db}} "uplevel 1 \[list ${name}_plain \[attached \$sql\] \$db\]"
        }
    }
    return $result
}

source $script
