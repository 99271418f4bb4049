"""The states of a file, and the steps between them: those of the tables of pagelog_file_inside.h and
pagelog_named_steps.c, and no others."""

import os
import random
import resource

from binding import CONFLICT, DONE, FENCED, IN_DOUBT, LOST, MALFORMED, File, Token, lib
from check import run, same, true
from database import TOKENS
from file_transactions import CutsOff, opened
from service import Proxy, Service
from stub_keeper import StubKeeper, token_of

STANDINGS = ["following", "writing", "broken"]
READINGS = ["closed", "open", "gone", "over"]
PLACES = ["nowhere", "arriving", "here", "left behind", "out"]
LISTINGS = ["unheard", "unlisted", "listed"]

# From each state: how it is come to from the first one, and where it may go.
STANDING_STEPS = {
    "following": ([], {"following", "writing"}),
    "writing": (["writing"], {"following", "writing", "broken"}),
    "broken": (["writing", "broken"], {"following", "writing"}),
}
READING_STEPS = {
    "closed": ([], {"closed", "open", "gone"}),
    "open": (["open"], {"closed", "open", "gone", "over"}),
    "gone": (["open", "gone"], {"closed", "open", "gone", "over"}),
    "over": (["open", "over"], {"closed", "open", "gone", "over"}),
}
PLACE_STEPS = {
    "nowhere": ([], {"arriving"}),
    "arriving": (["arriving"], {"arriving", "here", "out"}),
    "here": (["arriving", "here"], {"arriving", "here", "left behind", "out"}),
    "left behind": (["arriving", "here", "left behind"], {"arriving", "here", "left behind"}),
    "out": (["arriving", "out"], {"arriving", "here", "out"}),
}
LISTING_STEPS = {
    "unheard": ([], {"unheard", "unlisted", "listed"}),
    "unlisted": (["unlisted"], {"unheard", "listed"}),
    "listed": (["listed"], {"unheard", "listed"}),
}
NOWHERE = "127.0.0.1:1"


def makes(step, file, numbers):
    """Whether these steps are made: else the process, which is a child, ends at one."""
    child = os.fork()
    if child == 0:
        resource.setrlimit(resource.RLIMIT_CORE, (0, 0))
        os.dup2(os.open(os.devnull, os.O_WRONLY), 2)
        for number in numbers:
            step(file.made, number)
        os._exit(0)
    return os.waitpid(child, 0)[1] == 0


def steps_made(step, names, table, file):
    """Of each state those that can be gone to."""
    return {
        old: {
            new
            for new in names
            if makes(step, file, [names.index(name) for name in [*before, new]])
        }
        for old, (before, _) in table.items()
    }


def test_steps_that_are_none_end_a_checked_build():
    """So that a test which comes to one fails. Each of the others is made."""
    with File(None, 2, operator=1, name="shop", keepers=NOWHERE) as file:
        for step, names, table in (
            (lib.pagelog_stand, STANDINGS, STANDING_STEPS),
            (lib.pagelog_have, READINGS, READING_STEPS),
            (lib.pagelog_go, PLACES, PLACE_STEPS),
            (lib.pagelog_hear, LISTINGS, LISTING_STEPS),
        ):
            wanted = {old: new for old, (_, new) in table.items()}
            same(f"steps of {names[0]}", wanted, steps_made(step, names, table, file))
    with File(NOWHERE, 2, reads_only=True) as reader, File(NOWHERE, 2, operator=1) as plain:
        same("who only reads", False, makes(lib.pagelog_stand, reader, [1]))
        same("who may write", True, makes(lib.pagelog_stand, plain, [1]))
        same(
            "what has no name",
            (True, False),
            tuple(makes(lib.pagelog_have, plain, way) for way in ([1, 3], [1, 2])),
        )


def kept(keeper, principal, **more):
    """An open file of the database of a stub."""
    file = File(None, principal, name=keeper.name, keepers=keeper.address, **more)
    same("open", DONE, file.open())
    return file


def states(file):
    """By what callers see."""
    state = file.state
    standing = "broken" if state.is_broken else "writing" if state.is_writer else "following"
    reading = "over" if state.is_over else "gone" if state.is_gone else "open"
    return standing, reading


def commit(file, data, offset=0):
    return file.begin(), file.write(offset, data), file.commit()


def break_off(file, rule):
    """A commit of which one half is in the log."""
    rule.__init__()
    same(
        "begin",
        (DONE, DONE),
        (file.begin(), file.write(0, random.Random(5).randbytes(150000))),
    )
    rule.is_armed = True
    true("not committed", file.commit() in (LOST, IN_DOUBT))
    rule.is_armed = False


def test_a_file_goes_through_its_states():
    """A writer, by calls alone."""
    done, rule = (DONE, DONE, DONE), CutsOff()
    with Service() as service, Proxy(service.address, between=rule) as proxy:
        with File(NOWHERE, 2, operator=1, patience_ms=1) as file:
            same("not open", (LOST, MALFORMED), (file.open(), file.begin()))
        with opened(proxy.address, 2, patience_ms=200) as file:
            same("open", ("writing", "open"), states(file))
            break_off(file, rule)
            same("half of it is there", ("broken", "open"), states(file))
            file.undo()
            same("until a begin", (DONE, CONFLICT), (file.write(0, b"b"), file.commit()))
            same("it looks", (DONE, ("writing", "open")), (file.begin(), states(file)))
            break_off(file, rule)
            with opened(service.address, 5) as other:
                same("another", done, commit(other, b"n" * 20))
                same(
                    "it looks",
                    (DONE, ("following", "open")),
                    (file.begin(), states(file)),
                )
                same("it is told", (DONE, FENCED), (file.write(0, b"x"), file.commit()))


class Cuts:
    """A proxy's rule: armed, it cuts each connection that asks something."""

    is_armed = False

    def __call__(self, frame):
        return None if self.is_armed else frame


def test_a_file_that_loses_commits():
    """Which nobody waited for: of a writer whose epoch is over, and of one whose connections are cut."""
    done = (DONE, DONE, DONE)
    for is_cut in (False, True):
        rule = Cuts()
        with Service() as service, Proxy(service.address, between=rule) as proxy, opened(
            proxy.address, 2, unwaited=64, check_ms=3600000, patience_ms=200
        ) as file, opened(service.address, 3, reads_only=True) as reader:
            same("first", (done, DONE), (commit(file, b"a" * 10), file.settle()))
            rule.is_armed = is_cut
            if not is_cut:
                with opened(service.address, 5) as other:
                    same("another", done, commit(other, b"n"))
            same("nobody waits", done, commit(file, b"bb"))
            outcome = file.settle()
            true("it is lost", outcome in (LOST, IN_DOUBT) if is_cut else outcome == FENCED)
            rule.is_armed = False
            standing = "broken" if is_cut else "following"
            same("over", (standing, "over"), states(file))
            same("until a begin", (CONFLICT, CONFLICT), (file.read(0, 1)[0], file.settle()))
            standing = "writing" if is_cut else "following"
            same("begins", (DONE, (standing, "open")), (file.begin(), states(file)))
            same("a reader", (DONE, file.whole()), (reader.begin(), reader.whole()))


def gone_on(new):
    """Another writer, in a generation that no keeper has told of yet."""

    def tokens(principal):
        return Token(*token_of(bytes.fromhex(TOKENS[principal]), new.keeper.name, new.run))

    with File(new.service.address, 2, operator=1, tokens=tokens) as other:
        same(
            "another",
            (DONE, DONE, DONE, DONE),
            (other.open(), *commit(other, b"n" * 10)),
        )


def test_a_file_of_a_named_database_moves():
    """What it has read may be elsewhere, or nowhere; and what it has committed may be lost."""
    done = (DONE, DONE, DONE)
    with StubKeeper() as keeper, kept(keeper, 2, operator=1) as file:
        same("open", ("following", "open"), states(file))
        same(
            "the writer",
            (done, ("writing", "open")),
            (commit(file, b"a" * 20000), states(file)),
        )
        keeper.succeed()
        same("elsewhere", (DONE, ("following", "open")), (file.begin(), states(file)))
        same(
            "the writer",
            (done, ("writing", "open")),
            (commit(file, b"b"), states(file)),
        )
        with kept(keeper, 3, reads_only=True) as reader:
            same("reads", (DONE, ("following", "open")), (reader.begin(), states(reader)))
            keeper.die(lost=1, others=gone_on)
            same(
                "nowhere",
                (LOST, ("following", "gone")),
                (reader.read(0, 1)[0], states(reader)),
            )
            same("still so", LOST, reader.read(0, 1)[0])
            same("lost", (FENCED, ("following", "over")), (file.begin(), states(file)))
            same("until a begin", CONFLICT, file.write(0, b"x"))
            wanted = (DONE, ("following", "open"), b"n" * 10 + b"a" * 19990)
            for each in (reader, file):
                same("then", wanted, (each.begin(), states(each), each.whole()))
        same(
            "the writer",
            (done, ("writing", "open")),
            (commit(file, b"c"), states(file)),
        )


if __name__ == "__main__":
    run("steps", globals())
