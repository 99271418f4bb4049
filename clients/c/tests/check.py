"""Runs the tests of a part: the functions of its module whose names begin with `test_`, in the order of the file."""

import faulthandler
import sys
import time
import traceback

LONG = "--long" in sys.argv
# Against scripts/model: the tests that it can answer, and of those of the file and of the VFS a short part.
MODEL = "--model" in sys.argv
# A test that hangs ends its part, which shows then where it was.
faulthandler.dump_traceback_later(7200 if LONG else 1700, exit=True)


def same(what, wanted, found):
    if wanted != found:
        raise AssertionError(f"{what}: wanted {wanted!r}, found {found!r}")


def true(what, holds):
    if not holds:
        raise AssertionError(what)


def run(part, names, not_with_the_model=()):
    """Prints a line for the part, and one for each test that failed. The exit status says whether all passed."""
    unknown = set(not_with_the_model) - set(names)
    if unknown:
        sys.exit(f"{part}: there is no {', '.join(sorted(unknown))}")
    tests = [
        (name, test)
        for name, test in names.items()
        if name.startswith("test_") and not (MODEL and name in not_with_the_model)
    ]
    only = [word for word in sys.argv[1:] if not word.startswith("-")]
    passed, failed, start, said = 0, 0, time.monotonic(), []
    for name, test in tests:
        if only and name not in only:
            continue
        try:
            told = test()
            passed += 1
            if told:
                said.append(told)
        except Exception as error:  # noqa: BLE001
            failed += 1
            print(f"{part}: {name} failed: {error}")
            if not isinstance(error, AssertionError):
                traceback.print_exc(file=sys.stdout)
        if "-v" in sys.argv:
            print(f"  {name} {time.monotonic() - start:.1f} s", flush=True)
    seconds = time.monotonic() - start
    print(
        f"{part}: {passed} passed, {failed} failed, {seconds:.1f} s"
        + "".join(f"; {text}" for text in said)
    )
    sys.stdout.flush()
    sys.exit(1 if failed else 0)
