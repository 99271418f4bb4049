"""What the source keeps to, whatever it does: names of classes, imports, and who writes what of a service."""

from __future__ import annotations

import ast
import unittest
from collections import defaultdict
from dataclasses import fields
from functools import cache
from pathlib import Path
from typing import Collection, Iterator, Mapping

from pagelog.keeper.served import Health, Lack, RunLog, Served
from service import PATIENCE, SOURCE


@cache
def sources() -> dict[str, ast.Module]:
    """Each module of the two packages, by its name."""
    found = {}
    for path in sorted(SOURCE.rglob("*.py")):
        parts = path.relative_to(SOURCE).with_suffix("").parts
        name = ".".join(parts[:-1] if parts[-1] == "__init__" else parts)
        found[name] = ast.parse(path.read_text())
    return found


def written(module: ast.Module) -> Iterator[ast.Attribute]:
    """The attributes of others that a module writes."""
    for node in ast.walk(module):
        if isinstance(node, ast.Attribute) and isinstance(node.ctx, ast.Store):
            if ast.unparse(node.value) != "self":
                yield node


class Names(unittest.TestCase):
    def test_no_class_has_the_name_of_another(self) -> None:
        """Also where they are in two packages: whoever reads of one, or looks for it, finds that one."""
        found = defaultdict(list)
        for module, source in sources().items():
            for node in ast.walk(source):
                if isinstance(node, ast.ClassDef):
                    found[node.name].append(module)
        self.assertGreater(len(found), 400)
        self.assertEqual({name: of for name, of in found.items() if len(of) > 1}, {})


def imported(source: ast.Module, modules: Collection[str]) -> set[str]:
    """The modules that one imports, also in a function; not what a checker of types alone sees."""
    unseen = {
        part
        for node in source.body
        if isinstance(node, ast.If) and ast.unparse(node.test) == "TYPE_CHECKING"
        for each in node.body
        for part in ast.walk(each)
    }
    found = set()
    for node in ast.walk(source):
        if node in unseen:
            continue
        if isinstance(node, ast.Import):
            found |= {each.name for each in node.names}
        elif isinstance(node, ast.ImportFrom) and node.module is not None:
            names = (f"{node.module}.{each.name}" for each in node.names)
            found |= {name if name in modules else node.module for name in names}
    return found & set(modules)


def cycles(graph: Mapping[str, set[str]]) -> list[list[str]]:
    """Groups of those that are reached from one another."""
    reached = {}
    for start in graph:
        seen, left = set[str](), [start]
        while left:
            for each in graph[left.pop()] - seen:
                seen.add(each)
                left.append(each)
        reached[start] = seen
    groups = {
        frozenset({one} | {other for other in reached[one] if one in reached[other]})
        for one in graph
    }
    return sorted(sorted(group) for group in groups if len(group) > 1)


class Imports(unittest.TestCase):
    def setUp(self) -> None:
        self.graph = {
            name: imported(source, sources()) - {name} for name, source in sources().items()
        }

    def test_no_module_imports_itself_by_others(self) -> None:
        """But for what makes the client of a named database, which is asked of the plain one: `Primary.named`, `Reader.named`."""
        for one, other in (("primary", "named"), ("reader", "named_reader")):
            self.graph[f"pagelog.{one}"].remove(f"pagelog.{other}")
        self.assertEqual(cycles(self.graph), [])

    def test_no_package_imports_itself_by_others(self) -> None:
        of = {
            name: name.split(".")[1] for name in self.graph if self.is_of_a_package(name)
        }  # not the client's, which are flat
        graph: dict[str, set[str]] = {package: set() for package in of.values()}
        for name, package in of.items():
            graph[package] |= {of[each] for each in self.graph[name] if each in of} - {package}
        self.assertEqual(cycles(graph), [])

    def is_of_a_package(self, name: str) -> bool:
        """Whether a module is of one of those below `pagelog`."""
        return name.startswith("pagelog.") and (SOURCE / Path(*name.split(".")[:2])).is_dir()


class States(unittest.TestCase):
    def test_what_is_known_of_a_service_its_own_methods_write(self) -> None:
        names = {each.name for of in (RunLog, Health, Lack) for each in fields(of)}
        names |= vars(Served("shop", "r", "", b"", timeout=PATIENCE)).keys()
        others = {"self._database.is_noted", "self._shared.front"}  # which are no service's
        found = {
            f"{module}: {ast.unparse(node)}"
            for module, source in sources().items()
            if module.startswith(("pagelog.keeper", "pagelog.cli"))
            and module != "pagelog.keeper.served"
            for node in written(source)
            if node.attr in names and ast.unparse(node) not in others
        }
        self.assertEqual(found, set())

    def test_the_end_of_a_log_is_never_before_what_is_archived_of_it(self) -> None:
        served = Served("shop", "r", "", b"", timeout=PATIENCE)
        for position, hard in ((5, 5), (3, 5), (6, 6)):
            served.reach(position, b"of %d" % position)
            found = (served.reached, served.chain, served.hard)
            self.assertEqual(found, (position, b"of %d" % position, hard))


if __name__ == "__main__":
    unittest.main()
