"""Of trails that are exported. They need the program that PAGELOG_VERIFY names."""

from plant import Plant

PLANTS = {
    "export, what is not archived": Plant(
        "../trail/export",
        "            yield data\n        raise _Unarchived",
        "            yield data",
        "verify",
        "harden_what_is_not_archived",
    ),
    "export, what was annulled": Plant(
        "../trail/export",
        "return line.a if line.a <= self._ends[0][1] else 0",
        "return line.a if line.a <= self.blocks else 0",
        "verify",
        "what_was_exported_agrees",
    ),
    "export, the epoch's end": Plant(
        "../trail/export",
        "len(self._ends) > 1 and self._ends[0][0] < number",
        "False",
        "verify",
        "what_was_exported_agrees",
    ),
    "export, texts": Plant(
        "../trail/export",
        "return self.blocks + text if text else 0",
        "return text",
        "verify",
        "what_was_exported_agrees",
    ),
    "export, a folder that is there": Plant(
        "../trail/export",
        "    if os.path.lexists(folder):\n",
        "    if False:\n",
        "verify",
        "folder_that_is_there",
    ),
    "export, what is left behind": Plant(
        "../trail/export",
        "        shutil.rmtree(made, ignore_errors=True)\n",
        "        pass\n",
        "verify",
        "leaves_nothing",
    ),
    "export, pruned blocks": Plant(
        "../trail/export",
        "            if data is None:\n",
        "            if False:\n",
        "verify",
        "cannot_be_exported",
    ),
    "export, a line that differs": Plant(
        "../trail/export",
        "self.differs, last = error.line, count",
        "self.differs = error.line",
        "verify",
        "changed_in_the_database",
    ),
    "export, one at a time": Plant(
        "../trail/export",
        "brought != number or len(some)",
        "len(some)",
        "verify",
        "what_was_exported_agrees",
    ),
}
