"""Any text of a table with its table or its fault, for the model's service. The trial does without: its texts are those of tables.py."""

import tables
import wire  # noqa: F401  (it finds the package)
from pagelog_model.table import read


class Texts(dict):
    """Each text with its table or the code of its fault: those of tables.py, and any other as it is read."""

    def __init__(self):
        super().__init__(tables.TEXTS)

    def __missing__(self, text):
        self[text] = read(text)
        return self[text]
