"""Tables and texts of tables, written from docs/FORMATS.md alone: each text with its table or its fault."""

import wire
from model import OPS, ROLES, SIX, THREE


class Table:
    """Principals, rows and a zone, and the text that writes them down. A zone of three may be left out of it."""

    def __init__(self, ids, rows, zone=None):
        self.tokens = {i: wire.token(i) for i in ids}
        self.rows = rows
        self.zone = zone or THREE
        principals = "".join(principal_text(i) for i in ids)
        self.text = (
            zone_text(zone) + principals + "\n" + "".join(row_text(row) for row in rows)
        ).encode()


def zone_text(zone):
    return f"copies = {zone.copies}\nquorum = {zone.quorum}\n\n" if zone else ""


def principal_text(principal):
    return f'[[principal]]\nid = {principal}\ntoken = "{wire.token(principal).hex()}"\n'


def row_text(row):
    lines = ["[[row]]", f'verdict = "{row["verdict"]}"']
    if "who" in row:
        lines.append(f'who = {row["who"]}')
    if "role" in row:
        lines.append(f'role = "{ROLES[row["role"]]}"')
    if "op" in row:
        lines.append("op = [" + ", ".join(f'"{OPS[op]}"' for op in row["op"]) + "]")
    if "lo" in row:
        lines += [f'from = {row["lo"]}', f'to = {row["hi"]}']
    if "through" in row:
        lines.append(f'through = {row["through"]}')
    return "\n".join(lines) + "\n"


def allow(**parts):
    return {"verdict": "allow", **parts}


def deny(**parts):
    return {"verdict": "deny", **parts}


# The table of crates/pagelog/data/t0.toml: principals 1 to 5, and six rows.
START = Table(
    [1, 2, 3, 4, 5],
    [
        allow(who=1, role=wire.OPERATOR),
        allow(who=2, role=wire.PRIMARY),
        deny(who=3, op=[wire.GET], lo=7, hi=7),
        allow(who=3, role=wire.SECONDARY),
        allow(who=4, role=wire.PAGE_SERVER, lo=0, hi=3),
        allow(who=5, role=wire.PRIMARY),
    ],
)
NO_PULL_OF_2 = Table([1, 2, 3, 4, 5], [deny(who=3, op=[wire.PULL], lo=2, hi=2)] + START.rows)
WITHOUT_5 = Table(
    [1, 2, 3, 4],
    [allow(who=1), deny(op=[wire.WRITE], lo=4, hi=4), allow(who=2), allow(role=wire.SECONDARY)],
)
ONE_ROW = Table([1, 2, 3, 4, 5], [allow(lo=0, hi=65535)])
MANY = Table(
    range(1, 65),
    [allow(who=1)]
    + [deny(who=i, op=[wire.FAILOVER], lo=i, hi=i) for i in range(3, 64)]
    + [allow(role=wire.PRIMARY), allow()],
)
BY_PARTITION = Table(
    [1, 2, 3, 4, 5],
    [
        deny(op=[wire.GET, wire.OFFER], lo=1, hi=2),
        allow(op=[wire.ADVANCE], lo=2, hi=4),
        deny(op=[wire.ADVANCE]),
        allow(),
    ],
)
# The secondary's row ends at LSN 2; its pulls are denied above LSN 3.
ENDS_AT_2 = Table(
    [1, 2, 3, 4, 5],
    [{**row, "through": 2} if at == 4 else row for at, row in enumerate(START.rows, 1)],
)
NO_PULL_ABOVE_3 = Table(
    [1, 2, 3, 4, 5], START.rows[:2] + [deny(who=3, op=[wire.PULL], through=3)] + START.rows[3:]
)
# Ends within one another, of rows that allow and of rows that deny.
MANY_ENDS = Table(
    [1, 2, 3, 4, 5],
    [
        allow(who=1),
        deny(op=[wire.PULL], lo=1, hi=1, through=25),
        allow(role=wire.SECONDARY, op=[wire.PULL], through=20),
        deny(op=[wire.GET], lo=0, hi=1, through=50),
        allow(role=wire.SECONDARY, lo=0, hi=4, through=120),
        deny(op=[wire.WRITE, wire.OFFER], through=2**48),
        deny(op=[wire.REPORT, wire.STATUS], through=900),
        allow(role=wire.PAGE_SERVER, through=0),
        allow(role=wire.PRIMARY, through=1000),
        allow(role=wire.SECONDARY, through=30),
    ],
)
SIX_COPIES = Table([1, 2, 3, 4, 5], START.rows, SIX)
SIX_AND_ENDS = Table(
    [1, 2, 3, 4, 5],
    [
        allow(who=1),
        deny(op=[wire.PULL], through=40),
        deny(who=5, op=[wire.REPORT], through=60),
        allow(lo=0, hi=4),
    ],
    SIX,
)
THREE_COPIES = Table([1, 2, 3, 4, 5], START.rows, THREE)
TABLES = [
    START,
    NO_PULL_OF_2,
    WITHOUT_5,
    ONE_ROW,
    BY_PARTITION,
    ENDS_AT_2,
    NO_PULL_ABOVE_3,
    MANY_ENDS,
    SIX_COPIES,
    SIX_AND_ENDS,
    THREE_COPIES,
]

PRINCIPAL = principal_text(1)
OPERATOR = PRINCIPAL + row_text(allow(who=1, role=wire.OPERATOR))


def principal(key, value):
    """The principal with another value of a key."""
    return PRINCIPAL.replace({"id": "id = 1", "token": '"' + "11" * 16 + '"'}[key], value)


def row(text):
    """A row of these lines after a good principal and a good row."""
    return OPERATOR + "[[row]]\n" + text


# Texts by the code of the first fault that they have.
FAULTY = {
    1: [
        "x",
        "\x00",
        "[[principal]",
        "id = 1\nid = 1\n",
        principal("id", "id = 9223372036854775808"),
    ],
    2: [
        "x = 1\n",
        OPERATOR + "[other]\n",
        "principal = 1\n",
        "[principal]\nid = 1\n",
        OPERATOR.replace("[[row]]", "[row]"),
        "x = 1\nprincipal = []\n",
    ],
    3: [
        "",
        "# no principal\n",
        "principal = []\n",
        "".join(principal_text(i) for i in range(1, 66)),
    ],
    4: [OPERATOR + row_text(allow()) * 256],
    5: [
        "[[principal]]\n",
        "[[principal]]\nid = 1\n",
        PRINCIPAL + "name = 1\n",
        "[[principal]]\ntoken = 1\n",
        PRINCIPAL + "[[principal]]\nid = 4294967296\n",
    ],
    6: [
        principal("id", "id = -1"),
        principal("id", "id = 4294967296"),
        principal("id", 'id = "1"'),
        principal("id", "id = 1.0"),
        principal("id", "id = true") + principal("token", '"11"'),
    ],
    7: [
        principal("token", '"11"'),
        principal("token", "1"),
        principal("token", '"' + "1g" * 16 + '"'),
        principal("token", '"' + "11" * 17 + '"'),
        PRINCIPAL + principal("token", '""'),
    ],
    8: [PRINCIPAL * 2, PRINCIPAL + principal_text(2) + PRINCIPAL + "[[row]]\n"],
    9: [
        row("who = 1\n"),
        row('verdict = "allow"\nname = 1\n'),
        row('verdict = "allow"\nfrom = 1\n'),
        row('verdict = "allow"\nto = 1\n'),
        row('verdict = 1\nrole = "none"\n[[row]]\n'),
    ],
    10: [
        row('verdict = "Allow"\n'),
        row("verdict = 1\n"),
        row('verdict = "allow"\nrole = "owner"\n'),
        row('verdict = "allow"\nop = []\n'),
        row('verdict = "allow"\nop = ["write", "read"]\n'),
        row('verdict = "allow"\nwho = 9\n[[row]]\nverdict = "no"\n'),
    ],
    11: [
        row('verdict = "allow"\nwho = 2\n'),
        row('verdict = "allow"\nfrom = 2\nto = 1\n'),
        row('verdict = "allow"\nfrom = 0\nto = 65536\n'),
        row('verdict = "allow"\nfrom = -1\nto = 1\n'),
        row('verdict = "allow"\nfrom = "0"\nto = 1\n'),
        row('verdict = "allow"\nthrough = -1\n'),
        row('verdict = "deny"\nthrough = "2"\n'),
        row('verdict = "allow"\nthrough = 281474976710657\n'),
        row('verdict = "deny"\nthrough = true\n'),
        row('verdict = "allow"\nthrough = 2.0\n'),
        "copies = 6\n" + row('verdict = "allow"\nwho = 2\n'),
    ],
    12: [
        PRINCIPAL,
        PRINCIPAL + row_text(allow(who=1, role=wire.PRIMARY)),
        PRINCIPAL + row_text(deny(op=[wire.SET_TABLE])) + row_text(allow()),
        PRINCIPAL + row_text(allow(op=[wire.FAILOVER])) + row_text(deny()),
        zone_text(SIX) + PRINCIPAL,
        "quorum = 9\n" + PRINCIPAL,
    ],
    13: [
        "copies = 6\n" + OPERATOR,
        "quorum = 4\n" + OPERATOR,
        "copies = 5\nquorum = 3\n" + OPERATOR,
        "copies = 6\nquorum = 2\n" + OPERATOR,
        "copies = 3\nquorum = 4\n" + OPERATOR,
        "copies = 3\nquorum = 3\n" + OPERATOR,
        'copies = "6"\nquorum = 4\n' + OPERATOR,
        "copies = 6\nquorum = true\n" + OPERATOR,
        "copies = 3.0\nquorum = 2\n" + OPERATOR,
        "copies = -3\nquorum = -2\n" + OPERATOR,
        "copies = 0\nquorum = 0\n" + OPERATOR,
        "copies = 4294967299\nquorum = 2\n" + OPERATOR,
        "copies = []\n" + OPERATOR,
        OPERATOR + "[quorum]\n",
    ],
}
NO_TEXT = [b"\xff", OPERATOR.encode() + b"# \xc3\n"]

# Each text as bytes, with its table or the code of its fault.
TEXTS = {table.text: table for table in [*TABLES, MANY]}
TEXTS.update((text.encode(), code) for code, texts in FAULTY.items() for text in texts)
TEXTS.update((text, 1) for text in NO_TEXT)
