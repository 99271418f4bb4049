"""The bodies of functions in Rattle, C and Python, and constants, by name: what scripts/waiting compares with its models."""

import ast
import functools
import io
import re
import tokenize

from crate_source import CLAUSE, GHOST, ROOT, end_of, impls_of, without_comments


def plain(text):
    """The code without spaces, braces and commas after a last element."""
    return re.sub(r"[\s{}]", "", re.sub(r",(?=\s*[)\]}])", "", text))


def bodies_of_rattle(text):
    """The bodies of the functions of a text without comments, and its constants, by name."""
    impls, found = list(impls_of(text)), {}
    for function in re.finditer(r"\bfn\s+(\w+)", text):
        owner = [of + "::" for of, _, first, last in impls if first <= function.start() < last]
        at = end_of(text, text.index("(", function.end()), "(", ")")
        at += re.search(r"\s*\b(?:requires|ensures|ghost)\b|\s*\{", text[at:]).start()
        while clause := CLAUSE.match(text, at) or GHOST.match(text, at):
            at = end_of(text, clause.end() - 1, "{", "}")
        at = text.index("{", at)
        found["".join(owner) + function[1]] = plain(text[at : end_of(text, at, "{", "}")])
    for constant in re.finditer(r"^(?:pub\S* )?(const (\w+): .*?;)$", text, flags=re.M | re.S):
        found[constant[2]] = plain(constant[1])
    return found


def bodies_of_c(text):
    """The same of C, where each function begins at the start of a line."""
    found = {}
    for function in re.finditer(r"^\w[\w\s*]*\b(\w+)\(", text, flags=re.M):
        at = end_of(text, function.end() - 1, "(", ")")
        if body := re.compile(r"\s*\{").match(text, at):
            found[function[1]] = plain(text[at : end_of(text, body.end() - 1, "{", "}")])
    return found


def bodies_of_python(source):
    """The same of Python, without words about a function, and its constants."""
    lines, found = source.splitlines(keepends=True), {}
    for token in tokenize.generate_tokens(io.StringIO(source).readline):
        if token.type == tokenize.COMMENT:
            lines[token.start[0] - 1] = lines[token.start[0] - 1][: token.start[1]] + "\n"
    for node in ast.walk(ast.parse(source)):
        if isinstance(node, (ast.FunctionDef, ast.AsyncFunctionDef)):
            first = node.body[1 if ast.get_docstring(node) else 0]
            found[node.name] = plain("".join(lines[first.lineno - 1 : node.end_lineno]))
        elif isinstance(node, ast.Assign) and isinstance(node.targets[0], ast.Name):
            found[node.targets[0].id] = plain("".join(lines[node.lineno - 1 : node.end_lineno]))
    return found


@functools.lru_cache(maxsize=None)
def bodies(folder, file):
    """The bodies of the functions of a file, by name."""
    source = (ROOT / folder / file).read_text()
    if file.endswith(".py"):
        return bodies_of_python(source)
    text = without_comments(source)
    return bodies_of_c(text) if file.endswith(".c") else bodies_of_rattle(text)
