"""Forms of a plan's tables: aligned columns for reading, and JSON, both made from the CSV text that sndtable writes."""
import csv
import io
import json
import re

LISTS = ("modules", "path", "nodes", "links")
GROUPS = {"link": "links", "demand": "demands", "evidence": "evidence", "range": "ranges"}
NUMBER = re.compile(r"-?(0|[1-9][0-9]*)(\.[0-9]+)?")
NAMES = ("name", "source", "target", "demand", "link", "status", "evidence", "kind", *LISTS)
HEADS = {"gap_percent": "gap %", "used_percent": "used %", "load_back": "load back"}


class Exact(float):
    """A decimal that JSON gets as it is spelt."""

    def __new__(cls, text):
        made = super().__new__(cls, text)
        made.text = text
        return made

    def __repr__(self):
        return self.text


def decoded(text):
    """The text, whose names are UTF-8 or else ISO-8859-1."""
    try:
        return text.decode("utf-8")
    except UnicodeDecodeError:
        return text.decode("latin-1")


def tables(text):
    """The rows of each kind, as pairs of a field's name and its word."""
    found, heads = {}, []
    for row in csv.reader(io.StringIO(decoded(text), newline="")):
        if row[0] == "kind":
            heads = row
        else:
            found.setdefault(row[0], []).append(list(zip(heads[1:], row[1:])))
    return found


def value(field, word):
    """A field as JSON has it."""
    if field in LISTS:
        names = word.split(" ") if word else []
        return [int(it) for it in names] if field == "modules" else names
    if field in NAMES:
        return word
    if not word:
        return None
    return int(word) if re.fullmatch(r"-?[0-9]+", word) else Exact(word)


def encoded(it, indent=""):
    """JSON with one line a record, and numbers as they are spelt."""
    if isinstance(it, Exact):
        return it.text
    if isinstance(it, dict):
        return "{" + ", ".join(f"{json.dumps(key)}: {encoded(part)}" for key, part in it.items()) + "}"
    if isinstance(it, list):
        return "[" + ", ".join(encoded(part) for part in it) + "]"
    return json.dumps(it)


def json_of(text):
    """The tables as one JSON object: the fields of the plan, and a list for each further table."""
    found = tables(text)
    parts = [f"  {json.dumps(field)}: {encoded(value(field, word))}" for field, word in found["plan"][0]]
    for kind, group in GROUPS.items():
        rows = [f"    {encoded({field: value(field, word) for field, word in row})}" for row in found.get(kind, [])]
        parts.append(f'  "{group}": [' + ("\n" + ",\n".join(rows) + "\n  " if rows else "") + "]")
    return ("{\n" + ",\n".join(parts) + "\n}\n").encode()


def aligned(head, rows):
    """Columns of words to the left and of numbers to the right; the last one is not filled up."""
    widths = [max(len(row[at]) for row in [head, *rows]) for at in range(len(head))]
    rights = [all(NUMBER.fullmatch(row[at]) or not row[at] for row in rows) for at in range(len(head))]
    lines = []
    for row in [head, *rows]:
        cells = [word.rjust(width) if right else word.ljust(width) for word, width, right in zip(row, widths, rights)]
        lines.append("  ".join(cells).rstrip())
    return lines


def text_of(text):
    """The tables in aligned columns; a column that is empty in all rows is left out."""
    found = tables(text)
    lines = aligned(["plan", ""], [[HEADS.get(field, field), word or "none"] for field, word in found["plan"][0]])[1:]
    for kind, group in GROUPS.items():
        if kind in found:
            rows = found[kind]
            kept = [at for at in range(len(rows[0])) if any(row[at][1] for row in rows)]
            head = [group if not at else HEADS.get(rows[0][at][0], rows[0][at][0]) for at in kept]
            lines += ["", *aligned(head, [[row[at][1] for at in kept] for row in rows])]
    return ("\n".join(lines) + "\n").encode()
