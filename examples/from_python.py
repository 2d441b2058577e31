#!/usr/bin/env python3
"""Reads pages through `extract` from Python, one dict a page, and prints them or writes them to a CSV file or a table of sqlite.

  from_python.py SCRIPT.script [TO.csv | TO.db] PAGE..
"""
import csv
import json
import sqlite3
import subprocess
import sys


def refused_in(field):
    """Why the field is refused, or which members of its records are, each once; such a member becomes None."""
    if "refused" in field:
        return [f"{field['name']}: {field['refused']}"]
    found = {}
    for record in field["value"] if isinstance(field["value"], list) else ():
        for name, value in record.items() if isinstance(record, dict) else ():
            if isinstance(value, dict):
                found[f"{field['name']}.{name}: {value['refused']}"] = record[name] = None
    return list(found)


def read_pages(script, pages, dialect="html"):
    """Yields a dict for each page, in order: its name, its fields by their names, and what of it is refused, or None. A field is a text, None,
    a list of texts, or of a block of records a list of dicts."""
    for some in (pages[i : i + 500] for i in range(0, len(pages), 500)):
        done = 0
        with subprocess.Popen(["extract", "run", dialect, script, *some], stdout=subprocess.PIPE) as ran:
            for done, line in enumerate(map(json.loads, ran.stdout), 1):
                if "page" not in line:
                    raise ValueError(line["refused"])
                fields = line.get("fields", [])
                refused = [f"{line['refused']} at {line['at']}"] if "at" in line else [why for it in fields for why in refused_in(it)]
                yield {"page": line["page"], "fields": {it["name"]: it.get("value") for it in fields}, "refused": ", ".join(refused) or None}
        if ran.returncode not in (0, 1):
            kind = {2: ValueError, 3: MemoryError}.get(ran.returncode, OSError)
            raise kind(f"extract ended with status {ran.returncode}, after {done} of {len(some)} pages: {some[done:][:1]}")


def records_of(found, name):
    """Yields each record of the block of this name with its page, over all pages that have it."""
    for it in found:
        for record in it["fields"].get(name) or ():
            yield {"page": it["page"], **record}


def table_of(found):
    """What `read_pages` yields as a row of names and a row a page, whose cells are texts: a list is written as JSON."""
    found = list(found)
    names = list(dict.fromkeys(name for it in found for name in it["fields"]))
    yield ["page", "refused", *names]
    for it in found:
        values = [it["refused"], *(it["fields"].get(name) for name in names)]
        yield [it["page"], *(json.dumps(v, ensure_ascii=False) if isinstance(v, (list, dict)) else v for v in values)]


if __name__ == "__main__":
    file, *pages = sys.argv[1:]
    to = pages.pop(0) if pages[0].endswith((".csv", ".db")) else None
    found = read_pages(open(file, encoding="utf-8").read(), pages)
    if to is None:
        for it in found:
            print(json.dumps(it, ensure_ascii=False))
    elif to.endswith(".csv"):
        with open(to, "w", newline="", encoding="utf-8") as it:
            csv.writer(it).writerows(table_of(found))
    else:
        names, *rows = table_of(found)
        with sqlite3.connect(to) as it:
            it.execute(f"create table pages ({', '.join(map(json.dumps, names))})")
            it.executemany(f"insert into pages values ({', '.join('?' * len(names))})", rows)
