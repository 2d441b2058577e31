"""The tables of the documents whose rows are run. Which table is which says its head:

  Dialect, Selector, XPath, Specificity      the line of `css`
  Selector, Refusal, Why                     the refusal of `css html`
  Page, Written by `clean`                   what `clean` writes, without its last line feed, or the page's refusal `at` its place
  Page, Field, Gives                         the value of the field on the page, or its refusal, or the page's refusal `at` its place
  Page, Block, Gives                         the same of a block, whose value is a list of objects
  Page, Field, `extract` gives, parsel gives the same, and beside it what parsel gives, where python3 has it
  Reason, Where, For example, ..             the page after `For example`, refused so `at` its place
  Reason, The XPath, For example             the field `xpath('..')` of the XPath after `For example`, refused so
  Open, Ends before                          which start tags end which elements, of all elements that the document names, and no others

In the cell of a page `\\n` stands for a line feed and `\\r` for a carriage return. A row whose example is no code is said in words and not run.
"""
import functools
import json
import re
import subprocess
import tempfile

# Which tables a document has, by the first cells of their heads, so that none goes unseen.
HAS = {
    "docs/SELECTORS.md": (("Dialect", "Selector", "XPath"), ("Selector", "Refusal")),
    "docs/HTML_PROFILE.md": (("Open", "Ends before"), ("Reason", "Where", "For example"), ("Page", "Field", "Gives"), ("Page", "Written by clean")),
    "docs/SCRIPTS.md": (("Reason", "The XPath", "For example"), ("Page", "Field", "Gives"), ("Page", "Block", "Gives")),
    "docs/FROM_PARSEL.md": (("Page", "Field", "extract gives", "parsel gives"),),
}


# Elements of HTML, so that one which the lists of the document leave out is tried too.
ELEMENTS = """a abbr address applet area article aside audio b base basefont bdi bdo bgsound big blockquote body br button canvas caption center
    cite code col colgroup data datalist dd del details dfn dialog dir div dl dt em embed fieldset figcaption figure font footer form frame
    frameset h1 h2 h3 h4 h5 h6 head header hgroup hr html i iframe img input ins kbd keygen label legend li link listing main map mark marquee
    math menu meta meter nav noembed noframes nobr noscript object ol optgroup option output p param picture pre progress q rb rp rt rtc ruby s
    samp script search section select small source span strike strong style sub summary sup svg table tbody td template textarea tfoot th
    thead time title tr track tt u ul var video wbr xmp""".split()
# What a row is that is said in words and not run.
SAID = object()


def cells_of(line):
    """The cells of a table's row, with `\\|` as the one character."""
    return [it.replace("\0", "|").strip() for it in line.replace("\\|", "\0").strip().strip("|").split("|")]


def code(cell):
    """What stands between the cell's first two backticks; None where there are none."""
    found = re.search(r"(`+)(.*?)\1", cell)
    return found[2] if found else None


def tables_of(lines):
    """The tables of a document: the number of the head's line, the head's cells, and the rows, each with its line's number."""
    found, at = [], 0
    while at < len(lines):
        if lines[at].startswith("|") and at + 1 < len(lines) and re.fullmatch(r"[|\s:-]+", lines[at + 1]):
            head, rows = [it.replace("`", "") for it in cells_of(lines[at])], []
            first = at + 1
            at += 2
            while at < len(lines) and lines[at].startswith("|"):
                rows.append((at + 1, cells_of(lines[at])))
                at += 1
            found.append((first, head, rows))
        else:
            at += 1
    return found


def answer(program, *words):
    return subprocess.run([program, *words], stdout=subprocess.PIPE, text=True, encoding="utf-8").stdout.strip()


def page_of(cell):
    return cell.replace("\\n", "\n").replace("\\r", "\r").encode("utf-8")


def on_page(program, room, page, field):
    """What a field is on a page: its value, or its refusal, or the page's, as the documents write them."""
    with open(f"{room}/page", "wb") as it:
        it.write(page_of(page))
    said = answer(program, "run", "html", f"x: {field}", f"{room}/page")
    try:
        line = json.loads(said)
        if "at" in line:
            return f"{line['refused']} at {line['at']}"
        return line["fields"][0]["refused"] if "refused" in line["fields"][0] else line["fields"][0]["value"]
    except (ValueError, LookupError):
        return said


def wanted(cell):
    """What a cell says that a field gives: a value of JSON as code, or the reason as code, with the place of a page's after it."""
    shown = code(cell)
    if re.match(r"(page|field|css|xpath|re)\.[A-Z]", shown):
        return shown + cell.rpartition("`")[2].replace(",", "").rstrip()
    return json.loads(shown)


@functools.lru_cache(maxsize=None)
def has_parsel():
    is_here = not subprocess.run(["python3", "-c", "import parsel"], capture_output=True).returncode
    if not is_here:
        print("blocks: what parsel gives is left out, since parsel is not here")
    return is_here


def by_parsel(page, field):
    """What parsel gives for a field, None where python3 has no parsel."""
    ask = "import json, sys\nfrom parsel import Selector\nprint(json.dumps(eval('s.' + sys.argv[2], {'s': Selector(sys.argv[1])})))"
    if not has_parsel():
        return None
    # (there `re` ends a chain, and gives all)
    chain = re.sub(r"(\.re\(.*\))\.getall\(\)$", r"\1", field)
    ran = subprocess.run(["python3", "-c", ask, page_of(page).decode(), chain], capture_output=True, text=True)
    return ran.stdout.strip() if not ran.returncode else "an exception"


def row_of_css(program, room, cells):
    want = {"specificity": json.loads(f"[{cells[3]}]"), "xpath": code(cells[2])}
    return want, json.loads(answer(program, "css", code(cells[0]) or cells[0], code(cells[1])))


def row_refused(program, room, cells):
    if "times" in cells[0]:
        return None
    return {"refused": code(cells[1])}, json.loads(answer(program, "css", "html", code(cells[0]) or ""))


def row_of_page(program, room, cells):
    return wanted(cells[2]), on_page(program, room, code(cells[0]), code(cells[1]))


def row_of_clean(program, room, cells):
    with open(f"{room}/page", "wb") as it:
        it.write(page_of(code(cells[0])))
    ran = subprocess.run([program, "clean", f"{room}/page"], stdout=subprocess.PIPE)
    said = ran.stdout.decode("utf-8")
    if ran.returncode == 1:
        line = json.loads(said)
        said = f"{line['refused']} at {line['at']}\n"
    want = code(cells[1])
    return want.replace("\\n", "\n") + cells[1].rpartition("`")[2] + "\n", said


def row_of_both(program, room, cells):
    ours = (wanted(cells[2]), on_page(program, room, code(cells[0]), code(cells[1])))
    theirs = by_parsel(code(cells[0]), code(cells[1]))
    if ours[0] != ours[1] or theirs is None:
        return ours
    want = cells[3] if cells[3] == "an exception" else json.loads(code(cells[3]))
    return want, theirs if theirs == "an exception" else json.loads(theirs)


def row_of_reason(program, room, cells):
    page = code(cells[2])
    if page is None:
        return None
    return f"{code(cells[0])}{cells[2].rpartition('`')[2]}", on_page(program, room, page, "css('a').get()")


def row_of_xpath(program, room, cells):
    text = code(cells[2])
    if text is None:
        return None
    return code(cells[0]), on_page(program, room, "<p>a</p>", "xpath('" + text.replace("'", "''") + "').get()")


KINDS = {
    ("Dialect", "Selector", "XPath", "Specificity"): row_of_css,
    ("Selector", "Refusal", "Why"): row_refused,
    ("Page", "Field", "Gives"): row_of_page,
    ("Page", "Block", "Gives"): row_of_page,
    ("Page", "Written by clean"): row_of_clean,
    ("Page", "Field", "extract gives", "parsel gives"): row_of_both,
    ("Reason", "Where", "For example"): row_of_reason,
    ("Reason", "The XPath", "For example"): row_of_xpath,
}


def names_in(text):
    """The names of a list in words, `h1 to h6` as six."""
    text = text.replace("h1 to h6", ", ".join(f"h{it}" for it in range(1, 7)))
    return [it for it in re.split(r"[\s,]+", text) if it]


def sentence(lines, start):
    """The names that follow a colon in the sentence that begins so."""
    text = " ".join(lines)
    return names_in(re.search(re.escape(start) + r"[^:]*: ([^.]*)\.", text)[1])


def ends_wrong(file, lines, table, program, room):
    """Runs each pair of an element that may be open and a start tag: it ends the element exactly where the table says so."""
    voids, omits = sentence(lines, "Void elements"), sentence(lines, "Twenty-one elements")
    ends = {it: set() for it in omits}
    known, but = {*voids, *omits, *ELEMENTS, "x-y"}, {}
    for _, (opened, before) in table:
        for name in names_in(opened):
            if before.startswith("every start tag but "):
                but[name] = set(names_in(before.partition(" but ")[2]))
                known |= but[name]
            else:
                ends.setdefault(name, set()).update(names_in(before))
                known |= ends[name]
    for name in but:
        ends[name] = known - but[name]
    cases, pages = [], []
    for name in sorted(known - {"x-w"}):
        close = "" if name in voids or name in omits else f"</{name}>"
        cases.append((f"<{name}> without its end tag", 'refused' if close else 1, f"<html><x-w><{name}></x-w></html>"))
        cases.append((f"<{name}> with an end tag", 'refused' if name in voids else 1, f"<html><x-w><{name}></{name}></x-w></html>"))
        for opened in omits:
            cases.append((f"<{name}> in <{opened}>", 2 if name in ends[opened] else 1, f"<html><x-w><{opened}><{name}>{close}</x-w></html>"))
    for i, (_, _, page) in enumerate(cases):
        pages.append(f"{room}/{i}")
        with open(pages[-1], "w", encoding="utf-8") as it:
            it.write(page)
    said = [json.loads(it) for it in answer(program, "run", "html", "x: xpath('count(/*/x-w/*)').get()", *pages).split("\n")]
    bad = 0
    for (what, want, page), line in zip(cases, said):
        got = "refused" if "at" in line else int(line["fields"][0]["value"])
        if got != want:
            print(f"blocks: {file}: the lists of the tree say {want} for {what}, and {page} gives {got}")
            bad += 1
    print(f"blocks: {file}: {len(cases)} start tags in and after open elements, {bad} another way")
    return bad + (len(said) != len(cases)) + (len(omits) != 21)


def wrong(file, lines, program):
    """Runs the rows of a document's tables, says which give something else, and returns how many."""
    tables, bad, tried = tables_of(lines), 0, 0
    for head in HAS.get(file, ()):
        if not any(tuple(it[1][: len(head)]) == head for it in tables):
            print(f"blocks: {file}: it has no table of {', '.join(head)}")
            bad += 1
    with tempfile.TemporaryDirectory(prefix="rows-") as room:
        for _, head, rows in tables:
            if head[:2] == ["Open", "Ends before"]:
                bad += ends_wrong(file, lines, rows, program, room)
            row = next((call for names, call in KINDS.items() if tuple(head[: len(names)]) == names), None)
            for at, cells in rows if row else ():
                try:
                    want, got = row(program, room, cells) or (SAID, SAID)
                except (ValueError, LookupError, TypeError) as fault:
                    want, got = "a row that can be read", repr(fault)
                tried += want is not SAID
                if want != got:
                    print(f"blocks: {file}:{at}: another answer: {json.dumps(got, ensure_ascii=False)}")
                    bad += 1
    if tried:
        print(f"blocks: {file}: {tried} rows run")
    return bad
