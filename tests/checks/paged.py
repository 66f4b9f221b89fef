"""The page of `spv annotate --html`: its text is that of `annotate`, its links lead where they must, nothing is loaded.

The page is read by Python's reader of HTML, and by Chromium, which also draws it.
"""

import http.server
import os
import re
import subprocess
import threading
import zlib
from dataclasses import dataclass, field
from html.parser import HTMLParser
from typing import Dict, List, Optional, Union

from reading.annotate import VERDICT, Reading
from reading.assemble import assembled
from reading.facts import FUNCTION, FUNCTION_END, LABEL, Facts
from reading.text import visible
from reading.verdict import grammar_in

from .annotated import BEGUN, DECLARATIONS, ENDED, LOOP, REPEATED, asked, code_of, functions_of, text_of
from .cases import written
from .common import LAYERS as ALL_LAYERS
from .common import TESTS, Answer, Check, difference, run
from .json_objects import HOSTILE, quoted
from .usage import BROKEN, GRAMMAR, KERNEL, under

LAYERS = frozenset(ALL_LAYERS)
VOID = {"area", "base", "br", "col", "embed", "hr", "img", "input", "link", "meta", "source", "track", "wbr"}
# Elements that a page may have: none of them runs, loads or sends anything.
ELEMENTS = {
    "html",
    "head",
    "meta",
    "title",
    "style",
    "body",
    "nav",
    "main",
    "pre",
    "details",
    "summary",
    "ol",
    "ul",
    "li",
}
ELEMENTS |= {
    "a",
    "b",
    "i",
    "u",
    "s",
    "em",
    "strong",
    "mark",
    "code",
    "span",
    "div",
    "p",
    "h1",
    "h2",
    "h3",
    "h4",
    "header",
}
ELEMENTS |= {"br", "small", "del", "ins", "q", "var", "dfn", "section", "samp", "kbd"}
# Attributes that run or load something.
FORBIDDEN = {"src", "srcset", "style", "action", "formaction", "data", "ping", "background", "http-equiv", "xlink:href"}
MOST_USES = 50
SECONDS = 120
RED = 60


# A page as a tree.


@dataclass
class Node:
    """An element: its name, its attributes, and its children, elements and texts."""

    tag: str
    attributes: Dict[str, Optional[str]] = field(default_factory=dict)
    children: List[Union["Node", str]] = field(default_factory=list)

    def all(self, tag=None):
        """The elements below it, in order, of a name if one is given."""
        for it in self.children:
            if isinstance(it, Node):
                if tag in (None, it.tag):
                    yield it
                yield from it.all(tag)

    def text(self):
        """All texts below it, in order."""
        return "".join(it if isinstance(it, str) else it.text() for it in self.children)


class Tree(HTMLParser):
    """Makes the tree of a page. An end tag that ends no element that is open is kept in `wrong`."""

    def __init__(self):
        super().__init__(convert_charrefs=True)
        self.root, self.wrong = Node("root"), []
        self.open = [self.root]

    def handle_starttag(self, tag, attrs):
        node = Node(tag, dict(attrs))
        if len(node.attributes) != len(attrs):
            self.wrong.append(f"an attribute twice: {attrs}")
        self.open[-1].children.append(node)
        if tag not in VOID:
            self.open.append(node)

    def handle_endtag(self, tag):
        if tag in VOID:
            return
        if self.open[-1].tag != tag:
            self.wrong.append(f"</{tag}> in <{self.open[-1].tag}>")
        if tag in (it.tag for it in self.open):
            while self.open.pop().tag != tag:
                pass

    def handle_data(self, data):
        self.open[-1].children.append(data)

    def handle_comment(self, data):
        self.wrong.append(f"a comment: {data}")


def tree_of(page):
    """The tree of a page, and what is wrong with its form."""
    reader = Tree()
    reader.feed(page)
    reader.close()
    return reader.root, reader.wrong + [
        f"<{it.tag}> has no end" for it in reader.open[1:] if it.tag not in ("html", "body")
    ]


def only(root, tag):
    """The one element of a name; an empty one where there is none or several."""
    found = list(root.all(tag))
    return found[0] if len(found) == 1 else Node(f"{len(found)} of {tag}")


# What must be in it.


def form_differs(page, root, wrong, name):
    """What is wrong with the form of a page: elements, attributes, title."""
    found = list(wrong)
    if not page.lower().startswith("<!doctype html>"):
        found.append(f"begins with {page[:30]!r}")
    if not re.search(r"<meta charset=\"?utf-8\"?", page, re.IGNORECASE):
        found.append("does not say that it is UTF-8")
    for node in root.all():
        if node.tag not in ELEMENTS:
            found.append(f"an element <{node.tag}>")
        for attribute, value in node.attributes.items():
            is_policy = (attribute, value) == ("http-equiv", "Content-Security-Policy")
            if not is_policy and (attribute.startswith("on") or attribute in FORBIDDEN):
                found.append(f"an attribute {attribute} of <{node.tag}>")
            if attribute == "href" and not re.fullmatch(r"#\S+", value or ""):
                found.append(f"a link to {value!r}")
    style = only(root, "style").text()
    for word in ("@import", "url(", "expression", "http:", "https:"):
        if word in style.lower():
            found.append(f"the style has {word}")
    for word in ("prefers-color-scheme", "@media print"):
        if word not in style:
            found.append(f"the style lacks {word}")
    if only(root, "title").text() != visible(name):
        found.append(f"the title {only(root, 'title').text()!r} for {name!r}")
    return found


def anchors_of(root):
    """The elements that links lead to, by their names; and the names that stand twice."""
    names = [it.attributes["id"] for it in root.all() if "id" in it.attributes]
    return {it.attributes["id"]: it for it in root.all() if "id" in it.attributes}, {
        it for it in names if names.count(it) > 1
    }


class Marked:
    """The lines of a page, with the place in their text at which each element begins."""

    def __init__(self, root):
        self.text, self.begins = "", {}
        self.walk(only(root, "main"))
        self.lines = self.text.split("\n")

    def walk(self, node):
        self.begins[id(node)] = len(self.text)
        for it in node.children:
            if isinstance(it, str):
                self.text += it
            else:
                self.walk(it)

    def line_at(self, node):
        """The number of the line at which an element begins; behind empty lines that begin with it."""
        at = self.begins[id(node)]
        while at < len(self.text) and self.text[at] == "\n":
            at += 1
        return self.text.count("\n", 0, at)


def links_differ(root, facts):
    """What is wrong with the links of the lines: an id leads to the line that defines it, and a definition to its uses,
    as far as they are on the page. No link leads nowhere."""
    found, marked, (anchors, twice) = [], Marked(root), anchors_of(root)
    lines = marked.lines
    if twice:
        found.append(f"anchors twice: {sorted(twice)[:5]}")
    linked = set()
    for link in root.all("a"):
        target = anchors.get(link.attributes.get("href", "#")[1:])
        if target is None:
            found.append(f"a link to {link.attributes.get('href')}, which is not there")
        elif id(link) in marked.begins and id(target) in marked.begins:
            at, line, word = marked.line_at(link), lines[marked.line_at(target)], link.text()
            linked.add((at, word))
            if word and not line.startswith(f"{word} = "):
                found.append(f"{word} leads to {line!r}")
            if not word and not re.search(rf"{lines[at].split(' ')[0]}(?!\d)", line):
                found.append(f"{lines[at]!r} has a use in {line!r}")
    return found + unlinked(root, facts, marked, linked)


def places_of(lines):
    """The line of each instruction that is shown, by its number."""
    found = {}
    for at, line in enumerate(lines):
        number = re.search(r"; inst (\d+) word ", line)
        if number:
            found.setdefault(int(number[1]), at)
    return found


def unlinked(root, facts, marked, linked):
    """The uses of ids that are no link, although the line that defines them is there; and the definitions that have no
    links to their uses, the first fifty."""
    place_of, found, users, reading = places_of(marked.lines), [], {}, Reading(facts)
    for number in range(len(facts.insts)):
        for of in dict.fromkeys(reading.ids(number, ("Type", "Id"))):
            if number in place_of:
                users.setdefault(facts.first.get(of), []).append(f"#{number}")
            is_shown = number in place_of and facts.first.get(of) in place_of
            if is_shown and (place_of[number], f"%{of}") not in linked:
                found.append(f"%{of} of {marked.lines[place_of[number]]!r} is no link")
    told = {}
    for link in only(root, "main").all("a"):
        if not link.text():
            told.setdefault(marked.line_at(link), []).append(link.attributes.get("href"))
    for number, at in place_of.items():
        wanted = users.get(number, [])[:MOST_USES]
        if told.get(at, []) != wanted:
            found.append(f"the uses of {marked.lines[at]!r} are {told.get(at)}, and not {wanted}")
    return found


def contents_differ(root, facts, text):
    """What is wrong with the list of contents: each function and block that is shown has its link."""
    nav, found, reached = only(root, "nav"), [], set()
    marked, (anchors, _) = Marked(root), anchors_of(root)
    for link in nav.all("a"):
        target = anchors.get(link.attributes.get("href", "#")[1:])
        if target is None or id(target) not in marked.begins:
            found.append(f"{link.text()!r} of the contents leads nowhere")
        else:
            reached.add(marked.lines[marked.line_at(target)].split(";")[0].strip())
    for number, inst in enumerate(facts.insts):
        if inst.opcode in (FUNCTION, LABEL) and f"; inst {number} word" in text:
            if facts.shown(number) not in reached:
                found.append(f"the contents lack {facts.shown(number)}")
    return found


def verdict_differs(root, facts, text):
    """What is wrong with the line of the verdict above the contents, which leads to its instruction if that is there,
    and with the function that is marked."""
    nav, found, (anchors, _) = only(root, "nav"), [], anchors_of(root)
    told = text.split("\n")[0][2:] if text.startswith(VERDICT) else None
    if [it.text() for it in nav.all("p")] != ([told] if told else []):
        found.append(f"{[it.text() for it in nav.all('p')]} above the contents of {told}")
    inst = int(re.search(r" inst (\d+) ", told)[1]) if told else None
    wanted = [f"#{inst}"] if str(inst) in anchors else []
    links = [it.attributes.get("href") for place in nav.all("p") for it in place.all("a")]
    if links != wanted:
        found.append(f"{told} leads to {links}, and not {wanted}")
    functions = [*Reading(facts).function_of(), None]
    faulty = functions[inst] if told else None
    if told and inst == len(facts.insts) and inst > 0 and facts.insts[-1].opcode != FUNCTION_END:
        faulty = functions[inst - 1]
    marked = [it.attributes.get("class") for it in nav.all("summary")]
    heads = [number for number, it in enumerate(facts.insts) if it.opcode == FUNCTION and str(number) in anchors]
    if marked != [None, *("fault" if it == faulty else None for it in heads)]:
        found.append(f"the contents are marked {marked}, where the fault is of {faulty}")
    return found


def lines_of(root):
    """The text of a page's lines: that of its part `main`, behind a first line feed."""
    text = only(root, "main").text()
    return text[1:] if text.startswith("\n") else text


def page_differs(page, facts, text, name):
    """None if a page is that of a text for reading, else what is wrong."""
    root, wrong = tree_of(page)
    found = form_differs(page, root, wrong, name)
    if lines_of(root) != text:
        got, wanted = lines_of(root).split("\n"), text.split("\n")
        at = next((at for at, pair in enumerate(zip(got, wanted)) if pair[0] != pair[1]), min(len(got), len(wanted)))
        found.append(f"line {at + 1} reads {got[at : at + 1]}, and not {wanted[at : at + 1]}")
    else:
        found += links_differ(root, facts) + contents_differ(root, facts, text) + verdict_differs(root, facts, text)
    return "\n".join(f"  {it}" for it in found[:9]) or None


def module_differs(program, folder, facts, path):
    """None if the page of a module is right, whole and of each function."""
    printed = text_of(asked(program, folder, "explain", path)).split("\n")[:-1]
    choices = [[]]
    if code_of(printed) not in "WIPL":
        choices += [["--function", str(it)] for it in functions_of(facts)]
    for words in choices:
        plain, got = (asked(program, folder, "annotate", *form, *words, path) for form in ([], ["--html"]))
        if code_of(printed) == "W":
            wrong = difference(plain, got)
        elif (got.err, got.status) != (b"", plain.status):
            wrong = f"  {got}"
        else:
            wrong = page_differs(text_of(got), facts, text_of(plain), str(path))
        if wrong:
            return f"  {' '.join(words)}\n{wrong}"
    return None


def modules_paged(program, folder):
    """All modules of tests/modules, and those of texts of cases."""
    grammar = grammar_in(GRAMMAR)
    found = [(path.stem, path.read_bytes()) for path in sorted((TESTS / "modules").glob("*.spv"))]
    for name, content in [*found, *written().items()]:
        (folder / "module.spv").write_bytes(content)
        wrong = module_differs(program, folder, Facts(grammar, content), "module.spv")
        if wrong:
            return f"  {name}\n{wrong}"
    return None


def repeated_paged(program, folder):
    """The page of a module whose instructions use named ids several times."""
    content = assembled(grammar_in(GRAMMAR), REPEATED)
    (folder / "module.spv").write_bytes(content)
    return module_differs(program, folder, Facts(grammar_in(GRAMMAR), content), "module.spv")


# Hostile texts and names.

TAGS = (
    "</pre><script>fetch('/taken')</script>",
    '"><img src=/taken onerror=alert(1)>',
    "<style>*{display:none}</style>",
    "<!--",
    "]]>",
)
TAGS += (
    "&lt;b&gt;",
    "&#60;b&#62;",
    "' onmouseover='x",
    "<a href=https://example.org/>",
    "--><b>",
    "\x0c<b>",
    "</title>",
    "&nbsp",
    "<",
    "%3",
)


def hostile_content():
    """A module whose names and texts are HTML."""
    names = [f"OpName %{10 + at} {quoted(it)}" for at, it in enumerate(TAGS[:4])]
    strings = [f"%{200 + at} = OpString {quoted(it)}" for at, it in enumerate((*TAGS, HOSTILE))]
    lines = [it for it in DECLARATIONS if not it.startswith(("OpName", "%52 "))]
    at = next(number for number, it in enumerate(lines) if it.startswith("OpDecorate"))
    entry = next(number for number, it in enumerate(lines) if it.startswith("OpEntryPoint"))
    lines[entry] = f"OpEntryPoint Kernel %10 {quoted(TAGS[0])}"
    return assembled(grammar_in(GRAMMAR), [*lines[:at], *strings, *names, *lines[at:], *BEGUN, *LOOP, *ENDED])


def hostile_paged(program, folder):
    """No text of a module and no name of a file puts anything into the page."""
    content = hostile_content()
    facts = Facts(grammar_in(GRAMMAR), content)
    (folder / "<").mkdir()
    names = ["module.spv", "<script>.spv", "</title><b>&amp;.spv", "a\"b'.spv", "größe.spv", "\x1b\x7f\x85\xa0.spv"]
    for name in names:
        (folder / name).write_bytes(content)
        wrong = module_differs(program, folder, facts, name)
        if wrong:
            return f"  {name}\n{wrong}"
    return None


# Chromium.


def browser(folder, *words, seconds=SECONDS):
    """What headless Chromium prints."""
    flags = ["--headless", "--no-sandbox", "--disable-gpu", "--disable-dev-shm-usage", "--hide-scrollbars"]
    flags += [
        "--no-first-run",
        "--disable-background-networking",
        "--disable-sync",
        f"--user-data-dir={folder / 'profile'}",
    ]
    ended = subprocess.run(
        ["chromium", *flags, *map(str, words)],
        cwd=folder,
        stdin=subprocess.DEVNULL,
        capture_output=True,
        timeout=seconds,
        check=False,
        env={**os.environ, "HOME": str(folder)},
    )
    return ended.stdout


class Served:
    """A server on this machine that hands out one page, and keeps what is asked of it."""

    def __init__(self, page):
        asked_for = self.asked_for = []

        class Handler(http.server.BaseHTTPRequestHandler):
            def do_GET(self):
                asked_for.append(self.path)
                is_page = self.path == "/page.html"
                self.send_response(200 if is_page else 404)
                self.send_header("Content-Type", "text/html")
                self.end_headers()
                self.wfile.write(page if is_page else b"")

            def log_message(self, *_):
                pass

        self.server = http.server.ThreadingHTTPServer(("127.0.0.1", 0), Handler)
        self.thread = threading.Thread(target=self.server.serve_forever, daemon=True)

    def __enter__(self):
        self.thread.start()
        return f"http://127.0.0.1:{self.server.server_address[1]}/page.html"

    def __exit__(self, *_):
        self.server.shutdown()
        self.server.server_close()


def opened(program, folder):
    """Chromium reads the same text, with the same links, and asks for nothing but the page, of hostile texts too."""
    (folder / "hostile.spv").write_bytes(hostile_content())
    for path in (KERNEL, BROKEN, folder / "hostile.spv"):
        page = asked(program, folder, "annotate", "--html", path).out
        text = text_of(asked(program, folder, "annotate", path))
        served = Served(page)
        with served as url:
            dom = browser(folder, "--dump-dom", url).decode("utf-8", "surrogateescape")
        if set(served.asked_for) - {"/favicon.ico"} != {"/page.html"}:
            return f"  {path.name}: asked for {served.asked_for}"
        root, _ = tree_of(dom)
        if lines_of(root) != text:
            return f"  {path.name}: Chromium reads {lines_of(root)[:500]!r}"
        facts = Facts(grammar_in(GRAMMAR), path.read_bytes())
        wrong = links_differ(root, facts) + contents_differ(root, facts, text)
        tags = {it.tag for it in root.all()} - ELEMENTS
        if wrong or tags:
            return f"  {path.name}: {tags} {wrong}"
    return None


def pixels(path):
    """The width of a picture in PNG of 8 bits a channel, and its rows of bytes, three or four a pixel."""
    content = path.read_bytes()
    at, packed, form = 8, b"", ()
    while at < len(content):
        length, kind = int.from_bytes(content[at : at + 4], "big"), content[at + 4 : at + 8]
        part = content[at + 8 : at + 8 + length]
        if kind == b"IHDR":
            form = (int.from_bytes(part[:4], "big"), int.from_bytes(part[4:8], "big"), {2: 3, 6: 4}[part[9]])
        packed += part if kind == b"IDAT" else b""
        at += length + 12
    width, height, each = form
    rows, before, rest = [], bytearray(width * each), zlib.decompress(packed)
    for number in range(height):
        start = number * (width * each + 1)
        row = unfiltered(rest[start], bytearray(rest[start + 1 : start + 1 + width * each]), before, each)
        rows.append(row)
        before = row
    return each, rows


def unfiltered(sort, row, before, each):
    """A row of a picture, of what it is told by: the bytes before it and above it."""
    for at, it in enumerate(row):
        left, above = row[at - each] if at >= each else 0, before[at]
        corner = before[at - each] if at >= each else 0
        guess = (0, left, above, (left + above) // 2, nearest(left, above, corner))[sort]
        row[at] = (it + guess) & 0xFF
    return row


def nearest(left, above, corner):
    """Of three bytes the one that is nearest to what they lead to."""
    to = left + above - corner
    return min((left, above, corner), key=lambda it: abs(to - it))


def drawn(program, folder):
    """The page is light or dark as the reader has set it, and the fault in it is red in both."""
    for path, is_red in ((KERNEL, False), (BROKEN, True)):
        (folder / "page.html").write_bytes(asked(program, folder, "annotate", "--html", path).out)
        shades = []
        for scheme in (1, 0):
            shot = folder / f"shot{scheme}.png"
            flags = [
                f"--screenshot={shot}",
                "--window-size=800,1000",
                f"--blink-settings=preferredColorScheme={scheme}",
            ]
            browser(folder, *flags, f"file://{folder}/page.html")
            if not shot.is_file():
                return f"  {path.name}: no picture"
            each, rows = pixels(shot)
            shades.append(sum(map(sum, (row[0::each] for row in rows))) / sum(len(row) // each for row in rows))
            red = sum(
                row[at] > row[at + 1] + RED and row[at] > row[at + 2] + RED
                for row in rows
                for at in range(0, len(row), each)
            )
            if (red > 20) != is_red:
                return f"  {path.name}: {red} red points, scheme {scheme}"
        if not shades[0] > 150 > 100 > shades[1]:
            return f"  {path.name}: light {shades[0]:.0f}, dark {shades[1]:.0f}"
    return None


def large(program, folder):
    """The page of a module of 8 MB is written in a few seconds."""
    subprocess.run([str(TESTS / "generate"), "--bytes", str(8 << 20), str(folder), "straight"], check=True)
    got = run(program, ["annotate", "--html", folder / "straight.spv"], folder, env=under(GRAMMAR))
    fine = (got.err, got.status) == (b"", 0) and got.out.rstrip().endswith(b"</html>")
    return None if fine else f"  {got}"


def nothing_of_faults(program, folder):
    """Of a fault of words or instructions there is no page: the verdict line alone."""
    (folder / "short.spv").write_bytes(b"123")
    return difference(Answer(b"fault W2\n", b"", 1), asked(program, folder, "annotate", "--html", "short.spv"))


def checks():
    """All of these."""
    chromium = ("chromium",)
    found = [
        ("modules", modules_paged, ()),
        ("names of ids that are used several times", repeated_paged, ()),
        ("texts and names that are HTML", hostile_paged, ()),
        ("a fault of words", nothing_of_faults, ()),
        ("8 MB", large, ()),
        ("in Chromium", opened, chromium),
        ("light, dark and red", drawn, chromium),
    ]
    return [Check(f"page: {name}", LAYERS, run_it, frozenset(tools)) for name, run_it, tools in found]
