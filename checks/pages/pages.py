"""Looks at the pages: README.md, CRATES.md, docs/*.md and the README of each crate. Run at the top of the repository.

Prints `ok NAME` for each of these, or a line `failed NAME: PLACE: WHAT` for each place where it isn't so:
each link leads to a file, and to a heading of it where it names one; each file that a page names is there; each
name that a page gives with its crate, or with its crate and file, is in them, and each other name of the sources is
somewhere in them; each crate has a README with a first line; README.md and docs/NOT_PROVED.md are short.
"""

import re
import sys
from pathlib import Path

TOP = Path(".")
LONGEST = {"README.md": 120, "docs/NOT_PROVED.md": 30}
MADE = {"CRATES.md", "docs/PROMISES.md"}
TOKEN = re.compile(r"`([^`\n]+)`")
LINK = re.compile(r"\[[^\]]*\]\(([^)\s]+)\)")
FILE = re.compile(r"[\w.-]+\.(?:antt|rt|md|sh|py|txt|edit|java|jasm)")
FOLDER = re.compile(r"(?:crates|checks|docs|bench|scripts)(?:/[\w.-]+)*/?")
NAME = re.compile(r"(?:\w+(?:::|\.))*(\w+)")
IMPORT = re.compile(r"^\s*(?:(?:pub |ghost )*use|--|//).*$", re.M)
DEFINED = re.compile(r"^\s*(?:(?:abbrev|pub|record|data) +)*◌?(\w+)", re.M)
# Names that only sources have: words joined by `_`, or capitalized words written together.
OURS = re.compile(r"[a-z][a-z0-9]*_\w+|(?!\w+(?:Error|Exception)$)[A-Z]\w*[a-z][A-Z]\w*")
# Between two names of one list: a comma, `and`, `or`, `then`, or a word that only joins them.
JOIN = re.compile(r"(?:,|;)? ?(?:and|or|then|and then|, then)? ?")

problems = []


def fail(name, place, what):
    problems.append(f"failed {name}: {place}: {what}")


def read(path):
    return path.read_text(encoding="utf-8")


class Crate:
    """The words of a crate, and those that each of its files has: of a file of definitions, those that it defines."""

    def __init__(self, name):
        self.files, self.words = {}, set()
        for part in ("src", "specs", "proofs"):
            for path in sorted((TOP / "crates" / name / part).rglob("*")):
                if path.suffix in (".rt", ".antt"):
                    text = IMPORT.sub("", read(path))
                    self.words.update(re.findall(r"\w+", text))
                    defined = re.findall(r"\w+", text) if path.suffix == ".rt" else DEFINED.findall(text)
                    self.files.setdefault(path.name, set()).update(defined)
        # Files and folders beside src/, as `stdout` and `data`, count as names.
        self.words.update(path.name for path in (TOP / "crates" / name).glob("*"))


def crate_names():
    lines = read(TOP / "crates.txt").splitlines()
    return [line.split(":")[0].split()[0] for line in lines if ":" in line and not line.startswith("#")]


def without_code(text):
    """A page with its indented and fenced code taken out, line by line."""
    lines, fenced = [], False
    for line in text.split("\n"):
        if line.startswith("```"):
            fenced = not fenced
            line = ""
        lines.append("" if fenced or line.startswith("    ") else line)
    return lines


def anchors(text):
    found = set()
    for line in without_code(text):
        if re.match(r"#+ ", line):
            plain = line.lstrip("#").strip().lower()
            found.add(re.sub(r"[^\w\- ]", "", plain).replace(" ", "-"))
    return found


def look_at_links(page, lines):
    for number, line in enumerate(lines, 1):
        for target in LINK.findall(TOKEN.sub("", line)):
            if re.match(r"[a-z]+:", target):
                continue
            name, _, anchor = target.partition("#")
            path = page.parent / name if name else page
            if not path.exists():
                fail("links", f"{page}:{number}", target)
            elif anchor and anchor not in anchors(read(path)):
                fail("links", f"{page}:{number}", f"{target} has no such heading")


class Line:
    """A line of a page: its tokens, which are what it has in backquotes, and what is between them."""

    def __init__(self, text, place):
        self.text, self.place = text, place
        self.tokens = list(TOKEN.finditer(text))

    def token(self, at):
        return self.tokens[at].group(1) if 0 <= at < len(self.tokens) else ""

    def before(self, at):
        """What is between a token and the one before it."""
        return self.text[self.tokens[at - 1].end() : self.tokens[at].start()] if 0 < at < len(self.tokens) else ""

    def names_before(self, at):
        """The names of the list that ends right before a token."""
        found = []
        while at > 0 and (not found or JOIN.fullmatch(self.before(at))):
            name = NAME.fullmatch(self.token(at - 1))
            if not name or FILE.fullmatch(self.token(at - 1)):
                break
            found.append(name.group(1))
            at -= 1
        return found

    def files_at(self, at):
        """The list of files that begins with a token."""
        found = []
        while FILE.fullmatch(self.token(at)) and (not found or self.before(at) in (", ", " and ")):
            found.append(self.token(at))
            at += 1
        return found


class Names:
    """Looks at the names and files on pages."""

    def __init__(self, crates):
        self.crates = crates
        self.known = set(crates).union(*(crate.words for crate in crates.values()))

    def look(self, page, lines, own):
        for number, text in enumerate(lines, 1):
            line = Line(text, f"{page}:{number}")
            last = own
            for at in range(len(line.tokens)):
                token = line.token(at)
                self.look_at_name(line, token)
                if token in self.crates:
                    last = token
                    self.look_at_crate(line, at)
                elif FOLDER.fullmatch(token) and "NAME" not in token:
                    if not (TOP / token).exists():
                        fail("files", line.place, token)
                elif " " not in token and FILE.fullmatch(token.rsplit("/", 1)[-1]):
                    self.look_at_file(line, at, page, own, last)

    def look_at_name(self, line, token):
        """A name of the sources is somewhere in them."""
        name = NAME.fullmatch(token)
        if name and OURS.fullmatch(name.group(1)) and name.group(1) not in self.known:
            if not FILE.fullmatch(token) and not token.startswith("java."):
                fail("names", line.place, f"{token} is in no crate")

    def look_at_crate(self, line, at):
        """The names before `in` or `of` a crate are in it, and in the files that follow, if there are some."""
        name = line.token(at)
        if line.before(at) not in (" in ", " of ") or FILE.fullmatch(line.token(at - 1)):
            return
        files = line.files_at(at + 1) if line.before(at + 1) in (", ", " in ") else []
        for file in files:
            if file.endswith((".antt", ".rt")) and file not in self.crates[name].files:
                fail("files", line.place, f"{name} has no file {file}")
        self.look_in(line, at, name, files)

    def look_in(self, line, at, owner, files):
        crate = self.crates[owner]
        for name in line.names_before(at):
            if name in self.crates:
                break
            places = [crate.files.get(file, set()) for file in files] or [crate.words]
            if not any(name in words for words in places):
                fail("names", line.place, f"{name} is not in {owner}" + (", " + ", ".join(files) if files else ""))

    def look_at_file(self, line, at, page, own, last):
        """A file is there, in the crate that the line names; and so are the names before `in` it."""
        token = line.token(at)
        file = token.rsplit("/", 1)[-1]
        if "/" in token:
            roots = [TOP, page.parent] + ([TOP / "crates" / last] if last else [])
            if not any((root / token).exists() for root in roots):
                fail("files", line.place, token)
            elif own and line.before(at) == " in " and token.startswith(("specs/", "src/")):
                self.look_in(line, at, own, [file])
        elif file.endswith((".antt", ".rt")):
            following = line.token(at + 1) if line.before(at + 1) in (" of ", " in ") else ""
            owner = following if following in self.crates else last
            owners = [self.crates[owner]] if owner else self.crates.values()
            if not any(file in crate.files for crate in owners):
                fail("files", line.place, f"{owner or 'no crate'} has no file {file}")
            elif owner and line.before(at) == " in ":
                self.look_in(line, at, owner, [file])
        elif file.endswith(".md") and not any((root / file).exists() for root in (TOP, TOP / "docs", page.parent)):
            fail("files", line.place, file)


def look_at_readmes(names):
    for name in names:
        path = TOP / "crates" / name / "README.md"
        paragraphs = read(path).split("\n\n") if path.is_file() else []
        if not paragraphs or paragraphs[0].strip() != f"# {name}":
            fail("readmes", name, "no README that begins with its name")
        elif len(paragraphs) < 2 or paragraphs[1].startswith(("#", "|", "-")):
            fail("readmes", name, "its README has no first line after the title")
    for folder in sorted((TOP / "crates").iterdir()):
        if folder.is_dir() and folder.name not in names and (folder / "src").is_dir():
            fail("readmes", folder.name, "not in crates.txt")


def main():
    names = crate_names()
    looker = Names({name: Crate(name) for name in names})
    pages = [TOP / "README.md", TOP / "CRATES.md", *sorted((TOP / "docs").glob("*.md"))]
    pages = [(page, None) for page in pages] + [(TOP / "crates" / name / "README.md", name) for name in names]
    for page, own in pages:
        if not page.is_file():
            continue
        text = read(page)
        lines = without_code(text)
        look_at_links(page, lines)
        if str(page) not in MADE:
            looker.look(page, lines, own)
        longest = LONGEST.get(str(page))
        if longest and text.count("\n") > longest:
            fail("lengths", page, f"more than {longest} lines")
    look_at_readmes(names)
    for problem in problems:
        print(problem)
    for name, what in (
        ("links", "each link of a page leads somewhere"),
        ("files", "each file that a page names is there"),
        ("names", "each name that a page gives is where the page says"),
        ("readmes", "each crate has a README with a first line"),
        ("lengths", "README.md and docs/NOT_PROVED.md are short"),
    ):
        if not any(problem.startswith(f"failed {name}:") for problem in problems):
            print(f"ok {what}")
    sys.exit(1 if problems else 0)


if __name__ == "__main__":
    main()
