#!/usr/bin/env python3
"""Checks that what the documents name is there, and that files say what they are. From the repository's root: python3 tests/docs.py [PART..]

    names      a name in `backticks` is a definition, law, function, edit, mutant or item of the host, or stands in ALLOWED
    paths      files and folders named exist, CRATE/EDIT is an edit, Markdown links and quoted headings resolve
    cited      docs/GUARANTEE.md has something in brackets behind each sentence, and each name in them stands in the file beside it
    promises   docs/PROMISES.md has a row for every public function, and names every edit, of must-fail and of tried
    sizes      counts of mutants are those of the tree, and counts of lines are within a tenth of them
    lines      no line of a document is longer than 160 characters
    widths     no line of code, definitions or proofs is, but one that is a literal alone or an attribute, which rt fmt sets on one line
    bits       a file is executable exactly if it starts with #!
    starts     a file of definitions, laws or proofs begins with a comment that says what is in it
    itself     the parts above find what is wrong in a made-up document

Conventions of the documents. A crate's name just before a name, or a list of names, says where they are: state `place_of`, `place_at`;
so does (CRATE) or (CRATE, File) just after them. `CRATE::FUNCTION` is a function of that crate, `CRATE/EDIT` an edit. In
docs/PROMISES.md a heading `### CRATE` holds for the table and the edits below it. A part in capitals, as X in crates/X/specs, stands for any.

In docs/GUARANTEE.md an item's brackets have names and then the file that declares them, (`NAME`, `NAME`, CRATE/proofs/File; ..), or scripts of tests/.

In docs/ARCHITECTURE.md a table has the definitions by paper, a part of sizes: each file of definitions counts for every paper that its first comment names.

A message is FILE:LINE: what is wrong. Exits with 1 if there is one."""
import fnmatch
import glob
import itertools
import os
import re
import subprocess
import sys

ROOT = os.path.dirname(os.path.dirname(os.path.abspath(__file__)))
WIDTH = 160
# Folders of what rt and cargo make.
MADE = re.compile(r"/target/|^crates/\w+/out/")
CODE = ("rt", "antt", "rs", "sh", "py", "c", "h", "S", "s", "inc")
LITERAL = re.compile(r'\s*\*?b?"[^"]*"[;,]?|#\[tactic\(.*\)\]')

# Names in backticks that are not of this repository, by what they are. One that no document uses is reported.
ALLOWED = {
    "the kit's": """bit_and bit_or bit_xor get_or slice_index slice_set cond eqb leb ltb ensures requires rt u32::leading_zeros
        wrapping_add_u32 wrapping_sub_u32""",
    "the report's": "setCapBounds getCapLength",
    "words of a format, of an option or of a pattern": """c0 c15 word66 word72 mshwm mshwmb imm type cap explain _ STACK_END outside marked
        later exit astray waits stuck unhandled""",
    "libgcc's and Debian's": """__divsi3 __modsi3 __umodsi3 __udivsi3 __mulsi3 __ashldi3 __bswapsi2 __paritysi2 memset
        binutils-riscv64-unknown-elf librust-clap-dev librust-indicatif-dev
        librust-object-dev librust-serde-json-dev librust-csv-dev librust-serde-dev librust-serde-derive-dev librust-sha2-dev librust-tera-dev
        librust-addr2line-dev librust-gimli-dev librust-clap-complete-dev librust-signal-hook-dev librust-tempfile-dev""",
}


# Papers by the words that name them.
PAPERS = {"CHERIoT report": r"\b[Rr]eport\b", "RISC-V standards": r"RISC-V|\bstandard", "document 01": r"\b[Dd]ocument 01\b"}


def read(path):
    with open(os.path.join(ROOT, path), encoding="utf-8", errors="replace") as f:
        return f.read()


def files(*patterns):
    found = [f for p in patterns for f in glob.glob(os.path.join(ROOT, p), recursive=True)]
    return sorted(path for f in found if os.path.isfile(f) and not MADE.search(path := os.path.relpath(f, ROOT)))


# A page that sets old words beside today's: what it names need not be there any more.
OLD_WORDS = ("docs/PORT.md", "docs/DESIGN-PASS.md")
# And one whose blocks are clauses and definitions, in which a number before a word is no size.
TEXT_OF_CODE = ("docs/DESIGN-PASS.md", "sizes")


def documents():
    return files("README.md", "docs/**/*.md", "examples/*.md", "host/*/README.md")


# ---- what there is

def antt_names(text):
    """What a file of definitions or laws declares: NAME .. : TYPE, and records and data types."""
    text = re.sub(r"--.*", "", text)
    modifiers = r"(?:(?:abbrev|unfoldable|applied|private|pub|unfolding [^;\n]*? in) )*"
    names = re.findall(rf"(?m)^\s*{modifiers}(?:record|data) (\S+)", text)
    for group in re.findall(rf"(?m)^\s*(?:\| )?{modifiers}((?:[^\s:(){{}}=,;]+ )+):", text):
        names += group.split()
    return names


def definitions(text):
    """What a file of definitions declares by itself: not the fields of a record, nor the constructors of a data type."""
    text = re.sub(r"--.*", "", text)
    return antt_names("\n".join(line for line in text.split("\n") if not line.startswith(" ")))


def papers_of(text):
    """The papers that the comment at a file's head names; document 02 by its requests."""
    head = " ".join(line[2:].strip() for line in itertools.takewhile(lambda line: line.startswith("--"), text.split("\n")))
    named = {name for name, pattern in PAPERS.items() if re.search(pattern, head)}
    for requests in re.findall(r"[Dd]ocument 02, (\d+(?:, \d+)*(?: and \d+)?)", head):
        named |= {f"document 02, {number}" for number in re.findall(r"\d+", requests)}
    return named or {"no paper"}


def code_names(text):
    """Items of Rattle or Rust code, variants of its enums among them."""
    text = re.sub(r"//.*", "", text)
    names = re.findall(r"\b(?:fn|const|static|struct|enum|type|trait|mod|union) ([A-Za-z_]\w*)", text)
    for body in re.findall(r"\benum \w+[^{]*\{(.*?)\n\s*\}", text, re.S):
        names += re.findall(r"(?m)^\s*([A-Z]\w*)", body)
    for body in re.findall(r"\bstruct \w+[^{;]*\{(.*?)\n\s*\}", text, re.S):
        names += re.findall(r"(?m)^\s*(?:pub )?(\w+):", body)
    return names


class Tree:
    """The names of each crate, and those of the rest."""

    def __init__(self):
        self.crates = {name: set() for name in re.findall(r"(?m)^(\w+)(?: staticlib)?:", read("crates.txt"))}
        self.edits = set()
        for crate, names in self.crates.items():
            for f in files(f"crates/{crate}/specs/**/*.antt", f"crates/{crate}/proofs/**/*.antt"):
                names.update(antt_names(read(f)))
            for f in files(f"crates/{crate}/src/**/*.rt"):
                names.update(code_names(read(f)))
            for f in files(f"crates/{crate}/must-fail/*.edit", f"crates/{crate}/tried/*.edit"):
                self.edits.add(f"{crate}/{os.path.basename(f)[:-len('.edit')]}")
        self.mutants = set(re.findall(r"(?m)^mutant (\S+)", read("host/compare/mutants/mutants.txt")))
        self.rest = set(self.mutants)
        for f in files("host/**/*.rs"):
            self.rest.update(code_names(read(f)))
        for f in files("include/*.h"):
            self.rest.update(re.findall(r"\b(oddersnow_\w+)\(", read(f)))
        self.allowed = {name for names in ALLOWED.values() for name in names.split()}
        self.used = set()

    def by_paper(self):
        """How many files of definitions name a paper, and how many definitions they have; and all."""
        counts = {}
        for f in files("crates/*/specs/**/*.antt"):
            if os.path.basename(f) == "Lib.antt":
                continue
            for paper in papers_of(read(f)) | {"all"}:
                before = counts.get(paper, (0, 0))
                counts[paper] = (before[0] + 1, before[1] + len(definitions(read(f))))
        return counts

    def has(self, name, crate=None):
        if crate:
            return any(fnmatch.fnmatchcase(n, name) for n in self.crates[crate]) or f"{crate}/{name}" in self.edits
        if name in self.allowed:
            self.used.add(name)
            return True
        return name in self.rest or name in self.crates or any(self.has(name, c) for c in self.crates)

    def public(self, crate):
        """The functions that the crate's library gives out, methods among them."""
        if not os.path.isfile(os.path.join(ROOT, f"crates/{crate}/src/lib.rt")):
            return []
        text = read(f"crates/{crate}/src/lib.rt")
        used = " ".join(re.findall(r"(?m)^pub use (?:\w+::)+(\w+;|\{[^}]*\};)", text))
        given = re.findall(r'(?m)^(?:    )?pub (?:extern "C" )?fn (\w+)', text) + re.findall(r"\b[a-z]\w*\b", used)
        for path in sorted(glob.glob(os.path.join(ROOT, f"crates/{crate}/src/*.rt"))):
            if os.path.basename(path) != "lib.rt":
                given += self.methods(read(path), re.findall(r"\b[A-Z]\w*\b", used))
        return given

    def methods(self, text, types):
        """Those of types and traits that stand in another file than the library's first, and are given out by it."""
        for kind, name, block in re.findall(r"(?ms)^(pub trait|impl)(?:<[^>]*>)? (\w+)\b(?! for)[^{]*\{\n(.*?)^\}", text):
            if name in types:
                yield from re.findall(r"(?m)^    pub fn (\w+)" if kind == "impl" else r"(?m)^    fn (\w+)", block)


class Document:
    """Its lines, each with its number, whether it stands in a block of code, and the heading above it."""

    def __init__(self, path, text=None):
        self.path = path
        self.lines, fenced, heading = [], False, ""
        for number, line in enumerate((read(path) if text is None else text).split("\n"), 1):
            if line.startswith("```"):
                fenced = not fenced
            if not fenced and line.startswith("#"):
                heading = line.lstrip("# ").strip()
            self.lines.append((number, line, fenced or line.startswith("    "), heading))

    def joined(self):
        """Each line with the ones before and after it, so that a list that is wrapped is read as one."""
        for at, (number, line, code, heading) in enumerate(self.lines):
            after = self.lines[at + 1][1] if at + 1 < len(self.lines) else ""
            before = self.lines[at - 1][1] if at else ""
            yield number, before.strip() + " ", line, " " + after.strip(), code, heading


# ---- the parts

NAME = re.compile(r"[A-Za-z_*][\w'*-]*(::[A-Za-z_]\w*)*")


def names(tree, document):
    crates = "|".join(sorted(tree.crates, key=len, reverse=True))
    before_list = re.compile(rf"\b({crates}) (?:`[^`]+`(?: \([^)]*\))?(?:,| and| to) )*$")
    after_list = re.compile(rf"^(?:(?:,| and|, and| to) `[^`]+`)* \(({crates})(?:, ([A-Z]\w*))?[,;)]")
    for number, before, line, after, code, heading in document.joined():
        if code or line.startswith("```"):
            continue
        if line.count("`") % 2:
            yield number, "what stands in backticks goes on in the next line"
            continue
        whole = before + line + after
        for token in re.finditer(r"`([^`]+)`", line):
            name = token.group(1)
            if not NAME.fullmatch(name):
                continue
            at = len(before) + token.start()
            told = before_list.search(whole[:at]) or after_list.match(whole[len(before) + token.end():])
            yield from name_faults(tree, number, name, told, heading)


def name_faults(tree, number, name, told, heading):
    if "::" in name and name not in tree.allowed:
        crate, function = name.split("::", 1)
        if crate not in tree.crates or not tree.has(function, crate):
            yield number, f"no `{name}`"
        return
    if told and told.group(1):
        crate = told.group(1)
        if not tree.has(name, crate):
            yield number, f"crate {crate} has no `{name}`" + (", which is elsewhere" if tree.has(name) else "")
        if told.re.groups > 1 and told.group(2) and not module(crate, told.group(2)):
            yield number, f"crate {crate} has no file {told.group(2)}"
    elif not (heading in tree.crates and tree.has(name, heading)) and not tree.has(name):
        yield number, f"no `{name}`"


def module(crate, name):
    return files(f"crates/{crate}/specs/{name}.antt", f"crates/{crate}/proofs/{name}.antt")


def paths(tree, document):
    crates = "|".join(sorted(tree.crates, key=len, reverse=True))
    first = rf"crates|docs|host|packaging|tests|examples|include|specs|proofs|src|must-fail|tried|{crates}"
    path = re.compile(rf"(?<![\w/.`-])`?(\.ci/run|(?:{first})/[\w./*-]*[\w*])")
    for number, before, line, after, code, heading in document.joined():
        for found in path.finditer(line):
            if not exists(tree, found.group(1).rstrip(".")):
                yield number, f"no {found.group(1)}"
        for link in re.findall(r"\]\(([^)]+)\)", line):
            target = os.path.join(os.path.dirname(document.path), link.split("#")[0])
            if "://" not in link and not os.path.exists(os.path.join(ROOT, target)):
                yield number, f"no {link}"
        for place in re.finditer(r'(README\.md|docs/[A-Z]+\.md),? (?:and )?"([^"]+)"', line + after):
            if place.start() < len(line) and not has_heading(tree, *place.groups()):
                yield number, f'no heading "{place.group(2)}" in {place.group(1)}'


def has_heading(tree, file, title):
    return exists(tree, file) and re.search(rf"(?m)^#+ {re.escape(title)}$", read(file))


def exists(tree, path):
    """Whether a path, from the root, a crate's folder or any crate, is there; capitals stand for any name."""
    if path in tree.edits or re.match(r"(host/)?target\b|host/bench/target\b", path):
        return True
    path = re.sub(r"(?<=/)(X|NAME|CRATE|FUNCTION)(?=[/.]|$)", "*", path)
    roots = ["", "crates/", "crates/*/", "host/bench/"]
    return any(glob.glob(os.path.join(ROOT, root + path + end)) for root in roots for end in ("", ".antt", ".rt"))


CITED = "docs/GUARANTEE.md"
# Where each item must have something behind it; an assumption that nothing checks says so instead.
CITING = {"What is proved": "`", "What is assumed": "`|tests/|nothing checks", "What is tested only": "tests/"}


def items(document):
    """The items of lists, each with the number of its first line, its text as one line, and the heading above."""
    at, text, above = 0, "", ""
    for number, line, _, heading in [*document.lines, (0, "", False, "")]:
        if text and (not line.startswith("  ") or line.startswith("- ")):
            yield at, text, above
            text = ""
        if line.startswith("- "):
            at, text, above = number, line[2:], heading
        elif text:
            text += " " + line.strip()


def cited(tree, document):
    if document.path != CITED:
        return
    for number, item, heading in items(document):
        for sentence in re.split(r"(?<=\.) (?=[A-Z])", item):
            if heading in CITING and not re.search(rf"\([^()]*({CITING[heading]})|nothing checks", sentence):
                yield number, f"nothing stands behind '{sentence[:60]}'"
        for brackets in re.findall(r"\(([^()]*(?:`|tests/)[^()]*)\)", item):
            yield from ((number, fault) for part in brackets.split("; ") for fault in citation_faults(part))


def citation_faults(part):
    """What is wrong with names and the file that declares them."""
    told, places = re.findall(r"`([^`]+)`", part), re.findall(r"[\w.]+/[\w./]+", part)
    if not told:
        return
    found = files(*(f"crates/{place}{end}" for place in places for end in ("", ".antt", ".rt")))
    if len(places) != 1 or not found:
        yield f"no file in ({part})"
        return
    declared = antt_names(read(found[0])) if found[0].endswith(".antt") else code_names(read(found[0]))
    for name in told:
        if name not in declared:
            yield f"{found[0]} has no `{name}`"


def promises(tree, document):
    if document.path != "docs/PROMISES.md":
        return
    text = "\n".join(line for _, line, _, _ in document.lines)
    told = {(heading, name) for _, line, _, heading in document.lines for name in re.findall(r"^\| `(\w+)` \|", line)}
    for crate in tree.crates:
        for function in tree.public(crate):
            if (crate, function) not in told:
                yield 1, f"no row for the public function {crate}::{function}"
    for heading, name in sorted(told):
        if heading in tree.crates and name not in tree.public(heading):
            yield 1, f"a row for {heading}::{name}, which is no public function"
    for edit in sorted(tree.edits):
        crate, name = edit.split("/")
        section = "\n".join(line for _, line, _, heading in document.lines if heading == crate)
        if not re.search(rf"\b{name}\b", section) and not re.search(rf"\b{edit}\b", text):
            yield 1, f"the edit {edit} is not named"


def sizes(tree, document):
    yield from papers(tree, document)
    for number, before, line, after, code, heading in document.joined():
        for count in re.findall(r"\b(\d+) (?:wrong machines|mutants|one-line mistakes)\b", line):
            if int(count) != len(tree.mutants):
                yield number, f"{count}, and there are {len(tree.mutants)} mutants"
        for count, what in re.findall(r"([\d,]+) (?:lines )?of (code|definitions|proofs)\b", line):
            folder = {"code": "src", "definitions": "specs", "proofs": "proofs"}[what]
            there = sum(read(f).count("\n") for f in files(f"crates/*/{folder}/**/*.rt", f"crates/*/{folder}/**/*.antt"))
            if abs(int(count.replace(",", "")) - there) > there // 10:
                yield number, f"{count} of {what}, and there are {there} lines"


def papers(tree, document):
    if document.path != "docs/ARCHITECTURE.md":
        return
    counts = tree.by_paper()
    told = {}
    for number, line, _, heading in document.lines:
        row = re.match(r"\| ([^|]+) \| ([\d,]+) \| ([\d,]+) \|", line)
        if row and heading == "What a reader must believe":
            told[row.group(1)] = number, tuple(int(n.replace(",", "")) for n in row.groups()[1:])
    for paper in sorted(counts.keys() | told.keys()):
        number, count = told.get(paper, (1, None))
        if count != counts.get(paper):
            yield number, f"definitions by paper: {paper} is {count}, and there are {counts.get(paper)}"


def lines(tree, document):
    for number, line, _, _ in document.lines:
        if len(line) > WIDTH:
            yield number, f"{len(line)} characters"


def bits():
    listed = subprocess.run(["git", "ls-files", "-s"], cwd=ROOT, capture_output=True, text=True).stdout
    for mode, path in re.findall(r"(?m)^(\d+) \S+ \d\t(.*)$", listed):
        if os.path.isfile(os.path.join(ROOT, path)):
            with open(os.path.join(ROOT, path), "rb") as f:
                script = f.read(2) == b"#!"
            if script != (mode == "100755"):
                yield f"{path}:1: {'not executable' if script else 'executable, and no script'}"


def widths():
    folders = ("crates", "host", "tests", "include", "examples", "packaging")
    scripts = ("bench", ".ci/run", "packaging/*", "tests/lib/*")
    for path in files(*scripts, *(f"{folder}/**/*.{kind}" for folder in folders for kind in CODE)):
        yield from width_faults(path, read(path))


def width_faults(path, text):
    for number, line in enumerate(text.splitlines(), 1):
        if len(line) > WIDTH and not LITERAL.fullmatch(line):
            yield f"{path}:{number}: {len(line)} characters"


def starts():
    for path in files("crates/*/specs/**/*.antt", "crates/*/proofs/**/*.antt"):
        yield from start_faults(path, read(path))


def start_faults(path, text):
    if not re.match(r"-- \S", text):
        yield f"{path}:1: no comment at its start says what is in it"


PARTS = {"names": names, "paths": paths, "cited": cited, "promises": promises, "sizes": sizes, "lines": lines}
WHOLE_TREE = {"bits": bits, "widths": widths, "starts": starts}

# ---- the check of the checks

# HERE is a name of crate state, OTHER one of another crate that machine has not, EDIT an edit.
MADE_UP = """# A document
state `HERE`, `noSuchDefinition` are named, and `OTHER`, `no-such-law`, `no_such_function` and `machine::no_such_step`.
The crate of machine `OTHER` is another, and so is that of `OTHER` (machine) and `HERE` (state, NoSuchFile). This goes on: `to the
next line`. Edits bounds/no_such_edit and `EDIT`, mutant `no-such-mutant`, file tests/no_such.sh, [link](NO_SUCH.md).
See docs/TESTING.md, "No such heading". There are 1 mutants, and 12 lines of code.
""" + "x" * (WIDTH + 1)
FOUND = ["2: crate state has no `noSuchDefinition`", "2: no `no-such-law`", "2: no `no_such_function`", "2: no `machine::no_such_step`",
         "3: what stands in backticks", "4: what stands in backticks",
         "4: no bounds/no_such_edit", "4: no tests/no_such.sh", "4: no NO_SUCH.md", '5: no heading "No such heading" in docs/TESTING.md',
         "5: 1, and there are", "5: 12 of code, and there are", f"6: {WIDTH + 1} characters"]
WHOLE = ["3: crate machine has no `OTHER`, which is elsewhere", "3: crate machine has no `OTHER`, which is elsewhere",
         "3: crate state has no file NoSuchFile", "4: no `no-such-mutant`"]

MADE_UP_GUARANTEE = """## What is proved
- This is so (`refusal_is`, machine_laws/proofs/Refusals; `step`, machine/src/lib). This is not
  (see it). That is elsewhere (`refusal_is`, machine_laws/proofs/Runs), or nowhere (`refusal_is`, machine_laws/proofs/NoSuch).
## What is tested only
- That (tests/docs.sh).
- This.
"""
UNCITED = ["2: nothing stands behind 'This is not (see it).'", "2: crates/machine_laws/proofs/Runs.antt has no `refusal_is`",
           "2: no file in (`refusal_is`, machine_laws/proofs/NoSuch)", "6: nothing stands behind 'This.'"]


def wrong_papers(tree):
    counted = read("docs/ARCHITECTURE.md").replace("| document 01 |", "| document 01 | 0 | 0 |\n| document 00 |")
    said = [text.split(" is ")[0] for _, text in sizes(tree, Document("docs/ARCHITECTURE.md", counted))]
    if said != [f"definitions by paper: document {paper}" for paper in ("00", "01")]:
        yield f"tests/docs.py:1: of a table of papers with two wrong rows is said {said}"


def itself(tree):
    yield from wrong_papers(tree)
    here = min(n for n in tree.crates["state"] if NAME.fullmatch(n))
    other = min(n for n in tree.crates["instructions"] if NAME.fullmatch(n) and not tree.has(n, "machine"))
    text = MADE_UP.replace("HERE", here).replace("OTHER", other).replace("EDIT", min(tree.edits))
    yield from differing(tree, "docs/MADE-UP.md", text, FOUND)
    mended = text.replace("`to the\nnext line`", "to the\nnext line")
    yield from differing(tree, "docs/MADE-UP.md", mended, [f.replace("OTHER", other) for f in FOUND + WHOLE if "backticks" not in f])
    said = [f"{n}: {text}" for n, text in cited(tree, Document(CITED, MADE_UP_GUARANTEE))]
    if said != UNCITED:
        yield f"tests/docs.py:1: of the made-up guarantee was found: {said}"
    crate, name = next(e.split("/") for e in sorted(tree.edits) if tree.public(e.split("/")[0]))
    function = tree.public(crate)[0]
    lost = re.sub(rf"(?m)^\| `{function}` \|", "| `main` |", read("docs/PROMISES.md").replace(name, "a_lost_edit"))
    said = [text for _, text in promises(tree, Document("docs/PROMISES.md", lost))]
    for want in (f"no row for the public function {crate}::{function}", f"the edit {crate}/{name} is not named"):
        if want not in said:
            yield f"tests/docs.py:1: not found: {want}"
    wide = "x" * WIDTH
    said = list(width_faults("made-up.rt", f'{wide}\n{wide}x\n    *b"{wide}";\n"{wide}" + x\n'))
    if said != [f"made-up.rt:{number}: {WIDTH + more} characters" for number, more in ((2, 1), (4, 6))]:
        yield f"tests/docs.py:1: of lines that are too wide was found: {said}"
    for text in ("", "use a.B\n-- late\n", "--\n", "-- \n"):
        if not list(start_faults("made-up.antt", text)):
            yield f"tests/docs.py:1: taken for a start: {text!r}"


def differing(tree, path, text, wanted):
    """What the parts should find in the text and do not, and what they find besides."""
    document = Document(path, text)
    said = [f"{n}: {text}" for part in PARTS.values() for n, text in part(tree, document)]
    for want in wanted:
        match = next((s for s in said if s.startswith(want)), None)
        if match is None:
            yield f"tests/docs.py:1: not found in the made-up document: {want}"
        else:
            said.remove(match)
    for text in said:
        yield f"tests/docs.py:1: found in the made-up document, and not wrong: {text}"


def unused(tree):
    for name in sorted(tree.allowed - tree.used):
        yield f"tests/docs.py:1: `{name}` is allowed, and no document names it"


def main():
    tree, faults = Tree(), []
    for part in sys.argv[1:] or [*PARTS, *WHOLE_TREE, "itself"]:
        if part in PARTS:
            for path in documents():
                if path in OLD_WORDS and part in ("names", "paths") or (path, part) == TEXT_OF_CODE:
                    continue
                faults += [f"{path}:{n}: {text}" for n, text in PARTS[part](tree, Document(path))]
        if part == "names":
            faults += unused(tree)
        faults += WHOLE_TREE[part]() if part in WHOLE_TREE else itself(tree) if part == "itself" else []
    print("\n".join(faults) or "all there")
    sys.exit(1 if faults else 0)


if __name__ == "__main__":
    main()
