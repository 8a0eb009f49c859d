#!/usr/bin/env python3
"""Finds each name that the documents give, and says which is nowhere.

    tests/names.py            from anywhere; status 1 if a name is nowhere, with a line `docs/X.md:LINE: NAME is nowhere` for each
    tests/names.py FILE..     the same for these documents only

The documents are README.md, those of docs and docs/changes but for PORT.md and DESIGN-PASS.md, which have old names beside new ones, and README.md of
examples, bench and bench/cases. What is recognised, and where it has to be:

in backquotes
  crate::name, crate::module::name   a function, type, constant, case or module in crates/crate/src (and in that module's file)
  Type::name                         a function, constant or case in a file of crates/*/src that has the type
  crate/specs/File, crate/specs/File.name, crate/proofs/File(.name)   that file of the crate, and a name that it defines
  specs/File, proofs/File            that file of some crate
  File.name, File.Record.field       a name defined in specs/File.antt of some crate
  Record.field                       a field or case in the file of specs/ that defines the record
  a/b.c, also with `*`               a file or folder, seen from the top of the repository, from the document's folder or from some crate's
  rt ci NAME.., rt must-fail NAME..  crates; and the word behind rt is a command of the kit (not asked in docs/changes, which tells the past)
  one word                           a crate, file, function, type, case, field, clause, definition, theorem, edit, goal or fact of a proof
                                     (`c.requires`), or an identifier in tests/, bench/, examples/ or include/, or a word of the list below
  anything else                      each word in it that has an underscore or a capital and a small letter, as a word by itself
in backquotes behind the word must-fail, with nothing but commas and "and" between
  crate/edit, edit                   crates/crate/must-fail/edit.edit, of some crate if none is given
in italics
  *crate File.law*, *crate File*     a theorem of crates/crate/proofs/File.antt, or that file
  *File.law*, *law*                  the same in the crate, and in the file, that the line has named last; each word in italics is one
elsewhere
  [text](path#heading)               a file, and a heading of it
  DECISIONS.md), 12                  an entry of docs/DECISIONS.md
  blocks of code                     paths, and `rt` commands as in backquotes
and each crate of crates.txt, but for those that begin with test_, has to stand in a block of code in README.md, the picture of the crates.
Terms (`@ p0 k1`), bytes (`03 00`) and other text without such words are passed over. What is in backquotes or italics stands in one line.
"""
import glob
import os
import re
import sys

TOP = os.path.dirname(os.path.dirname(os.path.abspath(__file__)))

# Words that no file of the repository defines: the kit's, the machine's and other languages'; letters that stand for terms and numbers.
ALLOWED = set("""
rt rustc cc awk python3 target antt io std std::fs staticlib
ensures requires search value
matches refused ok logic proved axioms sum native built trusted
NAME FILE FOLDER LAW X N M T P E E' B n k x
test_ .rt .antt docs/X.md
""".split())
# Built by the commands of the documents, and not in the repository: what `rt` makes of a crate, which has to be one, and programs over the library.
BUILT = re.compile(r"(?:\.\./)*crates/(\*|[a-z_0-9]+)/out(?:/|$)|target/")
# Commands of the kit.
VERBS = set("ci must-fail selftest doc version help new check verdict lib run test try fmt tidy plant all expand lemma seed names".split())
TERM = re.compile(r"^(@|\\|#(\d+|n|N)|[kp](\d+|n|N|i)|[A-Z]'?|head|argument|body|and|M|▢|≡|[A-Z]\[[^\]]*\])$")
WORD = re.compile(r"[A-Za-z_][A-Za-z0-9_]*")
PATH = re.compile(r"(?<![\w/.-])(?:crates|docs|tests|bench|examples|include|\.ci)/[\w./*-]*[\w*]")


def read(path):
    with open(path, encoding="utf-8", errors="replace") as file:
        return file.read()


def stem(path):
    return os.path.splitext(os.path.basename(path))[0]


class Crate:
    """What a crate defines: the names of src/ by file, those of specs/ and of proofs/ by file, its edits."""

    def __init__(self, name):
        folder = os.path.join(TOP, "crates", name)
        self.src = {stem(f): code_names(read(f)) for f in glob.glob(folder + "/src/*.rt")}
        self.specs = {stem(f): logic_names(read(f)) for f in glob.glob(folder + "/specs/*.antt")}
        self.proofs = {stem(f): logic_names(read(f)) for f in glob.glob(folder + "/proofs/*.antt")}
        self.goals = set()
        for f in glob.glob(folder + "/proofs/*/**/*.antt", recursive=True):
            text = read(f)
            self.goals |= logic_names(text) | {os.path.basename(f)} | set(re.findall(r"(?<![\w.])[cl](?:\.[\w'-]+)+", text))
        self.edits = {stem(f) for f in glob.glob(folder + "/must-fail/*.edit")}

    def all_src(self):
        return set(self.src).union(*self.src.values()) if self.src else set()


def code_names(text):
    """Functions, types, constants, modules, cases, fields and the clauses of contracts in a file of Rattle."""
    text = re.sub(r"//.*", "", text)
    names = set(re.findall(r"\b(?:fn|struct|enum|const|mod|ensures|requires)\s+([A-Za-z_]\w*)", text))
    for block in re.findall(r"\b(?:struct|enum)\s+\w+\s*\{(.*?)\n\}", text, re.S):
        names |= set(re.findall(r"^\s*(?:pub\s+)?([A-Za-z_]\w*)\s*(?:[:,({]|$)", block, re.M))
    return names


def logic_names(text):
    """Names that a file of antt defines: everything with a type, records, data, fields and cases."""
    text = re.sub(r"--.*", "", text)
    names = set(re.findall(r"\b(?:record|data|ruleset|module|mod)\s+([^\s({:]+)", text))
    names |= set(re.findall(r"^\s*(?:(?:abbrev|unfoldable|pub|private)\s+)*([^\s({:=]+)\s*:(?:\s|$)", text, re.M))
    return names


class Index:
    def __init__(self):
        listed = re.findall(r"^([a-z_0-9]+)(?: [a-z0-9_=+]+)*:", read(os.path.join(TOP, "crates.txt")), re.M)
        self.crates = {name: Crate(name) for name in listed}
        self.words = set(self.crates)
        self.laws = set()
        for crate in self.crates.values():
            self.words |= crate.all_src() | crate.edits | crate.goals
            for part in (crate.specs, crate.proofs):
                for file, names in part.items():
                    self.words |= {file} | names
            for names in crate.proofs.values():
                self.laws |= names
        for folder in ("tests", "bench", "examples", "include"):
            for path in glob.glob(os.path.join(TOP, folder, "**", "*"), recursive=True):
                self.words |= {os.path.basename(path), stem(path)}
                if os.path.isfile(path) and path.endswith((".rs", ".c", ".h", ".sh", ".awk", ".txt", ".toml")):
                    self.words |= set(WORD.findall(read(path)))
        self.words |= {"README", "DECISIONS", "SPECIFICATION", "VERIFICATION", "PERFORMANCE", "PLANNERS", "LINKING", "SEARCH", "CHANGING"}
        self.edits = set().union(*(crate.edits for crate in self.crates.values()))

    def specs(self, file):
        return [crate.specs[file] for crate in self.crates.values() if file in crate.specs]

    def known(self, word):
        return word in self.words or word in ALLOWED


class Document:
    def __init__(self, index, path):
        self.index, self.path, self.missing = index, path, []
        self.name = os.path.relpath(path, TOP)
        self.folder = os.path.dirname(path)

    def check(self):
        code, before_blank, fenced = [], True, False
        in_code = False
        for number, line in enumerate(read(self.path).split("\n"), 1):
            self.number, self.crate, self.file = number, None, None
            if line.lstrip().startswith("```"):
                fenced = not fenced
                continue
            in_code = fenced or (line.startswith("    ") and (before_blank or in_code))
            before_blank = line.strip() == ""
            if in_code:
                code.append(line)
                self.code(line)
            else:
                self.prose(line)
        return code

    def nowhere(self, name):
        self.missing.append("%s:%d: %s is nowhere" % (self.name, self.number, name))

    def need(self, found, name):
        if not found:
            self.nowhere(name)

    def code(self, line):
        for path in PATH.findall(line):
            self.need(self.exists(path), path)
        self.commands(line)

    def commands(self, text):
        for verb, names in re.findall(r"(?<![\w-])rt ([a-z][a-z-]*)((?: [a-z_0-9]+(?![\w./-]))*)", text):
            if not self.name.startswith(os.path.join("docs", "changes")):
                self.need(verb in VERBS, "rt " + verb)
            for name in names.split() if verb not in ("lemma", "new", "all", "seed", "names") else ():
                self.need(name in self.index.crates, name)

    def prose(self, line):
        if line.count("`") % 2:
            self.missing.append("%s:%d: a backquote is left open" % (self.name, self.number))
        for text, link in re.findall(r"\[([^\]]*)\]\(([^)\s]+)\)", line):
            self.link(link)
        for entry in re.findall(r"DECISIONS(?:\.md\)|`)?,? (\d+)", line):
            decisions = read(os.path.join(TOP, "docs", "DECISIONS.md"))
            self.need(re.search(r"^%s\. " % entry, decisions, re.M), "DECISIONS " + entry)
        behind = None  # where the word must-fail, or an edit behind it, ends
        for piece in re.finditer(r"`([^`]+)`|(?<![*\w])\*([^*\s](?:[^*]*[^*\s])?)\*(?![*\w])|must-fail", line):
            if piece.group(0) == "must-fail":
                behind = piece.end()
            elif piece.group(2) is not None:
                self.italic(piece.group(2))
            elif behind is not None and re.fullmatch(r"[\s,]*(and\s+)?", line[behind:piece.start()]):
                self.edit(piece.group(1))
                behind = piece.end()
            else:
                self.quoted(piece.group(1))

    def link(self, link):
        if re.match(r"[a-z]+:", link):
            return
        path, _, anchor = link.partition("#")
        target = os.path.join(self.folder, path) if path else self.path
        if not os.path.exists(target):
            self.nowhere(link)
        elif anchor:
            headings = re.findall(r"^#+ (.*)$", read(target), re.M)
            slugs = {re.sub(r"[^\w\- ]", "", heading.lower()).replace(" ", "-") for heading in headings}
            self.need(anchor in slugs, link)

    def exists(self, path):
        built = BUILT.match(path)
        if built:
            return built.group(1) in (None, "*") or built.group(1) in self.index.crates
        if path in ALLOWED:
            return True
        path = path.rstrip("/")
        places = (TOP, self.folder, os.path.join(TOP, "crates"), os.path.join(TOP, "crates", "*"))
        return any(glob.glob(os.path.join(place, path)) for place in places)

    def edit(self, name):
        crate, _, edit = name.rpartition("/")
        if crate:
            self.need(crate in self.index.crates and edit in self.index.crates[crate].edits, "must-fail " + name)
        else:
            self.need(edit in self.index.edits, "must-fail " + name)

    def quoted(self, text):
        index = self.index
        self.commands(text)
        if all(TERM.match(word) or index.known(word) for word in text.split()) and re.search(r"[@\\#]|^[kp]\d+$", text):
            return
        if re.fullmatch(r"[0-9a-fx .:,%-]+", text):
            return
        name = re.sub(r"\(.*\)$", "", text)
        if name in ALLOWED:
            return
        if re.fullmatch(r"\w+(::\w+)+", name):
            return self.path_of_code(name)
        if re.fullmatch(r"[A-Z]\w*(\.[^\s./]+)+", name):
            return self.path_of_logic(name)
        if " " not in text and "/" in text:
            return self.need(self.place(text), text)
        if re.fullmatch(r"[\w.'-]+", text):
            return self.need(index.known(text) or self.exists(text) or re.fullmatch(r"[kp](\d+|n|i)|-+\w[\w-]*|-?\d[\d.,]*", text), text)
        for path in PATH.findall(text):
            self.need(self.exists(path), path)
        for word in WORD.findall(PATH.sub(" ", text)):
            if "_" in word.strip("_") or (re.search(r"[A-Z]", word) and re.search(r"[a-z]", word)):
                self.need(index.known(word), word)

    def path_of_code(self, name):
        parts = name.split("::")
        crate = self.index.crates.get(parts[0])
        if crate is None:
            files = [names for c in self.index.crates.values() for names in c.src.values() if parts[0] in names]
            return self.need(any(set(parts) <= names for names in files), name)
        inside = crate.src.get(parts[1]) if len(parts) > 2 else None
        if inside is not None:
            return self.need(set(parts[2:]) <= inside, name)
        self.need(set(parts[1:]) <= crate.all_src(), name)

    def path_of_logic(self, name):
        parts = name.split(".")
        files = self.index.specs(parts[0])
        if any(set(parts[1:]) <= names for names in files):
            return
        records = [names for c in self.index.crates.values() for names in c.specs.values() if parts[0] in names]
        records += [names for c in self.index.crates.values() for names in c.src.values() if parts[0] in names]
        self.need(any(set(parts[1:]) <= names for names in records) or self.index.known(name) or self.exists(name), name)

    def place(self, text):
        """crate/specs/File.name and the like, or a path."""
        found = re.fullmatch(r"(?:crates/)?(?:([a-z_]+)/)?(specs|proofs|src)(?:/([A-Z]\w*)(?:\.([^\s/]+))?)?/?", text)
        if not found or (found.group(4) == "antt"):
            return self.exists(text)
        crate, part, file, name = found.groups()
        if crate and crate not in self.index.crates:
            return self.exists(text)
        for c in [self.index.crates[crate]] if crate else self.index.crates.values():
            files = getattr(c, part)
            if (not file and files) or (file in files and (not name or name in files[file])):
                return True
        return False

    def italic(self, text):
        found = re.fullmatch(r"(?:([a-z_]+) )?([A-Z]\w*)(?:\.([^\s.]+))?", text)
        if found:
            crate, file, law = found.groups()
            self.crate, self.file = crate or self.crate, file
            crates = [self.index.crates.get(self.crate)] if self.crate else self.index.crates.values()
            files = [c.proofs[file] for c in crates if c and file in c.proofs]
            return self.need(files and (not law or any(law in names for names in files)), text)
        if re.fullmatch(r"[^\s.,:;]+", text):
            files = []
            if self.crate in self.index.crates and self.file:
                files = [self.index.crates[self.crate].proofs.get(self.file, set())]
            self.need(any(text in names for names in files) if files else text in self.index.laws, text)


def main(paths):
    index = Index()
    whole = not paths
    if whole:
        paths = [os.path.join(TOP, "README.md")] + sorted(
            set(glob.glob(os.path.join(TOP, "docs", "**", "*.md"), recursive=True)) - {os.path.join(TOP, "docs", name) for name in ("PORT.md", "DESIGN-PASS.md")}
        )
        paths += [os.path.join(TOP, folder, "README.md") for folder in ("examples", "bench", "bench/cases")]
    missing = []
    for path in paths:
        document = Document(index, os.path.abspath(path))
        code = document.check()
        missing += document.missing
        if document.name == "README.md":
            picture = set(WORD.findall("\n".join(code)))
            for crate in index.crates:
                if not crate.startswith("test_") and crate not in picture:
                    missing.append("README.md: the crate %s is not in the picture" % crate)
    print("\n".join(missing + ["names: %d documents, %s" % (len(paths), "%d names nowhere" % len(missing) if missing else "every name found")]))
    return 1 if missing else 0


if __name__ == "__main__":
    sys.exit(main(sys.argv[1:]))
