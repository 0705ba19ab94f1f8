"""What the scripts beside this file read of the repository's sources: its crates, the functions of a crate with their contracts and doc
comments, and the definitions of its specs. It reads files alone, in an order that no file system decides."""
import re
from collections import namedtuple
from functools import cache
from pathlib import Path

TOP = Path(__file__).resolve().parent.parent

# A function as a clause sees it. The owner is the type or trait that it is a method of, or ''; `bound` is the trait whose method an impl
# has, or ''. `empty` says that nothing is in its body: such a function is there for its clauses alone.
Function = namedtuple("Function", "crate module owner bound name public doc requires ensures empty file line")

# A definition of a crate's specs: its kind is record, data, or '' where it has equations. `body` are its lines without comments and blanks, and
# `members` the fields of a record or the variants of a data type.
Definition = namedtuple("Definition", "crate module name kind body members file line")

# A name in antt that isn't a field.
WORD = re.compile(r"(?<![.\w'])[A-Za-z_][A-Za-z0-9_']*(?:-[a-z][A-Za-z0-9_']*)*")


def text(path):
    return path.read_text(encoding="utf-8")


def crates():
    """The crates of crates.txt in its order: what a crate stands on comes before it."""
    lines = text(TOP / "crates.txt").splitlines()
    return [re.split(r"[: ]", line)[0] for line in lines if line and not line.startswith("#")]


def files(crate, folder, suffix):
    """The files of a crate's folder with this suffix, lib first, and else by path."""
    base = TOP / "crates" / crate / folder
    found = [p for p in base.rglob("*" + suffix) if p.is_file()]
    return sorted(found, key=lambda p: (p.stem.lower() != "lib", p.relative_to(base).with_suffix("").as_posix()))


# --- Rattle -------------------------------------------------------------------------------------------------------------------------

# What isn't code: comments, texts, and characters. A prime after a letter is a name's, and one without a partner begins a lifetime.
NOT_CODE = re.compile(r"""//[^\n]*|b?"(?:\\.|[^"\\])*"|(?<![\w'])b?'(?:\\[^']+|[^'\\])'""", re.S)


def code_of(source):
    """The source with blanks in place of all that isn't code, so that brackets can be matched. Each character keeps its place."""
    return NOT_CODE.sub(lambda m: re.sub(r"[^\n]", " ", m.group()), source)


def closing(code, at):
    """The place after the bracket that closes the one at this place."""
    depth = 0
    for m in re.compile(r"[()\[\]{}]").finditer(code, at):
        depth += 1 if m.group() in "([{" else -1
        if depth == 0:
            return m.end()
    raise SystemExit(f"no bracket closes the one in: {code[at:at + 60]!r}")


def upto(code, at, ends):
    """The place of the first of these characters from here on that stands in no bracket."""
    while code[at] not in ends:
        at = closing(code, at) if code[at] in "([{" else at + 1
    return at


CLAUSE = re.compile(r"\s*(requires|ensures|ghost)\*?\s*([a-z_0-9]*:?)\s*(?=\{)")
ITEM = re.compile(r"(?:#!?\[|(?:pub(?:\([a-z]+\))?\s+)?(?:(?:unsafe|const|extern\s+\S*|async)\s+)*"
                  r"(fn|impl|trait|mod|struct|enum|union|macro_rules!|use|ghost|const|static|type|extern)\b|[a-z_:]+!)")


def clauses(source, code, at):
    """The clauses of a function whose signature begins here, and the place at which its body or its semicolon is."""
    at = closing(code, upto(code, at, "("))
    found = []
    while True:
        m = CLAUSE.match(code, at)
        if m:
            end = closing(code, m.end())
            found.append((m.group(1), m.group(2), " ".join(source[m.end() + 1:end - 1].split())))
            at = end
        elif code[at] in "{;":
            return found, at
        else:
            at = closing(code, at) if code[at] in "([" else at + 1


def doc_before(lines, line):
    """The doc comment that ends above this line (from 0), with the attributes between them passed over."""
    at = line - 1
    while at >= 0 and re.match(r"\s*(#\[|//(?!/))", lines[at]):
        at -= 1
    doc = []
    while at >= 0 and lines[at].lstrip().startswith("///"):
        doc.append(lines[at].lstrip()[3:].removeprefix(" "))
        at -= 1
    return "\n".join(reversed(doc))


def head_of(header):
    """The type of an impl and the trait that it has for it, or ''; of a trait its name."""
    header = re.sub(r"\bwhere\b.*", "", header, flags=re.S)
    while re.search(r"<[^<>]*>", header):
        header = re.sub(r"<[^<>]*>", "", header)
    header = header.replace("->", " ")
    names = re.sub(r"^.*?\b(impl|trait)\b", "", header, flags=re.S).split(":")[0].strip()
    bound, _, owner = names.rpartition(" for ")
    return owner.strip().split("::")[-1].strip("&' "), bound.strip().split("::")[-1]


class Reader:
    """Reads the functions of one file."""

    def __init__(self, crate, module, path):
        self.crate, self.module, self.path = crate, module, path
        self.source = text(path)
        self.code = code_of(self.source)
        self.lines = self.source.splitlines()
        self.found = []

    def read(self, at, end, owner="", bound="", shown=False):
        """Reads the items from a place to another, which are those of the file or of an impl, a trait or a module."""
        while True:
            m = ITEM.search(self.code, at, end)
            if not m:
                return self.found
            at = self.item(m, owner, bound, shown)

    def item(self, m, owner, bound, shown):
        """Reads one item, and gives the place after it."""
        kind = m.group(1)
        code = self.code
        if m.group().endswith("["):
            return closing(code, m.end() - 1)
        if kind == "fn":
            return self.function(m, owner, bound, shown)
        if kind in ("impl", "trait", "mod"):
            body = upto(code, m.end(), "{;")
            if code[body] == ";":
                return body + 1
            end = closing(code, body)
            if kind == "mod":
                if not re.search(r"#\[cfg\(test\)\]\s*$", code[:m.start()]):
                    self.read(body + 1, end - 1)
            else:
                name, of = head_of(code[m.start():body])
                self.read(body + 1, end - 1, name, of, kind == "trait" or of != "")
            return end
        if kind in ("use", "ghost", "const", "static", "type"):
            return upto(code, m.end(), ";") + 1
        body = upto(code, m.end(), "{;(")
        return closing(code, body) if code[body] != ";" else body + 1

    def function(self, m, owner, bound, shown):
        """Reads one function, and gives the place after it."""
        name = re.compile(r"\s*([A-Za-z_0-9]+)").match(self.code, m.end()).group(1)
        found, at = clauses(self.source, self.code, m.end())
        line = self.code.count("\n", 0, m.start())
        before = self.code[self.code.rfind("\n", 0, m.start()) + 1:m.start()]
        public = shown or (before + m.group()).strip().startswith("pub ")
        take = lambda kind: [(n, t) for k, n, t in found if k == kind]
        end = closing(self.code, at) if self.code[at] == "{" else at + 1
        empty = re.fullmatch(r"\{\s*\}", self.code[at:end]) is not None
        self.found.append(Function(self.crate, self.module, owner, bound, name, public, doc_before(self.lines, line), take("requires"),
                                   take("ensures"), empty, self.path.relative_to(TOP).as_posix(), line + 1))
        return end


@cache
def functions(crate):
    """All functions of a crate but those of tests, in the order of its modules."""
    found = []
    for path in files(crate, "src", ".rt"):
        module = "::".join(path.relative_to(TOP / "crates" / crate / "src").with_suffix("").parts)
        if module.split("::")[-1] != "tests":
            reader = Reader(crate, "" if module == "lib" else module, path)
            found += reader.read(0, len(reader.code))
    return found


def opened(code):
    """What a crate's lib hands on: the names that it has from a module of its own, each with that module, and the modules that are open."""
    own = set(re.findall(r"^(?:pub(?:\([a-z]+\))? )?mod (\w+);", code, re.M))
    names = set()
    for use in re.findall(r"^pub use ([^;]+);", code, re.M):
        path, _, listed = use.partition("{") if "{" in use else use.rpartition("::")
        module = path.strip().removesuffix("::")
        if module.split("::")[0] in own:
            names |= {(module, name.split(" as ")[-1].strip()) for name in listed.strip("} \n").split(",")}
    return names, set(re.findall(r"^pub mod (\w+);", code, re.M))


def public_functions(crate):
    """Those functions that another crate can call: the lib hands them on, or the type or trait that has them, or has them itself."""
    lib = TOP / "crates" / crate / "src" / "lib.rt"
    if not lib.is_file():
        return []
    names, modules = opened(code_of(text(lib)))
    types = {name for _, name in names}
    is_open = lambda f: f.module == "" or f.module in modules or (f.owner in types if f.owner else (f.module, f.name) in names)
    return [f for f in functions(crate) if f.public and is_open(f)]


def crate_doc(crate):
    """The doc comment of a crate's lib."""
    lines = text(TOP / "crates" / crate / "src" / "lib.rt").splitlines()
    return "\n".join(line[3:].removeprefix(" ") for line in lines if line.startswith("//!"))


# --- antt ---------------------------------------------------------------------------------------------------------------------------

# The first line of a definition, and its name.
HEAD = re.compile(r"(?:abbrev |unfoldable |pub )*(record |data )?([^\s:]+)(?= )")
USE = re.compile(r"^ *(?:ghost )?(pub )?use Rattle\.(\w+)\.([\w.]+?)(?:\.\{([^}]*)\})?;?$", re.M)


def uses(source):
    """What a file takes in: of each name its crate, its module, its name there, and whether it is handed on; with no name, a whole module."""
    found = {}
    for handed, crate, module, names in USE.findall(source):
        for name in (names or "").split(","):
            there, _, here = name.strip().partition(" as ")
            found[here or there or module.split(".")[-1]] = (crate, module, there, bool(handed))
    return found


@cache
def uses_in(file):
    """What a file takes in, by its path from the top."""
    return uses(text(TOP / file))


def begins(line):
    """Whether a definition begins in this line: it has a word for that, or is a signature."""
    return re.match(r"(abbrev|unfoldable|pub (?!use |mod )|record|data) ?", line) or re.match(r"\S+ : ", line)


def read_definitions(crate, path):
    """The definitions of one file of specs, in order."""
    module = ".".join(path.relative_to(TOP / "crates" / crate / "specs").with_suffix("").parts)
    parts = []
    for n, line in enumerate(text(path).splitlines(), 1):
        line = re.sub(r"(^|\s)--(\s.*|$)", "", line).rstrip()
        if not line or re.match(r"(pub )?(use|mod) |infix", line):
            continue
        if begins(line):
            parts.append((n, [line]))
        elif parts:
            parts[-1][1].append(line)
    found = []
    for n, body in parts:
        kind, name = HEAD.match(body[0]).groups()
        fields = r"  (?:pub )?(\w+) :" if kind else r"$^"
        members = [m.group(1) for m in map(re.compile(fields).match, body) if m]
        found.append(Definition(crate, module, name, (kind or "").strip(), body, members, path.relative_to(TOP).as_posix(), n))
    return found


def definitions(crate):
    """The definitions of a crate's specs."""
    return [d for path in files(crate, "specs", ".antt") for d in read_definitions(crate, path)]


class Specs:
    """The definitions of all crates, and the declarations of their types, found by crate, module and name."""

    def __init__(self):
        self.crates = set(crates())
        self.known, self.taken, self.types = {}, {}, {}

    def module(self, crate, module):
        """The definitions of a module by name, and what it takes in."""
        if (crate, module) not in self.known:
            path = TOP / "crates" / crate / "specs" / (module.replace(".", "/") + ".antt")
            found = {d.name: d for d in read_definitions(crate, path)} if path.is_file() else None
            self.known[crate, module] = found
            self.taken[crate, module] = uses(text(path)) if found is not None else {}
        return self.known[crate, module], self.taken[crate, module]

    def find(self, crate, module, name):
        """The definition of this name that a module has, or hands on; or the declaration of a type of the program."""
        if crate == "std" or crate not in self.crates:
            return None
        if module.startswith("declared"):
            return self.declared(crate, module, name)
        own, taken = self.module(crate, module)
        if own is None:
            _, lib = self.module(crate, "Lib")
            there = lib.get(module.split(".")[0])
            return self.find(there[0], there[1].removeprefix("specs."), name) if there else None
        if name in own:
            return own[name]
        return self.taken_in(taken, name)

    def taken_in(self, taken, name):
        """The definition of a name that a file takes in, by its uses; none where it takes in no such name, or one of std."""
        crate, module, there, _ = taken.get(name, ("std", "", "", False))
        return self.find(crate, module.removeprefix("specs."), there)

    def declared(self, crate, module, name):
        """The declaration behind a name of `specs.declared`: of a type, of the type that has the variant, or of a constant."""
        parts = module.split(".")
        if parts[-1] == "TheVariants":
            name = parts[-2]
        if crate not in self.types:
            self.types[crate] = declarations(crate)
        return self.types[crate].get(name)

    def named(self, d):
        """What a definition or a declaration names in turn, in order."""
        if d.kind == "type":
            found = [self.declared_near(d, word) for line in d.body for word in re.findall(r"\b[A-Z]\w*", line)]
        else:
            own, taken = self.module(d.crate, d.module)
            words = [w for line in d.body for w in WORD.findall(line)]
            found = [own.get(w) or self.taken_in(taken, w) for w in words]
        return [x for x in found if x]

    def declared_near(self, d, name):
        """The type of this name in a declaration's crate, or in one that its file uses."""
        used = re.findall(r"^use (\w+)::[^;]*\b%s\b" % name, text(TOP / d.file), re.M)
        return next((x for c in [d.crate] + used if c in self.crates for x in [self.declared(c, "declared." + name, name)] if x), None)


def declarations(crate):
    """The types and constants that a crate's sources declare, by name, as definitions of the kind type."""
    found = {}
    for path in files(crate, "src", ".rt"):
        source = text(path)
        code = code_of(source)
        for m in re.finditer(r"^ *pub (?:struct|enum|const|static) (\w+)", code, re.M):
            at = upto(code, m.end(), "{;(=")
            end = code.index(";", at) if code[at] in "=;" else closing(code, at)
            body = [line.rstrip() for line in code[m.start():end].splitlines() if line.strip() and not line.strip().startswith("#[")]
            line = code.count("\n", 0, m.start()) + 1
            found.setdefault(m.group(1), Definition(crate, "", m.group(1), "type", body, [], path.relative_to(TOP).as_posix(), line))
    return found
