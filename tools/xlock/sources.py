"""The sources of the crates: which functions they have, with the names of what their contracts ensure, and which words
their specs define."""
import re
from dataclasses import dataclass, field
from pathlib import Path


@dataclass
class Function:
    name: str
    owner: str
    """The type or trait whose method it is, else the module: the file's name, or `crate` in lib.rt and main.rt."""
    trait: str = ""
    """Of a method of a trait, in its `impl`."""
    is_public: bool = False
    is_method: bool = False
    ensures: list = field(default_factory=list)
    """The names of its clauses; the empty name for one without."""


def without_texts(source):
    """The source with comments, texts and characters blanked, so that each brace that is left is one."""
    pattern = r'//[^\n]*|"(?:\\.|[^"\\])*"|\'(?:\\[^\']+|[^\'\\])\''
    return re.sub(pattern, lambda found: re.sub(r"[^\n]", " ", found.group()), source)


def past_braces(text, at):
    """The place behind the braces that open at this place."""
    depth = 0
    for found in re.compile(r"[{}]").finditer(text, at):
        depth += 1 if found.group() == "{" else -1
        if depth == 0:
            return found.end()
    raise ValueError("braces are open at the end")


def without_generics(text):
    """The text without what stands between < and >, arrows aside."""
    out, depth = "", 0
    for letter in text.replace("->", "  "):
        depth += (letter == "<") - (letter == ">")
        out += letter if depth == 0 and letter != ">" else ""
    return out


def _owner_of_impl(header):
    """The type of an `impl`, and the trait, if it is one of a trait."""
    words = without_generics(header).split(" where ")[0].split()
    names = [word.split("::")[-1] for word in words]
    if "for" in names:
        at = names.index("for")
        return names[at + 1].lstrip("&"), names[at - 1]
    return names[0], ""


def _contract(text, at):
    """The names of what the contract of the function whose signature begins here ensures, and the place behind it."""
    ensures, depth, begin = [], 0, at
    while True:
        found = re.compile(r"[(){}\[\];]").search(text, at)
        mark, at = found.group(), found.end()
        if mark in "([":
            depth += 1
        elif mark in ")]":
            depth -= 1
        elif mark == ";" and depth == 0:
            return ensures, at
        elif mark == "{" and depth == 0:
            clause = re.search(r"\b(requires|ensures)\s*(\w*)\s*$", text[begin : found.start()])
            at = begin = past_braces(text, found.start())
            if clause is None:
                return ensures, at
            if clause.group(1) == "ensures":
                ensures.append(clause.group(2))


def functions_of(source, module):
    """The functions of a file."""
    text = without_texts(source)
    functions, owners, at = [], [], 0
    block, function = r"\b(?P<kind>impl|trait|mod)\b(?P<header>[^{};]*)\{", r"\b(?P<pub>pub\s+)?(?:const\s+)?fn\s+(?P<name>\w+)"
    heads = re.compile(f"{block}|{function}|[{{}}]")
    while found := heads.search(text, at):
        at = found.end()
        if found["name"]:
            owner, trait, kind = owners[-1] if owners else (module, "", "mod")
            ensures, at = _contract(text, at)
            is_public = bool(found["pub"]) or kind == "trait" or bool(trait)
            functions.append(Function(found["name"], owner, trait, is_public, kind != "mod", ensures))
        elif found["kind"] == "impl":
            owners.append((*_owner_of_impl(found["header"]), "impl"))
        elif found["kind"]:
            owners.append((re.match(r"\s*(\w+)", found["header"])[1], "", found["kind"]))
        elif found.group() == "{":
            at = past_braces(text, found.start())
        elif owners:
            owners.pop()
    return functions


class Crate:
    """A crate's functions and definitions."""

    def __init__(self, folder):
        self.folder = Path(folder)
        self.functions = []
        for file in sorted(self.folder.glob("src/**/*.rt")):
            module = "crate" if file.stem in ("lib", "main") else file.stem
            self.functions += functions_of(file.read_text(), module)

    def defines(self, name, file):
        """Whether the specs' file of this name defines the word."""
        path = self.folder / "specs" / f"{file}.antt"
        if not path.is_file():
            return False
        words = r"(?:abbrev|unfoldable|opaque|record|data|inductive|def|enum|lemma|pub|\s)*"
        return re.search(rf"(?m)^{words}{re.escape(name)}\s*(?::|\(|\{{|$|=)", path.read_text()) is not None


class Crates:
    """All crates of a repository."""

    def __init__(self, root):
        self.root = Path(root)
        self.all = {folder.parent.name: Crate(folder.parent) for folder in sorted(self.root.glob("crates/*/src"))}

    def cites(self, crate, name):
        """The definitions of this repository's crates that the contract of a crate's public function names."""
        for file in sorted(self.all[crate].folder.glob("src/**/*.rt")):
            source = file.read_text()
            head = re.search(rf"\bpub fn {name}\b", source)
            if head:
                contract = source[head.start() :].partition("\n{")[0]
                imports = re.findall(r"ghost use Rattle\.(\w+)\.specs\.[\w.]+\.\{([^}]*)\}", source)
                own = {word.strip() for of, words in imports if of in self.all for word in words.split(",")}
                return {word for word in own if re.search(rf"(?<![\w-]){re.escape(word)}(?![\w-])", contract)}
        return set()

    def ensures(self, crate, path):
        """The names of what a public function ensures, by its name, or by `OWNER::NAME`; of several functions that are called
        so, of all; None where there is none. A method of a trait without clauses of its own has the trait's."""
        owner, _, name = path.rpartition("::")
        found = None
        for function in self.all[crate].functions:
            is_meant = function.owner == owner if owner else not function.is_method
            if function.name == name and is_meant and function.is_public:
                found = (found or []) + (function.ensures or self._of_trait(function))
        return found

    def promises(self, crate):
        """Of each public function of a crate that ensures something itself: the names by which it may be called, the shortest
        first, and the names of its clauses."""
        promised = []
        for function in self.all[crate].functions:
            whole = f"{function.owner}::{function.name}"
            if function.is_public and function.ensures:
                promised.append(([whole] if function.is_method else [function.name, whole], function.ensures))
        return promised

    def _of_trait(self, function):
        for crate in self.all.values():
            for other in crate.functions:
                if function.trait and (other.owner, other.name, other.trait) == (function.trait, function.name, ""):
                    return other.ensures
        return []
