"""The files of specs/, which several pages show: each module with its definitions and their comments."""

import os
import re

import runs


class Uses:
    """The names that a file uses, and where they are from."""

    def __init__(self, text):
        self.names, self.others = {}, {}
        for use in re.finditer(r"^(?:pub |ghost )?use Rattle\.(\S+?)\.\{([^}]*)\};?$", text, re.M):
            self.names.update(names_in(module_of(use[1]), use[2]))
        for use in re.finditer(r"^(?:ghost )?use Rattle\.(\S+) as (\w+);?$", text, re.M):
            self.others[use[2]] = module_of(use[1])

    def source_of(self, word):
        """The module and the name of the definition that a word means, or none."""
        head, _, rest = word.partition(".")
        if rest and head in self.others:
            return self.others[head], rest
        return self.names.get(word)


class Module(Uses):
    """A file of specs/: its first line, its definitions with their comments, the variables of the blocks around each,
    where the names it uses are from, and which types of its crate it passes on."""

    def __init__(self, name, text):
        super().__init__(text)
        self.passed = {}
        for use in re.finditer(r"^pub use (declared\b.*)\.\{(.*)\}$", text, re.M):
            self.passed.update(names_in(f"{name.split('.')[0]}.{use[1]}", use[2]))
        first = text.split("\n", 1)[0]
        self.name, self.about = name, first.removeprefix("-- ").rstrip(".") if first.startswith("-- ") else ""
        self.defined, self.around = {}, {}
        self.cases = set(re.findall(r"^  ([\w-]+) :", text, re.M))
        blocks = {}  # those around, by how far they are indented
        for part in re.split(r"\n\s*\n", text):
            lines = []
            for line in part.strip("\n").split("\n"):
                block = re.match(r"( *)module _ (.*) where$", line)
                if block:
                    lines, blocks = [], {**outside(blocks, len(block[1])), len(block[1]): block[2]}
                elif not line.startswith(("use ", "pub use ")):
                    lines.append(line)
            indent = min((len(line) - len(line.lstrip()) for line in lines), default=0)
            blocks, lines = outside(blocks, indent), [line[indent:] for line in lines]
            code = [line for line in lines if not line.startswith("--")]
            found = re.match(r"(?:abbrev |data |pub |record |unfoldable )+(\S+)", code[0] if code else "")
            if found:
                self.defined[found[1]] = [line for line in lines if line.startswith("--")], code
                self.around[found[1]] = list(blocks.values())

    def source_of(self, word):
        return (self.name, word) if word in self.defined else super().source_of(word)


def outside(blocks, indent):
    """The blocks around what is indented so far."""
    return {far: variables for far, variables in blocks.items() if far < indent}


def module_of(path):
    return re.sub(r"\.specs\b", "", path, count=1)


def names_in(module, listed):
    """Names that a line brings in from a module or from those below it: where each is from."""
    for used in listed.split(","):
        path, _, other = used.strip().partition(" as ")
        *below, name = path.split(".")
        yield other or name, (".".join([module, *below]), name)


def origin(found, source):
    """The module and the name of a definition, if another module passes it on."""
    return found[source[0]].passed.get(source[1], source) if source[0] in found else source


def read(path):
    with open(path, encoding="utf-8") as file:
        return file.read()


def files_of(top):
    """The files of a folder, and of those in it."""
    return sorted(f"{folder}/{name}" for folder, _, names in os.walk(top) for name in names)


def modules():
    """All modules of specs/, by name."""
    found = {}
    for crate in os.listdir(f"{runs.ROOT}/crates"):
        top = f"{runs.ROOT}/crates/{crate}/specs"
        for path in files_of(top):
            name = f"{crate}.{os.path.relpath(path, top).removesuffix('.antt').replace('/', '.')}"
            found[name] = Module(name, read(path))
    return found


def words_of(code):
    """The words of a definition that may be names, but no field of a record where it is given or read."""
    text = re.sub(r"[\w-]+ =(?!=)(?= .*;| [^\n]*\}|$)", " ", "\n".join(code))
    return re.findall(r"(?<![.\w])[^\s(){},;]+", text)


def bound_in(name, code):
    """The names that the left sides of a definition's equations bind."""
    sides = re.findall(rf"^{re.escape(name)} (.*?) =(?: |$)", "\n".join(code), re.M)
    return {word for side in sides for word in re.findall(r"\b[a-z]\w*", side)}
