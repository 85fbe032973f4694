"""What pages name: files, sections, and functions, definitions and tests in backquotes."""

import glob
import os
import re

import pages
import runs
import specs

# A page's section, as another page names it, and a file of a crate.
SECTION = re.compile(r"([A-Z]\w*\.md)`?,? \(?\"([^\"]+)\"")
SOURCE = re.compile(r"(?<![\w./-])((?:specs|src)/[\w./-]+\.(?:antt|rt))")

# A like's way through the code in ARCHITECTURE.md, a step of it, and a name with the file that defines it.
WAY = re.compile(r"^## (?:One|A writer's) like, .*?(?=^## )", re.M | re.S)
STEP = re.compile(r"^\d+\. .*$", re.M)
PLACED = re.compile(r"`([\w:]+)` \((?:`(\w+)`: )?([\w./]+\.(?:rt|c|h))\)")

# What `rt version` prints, or a part with its hash, in backquotes.
KIT = re.compile(r"`([^`\n]*\b[0-9a-f]{16}\b[^`\n]*)`")

# How many names of definitions stand in several modules, at most.
SHARED = 98

# The endings of files with names that pages may use.
ENDINGS = (".antt", ".rt", ".c", ".h", ".edit", ".edits", ".py", ".sh", ".toml")


def every_page(*others):
    """README.md, CONTRIBUTING.md, those of docs/, and the crates' READMEs; and those of other places."""
    found = []
    for where in ("docs/*.md", "crates/*/README.md", *others):
        found += glob.glob(where, root_dir=runs.ROOT, recursive=True)
    return ["README.md", "CONTRIBUTING.md", *sorted(found)]


def absent(page):
    """What a page names that isn't there: files, pages, sections, and functions or definitions in backquotes."""
    text = pages.text_of(page)
    for link, anchor in re.findall(r"\]\(([^):#]*)(?:#([\w-]+))?\)", text):
        file = os.path.normpath(os.path.join(os.path.dirname(page), link)) if link else page
        if not os.path.exists(f"{runs.ROOT}/{file}"):
            yield f"{page}: there is no {link}"
        elif anchor and anchor not in anchors_of(pages.text_of(file)):
            yield f"{page}: {file} has no section #{anchor}"
    for name in set(re.findall(rf"(?<![\w./-])((?:{'|'.join(pages.FOLDERS)})/[\w./-]*[\w-])", text)):
        if not os.path.exists(f"{runs.ROOT}/{name}") and "NAME" not in name and "/out/" not in name:
            yield f"{page}: there is no {name}"
    for name in set(re.findall(r"(?<![\w/])[A-Z]+\.md", text)):
        if not find_page(name):
            yield f"{page}: there is no {name}"
    for name, heading in SECTION.findall(text):
        if find_page(name) and not re.search(rf"^#+ {re.escape(heading)}", pages.text_of(find_page(name)), re.M):
            yield f"{page}: {name} has no section {heading!r}"
    for name in set(SOURCE.findall(text)):
        if not glob.glob(f"crates/*/{name}", root_dir=runs.ROOT):
            yield f"{page}: no crate has {name}"


def anchors_of(text):
    """The sections of a page, as links name them."""
    headings = re.findall(r"^#+ (.*)$", text, re.M)
    return {re.sub(r"[^\w -]", "", heading.lower()).replace(" ", "-") for heading in headings}


def find_page(name):
    """Where the page of this name is, in docs/ or at the top."""
    return next((path for path in (f"docs/{name}", name) if os.path.exists(f"{runs.ROOT}/{path}")), None)


def unknown(named):
    """The names in backquotes on these pages that no source file has: those with an underline or a capital inside."""
    known = {"also_shares"}
    for folder in pages.FOLDERS:
        for where, folders, names in os.walk(f"{runs.ROOT}/{folder}"):
            folders[:] = [name for name in folders if name != "out"]
            known.update(folders)
            for name in names:
                if name.endswith(ENDINGS) or "." not in name:
                    with open(f"{where}/{name}", encoding="utf-8", errors="replace") as file:
                        known.update(re.findall(r"\w+", file.read()))
    for page in named:
        text = pages.text_of(page)
        shown = set(re.findall(r"\w+", " ".join(re.findall(r"^```\w*\n.*?^```$", text, re.M | re.S))))
        for name in sorted(set(re.findall(r"`([A-Za-z_][\w:.]*)`", text))):
            for part in re.split(r"::|\.", name):
                if re.search(r"\w_\w|[a-z][A-Z]", part) and part not in known and part not in shown:
                    yield f"{page}: no source has {name}"


def fieldless(named):
    """The fields of records and cases in backquotes on these pages, as `IsReady.kept`, that no such definition has."""
    found = {}
    for module in specs.modules().values():
        for name, (_, code) in module.defined.items():
            found.setdefault(name, []).append("\n".join(code))
    for page in named:
        for name, field in sorted(set(re.findall(r"`([A-Z]\w+)\.(\w+)`", pages.text_of(page)))):
            if name in found and not any(re.search(rf"^ +(?:pub )?{field} :", code, re.M) for code in found[name]):
                yield f"{page}: no definition {name} has {field}"


def astray():
    """What is wrong with the ways of a like: a step without such a name, or one that isn't defined in its file."""
    ways = WAY.findall(pages.text_of("docs/ARCHITECTURE.md"))
    if len(ways) < 3:
        yield "docs/ARCHITECTURE.md: not three ways of a like"
    for way in ways:
        for step in STEP.findall(way):
            if not PLACED.search(step):
                yield f"docs/ARCHITECTURE.md: no name with its file: {step[:60]}"
        for name, crate, file in PLACED.findall(way):
            path, last = f"crates/{crate}/{file}" if crate else file, name.split("::")[-1]
            definition = rf"\b(?:fn|struct|enum|trait) {last}\b" if crate else rf"^(?!.*;$)\w.*\b{last}\("
            if not os.path.exists(f"{runs.ROOT}/{path}"):
                yield f"docs/ARCHITECTURE.md: there is no {path}"
            elif not re.search(definition, pages.text_of(path), re.M):
                yield f"docs/ARCHITECTURE.md: {path} doesn't define {name}"


def of_other_kits(named):
    """What these pages say that `rt version` prints, and it doesn't."""
    printed = runs.run(["rt", "version"], "/").out.decode()
    for page in named:
        for said in sorted(set(KIT.findall(pages.text_of(page)))):
            if said not in printed:
                yield f"{page}: rt version prints {printed.strip()!r}, and not {said!r}"


def shared():
    """The names of definitions that stand in several modules of specs/, if there are more of them than may be."""
    modules = {}
    for path in sorted(glob.glob("crates/*/specs/**/*.antt", root_dir=runs.ROOT, recursive=True)):
        for name in specs.Module(path, pages.text_of(path)).defined:
            if name != "mod":
                modules.setdefault(name, []).append(path)
    several = {name: where for name, where in modules.items() if len(where) > 1}
    if len(several) > SHARED:
        yield f"{len(several)} names of definitions stand in several modules, and not {SHARED} or fewer:"
        for name, where in sorted(several.items()):
            yield f"  {name}: {', '.join(where)}"
