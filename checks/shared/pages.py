"""The pages: their blocks of shell commands, and a folder that holds the repository, in which they are run."""

import os
import re

import runs

# The text before a block, its language, and the block.
BLOCK = re.compile(r"(.*?)^```(\w*)\n(.*?)^```$", re.M | re.S)

# The folders whose files pages name.
FOLDERS = ("bench", "bindings", "checks", "completions", "crates", "docs", "examples", "include", "library", "pictures", "tools")


def text_of(page):
    with open(f"{runs.ROOT}/{page}", encoding="utf-8") as file:
        return file.read()


def make_repository(folder):
    """Lets the repository stand in a folder of this time."""
    for name in os.listdir(runs.ROOT):
        if not name.startswith("."):
            os.symlink(f"{runs.ROOT}/{name}", f"{folder}/{name}")
    os.mkdir(f"{folder}/bin")
    os.symlink(f"{runs.ROOT}/likes", f"{folder}/bin/likes")


def shell(command, folder):
    """A shell's commands in such a folder, with `likes` on the path and a home of their own."""
    where = {"HOME": folder, "PATH": f"{folder}/bin:{os.environ['PATH']}", "MANWIDTH": "100", "LC_ALL": "C"}
    return runs.run(["sh", "-e", "-c", f"exec 2>&1\n{command}"], folder, seconds=600, env={**os.environ, **where})


def agreed(text, commands):
    """What is the same each time: no phases of a run, and no number that was measured."""
    if "likes run" in commands:
        text = re.sub(r"^(reply,\d+,\d+),\d+,", r"\1,*,", text, flags=re.M)
    if "--summary" in commands:
        text = re.sub(r"^(phases|phases with hot pages|hot pages): \d+$", r"\1: *", text, flags=re.M)
        text = re.sub(r"^(reading|running|writing): \d+\.\d{3} seconds$", r"\1: * seconds", text, flags=re.M)
    return text


def blocks_of(text):
    """The blocks of shell commands, each with what it prints or with nothing where the page doesn't say."""
    found = BLOCK.findall(text)
    for (_, language, commands), (between, after, output) in zip(found, [*found[1:], ("", "", "")]):
        if language == "sh":
            yield commands, output if not after and between.strip().startswith("prints") else None


def typed(page):
    """The shell commands of a page, and what they print. A program is written to the file named before it."""
    commands, printed = "", ""
    for before, language, block in BLOCK.findall(text_of(page)):
        if language == "sh":
            commands += block
        elif not language:
            printed += block
        else:
            name = re.search(r"`([\w./]+)`:\s*$", before)[1]
            commands += f"cat > {name} <<'END OF BLOCK'\n{block}END OF BLOCK\n"
    return commands, printed
