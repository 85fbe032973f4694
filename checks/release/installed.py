"""The library's Debian packages in a root without the kit: they are installed, the examples, the programs of the
bindings' READMEs and the bindings' tests are run, and the packages are removed."""

import os
import re
import shlex
import shutil

import examples
import pages
import runs

# Commands in new mount and network namespaces: they make an overlay of this machine's root, with its changes in memory.
ENTERED = """\
mount -t tmpfs tmpfs memory
mkdir memory/upper memory/work memory/whole
mount -t overlay overlay -o lowerdir=/,upperdir=memory/upper,workdir=memory/work memory/whole
"""

# Commands that prepare that root and enter it. AWAY stands for what to remove.
PREPARED = """\
rm -rf AWAY memory/whole/usr/local/include/likes* memory/whole/usr/local/lib/liblikes*
mount --rbind /dev memory/whole/dev
mount -t proc proc memory/whole/proc
ip link set lo up
mkdir memory/whole/try
cp liblikes.deb liblikes-dev.deb typed.sh memory/whole/try
env -i HOME=/try PATH="OF_RUST$PATH" GOPROXY=off PIP_NO_INDEX=1 PIP_DISABLE_PIP_VERSION_CHECK=1 \
    chroot memory/whole sh -e /try/typed.sh
"""

# The commands in that root before those of the examples, and after them.
BEFORE = """\
exec 2>&1
cd /try
if command -v rt; then echo the kit is there; exit 1; fi
dpkg -i liblikes.deb liblikes-dev.deb > told || cat told
dpkg -L liblikes liblikes-dev > listed
cp -r /usr/share/liblikes-dev copy
PYTHONPATH=/usr/share/liblikes-dev/bindings/python python3 -c 'import likes'
"""

# At the end a program runs with the shared library's package alone.
AFTER = """\
cd /try
cc copy/examples/c/first.c $(pkg-config --cflags --libs likes) -o first
dpkg -r liblikes-dev > told || cat told
./first
dpkg -r liblikes > told || cat told
grep likes listed | while read -r name; do if [ -e "$name" ]; then echo "$name is left"; fi; done
ldconfig -p | grep likes || echo nothing is left
"""

# The tool that an example needs, and what the commands of its README must print.
SERVED = r"""(?s:.*) all counts are exact
{.*,"count":1,"last":"news .*
stopped: 9 pages, \d+ likes
1 news & more
"""
EXAMPLES = {
    "c": ("cc", rf"{re.escape(examples.FIRST)}likes: .*\nlooks: .*\n"),
    "cpp": ("c++", re.escape(examples.CPP)),
    "python": ("python3", re.escape(examples.PYTHON)),
    "go": ("go", re.escape(examples.POOL)),
    "http": ("go", SERVED),
}


# The tool that a language's README needs.
BINDINGS = {"cpp": "c++", "go": "go", "python": "pip", "rust": "cargo"}


def typed():
    """The lines of the examples and the bindings whose tools are there, and a pattern of what they have to print."""
    lines, printed = "", ""
    for name, (tool, told) in EXAMPLES.items():
        if not shutil.which(tool):
            print(f"{tool} is not installed: examples/{name} is skipped")
            continue
        commands = "".join(block for block, _ in pages.blocks_of(pages.text_of(f"examples/{name}/README.md")))
        lines += f"echo == {name}\ncd /try/copy/examples/{name}\nsh -e -c {shlex.quote(commands)}\n"
        printed += f"== {name}\n{told}"
    for name, tool in BINDINGS.items():
        if not shutil.which(tool):
            print(f"{tool} is not installed: bindings/{name} is skipped")
            continue
        commands, told = pages.typed(f"bindings/{name}/README.md")
        lines += f"echo == of {name}\nmkdir /try/of-{name}\ncd /try/of-{name}\nsh -e -c {shlex.quote(commands)}\n"
        printed += f"== of {name}\n{re.escape(told)}"
    return lines, printed


def of_rust():
    """The folder of Cargo and its compiler themselves, for the path: a proxy needs the home of who installed it."""
    if not shutil.which("rustc"):
        return ""
    return runs.run(["rustc", "--print", "sysroot"], "/").out.decode().strip() + "/bin:"


def tried(library, headers, folder):
    """What is wrong with the two packages, tried in a folder that is made."""
    os.makedirs(f"{folder}/memory")
    enters = ["unshare", "--mount", "--net", "sh", "-e", "-c"]
    if os.getuid() != 0 or runs.run([*enters, ENTERED], folder).status != 0:
        print("not root, or no overlays: the library's packages are skipped")
        return []
    lines, printed = typed()
    shutil.copy(library, f"{folder}/liblikes.deb")
    shutil.copy(headers, f"{folder}/liblikes-dev.deb")
    with open(f"{folder}/typed.sh", "w", encoding="utf-8") as file:
        file.write(f"{BEFORE}{lines}{AFTER}")
    kit = os.path.dirname(os.path.dirname(os.path.realpath(shutil.which("rt"))))
    away = " ".join(shlex.quote(f"memory/whole{name}") for name in (kit, shutil.which("rt"), runs.ROOT))
    prepared = PREPARED.replace("AWAY", away).replace("OF_RUST", of_rust())
    ended = runs.run([*enters, ENTERED + prepared], folder, seconds=900)
    told = ended.out.decode(errors="replace")
    right = rf"{printed}{re.escape(examples.FIRST)}nothing is left\n"
    is_right = ended.status == 0 and not ended.errors and re.fullmatch(right, told)
    return [] if is_right else [f"the library's packages: {runs.shown(ended)}, and {told[-3000:]}"]
