"""The bindings and the examples in languages other than C: what checks/library/live runs of them."""

import contextlib
import glob
import itertools
import os
import re
import shutil
import signal
import subprocess

import examples
import pages
import runs

BINDINGS, EXAMPLES, SAME = f"{runs.ROOT}/bindings", f"{runs.ROOT}/examples", f"{runs.ROOT}/checks/library/same"

# What the drawn calls are answered between them.
ANSWERS = [
    *["ok", "liked", "seen", "glimpsed", "waits", "runs", "between", "no room", "gone", "goes on", "announced"],
    *["not all in", "released", "ended", "counted", "no moment", "not ended", "all taken", "unknown user"],
    *["other seat", "unknown page", "the range goes past the end", "pages is 1 to 16777216"],
    *["marks are at most 64 pages", "an initial count is at most 1000000000000000000", "seats is 1 to 64", "users is 1 to 4294967295"],
    *["room is 1 to 4096", "hot is 1 to 1000000", "last likes are one for each user", "unknown seat"],
    *["a writer is open"],
]

# The files of each binding, with what names a call there.
SOURCES = {
    "C++": ("cpp/*.hpp", r"\blikes_(\w+)\("),
    "Go": ("go/*.go", r"\bC\.likes_(\w+)\(|\breturn likes_(\w+)\("),
    "Python": ("python/likes/*.py", r"\blikes_(\w+)\b"),
    "Rust": ("rust/src/**/*.rs", r"\bffi::likes_(\w+)\b"),
}

# Calls that no binding needs: those of clients, since each has services; and what a language does by itself, or what
# other calls do.
NEEDLESS = r"(shared|client)_\w+|close|version|is_success|seat_of|driver_seats|service_fault|service_seat_turns"
NEEDLESS += r"|seat_take_all_found"

# The folder of the bindings in a package, which their pages name.
PACKAGED = "/usr/share/liblikes-dev/"


def is_same(text):
    return lambda out: out == text.encode()


def is_any(_):
    return True


def of_cpp(live, compiler, build):
    tests = {f"{BINDINGS}/cpp/tests/{name}.cpp": is_any for name in ("core", "service")}
    for file, is_right in {f"{EXAMPLES}/cpp/threads.cpp": is_same(examples.CPP), **tests}.items():
        program = live.compile(compiler, "c++17", build, file)
        if program:
            live.hold(os.path.basename(file), f"{compiler}, {build}", [program], is_right)


def of_page(live, language, by, environment=None):
    """The program of a language's README, and the tests that are run from a copy, by the page's commands."""
    commands, printed = pages.typed(f"bindings/{language}/README.md")
    folder = f"{live.folder}/of-{language}"
    os.mkdir(folder)
    words = ["sh", "-e", "-c", commands.replace(PACKAGED, f"{runs.ROOT}/")]
    live.hold("the README's commands", by, words, is_same(printed), 600, folder, env=environment)


def python_environment(live):
    library = f"{live.prefix}/lib/liblikes.so"
    names = {"LIKES_LIBRARY": library, "PYTHONPATH": f"{BINDINGS}/python", "PYTHONDONTWRITEBYTECODE": "1"}
    return {**os.environ, **names}


def has_private_names(out):
    """Whether all that the package shows beside what it lists begins with an underline."""
    return out.split() == [b"[]"]


SHOWN = """\
import inspect, likes
names = [name for name in vars(likes) if not name.startswith("_") and name not in likes.__all__]
for it in map(likes.__dict__.get, likes.__all__):
    if inspect.isclass(it) and it.__module__.startswith("likes") and not issubclass(it, tuple):
        names += [name for name in vars(it) if not name.startswith("_") and not getattr(it, name).__doc__]
print(names)
"""


def of_python(live):
    folder, environment = f"{BINDINGS}/python", python_environment(live)
    tests = ["python3", "-m", "unittest", "discover", "-s", f"{folder}/tests", "-t", folder]
    live.hold("the package's tests", "python3", tests, is_any, env=environment)
    live.hold("the package's names", "python3", ["python3", "-c", SHOWN], has_private_names, env=environment)
    if shutil.which("mypy"):
        types = ["mypy", "--strict", f"--cache-dir={live.folder}/mypy", "likes", "tests"]
        live.hold("the package's types", "mypy", types, is_any, folder=folder)
    else:
        print("mypy is not installed: skipped")
    if subprocess.run(["python3", "-c", "import ensurepip, pip"], capture_output=True).returncode == 0:
        # The package as pip installs it, and not that of the repository.
        of_page(live, "python", "python3", {**environment, "PYTHONPATH": "", "PIP_NO_INDEX": "1"})
    else:
        print("pip is not installed: skipped")
    live.hold("threads.py", "python3", ["python3", f"{EXAMPLES}/python/threads.py"], is_same(examples.PYTHON), env=environment)


def of_rust(live):
    """The crate's tests, its lints and its pages, without a network."""
    environment = {**os.environ, "LIKES_PREFIX": live.prefix, "RUSTDOCFLAGS": "-D warnings"}
    manifest = ["--offline", "--quiet", "--manifest-path", f"{BINDINGS}/rust/Cargo.toml"]
    kinds = {"test": [], "doc": ["--no-deps"]}
    if shutil.which("cargo-clippy"):
        kinds["clippy"] = ["--all-targets", "--", "-D", "warnings", "-D", "clippy::pedantic"]
    else:
        print("cargo clippy is not installed: skipped")
    if shutil.which("rustfmt"):
        kinds["fmt"] = ["--check"]
    else:
        print("rustfmt is not installed: skipped")
    for kind, words in kinds.items():
        own = [word for word in manifest if kind != "fmt" or word != "--offline"]
        live.hold(f"cargo {kind}", "cargo", ["cargo", kind, *own, *words], is_any, 600, env=environment)
    of_page(live, "rust", "cargo", environment)


@contextlib.contextmanager
def server(live):
    """The HTTP server, which is ended at the end. Gives its address."""
    with open(f"{live.folder}/served", "wb") as out:
        child = subprocess.Popen(["./server", "-listen", "127.0.0.1:0"], cwd=live.folder, stdout=out)
    try:
        for _ in range(100):
            with open(f"{live.folder}/served", encoding="ascii") as lines:
                found = re.match(r"listening at (\S+)\nready: ", lines.read())
            if found:
                break
            with contextlib.suppress(subprocess.TimeoutExpired):
                child.wait(0.1)
        yield found[1] if found else "http://127.0.0.1:9"
    finally:
        child.send_signal(signal.SIGTERM)
        try:
            child.wait(10)
        except subprocess.TimeoutExpired:
            child.kill()
            live.wrong.append("the HTTP server did not end")


def of_go(live):
    """The module's tests, the pool of goroutines, the HTTP server's tests, and the server under a load, whose final
    counts are the likes that the load made."""
    if live.call(["go", "vet", "."], f"{BINDINGS}/go"):
        tests = ["go", "test", "-race", "-count=1", "."]
        live.hold("the module's tests", "go", tests, is_any, 600, f"{BINDINGS}/go")
    of_page(live, "go", "go")
    if live.call(["go", "build", "-o", f"{live.folder}/pool", "./pool"], f"{EXAMPLES}/go"):
        live.hold("pool", "go", ["./pool"], is_same(examples.POOL))
    if live.call(["go", "build", "-o", live.folder, "./server", "./load"], f"{EXAMPLES}/http"):
        with server(live) as url:
            live.hold("the HTTP server", "go", ["./load", "-url", url, "-requests", "40000"], is_any)
        with open(f"{live.folder}/served", encoding="ascii") as lines:
            ended = lines.read().splitlines()[-1]
        if ended != f"stopped: 8 pages, {''.join(live.said.split()[2:3])} likes":
            live.wrong.append(f"the HTTP server ended with {ended!r}")
    check = [f"{runs.ROOT}/checks/library/server", live.prefix]
    live.hold("server", "go", check, is_any, 600)


def same_programs(live):
    """The programs that make the same calls, each with its language. That in C is the first."""
    for name, compilers, standard in (("c", ("gcc", "clang"), "c11"), ("cpp", ("g++", "clang++"), "c++17")):
        compiler = next(filter(shutil.which, compilers), None)
        program = compiler and live.compile(compiler, standard, "plain", f"{SAME}/same.{name}")
        if program:
            yield compiler, [program]
    yield "python3", ["python3", f"{SAME}/same.py"]
    if shutil.which("cargo"):
        words = ["--offline", "--quiet", "--manifest-path", f"{SAME}/Cargo.toml"]
        if live.call(["cargo", "build", *words]):
            yield "cargo", [f"{os.environ['CARGO_TARGET_DIR']}/debug/same"]
    if shutil.which("go") and live.call(["go", "build", "-o", f"{live.folder}/same-go", "same.go"], SAME):
        yield "go", ["./same-go"]


def difference(out, right):
    """The first line in which two texts differ."""
    lines = itertools.zip_longest(out.decode().splitlines(), right.decode().splitlines(), fillvalue="no line")
    number, (line, other) = next((n, pair) for n, pair in enumerate(lines, 1) if pair[0] != pair[1])
    return f"line {number} is {line!r}, but in C {other!r}"


def of_same(live):
    """The same drawn calls in each language, which are answered alike."""
    right = None
    for by, words in same_programs(live):
        ended = runs.run(words, live.folder, seconds=120, env=python_environment(live))
        right = ended.out if right is None else right
        live.said = f"{ended.out.count(bytes([10]))} answers"
        if ended.status != 0 or ended.out != right:
            live.said = runs.shown(ended) if ended.status != 0 else difference(ended.out, right)
            live.wrong.append(f"the same calls, {by}: {live.said}")
        live.tell("the same calls", by)
    for answer in ANSWERS:
        if not re.search(rf"\b{answer}\b", (right or b"").decode()):
            live.wrong.append(f"no drawn call is answered {answer}")


def of_calls(live):
    """The calls of the headers that a binding lacks."""
    calls = set()
    for name in ("likes.h", "likes_service.h"):
        with open(f"{live.prefix}/include/{name}", encoding="ascii") as file:
            calls.update(re.findall(r"^(?!typedef)\w[\w *]*?\blikes_(\w+)\(", file.read(), re.M))
    for language, (files, pattern) in SOURCES.items():
        made = set()
        for name in glob.glob(f"{BINDINGS}/{files}", recursive=True):
            with open(name, encoding="utf-8") as file:
                made.update(*zip(*re.findall(f"{pattern}()", file.read())))
        lacks = sorted(call for call in calls - made if not re.fullmatch(NEEDLESS, call))
        live.said = f"lacks {', '.join(lacks)}" if lacks else "has all calls"
        live.wrong += [f"{language} {live.said}"] if lacks else []
        live.tell("calls of the headers", language)


def of_all(live):
    """All languages that are there."""
    of_calls(live)
    os.environ["GOCACHE"], os.environ["GOPROXY"] = f"{live.folder}/go-cache", "off"
    os.environ["LIKES_LIBRARY"] = f"{live.prefix}/lib/liblikes.so"
    os.environ["CARGO_TARGET_DIR"], os.environ["LIKES_PREFIX"] = f"{live.folder}/cargo", live.prefix
    for compiler in ("g++", "clang++"):
        if not shutil.which(compiler):
            print(f"{compiler} is not installed: skipped")
            continue
        for build in ("plain", "addresses", "threads"):
            if live.has_sanitizer(compiler, build):
                of_cpp(live, compiler, build)
            else:
                print(f"{compiler} has no sanitizer for {build}: skipped")
    if shutil.which("c++") and shutil.which("pkg-config"):
        of_page(live, "cpp", "c++")
    else:
        print("c++ or pkg-config is not installed: the page of bindings/cpp is skipped")
    of_python(live)
    for command, check in (("cargo", of_rust), ("go", of_go)):
        if shutil.which(command):
            check(live)
        else:
            print(f"{command} is not installed: skipped")
    of_same(live)
