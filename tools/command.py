"""What the tools share as commands: options, the line on a fault or signal, output by rename, and progress."""

import signal

# Until `run` handles it, Ctrl-C ends a tool without a traceback.
if signal.getsignal(signal.SIGINT) == signal.default_int_handler:
    signal.signal(signal.SIGINT, signal.SIG_DFL)

import argparse
import contextlib
import errno
import os
import re
import shlex
import shutil
import sys
import threading

if sys.version_info < (3, 9):
    sys.exit(f"{sys.argv[0]}: this is Python {sys.version_info[0]}.{sys.version_info[1]}, and 3.9 or later is needed")

# The version of the release that the tools are of, which tools/release writes beside them.
VERSION = f"{os.path.dirname(os.path.realpath(__file__))}/version"

# The program, relative to this folder: in the repository, and in a release.
PROGRAMS = ["../likes", "../../../bin/likes"]

# What the first of these runs, a script that looks for newer sources each time.
BUILT = "../crates/like_driver/out/like_driver"

# The signals at which a tool cleans up before it ends, and the exit status at a closed pipe, as for that signal.
SIGNALS = (signal.SIGHUP, signal.SIGINT, signal.SIGTERM)
PIPE = 128 + signal.SIGPIPE

# The seconds before the first line of progress, and between two of them.
FIRST, NEXT = 2, 0.5


class Fault(Exception):
    """What is wrong, in a line."""


class Stopped(BaseException):
    """A signal came: its number."""


def shown(text):
    """A value as a line shows it: in quotes, with escapes, and cut if it is long."""
    return repr(text) if len(text) <= 60 else f"{text[:60]!r}.."


def version():
    """The version of the release, if the tool is of one."""
    try:
        with open(VERSION, encoding="ascii") as file:
            return file.read().strip()
    except OSError:
        return "of the repository, not of a release"


def is_release():
    """Whether the tool has the name of a release's command."""
    return os.path.basename(sys.argv[0]).startswith("likes-")


def named(text):
    """A text in which the tools have their names: a release has them under other ones."""
    return re.sub(r"\btools/(?=[a-z])", "likes-", text) if is_release() else text


def beside(tool):
    """What calls another tool from where this one was called, as a shell's word."""
    name = f"likes-{tool}" if is_release() else tool
    if is_release() and shutil.which(name):
        return name
    path = f"{os.path.dirname(sys.argv[0]) or '.'}/{name}"
    return shlex.quote(path if os.access(path, os.X_OK) else f"{os.path.dirname(os.path.realpath(__file__))}/{tool}")


def found(place):
    """The program at a place relative to this folder, or none."""
    return shutil.which(os.path.normpath(f"{os.path.dirname(os.path.realpath(__file__))}/{place}"))


def program():
    """The program beside the tools, or on the path, or none."""
    return next(filter(None, map(found, PROGRAMS)), shutil.which("likes"))


class Parser(argparse.ArgumentParser):
    """A parser whose help is output: a fault if it can't be printed."""

    def add_argument(self, *names, **options):
        if options.get("help"):
            options["help"] = named(options["help"])
        return super().add_argument(*names, **options)

    def parse_intermixed_args(self):
        """The command line. What is behind -- is no option. It is named from this folder, since argparse would lose it."""
        words = sys.argv[1:]
        at = words.index("--") if "--" in words else len(words)
        names = [f"./{name}" if name[:1] == "-" != name else name for name in words[at + 1 :]]
        return super().parse_intermixed_args(words[:at] + names)

    def _print_message(self, message, file=None):
        if file is sys.stdout:
            put(message.splitlines(), file)
        else:
            tell(*message.splitlines())


def options(text):
    """The options of a tool, with its docstring as help."""
    parser = Parser(description=named(text), formatter_class=argparse.RawDescriptionHelpFormatter)
    parser.add_argument("--version", action="version", version=f"%(prog)s {version()}", help="print the version")
    return parser


def add_output(parser):
    """Adds the option for a file instead of standard output."""
    parser.add_argument("-o", metavar="FILE", help="write to FILE, which gets its name once it is complete")


def whole(low, high):
    """A type for argparse: a whole number from `low` to `high`."""

    def read(text):
        if text.isascii() and text.isdigit() and low <= int(text) <= high:
            return int(text)
        raise argparse.ArgumentTypeError(f"{shown(text)} is not a whole number from {low} to {high}")

    return read


def write(name):
    """A new file for text, in which the bytes of a log stay as they are."""
    return open(name, "w", newline="\n", encoding="utf-8", errors="surrogateescape")


@contextlib.contextmanager
def output(name):
    """Standard output, or a file that gets its name once it is complete."""
    if name is None:
        sys.stdout.reconfigure(encoding="utf-8", errors="surrogateescape", newline="\n")
        yield sys.stdout
        return
    # A device keeps its name.
    is_device = os.path.exists(name) and not os.path.isfile(name)
    part = name if is_device else f"{name}.part-{os.getpid()}"
    try:
        with write(part) as file:
            yield file
        if not is_device:
            os.replace(part, name)
    except OSError as error:
        raise Fault(f"{name}: {error.strerror}") from None
    finally:
        if not is_device and os.path.exists(part):
            os.remove(part)


def folder_of(text):
    """The name of a folder, which no program takes for an option."""
    name = os.path.normpath(text)
    return f"./{name}" if name.startswith("-") else name


@contextlib.contextmanager
def new_folder(name):
    """A folder that gets its name once it is complete."""
    if os.path.lexists(name):
        raise Fault(f"{name} already exists: remove it, or name another folder with --into")
    above = os.path.dirname(name) or "."
    if not os.path.isdir(above):
        raise Fault(f"{above}: {os.strerror(errno.ENOTDIR if os.path.lexists(above) else errno.ENOENT)}")
    part = f"{name}.part-{os.getpid()}"
    try:
        os.mkdir(part)
        yield part
        os.rename(part, name)
    except BrokenPipeError:
        raise
    except Fault as fault:
        raise Fault(str(fault).replace(part, name)) from None
    except OSError as error:
        raise Fault(f"{(error.filename or name).replace(part, name)}: {error.strerror}") from None
    finally:
        shutil.rmtree(part, ignore_errors=True)


def put(lines, out):
    """Prints lines. A fault is one of standard output, whatever is written beside it."""
    try:
        print(*lines, sep="\n", file=out, flush=True)
    except BrokenPipeError:
        let_go(sys.stdout)
        raise
    except OSError as error:
        raise Fault(f"standard output: {error.strerror}") from None


def tell(*lines):
    """Prints lines on standard error. One that can't be printed is no fault, and the exit status stays."""
    try:
        print(*lines, sep="\n", file=sys.stderr, flush=True)
    except OSError:
        let_go(sys.stderr)


@contextlib.contextmanager
def progress(say, out=None):
    """Shows on a terminal how far a tool is, after two seconds, unless its output goes there too."""
    if not sys.stderr.isatty() or out and out.isatty():
        yield
        return
    ended = threading.Event()

    def show():
        wait = FIRST
        while not ended.wait(wait):
            print(f"\r{say()}\x1b[K", end="", file=sys.stderr, flush=True)
            wait = NEXT
        print("\r\x1b[K", end="", file=sys.stderr, flush=True)

    thread = threading.Thread(target=show, daemon=True)
    thread.start()
    try:
        yield
    finally:
        ended.set()
        thread.join()


def stop(number, _):
    """Stops the tool once: a second signal doesn't stop the cleanup."""
    for other in SIGNALS:
        signal.signal(other, signal.SIG_IGN)
    raise Stopped(number)


def let_go(stream):
    """Drops what is left to print, which the interpreter would try again at the end."""
    os.dup2(os.open(os.devnull, os.O_WRONLY), stream.fileno())


def open_closed():
    """Opens the standard streams that are closed, so that no file gets their numbers. Standard input still can't be
    read, and standard output can't be written. Standard error drops its lines."""
    if sys.stdin is None:
        os.open(os.devnull, os.O_WRONLY)
    if sys.stdout is None:
        sys.stdout = open(os.open(os.devnull, os.O_RDONLY), "w", encoding="utf-8")
    if sys.stderr is None:
        sys.stderr = open(os.devnull, "w", encoding="utf-8", errors="backslashreplace")


def fail(line, status=1):
    """Ends with a line and a status, and without what is left to print."""
    let_go(sys.stdout)
    tell(line)
    sys.exit(status)


def run(main):
    """Runs a tool. On a fault it prints a line and exits with status 1, and at a signal with the signal's status."""
    open_closed()
    if sys.argv[1:] == ["help"]:
        sys.argv[1] = "--help"
    try:
        for number in SIGNALS:
            if signal.getsignal(number) != signal.SIG_IGN:
                signal.signal(number, stop)
        main()
        sys.stdout.flush()
    except Fault as fault:
        fail(str(fault))
    except Stopped as stopped:
        number = stopped.args[0]
        fail(f"stopped by {signal.Signals(number).name}", 128 + number)
    except BrokenPipeError:
        let_go(sys.stdout)
        sys.exit(PIPE)
    except MemoryError:
        fail("out of memory")
    except OSError as error:
        fail(f"{error.filename or 'standard output'}: {error.strerror}")
