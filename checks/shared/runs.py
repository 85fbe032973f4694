"""What the checks share: the built program, runs of it with a time limit, and their results in a line."""

import argparse
import collections
import contextlib
import os
import pwd
import re
import resource
import shutil
import signal
import subprocess
import sys
import tempfile
import threading
import time

ROOT = os.path.realpath(f"{__file__}/../../..")

sys.path.append(f"{ROOT}/tools")

import formats

# The header of a report, and the answers that refuse a request.
HEADER, REFUSALS = formats.REPORT, formats.REFUSALS

# The fault lines of too little memory and too few threads.
MEMORY = b"likes: out of memory\n"
START = b"likes: a thread could not be started\n"

# How a run ended: its status, below 0 if a signal ended it; what it wrote; its processor time in seconds; whether it
# was killed for taking too long; and the peak memory in bytes, of it or of this program before it.
Ended = collections.namedtuple("Ended", "status out errors seconds hung memory")


class Wrong(Exception):
    """What a check found to be wrong."""


def options(text):
    """The options of a check, with its docstring as help."""
    return argparse.ArgumentParser(description=text, formatter_class=argparse.RawDescriptionHelpFormatter)


def not_root():
    """The number of a user who is not root: nobody where root runs the check, else the one who runs it."""
    return pwd.getpwnam("nobody").pw_uid if os.getuid() == 0 else os.getuid()


@contextlib.contextmanager
def work_folder():
    """A temporary folder that every user may read."""
    signal.signal(signal.SIGTERM, lambda *_: sys.exit(143))
    os.umask(0o022)
    with tempfile.TemporaryDirectory(prefix="likes-checks.") as folder:
        os.chmod(folder, 0o755)
        yield folder


@contextlib.contextmanager
def program_folder():
    """Such a folder with the program in it, as `likes`, built first if need be, which takes minutes.

    After `rt ci` it must be, since that removes what was built. While `rt ci` works in this clone, the build waits for
    its end."""
    with subprocess.Popen([f"{ROOT}/likes"], stdout=subprocess.DEVNULL) as child:
        try:
            child.wait(5)
        except subprocess.TimeoutExpired:
            print("building the program first: standard error has its progress, or what it waits for", flush=True)
    if child.returncode != 0:
        sys.exit(child.returncode)
    with work_folder() as folder:
        shutil.copy(f"{ROOT}/crates/like_driver/out/like_driver", f"{folder}/likes")
        yield folder


def workload(folder, **numbers):
    """Makes a workload by bench/workload, and gives its files in the order of the command line."""
    words = [f"{name}={number}" for name, number in numbers.items()]
    subprocess.run([f"{ROOT}/bench/workload", folder, *words], check=True)
    requests = [name for name in os.listdir(folder) if name.startswith("requests-")]
    return ["pages.csv", *sorted(requests, key=lambda name: (len(name), name))]


def limit_self(limits, user):
    """Sets limits on what this process may have, and the user that it is of."""
    resource.setrlimit(resource.RLIMIT_CORE, (0, 0))
    # A file that is at its limit is then like a full disk.
    signal.signal(signal.SIGXFSZ, signal.SIG_IGN)
    if user is not None and user != os.getuid():
        os.setgroups([])
        os.setgid(user)
        os.setuid(user)
    for limit, most in limits:
        resource.setrlimit(limit, (most, most))


def kill_all(group):
    """Kills a process and all that it started, unless they have ended."""
    with contextlib.suppress(ProcessLookupError):
        os.killpg(group, signal.SIGKILL)


def run(words, folder, limits=(), user=None, out=None, errors=None, seconds=60, **how):
    """Runs a program in a folder, with limits on what it may have and as a user, and tells how it ended.

    What it writes goes to `out` and `errors`, where they are given, and else is kept."""

    def begin():
        os.setpgrp()  # so that all that it starts can be killed
        limit_self(limits, user)

    with tempfile.TemporaryFile() as written, tempfile.TemporaryFile() as lines:
        began = time.monotonic()
        child = subprocess.Popen(
            words,
            cwd=folder,
            stdout=written if out is None else out,
            stderr=lines if errors is None else errors,
            preexec_fn=begin,
            **{"stdin": subprocess.DEVNULL, **how},
        )
        timer = threading.Timer(seconds, kill_all, (child.pid,))
        timer.start()
        try:
            _, code, used = os.wait4(child.pid, 0)
        except BaseException:
            kill_all(child.pid)
            raise
        finally:
            hung = time.monotonic() - began >= seconds
            timer.cancel()
            timer.join()
        child.returncode = -os.WTERMSIG(code) if os.WIFSIGNALED(code) else os.WEXITSTATUS(code)
        written.seek(0)
        lines.seek(0)
        hung = hung and child.returncode == -signal.SIGKILL
        took = used.ru_utime + used.ru_stime
        return Ended(child.returncode, written.read(), lines.read(), took, hung, used.ru_maxrss * 1024)


def agreed(report):
    """What two runs on threads agree on: no hot and place rows, and in replies no phases and nothing that looks show."""
    report = re.sub(rb"(?m)^(hot|place),.*\n", b"", report)
    return re.sub(rb"(?m)^(reply,\d+,\d+),\d+,([a-z-]+),.*$", rb"\1,\2", report)


def shown(ended):
    """How a run ended, in a line."""
    if ended.hung:
        return "did not end in time"
    ending = f"signal {-ended.status}" if ended.status < 0 else f"status {ended.status}"
    return f"{ending}, {len(ended.out)} bytes of output, and the line {ended.errors[:200]!r}"


def told(wrong):
    """Prints what was found to be wrong, and ends with status 1; with status 0 where nothing was."""
    for line in wrong[:20]:
        print(f"wrong: {line}")
    if len(wrong) > 20:
        print(f"wrong: {len(wrong) - 20} more")
    print("all held" if not wrong else "not all held")
    sys.exit(1 if wrong else 0)


def table(rows):
    """Prints rows of words, the first one the heads, the first column to the left and the others to the right."""
    widths = [max(len(str(cell)) for cell in column) for column in zip(*rows)]
    for first, *others in rows:
        print(f"{first:<{widths[0]}}", *(f"{cell:>{width}}" for cell, width in zip(others, widths[1:])), sep="  ")
