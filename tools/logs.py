"""The options for logs: what kind they are of, and which of their requests count."""

import argparse
import os
import stat

import formats
import rows
import stamps
import tables
import web
from command import Fault, shown

# How the names of packed logs end.
ENDS = (".gz", ".xz", ".zst")


def judge_names(names, parser):
    """Refuses logs that can't be there, and one that is named twice, before work begins."""
    if names.count("-") > 1:
        parser.error("only one LOG can be -, which is standard input")
    seen = {}
    for place, name in enumerate(names):
        same = seen.setdefault(file_of(name), place)
        if same != place:
            raise Fault(f"{name} is {'named twice' if name == names[same] else f'the same file as {names[same]}'}")


def take_names(words, parser):
    """Judges the logs, and leaves out copies."""
    judge_names(words.log, parser)
    words.copies = dict(copies_in(words.log))
    words.log = [name for name in words.log if name not in words.copies]


def copies_in(names):
    """Packed logs that have nothing but what a plain one has that is named too, as while logrotate packs it; each with
    that one."""
    files = {file_of(name): name for name in names}
    for name in names:
        front, end = os.path.splitext(name)
        if end in ENDS and os.path.isfile(name) and os.path.isfile(front):
            plain = files.get(key_of(os.stat(front)))
            if plain and rows.begins(plain, name):
                yield name, plain


def file_of(name):
    """What tells a file from others, if it can be read."""
    if name == "-":
        return name
    try:
        found = os.stat(name)
    except OSError as error:
        raise Fault(f"{name}: {error.strerror}") from None
    is_folder = stat.S_ISDIR(found.st_mode)
    if is_folder or not os.access(name, os.R_OK):
        raise Fault(f"{name}: {'Is a directory' if is_folder else 'Permission denied'}")
    return key_of(found)


def key_of(found):
    return found.st_dev, found.st_ino


def add_options(parser):
    """Adds the options for a log."""
    logs = """the log, plain or packed by gzip, xz or zstd; - is standard input. Several are taken in the order of their
        times, CSV files without --time in the order in which they are named. A packed log such as access.log.1.gz is
        left out if access.log.1 is named too and has all of its lines, as while logrotate packs it"""
    parser.add_argument("log", metavar="LOG", nargs="+", help=logs)
    like = """which requests are likes. Of a web server's log a regular expression for the front of a request, such as
        'POST /like(/[^? ]*)': a group named user is the user; the one named page, or else the first other one, is the
        page. Of a CSV file the word for a like (default like)"""
    parser.add_argument("--like", metavar="PATTERN", help=like)
    parser.add_argument("--look", metavar="PATTERN", help="which requests are looks, in the same way (default look)")
    parser.add_argument("--no-query", action="store_true", help="take off what follows a page's first question mark")
    since = """leave out requests before this time, such as 2026-11-27 or 2026-11-27T09:00. All times are those that
        clocks showed where the log was written, and in UTC where it has seconds since 1970"""
    parser.add_argument("--since", metavar="TIME", type=stamps.moment, help=since)
    parser.add_argument("--until", metavar="TIME", type=stamps.moment, help="leave out requests at this time or later")
    tables.add_options(parser)
    web.add_options(parser)
    parser.set_defaults(by=None)


def log_of(words, parser):
    """The log that a tool's options name."""
    is_web = words.combined or words.from_json
    kind = "--combined or --from-json"
    for option in ("status", "agent_not", "forwarded", "decode"):
        if getattr(words, option) and not is_web:
            parser.error(f"--{option.replace('_', '-')} needs {kind}")
    if words.combined and words.from_json:
        parser.error("--combined can't be used with --from-json")
    if words.fields and not words.from_json:
        parser.error("--fields needs --from-json")
    for option in ("columns", "time", "delimiter", "strict"):
        if getattr(words, option) and is_web:
            parser.error(f"--{option} is for CSV, not {kind}")
    if is_web:
        if not words.like:
            parser.error(f"{kind} needs --like")
        try:
            patterns = {op: web.pattern(text) for op, text in (("like", words.like), ("look", words.look)) if text}
        except argparse.ArgumentTypeError as error:
            parser.error(str(error))
        take_names(words, parser)
        return (web.Combined if words.combined else web.Json)(words, patterns)
    columns = (words.columns or formats.REQUESTS).split(",")
    if len(columns) != 3:
        parser.error(f"--columns takes three names, not {shown(words.columns)}")
    numbered = [*columns, *filter(None, [words.time])]
    if all(name.isdecimal() for name in numbered) and not all(map(int, numbered)):
        parser.error("--columns and --time are numbered from 1")
    if (words.like or "like") == (words.look or "look"):
        parser.error("--like and --look are the same word")
    if not words.time and any((words.by, words.since is not None, words.until is not None)):
        parser.error("--since, --until and --by need --time, the column of a CSV file with the time")
    take_names(words, parser)
    return tables.Table(words, columns)
