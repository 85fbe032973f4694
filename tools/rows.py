"""The rows of CSV files, as the tools read and write them."""

import contextlib
import csv
import importlib
import io
import itertools
import operator
import os
import re
import shutil
import subprocess
import sys
import tempfile
import zlib

import formats
from command import Fault, shown, write

# What the name of the file with a run's options has behind that of its report.
BESIDE = ".options"

# The most digits in a number, and the largest number.
DIGITS, MOST = 19, 2**63 - 1

# The most characters in a field of a file whose quotes are judged: a longer one is hardly meant.
LONGEST = 131072

# How many bytes are copied at a time.
BLOCK = 1 << 18

# The csv module's messages for a misplaced quote, and ours.
QUOTES = {
    "unexpected end of data": "a quote is not closed",
    f"field larger than field limit ({LONGEST})": f"more than {LONGEST} characters in a field: is a quote not closed?",
}

# A field with one of these must be in quotes.
MARKS = re.compile('[",\r\n]')

BEHIND = "text after a closing quote: is an earlier quote not closed?"

# How packed files begin, the programs that unpack them, and Python's modules in their place.
PACKED = {b"\x1f\x8b": "gzip", b"\xfd7zXZ\0": "xz", b"\x28\xb5\x2f\xfd": "zstd"}
PACKERS = {"gzip": "gzip", "xz": "lzma", "zstd": "compression.zstd"}

# How files begin that are no text, and what they are.
BINARY = {
    b"PK\x03\x04": "a zip archive: unpack it first",
    b"7z\xbc\xaf": "a 7z archive: unpack it first",
    b"BZh": "packed by bzip2: unpack it first",
    b"\xff\xfe": "text in UTF-16: convert it by iconv -f UTF-16 -t UTF-8",
    b"\xfe\xff": "text in UTF-16: convert it by iconv -f UTF-16 -t UTF-8",
    b"LPKSHHRH": "a journal: print it by journalctl",
    b"SQLite format 3": "a database of SQLite",
    b"PAR1": "a Parquet file",
    b"\x7fELF": "a program",
    b"%PDF": "a PDF file",
    b"\x89PNG": "a picture",
}

# Where a tar archive has this word.
TAR = slice(257, 262), b"ustar"

# How many bytes of a file are judged, what text doesn't have, and how many of it make a file binary. NULs are skipped:
# a log has them where it was cut off while a server wrote it.
JUDGED, CONTROLS, FEW = 4096, re.compile(rb"[\x01-\x08\x0e-\x1a\x1c-\x1f\x7f]"), 0.05


def called(name):
    """How a line names a file."""
    return "standard input" if name == "-" else name


def escaped(data):
    """Bytes as they are escaped in addresses, such as %FF."""
    return "".join(map("%{:02X}".format, data))


@contextlib.contextmanager
def opened(name):
    """The bytes of a file, or of standard input if its name is -, unpacked if need be; and the file below them, whose
    position tells how much of it was read."""
    try:
        with open(0, "rb", closefd=False) if name == "-" else open(name, "rb") as file:
            front = file.peek(JUDGED)[:JUDGED]
            packer = next((PACKED[magic] for magic in PACKED if front.startswith(magic)), None)
            if packer is None:
                judge_text(name, front)
                yield file, file.raw
            else:
                with unpacked(name, file, packer) as data:
                    judge_text(name, data.peek(JUDGED)[:JUDGED])
                    yield data, file.raw
    except OSError as error:
        raise Fault(f"{called(name)}: {error.strerror}") from None


def judge_text(name, front):
    """Stops at a file that is no text, by its first bytes."""
    what = next((BINARY[magic] for magic in BINARY if front.startswith(magic)), None)
    place, word = TAR
    if front[place] == word:
        what = "a tar archive: unpack it first"
    if what is None and len(CONTROLS.findall(front)) > FEW * len(front.replace(b"\0", b"")):
        what = "binary data, not text"
    if what is not None:
        raise Fault(f"{called(name)}: this is {what}")


@contextlib.contextmanager
def unpacked(name, file, packer):
    """The bytes of a packed file, unpacked by Python's module, or else by the system's program."""
    try:
        module = importlib.import_module(PACKERS[packer])
    except ImportError:
        with unpacked_by(name, file, packer) as data:
            yield data
        return
    damaged = [getattr(module, error, EOFError) for error in ("BadGzipFile", "LZMAError", "ZstdError")]
    try:
        with module.open(file) as data:
            yield data
    except (EOFError, zlib.error, *damaged):
        raise damage(name, packer) from None


@contextlib.contextmanager
def unpacked_by(name, file, packer):
    """The bytes of a packed file, unpacked by a program."""
    if not shutil.which(packer):
        raise Fault(f"{called(name)}: packed by {packer}, which isn't installed: install {packer}, or unpack it first")
    if not file.seekable():
        raise Fault(f"{called(name)}: packed by {packer}: name a file, or unpack it by {packer} -dc")
    os.lseek(file.fileno(), 0, os.SEEK_SET)
    with subprocess.Popen([packer, "-dcq"], stdin=file, stdout=subprocess.PIPE, stderr=subprocess.DEVNULL) as process:
        try:
            yield process.stdout
            if process.wait() != 0:
                raise damage(name, packer)
        finally:
            process.kill()


def damage(name, packer):
    return Fault(f"{called(name)}: the {packer} data is damaged or incomplete")


def is_plain(file, raw):
    """Whether an opened file isn't packed."""
    return getattr(file, "raw", None) is raw


def blocks_of(name):
    """What a file has, in blocks, up to where a packed one ends that isn't complete."""
    with opened(name) as (file, _), contextlib.suppress(EOFError):
        while block := file.read(BLOCK):
            yield block


def begins(name, other):
    """Whether a file begins with all that another one has."""
    with contextlib.closing(blocks_of(name)) as blocks, contextlib.closing(blocks_of(other)) as others:
        return all(next(blocks, b"").startswith(block) for block in others)


@contextlib.contextmanager
def kept(name):
    """The name of a file that can be read again: this one, or a copy of what a pipe or standard input gives."""
    if name != "-" and os.path.isfile(name):
        yield name
        return
    with tempfile.NamedTemporaryFile(prefix="likes.") as copy:
        with opened(name) as (file, _):
            while block := file.read(BLOCK):
                write_copy(copy, block)
        write_copy(copy, b"")
        yield copy.name


def write_copy(copy, block):
    try:
        copy.write(block)
        copy.flush()
    except OSError as error:
        raise Fault(f"{os.path.dirname(copy.name)}: {error.strerror}") from None


def share(file):
    """How much of a file was read, behind its name, if its position tells it."""
    with contextlib.suppress(AttributeError, OSError, ValueError):  # not open, a pipe, or closed
        at, size = file.tell(), os.fstat(file.fileno()).st_size
        return f": {100 * at // max(size, 1)} % read"
    return ""


def reader_of(lines, delimiter):
    """The records of CSV in lines. An unclosed quote, and text after a closing quote, are faults."""
    csv.field_size_limit(LONGEST)
    return csv.reader(lines, strict=True, delimiter=delimiter)


def fields_of(lines, delimiter):
    """The fields of the first record in lines of CSV, whatever quotes it has."""
    csv.field_size_limit(sys.maxsize)
    return next(csv.reader(lines, delimiter=delimiter), [])


def why(error):
    """What is wrong with CSV, by the csv module's error."""
    return BEHIND if "expected after" in str(error) else QUOTES.get(str(error), error)


def records_in(file, name):
    """The records of an open CSV file, each with the line on which it begins, read as the program reads them."""
    csv.field_size_limit(sys.maxsize)
    line = 1
    try:
        reader = csv.reader(io.TextIOWrapper(file, newline="", encoding="utf-8-sig", errors="surrogateescape"))
        for record in reader:
            if record:
                yield line, record
            line = reader.line_num + 1
    except csv.Error as error:
        raise fault(name, line, why(error)) from None


def plain_in(file, name):
    """The records of an open CSV file, without their lines. Up to the first block with a quote or an odd end of a line,
    lines are split at commas, which takes two thirds of a reader's time."""
    text = io.TextIOWrapper(file, newline="", encoding="utf-8-sig", errors="surrogateescape")
    split, left, lines = operator.methodcaller("split", ","), "", 0
    while block := text.read(BLOCK):
        block = left + block
        if "\n" not in block or any(sign in block for sign in '"\r\0'):
            yield from quoted_in(itertools.chain(io.StringIO(block + text.readline(), newline=""), text), name, lines)
            return
        whole, _, left = block.rpartition("\n")
        lines += whole.count("\n") + 1
        yield from map(split, filter(None, whole.split("\n")))
    if left:
        yield split(left)


def quoted_in(lines, name, before):
    """The records of lines that may have quotes, with so many lines before them."""
    csv.field_size_limit(sys.maxsize)
    reader = csv.reader(lines)
    try:
        yield from filter(None, reader)
    except csv.Error as error:
        raise fault(name, before + reader.line_num, error) from None


def records(name):
    """The records of a CSV file, each with the line on which it begins."""
    with opened(name) as (file, _):
        yield from records_in(file, name)


def fault(name, line, why):
    """A fault in a line of a file."""
    return Fault(f"{called(name)}: line {line}: {why}")


def lines_of(name, header):
    """The records of a CSV file after its header, each with the line on which it begins."""
    with opened(name) as (file, _):
        yield from lines_in(file, name, header)


def lines_in(file, name, header):
    """The records of an open CSV file after its header, each with the line on which it begins."""
    return lines_behind(records_in(file, name), name, header)


def lines_behind(found, name, header):
    """Those of the records of a file that are behind its header."""
    wanted = header.split(",")
    line, first = next(found, (1, []))
    if first != wanted:
        raise fault(name, line, f"the header is not {header}: {shown(','.join(first))}")
    for line, row in found:
        if len(row) != len(wanted):
            raise fault(name, line, f"{len(row)} fields, not {len(wanted)}: {shown(','.join(row))}")
        yield line, row


def rows_of(name, header):
    """The records of a CSV file after its header, one by one."""
    for _, row in lines_of(name, header):
        yield row


def whole(text):
    """The whole number below 2^63 that a text is, or none."""
    if len(text) > DIGITS or not (text.isascii() and text.isdigit()):
        return None
    found = int(text)
    return found if found <= MOST else None


def number(text, what, name, line):
    """The whole number in a field of a file's line."""
    found = whole(text)
    if found is None:
        raise fault(name, line, f"{what} is {shown(text)}, not a whole number")
    return found


def field(text):
    """A field of a CSV file, in quotes if it must be."""
    return '"' + text.replace('"', '""') + '"' if MARKS.search(text) else text


def write_options(report, options, pages, *requests):
    """Writes what a run was given into a file beside its report."""
    names = [("pages", pages), *(("requests", name) for name in requests)]
    with write(report + BESIDE) as file:
        file.write(f"{formats.OPTIONS}\n")
        file.writelines(f"{option},{number}\n" for option, number in options.items())
        file.writelines(f"{option},{field(os.path.basename(name))}\n" for option, name in names)


def options_of(report):
    """What a run was given, by the file beside its report if there is one: numbers by option, and files."""
    options, names = {}, []
    if os.path.isfile(report + BESIDE):
        for line, (option, value) in lines_of(report + BESIDE, formats.OPTIONS):
            if option in ("pages", "requests"):
                names.append(os.path.join(os.path.dirname(report), value))
            else:
                options[option] = number(value, option, report + BESIDE, line)
    return options, names
