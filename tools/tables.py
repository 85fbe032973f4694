"""The requests of CSV files."""

import argparse
import csv
import operator
import re

import reading
import rows
from cache import Cache
from command import shown

# What may separate fields, the likeliest first, and names for those that a shell can't write well.
DELIMITERS = ",;\t|"
NAMED = {"tab": "\t", "\\t": "\t"}

# Why rows are left out.
FEWER, MORE, SHORT = "fewer fields than the header", "more fields than the header", "fewer fields than --columns"
LONG = f"a field of more than {rows.LONGEST} characters"
NULS = "NULs before the first field"

# A NUL as bytes of a log, and what stands in its place; and at the front of a line after another, as where a log was
# cut while it was written.
NUL = b"\0", reading.NUL.encode()
NUL_FRONT = b"\n" + NUL[1]


def text_of(data):
    """Bytes of a log as text."""
    return data.decode(errors=reading.ESCAPED)


def texts_of(fields):
    """Fields as texts. They have no NUL."""
    return text_of(b"\0".join(fields)).split("\0")


def is_long(line):
    """Whether a field of a line may be too long: a byte that isn't UTF-8 is escaped by three characters."""
    return 3 * len(line) > rows.LONGEST


class Header:
    """Where the columns of a file are, how its fields are separated, and how many most rows have."""

    def __init__(self, names, delimiter, places, width):
        self.names, self.delimiter, self.places = names, delimiter, places
        self.least = max(places) + 1
        self.width = max(width, self.least)
        self.gap = delimiter.encode() * (self.width - 1)  # a row whose fields are empty
        self.rest = bytes({*range(256)} - {*f'{delimiter}"\n'.encode()})

    def lacks(self, row):
        """Whether a row has fewer fields than are needed: those of the header, or without one the columns."""
        return len(row) < (len(self.names) or self.least)

    def exceeds(self, row):
        return bool(self.names) and len(row) > len(self.names)

    def takes(self, row):
        """Whether a row has as many fields as it should, none that is too long, and no NULs before them."""
        if self.lacks(row) or self.exceeds(row) or row[0].startswith(reading.NUL):
            return False
        return max(map(len, row)) <= rows.LONGEST

    def odd(self, lines):
        """The places of lines that have quotes, too few fields or too many: without the rest, they aren't a gap. All
        places, if a field may be too long, or behind NULs."""
        text = b"\n".join(lines)
        if is_long(max(lines, key=len)) or text.startswith(NUL[1]) or NUL_FRONT in text:
            return range(len(lines))
        shapes = text.translate(None, self.rest).split(b"\n")
        return [at for at, shape in enumerate(shapes) if shape != self.gap]


class Lines:
    """The lines of a file as bytes, a piece at a time. A record that goes on behind the piece makes it longer. Only
    those of a block with CR keep their ends, which a record may have within quotes."""

    def __init__(self, blocks):
        self.blocks = blocks
        self.piece, self.long = [], {}  # and by their places: lines that are too long, as they are told
        self.has_ends = False
        self.at = 0  # the place behind the last record

    def begin(self, block):
        """Begins a piece."""
        self.piece, self.long, self.has_ends, self.at = [], {}, False, 0
        self.add(block)

    def add(self, block):
        """Adds a block. In place of a line that is too long there is an empty one."""
        if isinstance(block, tuple):
            self.long[len(self.piece)] = block
            self.piece.append(b"")
        else:
            block = block.replace(*NUL)
            self.has_ends = self.has_ends or b"\r" in block
            self.piece += block.splitlines(keepends=True) if self.has_ends else block[:-1].split(b"\n")

    def bare(self):
        """The lines without their ends."""
        return [line.rstrip(b"\r\n") for line in self.piece] if self.has_ends else self.piece

    def __iter__(self):
        return self

    def __next__(self):
        """The next line of a record, as text."""
        if self.at == len(self.piece):
            self.add(next(self.blocks)[1])
        self.at += 1
        line = text_of(self.piece[self.at - 1])
        return line if line.endswith(("\r", "\n")) else f"{line}\n"

    def read(self, at, delimiter):
        """The record that begins at a place. It leaves its lines empty."""
        self.at = at
        record = next(rows.reader_of(self, delimiter))
        self.piece[at : self.at] = [b""] * (self.at - at)
        return record


class Rows:
    """The rows of a piece: plain lines, and the fields of all others by their places, none where there is no row."""

    def __init__(self, header, lines, others):
        self.header, self.lines, self.others = header, lines, others

    def __getitem__(self, at):
        """A row, as text."""
        return self.header.delimiter.join(self.row(at))

    def row(self, at):
        """The fields of a row, or none."""
        if at in self.others or not self.lines[at]:
            return self.others.get(at, [])
        return text_of(self.lines[at]).split(self.header.delimiter)

    def columns(self):
        """The columns that are needed, as bytes. In rows with too few fields or too many, or with one that is too long,
        they are empty."""
        header, delimiter, lines = self.header, self.header.delimiter.encode(), self.lines.copy()
        for at in self.others:
            lines[at] = header.gap
        fields = delimiter.join(lines).split(delimiter)
        columns = [fields[place :: header.width] for place in header.places]
        for at, row in self.others.items():
            if header.takes(row):
                for column, place in zip(columns, header.places):
                    column[at] = row[place].encode()
        return columns


class Meanings(Cache):
    """What rows with an op mean, by their page as bytes: the number of op and page, or 0 if they are no requests."""

    def __init__(self, log, op):
        super().__init__()
        self.op, self.page_of, self.number_of = op, log.page_of, log.number_of

    def __missing__(self, page):
        text = text_of(page)
        if not (self.op and text):
            return 0
        self[page] = self.number_of((self.op, self.page_of(text)))
        return self[page]


class Ops(Cache):
    """What rows mean, by their op as bytes: then by their page. A look-up for each is cheaper than one for the pair."""

    def __init__(self, log):
        super().__init__()
        self.ops = log.ops
        self.meanings = {op: Meanings(log, op) for op in (None, *log.ops.values())}

    def __missing__(self, op):
        self[op] = self.meanings[self.ops.get(text_of(op))]
        return self[op]

    def make_room(self):
        super().make_room()
        for meanings in self.meanings.values():
            meanings.make_room()


class Table(reading.Log):
    """The requests of CSV files."""

    end = re.compile(b"\r\n?|\n")

    def __init__(self, words, columns):
        super().__init__(words)
        self.op, _, self.page = columns
        self.columns = [*columns, words.time] if words.time else columns
        self.is_strict, self.delimiter = words.strict, words.delimiter
        self.has_times = words.time is not None
        self.has_header = not all(name.isdecimal() for name in self.columns)
        self.ops = {words.look or "look": "look", words.like or "like": "like"}
        self.wrong_op = f"{self.op} is not {words.like or 'like'} or {words.look or 'look'}"
        self.no_page = f"{self.page} is empty"
        self.meanings = Ops(self)

    def cut(self, block):
        """Cuts a block behind its last line, which CR may end."""
        return block.rpartition(b"\n" if b"\n" in block else b"\r")

    def pieces_in(self, file):
        blocks, header, first = self.blocks(file), None, 1
        lines = Lines(blocks)
        for _, block in blocks:
            lines.begin(block)
            if header is None and any(map(str.strip, map(text_of, lines.piece))):
                header = self.header_of(lines, first)
            if header is not None:
                others = self.others_in(lines, first, header)
                yield first, Rows(header, lines.bare(), others)
            yield from ((first + at, piece) for at, piece in lines.long.items())
            first += len(lines.piece)
        if header is None and len(self.names) == 1:
            self.places_of([], ",", 1)

    def header_of(self, lines, first):
        """The header of a file, or without one the columns by their numbers."""
        texts = list(map(text_of, lines.piece))
        at = next(at for at, text in enumerate(texts) if text.strip())
        lines.piece[:at], front = [b""] * at, texts[at:]
        delimiter = self.delimiter or max(DELIMITERS, key=lambda one: self.fit(front, one))
        names = self.record_in(lines, first, at, delimiter) if self.has_header else []
        places = self.places_of(names, delimiter, first + at)
        return Header(names, delimiter, places, len(names) or len(rows.fields_of(front, delimiter)))

    def places_of(self, names, delimiter, line):
        """The places of the columns, by the names in a header's line or their numbers."""
        if not self.has_header:
            return [int(name) - 1 for name in self.columns]
        for column in self.columns:
            if names.count(column) != 1:
                many = "more than one" if column in names else "no"
                raise self.fault(line, f"the header has {many} column {column}: {shown(delimiter.join(names))}")
        return [names.index(column) for column in self.columns]

    def fit(self, front, delimiter):
        """How well a delimiter fits the first record in a file's lines: how many columns it finds, or whether an op, then
        how many fields."""
        fields = rows.fields_of(front, delimiter)
        if self.has_header:
            return sum(map(fields.__contains__, self.columns)), len(fields)
        op = int(self.op)
        return any(map(self.ops.__contains__, fields[op - 1 : op])), len(fields)

    def record_in(self, lines, first, at, delimiter):
        """The record that begins at a place in a piece."""
        try:
            return lines.read(at, delimiter)
        except csv.Error as error:
            raise self.fault(first + at, rows.why(error)) from None

    def others_in(self, lines, first, header):
        """The rows of a piece that aren't plain lines, by their places: records that have quotes, and rows with too few
        fields, too many, or one that may be too long."""
        found, begin = {}, 0
        while begin < len(lines.piece):  # and those that a record adds
            bare = lines.bare()[begin:]
            for place in header.odd(bare):
                at, line = begin + place, bare[place]
                if at in found:
                    continue  # within a record
                if b'"' in line:
                    found[at] = self.record_in(lines, first, at, header.delimiter)
                    found.update(dict.fromkeys(range(at + 1, lines.at), []))
                else:
                    found[at] = text_of(line).split(header.delimiter) if line else []
            begin += len(bare)
        return found

    def requests_in(self, first, piece):
        ops, users, pages, *times = piece.columns()
        self.meanings.make_room()
        numbers = list(map(operator.getitem, map(self.meanings.__getitem__, ops), pages))
        for at in reading.places(numbers, 0):
            if row := piece.row(at):
                self.leave_out_row(first + at, row, piece.header)
        return range(first, first + len(numbers)), numbers, users, texts_of(*times) if times else [], piece

    def joined(self, users):
        return text_of(b"\0".join(users))

    def page_of(self, page):
        """A page, without its query if that is taken off."""
        path, mark, _ = page.partition("?")
        if not (mark and path):
            return page
        if not self.has_queries:
            return path
        self.paths[page] = path
        return page

    def leave_out_row(self, line, row, header):
        """Leaves out a row, or stops at it."""
        why, text = self.why(row, header), header.delimiter.join(row)
        if self.is_strict:
            raise self.fault(line, self.fault_of(why, row, text, header))
        self.leave_out(why, line, text)

    def why(self, row, header):
        """Why a row is left out."""
        if header.exceeds(row):
            return MORE
        if header.lacks(row):
            return FEWER if header.names else SHORT
        if row[header.places[0]] not in self.ops:
            return self.wrong_op
        if row[0].startswith(reading.NUL):
            return NULS
        return LONG if row[header.places[2]] else self.no_page

    def fault_of(self, why, row, text, header):
        """What is wrong with a row that isn't left out."""
        if why == self.wrong_op:
            return why.replace(" is ", f" is {shown(row[header.places[0]])}, ", 1)
        if why in (self.no_page, LONG, NULS):
            return f"{why}: {shown(text)}"
        return f"{len(row)} fields, not {len(header.names) or header.least}: {shown(text)}"

    def time_of(self, piece):
        header = piece.header
        found = map(piece.row, range(len(piece.lines)))
        return self.first_of(row[header.places[3]] for row in found if header.takes(row))


def delimiter(text):
    """A type for argparse: a character that separates fields."""
    found = NAMED.get(text, text)
    if len(found) != 1 or not found.isascii() or found in '"\r\n\0':
        raise argparse.ArgumentTypeError(f"{shown(text)} is not one character, or tab")
    return found


def add_options(parser):
    """Adds the options for CSV files."""
    columns = """the names of the three columns in the CSV file LOG, or their numbers from 1 if it has no header
        (default op,user,page)"""
    parser.add_argument("--columns", metavar="OP,USER,PAGE", help=columns)
    time = """the column of a CSV file with the time, by which several files are sorted: such as 2026-11-27 09:00,
        27.11.2026 09:00, or seconds since 1970"""
    parser.add_argument("--time", metavar="COLUMN", help=time)
    separated = "what separates the fields of a CSV file: a character, or tab (default what the header has)"
    parser.add_argument("--delimiter", metavar="CHAR", type=delimiter, help=separated)
    strict = "stop at a row of a CSV file that is no request, in place of leaving it out"
    parser.add_argument("--strict", action="store_true", help=strict)
