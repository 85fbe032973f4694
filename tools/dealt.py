"""The requests of a log dealt to files for runs: pages, users, and the parts of a log, each of which is a run."""

import array
import collections
import gc
import hashlib
import itertools
import os
import re

import ahead
import formats
import merge
import rows
from command import Fault, named, shown, write

# The most pages, files, requests in a file and users that the program takes, and the most bytes in a page's name.
PAGES, FILES, REQUESTS, USERS, NAME = 1024, 64, 1000000, 1000000, 64

# How many requests are dealt before they are written, and the most that may come to one file before the next time.
WRITTEN, BETWEEN = 50000, 200000

# How the rows of requests begin, by their op.
FRONTS = {"like": "like,", "look": "look,"}
LIKE = FRONTS["like"]

# What a file says which part has a user's last like.
LAST = "number,part"

# A name for a page whose own isn't allowed in a pages file: the same in each deal, by a digest of its own.
STAND_IN = "page {} of names.csv"


def is_name(text):
    """Whether a page may have this name."""
    try:
        return 1 <= len(text.encode()) <= NAME
    except UnicodeEncodeError:
        return False


def stand_in(name):
    """The name that a page has in the files if it can't have its own."""
    return STAND_IN.format(hashlib.sha256(name.encode(errors="surrogateescape")).hexdigest()[:32])


def is_stand_in(name):
    return bool(re.fullmatch(STAND_IN.format("[0-9a-f]{32}"), name))


class Page:
    """A page: its name as CSV, its initial count, its mark, how the rows of its requests end, and its likes in the log.
    Its requests go into the lists of its part."""

    __slots__ = "text", "count", "split", "end", "likes", "part", "texts"

    def __init__(self, name, count="0", split="no"):
        self.text, self.count, self.split = rows.field(name), count, split
        self.end, self.likes = f",{self.text}\n", 0


class Part:
    """A part of a log: its pages, and the requests for each file. It is one run for each million of users."""

    def __init__(self, number, folder, files):
        self.number, self.folder, self.pages = number, folder, []
        self.pages_file = f"{folder}/pages.csv"
        self.files, self.texts, self.counts = [], [], []
        os.makedirs(folder, exist_ok=True)
        self.add_files(files)

    def add_files(self, files):
        """Adds files, of more users."""
        for place in range(len(self.files), len(self.files) + files):
            self.files.append(f"{self.folder}/requests-{place:02}.csv")
            self.texts.append([f"{formats.REQUESTS}\n"])
            self.counts.append(-1)

    def add(self, page):
        page.part, page.texts = self.number, self.texts
        self.pages.append(page)

    def follow(self, part):
        """Takes the pages of a part whose files are full."""
        for page in part.pages:
            self.add(page)

    def write(self):
        """Writes the requests so far."""
        for place, texts in enumerate(self.texts):
            if texts:
                with open(self.files[place], "ab") as file:
                    file.write("".join(texts).encode(errors="surrogateescape"))
                self.counts[place] += len(texts)
                texts.clear()

    def write_pages(self):
        with write(self.pages_file) as file:
            file.write(f"{formats.PAGES}\n")
            file.writelines(f"{page.text},{page.count},{page.split}\n" for page in self.pages)


class Users(dict):
    """The numbers of users, by their first appearance."""

    def __missing__(self, user):
        self[user] = len(self)
        return self[user]


class Dealt:
    """A log dealt into a folder: to one part, or to as many as its pages need (`has_parts`). Where the parts are joined
    afterwards (`are_joined`), requests and users too have as many as they need."""

    def __init__(self, log, folder, files, has_parts=False, are_joined=False):
        self.log, self.folder, self.files = log, folder, files
        self.has_parts, self.are_joined = has_parts, are_joined
        self.pages = {}  # by the name that the log has
        self.earlier = {}  # by the name in the files: the pages of a run before
        self.parts, self.stand_ins = [], {}
        self.kept = self.rest = None  # with --rest: the pages that keep their names, and the page of all others
        self.others = 0
        self.users = Users()
        self.crowds = 0  # how many millions of users there are files for
        self.last_part = array.array("H")  # by the user's number: the part, from 1, or 0
        self.likes_by = collections.Counter()  # by day or hour, and page
        self.is_mixed = False  # whether the times of logs overlap
        self.read = ""  # how much of the log was read, as text, once it is dealt
        self.count = 0  # how many requests aren't written yet
        self.open = self.new_part()  # the part that new pages go to
        self.add_crowd()

    def how_far(self):
        """How far it is, as text."""
        return self.read or self.log.read()

    def new_part(self):
        number = len(self.parts)
        is_one = not (self.has_parts or self.are_joined)
        folder = self.folder if is_one else f"{self.folder}/part-{number:02}"
        part = Part(number, folder, self.files * self.crowds)
        self.parts.append(part)
        return part

    def add_crowd(self):
        """Adds files for a million of users more."""
        self.crowds += 1
        self.last_part.frombytes(bytes(2 * USERS))
        for part in self.parts:
            part.add_files(self.files)

    def keep(self, earlier, rest):
        """Takes the pages of a run before, by name, and the name for all pages without room."""
        self.earlier = earlier
        for page in earlier.values():
            self.open.add(page)
        if rest is not None:
            self.kept = kept_names(self.log, earlier, rest)
            self.rest = earlier.get(rest) or Page(rest)

    def takes_any_name(self):
        return self.has_parts or self.kept is not None

    def add(self, name, batch, number):
        """The page of a new name, which has this number in a batch."""
        text = self.name_of(name, batch, number)
        page = self.earlier.get(text)
        if not page and self.kept is not None and name not in self.kept:
            page = self.rest
            if not self.others and page not in self.open.pages:
                self.open.add(page)
            self.others += 1
        if not page:
            page = Page(text)
            if len(self.open.pages) == PAGES:
                if not self.has_parts:
                    why = f"more than {PAGES} pages: use --parts, or one name for the less liked ones (--rest)"
                    raise self.log.fault(batch.line_of(number), why)
                self.open = self.new_part()
            self.open.add(page)
        if text != name and page is not self.rest:
            self.stand_ins[text] = name
        self.pages[name] = page
        return page

    def name_of(self, name, batch, number):
        """The name that a page has in the files."""
        if is_name(name) and not (self.takes_any_name() and is_stand_in(name)):
            return name
        if not self.takes_any_name():
            why = f"page name is not 1 to {NAME} bytes of UTF-8 (--parts and --rest take any): {shown(name)}"
            raise self.log.fault(batch.line_of(number), why)
        return stand_in(name)

    def deal(self):
        """Gives each request to the file of its user, and writes it."""
        gc.disable()  # there are no cycles here
        merged = merge.Merge() if self.log.is_merged() else None
        whats_of = collections.defaultdict(list)  # by the process that read them: front and page, by number
        with ahead.reading(self.log) as batches:
            for batch in batches:
                self.read, whats = batch.read, whats_of[batch.reader]
                whats += self.new_of(batch, len(whats))
                columns = [list(map(whats.__getitem__, batch.numbers)), self.numbers_of(batch)]
                columns += [batch.periods] if batch.periods is not None else []
                self.take(merged.add(batch, columns) if merged else columns)
        if merged:
            self.take(merged.ready())
            self.is_mixed = merged.are_mixed
        self.write_requests()

    def numbers_of(self, batch):
        """The numbers of a batch's users."""
        numbers = list(map(self.users.__getitem__, batch.names()))
        while len(self.users) > self.crowds * USERS:
            if not self.are_joined:
                why = named(f"more than {USERS} users: take tools/log, which makes several runs")
                raise self.log.fault(self.line_past(batch), why)
            self.add_crowd()
        return numbers

    def take(self, columns):
        """Takes requests in their order: front and page, the user's number, and the period if it is counted by."""
        for begin in range(0, len(columns[0]), WRITTEN):
            self.take_some(*(column[begin : begin + WRITTEN] for column in columns))
            if self.count >= WRITTEN:
                self.write_requests()

    def take_some(self, whats, users, periods=()):
        files, last_part = self.files, self.last_part
        if self.crowds > 1:
            homes = [user // USERS * files + user % USERS % files for user in users]
            numbers = [user % USERS for user in users]
        else:
            homes, numbers = [user % files for user in users], users
        for (front, page), user, home, number in zip(whats, users, homes, numbers):
            page.texts[home].append(f"{front}{number}{page.end}")
            if front == LIKE:
                page.likes += 1
                last_part[user] = page.part + 1
        self.count += len(users)
        self.likes_by.update((period, page) for (front, page), period in zip(whats, periods) if front == LIKE)

    def new_of(self, batch, first):
        """Front and page of what is new in a batch, whose numbers begin with the first."""
        for number, (op, name) in enumerate(batch.new, first):
            yield FRONTS[op], self.pages.get(name) or self.add(name, batch, number)

    def line_past(self, batch):
        """The line of the first user who is too many."""
        return batch.line(next(at for at, user in enumerate(batch.names()) if self.users[user] >= USERS))

    def write_requests(self):
        self.count = 0
        for part in self.parts:  # and those that follow, which may get no more requests, but have files
            part.write()
            most = max(part.counts)
            if most > REQUESTS:
                why = f"more than {REQUESTS} requests for file {part.counts.index(most)}"
                raise Fault(f"{self.log}: {why}: deal to more files, or a part of the log at a time (-h)")
            if self.are_joined and most > REQUESTS - BETWEEN and part.pages and part.pages[0].part == part.number:
                self.follow(part)

    def follow(self, part):
        """Lets a new part follow one whose files are full."""
        new = self.new_part()
        new.follow(part)
        if self.open is part:
            self.open = new

    def rank(self, marked):
        """Sorts the pages of each part, the most liked first and the page of all others last, and marks some."""
        if not self.parts[0].pages:
            raise Fault(f"{self.log}: no page")
        for part in self.parts:
            part.pages.sort(key=lambda page: (page is not self.rest, page.likes), reverse=True)
        if marked is not None:
            pages = [page for page in self.all_pages() if page is not self.rest]
            for rank, page in enumerate(sorted(pages, key=lambda page: page.likes, reverse=True)):
                page.split = "yes" if rank < marked else "no"

    def all_pages(self):
        """The pages of all parts, each once: a part that follows another one has its pages too, and new ones."""
        return list(dict.fromkeys(page for part in self.parts for page in part.pages))

    def write(self, marked=None):
        """Deals the log, and writes all files that runs need."""
        self.deal()
        self.rank(marked)
        for part in self.parts:
            part.write_pages()

    def write_names(self):
        """Writes the files that put names back into reports."""
        self.write_numbered("users.csv", formats.USERS, ((number, user) for user, number in self.users.items()))
        if self.has_parts:
            lasts = ((user, str(part - 1)) for user, part in enumerate(self.last_part) if part)
            self.write_numbered("last.csv", LAST, lasts)
        if self.takes_any_name():
            self.write_numbered("names.csv", formats.NAMES, self.stand_ins.items())

    def write_numbered(self, name, header, pairs):
        with write(f"{self.folder}/{name}") as file:
            file.write(f"{header}\n")
            file.writelines(f"{first},{rows.field(text)}\n" for first, text in pairs)

    def requests(self):
        return sum(sum(part.counts) for part in self.parts)

    def told(self):
        """What was dealt, in lines."""
        pages = self.all_pages()
        likes = sum(page.likes for page in pages)
        more = f" and {self.others} more under one name" if self.others else ""
        more += f" in {len(self.parts)} part{'s' * (len(self.parts) > 1)}" if self.has_parts else ""
        yield f"likes {likes}, looks {self.requests() - likes}, pages {len(pages)}{more}, users {len(self.users)}"
        if self.is_mixed:
            yield f"the times of {self.log} overlap: their requests are merged by time"
        yield from self.log.told()
        paths = self.log.paths
        alike = len(self.pages) - len({paths.get(page, page) for page in self.pages})
        if alike:
            yield f"{alike} of {len(self.pages)} pages differ from others by their query alone: --no-query takes it off"


def kept_names(log, earlier, rest):
    """The new pages of a log that keep their names, while the others are named `rest`: all, or else the most liked."""
    counts, likes = collections.Counter(), collections.Counter()
    for _, _, numbers, *_ in log.batches():
        counts.update(numbers)
    log.judge()
    for number, count in counts.items():
        op, page = log.whats[number]
        likes[page] += count * (op == "like")
    if rest in likes and rest not in earlier:
        raise Fault(f"{log}: a page is named {shown(rest)}: choose another name for --rest")
    new = [page for page in likes if page not in earlier and stand_in(page) not in earlier]
    if len(earlier) + len(new) <= PAGES:
        return set(new)
    room = PAGES - len({*earlier, rest})
    if room < 0:
        raise Fault(f"{log}: no room for {shown(rest)} beside {PAGES} pages")
    return set(sorted(new, key=likes.get, reverse=True)[:room])


def add_rest(parser):
    """Adds the option for a name that many pages share."""
    rest = f"""one name for all but the {PAGES - 1} most liked pages, if LOG has more than {PAGES}. It is the last page,
        without mark or rank. LOG is then read twice, so it must be a file"""
    parser.add_argument("--rest", metavar="NAME", help=rest)


def judge_rest(words, parser):
    """Refuses a wrong --rest, or one with a log that can't be read twice."""
    if words.rest is not None and not is_name(words.rest):
        parser.error(f"--rest takes a name of 1 to {NAME} bytes of UTF-8, not {shown(words.rest)}")
    pipes = [name for name in words.log if name == "-" or os.path.exists(name) and not os.path.isfile(name)]
    if words.rest is not None and pipes:
        parser.error(f"with --rest, LOG is read twice and must be a file: {pipes[0]}")


def earlier_pages(name):
    """The pages of a pages file or of a report, by name."""
    found = rows.records(name)  # once, since it may be a pipe
    first = next(found, (1, []))
    header = formats.REPORT if ",".join(first[1]) == formats.REPORT else formats.PAGES
    found = (row for _, row in rows.lines_behind(itertools.chain([first], found), name, header))
    if header == formats.REPORT:
        found = (row[5:] for row in found if row[0] == "page")
    pages = {row[0]: Page(*row) for row in found}
    if not pages:
        raise Fault(f"{rows.called(name)}: no page")
    return pages
