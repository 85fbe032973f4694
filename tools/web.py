"""The requests of web servers' logs: in the combined format and its kin, or as JSON."""

import argparse
import itertools
import json
import math
import operator
import os
import re
import shlex
from urllib.parse import unquote, unquote_plus

import reading
from cache import Cache
from command import Fault, shown

# What syslog puts before a line: a time, the host, and the program with a colon or what RFC 5424 has in its place, with
# elements of data.
ELEMENT = r'\[[^]"\n]*(?:"[^"\\\n]*(?:\\.[^"\\\n]*)*"[^]"\n]*)*\]'
SYSLOG = (
    r"(?:<[0-9]{1,3}>)?(?:1 )?(?:[A-Z][a-z]{2} [ 0-9][0-9] (?:[0-9]{4} )?[0-9:]{8}|[0-9]{2}:[0-9]{2}:[0-9]{2}"
    r"|[0-9]{4}-[0-9]{2}-[0-9]{2}[T ][0-9:.,]{8,18}(?:Z|[+-][0-9:]{4,5})?) "
    rf"[^ \n]+ (?:[^ \n]+: |[^ \n]*[^: \n] [^ \n]+ [^ \n]+ (?:-|(?:{ELEMENT})+) \ufeff?)"
)
PREFIX = re.compile(SYSLOG)

# How a line of vhost_combined begins: the server's name and port, which an address never follows with a dash.
HOST = r"(?:[^ :\n\0]+|\[[^] \n]+\]):[0-9]{1,5} (?!- )"

# An address, or the list of those that forwarded the request.
ADDRESSES = r"([^ ,\n\0]+(?:, ?[^ ,\n\0]+)*)"

# What is an address, and not a time, a level or another word of a line's front: of IPv4, of IPv6, or a host's name.
IPV4, NAME = r"[0-9]{1,3}\.[0-9]{1,3}\.[0-9]{1,3}\.[0-9]{1,3}", r"(?:[\w-]+\.)+[a-zA-Z][\w-]*\.?|localhost"
IPV6 = r"(?:[0-9a-fA-F:]*::[0-9a-fA-F:.]*|(?:[0-9a-fA-F]+:){6,7}[0-9a-fA-F.]+)(?:%[\w.-]+)?"
ADDRESS = re.compile(rf"{IPV4}|\[?{IPV6}\]?|{NAME}", re.A)

# What stands alone in the place of an address, such as its hash or a host's short name: a word, but no date.
WORD = re.compile(r"(?![0-9]{4}-[0-9]{2}-[0-9]{2}\Z)[\w-]+", re.A)

# An address with the port of a connection, which is none of the user's.
PORTED = re.compile(rf"({IPV4}|\[{IPV6}\]|{NAME}):[0-9]{{1,5}}", re.A)

# A line of the combined or the common format from the time to the status: a request, and how it was answered. And what
# follows up to the agent, if there is one.
ASKED = r'\[([^][\n]{0,99})\] "([^"\\\n]*(?:\\.[^"\\\n]*)*)" ([0-9]{3}) '
AGENT = r'(?:[^ \n]+ "[^"\\\n]*(?:\\.[^"\\\n]*)*" "([^"\\\n]*(?:\\.[^"\\\n]*)*)")?'

# A line that is right from its time on, and one that looks like that.
BEHIND = re.compile(rf'[^"\n]*? {ASKED}')
LIKE_ONE = re.compile(r'[^ \n]+ [^\n]*\[[^][\n]{0,99}\] "')

# What a line has behind its time, and a line that has it behind two times: it was cut, and the next one was written
# behind it.
ASKS = '] "'
TWO = re.compile(r'^[^\n]*?\[{0}\] "[^\n]*?\[{0}\] "[^\n]*'.format(r"[0-9]{2,4}[/-][^][\n]{9,99}"), re.M)

# Reads JSON, in which halves of characters may be escaped.
DECODER, HALF = json.JSONDecoder(), re.compile(r"\\u[dD]")

# How a server escapes characters.
ESCAPE = re.compile(rb"\\(?:x([0-9a-fA-F]{2})|(.))", re.S)
LETTERS = {b"b": b"\b", b"n": b"\n", b"r": b"\r", b"t": b"\t", b"v": b"\v"}

# What servers and proxies write in place of a name, or of an address, that they don't have.
NAMELESS = ("-", "", '""')
NOBODY = (*NAMELESS, "unix:", "unknown")

# The names of fields in a JSON log of nginx, Caddy and Traefik, each in the objects that are before its dots.
FIELDS = {
    "time": "time_iso8601 time_local msec time ts StartUTC timestamp @timestamp",
    "address": "remote_addr request.client_ip request.remote_ip request.remote_addr ClientHost",
    "user": "remote_user user_id ClientUsername",
    "request": "request",
    "method": "request_method request.method RequestMethod",
    "uri": "request_uri request.uri RequestPath",
    "status": "status DownstreamStatus",
    "agent": "http_user_agent request.headers.User-Agent request_User-Agent",
}

BLANK, REQUEST = ("",) * len(FIELDS), list(FIELDS).index("request")

# Why lines are left out.
JUNK, TORN = "not of the combined format", "a log line that can't be read"
NO_FRONT = "no address, dash and user before the time"
NO_OBJECT, NO_FIELD = "not a JSON object", "no request or no status by these names of fields (--fields)"
OTHER, EMPTY = "no pattern matches", "the page is empty"
BOT, NO_USER = "the agent matches --agent-not", "no user and no address"

# What a pattern has to match.
FRONT = "a pattern begins at the front of the request"


def without_escapes(text):
    """A text as it was sent, from what a server logged."""
    letters = ESCAPE.sub(
        lambda found: bytes.fromhex(found[1].decode()) if found[1] else LETTERS.get(found[2], found[2]), text.encode()
    )
    return letters.decode(errors=reading.ESCAPED)


class Meanings(Cache):
    """What a web server's requests mean, by their text: the number of op and page, or 0; the users that they name; and
    the requests that match a pattern and have no page."""

    def __init__(self, log):
        super().__init__()
        self.patterns, self.form, self.number_of = log.patterns, log.form, log.number_of
        self.has_escapes, self.has_queries, self.paths = log.has_escapes, log.has_queries, log.paths
        self.users, self.empty = {}, set()
        self.matched = set()  # the ops whose patterns match a request
        self.first = None  # the first request

    def make_room(self):
        """Empties a full cache, between batches: at its end a batch asks for the users that its requests name."""
        super().make_room()
        if not self:
            self.users.clear()
            self.empty.clear()

    def __missing__(self, request):
        text = without_escapes(request) if self.has_escapes and "\\" in request else request
        matches = ((op, pattern.match(text)) for op, pattern in self.patterns.items())
        op, match = next(filter(operator.itemgetter(1), matches), ("", None))
        self.first = self.first or request
        self[request] = 0
        if match:
            self.matched.add(op)
            if page := self.page_of(match):
                self[request] = self.number_of((op, page))
            else:
                self.empty.add(request)
            if "user" in match.re.groupindex:
                user = self.decoded(text, *match.span("user"))
                if user not in NAMELESS:
                    self.users[request] = user
        return self[request]

    def why_none(self, request):
        """Why a request means nothing."""
        return EMPTY if request in self.empty else OTHER

    def page_of(self, match):
        """The page that a request names. Its query is taken off, or else what the page is without it is noted."""
        begin, end = match.span(page_group(match.re))
        asked = match.string.find("?", begin + 1, end)
        if asked < 0:
            return self.decoded(match.string, begin, end)
        path = self.decoded(match.string, begin, asked)
        if not self.has_queries:
            return path
        page = self.decoded(match.string, begin, end)
        self.paths[page] = path
        return page

    def decoded(self, text, begin, end):
        """A part of a request, decoded: as forms are behind the question mark, and before it as paths."""
        form = {"path": end, "query": begin}.get(self.form, text.find("?") + 1 or end)
        form = min(max(form, begin), end)
        path, query = text[begin:form], text[form:end]
        if "%" in path:
            path = unquote(path, errors=reading.ESCAPED)
        return (path + unquote_plus(query, errors=reading.ESCAPED)).replace("\0", reading.NUL)


class Agents(Cache):
    """Whether a pattern is in an agent, by its text."""

    def __init__(self, pattern):
        super().__init__()
        self.pattern = pattern

    def __missing__(self, agent):
        self[agent] = bool(self.pattern.search(agent))
        return self[agent]


class Addresses(Cache):
    """The address that is the user's, by what a line has in its place: one or several, maybe with ports. It is empty if
    none is known, or what is there isn't an address."""

    def __init__(self, form, is_last):
        super().__init__()
        self.form, self.place = form, -1 if is_last else 0

    def __missing__(self, text):
        several = text.replace(", ", ",").split(",")
        known = [address for address in several if address not in NOBODY]
        address = known[self.place] if known else ""
        ported = PORTED.fullmatch(address)
        address = ported[1].strip("[]") if ported else address
        is_word = len(several) == 1 and WORD.fullmatch(address)
        self[text] = address if is_word or self.form.fullmatch(address) else ""
        return self[text]


class Web(reading.Log):
    """The requests of a web server's logs."""

    has_times = True
    has_escapes = False
    address = re.compile(".*", re.S)  # any text, since its field is named

    def __init__(self, words, patterns):
        super().__init__(words)
        self.patterns, self.form = patterns, words.decode
        self.addresses = Addresses(self.address, words.forwarded == "last")
        self.status = words.status or "2xx"
        self.accepted = {str(status) for status in range(100, 600) if fits(str(status), self.status)}
        self.agents = Agents(words.agent_not) if words.agent_not else None
        self.sought = sought_by(words)
        self.met = set()  # those of them that a line has
        self.meanings = None

    def begin(self):
        super().begin()
        self.meanings = Meanings(self)
        self.note_files()

    def note_files(self):
        """Notes how the files are, if all are files: each process, and each reading, takes the same of them."""
        if not self.stats and all(name != "-" and os.path.isfile(name) for name in self.names):
            self.stats = {name: os.stat(name) for name in self.names}

    def readers(self):
        self.note_files()
        return max(1, min(reading.MOST, len(os.sched_getaffinity(0)) - 1)) if self.stats else 1

    def found(self):
        return {**super().found(), "matched": self.meanings.matched, "first": self.meanings.first, "met": self.met}

    def join(self, found):
        super().join(found)
        self.meanings.matched.update(*(part["matched"] for part in found))
        self.met.update(*(part["met"] for part in found))
        self.meanings.first = next(filter(None, (part["first"] for part in found)), None)

    def pieces_in(self, file):
        return self.blocks(file)

    def requests_in(self, first, block):
        """The requests of a piece of the log, whose lines begin with the first."""
        meanings = self.meanings
        addresses, users, times, requests, statuses, agents, others = self.columns_in(block)
        for at in reading.places(statuses, ""):
            self.leave_out(self.why_unread(others[at]), first + at, others[at])
        if self.met != self.sought.keys():
            met = {name for name, texts in (("user", users), ("agent", agents)) if any(texts)}
            self.met |= met & self.sought.keys()
        meanings.make_room()
        numbers = list(map(meanings.__getitem__, requests))
        for at in reading.places(numbers, 0):
            if statuses[at]:
                self.leave_out(meanings.why_none(requests[at]), first + at, requests[at])
        lines = range(first, first + len(numbers))
        accepted = map(self.accepted.__contains__, statuses)
        self.drop(f"status is not {self.status}", accepted, numbers, lines, requests)
        if self.agents is not None:
            self.agents.make_room()
            self.drop(BOT, map(operator.not_, map(self.agents.__getitem__, agents)), numbers, lines, agents)
        users = self.users_of(addresses, users, requests, meanings.users)
        if any(nobody in users for nobody in NAMELESS):
            self.drop(NO_USER, [user not in NAMELESS for user in users], numbers, lines, addresses)
        return lines, numbers, users, times, requests

    def columns_in(self, block):
        """The lines of a piece: addresses, users, times, requests, statuses, agents, and lines that can't be read. All
        else is then empty."""
        columns = self.columns_of(block.decode(errors=reading.ESCAPED))
        *_, statuses, _, others = columns
        for at in reading.places(statuses, ""):
            for column, value in zip(columns, self.read_apart(others[at])):
                column[at] = value
        return columns

    def columns_of(self, text):
        """These of a text, where lines that have to be read apart aren't read yet."""
        raise NotImplementedError

    def read_apart(self, text):
        """What a line that has to be read apart has in each column, or nothing."""
        return ()

    def why_unread(self, text):
        """Why a line can't be read."""
        raise NotImplementedError

    def time_of(self, block):
        """The first time in a piece that a line which is read has. Mostly it is the first line."""
        begin, found = 0, -math.inf
        while begin < len(block) and found == -math.inf:
            end = block.find(b"\n", 2 * begin) + 1 or len(block)
            _, _, times, *_ = self.columns_in(block[begin:end])
            begin, found = end, self.first_of(times)
        return found

    def users_of(self, addresses, users, requests, named):
        """The users: those that requests name, those that the server logged, or else the addresses."""
        if self.has_escapes and "\\" in "".join(users):
            users = [without_escapes(user) if "\\" in user else user for user in users]
        if any(nobody in users for nobody in NAMELESS):
            self.addresses.make_room()
            is_one, known = ADDRESS.fullmatch, self.addresses  # an address alone needs no look-up
            users = [
                user if user not in NAMELESS else text if is_one(text) else known[text]
                for text, user in zip(addresses, users)
            ]
        if "\0" in "".join(users):
            users = [user.replace("\0", reading.NUL) for user in users]
        return [named.get(request) or user for request, user in zip(requests, users)] if named else users

    def judge(self):
        """Stops if no request is left, or none matches the pattern of likes."""
        matched, first = self.meanings.matched, self.meanings.first
        idle = [f"--{op} {shlex.quote(found.pattern)}" for op, found in self.patterns.items() if op not in matched]
        if "like" not in matched and first:
            raise Fault(f"{self}: no request matches {' or '.join(idle)}: {FRONT}, such as {shown(first)}")
        self.idle = [f"no request matches {option}: {FRONT}" for option in idle] if matched else []
        self.idle += [why for name, why in self.sought.items() if name not in self.met]
        if not self.has_requests and not self.left_out:
            raise Fault(f"{self}: no request: the log is empty")
        super().judge()


class Combined(Web):
    """The requests of a web server's logs in the combined format, or one of its kin."""

    has_escapes = True
    address = ADDRESS

    def __init__(self, words, patterns):
        super().__init__(words, patterns)
        agent = AGENT if self.agents is not None else "()"
        # Lines whose users have no space in their names, by what is before the address in a piece's first line. Any
        # other line is the last group, and all else is empty.
        self.lines = {
            (has_syslog, has_host): re.compile(
                rf'(?:{SYSLOG * has_syslog}{HOST * has_host}{ADDRESSES} - ([^ "\n]+|"") '
                rf"{ASKED}{agent}[^\n]*|([^\n]*))\n"
            )
            for has_syslog, has_host in itertools.product((False, True), repeat=2)
        }
        # Any line of these formats.
        self.line = re.compile(rf'(?:{SYSLOG})?(?:{HOST})?{ADDRESSES} - ((?:[^"\\\n]|\\.)+?|"") {ASKED}{agent}')

    def columns_of(self, text):
        front = re.match(rf"({SYSLOG})?({HOST})?", text)
        columns = list(map(list, zip(*self.lines[bool(front[1]), bool(front[2])].findall(text))))
        *_, statuses, _, others = columns
        if text.count(ASKS) > len(statuses) - statuses.count("") + "\n".join(others).count(ASKS):
            for found in TWO.finditer(text):
                at = text.count("\n", 0, found.start())
                for column in columns:
                    column[at] = ""
                others[at] = found[0]
        return columns

    def last(self, line):
        """The piece of a last line. What is cut within quotes may be cut within a bot's name."""
        whole = super().last(line)
        *_, statuses, _, _ = self.columns_in(whole)
        is_cut = ESCAPE.sub(b"", line).count(b'"') % 2 == 1
        return (TORN, reading.shown_of(line)) if is_cut and statuses[0] else whole

    def read_apart(self, text):
        match = None if has_two(text) else self.line.match(text)
        return match.groups("") if match and (match[2] == "-" or " - " not in f" {match[2]} ") else ()

    def why_unread(self, text):
        if not has_two(text) and BEHIND.match(text):
            return NO_FRONT
        return TORN if has_two(text) or LIKE_ONE.match(text) else JUNK


def has_two(text):
    """Whether a line is two, of which the first was cut."""
    return text.count(ASKS) > 1 and bool(TWO.match(text))


class Shapes(Cache):
    """The name of a field for each column in objects that have fields of these names, or none if it has to be looked
    for under several names or in objects, other than a request that is one."""

    def __init__(self, columns):
        super().__init__()
        self.columns = columns

    def __missing__(self, names):
        paths = [[path for path in several if path[0] in names] for several in self.columns]
        plain = [[path[0] for path in several if len(path) == 1] for several in paths]
        objects = {path[0] for several in paths for path in several if len(path) > 1}
        is_flat = all(len(several) < 2 for several in plain) and objects <= {*plain[REQUEST]}
        self[names] = [several[0] if several else None for several in plain] if is_flat else None
        return self[names]


class Json(Web):
    """The requests of a web server's logs that have a JSON object in each line."""

    def __init__(self, words, patterns):
        super().__init__(words, patterns)
        paths = {name: [path.split(".") for path in text.split()] for name, text in FIELDS.items()}
        # A dot may also be in a field's name.
        paths |= {name: [[path], path.split(".")] for name, path in (words.fields or {}).items()}
        self.fields = list(paths.values())
        self.shapes = Shapes(self.fields)

    def columns_of(self, text):
        self.shapes.make_room()
        lines = text.split("\n")[:-1]
        values = zip(FIELDS, zip(*map(self.row_of, lines)))
        columns = [texts_of(column, all_of if name == "address" else text_of) for name, column in values]
        if HALF.search(text):
            columns = [list(map(without_halves, column)) for column in columns]
        times, addresses, users, requests, methods, uris, statuses, agents = columns
        if "" in requests:
            asked = zip(requests, methods, uris)
            requests = [request or f"{method} {uri}" for request, method, uri in asked]
        columns = addresses, users, times, requests, statuses, agents, [""] * len(lines)
        for at in [at for at, status in enumerate(statuses) if len(status) != 3 or requests[at] == " "]:
            for column in columns:
                column[at] = ""
            columns[-1][at] = lines[at]
        return columns

    def row_of(self, line):
        """What a line has for each of the fields."""
        found = json_of(line)
        if type(found) is not dict:
            return BLANK
        if names := self.shapes[tuple(found)]:
            row = list(map(found.get, names, BLANK))
            if type(row[REQUEST]) is not dict:
                return row
        return [value_at(found, paths) for paths in self.fields]

    def why_unread(self, text):
        is_object = isinstance(json_of(text), dict)
        return NO_FIELD if is_object else TORN if text.lstrip().startswith("{") else NO_OBJECT


def json_of(line):
    """What a line of JSON says, with what syslog puts before it or without, or none if it is none."""
    try:
        if line.startswith("{"):
            found, end = DECODER.raw_decode(line)
            return found if end == len(line) or not line[end:].strip(" \t\r") else None
        front = PREFIX.match(line)
        return json.loads(line[front.end() :] if front else line)
    except (ValueError, RecursionError):
        return None


def value_at(found, paths):
    """What an object has at the first of these paths where it has a text or a number."""
    for first, *rest in paths:
        value = found.get(first)
        for name in rest:
            value = value.get(name) if isinstance(value, dict) else None
        if type(plain(value)) in (str, int, float):
            return value
    return ""


def plain(value):
    """A value, of a list the first."""
    return value[0] if isinstance(value, list) and value else value


def text_of(value):
    """A value as text. What is no text and no number is empty."""
    value = plain(value)
    return str(value) if type(value) in (str, int, float) else ""


def all_of(value):
    """A value as text, of a list all."""
    return ", ".join(map(text_of, value)) if isinstance(value, list) else text_of(value)


def texts_of(values, as_text):
    """Values as texts."""
    if set(map(type, values)) == {str}:
        return list(values)
    return [value if type(value) is str else as_text(value) for value in values]


def without_halves(text):
    """A text with what is no character as it is escaped in addresses."""
    return text if text.isascii() else text.encode(errors="surrogatepass").decode(errors=reading.ESCAPED)


def sought_by(words):
    """Fields that options need, and what is told if no line has one."""
    field = (words.fields or {}).get("user")
    users = {"user": f"no line has a user in the field {shown(field)} (--fields)"} if field else {}
    agents = {"agent": "no line has an agent, so --agent-not leaves out nothing"} if words.agent_not else {}
    return {**users, **agents}


def fits(status, forms):
    """Whether a status is one of several, in which x is any digit."""
    return any(all(one in (digit, "x") for one, digit in zip(form, status)) for form in forms.split(","))


def statuses(text):
    """A type for argparse: statuses, in which x is any digit."""
    if not re.fullmatch(r"[1-5][0-9x]{2}(,[1-5][0-9x]{2})*", text):
        raise argparse.ArgumentTypeError(f"{shown(text)} is not a list of statuses such as 2xx,304")
    return text


def fields(text):
    """A type for argparse: names of fields in a JSON log."""
    found = dict(part.partition("=")[::2] for part in text.split(","))
    if len(found) < len(text.split(",")):
        raise argparse.ArgumentTypeError(f"{shown(text)} has a name twice")
    if not all(name in FIELDS and value for name, value in found.items()):
        raise argparse.ArgumentTypeError(f"{shown(text)} is not NAME=FIELD,.. with names of {', '.join(FIELDS)}")
    return found


def expression(text):
    """A type for argparse: a regular expression."""
    try:
        return re.compile(text)
    except re.error as error:
        raise argparse.ArgumentTypeError(f"{shown(text)} is not a regular expression: {error}") from None


def page_group(found):
    """The group of a regular expression that is the page: the one named so, or else the first that isn't the user."""
    numbers = (number for number in range(1, found.groups + 1) if number != found.groupindex.get("user"))
    return found.groupindex.get("page") or next(numbers, None)


def pattern(text):
    """A regular expression with a group for the page."""
    found = expression(text)
    if page_group(found) is None:
        raise argparse.ArgumentTypeError(f"{shown(text)} has no group for the page, as in 'POST /like(/\\S*)'")
    return found


def add_options(parser):
    """Adds the options for web servers' logs."""
    combined = """LOG is a web server's log in the combined, the common or the vhost_combined format, with what syslog
        puts before a line or without"""
    parser.add_argument("--combined", action="store_true", help=combined)
    from_json = """LOG has a JSON object in each line, as nginx, Caddy and Traefik write them, with what syslog puts
        before a line or without"""
    parser.add_argument("--from-json", action="store_true", help=from_json)
    names = f"""with --from-json, the names of fields, such as address=client.ip,user=login: of {", ".join(FIELDS)}.
        A dot is in a name, or leads into an object (default the names that these servers give them)"""
    parser.add_argument("--fields", metavar="NAME=FIELD,..", type=fields, help=names)
    status = """of a web server's log, which statuses count, such as 2xx,304 (default 2xx: a redirect to a login page is
        no like)"""
    parser.add_argument("--status", metavar="STATUSES", type=statuses, help=status)
    agent = "leave out requests whose agent has this regular expression, such as '(?i)bot|crawl|spider'"
    parser.add_argument("--agent-not", metavar="PATTERN", type=expression, help=agent)
    forwarded = "which of several addresses in a line is the user: first or last (default first)"
    parser.add_argument("--forwarded", metavar="WHICH", choices=("first", "last"), help=forwarded)
    form = """path or query: of a web server's log, how groups are decoded. In a query, + is a space (default query for
        what stands behind the first question mark, and path for what stands before it)"""
    parser.add_argument("--decode", metavar="FORM", choices=("path", "query"), help=form)
