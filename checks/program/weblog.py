"""Logs of web servers, and of a spreadsheet, drawn with a fixed seed, and the right counts of them.

usage: weblog.py LINES [FORM] writes one to standard output: combined (the default), syslog, json or csv
"""

import collections
import itertools
import json
import random
import sys
import urllib.parse

WORDS = 'news sport weather café čaj чай καφές קפה شاي चाय 天気 お茶 커피 😀 tea,milk say"no" 100% c++é a\\b'.split()
AGENTS = [
    "Mozilla/5.0 (X11; Linux x86_64) AppleWebKit/537.36 (KHTML, like Gecko) Chrome/119.0.0.0 Safari/537.36",
    "Mozilla/5.0 (iPhone; CPU iPhone OS 17_1 like Mac OS X) AppleWebKit/605.1.15 Version/17.1 Mobile/15E148",
    'curl/8.4.0 \\"quoted\\"',
]
BOT = "Mozilla/5.0 (compatible; Googlebot/2.1; +http://www.google.com/bot.html)"

# What is no like and no look: requests that no pattern matches, and lines of another format.
OTHERS = ["GET /style.css HTTP/1.1", "HEAD /articles/1 HTTP/1.1", "-", "", r"\x16\x03\x01", r'GET /\"quoted\" HTTP/1.1']
JUNK = ["last message repeated 2 times", "", '192.0.2.1 - - "POST /like/articles/1 HTTP/1.1" 200', "\x00\x00", "\udcff"]

# Lines of the format that can't be read: they are cut, or have a quote or a time that the server would not write.
TORN = [
    '192.0.2.1 - ann [27/Nov/2026:09:00:01 +0000] "POST /like/artic',
    '192.0.2.1 - Ann Lee [27/Nov/2026:09:00:01 +0000] "POST /like/articles/1 HTTP/1.1" ',
    '192.0.2.1 - ann [27/Nov/2026:09:00:01 +0000] "POST /like/articles/"1" HTTP/1.1" 200 2',
    '192.0.2.1 - ann [27/Nov/2026:09:00:01 +0000] "POST /like/articles/1 HTTP/1.1" 20',
]

# What stands before the time in lines that name no address and user.
FRONTS = ["web-1 10.0.0.1 - ann ", "10.0.0.1 ident ann ", "10.0.0.1 ann ", "web-1 - 10.0.0.1 - - "]
FRONTS += ["\0" * 300 + "10.0.0.1 - ann "]

# The most bytes in a line.
LONGEST = 1 << 20

# The statuses of answers that accept a request, and of others.
ACCEPTED, REFUSED = [200, 201, 204, 206], [301, 302, 304, 400, 403, 404, 429, 500, 503]

# Why lines are left out, and how many in a thousand of each kind there are.
NOBODY, NO_FRONT = "no user and no address", "no address, dash and user before the time"
STATUS, NO_PATTERN, AGENT = "status is not 2xx", "no pattern matches", "the agent matches --agent-not"
NO_FORMAT, CUT = "not of the combined format", "a log line that can't be read"
LONG = f"a line of more than {LONGEST} bytes"
KINDS = {"like": 780, "look": 198, STATUS: 8, NO_PATTERN: 5, NOBODY: 2, NO_FRONT: 2, NO_FORMAT: 2, CUT: 1}

# How many lines there are for one that is too long.
RARE = 400000

# How hexed writes a space.
SPACE = "\\x20"


def hexed(text):
    """A text as Apache logs it."""
    plain = {byte: chr(byte) for byte in range(33, 127) if chr(byte) not in '"\\'}
    return "".join(plain.get(byte, f"\\x{byte:02x}") for byte in text.encode(errors="surrogateescape"))


def draw_pages(draw, count):
    """So many pages, each with the ways in which requests write it: in many scripts, long ones, some bytes, queries."""
    pages = {}
    for number in range(count):
        page = f"/articles/{number}"
        if number % 7 == 3:
            page += f"/{draw.choice(WORDS)}"
        if number % 100 == 50:
            page += "/long" * 20
        if number % 500 == 250:
            page += "\udcff"
        ways = [urllib.parse.quote(page, errors="surrogateescape")]
        if "%" not in page:
            ways.append(hexed(page))
        if "+" in page:
            ways.append(urllib.parse.quote(page, safe="/+", errors="surrogateescape"))
        if number % 3 == 0:
            ways.append(f"{ways[0]}?utm_source=mail&n={number}")
        pages[page.replace("\udcff", "%FF")] = ways
    return pages


def named(number):
    """The name of a user. One in 30 has spaces, which a server doesn't escape, and some have more than that."""
    if number % 100 == 0:
        return f"zoë{number}"
    if number % 30 == 1:
        return f"Ann {number} Lee"
    if number % 300 == 4:
        return f'Bo [{number}] "x [y'
    return f"user{number}"


def draw_users(count):
    """So many users, each with the host, address and name in its lines: those with a name, and those that an address
    tells apart. Some are at a server that logs its own name too, and the requests of some were forwarded."""
    users = {}
    for number in range(count):
        address = f"10.{number >> 16}.{number >> 8 & 255}.{number & 255}"
        if number % 4 == 3:
            address = f"2001:db8::{number:x}"
        name = "-" if number % 4 > 1 else named(number)
        host = "example.org:443 " if number % 50 > 47 else ""
        others = ", 198.51.100.7, 10.0.0.1" if number % 40 == 7 else ""
        users[address if name == "-" else name] = host, address + others, name
    return users


class Combined:
    """Lines in the combined format."""

    name, begin = "combined", ""
    words = "--combined --like 'POST /like(/articles/[^? ]*)' --look 'GET (/articles/[^? ]*)'"

    def line(self, user, time, request, status, agent):
        host, address, name = user
        front = f"{host}{address} - {hexed(name).replace(SPACE, ' ')} "
        return f'{front}[{time}] "{request}" {status} 512 "https://example.org/" "{agent}"'

    def wrong(self, kind, number):
        """A line that isn't read, of a kind."""
        if kind == LONG:
            return "\0" * (LONGEST + number % 1000) + TORN[1]
        if kind == NO_FRONT:
            request = '[27/Nov/2026:09:00:01 +0000] "POST /like/articles/1 HTTP/1.1" 200 2 "-" "-"'
            return FRONTS[number % len(FRONTS)] + request
        lines = JUNK if kind == NO_FORMAT else TORN
        return lines[number % len(lines)]


class Syslog(Combined):
    """Lines in the combined format behind what syslog puts before them."""

    name = "syslog"

    def line(self, *line):
        return f"Nov 27 09:00:{len(line[2]) % 60:02} web-1 nginx[{len(line[4])}]: {super().line(*line)}"

    def wrong(self, kind, number):
        return super().wrong(kind if kind == LONG else NO_FORMAT, number)


class Json(Combined):
    """A JSON object in each line."""

    name = "json"
    words = Combined.words.replace("--combined", "--from-json")

    def line(self, user, time, request, status, agent):
        _, address, name = user
        request = request if "\\x" not in request else "GET /other HTTP/1.1"
        found = {"time_local": time, "remote_addr": address.split(",")[0], "remote_user": "" if name == "-" else name}
        return json.dumps({**found, "request": request, "status": status, "http_user_agent": agent}, ensure_ascii=False)

    def wrong(self, kind, number):
        lines = ["", "not JSON", '{"time_local": "27/Nov', '{"status": 200']
        return "x" * (LONGEST + 1) if kind == LONG else lines[number % len(lines)]


class Csv(Combined):
    """CSV of a spreadsheet: semicolons, a byte order mark, and words of its language."""

    name, begin = "csv", "\ufeffZeit;Aktion;Wer;Seite\n"
    words = "--columns Aktion,Wer,Seite --like 'gefällt mir' --look angesehen"

    def line(self, user, time, request, status, agent):
        _, address, name = user
        method, path = [*request.split(" "), ""][:2]
        page = urllib.parse.unquote(path.removeprefix("/like").split("?")[0])
        is_known = status in ACCEPTED and page.startswith("/articles") and not set(page) & {"\ufffd", "\\"}
        action = {"POST": "gefällt mir", "GET": "angesehen"}.get(method, "geteilt") if is_known else "geteilt"
        fields = [time, action, address.split(",")[0] if name == "-" else name, page]
        return ";".join('"' + field.replace('"', '""') + '"' if set(field) & set(';"') else field for field in fields)

    def wrong(self, kind, number):
        lines = ["", "a;b", "a;like;c;d;e", "27.11.2026;gefällt mir;ann;"]
        return "x" * (LONGEST + 1) if kind == LONG else lines[number % len(lines)]


class Log:
    """What is right to say of a drawn log."""

    def __init__(self, draw, lines=3000000, users=200000, pages=16437, form=Combined, has_bots=False):
        self.draw, self.lines, self.form, self.has_bots = draw, lines, form(), has_bots
        self.pages, self.all_users = draw_pages(draw, pages), draw_users(users)
        self.users = {}  # in the order in which they appear
        self.likes, self.last = collections.Counter(), {}
        self.looks = 0
        self.left_out = {}

    def drawn(self):
        """The kind, user and page of each line. Each page is there, and the popular ones often."""
        users, pages = list(self.all_users), list(self.pages)
        self.draw.shuffle(pages)
        weights = list(itertools.accumulate(1 / rank for rank in range(1, len(pages) + 1)))
        yield from (("like", self.draw.choice(users), page) for page in pages)
        left = self.lines - len(pages)
        while left:
            some = min(left, 100000)
            kinds = self.draw.choices(list(KINDS), list(KINDS.values()), k=some)
            liked = self.draw.choices(pages, cum_weights=weights, k=some)
            yield from zip(kinds, self.draw.choices(users, k=some), liked)
            left -= some

    def write(self, file):
        """Writes the log, and counts."""
        spelled = {page: [f"{spelling} HTTP/1.1" for spelling in ways] for page, ways in self.pages.items()}
        file.write(self.form.begin)
        for number, (kind, user, page) in enumerate(self.drawn(), 1):
            kind = LONG if number % RARE == RARE // 2 else kind
            way = spelled[page][number % len(spelled[page])]
            request, status = f"GET {way}" if kind == "look" else f"POST /like{way}", ACCEPTED[number % len(ACCEPTED)]
            if kind == NO_PATTERN:
                request = OTHERS[number % len(OTHERS)]
            if kind == STATUS:
                status = REFUSED[number % len(REFUSED)]
            if kind in (LONG, NO_FRONT, NO_FORMAT, CUT):
                request = self.form.wrong(kind, number)
                file.write(f"{request}\n")
            else:
                seconds = number // 40
                time = f"27/Nov/2026:{seconds // 3600:02}:{seconds // 60 % 60:02}:{seconds % 60:02} +0000"
                whose = ("", "-", "-") if kind == NOBODY else self.all_users[user]
                agent = BOT if self.has_bots and number % 50 == 0 else AGENTS[number % 3]
                file.write(f"{self.form.line(whose, time, request, status, agent)}\n")
                request = whose[1] if kind == NOBODY else request
            if kind in ("like", "look"):
                self.count(kind, user, page)
            else:
                self.left_out.setdefault(kind, [0, number, request])[0] += 1

    def count(self, kind, user, page):
        self.users.setdefault(user)
        if kind == "like":
            self.likes[page] += 1
            self.last[user] = page
        else:
            self.looks += 1
            self.likes[page] += 0


if __name__ == "__main__":
    sys.stdout.reconfigure(encoding="utf-8", errors="surrogateescape")
    FORMS = {form.name: form for form in (Combined, Syslog, Json, Csv)}
    Log(random.Random(1), int(sys.argv[1]), form=FORMS[(sys.argv[2:] or ["combined"])[0]]).write(sys.stdout)
