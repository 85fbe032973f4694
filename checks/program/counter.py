"""Counts the likes of a log, as anyone would write it: one thread, a regular expression, some thirty lines.

usage: counter.py KIND LOG FOLDER, where KIND is combined, syslog, json or csv. FOLDER gets pages.csv and users.csv.
"""

import collections
import csv
import json
import re
import sys
import urllib.parse

FRONT = r"(?:[^ :]+:\d+ (?!- ))?([^ ,\0]+)(?:, [^ ]+)* - (.+?) "
REST = r'\[[^][]*\] "((?:[^"\\]|\\.)*)" (2\d\d) \S+ "[^"]*" "((?:[^"\\]|\\.)*)"'
LINE = {"combined": re.compile(FRONT + REST), "syslog": re.compile(r"\w+ +\d+ [\d:]+ \S+ \S+: " + FRONT + REST)}
LIKE, LOOK = re.compile(r"POST /like(/articles/[^? ]*)"), re.compile(r"GET (/articles/[^? ]*)")
ESCAPE = re.compile(rb"\\(?:x([0-9a-fA-F]{2})|(.))")
BOT = re.compile("(?i)bot|crawl")


def text(data):
    """Bytes as text: what isn't UTF-8 as addresses have it."""
    told = data.decode(errors="surrogateescape")
    return re.sub("[\udc80-\udcff]", lambda it: f"%{ord(it[0]) - 0xDC00:02X}", told) if not told.isascii() else told


def plain(logged):
    """What was sent, of what a server logged."""
    if "\\" not in logged:
        return logged
    return text(ESCAPE.sub(lambda it: bytes.fromhex(it[1].decode()) if it[1] else it[2], logged.encode()))


def web(kind, name):
    """The requests of a web server's log: address, user, request, agent."""
    with open(name, "rb") as log:
        for line in log:
            if kind == "json":
                it = json.loads(line) if line.endswith(b"}\n") else {"status": 0}
                if 200 <= it["status"] < 300:
                    yield it["remote_addr"], it["remote_user"] or "-", it["request"], it["http_user_agent"]
            elif (it := LINE[kind].match(text(line))) and " - " not in it[2] and len(line) < 1 << 20:
                yield it[1], plain(it[2]), plain(it[3]), it[5]


def requests(kind, name):
    """The likes and looks: user, page, whether it is a like."""
    if kind == "csv":
        with open(name, newline="", encoding="utf-8-sig") as log:
            csv.field_size_limit(1 << 30)
            words = {"gefällt mir": True, "angesehen": False}
            rows = (row for row in csv.reader(log, delimiter=";") if len(row) == 4)
            yield from ((user, page, words[op]) for _, op, user, page in rows if page and op in words)
        return
    for address, user, request, agent in web(kind, name):
        like = LIKE.match(request)
        page = like or LOOK.match(request)
        user = address if user == "-" else user
        if page and user != "-" and not BOT.search(agent):
            yield user, text(urllib.parse.unquote_to_bytes(page[1])), bool(like)


def write(name, head, rows):
    with open(name, "w", newline="", encoding="utf-8") as file:
        csv.writer(file, lineterminator="\n").writerows([head, *rows])


def main():
    kind, name, folder = sys.argv[1:]
    likes, last = collections.Counter(), {}
    for user, page, is_like in requests(kind, name):
        likes[page] += is_like
        if is_like:
            last[user] = page
    order = sorted(likes.items(), key=lambda it: (-it[1], it[0].encode()))
    write(f"{folder}/pages.csv", ["rank", "page", "likes"], ([rank, *row] for rank, row in enumerate(order, 1)))
    write(f"{folder}/users.csv", ["user", "page"], last.items())


if __name__ == "__main__":
    main()
