"""Small logs with what real ones have, and what `tools/log` has to say of each."""

import collections
import csv
import gzip
import lzma
import random
import shutil
import subprocess

import pages

WEB = "--combined --like 'POST /like(/[^? ]*)'"
JSON = WEB.replace("--combined", "--from-json")
REQUEST = '"POST /like/{} HTTP/1.1" 200 2 "-" "{}"'


def line(front, page="a", second=0, agent="Mozilla", status=200):
    """A line in the combined format."""
    time = f"[27/Nov/2026:{9 + second // 3600:02}:{second // 60 % 60:02}:{second % 60:02} +0000]"
    return f"{front} {time} {REQUEST.format(page, agent)}\n".replace(" 200 ", f" {status} ")


def entry(user, page, second):
    """A line of JSON."""
    return f'{{"ts": {1795770000 + second}, "request": "POST /like/{page}", "user_id": "{user}", "status": 200}}\n'


SYSLOG = "Nov 27 15:00:{:02} web-1 nginx[812]: "
RFC = "<190>1 2026-11-27T15:00:{:02}.123Z web-1 nginx - - - "
NO_FRONT, LONG = "no address, dash and user before the time", "a line of more than 1048576 bytes"
NULS = r"'\x00\x00\x00\x00"

# Logs by their names, the options, likes by page, last likes by user, and lines that are told.
CASES = {
    "syslog": (
        {
            "a.log": "".join(SYSLOG.format(n) + line("192.0.2.1 - -") for n in range(3))
            + "".join(RFC.format(n) + line("192.0.2.2 - bob", "b") for n in range(3))
            + RFC.format(3) + "\ufeff" + line("192.0.2.1 - -")
        },
        WEB,
        {"/a": 4, "/b": 3},
        {"192.0.2.1": "/a", "bob": "/b"},
        ["refused 0 of 7 requests"],
    ),
    "syslog and names that look like it": (
        {
            "a.log": SYSLOG.format(1) + line("1.1.1.1 - -") + "15:00:00 web-1 nginx: " + line("1.1.1.1, 2.2.2.2 - x - root"),
            "b.log": RFC.format(1) + line("1.1.1.1 - -") + RFC.format(1)[:-2] + "[m] " + line("1.1.1.1 - [x] y - root")
            + RFC.format(1)[:-2] + r'[m x="\]"][y z="]"] ' + line("1.1.1.2 - -"),
        },
        WEB,
        {"/a": 3},
        {"1.1.1.1": "/a", "1.1.1.2": "/a"},
        [f"left out 2, {NO_FRONT}: the first is line 2 of a.log, '15:00:00 web-1 nginx: 1.1.1.1, 2.2.2.2 - x - root"],
    ),
    "forwarded": (
        {"a.log": line("10.0.0.1, 203.0.113.7 - bob") + line("10.0.0.1, 203.0.113.7 - -", "b")},
        WEB,
        {"/a": 1, "/b": 1},
        {"bob": "/a", "10.0.0.1": "/b"},
        [],
    ),
    "forwarded last": (
        {"a.log": line("10.0.0.1,203.0.113.7 - -", "b")},
        f"{WEB} --forwarded last",
        {"/b": 1},
        {"203.0.113.7": "/b"},
        [],
    ),
    "nobody": (
        {
            "a.log": "".join(map(line, ["- - -", "unix: - -", "1.1.1.1 frank bob", "x 1.1.1.1 - bob"]))
            + line("\0h.org:80 1.1.1.1 - bob") + line("1.1.1.1 - -")
        },
        WEB,
        {"/a": 1},
        {"1.1.1.1": "/a"},
        ["left out 2, no user and no address: the first is line 1, ", f"left out 3, {NO_FRONT}: the first is line 3, "],
    ),
    "ports": (
        {
            "a.log": line("1.1.1.1:5678 - -") + line("[2001:db8::7]:443 - -") + line("h.org:443 [::1]:80, 9.9.9.9 - -")
            + line("1.1.1.1:5679 - -", "b") + line("2001:db8::7:443 - -")
        },
        WEB,
        {"/a": 4, "/b": 1},
        {"1.1.1.1": "/b", "2001:db8::7": "/a", "::1": "/a", "2001:db8::7:443": "/a"},
        [],
    ),
    "ports of names and zones": (
        {"a.log": "".join(line(f"{front} - -") for front in ("[fe80::1%eth0]:80", "h.org:8080", "x.org.:1, 1.1.1.1:2"))},
        WEB,
        {"/a": 3},
        dict.fromkeys(("fe80::1%eth0", "h.org", "x.org."), "/a"),
        [],
    ),
    "nobody by other words": (
        {
            "a.log": line('1.1.1.1 - ""') + line("unknown, 1.1.1.2 - -") + line("-, 1.1.1.3 - -", "b")
            + line("unknown - -") + line("-, unknown - -") + line('h.org:80 1.1.1.4 - ""')
        },
        WEB,
        {"/a": 3, "/b": 1},
        {"1.1.1.1": "/a", "1.1.1.2": "/a", "1.1.1.3": "/b", "1.1.1.4": "/a"},
        ["left out 2, no user and no address: the first is line 4, "],
    ),
    "a user named unknown": (
        {"a.log": line("1.1.1.1 - unknown") + line("unknown - unix:", "b") + line("unix: - -") + line("unknown - -", "c")},
        WEB,
        {"/a": 1, "/b": 1},
        {"unknown": "/a", "unix:": "/b"},
        ["left out 2, no user and no address: the first is line 3, 'unix:'\n"],
    ),
    "fronts that look like addresses": (
        {
            "a.log": "".join(
                line(f"{front} - -") for front in (
                    "15:00:01, 192.0.2.1", "2026-11-27T15:00:01Z,192.0.2.1", "2026-11-27, 192.0.2.1", "INFO, 192.0.2.1",
                    "2026-11-27", "15:00:01", "15:00:01.123", "1733000000.123", '"192.0.2.1, 10.0.0.1"', "unknown:80",
                    "web-1,192.0.2.1", "for=192.0.2.1", "192.0.2", "2026-11-27T15:00:01.123Z",
                )
            ) + line("INFO, 192.0.2.1 - ann", "b")
        },
        WEB,
        {"/b": 1},
        {"ann": "/b"},
        ["left out 14, no user and no address: the first is line 1, '15:00:01, 192.0.2.1'\n"],
    ),
    "a front before forwarded last": (
        {"a.log": line("15:00:01, 192.0.2.1 - -") + line("x,h.org - -") + line("x, localhost - -")},
        f"{WEB} --forwarded last",
        {"/a": 3},
        {"192.0.2.1": "/a", "h.org": "/a", "localhost": "/a"},
        [],
    ),
    "addresses": (
        {
            "a.log": "".join(
                line(f"{address} - -") for address in (
                    "192.0.2.1", "2001:db8::7", "::1", "::ffff:192.0.2.1", "2001:db8:1:2:3:4:5:6", "fe80::1%eth0",
                    "0:0:0:0:0:ffff:192.0.2.1", "[2001:db8::8]", "host-1.example.org", "h_2.example.org.", "localhost",
                    "1.2.0.192.in-addr.arpa", "web-1", "f4a2c8d0", "17330021",
                )
            )
        },
        WEB,
        {"/a": 15},
        dict.fromkeys(
            "192.0.2.1 2001:db8::7 ::1 ::ffff:192.0.2.1 2001:db8:1:2:3:4:5:6 fe80::1%eth0 0:0:0:0:0:ffff:192.0.2.1 "
            "[2001:db8::8] host-1.example.org h_2.example.org. localhost 1.2.0.192.in-addr.arpa web-1 f4a2c8d0 "
            "17330021".split(),
            "/a",
        ),
        [],
    ),
    "two in a line": (
        {
            "a.log": line("x - ann")[:-9] + line("x - bob", "b") + "cut\n" + line("x - Eve Lee")[:-1]
            + line("x - bob", "b") + line("x - ann", "c", agent='[x] \\"y')
        },
        WEB,
        {"/c": 1},
        {"ann": "/c"},
        ["left out 2, a log line that can't be read: the first is line 1, 'x - ann "],
    ),
    "a last line that is cut": (
        {
            "a.log": line("x - ann", agent='y \\"z')[:-1],
            "b.log": line("x - ann", "b") + line("x - bob", agent='Google \\" bot')[:-2],
            "c.log": line("x - eve").split('-" "')[0],
            "d.log": 'say "x',
        },
        WEB,
        {"/a": 1, "/b": 1},
        {"ann": "/b"},
        [
            "left out 2, a log line that can't be read: the first is line 1 of c.log, 'x - eve ",
            "left out 1, not of the combined format: the first is line 1 of d.log, ",
        ],
    ),
    "the newest first": (
        {
            "web.log": line("x - ann", "new", 7200),
            "web.log.1": line("x - ann", "old", 3600),
            "web.log.2": line("x - ann", "oldest"),
        },
        WEB,
        {"/new": 1, "/old": 1, "/oldest": 1},
        {"ann": "/new"},
        ["taken in the order of their first times: web.log.2, web.log.1, web.log\n"],
    ),
    "one second in two logs": (
        {"web.log": line("x - ann", "new", 60), "web.log.1": line("x - ann", "old") + line("x - ann", "late", 60)},
        WEB,
        {"/new": 1, "/old": 1, "/late": 1},
        {"ann": "/new"},
        ["taken in the order of their first times: web.log.1, web.log\nrefused 0 of 3 requests\n"],
    ),
    "many logs": (
        {f"{number}.log": line("x - ann", str(number), 20 - number) for number in range(20)},
        WEB,
        {f"/{number}": 1 for number in range(20)},
        {"ann": "/0"},
        ["first times: 19.log, 18.log, 17.log, 16.log, 15.log, 14.log, 13.log, .., 0.log\n"],
    ),
    "the newest first in one log": (
        {"a.log": line("x - ann", "new", 7200) * 3000 + line("x - bob", "old", 3599) * 3000},
        WEB,
        {"/new": 3000, "/old": 3000},
        {"ann": "/new", "bob": "/old"},
        ["a.log: the times fall back by 1 hour before line 3", ", so last likes may be old: name logs one by one"],
    ),
    "a few old lines in one log": (
        {"a.log": "".join(line("x - ann", "new", 7200) for _ in range(1990)) + line("x - ann", "old") * 9},
        WEB,
        {"/new": 1990, "/old": 9},
        {"ann": "/old"},
        ["a.log: the times fall back by 2 hours before line 1991, so last likes may be old"],
    ),
    "times of other forms": (
        {
            "web.log": line("x - ann", "new").replace("27/Nov/2026:09:00:00 +0000", "2026-11-27T09:00:00+00:00"),
            "web.log.1": line("x - ann", "old").replace("27/Nov/2026:09:00:00 +0000", "2026-11-26T09:00:00+00:00"),
            "web.log.2": line("x - ann", "oldest").replace("27/Nov/2026:09:00:00 +0000", "1795000000.123"),
        },
        WEB,
        {"/new": 1, "/old": 1, "/oldest": 1},
        {"ann": "/new"},
        ["taken in the order of their first times: web.log.2, web.log.1, web.log\n"],
    ),
    "a first line that is left out": (
        {
            "a.log": line("x y ann").replace("2026", "2030") + line("x - ann", "old"),
            "b.log": line("x - ann", "new", 1) + "".join(line("x - bob", "b", second) for second in range(2, 4002)),
        },
        WEB,
        {"/old": 1, "/new": 1, "/b": 4000},
        {"ann": "/new", "bob": "/b"},
        [f"left out 1, {NO_FRONT}: the first is line 1 of a.log, 'x y ann "],
    ),
    "a first row that is left out": (
        {
            "a.csv": "op,user,page,t\nlike,ann,x,2030-01-01,y\nlike,ann,old,2026-11-27 09:00\n",
            "b.csv": "op,user,page,t\nlike,ann,new,2026-11-27 09:01\n" + "like,bob,b,2026-11-27 09:02\n" * 9000,
        },
        "--time t",
        {"old": 1, "new": 1, "b": 9000},
        {"ann": "new", "bob": "b"},
        ["left out 1, more fields than the header: the first is line 2 of a.csv, "],
    ),
    "JSON behind lines without a time": (
        {
            "a.log": "starting worker process\n" * 400 + entry("ann", "old", 1)
            + "".join(entry("bob", "b", second) for second in range(2, 3002)),
            "b.log": entry("ann", "new", 100) + "".join(entry("eve", "b", 100 + n // 10) for n in range(3000)),
        },
        JSON,
        {"/old": 1, "/new": 1, "/b": 6000},
        {"ann": "/new", "bob": "/b", "eve": "/b"},
        ["left out 400, not a JSON object: the first is line 1 of a.log, "],
    ),
    "a time in a name": (
        {
            "a.log": line("x - bob [27/Nov/2030:00:00:00 +0000]")
            + "".join(line("x - ann", "a", second) for second in range(4000)),
            "b.log": "".join(line("x - ann", "b", second) for second in range(4001)),
        },
        WEB,
        {"/a": 4001, "/b": 4001},
        {"bob [27/Nov/2030:00:00:00 +0000]": "/a", "ann": "/b"},
        ["the times of a.log and 1 more overlap: their requests are merged by time\n"],
    ),
    "seconds late": (
        {"a.log": line("x - ann", "a", 3600) + line("x - ann", "b")},
        WEB,
        {"/a": 1, "/b": 1},
        {"ann": "/b"},
        ["pages 2 in 1 part, users 1\nrefused 0 of 2 requests\n"],
    ),
    "two servers": (
        {
            "a.log": line("x - ann", "1") + line("x - bob", "2", 3) + line("x - ann", "3", 2) + line("x - ann", "5", 9),
            "b.log": line("x - ann", "4", 4) + line("x - bob", "6", 1),
        },
        WEB,
        {f"/{number}": 1 for number in range(1, 7)},
        {"ann": "/5", "bob": "/6"},
        ["the times of a.log and 1 more overlap: their requests are merged by time\n"],
    ),
    "CSV by time": (
        {
            "a.csv": "op;user;page;t\nlike;ann;new;2026-11-28 10:00\n",
            "b.csv": "op,user,page,t\nlike,ann,old,2026-11-28T09:00:00Z\n",
        },
        "--time t",
        {"new": 1, "old": 1},
        {"ann": "new"},
        ["taken in the order of their first times: b.csv, a.csv\n"],
    ),
    "CSV by the time of a spreadsheet": (
        {
            "a.csv": "op;user;page;t\nlike;ann;new;1.12.2026 9:00\n",
            "b.csv": "op;user;page;t\nlike;ann;old;27.11.2026\n",
        },
        "--time t",
        {"new": 1, "old": 1},
        {"ann": "new"},
        ["taken in the order of their first times: b.csv, a.csv\n"],
    ),
    "CSV by the time of a database": (
        {
            "a.csv": "op,user,page,t\nlike,ann,new,2026-11-28 10:30:00+01\nlike,bob,new,9999-12-31 23:59:59.9999999\n",
            "b.csv": "op,user,page,t\nlike,ann,old,2026-11-28 09:00:00.123456+00\n",
        },
        "--time t",
        {"new": 2, "old": 1},
        {"ann": "new", "bob": "new"},
        ["kept 1, no time that can be read, so at the time before: the first is line 3 of a.csv, "],
    ),
    "CSV by a time that can't be read": (
        {"a.csv": "op,user,page,t\nlike,ann,new,28.11.26\n", "b.csv": "op,user,page,t\nlike,ann,old,27.11.26\n"},
        "--time t",
        {"new": 1, "old": 1},
        {"ann": "old"},
        ["kept 2, no time that can be read, so at the time before: the first is line 2 of a.csv, 'like,ann,new,28.11"],
    ),
    "CSV with an empty file": (
        {"a.csv": "op,user,page\nlike,ann,a\n", "b.csv": "", "c.csv": "\n\n"}, "", {"a": 1}, {"ann": "a"}, []
    ),
    "CSV as named": (
        {"a.csv": "op,user,page\nlike,ann,new\n", "b.csv": "op,user,page\nlike,ann,old\n"},
        "",
        {"new": 1, "old": 1},
        {"ann": "old"},
        ["taken in the order in which the logs are named: --time COLUMN sorts them by time\n"],
    ),
    "long lines": (
        {
            "a.log": "\0" * 2000000 + line("x - ann") + line("x - ann", "b") + "\0" * 500 + line("x - ann", "c"),
            "b.log": "q" * 1048577,
        },
        WEB,
        {"/b": 1},
        {"ann": "/b"},
        [f"left out 2, {LONG}: the first is line 1 of b.log, 'q", f"1, {NO_FRONT}: the first is line 3 of a.log, "],
    ),
    "long rows": (
        {"a.csv": "op,user,page\nlike,ann,a\n" + "\0" * 2000000 + "\nlike,ann,b\nlike,ann\n"},
        "",
        {"a": 1, "b": 1},
        {"ann": "b"},
        [f"left out 1, {LONG}: the first is line 3, {NULS}", "fewer fields than the header: the first is line 5, "],
    ),
    "long fields": (
        {
            "a.csv": "op,user,page\nlike,ann,a\n" + "\0" * 500000 + "like,ann,b\nlike,ann," + "c" * 131073
            + '\nlook,bob,"' + "d" * 131072 + '"\n'
        },
        "",
        {"a": 1, "d" * 131072: 0},
        {"ann": "a"},
        ["left out 1, op is not like or look: the first is line 3, '%00%00", "131072 characters: the first is line 4, 'like"],
    ),
    "bytes": (
        {"a.log": line("x - ann", "%ff%C3%A4") + line("x - b\udcfe", "\udcff") + line("x - ann", "\\xff")},
        WEB,
        {"/%FFä": 1, "/%FF": 2},
        {"ann": "/%FF", "b%FE": "/%FF"},
        [],
    ),
    "empty lines before the header": (
        {"a.csv": "\n \n\nop,user,page\nlike,ann,a\n\nlike,ann\n"},
        "",
        {"a": 1},
        {"ann": "a"},
        ["left out 1, fewer fields than the header: the first is line 7, 'like,ann'\n"],
    ),
    "a long row in one of two": (
        {
            "a.csv": "op,user,page,t\n" + "x" * 1100000 + "\nlike,ann,a,2026-11-27 09:00\n",
            "b.csv": "op,user,page,t\nlike,ann,b,2026-11-27 10:00\n",
        },
        "--time t",
        {"a": 1, "b": 1},
        {"ann": "b"},
        [f"left out 1, {LONG}: the first is line 2 of a.csv, "],
    ),
    "line ends of other systems": (
        {"a.csv": 'op,user,page\r\nlike,"b\r\nc",x\r\nlike,ann\r\nlike,ann,a\rlike,bob,"b""\r"\rlook,ann\r'},
        "",
        {"x": 1, "a": 1, 'b"\r': 1},
        {"b\r\nc": "x", "ann": "a", "bob": 'b"\r'},
        ["left out 2, fewer fields than the header: the first is line 4, 'like,ann'\n"],
    ),
    "long lines that end by CR": (
        {
            f"{name}.csv": end.join(["op,user,page", "like,ann,a", "x" * 1200000, f"like,{name},b", "x" * 1048577] + ["like,eve,c"] * 9)
            for name, end in (("cr", "\r"), ("crlf", "\r\n"), ("lf", "\n"))
        },
        "",
        {"a": 3, "b": 3, "c": 27},
        {"ann": "a", "cr": "b", "crlf": "b", "lf": "b", "eve": "c"},
        [f"left out 6, {LONG}: the first is line 3 of cr.csv, 'xxx"],
    ),
    "quotes that aren't at the front": (
        {"a.csv": 'op,user,page\nlike,a"nn,b"\nlike,"a""b, c",x\n' + 'look,"' + "\n" * 100000 + '",x\n' * 9 + "like,bob\n"},
        "",
        {'b"': 1, "x": 1},
        {'a"nn': 'b"', "a\"b, c": "x"},
        [],
    ),
    "bytes in CSV": ({"a.csv": "op,user,page\nlike,m\udcfcller,\udcff\n"}, "", {"%FF": 1}, {"m%FCller": "%FF"}, []),
    "NULs": (
        {"a.log": line("x - ann", "b%00") + line("x - b\\x00b") + line("x - b\0b", "b\\x00\0")},
        WEB,
        {"/a": 1, "/b%00": 1, "/b%00%00": 1},
        {"ann": "/b%00", "b%00b": "/b%00%00"},
        [],
    ),
    "NULs in CSV": ({"a.csv": "op,user,page\nlike,a\0nn,\0\n"}, "", {"%00": 1}, {"a%00nn": "%00"}, []),
    "NULs before rows": (
        {
            "a.csv": "user,op,page\nann,like,a\n" + "\0" * 500 + "ann,like,b\nbob,like,a\n\0\"ann\",like,b\n"
            + "b\0b,like,\0a\n"
        },
        "",
        {"a": 2, "%00a": 1},
        {"ann": "a", "bob": "a", "b%00b": "%00a"},
        ["left out 2, NULs before the first field: the first is line 3, '%00%00"],
    ),
    "NULs before the first row": (
        {"a.csv": "\0\0ann,like,b\nann,like,a\n"},
        "--columns 2,1,3",
        {"a": 1},
        {"ann": "a"},
        ["left out 1, NULs before the first field: the first is line 1, '%00%00ann,like,b'\n"],
    ),
    "queries": (
        {"a.log": "".join(line("x - ann", page) for n in range(4) for page in (f"a?mail={n % 2}", f"b{n}?x", "a"))},
        WEB.replace("[^? ]*", r"\S*"),
        {"/a?mail=0": 2, "/a?mail=1": 2, "/a": 4, **{f"/b{n}?x": 1 for n in range(4)}},
        {"ann": "/a"},
        ["2 of 7 pages differ from others by their query alone: --no-query takes it off\n"],
    ),
    "a page behind its user": (
        {"a.log": line("x - -", "?user=ann&to=%2Fa") + line("x - -", "?user=bob&to=b")},
        r"--combined --like 'POST /like/\?user=(?P<user>[^& ]+)&to=([^& ]+)'",
        {"/a": 1, "b": 1},
        {"ann": "/a", "bob": "b"},
        [],
    ),
    "no user in the request": (
        {"a.log": "".join(line("1.1.1.1 - -", f"?user={user}&page=a") for user in ("-", "", "bob")) + line("x - ann", "?user=-&page=b")},
        r"--combined --like 'POST /like/\?user=(?P<user>[^& ]*)&page=([^& ]+)'",
        {"a": 3, "b": 1},
        {"1.1.1.1": "a", "bob": "a", "ann": "b"},
        [],
    ),
    "no queries": (
        {"a.log": line("x - ann", "a?utm_source=1") + line("x - ann", "a%3Fb") + line("x - ann")},
        WEB.replace("[^? ]*", r"\S*") + " --no-query",
        {"/a": 2, "/a?b": 1},
        {"ann": "/a"},
        [],
    ),
    "a spreadsheet": (
        {"a.csv": "\ufeffZeit;Was;Wer;Seite\n1;gefällt;ann;/a,b\n2;gesehen;bob;/c\n3;geteilt;ann;/c\n"},
        "--columns Was,Wer,Seite --like gefällt --look gesehen",
        {"/a,b": 1, "/c": 0},
        {"ann": "/a,b"},
        ["left out 1, Was is not gefällt or gesehen: the first is line 4, '3;geteilt;ann;/c'\n"],
    ),
    "tabs": (
        {"a.tsv": "1\tlike\tann\t/a\n2\tlook\n"},
        "--columns 2,3,4",
        {"/a": 1},
        {"ann": "/a"},
        ["left out 1, fewer fields than --columns: the first is line 2, "],
    ),
    "commas in the header": (
        {"a.csv": "Datum, Zeit, Ort, Zone;op;user;page\n1;like;ann;/a,b\n"}, "", {"/a,b": 1}, {"ann": "/a,b"}, []
    ),
    "commas in the first row": (
        {"a.csv": "1;like;ann;/a,b,c,d,e\n2;like;ann;/b\n"},
        "--columns 2,3,4",
        {"/a,b,c,d,e": 1, "/b": 1},
        {"ann": "/b"},
        [],
    ),
    "a line end in the first record": (
        {
            "a.csv": '"Ann, or\nLee";like;/a,b,c,d\n"Ann, or\nLee";like;/b\n',
            "b.csv": '"x\r\n, y"|like|/a\r\nbob|like|/b\r\n',
        },
        "--columns 2,1,3",
        {"/a,b,c,d": 1, "/b": 2, "/a": 1},
        {"Ann, or\nLee": "/b", "x\r\n, y": "/a", "bob": "/b"},
        [],
    ),
    "a line end in the header": (
        {"a.csv": '"a, b,\nc";op;user;page\n1;like;ann;/a\n'}, "", {"/a": 1}, {"ann": "/a"}, []
    ),
    "a delimiter": ({"a.csv": "op:user:page\nlike:ann:a,b\n"}, "--delimiter :", {"a,b": 1}, {"ann": "a,b"}, []),
    "JSON": (
        {
            "a.log": '{"time_local": "27/Nov/2026:09:00:01 +0000", "remote_addr": "1.1.1.1", "remote_user": "", '
            '"request": "POST /like/a HTTP/1.1", "status": "200"}\n'
            '{"ts": 1795770001.2, "request": {"remote_ip": "2.2.2.2", "method": "POST", "uri": "/like/caf\\u00e9?x"}, '
            '"user_id": "ann", "status": 200}\n'
            '{"ClientHost": "3.3.3.3", "ClientUsername": "-", "RequestMethod": "POST", "RequestPath": "/like/%ff", '
            '"DownstreamStatus": 200}\n'
            '{"request": {"remote_addr": "4.4.4.4:80", "method": "POST", "uri": "/like/d"}, "user_id": false, "status": 200}'
            "\n"
            '{"status": 200}\n{"status":\nlog\n{"remote_user": "\\x22", "status": 200}\n'
        },
        JSON,
        {"/a": 1, "/café": 1, "/%FF": 1, "/d": 1},
        {"1.1.1.1": "/a", "ann": "/café", "3.3.3.3": "/%FF", "4.4.4.4": "/d"},
        [
            "no request or no status by these names of fields (--fields): the first is line 5",
            "left out 2, a log line that can't be read: the first is line 6",
            "not a JSON object: the first is line 7",
        ],
    ),
    "JSON of several servers": (
        {
            "a.log": '{"request": {"method": "POST", "uri": "/like/a"}, "request_method": "GET", "user_id": "ann", "status": 200}\n'
            '{"request": "POST /like/b", "request_method": "GET", "remote_user": null, "user_id": "bob", "status": 200}\n'
            '{"status": 200, "request": ["POST /like/c", 7], "user_id": 7, "ClientUsername": "x"}\r\n'
            ' {"status": 200, "request": "POST /like/d\\ud83d\\ude00\\udcff", "user_id": "eve"} \n'
            '{"status": 200, "request": "POST /like/e", "user_id": true, "remote_addr": {"x": 1}}\n'
            '{"status": 200, "request": "POST /like/f", "user_id": "g"}, {"status": 200}\n'
            '{"status": 200, "request": "POST /like/f", "user_id": "g"}\v\n'
        },
        JSON,
        {"/b": 1, "/c": 1, "/d😀%ED%B3%BF": 1},
        {"bob": "/b", "7": "/c", "eve": "/d😀%ED%B3%BF"},
        [
            "left out 1, no pattern matches: the first is line 1, 'GET /like/a'\n",
            "left out 1, no user and no address: the first is line 5, ",
            "left out 2, a log line that can't be read: the first is line 6, ",
        ],
    ),
    "JSON behind syslog": (
        {
            "a.log": "".join(front.format(1) + '{"request": "POST /like/a", "user_id": "ann", "status": 200}\n'
            for front in (SYSLOG, RFC))
        },
        JSON,
        {"/a": 2},
        {"ann": "/a"},
        [],
    ),
    "a long line of JSON in one of two logs": (
        {
            "a.log": "".join(
                f'{{"ts": {1795770002 + n}, "uri": "{"x" * 20000 * (not n)}", "request": "POST /like/a", "user_id": "ann", "status": 200}}\n'
                for n in range(2)
            ),
            "b.log": '{"ts": 1795770001, "request": "POST /like/b", "user_id": "ann", "status": 200}\n',
        },
        JSON,
        {"/a": 2, "/b": 1},
        {"ann": "/a"},
        ["taken in the order of their first times: b.log, a.log\n"],
    ),
    "JSON with other fields": (
        {"a.log": '{"who": {"name": "ann"}, "http.line": "POST /like/a", "code": 201}\n'},
        f"{JSON} --fields user=who.name,request=http.line,status=code",
        {"/a": 1},
        {"ann": "/a"},
        [],
    ),
    "lists of addresses in JSON": (
        {
            "a.log": '{"remote_addr": ["10.0.0.1", "203.0.113.7", 8], "request": "POST /like/a", "status": 200}\n'
            '{"remote_addr": ["203.0.113.8:80"], "request": "POST /like/a", "status": 200}\n'
            '{"remote_addr": {"X": ["-", "1.1.1.1, 203.0.113.9", "-"]}, "request": "POST /like/b", "status": 200}\n'
        },
        f"{JSON} --forwarded last --fields address=remote_addr",
        {"/a": 2},
        {"8": "/a", "203.0.113.8": "/a"},
        ["left out 1, no user and no address: the first is line 3, ''\n"],
    ),
    "a list of addresses within an object": (
        {"a.log": '{"r": {"X-F": ["-", "1.1.1.1, 203.0.113.9", "-"]}, "request": "POST /like/a", "status": 200}\n'},
        f"{JSON} --forwarded last --fields address=r.X-F",
        {"/a": 1},
        {"203.0.113.9": "/a"},
        [],
    ),
    "statuses": (
        {"a.log": line("x - ann", status=302) + line("x - ann", "b", status=201) + line("x - ann", "c", status=404)},
        WEB,
        {"/b": 1},
        {"ann": "/b"},
        ["left out 2, status is not 2xx: the first is line 1, 'POST /like/a HTTP/1.1'\n"],
    ),
    "other statuses": (
        {"a.log": line("x - ann", status=304) + line("x - ann", "b", status=201) + line("x - ann", "c", status=404)},
        f"{WEB} --status 2xx,304",
        {"/a": 1, "/b": 1},
        {"ann": "/b"},
        ["left out 1, status is not 2xx,304: "],
    ),
    "bots": (
        {
            "a.log": line("x - ann", agent="Googlebot/2.1") + line("x - ann", "b")
            + line("x - ann", "c").split(' "-"')[0] + "\n"
        },
        f"{WEB} --agent-not '(?i)bot|crawl'",
        {"/b": 1, "/c": 1},
        {"ann": "/c"},
        ["left out 1, the agent matches --agent-not: the first is line 1, 'Googlebot/2.1'\n"],
    ),
    "no agents": (
        {"a.log": line("x - ann").split(' "-"')[0] + "\n"},
        f"{WEB} --agent-not '(?i)bot'",
        {"/a": 1},
        {"ann": "/a"},
        ["users 1\nno line has an agent, so --agent-not leaves out nothing\n"],
    ),
    "fields that no line has": (
        {"a.log": '{"who": "ann", "remote_addr": "1.1.1.1", "request": "POST /like/a", "agent": "bot", "status": 200}\n'},
        f"{JSON} --fields user=whom,agent=client --agent-not bot",
        {"/a": 1},
        {"1.1.1.1": "/a"},
        ["no line has a user in the field 'whom' (--fields)\nno line has an agent, so --agent-not leaves out nothing\n"],
    ),
    "fields of the last line": (
        {"a.log": entry("ann", "a", 1) * 3000 + entry("ann", "a", 1)[:-2] + ', "who": "bob", "agent": "bot 1"}\n'},
        f"{JSON} --fields user=who,agent=agent,address=user_id --agent-not bot",
        {"/a": 3000},
        {"ann": "/a"},
        ["users 1\nleft out 1, the agent matches --agent-not: the first is line 3001, 'bot 1'\nrefused"],
    ),
    "since and until": (
        {
            "a.log": line("x - ann", "a") + line("x - ann", "b", 60) + line("x - ann", "c", 120)
            + line("x - ann").replace("Nov", "Nix")
        },
        f"{WEB} --since 2026-11-27T09:01 --until 2026-11-27T09:02",
        {"/b": 1},
        {"ann": "/b"},
        ["left out 1, before --since: ", "left out 1, at --until or later: ", "left out 1, no time that can be read: "],
    ),
    "by hour, of two logs, where all that is read at first of one is left out": (
        {"a.log": line("x - ann", "old") * 4000 + line("x - ann", "a", 3600), "b.log": line("x - ann", "b", 3601)},
        f"{WEB} --since 2026-11-27T10:00 --by hour",
        {"/a": 1, "/b": 1},
        {"ann": "/b"},
        ["2026-11-27T10,1,/a,1\n2026-11-27T10,2,/b,1\n", "left out 4000, before --since: "],
    ),
    "by day, with a page that is only looked at": (
        {"a.log": line("x - ann") + line("x - ann", "b").replace("POST", "GET")},
        f"{WEB} --look 'GET /like(/.)' --by day",
        {"/a": 1, "/b": 0},
        {"ann": "/a"},
        ["likes 1, looks 1, "],
    ),
}

# The likes of two hours, and how they are printed.
HOURS = "".join(line("x - ann", page, second) for page, second in zip("abbab", (0, 9, 9, 3600, 3601)))
BY_HOUR = "hour,rank,page,likes\n2026-11-27T09,1,/b,2\n2026-11-27T10,1,/a,1\nlikes 5, "
BY_DAY = """[{"day": "2026-11-27", "rank": 1, "page": "/b", "likes": 3},
 {"day": "2026-11-27", "rank": 2, "page": "/a", "likes": 2}]
"""


def read(name):
    with open(name, newline="", encoding="utf-8", errors="surrogateescape") as file:
        return list(csv.reader(file))[1:]


def found(folder, name):
    """The likes by page, and last likes by user, of an answer."""
    likes = {page: int(count) for _, page, count in read(f"{folder}/{name}/pages.csv")}
    return likes, dict(read(f"{folder}/{name}/users.csv"))


def asked(folder, logs, words):
    """How `tools/log` ends on logs of these names and texts."""
    shutil.rmtree(f"{folder}/small", ignore_errors=True)
    for name, text in logs.items():
        with open(f"{folder}/{name}", "w", newline="", encoding="utf-8", errors="surrogateescape") as file:
            file.write(text)
    return pages.shell(f"tools/log {' '.join(logs)} {words} --into small", folder)


def try_cases(folder):
    for what, (logs, words, likes, last, told) in CASES.items():
        ended = asked(folder, logs, words)
        said = ended.out.decode(errors="replace")
        if ended.status != 0 or found(folder, "small") != (likes, last):
            yield f"{what}: {said[-800:]!r} and {found(folder, 'small') if ended.status == 0 else None}"
        for wanted in told:
            if wanted not in said:
                yield f"{what}: {wanted!r} is not told, but {said[-800:]!r}"


def try_periods(folder):
    for words, wanted in (("--by hour --top 1", BY_HOUR), ("--by day --json", BY_DAY)):
        ended = asked(folder, {"a.log": HOURS}, f"{WEB} {words}")
        said = ended.out.decode()
        if ended.status != 0 or not said.startswith(wanted):
            yield f"{words}: {said!r}, not {wanted!r}"


def try_packed(folder):
    """What is wrong with packed logs of three servers whose times overlap, and of one that is read from a pipe."""
    draw, rows, logs = random.Random(2), [], [[], [], []]
    for second in range(30000):
        row = f"user {draw.randrange(200)}", f"/{draw.randrange(30)}"
        rows.append(row)
        draw.choice(logs).append(line(f"x - {row[0]}", row[1][1:], second // 2))
    with gzip.open(f"{folder}/s0.log.gz", "wt") as first, lzma.open(f"{folder}/s1.log.xz", "wt") as second:
        first.writelines(logs[0])
        second.writelines(logs[1])
    with open(f"{folder}/s2.log", "w", encoding="utf-8") as file:
        file.writelines(logs[2])
    names = ["s1.log.xz", "s0.log.gz", "s2.log"]
    if shutil.which("zstd"):
        subprocess.run(["zstd", "-q", f"{folder}/s2.log"], check=True)
        names[2] = "s2.log.zst"
    ended = pages.shell(f"tools/log {' '.join(names)} {WEB} --into packed", folder)
    ended_2 = pages.shell(f"cat s1.log.xz | tools/log s0.log.gz - s2.log {WEB} --into piped", folder)
    likes = collections.Counter(page for _, page in rows)
    for name, said in (("packed", ended), ("piped", ended_2)):
        if said.status != 0 or found(folder, name) != (likes, dict(rows)):
            yield f"{name} logs: {said.out[-500:]!r}"


def try_standard_input(folder):
    """What is wrong with how standard input is named among several logs."""
    asked(folder, {"a.log": line("x - ann", "new", 1), "b.log": line("x - ann")}, WEB)
    ended = pages.shell(f"tools/log - b.log {WEB} --into of-input < a.log", folder)
    if ended.status != 0 or "first times: b.log, standard input\n" not in ended.out.decode():
        yield f"standard input: {ended.out[-500:]!r}"


def try_many_users(folder):
    """What is wrong with a log of more than a million users, of whom some come again."""
    users = [f"user {number}" for number in range(1_100_000)]
    rows = [(user, f"page {number % 7}") for number, user in enumerate(users)]
    rows += [(users[number], "last") for number in range(0, len(users), 9)]
    with open(f"{folder}/users.csv", "w", encoding="utf-8") as file:
        file.write("op,user,page\n")
        file.writelines(f"like,{user},{page}\n" for user, page in rows)
    ended = pages.shell("tools/log users.csv --into many-users --top 0", folder)
    likes = collections.Counter(page for _, page in rows)
    if ended.status != 0 or found(folder, "many-users") != (likes, dict(rows)):
        yield f"many users: {ended.out[-500:]!r}"


def try_reports(folder):
    """What is wrong with the reports of an answer and their audit, which reads each run's options, as it is told."""
    text = "op,user,page\n" + "".join(f"like,user {n % 3000},page {n % 1500}\n" for n in range(9000))
    asked(folder, {"a.csv": text}, "")
    ended = pages.shell("tools/log a.csv --reports --top 0 --into 'with reports'", folder)
    audits = pages.shell(ended.out.decode().partition("next: ")[2], folder)
    said = audits.out.decode().splitlines()
    if ended.status != 0 or len(said) != 2 or not all(row.startswith("all right: replies ") for row in said):
        yield f"reports: {ended.out[-300:]!r} and {audits.out[-500:]!r}"


def try_all(folder):
    """What is wrong with all of these."""
    tries = (try_cases, try_periods, try_packed, try_standard_input, try_many_users, try_reports)
    return [wrong for attempt in tries for wrong in attempt(folder)]
