"""What the programs of examples/ print."""

FIRST = "page 1 has 1 like, and user 7 last liked page 0\na like of page 2: unknown page\ntotals: 11 and 1\n"
CPP = "a like of user 1000: unknown user\n66668\n66668\n66664\n0\n"
PYTHON = """\
Seen(last=1, count=1) Seen(last=None, count=10)
a like of an unknown user: unknown user
[26678, 26669, 26664]
"""
POOL = "a like of page 4: unknown page\ntotals: [53344 53344 53312 0]\n"
