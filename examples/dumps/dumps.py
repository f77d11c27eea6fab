#!/usr/bin/env python3
"""Writes the cases of dumps: python3 examples/dumps/dumps.py crates/dump_cases/data

Dumps are printed here as docs/formats.md, Dumps, has them, from rows that are written out below, and shares nothing
with the programs of this repository. What is wanted of each is said by hand beside it: the line that is refused, or
the row that is damaged.
"""
import hashlib
import json
import os
import pathlib
import sys

SCHEMA = 'name = "person"\nattributes = ["zip", "city"]\n'
MASTER = "code,town\nEH7,Edi\n"
RULES = "rule r1 from post: zip = code -> city = town;\n"


# ---- rows, each as the values of its line


def clerk(name, last=0, digest="", act="nothing", target=0):
    """A caller; the digest is a word of ASCII, and zeros, or 32 bytes."""
    digest = digest.encode() if isinstance(digest, str) else digest
    return [name, last, list(digest.ljust(32, b"\0")), act, target]


def digest_of(target, sent):
    """The digest of a request: SHA-256 (FIPS 180-4) of its target, a zero byte and its body."""
    return hashlib.sha256(target + b"\0" + sent).digest()


def body(content):
    """What was published: a string where it is UTF-8, and else its bytes."""
    try:
        return content.decode()
    except UnicodeDecodeError:
        return list(content)


def schema(text=SCHEMA, name="person", version=1):
    return [name, version, body(text.encode())]


def master(text=MASTER, name="post", version=1):
    return [name, version, body(text.encode())]


def rulebook(content=RULES.encode(), name="people", version=1, over=0):
    return [name, version, over, body(content)]


def edition(name="desk", version=1, rules=0, masters=(0,), folded=()):
    return [name, version, rules, list(masters), list(folded)]


def region(over=0, attributes=(0,), rows=(("EH7",), ("G1",))):
    return [over, list(attributes), [list(row) for row in rows]]


def session(typed=("EH7", ""), confirmed=(True, False), stage="active", batch=0, over=0):
    return [over, list(typed), list(confirmed), stage, batch]


def record(number, texts=("EH7", "Edi"), certain=True):
    return [number, list(texts), certain]


def batch(first, count, over=0):
    return [over, first, count]


KINDS = ["clerk", "schema", "master", "rulebook", "edition", "region"]
OWN = ["session", "record", "batch"]


def lines(tables):
    """The lines of a dump, without the last one."""
    made = [["fixdesk", 1]]
    for kind in KINDS:
        made += [[kind, place] + row for place, row in enumerate(tables.get(kind, []))]
    for kind in OWN:
        for caller, rows in enumerate(tables.get(kind, [])):
            made += [[kind, caller, place] + row for place, row in enumerate(rows)]
    return made


def printed(line):
    return json.dumps(line, ensure_ascii=False, separators=(",", ":")).encode()


def text_of(made):
    return b"".join(printed(line) + b"\n" for line in made)


def dump(tables):
    made = lines(tables)
    return text_of(made + [["end", len(made)]])


# ---- tables

NEW = {"clerk": [clerk("steward")]}

PUBLISHED = {
    "clerk": [clerk("steward", 5, "edition", "edition", 0), clerk("amy")],
    "schema": [schema()],
    "master": [master()],
    "rulebook": [rulebook()],
    "edition": [edition()],
}

EDITED = digest_of(b"/steward/8/editions/desk", b'{"masters":[["post",2]],"rulebook":["people",1]}')
COMMITTED = digest_of(b"/do/amy/4/commit/1", b'{"accept":"certain"}')

SCRIPT = {
    "clerk": [clerk("steward", 8, EDITED, "edition", 1), clerk("amy", 4, COMMITTED, "committed", 0)],
    "schema": [schema()],
    "master": [master(), master("code,town\nEH7,Edinburgh\n", version=2)],
    "rulebook": [rulebook()],
    "edition": [edition(), edition(version=2, masters=(1,))],
    "region": [region()],
    "session": [[], [session(("EH7", "Ldn"), stage="committed"), session()]],
    "record": [[], [record(1)]],
}

POSTAL = pathlib.Path(__file__).resolve().parents[1] / "postal"
OVER_POST = b'{"folded":["zip"],"masters":[["post",1],["areas",1]],"rulebook":["postal",1]}'


def postal(name):
    """A file of the postal registry."""
    return (POSTAL / name).read_bytes()


TOUR = {
    "clerk": [
        clerk("steward", 6, digest_of(b"/steward/6/editions/postal", OVER_POST), "edition", 0),
        clerk("amy", 6, digest_of(b"/do/amy/6/commit/1", b'{"accept":"certain"}'), "committed", 0),
    ],
    "schema": [["address", 1, body(postal("address.toml"))]],
    "master": [["post", 1, body(postal("post.csv"))], ["areas", 1, body(postal("areas.csv"))]],
    "rulebook": [rulebook(postal("rules.txt"), "postal")],
    "edition": [edition("postal", masters=(0, 1), folded=(0,))],
    "session": [
        [],
        [
            session(("eh7 4aa", "12 Easter Road", "Edinbrugh", "", ""), (True, True, False, False, False), "committed"),
            session(("KA6 7PD", "1 Main Street", "", "", ""), (True, False, False, False, False)),
            session(("G1 1XQ", "", "", "", ""), (False,) * 5),
            session(("ZZ1 1ZZ", "1 Main Street", "", "", ""), (True, True, False, False, False)),
        ],
    ],
    "record": [[], [record(1, ("eh7 4aa", "12 Easter Road", "Edinburgh", "Lothian", "Scotland"))]],
}

EVERY = {
    "clerk": [
        clerk("steward", 8, "bob", "clerk", 2),
        clerk("amy", 7, "six", "opened", 3),
        clerk("bob", 1, "batch", "batched", 0),
    ],
    "schema": [schema('name = "person"\r\nattributes = ["zip", "city"]\r\n')],
    "master": [master('code,town\n"a""b\\c\b\t\n\f\r\0\x1f\x7f/",Zürich \U0001f600\nEH7,Edi\n')],
    "rulebook": [rulebook(b"# \xff\n" + RULES.encode())],
    "edition": [edition(folded=(0, 1))],
    "region": [region(0, (1, 0), [("", "EH8"), ("Zürich", '"\\\0')])],
    "session": [
        [],
        [
            session(("EH8", "\0\n\x1f"), stage="committed"),
            session(("", ""), (False, False), "abandoned"),
            session(("eh7", ""), stage="committed"),
            session(("", ""), (False, False)),
        ],
        [session(("EH7", "Ldn"), batch=1), session(("", "Edi"), (False, False), batch=1)],
    ],
    "record": [[], [record(3, ("eh7", "Edi")), record(1, ("EH8", "\0\n\x1f"), False)]],
    "batch": [[], [], [batch(1, 2)]],
}


def with_rows(tables, **rows):
    return {**tables, **rows}


def acts():
    """A desk of which each kind of last request is some caller's: one of a kind by the steward, all by clerks."""
    names = ["amy", "bob", "cid", "dan"]
    work = ["opened", "changed", "committed", "batched"]
    own = [session(("EH7", "Ldn"), stage="committed", batch=1)]
    return with_rows(
        PUBLISHED,
        clerk=[clerk("steward", 9, "region", "region", 0)]
        + [clerk(name, place + 1, name, act, 0) for place, (name, act) in enumerate(zip(names, work))],
        region=[region()],
        session=[[]] + [own] * 4,
        record=[[]] + [[record(1)]] * 4,
        batch=[[]] + [[batch(1, 1)]] * 4,
    )


def scalars():
    """Every scalar of one and two bytes, and those at the borders of three and four, in texts of at most 200 bytes."""
    borders = [0x800, 0xFFF, 0x1000, 0x2028, 0x2029, 0xCFFF, 0xD000, 0xD7FF, 0xE000, 0xFEFF, 0xFFFD, 0xFFFE, 0xFFFF]
    borders += [0x10000, 0x3FFFF, 0x40000, 0xFFFFF, 0x100000, 0x10FFFF]
    text, texts = "", []
    for scalar in list(range(0x800)) + borders:
        if len((text + chr(scalar)).encode()) > 200:
            texts.append(text)
            text = ""
        text += chr(scalar)
    texts += [text] + [""] * (len(texts) % 2 == 0)
    rows = list(zip(texts[::2], texts[1::2]))
    return with_rows(PUBLISHED, region=[region(0, (0, 1), rows)])


def great():
    """The greatest numbers that a row of valid tables can have."""
    return with_rows(
        PUBLISHED,
        clerk=[clerk("steward", 999999999999, "\x7f" * 32, "edition", 0), clerk("a" * 32)],
        session=[[], [session(("x" * 200, "é" * 100), (True, True))]],
    )


# ---- what tables show, as `{:?}` of Rust shows a row


def shared(items):
    return "[%s]" % ", ".join(items)


def listed(items):
    return "List { items: %s }" % shared(items)


def cell(text):
    return '"%s"' % text


def cells(texts):
    return listed([cell(text) for text in texts])


def numbers(items):
    return listed([str(item) for item in items])


def capital(word):
    return word[0].upper() + word[1:]


def published(name, version, content, rest=""):
    return "name: %s, version: %d, %sbody: %s" % (cell(name), version, rest, numbers(content.encode()))


def shown_row(kind, row):
    if kind == "clerk":
        name, last, digest, act, target = row
        fields = "name: %s, last: %d, digest: Digest { bytes: [%s] }, act: %s, target: %d"
        fields %= (cell(name), last, ", ".join(map(str, digest)), capital(act), target)
    elif kind in ("schema", "master"):
        fields = published(*row)
    elif kind == "rulebook":
        fields = published(row[0], row[1], row[3], "schema: %d, " % row[2])
    elif kind == "edition":
        fields = "name: %s, version: %d, rulebook: %d, masters: %s, folded: %s"
        fields %= (cell(row[0]), row[1], row[2], numbers(row[3]), numbers(row[4]))
    elif kind == "region":
        fields = "edition: %d, region: Region { attrs: %s, rows: %s }"
        fields %= (row[0], numbers(row[1]), listed([cells(texts) for texts in row[2]]))
    elif kind == "session":
        fields = "edition: %d, typed: %s, confirmed: %s, stage: %s, batch: %d"
        typed = shared([cell(text) for text in row[1]])
        flags = shared([str(flag).lower() for flag in row[2]])
        fields %= (row[0], typed, flags, capital(row[3]), row[4])
    elif kind == "record":
        fields = "session: %d, texts: %s, certain: %s" % (row[0], cells(row[1]), str(row[2]).lower())
    else:
        fields = "edition: %d, first: %d, count: %d" % tuple(row)
    return "%sRow { %s }\n" % (capital(kind), fields)


def shown(tables):
    """Each row in a line, and an empty line after each list."""
    made = ""
    for kind in KINDS:
        made += "".join(shown_row(kind, row) for row in tables.get(kind, [])) + "\n"
    for kind in OWN:
        own = tables.get(kind, [])
        for caller in range(len(tables["clerk"])):
            rows = own[caller] if caller < len(own) else []
            made += "".join(shown_row(kind, row) for row in rows) + "\n"
    return made.encode()


# ---- requests to a desk that was restored (docs/api.md)


def posted(target, sent, status, replied):
    request = b"POST %s HTTP/1.1\r\nContent-Length: %d\r\n\r\n%s" % (target, len(sent), sent)
    return request, response(status, b"application/json", replied)


def asked(target, kind, replied):
    return b"GET %s HTTP/1.1\r\n\r\n" % target, response(b"200 OK", kind, replied)


def response(status, kind, content):
    head = b"HTTP/1.1 %s\r\nContent-Type: %s\r\nContent-Length: %d\r\n\r\n"
    return head % (status, kind, len(content)) + content


OPENED = (
    b'{"answer":"fix","cells":[["zip","","open"],["city","","open"]],"certain":false,"dissent":null,'
    b'"edition":"desk","first":[],"session":3,"stage":"active","version":2}'
)
REPORT = (
    b"clerk amy\n"
    b"edition version sessions active committed abandoned certain partial conflict confirmed fixed uncovered\n"
    b"desk 1 2 1 1 0 2 0 0 2 2 0\n"
    b"desk 2 0 0 0 0 0 0 0 0 0 0\n"
    b"total 2\n"
)
GOES_ON = [
    posted(b"/do/amy/4/commit/1", b'{"accept":"certain"}', b"201 Created", b'{"certain":true,"record":1,"session":1}'),
    asked(b"/see/amy/report", b"text/plain", REPORT),
    posted(b"/do/amy/5/open/desk", b'{"cells":{},"confirmed":[]}', b"201 Created", OPENED),
]


# ---- cases

FILES = {}


def escaped(content):
    """Bytes as a part in escapes has them, a line of the file for each line of theirs."""
    made = ""
    for byte in content:
        if byte == 10:
            made += "\\n\n"
        elif byte == 13:
            made += "\\r"
        elif byte == 9:
            made += "\\t"
        elif byte == 92:
            made += "\\\\"
        elif 32 <= byte < 127:
            made += chr(byte)
        else:
            made += "\\x%02X" % byte
    return made


def part(name, value):
    """A part of a case: bytes are escaped."""
    if isinstance(value, bytes):
        return "-- %s, escaped\n%s\n" % (name, escaped(value).rstrip("\n"))
    return "-- %s: %s\n" % (name, value)


def case(file, title, content, **parts):
    made = "== %s\n" % title + part("dump", content)
    made += "".join(part(name, value) for name, value in parts.items())
    FILES.setdefault(file, []).append(made)


def restored(title, content, **parts):
    case("restored-desks", title, content, status=0, desk="restored", **parts)


def refused(title, content, line):
    case("restored-refused", title, content, status=7, line=line, desk="new")


def damaged(title, tables, table, row):
    case(
        "restored-damaged",
        title,
        dump(tables),
        status=6,
        said=b"damaged table %d row %d\n" % (table, row),
        desk="new",
    )


def put(made, place, line):
    """The lines with another one in place of one, counted from 1, as bytes."""
    changed = [printed(one) for one in made]
    assert changed[place - 1] != line
    changed[place - 1] = line
    return b"".join(one + b"\n" for one in changed)


def whole(tables):
    made = lines(tables)
    return made + [["end", len(made)]]


# ---- dumps that are restored


def write_restored():
    restored("a new desk", dump(NEW))
    restored("a new desk, restored twice: it is a new desk still", dump(NEW), again=0)
    restored("a clerk", dump({"clerk": [clerk("steward", 1, "amy", "clerk", 1), clerk("amy")]}))
    restored("a schema", dump({"clerk": [clerk("steward", 1, "x", "schema", 0)], "schema": [schema()]}))
    restored("a master", dump({"clerk": [clerk("steward", 1, "x", "master", 0)], "master": [master()]}))
    restored(
        "a rulebook",
        dump({"clerk": [clerk("steward", 2, "x", "rulebook", 0)], "schema": [schema()], "rulebook": [rulebook()]}),
    )
    restored("an edition", dump(PUBLISHED))
    restored("the desk of the script", dump(SCRIPT))
    restored("the desk of the script, restored twice: it is there already", dump(SCRIPT), again=10)
    restored("the desk of the tour of examples/postal", dump(TOUR))
    restored("every kind of row, sessions of each stage, a batch, texts with quotes and line ends", dump(EVERY))
    restored("each kind of last request", dump(acts()))
    restored(
        "texts with every scalar of one and two bytes, and those at the borders of three and four",
        dump(scalars()),
    )
    restored("the greatest numbers, and the longest texts", dump(great()))
    restored(
        "rules that are no UTF-8: a lone byte, half a character, a surrogate, more than the greatest scalar",
        dump(
            with_rows(
                PUBLISHED,
                rulebook=[
                    rulebook(b"# \x80\n" + RULES.encode()),
                    rulebook(b"# \xc3\n" + RULES.encode(), version=2),
                    rulebook(b"# \xed\xa0\x80\n" + RULES.encode(), version=3),
                    rulebook(b"# \xf4\x90\x80\x80\n" + RULES.encode(), version=4),
                ],
            )
        ),
    )
    restored(
        "lists with nothing in them",
        dump(with_rows(PUBLISHED, region=[region(0, (0,), ())], batch=[[], [batch(1, 0)]])),
    )
    restored("read byte by byte", dump(SCRIPT), cut=1)
    restored("what the tables of the script show, row by row", dump(SCRIPT), rows=shown(SCRIPT))
    restored("what the tables of each kind of last request show", dump(acts()), rows=shown(acts()))
    restored(
        "a desk goes on: the last request is repeated, the report is asked for, and the next session has its number",
        dump(SCRIPT),
        sent=b"".join(sent for sent, _ in GOES_ON),
        answered=b"".join(answered for _, answered in GOES_ON),
    )


# ---- dumps that are refused


def write_refused():
    script = whole(SCRIPT)
    text = text_of(script)
    last = len(script)
    refused("nothing", b"", 1)
    refused("a line feed alone", b"\n", 1)
    refused("no first line", text_of(script[1:]), 1)
    refused("a form of another version", put(script, 1, b'["fixdesk",2]'), 1)
    refused("a first line without its version", put(script, 1, b'["fixdesk"]'), 1)
    refused("the first line twice", text_of(script[:1] + script), 2)
    refused("bytes before the first line", b"\xef\xbb\xbf" + text, 1)
    refused("cut off in the first line", text[:5], 1)
    refused("cut off in a row", text_of(script[:4]) + printed(script[4])[:20], 5)
    refused("cut off after a row", text_of(script[:6]), 7)
    refused("cut off in the last line", text[:-3], last)
    refused("no line feed at the end", text[:-1], last)
    refused("no last line", text_of(script[:-1]), last)
    refused("the last line twice", text_of(script + script[-1:]), last + 1)
    refused("a row after the last line", text_of(script + [["batch", 1, 0] + batch(1, 1)]), last)
    refused("a count that is too small", put(script, last, b'["end",%d]' % (last - 2)), last)
    refused("a count that is too great", put(script, last, b'["end",%d]' % last), last)
    refused("a count that is a text", put(script, last, b'["end","%d"]' % (last - 1)), last)
    refused("no count", put(script, last, b'["end"]'), last)
    refused("another word at the end", put(script, last, b'["END",%d]' % (last - 1)), last)
    # lines 2 and 3 are clerks, 4 the schema, 5 and 6 masters, 7 rules, 8 and 9 editions, 10 the region
    refused("a schema twice", text_of(script[:4] + script[3:-1] + [["end", last]]), 5)
    refused("a clerk twice", text_of(script[:3] + script[2:-1] + [["end", last]]), 4)
    refused("a session twice", text_of(script[:11] + script[10:-1] + [["end", last]]), 12)
    refused(
        "a batch twice",
        text_of(whole(EVERY)[:-1] + [whole(EVERY)[-2], ["end", len(whole(EVERY))]]),
        len(whole(EVERY)),
    )
    refused("masters before schemas", text_of(script[:3] + [script[4], script[3]] + script[5:]), 4)
    refused("masters in another order", text_of(script[:4] + [script[5], script[4]] + script[6:]), 5)
    refused("clerks in another order", text_of(script[:1] + [script[2], script[1]] + script[3:]), 2)
    every = whole(EVERY)
    first = next(place for place, line in enumerate(every) if line[0] == "session")
    refused(
        "the sessions of a later clerk first",
        text_of(every[:first] + every[first + 4 : first + 6] + every[first : first + 4] + every[first + 6 :]),
        first + 1,
    )
    refused("a row of an unknown kind", put(script, 4, printed(["scheme"] + script[3][1:])), 4)
    refused("a kind in capitals", put(script, 4, printed(["Schema"] + script[3][1:])), 4)
    refused("a kind that is no text", put(script, 4, printed([4] + script[3][1:])), 4)
    refused("a line of no values", put(script, 4, b"[]"), 4)
    refused("a line that is an object", put(script, 4, b'{"schema":0}'), 4)
    refused("a line that is no JSON", put(script, 4, b"schema"), 4)
    refused("an empty line", text_of(script[:3]) + b"\n" + text_of(script[3:]), 4)
    refused("an empty line at the end", text + b"\n", last + 1)
    refused("lines that end in CR LF", text.replace(b"\n", b"\r\n"), 1)
    refused("a space after a comma", put(script, 3, printed(script[2]).replace(b",", b", ", 1)), 3)
    refused("a space at the end of a line", put(script, 3, printed(script[2]) + b" "), 3)
    refused("a tab before a line", put(script, 3, b"\t" + printed(script[2])), 3)
    refused("a letter in an escape", put(script, 3, printed(script[2]).replace(b"amy", b"\\u0061my")), 3)
    refused("a slash in an escape", put(script, 4, printed(script[3]).replace(b"city", b"\\/ity")), 4)
    refused("a line feed as a long escape", put(script, 4, printed(script[3]).replace(b"\\n", b"\\u000a")), 4)
    control = "".join(map(chr, (0x1F,)))
    strange = with_rows(SCRIPT, region=[region(0, (0,), [(control,), ("é",)])])
    refused(
        "an escape with a capital digit",
        put(whole(strange), 10, printed(whole(strange)[9]).replace(b"\\u001f", b"\\u001F")),
        10,
    )
    refused(
        "a letter that is not of ASCII in an escape",
        put(whole(strange), 10, printed(whole(strange)[9]).replace("é".encode(), b"\\u00e9")),
        10,
    )
    refused("half a surrogate pair", put(script, 3, printed(script[2]).replace(b"amy", b"\\ud800")), 3)
    refused("a line that is no UTF-8", put(script, 3, printed(script[2]).replace(b"amy", b"\xff")), 3)
    refused(
        "a control character that is not escaped",
        put(whole(strange), 10, printed(whole(strange)[9]).replace(b"\\u001f", b"\x1f")),
        10,
    )
    refused("arrays that nest deeper than JSON is read", put(script, 4, b"[" * 200 + b"]" * 200), 4)
    refused(
        "a version of 33 bits",
        put(script, 4, printed(script[3]).replace(b'"person",1', b'"person",4294967296')),
        4,
    )
    refused("a version below 0", put(script, 4, printed(script[3]).replace(b'"person",1', b'"person",-1')), 4)
    refused("a version with a fraction", put(script, 4, printed(script[3]).replace(b'"person",1', b'"person",1.0')), 4)
    refused("a version with an exponent", put(script, 4, printed(script[3]).replace(b'"person",1', b'"person",1e0')), 4)
    refused(
        "a version with a zero before it",
        put(script, 4, printed(script[3]).replace(b'"person",1', b'"person",01')),
        4,
    )
    refused("a version that is a text", put(script, 4, printed(script[3]).replace(b'"person",1', b'"person","1"')), 4)
    refused(
        "a last request of 65 bits",
        put(script, 3, printed(script[2]).replace(b'"amy",4', b'"amy",18446744073709551616')),
        3,
    )
    refused("a digest of 31 bytes", put(script, 3, printed(script[2]).replace(b"[55,", b"[")), 3)
    refused("a digest of 33 bytes", put(script, 3, printed(script[2]).replace(b"[55,", b"[55,0,")), 3)
    refused("a digest with a byte of 9 bits", put(script, 3, printed(script[2]).replace(b"[55,", b"[256,")), 3)
    refused("an unknown last request", put(script, 3, printed(script[2]).replace(b"committed", b"commited")), 3)
    refused("a folded attribute of 17 bits", put(script, 8, printed(script[7]).replace(b"[0],[]", b"[0],[65536]")), 8)
    refused("a name of 201 bytes", put(script, 3, printed(script[2]).replace(b"amy", b"a" * 201)), 3)
    refused("a typed text of 201 bytes", put(script, 11, printed(script[10]).replace(b"Ldn", b"l" * 201)), 11)
    refused("a text of a region of 201 bytes", put(script, 10, printed(script[9]).replace(b"G1", b"g" * 201)), 10)
    refused("an unknown stage", put(script, 11, printed(script[10]).replace(b"committed", b"done")), 11)
    refused("a flag that is a number", put(script, 11, printed(script[10]).replace(b"true", b"1")), 11)
    refused("a body of UTF-8 as a list of bytes", put(script, 7, printed(script[6][:-1] + [list(RULES.encode())])), 7)
    refused("a body that is a number", put(script, 7, printed(script[6][:-1] + [1])), 7)
    refused("a body with a byte of 9 bits", put(script, 7, printed(script[6][:-1] + [[255, 256]])), 7)
    refused("a value too many", put(script, 7, printed(script[6] + [0])), 7)
    refused("a value too few", put(script, 7, printed(script[6][:-1])), 7)
    refused("a schema at another place", put(script, 4, printed(["schema", 1] + script[3][2:])), 4)
    refused("a clerk after a place that is left out", put(script, 3, printed(["clerk", 2] + script[2][2:])), 3)
    refused("a clerk at the last place", put(script, 3, printed(["clerk", 4294967295] + script[2][2:])), 3)
    refused(
        "a session after a place that is left out",
        put(script, 12, printed(["session", 1, 2] + script[11][3:])),
        12,
    )
    refused("a session of a clerk who is not there", put(script, 11, printed(["session", 2] + script[10][2:])), 11)
    refused("a record of a clerk who is not there", put(script, 13, printed(["record", 2] + script[12][2:])), 13)
    refused(
        "a batch of a clerk who is not there",
        text_of(every[:-2] + [["batch", 3, 0] + batch(1, 2)] + every[-1:]),
        len(every) - 1,
    )


# ---- dumps of damaged tables


def write_damaged():
    damaged("no clerk but another than the steward", {"clerk": [clerk("bob")]}, 1, 1)
    damaged("a clerk's name twice", {"clerk": [clerk("steward", 2, "x", "clerk", 1), clerk("amy"), clerk("amy")]}, 1, 3)
    damaged("a last request about a row that is not there", {"clerk": [clerk("steward", 1, "x", "schema", 0)]}, 1, 1)
    damaged("a digest of no request", {"clerk": [clerk("steward", 0, "x")]}, 1, 1)
    damaged("a schema that does not read", with_rows(SCRIPT, schema=[schema("name = 1\n")]), 2, 1)
    damaged("a schema of the second version alone", with_rows(SCRIPT, schema=[schema(version=2)]), 2, 1)
    damaged("a master that does not read", with_rows(SCRIPT, master=[master("code,code\n"), SCRIPT["master"][1]]), 3, 1)
    damaged(
        "a master of the third version after the first",
        with_rows(SCRIPT, master=[master(), master(version=3)]),
        3,
        2,
    )
    damaged("rules over a schema that is not there", with_rows(SCRIPT, rulebook=[rulebook(over=1)]), 4, 1)
    damaged(
        "an edition of a rulebook that is not there",
        with_rows(SCRIPT, edition=[edition(rules=1), edition(version=2, masters=(1,))]),
        5,
        1,
    )
    damaged(
        "an edition of a master that is not there",
        with_rows(SCRIPT, edition=[edition(), edition(version=2, masters=(2,))]),
        5,
        2,
    )
    damaged("a region of an edition that is not there", with_rows(SCRIPT, region=[region(2)]), 6, 1)
    damaged(
        "a session of an edition that is not there",
        with_rows(SCRIPT, session=[[], [session(stage="committed"), session(over=2)]]),
        7,
        2,
    )
    damaged(
        "a session of a batch that is not there",
        with_rows(SCRIPT, session=[[], [session(stage="committed"), session(batch=1)]]),
        7,
        2,
    )
    damaged("a record of an active session", with_rows(SCRIPT, record=[[], [record(2)]]), 8, 1)
    damaged("a batch of sessions that are not there", with_rows(SCRIPT, batch=[[], [batch(2, 2)]]), 9, 1)
    damaged(
        "a damaged region and a damaged record: the first is told",
        with_rows(SCRIPT, region=[region(2)], record=[[], [record(2)]]),
        6,
        1,
    )


# ---- devices that fail, other desks, words


def write_devices():
    text = dump(SCRIPT)
    bad = dump(with_rows(SCRIPT, region=[region(2)]))
    line = b"damaged table 6 row 1\n"
    last = len(whole(SCRIPT))
    usage = b"usage: fixdesk_restore < DUMP\n"
    file = "restored-devices"
    case(file, "the first read fails", text, reads=1, status=2, desk="new")
    case(file, "a later read fails", text, cut=100, reads=4, status=2, desk="new")
    case(file, "the read that would find the end fails", text, reads=2, status=2, desk="new")
    case(file, "the keeper does not load", text, fails=1, status=4, desk="new")
    case(file, "the keeper does not commit", text, fails=2, status=4, desk="new")
    case(
        file,
        "what is no dump is refused before the keeper is called",
        text[:-1],
        fails=1,
        status=7,
        line=last,
        desk="failed",
    )
    case(file, "so are damaged tables", bad, fails=1, status=6, said=line, desk="failed")
    case(file, "and words", text, words="now", fails=1, status=1, said=usage, desk="failed")
    case(file, "the keeper is called twice", text, fails=3, status=0, desk="failed")
    case(file, "another desk is there", dump(NEW), steward="bob", status=10, desk="other")
    case(
        file,
        "another desk is there, and the keeper would not commit",
        text,
        steward="bob",
        fails=3,
        status=10,
        desk="failed",
    )
    case(
        file,
        "another desk is there, and this is no dump",
        text[:-1],
        steward="bob",
        status=7,
        line=last,
        desk="other",
    )
    case(
        file,
        "another desk is there, and these tables are damaged",
        bad,
        steward="bob",
        status=6,
        said=line,
        desk="other",
    )
    case(file, "the output fails at the line of a damaged row", bad, writes=1, status=3, desk="new")
    case(file, "the output has room for a part of this line", bad, room=7, cut=7, status=3, said="damaged", desk="new")
    case(file, "two words", text, words="a b", status=1, said=usage, desk="new")
    case(file, "the output fails at the usage line", text, words="now", writes=1, status=3, desk="new")
    case(file, "an output that fails is not needed for a desk", text, writes=1, status=0, desk="restored")


# ---- wrong on purpose


def write_differ():
    file = "restored-differ"
    case(file, "another status is wanted", dump(NEW), status=7, desk="restored")
    case(file, "another line is wanted", b"", status=7, line=2, desk="new")
    case(file, "a line is wanted of what is restored", dump(NEW), status=0, line=1, desk="restored")
    case(file, "another desk is wanted", dump(PUBLISHED), status=0, desk="new")
    case(file, "no desk is wanted", dump(NEW), status=0)
    case(
        file,
        "another damage is wanted",
        dump({"clerk": [clerk("bob")]}),
        status=6,
        said=b"damaged table 1 row 2\n",
        desk="new",
    )
    case(file, "another row is wanted", dump(NEW), status=0, desk="restored", rows=shown({"clerk": [clerk("bob")]}))


REMARKS = {
    "restored-desks": "Dumps that are restored: the keeper has the desk then whose dump it is, to the byte.",
    "restored-refused": "Texts that are no dump. Wanted is the line, counted from 1, that is the first to differ from the"
    " dump of what is read of\nthe text; the keeper has a new desk still.",
    "restored-damaged": "Dumps of tables that are not valid (`docs/tables.md`). Wanted is the line that names the first"
    " damaged row; the keeper\nhas a new desk still.",
    "restored-devices": "Sources, keepers and outputs that fail, other desks, and words.",
    "restored-differ": "Wrong on purpose: one case for each way in which an answer can differ.",
}
MADE = "Written by `examples/dumps/dumps.py`."


def main():
    write_restored()
    write_refused()
    write_damaged()
    write_devices()
    write_differ()
    for name, cases in FILES.items():
        with open(os.path.join(sys.argv[1], name + ".cases"), "w") as out:
            out.write(REMARKS[name] + "\n" + MADE + "\n\n" + "\n".join(cases))
        print(name, len(cases))


if __name__ == "__main__":
    main()
