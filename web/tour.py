"""A tour of the page in Debian's chromium, as a steward and as a clerk, with pictures.

    python3 web/tour.py http://127.0.0.1:PORT [PICTURES]

A new desk is to be served there, with the page. The tour does what `examples/postal/tour.sh` does and more, looks at
what the page shows, and ends with status 0 where all of it is as it should be. PICTURES is the folder for the pictures,
docs/web else. It needs chromium and chromium-driver, and nothing else: the driver is spoken to as WebDriver says.
"""

import contextlib
import json
import pathlib
import re
import sys
import tempfile
import threading
import time
import urllib.error
import urllib.request

from browser import ARROW_DOWN, ENTER, ESCAPE, SPACE, TAB, Browser
import dev

HERE = pathlib.Path(__file__).resolve().parent
TOP = HERE.parent
POSTAL = TOP / "examples" / "postal"
VIEWS = "clerk session/1 session/6 session/7 steward published edition/postal/1 master/post/1".split()


def step(words):
    print(f"== {words}", flush=True)


def expect(holds, words):
    """Ends the tour where something is not as it should be."""
    if not holds:
        raise AssertionError(words)


class Desk:
    """The desk beside the page: what another program would ask of it."""

    def __init__(self, address):
        self.address = address

    def ask(self, method, path, body=None):
        data = None if body is None else body.encode()
        request = urllib.request.Request(self.address + path, data, method=method)
        try:
            with urllib.request.urlopen(request, timeout=60) as reply:
                return reply.read().decode()
        except urllib.error.HTTPError as refused:
            return refused.read().decode()

    def wait(self):
        """Waits until the desk answers, a minute at most."""
        for _ in range(120):
            try:
                return self.ask("GET", "/desk/published")
            except OSError:
                time.sleep(0.5)
        sys.exit(f"no desk answers at {self.address}")

    def last(self, clerk):
        return dict(json.loads(self.ask("GET", "/desk/published"))["clerks"])[clerk]


# ---- The steward -----------------------------------------------------------------------------------------------------


def opened(page, kind):
    """Opens the form of a kind, and gives the start of the selectors below it."""
    form = f"#publish-{kind}"
    if page.run(f"return !document.querySelector('{form}').open"):
        page.click(f"{form} summary")
    return form


def check(page, kind, words):
    form = opened(page, kind)
    page.click(f"{form} form button[type=submit]")
    page.until(f"{form} .result", words)


def publish(page, kind, words):
    page.click(f"#publish-{kind} .result button")
    page.until(f"#publish-{kind} .result", words)


def steward(page, pictures, folder):
    step("the steward adds a clerk, and hears why another name is none")
    page.until("#said", "There is no clerk yet. The steward adds clerks.")
    page.go("#steward")
    page.until("h2", "Publish")
    opened(page, "edition")
    page.type("#new-edition", "postal")
    check(page, "edition", "No rulebook is published yet. Publish one first.")
    page.click("#publish-edition summary")
    form = opened(page, "clerk")
    page.type("#new-clerk", "amy")
    page.click(f"{form} button")
    page.until(f"{form} .result", "The clerk amy is added.")
    page.type("#new-clerk", "amy")
    page.click(f"{form} button")
    page.until(f"{form} .result", "The name amy is taken.")
    page.go("#clerk")
    page.click("#enter-record")
    page.until("#refused", "No edition is published yet. The steward publishes one.")
    page.go("#steward")

    step("publishes a schema and two masters, each checked first")
    opened(page, "schema")
    page.file("#schema-file", POSTAL / "address.toml")
    check(
        page,
        "schema",
        "It fits: the schema address would be version 1, with the attributes zip, street, city, region and country.",
    )
    publish(page, "schema", "The schema address is published as version 1.")
    for name, rows in (
        ("post", "8 rows and the columns code, town and area"),
        ("areas", "4 rows and the columns area and nation"),
    ):
        opened(page, "master")
        page.file("#master-file", POSTAL / f"{name}.csv")
        expect(page.value("#master-name") == name, "the name of a master is taken from its file")
        check(page, "master", f"It fits: the master {name} would be version 1, with {rows}.")
        publish(page, "master", f"The master {name} is published as version 1.")
        page.type("#master-name", "")

    step("a file that is too long is not sent")
    long = folder / "long.csv"
    long.write_text("code\n" + "x" * 4194300)
    page.file("#master-file", long)
    check(page, "master", "long.csv has 4194305 bytes, and may have 4194304.")
    page.type("#master-name", "")

    step("a slip in the rules is told in words, with its place")
    slip = folder / "postal.txt"
    slip.write_text("rule town from post: zip=code=> city=town;\n")
    opened(page, "rulebook")
    page.file("#rulebook-file", slip)
    page.type("#rulebook-name", "postal")
    page.file("#master-file", POSTAL / "post.csv")
    check(page, "master", "It fits: the master post would be version 2")
    check(page, "rulebook", "Line 1, column 30: expected -> or a comma, and found =")
    page.click("#publish-clerk summary")
    page.click("#publish-schema summary")
    page.picture(pictures / "check.png")
    page.type("#master-name", "")

    step("publishes the rules, and an edition of them by its fields")
    page.file("#rulebook-file", POSTAL / "rules.txt")
    check(page, "rulebook", "It fits: the rulebook postal would be version 1, with the rules town, region and country.")
    publish(page, "rulebook", "The rulebook postal is published as version 1.")
    opened(page, "edition")
    page.type("#new-edition", "postal")
    page.click("#has-post")
    check(page, "edition", "Rule country looks into the master areas, which the edition does not have")
    page.click("#has-areas")
    page.type("#edition-folded", "zip")
    check(page, "edition", "It fits: the edition postal would be version 1, whose index has 20 entries.")
    publish(page, "edition", "The edition postal is published as version 1.")


def regions(page, folder):
    step("publishes a region from a sheet, and one of derived rows")
    opened(page, "region")
    sheet = folder / "region.csv"
    sheet.write_text("zip,street\nEH7 4AA,12 Easter Road\nKA6 7PD,1 Main Street\n")
    page.file("#region-file", sheet)
    check(page, "region", "The file has 2 rows of zip and street.")
    publish(page, "region", "Region 1 is published: 1 certain, 0 partial, 1 in conflict.")
    opened(page, "derived")
    page.until("#derived-pairs", "country")
    page.choose("#column-zip", "code")
    check(page, "derived", "post gives 0 rows; a region has at most 200.")


def offers(page, folder):
    step("a region of derived rows: what is typed fits one of its rows, which makes the record certain")
    schema = folder / "place.toml"
    schema.write_text('name = "place"\nattributes = ["zip", "city", "region", "country"]\n')
    page.go("#steward")
    opened(page, "schema")
    page.file("#schema-file", schema)
    check(page, "schema", "It fits: the schema place would be version 1")
    publish(page, "schema", "The schema place is published as version 1.")
    opened(page, "rulebook")
    page.file("#rulebook-file", POSTAL / "rules.txt")
    page.type("#rulebook-name", "place")
    page.choose("#rulebook-schema", "place/1")
    check(page, "rulebook", "It fits: the rulebook place would be version 1")
    publish(page, "rulebook", "The rulebook place is published as version 1.")
    opened(page, "edition")
    page.type("#new-edition", "place")
    page.choose("#edition-rulebook", "place/1")
    page.click("#has-post")
    page.choose("[data-master=post]", "post/1")
    page.click("#has-areas")
    check(page, "edition", "It fits: the edition place would be version 1, whose index has 20 entries.")
    publish(page, "edition", "The edition place is published as version 1.")
    opened(page, "derived")
    page.choose("#derived-edition", "place/1")
    page.choose("#derived-master", "post/1")
    page.choose("#column-zip", "code")
    check(page, "derived", "post gives 6 rows; a region has at most 200.")
    page.press_button("#publish-derived", "Publish as a region")
    page.until("#publish-derived .result", "Region 1 is published: 6 certain, 0 partial, 0 in conflict.")
    page.go("#clerk")
    page.choose("#edition-name", "place")
    page.click("#enter-record")
    page.until("#next", "Confirm next:")
    page.type("#cell-zip", "G2 4JR")
    page.click("#drafts-keep")
    page.until("#next", "The record is certain once these are confirmed: zip G2 4JR (region 1, row 4).")
    page.press_button("#next", "Confirm these")
    page.until("#said", "Fixed: city Glasgow, region Strathclyde and country Scotland. The record is certain.")


def published(page):
    step("what is published is seen, down to the contradictions of a rule, a region and a row")
    page.go("#published")
    page.until("#published-lists", "amy, 0 accepted writes")
    page.click("a[href='#edition/postal/1']")
    page.until("#one", "Compared without regard to case")
    page.click("button[aria-label='Contradictions of town']")
    page.until("#one-more", "By the rule town, 1 key gives two texts for one attribute.")
    cells = page.run("return [...document.querySelectorAll('#one-more td')].map(cell => cell.textContent)")
    expect(cells == ["town", "post", "7", "city", "Ayr", "8", "Patna"], f"the contradictions of town: {cells}")
    page.click("button[aria-label='Contradictions of country']")
    page.until("#one-more", "The rule country never gives two texts for one attribute.")
    page.press_button("#one", "Region 1")
    page.until("#one-more", "conflict")
    page.go("#rulebook/postal/1")
    page.until("#one pre", "rule country from areas: region = area -> country = nation;")
    page.go("#master/post/1")
    page.until("#one pre", "KA6 7PD,Patna,Strathclyde")
    page.type("#row-number", "8")
    page.click("#one form button")
    page.until("#one-more", "Patna")
    page.type("#row-number", "9")
    page.click("#one form button")
    page.until("#refused", "There is no such row.")


def catalogue(page, pictures):
    step("the catalogue, and the report of the desk")
    page.go("#published")
    page.until("#published-lists", "postal 2")
    page.click("#desk-report-show")
    page.until("#desk-report", "Desk: 8 sessions")
    page.picture(pictures / "published.png")


# ---- The clerk -------------------------------------------------------------------------------------------------------


def cell(page, name):
    """The state, the text and the words of a cell."""
    return page.run(
        """const [name] = arguments, input = document.getElementById('cell-' + name);
        const words = document.getElementById('note-' + name).textContent;
        return [input.closest('.cell').className.split(' ')[1], input.value, words]""",
        name,
    )


def expect_cell(page, name, state, text, words=""):
    got = cell(page, name)
    expect(got[0] == state and got[1] == text and words in got[2], f"the cell {name} is {got}")


def new_record(page):
    page.go("#clerk")
    page.until("#sessions", "")
    page.click("#enter-record")
    page.until("#next", "Confirm next:")


def confirm(page, name, text, words):
    page.type(f"#cell-{name}", text)
    page.keys(ENTER)
    page.until("#said", words)


def clerk(page, pictures):
    step("amy enters an address whose zip she knows: town, region and country are fixed")
    page.go("#clerk")
    page.until("#clerk-name", "amy")
    new_record(page)
    first = page.run("return document.querySelector('#next li').textContent")
    expect(first == "zip may fix 3 more attributes", f"what to confirm first is: {first}")
    page.type("#cell-city", "Edinbrugh")
    confirm(page, "zip", "eh7 4aa", "Fixed: city Edinburgh, region Lothian and country Scotland. Open: street.")
    expect_cell(page, "zip", "confirmed", "eh7 4aa", "Confirmed")
    expect_cell(page, "city", "fixed", "Edinburgh", "Fixed by the rule town, from row 1 of post")
    expect_cell(page, "country", "fixed", "Scotland", "Fixed by the rule country, from row 1 of areas")
    expect_cell(page, "street", "open", "", "No rule fixes this; it can only be confirmed.")

    step("why is the country Scotland? the steps with their rows")
    page.click("#ask-country")
    page.until("#why-country", "Country rests on what you confirmed of zip, by 2 steps.")
    page.until("#why-country", "The rule region looks zip up in post, and fixes region:")
    page.until("#why-country", "LothianScotland")
    page.picture(pictures / "fixed.png")

    step("a commit is refused in words until the street is confirmed")
    page.click("#commit-certain")
    page.until(
        "#refused", "The record is not certain: 1 attribute is open. Confirm what is open, or commit with open cells."
    )
    page.type("#cell-street", "12 Easter Road")
    page.click("#commit-certain")
    page.until("#refused", "Street: typed and not confirmed.")
    page.click("#drafts-preview")
    page.until("#drafts-tried", "and the record certain")
    page.click("#tick-street")
    page.until("#said", "The record is certain.")
    page.click("#tick-street")
    page.until("#said", "Open: street.")
    expect_cell(page, "street", "open", "12 Easter Road")
    page.click("#tick-street")
    page.until("#said", "The record is certain.")
    page.click("#commit-certain")
    page.until("#said", "The record was committed as record 1, and is certain.")
    expect(page.text("#session-state").startswith("The session is committed."), "a committed session says so")


def conflict(page, pictures):
    step("another zip has two towns: a choice between two columns")
    new_record(page)
    page.type("#cell-street", "1 Main Street")
    confirm(page, "zip", "KA6 7PD", "Conflict: choose a text for city.")
    page.until("#conflict", "Ayr, by the rule town, from row 7 of post")
    page.until("#conflict", "Patna, by the rule town, from row 8 of post")
    page.picture(pictures / "conflict.png")
    page.press_button("#conflict", "Take Patna")
    page.until("#said", "Fixed: region Strathclyde and country Scotland. Open: street.")
    expect(page.active() == "cell-city", "the focus is on the cell that was chosen")
    expect_cell(
        page, "city", "confirmed", "Patna", "Warning: here stands Patna, but by the rule town row 7 of post has Ayr."
    )
    expect_cell(page, "street", "open", "1 Main Street")
    page.click("#drafts-keep")
    page.until("#said", "Open: street.")
    page.click("#commit-partial")
    page.until("#said", "The record was committed as record 2, with open cells.")


def blocked(page, pictures):
    step("a zip that is in no master: what stands in the way")
    new_record(page)
    page.type("#cell-street", "1 Main Street")
    page.type("#cell-zip", "ZZ1 1ZZ")
    page.click("#drafts-confirm")
    page.until("#said", "Nothing is fixed. Open: city, region and country.")
    expect_cell(page, "city", "open", "", "The rule town finds no row of post that agrees.")
    expect_cell(page, "country", "open", "", "The rule country waits until region is known.")
    page.picture(pictures / "blocked.png")
    page.click("#abandon")
    expect(page.active() == "abandon-no", "an abandon asks first")
    page.click("#abandon-yes")
    page.until("#said", "The session is abandoned.")


def dissent(page):
    step("a confirmed text that a row says otherwise: a warning beside the cell, and the row's text to take")
    new_record(page)
    confirm(page, "city", "Perth", "Open: zip, street, region and country.")
    confirm(page, "zip", "EH7 4AA", "Warning about city.")
    expect_cell(
        page,
        "city",
        "confirmed",
        "Perth",
        "Warning: here stands Perth, but by the rule town row 1 of post has Edinburgh.",
    )
    page.press_button("#cells", "Take Edinburgh")
    page.until("#said", "Fixed: region Lothian and country Scotland. Open: street.")
    expect("Warning" not in cell(page, "city")[2], "the warning is gone")

    step("a text is a text, whatever stands in it, and one that is too long is refused in words and stays")
    confirm(page, "street", '<b>12</b> & "Easter Road" \u00e9', "The record is certain.")
    expect_cell(page, "street", "confirmed", '<b>12</b> & "Easter Road" \u00e9')
    page.type("#cell-street", "x" * 201)
    page.keys(ENTER)
    page.until("#refused", "The text for street has more than 200 bytes. Shorten it.")
    expect_cell(page, "street", "confirmed", "x" * 201)
    page.keys(ESCAPE)
    expect_cell(page, "street", "confirmed", '<b>12</b> & "Easter Road" \u00e9')
    page.type("#cell-street", "<i>Perth</i>")
    page.click("#drafts-preview")
    page.until(
        "#drafts-tried", "Confirmed so, region Lothian and country Scotland would be fixed, and the record certain."
    )
    page.keys(TAB)
    page.click("#cell-street")
    page.keys(ESCAPE)
    expect(page.run("return document.querySelectorAll('main b, main i').length") == 0, "no text is markup")


def lists(page, folder):
    step("a batch from a file, the list of sessions, the report and the records")
    page.go("#clerk")
    page.until("#sessions", "Session 4")
    sheet = folder / "batch.csv"
    sheet.write_text("zip*,street*,city\nG1 1XQ,15 The Square,\nKA6 7PD,1 Main Street,\n,22 Station Road,Nowhere\n")
    page.file("#batch-file", sheet)
    page.click("#batch-form button")
    page.until(
        "#said",
        "Batch 1 has 3 records: 1 certain, 1 partial, 1 in conflict. The list begins with its first session, 5.",
    )
    sheet.write_text("zip*,town\nG1 1XQ,15 The Square\n")
    page.file("#batch-file", sheet)
    page.click("#batch-form button")
    page.until("#refused", "The schema has no attribute town.")
    sheet.write_text("zip*,city\nG1 1XQ\n")
    page.file("#batch-file", sheet)
    page.click("#batch-form button")
    page.until("#refused", "Row 1 has not as many fields as the header.")
    page.type("#sessions-from", "1")
    page.click("#sessions-form button")
    page.until("#sessions", "abandoned")
    page.click("#clerk-report-show")
    page.until("#clerk-report", "Clerk amy: 7 sessions")
    cells = page.run("return [...document.querySelectorAll('#clerk-report tr')].map(row => row.textContent)")
    heads = "edition sessions active committed abandoned certain partial conflict confirmed fixed uncovered"
    expect(cells[0] == heads.replace(" ", ""), f"the report begins with {cells[0]}")
    expect(cells[1].startswith("postal 174"), f"the report goes on with {cells[1]}")
    page.click("a[href='/see/amy/records/postal/1']")
    kept = folder / "records-amy-postal-1.csv"
    for _ in range(100):
        if kept.exists() and kept.stat().st_size:
            break
        time.sleep(0.1)
    expect(
        kept.read_text().startswith("record,session,certain,zip,street,city,region,country\n1,1,yes,eh7 4aa,"),
        "the records",
    )


def carry(page, folder):
    step("a newer edition is published, and a record is carried to it after a preview")
    post = folder / "post.csv"
    post.write_text((POSTAL / "post.csv").read_text().replace("G1 1XQ,Glasgow", "G1 1XQ,Glasgow City"))
    edition = folder / "edition.json"
    edition.write_text('{"folded":["zip"],"masters":[["post",2],["areas",1]],"rulebook":["postal",1]}')
    page.go("#steward")
    page.until("h2", "Publish")
    opened(page, "master")
    page.file("#master-file", post)
    check(page, "master", "It fits: the master post would be version 2")
    publish(page, "master", "The master post is published as version 2.")
    opened(page, "edition")
    page.type("#new-edition", "postal")
    page.file("#edition-file", edition)
    check(page, "edition", "It fits: the edition postal would be version 2")
    publish(page, "edition", "The edition postal is published as version 2.")
    page.go("#session/5")
    page.until("#carry-words", "Version 2 of postal is published, and this record is on version 1.")
    page.type("#cell-street", "16 The Square")
    page.click("#carry-look")
    page.until("#carry-preview", "Glasgow City, fixed by town, row 3 of post")
    page.click("#carry-do")
    page.until("#session-title", "postal 2")
    expect_cell(page, "city", "fixed", "Glasgow City")
    expect_cell(page, "street", "confirmed", "16 The Square")
    page.type("#cell-street", "15 The Square")
    expect(page.hidden("#carry"), "a record of the newest version is not carried further")


# ---- What holds of all of it -----------------------------------------------------------------------------------------


def elsewhere(page, desk):
    step("another program writes under the same name: the page says so, and takes the number anew")
    page.go("#session/7")
    page.until("#session-title", "Session 7")
    number = desk.last("amy") + 1
    desk.ask("POST", f"/do/amy/{number}/confirm/7", '{"cells":{"city":"Elsewhere"}}')
    confirm(page, "zip", "AB10 1AB", "")
    page.until("#refused", "Someone has written under this name meanwhile, so this was not done.")
    expect_cell(page, "city", "confirmed", "Elsewhere")
    expect_cell(page, "zip", "open", "AB10 1AB")
    page.click("#cell-zip")
    page.keys(ENTER)
    page.until("#said", "Fixed: region Grampian and country Scotland.")


def lost_reply(page, desk, address):
    step("a reply that is lost is asked for again with the same number and body")
    server = dev.Server(0, int(address.rsplit(":", 1)[1]))
    threading.Thread(target=server.serve_forever, daemon=True).start()
    page.open(f"http://127.0.0.1:{server.server_address[1]}/")
    page.until("#clerk-name", "amy")
    new_record(page)
    before = desk.last("amy")
    server.writes.clear()
    server.lose = 1
    confirm(page, "zip", "DD1 4HN", "Fixed: city Dundee, region Tayside and country Scotland.")
    expect(len(server.writes) == 2 and server.writes[0] == server.writes[1], f"the write was sent as {server.writes}")
    expect(desk.last("amy") == before + 1, "a write that was sent twice is done once")
    server.writes.clear()
    server.lose = 5
    page.type("#cell-street", "8 Mill Lane")
    page.keys(ENTER)
    page.until(
        "#refused", "The desk does not answer. What was asked last may be done or not; it is not done twice.", 60
    )
    server.lose = 0
    page.press_button("#refused", "Ask again")
    page.until("#said", "The record is certain.")
    expect(
        len({body for _, body, _ in server.writes}) == 1 and len({path for path, _, _ in server.writes}) == 1,
        "the same write",
    )
    expect(desk.last("amy") == before + 2, "it is done once, however often it was sent")
    server.shutdown()


def by_keyboard(page):
    step("the clerk's tour by keyboard alone: tab, enter, arrows, escape and space")
    page.open_anew()
    page.until("#clerk-name", "amy")
    page.until("#sessions", "Session 1")
    page.tab_to("enter-record")
    page.keys(ENTER)
    page.until("#next", "Confirm next:")
    page.until_active("cell-zip")
    page.keys(*"KA6 7PD", ENTER)
    page.until("#said", "Conflict: choose a text for city.")
    expect(page.active() == "cell-zip", "the focus stays where it was")
    page.tab_to_button("Take Ayr for city", back=True)
    page.keys(ENTER)
    page.until("#said", "Fixed: region Strathclyde and country Scotland.")
    expect(page.active() == "cell-city", "the focus is on the cell that was chosen")
    page.tab_to("ask-country")
    page.keys(ENTER)
    page.until("#why-country", "The rule country looks region up in areas, and fixes country:")
    expect(page.active() == "ask-country", "the focus stays on the question")
    page.tab_to("cell-street", back=True)
    page.keys(*"1 Mian", ESCAPE)
    expect(page.value("#cell-street") == "", "escape takes back what was typed")
    page.keys(*"1 Main Street", TAB)
    expect(page.active() == "tick-street", "the tick comes after its cell")
    page.keys(SPACE)
    page.until("#said", "Fixed: region Strathclyde and country Scotland. The record is certain.")
    expect(page.active() == "tick-street", "the focus stays on the tick")
    page.keys(SPACE)
    page.until("#said", "Open: street.")
    page.keys(SPACE)
    page.until("#said", "The record is certain.")
    page.tab_to("cell-zip", back=True)
    page.keys(ARROW_DOWN)
    expect(page.active() == "cell-street", "an arrow goes to the next cell")
    page.tab_to("commit-certain")
    page.keys(ENTER)
    page.until("#said", "The record was committed as record 3, and is certain.")
    expect(page.active() == "session-title", "where the control is gone, the heading has the focus")


def on_a_phone(page):
    step("nothing is wider than a window of 400 pixels")
    page.width(400)
    for view in VIEWS:
        page.go("#" + view)
        page.until("h2", "")
        page.idle()
        if view == "steward":
            page.run("document.querySelectorAll('details').forEach(one => { one.open = true })")
            page.idle()
        if view == "clerk":
            page.click("#clerk-report-show")
            page.until("#clerk-report", "Clerk amy")
        wide = page.run("return [document.documentElement.scrollWidth, window.innerWidth]")
        expect(wide[0] <= wide[1] == 400, f"{view} is {wide[0]} wide in {wide[1]}")
        readable(page, view)
    page.width(None)


def readable(page, view):
    """Each control has a name in the tree of the accessibility, and each text a contrast of 4.5."""
    nameless = page.nameless()
    expect(nameless == [], f"{view} has controls without a name: {nameless}")
    pale = page.run((HERE / "contrast.js").read_text())
    expect(pale == [], f"{view} has texts of too little contrast: {pale}")


def for_all_eyes(page):
    step("every control has a name, every text enough contrast, and the focus is seen")
    for view in VIEWS:
        page.go("#" + view)
        page.idle()
        if view == "steward":
            page.run("document.querySelectorAll('details').forEach(one => { one.open = true })")
            page.idle()
        readable(page, view)
    page.go("#session/6")
    for _ in range(12):
        page.keys(TAB)
        outline = page.run(
            "const it = getComputedStyle(document.activeElement); return it.outlineStyle + it.outlineWidth"
        )
        expect(outline == "solid3px", f"the focus on {page.active()} is not seen: {outline}")


def words_for_all(page):
    step("each refusal, limit and code of docs/api.md has a sentence")
    api = (TOP / "docs" / "api.md").read_text()
    codes = set(re.findall(r'"error":"(\w+)"', api + (TOP / "docs" / "formats.md").read_text()))
    known = page.run(
        "return [Object.keys(REFUSALS), Object.keys(LIMITS), Object.keys(BAD_TEXTS), Object.keys(JSON_FAULTS)]"
    )
    expect(codes <= set(known[0]), f"no words for {codes - set(known[0])}")
    counted = api.split("### What limits count")[1].split("\n###")[0]
    limits = set(re.findall(r"^\| `(\w+)` \| [\d,]+ \|", counted, re.M))
    expect(len(limits) == 14 and limits == set(known[1]), f"no words for {limits ^ set(known[1])}")
    reader, texts = None, set()
    for line in api.split("### What the codes of `bad_text` mean")[1].split("\n## ")[0].splitlines():
        row = re.match(r"\| (?:`(\w+)`)? ?\| (\d+)(?: to (\d+))? \|", line)
        if row:
            reader = row[1] or reader
            texts |= {f"{reader} {code}" for code in range(int(row[2]), int(row[3] or row[2]) + 1)}
    expect(len(texts) > 20 and texts == set(known[2]), f"no words for {texts ^ set(known[2])}")
    faults = set(re.findall(r'"fault":"(\w+)"', api))
    expect(faults == set(known[3]), f"no words for {faults ^ set(known[3])}")


def framed(page):
    step("inside another page the page stays still")
    page.run("const it = document.createElement('iframe'); it.id = 'inside'; it.src = '/'; document.body.append(it)")
    inside = "document.getElementById('inside').contentDocument"
    page.wait(
        lambda: page.run(f"return ({inside}.getElementById('refused') || document.body).textContent")
        == "The desk is not shown inside another page. Open it by itself.",
        lambda: "the page runs inside another one",
    )


def quiet(page):
    step("no fault of the page on the console, and no request to elsewhere")
    expect(page.faults() == [], f"on the console: {page.faults()}")
    strangers = [
        url for url in page.requested() if not url.startswith(("http://127.0.0.1:", "data:", "chrome:", "blob:"))
    ]
    expect(strangers == [], f"requests to elsewhere: {strangers}")
    kept = page.run("return [{...localStorage}, {...sessionStorage}, document.cookie]")
    expect(kept == [{"fixdesk.clerk": "amy"}, {}, ""] or kept == [{}, {}, ""], f"the browser keeps {kept}")


def main():
    if len(sys.argv) not in (2, 3):
        sys.exit("usage: tour.py ADDRESS [PICTURES]")
    address = sys.argv[1].rstrip("/")
    pictures = pathlib.Path(sys.argv[2] if len(sys.argv) == 3 else TOP / "docs" / "web")
    pictures.mkdir(parents=True, exist_ok=True)
    desk = Desk(address)
    desk.wait()
    with contextlib.ExitStack() as stack:
        folder = pathlib.Path(stack.enter_context(tempfile.TemporaryDirectory()))
        page = stack.enter_context(Browser(address, folder))
        page.open(address + "/")
        steward(page, pictures, folder)
        regions(page, folder)
        published(page)
        clerk(page, pictures)
        conflict(page, pictures)
        blocked(page, pictures)
        dissent(page)
        lists(page, folder)
        carry(page, folder)
        elsewhere(page, desk)
        offers(page, folder)
        catalogue(page, pictures)
        by_keyboard(page)
        for_all_eyes(page)
        on_a_phone(page)
        words_for_all(page)
        framed(page)
        lost_reply(page, desk, address)
        quiet(page)
    print("the tour is done")


if __name__ == "__main__":
    main()
