"""Writes the files of the page into the source of `fixdesk_web`, as constants.

    python3 web/embed.py            writes crates/fixdesk_web/src/pages.rt
    python3 web/embed.py --check    ends with status 1 where it is not what would be written
"""

import pathlib
import sys

HERE = pathlib.Path(__file__).resolve().parent
SOURCE = HERE.parent / "crates" / "fixdesk_web" / "src" / "pages.rt"
# The path of each page, what it is, and its file.
PAGES = [
    ("/", "Html", "index.html"),
    ("/web/desk.css", "Css", "desk.css"),
    ("/web/desk.js", "Script", "desk.js"),
]
# The most characters of a literal, quotes apart.
WIDTH = 110
ESCAPES = {"\\": "\\\\", '"': '\\"', "\n": "\\n", "\r": "\\r", "\t": "\\t"}


def constant(name):
    """The name of the constant with a file's text."""
    return name.replace(".", "_").upper()


def literals(text):
    """The literals that are a text together: each line in one, or in several where it is long."""
    for line in text.splitlines(keepends=True):
        piece = ""
        for letter in line:
            written = ESCAPES.get(letter, letter)
            if len(piece) + len(written) > WIDTH:
                yield piece
                piece = ""
            piece += written
        yield piece


def source():
    """The source of the module."""
    parts = [
        "//! The pages of the program, written by `web/embed.py` from the files of `web/`.\n",
        "use http_desk::{ContentType, Page};\n\n",
        "/// Each page, with its path.\n",
        f"pub const PAGES: [Page; {len(PAGES)}] = [\n",
    ]
    for path, kind, name in PAGES:
        parts += [
            "    Page {\n",
            f'        path: "{path}",\n',
            f"        kind: ContentType::{kind},\n",
            f"        text: {constant(name)},\n",
            "    },\n",
        ]
    parts.append("];\n")
    for _, _, name in PAGES:
        text = (HERE / name).read_bytes().decode("utf-8")
        parts.append(f"\nconst {constant(name)}: &str = concat!(\n")
        parts += [f'    "{literal}",\n' for literal in literals(text)]
        parts.append(");\n")
    return "".join(parts)


def main():
    if sys.argv[1:] == ["--check"]:
        if not SOURCE.exists() or SOURCE.read_text(encoding="utf-8") != source():
            sys.exit(f"{SOURCE.name} is not what web/embed.py writes")
    elif sys.argv[1:]:
        sys.exit(__doc__)
    else:
        SOURCE.write_text(source(), encoding="utf-8")


if __name__ == "__main__":
    main()
