"""How pages are dressed: the link to the sheet, and the line that leads to the contents and to the index.

Names in a page are as the desk writes them (docs/RULES.md): `</head>`, a line feed and `<body>` stand once in a page, since a title is
escaped. All else of a page stays as it is."""
from __future__ import annotations

import pathlib

SHEET = "dita_desk.css"
CONTENTS_PAGE = "index.html"
TERMS_PAGE = "terms.htm"

_OWN = pathlib.Path(__file__).resolve().parent.parent / "style.css"
_SEAM = b"</head>\n<body>\n"
_VIEWPORT = b'<meta name="viewport" content="width=device-width, initial-scale=1">'


def sheet_bytes(file: pathlib.Path | None = None) -> bytes:
    """The bytes of the sheet FILE, or of the one that comes with the tool."""
    return pathlib.Path(file or _OWN).read_bytes()


def title_of(page: bytes) -> bytes:
    """What stands in the title of a page, escaped as it is there."""
    return page.partition(b"<title>")[2].partition(b"</title>")[0]


def dress(page: bytes, page_path: str, contents: bytes = b"Contents", terms: bytes | None = None) -> bytes:
    """The page with a line in its head that links the sheet, and a line at the top of its body that leads to the contents with the words
    CONTENTS, and to the index with the words TERMS if there is one (both escaped already). A page does not lead to itself, and without a
    link there is no line. Bytes that are no page of the desk stay as they are."""
    head, seam, body = page.partition(_SEAM)
    if not seam:
        return page
    up = b"../" * page_path.count("/")
    links = []
    if page_path != CONTENTS_PAGE:
        links.append(b'<a href="%s%s">%s</a>' % (up, CONTENTS_PAGE.encode(), contents))
    if terms is not None and page_path != TERMS_PAGE:
        links.append(b'<a class="terms" href="%s%s">%s</a>' % (up, TERMS_PAGE.encode(), terms))
    line = b'<nav class="contents">%s</nav>\n' % b" ".join(links) if links else b""
    sheet = b'<link rel="stylesheet" href="%s%s">' % (up, SHEET.encode())
    return b"".join([head, b"\n", _VIEWPORT, sheet, b"\n", seam, line, body])


def add_line(page: bytes, line: bytes) -> bytes:
    """The page with this line at the end of its head. Bytes that are no page of the desk stay as they are."""
    head, seam, body = page.partition(_SEAM)
    return b"".join([head, b"\n", line, b"\n", seam, body]) if seam else page
