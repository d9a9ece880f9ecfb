"""What each page of HTML has that `page` makes: a head, a title, some words, and what a report tells between them and the end."""
from __future__ import annotations

from typing import BinaryIO, List, Tuple

from .text import text_of

MANY = 24  # accounts, from which on the letters are smaller


def begin(title: bytes, about: bytes, page: BinaryIO) -> None:
    page.write(HEAD.replace(b'TITLE', title) + about)


def begin_table(caption: bytes, accounts: List[bytes], page: BinaryIO) -> None:
    """A table with a row for each data set and a column for each of these accounts."""
    page.write(text_of([b'<table class="sets" style="--accounts: %d">' % len(accounts), b'<caption>%s</caption>' % caption,
                        b'<colgroup><col/><col span="%d"/></colgroup>' % len(accounts), *titles(b'Data set', *accounts), b'<tbody>']))


def begin_letters(caption: bytes, accounts: List[bytes], page: BinaryIO) -> None:
    """The same, of cells that have three letters each, and names of accounts that stand upright: fifty fit on a screen."""
    page.write(text_of([b'<table class="letters%s">' % (b' many' if len(accounts) > MANY else b''), b'<caption>%s</caption>' % caption, *titles(b'Data set', *accounts), b'<tbody>']))


def titles(*words: bytes) -> Tuple[bytes, ...]:
    return (b'<thead>', b'<tr>', *(b'<th scope="col">%s</th>' % word for word in words), b'</tr>', b'</thead>')


def write_row(name: bytes, cells: List[bytes], page: BinaryIO) -> None:
    page.write(text_of([b'<tr>', b'<th scope="row">%s</th>' % name, *cells, b'</tr>']))


def cell(lines: List[bytes], kind: bytes) -> bytes:
    """A cell with these lines. A kind is a class of the style: `part`, `none`, or nothing."""
    return b'<td%s>%s</td>' % (b' class="%s"' % kind if kind else b'', b'<br/>'.join(lines))


def end_table(page: BinaryIO) -> None:
    page.write(text_of([b'</tbody>', b'</table>']))


def links(names: List[bytes], page: BinaryIO) -> None:
    """A link to each part of the page."""
    page.write(text_of([b'<nav>', *(b'<a href="#%s">%s</a>' % (_anchor(name), name) for name in names), b'</nav>']))


def begin_part(name: bytes, page: BinaryIO) -> None:
    page.write(text_of([b'<section id="%s">' % _anchor(name)]))


def end_part(page: BinaryIO) -> None:
    page.write(text_of([b'</section>']))


def _anchor(name: bytes) -> bytes:
    return name.lower().replace(b' ', b'-')


def begin_folded(summary: bytes, page: BinaryIO) -> None:
    """What shows only when one asks for it."""
    page.write(text_of([b'<details>', b'<summary>%s</summary>' % summary]))


def end_folded(page: BinaryIO) -> None:
    page.write(text_of([b'</details>']))


def paragraph(text: str, page: BinaryIO) -> None:
    page.write(text_of([b'<p>%s</p>' % text.encode()]))


def end(page: BinaryIO) -> None:
    page.write(END)


HEAD = b'''<!DOCTYPE html>
<html lang="en">
<head>
<meta charset="utf-8"/>
<meta http-equiv="Content-Security-Policy" content="default-src 'none'; style-src 'unsafe-inline'"/>
<meta name="viewport" content="width=device-width, initial-scale=1"/>
<title>TITLE</title>
<style>
:root { color-scheme: light dark; --page: #fff; --text: #1a1a1a; --line: #b5b5b5; --head: #ececec; --part: #fff3cf;
  --none: #fbdfda; --done: #6a8fb8; --denied: #c6452f }
@media (prefers-color-scheme: dark) {
  :root { --page: #16181c; --text: #e8e8e8; --line: #565b64; --head: #2a2e36; --part: #40371a; --none: #4a2521; --done: #5b84b1; --denied: #d5604b }
}
body { margin: 1rem; background: var(--page); color: var(--text); font: 0.95rem/1.4 sans-serif }
p { max-width: 48em }
table { --set: 14em; --account: 12em; margin-bottom: 1rem; border-spacing: 0; border: solid var(--line); border-width: 1px 0 0 1px }
table.sets { table-layout: fixed; width: calc(var(--set) + var(--account) * var(--accounts)) }
table.sets col { width: var(--account) }
table.sets col:first-child { width: var(--set) }
caption { width: 0; min-width: 100%; padding: 0.5em 0; text-align: left; font-weight: bold; white-space: nowrap }
nav a, summary { margin-right: 1.2em }
section, details { margin-top: 1rem }
th, td { padding: 0.3em 0.5em; border: solid var(--line); border-width: 0 1px 1px 0 }
th, td { text-align: left; vertical-align: top; overflow-wrap: break-word }
code { white-space: nowrap }
th { position: sticky; background: var(--head) }
thead th { top: 0; z-index: 1 }
tbody th, thead th:first-child { left: 0 }
thead th:first-child { z-index: 2 }
.part { background: var(--part) }
.none { background: var(--none) }
td.number { text-align: right }
table.letters th, table.letters td { padding: 2px 4px; font: 13px/1.3 monospace }
table.letters td { text-align: center; white-space: nowrap }
table.letters thead th:not(:first-child) { writing-mode: vertical-rl; text-align: end }
table.letters th:first-child { width: 150px; min-width: 150px; overflow-wrap: anywhere; vertical-align: bottom }
table.letters.many th, table.letters.many td { padding: 1px; font-size: 10px }
table.letters.many td { min-width: 18px }
ul.legend { padding-left: 1.2em }
td.bar { width: 20rem; min-width: 8rem; white-space: nowrap; font-size: 0; vertical-align: middle }
td.bar span { display: inline-block; height: 1rem }
span.done { background: var(--done) }
span.denied { background: var(--denied) }
.legend .done, .legend .denied { padding: 0 0.3em; color: #fff }
ins { background: var(--part); text-decoration: none }
@media (max-width: 40em) {
  table { --set: 7em; --account: 9em; font-size: 0.85rem }
  th, td { padding: 0.2em 0.35em }
  caption { white-space: normal }
  table:not(.sets) tbody th { min-width: 4.5em; max-width: 9em; overflow-wrap: anywhere }
  #permission-lists tbody th { min-width: 0 }
  td.bar { width: 8rem; min-width: 4rem }
}
@media print { th { position: static } }
</style>
</head>
<body>
<h1>TITLE</h1>
'''
END = b'''</body>
</html>
'''
