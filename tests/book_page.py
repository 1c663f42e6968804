#!/usr/bin/env python3
"""Writes the book of a cycle of letters without the program: pages whose rows have only characters, colours and new backgrounds.

`make_data.py` makes a cycle and its book with it. The sheets, the script and the heads are those that docs/FORMATS.md describes.
"""
HEAD = (
    '<!DOCTYPE html>\n<html lang="en"><head><meta charset="utf-8"/><meta name="viewport" '
    'content="width=device-width"/><title>Teletext pages</title><style>'
)
SHEET = (
    '.t path{fill:none;stroke:currentColor;stroke-width:8;shape-rendering:crispEdges}.t '
    '.g{stroke-width:24}.t .s{stroke-width:6;stroke-dasharray:0 1 8 1}.t text{font:24px Bedstead '
    'Extended,Bedstead,ui-monospace,Menlo,Consolas,DejaVu Sans Mono,monospace;'
    'white-space:pre}.t tspan{fill:currentColor}.c0{color:#000}.c1{color:#f00}.c2{color:#0f0}'
    '.c3{color:#ff0}.c4{color:#00f}.c5{color:#f0f}.c6{color:#0ff}.c7{color:#fff}.t .c8{color:#456;'
    'stroke-dasharray:19 1}.f{animation:f 1s step-end infinite}@keyframes f{50%{color:transparent}}'
    '@media(prefers-reduced-motion:reduce){.f{animation:none}}body{margin:0;background:#222;color:#ddd;'
    'font:16px sans-serif}main{max-width:800px;margin:auto}.t{display:block;width:100%;height:auto;'
    'aspect-ratio:4/3}nav{display:flex;background:#000}.k{flex:1;padding:.7em 0;text-align:center;'
    'text-decoration:none}.k:focus,a.k:hover{outline:2px solid}details{padding:.7em}'
)
BOOK_SHEET = (
    '.i{flex-wrap:wrap}.i a{padding:.4em;color:#fff}h2{font-size:1em;margin:0;padding:.7em}'
    '.i a{display:flex;flex:1 1 22em;gap:1em;text-decoration:none}.i span{white-space:pre;font-family:monospace}'
    'section{content-visibility:auto;contain-intrinsic-size:auto calc(min(100vw,800px)*.75 + 7.7em)}#n{position:fixed;top:0;right:0;'
    'background:#000;color:#fff;padding:.2em .4em;font-size:1.5em}#n:empty{display:none}'
)
INDEX = (
    '</style></head><body><main><output id="n"></output><nav class="i" aria-label="Pages">'
)
SCRIPT = (
    "<script>var t='',n=document.getElementById('n');document.addEventListener('keydown',"
    'function(e){if(e.ctrlKey||e.altKey||e.metaKey||!/^[0-9]$/.test(e.key))return;'
    't=t.length==3?e.key:t+e.key;n.textContent=t;if(t.length==3){var p=document.getElementById(t);'
    "if(p){location.hash=t;n.textContent='';s(p,9)}else n.textContent=t+'?'}});"
    'function s(p,k){p.scrollIntoView();if(k)setTimeout(function(){s(p,k-1)},50)}</script>'
)
SVG = (
    '<svg xmlns="http://www.w3.org/2000/svg" class="t" viewBox="0 0 800 600" xml:space="preserve" '
    'role="img" aria-label="Teletext page"><rect width="800" height="600"/>'
)
TEXT = '<text y="18" textLength="800" lengthAdjust="spacingAndGlyphs">'
ENTITIES = {"<": "&lt;", ">": "&gt;", "&": "&amp;", '"': "&quot;", "'": "&#39;"}
KEYS = (("Red", 1), ("Green", 2), ("Yellow", 3), ("Cyan", 6), ("Next", 7), ("Index", 7))


def cells(codes):
    """The cells of a row: character, foreground and background. A colour acts from the next cell on, a background at once."""
    fore, back, out = 7, 0, []
    for code in codes:
        if code == 0x1D:
            back = fore
        out.append((chr(code) if code >= 0x20 else " ", fore, back))
        if 1 <= code <= 7:
            fore = code
    return out


def escaped(text):
    return "".join(ENTITIES.get(c, c) for c in text)


def ground(row):
    """The strokes of everything that is not black, with a path wherever the colour changes."""
    out, pen, start = "", 0, 0
    for at, back in enumerate([*(back for _, _, back in row), 0]):
        before = row[at - 1][2] if at else 0
        if back == before:
            continue
        if before:
            out += str(20 * at)
        if back:
            if back != pen:
                out += ('"/>' if pen else "") + f'<path class="g c{back}" d="'
            out += f"M{20 * at} 12H"
            pen = back
    return out + ('"/>' if pen else "")


def letters(row):
    text = "".join(c for c, _, _ in row).rstrip()
    if not text:
        return ""
    out, pen = TEXT, None
    for c, fore, _ in row:
        if c != " " and fore != pen:
            out += ("</tspan>" if pen is not None else "") + f'<tspan class="c{fore}">'
            pen = fore
        out += escaped(c)
    return out + "</tspan></text>"


def picture(rows):
    groups = [f'<g transform="translate(0 {24 * number})">' for number in range(25)]
    grounds = "".join(group + ground(row) + "</g>" for group, row in zip(groups, rows))
    glyphs = "".join(group + letters(row) + "</g>" for group, row in zip(groups, rows))
    return SVG + grounds + glyphs + "</svg>"


def key(name, colour, link):
    if link is None:
        return f'<span class="k c{colour}">-</span>'
    return f'<a class="k c{colour}" href="#{link}" title="{name}: page {link}">{link}</a>'


def leaf(number, sub, rows, links, first):
    name = f"{number}/{sub}"
    nav = "".join(key(*it, links.get(n)) for n, it in enumerate(KEYS))
    text = "".join(escaped("".join(c for c, _, _ in row).rstrip()) + "\n" for row in rows)
    return (
        (f'<a id="{number}"></a>' if first else "")
        + f'<section id="{name}"><h2>{name}</h2>{picture(rows)}<nav>{nav}</nav>'
        + f"<details><summary>Text</summary><pre>{text}</pre></details></section>"
    )


def title(codes):
    """The 24 characters of a page header."""
    return escaped("".join(chr(code) if code >= 0x20 else " " for code in codes.get(0, b"").ljust(40)[8:32]))


def book(pages):
    """The book of pages in the order of their numbers. A page is its number, its subcode, the codes of its rows by number, its links by key."""
    index = "".join(f'<a href="#{number}/{sub}">{number}/{sub}<span>{title(codes)}</span></a>' for number, sub, codes, _ in pages)
    leaves, former = "", None
    for number, sub, codes, links in pages:
        rows = [cells(codes.get(n, b"").ljust(40)) for n in range(25)]
        leaves += leaf(number, sub, rows, links, number != former)
        former = number
    return HEAD + SHEET + BOOK_SHEET + INDEX + index + "</nav>" + leaves + SCRIPT + "</main></body></html>\n"
