"""The document of `report`, by a plain model. `make_data.py` makes one with it, and `reported.py` those of generated services."""
from dataclasses import dataclass

TITLE = "Report on a teletext carousel"
STYLE = (
    "body{margin:0;background:#fff;color:#000;font:16px/1.45 Helvetica,Arial,sans-serif}main{max-width:60em;margin:auto;padding:1em}"
    "h1{font-size:1.5em}h2{font-size:1.1em;margin:1.6em 0 .4em;border-bottom:1px solid #000}p,ul{margin:.4em 0}"
    "table{border-collapse:collapse}td,th{padding:.15em 1.2em .15em 0;text-align:left;vertical-align:top;border-bottom:1px solid #ccc}"
    "code,pre{margin:0;font-family:DejaVu Sans Mono,Menlo,Consolas,monospace;font-size:.9em;overflow-wrap:anywhere}"
    "@page{margin:15mm}@media print{body{font-size:10pt}main{max-width:none;padding:0}h2{break-after:avoid}"
    "tr,figure{break-inside:avoid}details{display:none}}"
)
DECODERS = (
    ("shows each row as it comes", "yes"),
    ("shows a page when the next one ends it, as libzvbi does", "only by certify --late"),
    (
        "refuses a row with a wrong byte whole, or loses rows",
        "if one of K successive transmissions of a row arrives whole, K being the repeat count",
    ),
    ("stores characters whatever their parity", "if no row arrives with a wrong character"),
    ("checks a page by its check word", "no"),
)


@dataclass
class Numbers:
    """The class and the numbers of a certificate, and the lines of the service."""

    clears: bool
    lines: int
    repeat: int
    deadline: int
    authored: int


@dataclass
class Wait:
    """A page, the words of `wait` for it, the fields of its promise, and whether the promise is kept."""

    page: str
    words: str
    promise: int | None = None
    kept: bool = True


@dataclass
class Found:
    """The line of `certify`, the lines of `wait`, the words of the last of them, and the pages that the service lacks."""

    line: str
    waits: list[Wait]
    last: str
    others: list[str]


def seconds(fields):
    return f"{fields // 50}.{fields % 50 * 2:02d} s"


def table(*rows):
    heads, *rest = rows
    lines = ["<table><tr>" + "".join(f"<th>{cell}</th>" for cell in heads) + "</tr>\n"]
    return "".join(lines + ["<tr>" + "".join(f"<td>{cell}</td>" for cell in row) + "</tr>\n" for row in rest])


def decoders(clears):
    """What a yes covers, by the class of the certificate: of a decoder that surely clears, nothing is known after a page header is lost."""
    *rows, last = DECODERS
    again = "only with a certificate of class any" if clears else "right again a deadline after the last loss"
    return *rows, ("loses page headers", again), last


def meaning(yes, numbers, pages):
    receivers = "every receiver that keeps the rules" + " and surely clears what it holds when a page is selected" * numbers.clears
    shows = (
        f"{receivers} shows each page of the service text ({pages} in all) as it was authored, at most {numbers.deadline} fields "
        f"({seconds(numbers.deadline)}) after it is tuned to the page"
    )
    if yes:
        return f"<b>Yes</b>: as long as this cycle is repeated unchanged, {shows}, and ever after, the header clock aside."
    return (
        f"<b>No</b>: it is not certain that {shows}. The line above gives the first reason, which ttx explain explains. "
        "It does not prove a failure: ttx refute looks for one."
    )


def assumed(numbers):
    right = f"of {numbers.repeat} successive transmissions of a character at least one is right"
    right = "each character is right" if numbers.repeat == 1 else right
    return (
        f"Assumed of the reception: no packet is lost, at most one bit of a byte is wrong, and {right}. A field, a fiftieth of a second, "
        f"has {numbers.lines} slots in the certificate, {numbers.authored} in the service text."
    )


def promise(wait):
    if wait.promise is None:
        return "none"
    return f"within {wait.promise} fields {seconds(wait.promise)}: {'kept' if wait.kept else 'broken'}"


def document(numbers, found, inputs, version, date=None):
    """The report; `inputs` has what each input has, and its SHA-256."""
    waits = [(wait.page, wait.words, promise(wait)) for wait in found.waits]
    names = ("packet file", "service text", "certificate")
    files = [(name, has, f"<code>{mark}</code>") for name, (has, mark) in zip(names, inputs)]
    yes = found.line.startswith("yes ")
    others = "".join(f"{page} " for page in found.others) or "None."
    return (
        f'<!DOCTYPE html>\n<html lang="en"><head><meta charset="utf-8"/><meta name="viewport" content="width=device-width"/>'
        f"<title>{TITLE}</title><style>\n{STYLE}\n</style></head><body><main><h1>{TITLE}</h1>\n"
        + (f"<p>{date}</p>\n" if date else "")
        + f"<h2>Verdict</h2>\n<p><code>{found.line}</code></p>\n<p>{meaning(yes, numbers, len(waits))}</p>\n<p>{assumed(numbers)}</p>\n"
        + "<h2>To which decoders</h2>\n" + table(("A decoder that", "is covered by a yes"), *decoders(numbers.clears)).rstrip("\n") + "</table>\n"
        + "<h2>How long a viewer waits</h2>\n"
        + table(("Page", "Longest wait, and for what", "Promise"), *waits, ("all", found.last, "")).rstrip("\n") + "</table>\n"
        + f"<h2>On the air and not in the service text</h2>\n<p>{others}</p>\n"
        + "<h2>Inputs</h2>\n" + table(("Input", "Has", "SHA-256"), *files) + "</table>\n"
        + f"<h2>Made by</h2>\n<pre>{version}</pre>\n</main></body></html>\n"
    )
