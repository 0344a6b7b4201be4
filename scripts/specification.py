#!/usr/bin/env python3
"""Checks docs/SPECIFICATION.md, where documents 01 and 02 are ticked off sentence by sentence, and what is quoted from the papers.

    scripts/specification.py                 every file and name in backticks on the page is there
    scripts/specification.py --papers DIR    and all that is quoted stands in the papers, the .md and .txt files in DIR

What stands in backticks is a file if it has a slash, and else a name, which has to be in the file before it, in the same cell of a
table or the same line of text. Comments do not count. Files are in crates, or else in the repository's root.

With the papers, headings and first columns from document 01's title on have to be the text of 01-scope.md, whole, in order and
nothing more, and first columns before it the three demands of 00-customers-letter.md; from document 02's title on, the text of
02-change-requests.md up to the last request that is on the page. What stands in quotation marks, on the page,
in docs/DECISIONS.md and in the comments of crates/*/specs, has to be in one of the papers, word for word; `..` and `...` leave
something out, and fewer than three words are not looked for. A sentence that a case of conformance/ tests has to be in the document
that it names. White space and marks of layout are not compared.

What is wrong is printed, and the exit status is then 1.
"""
import argparse
import pathlib
import re
import sys

from stored import ROOT

LETTER, SCOPE, REQUESTS = PAPERS = "00-customers-letter.md", "01-scope.md", "02-change-requests.md"
PAGE = "docs/SPECIFICATION.md"
DECISIONS = "docs/DECISIONS.md"
TITLE = "The station gate: policies, sessions, questions"
REQUESTS_TITLE = "Later change requests"
COMMENTS = {".antt": r"^ *--.*$", ".rt": r"^ *//.*$"}


def text_of(name):
    """A file's text without its comments, or None where there is no such file."""
    for path in (ROOT / "crates" / name, ROOT / name):
        if path.is_file():
            return re.sub(COMMENTS.get(path.suffix, "(?!)"), "", path.read_text(errors="replace"), flags=re.M)
    return None


def names_missing(page):
    decisions = text_of(DECISIONS)
    for part in re.split(r"\n| \| ", page):
        file, text = None, ""
        for name in re.findall(r"`([^`]+)`", part):
            if "/" in name and " " not in name:
                file, text = name, text_of(name)
                if text is None:
                    yield f"no file {file}"
            elif file is None:
                yield f"no file before {name}"
            elif text is not None and not re.search(rf"(?<![\w-]){re.escape(name)}(?![\w-])", text):
                yield f"no {name} in {file}"
        for number in re.findall(r"decision (\d+)", part):
            if not re.search(rf"^{number}\. ", decisions, re.M):
                yield f"no decision {number}"


def plain(text):
    """Text without marks of layout, its lines joined."""
    return " ".join(re.sub(r"[\\*`]", "", re.sub(r"<br>|^ *(#+|-+) ", " ", text, flags=re.M)).split())


def first_columns(part, headings):
    """The first columns of a part of the page, and its headings where they are asked for."""
    lines = part.split("\n")
    for line, below in zip(lines, lines[1:]):
        if (headings and line.startswith("#")) or (line.startswith("| ") and below != "|---|---|---|"):
            yield line.split(" | ")[0].lstrip("| ")


def demands(letter):
    return "\n".join(re.findall(r"^[123]\. (.*)$", letter, re.M))


def sentences(paper):
    """Headings, list items, lines of the example and sentences."""
    for line in filter(None, map(plain, paper.split("\n"))):
        yield from re.split(r"(?<=[.:;]) (?=[A-Z\"(])", line)


def paper_differs(quoted, paper):
    text, at = plain("\n".join(quoted)), 0
    for sentence in sentences(paper):
        found = text.find(sentence, at)
        if found < 0:
            yield f"not in its place on the page: {sentence}"
            continue
        if text[at:found].strip():
            yield f"not in the paper: {text[at:found].strip()}"
        at = found + len(sentence)
    if text[at:].strip():
        yield f"not in the paper: {text[at:].strip()}"


def landed(quoted, requests):
    """The requests up to the last one that is quoted; each begins a row."""
    count = sum(bool(re.match(r"R-\d+ ", row)) for row in quoted)
    return requests.partition(f"**R-{count + 1} ")[0]


def page_differs(page, papers):
    page, requests_title, requests = page.partition(f"## {REQUESTS_TITLE}\n")
    before, title, after = page.partition(f"## {TITLE}\n")
    quoted = list(first_columns(requests_title + requests, True))
    yield from paper_differs(first_columns(before, False), demands(papers[LETTER]))
    yield from paper_differs(first_columns(title + after, True), papers[SCOPE])
    yield from paper_differs(quoted, landed(quoted, papers[REQUESTS]))


def quoting():
    """The texts that quote, each with its file: paragraphs and rows of the pages, comments of specs."""
    for name in (PAGE, DECISIONS):
        for part in re.split(r"\n\n|\n(?=\| )", (ROOT / name).read_text()):
            yield name, plain(part)
    for path in sorted(ROOT.glob("crates/*/specs/**/*.antt")):
        for comment in re.findall(r"(?:^ *--.*\n)+", path.read_text(), re.M):
            yield path.relative_to(ROOT), plain(comment)


def quotations(text):
    """What stands in quotation marks, with the marks inside it; None where they do not pair. After a space or bracket they open."""
    depth, start = 0, 0
    for marks in re.finditer(r'"+', text):
        if marks.start() == 0 or text[marks.start() - 1] in " ([":
            start = start if depth else marks.start() + 1
            depth += len(marks[0])
        else:
            depth -= len(marks[0])
            if depth < 0:
                break
            if depth == 0:
                yield text[start:marks.end() - 1]
    if depth:
        yield None


def is_quoted(quotation, text):
    parts = re.split(r" ?\.{2,} ?", quotation)
    return re.search(r"(?<!\w)" + r"(?!\w).*?(?<!\w)".join(map(re.escape, parts)) + r"(?!\w)", text)


def misquoted(papers):
    texts = [plain(paper) for paper in papers.values()]
    for name, text in quoting():
        for quotation in quotations(text):
            if quotation is None:
                yield f"{name}: quotation marks that do not pair: {text}"
            elif len(quotation.split()) >= 3 and not any(is_quoted(quotation, paper) for paper in texts):
                yield f"{name}: in no paper: {quotation}"


def pack_misquotes(papers):
    """The sentences that the conformance pack's cases test."""
    texts = {name[:2]: plain(paper) for name, paper in papers.items()}
    for path in sorted(ROOT.glob("conformance/*/*.txt")):
        for document, sentence in set(re.findall(r'^tests (\d+) "(.*)"$', path.read_text(), re.M)):
            if plain(sentence) not in texts.get(document, ""):
                yield f"{path.relative_to(ROOT)}: not in document {document}: {sentence}"


def papers_in(folder):
    files = [path for path in sorted(folder.glob("*")) if path.suffix in (".md", ".txt")]
    return {path.name: path.read_text(encoding="utf-8", errors="replace") for path in files}


def main():
    arguments = argparse.ArgumentParser(description=f"Checks {PAGE}, and what is quoted from the papers.")
    arguments.add_argument("--papers", metavar="DIR", type=pathlib.Path, help="the folder of the papers")
    page, given = (ROOT / PAGE).read_text(), arguments.parse_args()
    wrong = list(names_missing(page))
    if given.papers:
        papers = papers_in(given.papers)
        if missing := [name for name in PAPERS if name not in papers]:
            arguments.error(f"{given.papers} has no {missing[0]}")
        wrong += [*page_differs(page, papers), *misquoted(papers), *pack_misquotes(papers)]
    print("\n".join(wrong) or f"{PAGE} is right" + (", and all quotations" if given.papers else ""))
    return 1 if wrong else 0


sys.exit(main())
