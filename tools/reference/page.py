"""The frame of a page, and the site that gathers all pages and writes them."""
import html
import os
import pathlib
import re
import shutil

TEMPLATE = """<!doctype html>
<html lang="en">
<head>
<meta charset="utf-8">
<meta name="viewport" content="width=device-width, initial-scale=1">
<meta name="color-scheme" content="light dark">
<title>{whole}</title>
<link rel="stylesheet" href="/style.css">
</head>
<body>
<header><nav class="crumbs" aria-label="Where this page is">{crumbs}</nav>
<nav class="tools" aria-label="The site"><a href="/guarantees.html">Guarantees</a>
<a href="/all.html">All names</a></nav></header>
<main>
{body}
</main>
<footer><nav aria-label="Previous and next page">{around}</nav></footer>
</body>
</html>
"""

# The file that lists the pages of a site, below its folder.
LIST = "pages.txt"


class Page:
    """A page: its path, its title, the pages above it, and its body."""

    def __init__(self, path, title, crumbs, body):
        self.path, self.title, self.crumbs, self.body = path, title, crumbs, body


class Site:
    """All pages, in their order."""

    def __init__(self):
        self.pages = []

    def add(self, path, title, crumbs, body):
        """Adds a page. Crumbs are pairs of a name and a link."""
        self.pages.append(Page(path, title, crumbs, body))

    def write(self, folder):
        """Writes all pages below a folder."""
        out = pathlib.Path(folder)
        self.remove_old(out)
        for place, page in enumerate(self.pages):
            before = self.pages[place - 1] if place > 0 else None
            after = self.pages[place + 1] if place + 1 < len(self.pages) else None
            path = out / page.path.lstrip("/")
            path.parent.mkdir(parents=True, exist_ok=True)
            path.write_text(relative(framed(page, before, after), page.path))
        style = pathlib.Path(__file__).parent / "style.css"
        shutil.copy(style, out / "style.css")
        (out / LIST).write_text("".join(page.path.lstrip("/") + "\n" for page in self.pages))

    def remove_old(self, out):
        """Removes the pages that an earlier run wrote, and nothing else."""
        before = (out / LIST).read_text().split() if (out / LIST).exists() else []
        for path in before:
            (out / path).unlink(missing_ok=True)


def framed(page, before, after):
    """A page with its frame."""
    crumbs = [f'<a href="{html.escape(href)}">{html.escape(name)}</a>' for name, href in page.crumbs]
    around = ""
    if before:
        around += (f'<a class="before" rel="prev" href="{before.path}">'
                   f"<small>Previous</small> {html.escape(before.title)}</a>")
    if after:
        around += (f'<a class="after" rel="next" href="{after.path}">'
                   f"<small>Next</small> {html.escape(after.title)}</a>")
    return TEMPLATE.format(
        whole=html.escape(" · ".join([page.title, *(name for name, _ in page.crumbs[:0:-1])])),
        body=page.body, around=around,
        crumbs=" <span>/</span> ".join([*crumbs, f"<b>{html.escape(page.title)}</b>"]))


def relative(text, path):
    """The page with its links, which begin at the top of the site, made relative to itself."""
    here = os.path.dirname(path)

    def one(match):
        target, hash_mark, anchor = match.group(1).partition("#")
        place = "" if target == path and hash_mark else os.path.relpath(target, here)
        return f'href="{place}{hash_mark}{anchor}"'

    return re.sub(r'href="(/[^"]*)"', one, text)


def section(title, body, anchor="", level=2):
    """A part of a page with its heading."""
    mark = f' id="{html.escape(anchor)}"' if anchor else ""
    return f"<section{mark}><h{level}>{title}</h{level}>\n{body}</section>\n"
