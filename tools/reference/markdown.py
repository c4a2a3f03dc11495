"""A subset of Markdown as HTML: headings, paragraphs, lists, tables, fenced code, links and code."""
import html
import re

INLINE = re.compile(
    r"(?P<code>``.+?``|`[^`]+`)|(?P<image>!\[([^\]]*)\]\(([^)]*)\))"
    r"|(?P<link>\[((?:[^\[\]`]|`[^`]*`)+)\](?:\(([^)]*)\))?)|(?P<bold>\*\*([^*]+)\*\*)")


class Markdown:
    """Writes texts. `code` links a piece of code, `url` says where a link goes; each may give none."""

    def __init__(self, code=lambda text: None, url=lambda text: None, rust=None):
        self.code, self.url, self.rust = code, url, rust

    def inline(self, text):
        """One run of text."""
        out, at = [], 0
        for match in INLINE.finditer(text):
            out.append(html.escape(text[at:match.start()], quote=False))
            out.append(self.piece(match))
            at = match.end()
        return "".join(out) + html.escape(text[at:], quote=False)

    def piece(self, match):
        """A piece of code, a link, or bold text."""
        if match["code"]:
            return self.code_piece(match["code"].strip("`").strip() or "`", match["code"])
        if match["bold"]:
            return f"<strong>{self.inline(match['bold'][2:-2])}</strong>"
        if match["image"]:
            return ""
        label, target = match.group(6), match.group(7)
        href = self.url(target) if target is not None else self.code(label.strip("`"))
        if href:
            return f'<a href="{html.escape(href)}">{Markdown().inline(label)}</a>'
        return self.inline(label) if target is not None else html.escape(match["link"])

    def code_piece(self, name, whole):
        """A piece of code, with its link if it names an item. Its spaces are kept."""
        text = html.escape(whole.strip("`"), quote=False)
        href = self.code(name)
        return f'<a href="{html.escape(href)}"><code>{text}</code></a>' if href \
            else f"<code>{text}</code>"

    def blocks(self, lines, level=3):
        """The lines of a document. Headings begin at this level."""
        out, at = [], 0
        while at < len(lines):
            line = lines[at]
            if not line.strip():
                at += 1
            elif line.startswith("```"):
                at = self.fence(lines, at, out)
            elif re.match(r"#+ ", line):
                depth = len(line) - len(line.lstrip("#"))
                text = line.lstrip("# ")
                rank = min(level + depth - 1, 6)
                out.append(f'<h{rank} class="doc">{self.inline(text)}</h{rank}>')
                at += 1
            elif line.startswith("|"):
                at = self.table(lines, at, out)
            elif re.match(r"\s*(?:[-*]|\d+\.) ", line):
                at = self.list(lines, at, out)
            else:
                end = at
                while end < len(lines) and lines[end].strip() \
                        and not re.match(r"```|#+ |\||[-*] |\d+\. ", lines[end]):
                    end += 1
                end = max(end, at + 1)
                out.append(f"<p>{self.inline(' '.join(part.strip() for part in lines[at:end]))}</p>")
                at = end
        return "\n".join(out)

    def fence(self, lines, at, out):
        """A block of code."""
        end = at + 1
        while end < len(lines) and not lines[end].startswith("```"):
            end += 1
        text = "\n".join(lines[at + 1:end])
        written = self.rust(text) if self.rust and lines[at].strip("` ") in ("", "rust") \
            else html.escape(text, quote=False)
        out.append(f"<pre><code>{written}</code></pre>")
        return end + 1

    def list(self, lines, at, out):
        """A list. Lines that go on are indented."""
        ordered, items = bool(re.match(r"\s*\d+\.", lines[at])), []
        while at < len(lines) and lines[at].strip():
            match = re.match(r"\s*(?:[-*]|\d+\.) (.*)", lines[at])
            if match:
                items.append(match.group(1))
            elif lines[at].startswith(" ") and items:
                items[-1] += " " + lines[at].strip()
            else:
                break
            at += 1
        tag = "ol" if ordered else "ul"
        out.append(f"<{tag}>" + "".join(f"<li>{self.inline(one)}</li>" for one in items)
                   + f"</{tag}>")
        return at

    def table(self, lines, at, out):
        """A table."""
        rows = []
        while at < len(lines) and lines[at].startswith("|"):
            cells = re.split(r"(?<!\\)\|", lines[at].strip().strip("|"))
            rows.append([cell.strip().replace("\\|", "|") for cell in cells])
            at += 1
        head, body = rows[0], rows[2:]
        cells = lambda row, tag: "".join(f"<{tag}>{self.inline(cell)}</{tag}>" for cell in row)
        out.append('<div class="scroll"><table>'
                   + (f"<thead><tr>{cells(head, 'th')}</tr></thead>" if any(head) else "")
                   + "<tbody>" + "".join(f"<tr>{cells(row, 'td')}</tr>" for row in body)
                   + "</tbody></table></div>")
        return at
