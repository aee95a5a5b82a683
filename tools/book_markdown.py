"""Renders Markdown, in the forms that the pages use."""
import html
import re


def anchor(heading):
    return re.sub(r"[^\w\- ]", "", heading.lower()).strip().replace(" ", "-")


def anchored(found):
    target = re.sub(r"\.md(?=#|$)", ".html", found[2]) if "://" not in found[2] else found[2]
    return f'<a href="{target}">{found[1]}</a>'


def inline(text):
    kept = []

    def keep(found):
        text = re.sub(r"^ (.*\S.*) $", r"\1", found[2])
        kept.append(f"<code>{html.escape(text, False)}</code>")
        return f"\0{len(kept) - 1}\0"

    text = html.escape(re.sub(r"(`+)(.+?)\1(?!`)", keep, text.replace("\\|", "|")), False)
    text = re.sub(r"!\[([^\]]*)\]\(([^)\s]+)\)", r'<img alt="\1" src="\2">', text)
    text = re.sub(r"\[([^\]]*)\]\(([^)\s]+)\)", anchored, text)
    text = re.sub(r"(?<![\w*])\*([^*\s][^*]*)\*", r"<em>\1</em>", re.sub(r"\*\*(.+?)\*\*", r"<strong>\1</strong>", text))
    return re.sub("\0(\\d+)\0", lambda it: kept[int(it[1])], text)


def table(lines):
    rows = [re.split(r"(?<!\\)\|", it.strip()[1:-1]) for it in lines]
    cells = lambda row, tag: "<tr>" + "".join(f"<{tag}>{inline(it.strip())}</{tag}>" for it in row) + "</tr>"
    return "<table>" + cells(rows[0], "th") + "".join(cells(row, "td") for row in rows[2:]) + "</table>"


def blocks(lines):
    """Renders lines, which it takes out of the list."""
    out = []

    def run(is_in):
        end = next((at for at, it in enumerate(lines) if not is_in(it)), len(lines))
        taken, lines[:end] = lines[:end], []
        return taken

    while lines:
        line = lines.pop(0)
        if line.startswith(("```", "    ")):
            code = run(lambda it: not it.startswith("```")) if line[0] == "`" else [line] + run(lambda it: it.startswith("    "))
            text = "\n".join(it.removeprefix("    ") if line[0] == " " else it for it in code)
            lines[:1] = [] if line[0] == "`" else lines[:1]
            out.append(f"<pre><code>{html.escape(text, False)}</code></pre>")
        elif found := re.match(r"(#+) (.*)", line):
            out.append(f'<h{len(found[1])} id="{anchor(found[2])}">{inline(found[2])}</h{len(found[1])}>')
        elif line.startswith(">"):
            out.append(f"<blockquote>{blocks([it[1:].strip() for it in [line] + run(lambda it: it.startswith('>'))])}</blockquote>")
        elif line.startswith("|"):
            out.append(table([line] + run(lambda it: it.startswith("|"))))
        elif found := re.match(r"(?:[-*]|(\d+)\.) +", line):
            indent = re.compile(f" {{0,{found.end()}}}")
            rest = [line[found.end() :]] + [indent.sub("", it, count=1) for it in run(lambda it: it.startswith("  "))]
            item = re.sub(r"^<p>(.*?)</p>", r"\1", blocks(rest), flags=re.S)
            begin, end = (f'<ol start="{found[1]}">', "</ol>") if found[1] else ("<ul>", "</ul>")
            before = out.pop().removesuffix(end) if out and out[-1].endswith(end) else begin
            out.append(f"{before}<li>{item}</li>{end}")
        elif line and not line.startswith("<!--"):
            more = run(lambda it: not re.match(r"([-*]|\d+\.) |```|#+ |>|\||<!--|$", it))
            out.append(f"<p>{inline(' '.join([line] + more))}</p>")
    return "\n".join(out)
