"""A report as a page, in HTML: all areas, in tables. Not proved."""

from .about import command_of, machine_of, maker_of, pages_words, title_of
from .made_up import pages_text
from .pictures import INNER, LEAST, MOST_LEAST, Picture, bar, draw_nodes, scale_of
from .shown import escaped, heading, notes_of, peak_texts, placed_text, refusal_text

STYLE = """body{font-family:sans-serif;margin:16px} div{overflow-x:auto} h1{font-size:1.5em} h2{font-size:1.1em}
table{border-collapse:collapse;font-family:monospace} pre{white-space:pre-wrap;overflow-wrap:anywhere}
td,th{text-align:left;padding:2px 8px;border-bottom:1px solid #ddd;unicode-bidi:isolate;white-space:nowrap}
.name{white-space:normal;min-width:20em;max-width:36em;overflow-wrap:anywhere} .nodes{white-space:normal;min-width:14em}
.pages{text-align:right}"""
WIDTH = 300  # pixels of a bar that is as long as any


def html_of(told):
    title = escaped(title_of(told))
    width_of, scale = scale_of([sum(row["pages"].values()) for part in told["processes"] for row in part["ranges"]],
                               [sum(part["pages"].values()) for part in told["processes"]])
    about = "".join(f"<p>{escaped(text)}</p>\n" for text in (maker_of(told), machine_of(told)))
    return (f'<!DOCTYPE html>\n<html lang="en">\n<head>\n<meta charset="utf-8">\n'
            f'<meta name="viewport" content="width=device-width">\n<title>{title}</title>\n<style>{STYLE}</style>\n'
            f"</head>\n<body>\n<h1>{title}</h1>\n<pre>{escaped(command_of(told))}</pre>\n{about}"
            f"<div>{nodes_picture(told)}</div>\n<p>{scale}</p>\n"
            + "\n".join(html_part(part, width_of) for part in told["processes"])
            + "".join(f"\n<p>{escaped(text)}</p>" for text in placed_text(told)) + "\n</body>\n</html>\n")


def nodes_picture(told):
    """The table of nodes, and their pages, as in a picture."""
    picture = Picture()
    picture.top = 0
    draw_nodes(picture, told)
    return picture.inner()


def html_part(part, width_of):
    rows = [html_row(f"{row['start']:08x}-{row['end']:08x}", row["policy"], "; ".join(notes_of(part, row)),
                     row["pages"], width_of) for row in part["ranges"]]
    rows.append(html_row("total", "", "", part["pages"], width_of))
    texts = peak_texts(part) + list(map(refusal_text, part["refused"]))
    refused = "".join(f"<li>{escaped(text)}</li>" for text in texts)
    return (f"<h2>{escaped(heading(part))}</h2>\n<div><table>\n<tr><th>addresses<th>policy<th>name<th>pages"
            "<th><th>by node</tr>\n" + "\n".join(rows) + "\n</table></div>\n"
            + (f"<ul>{refused}</ul>\n" if refused else ""))


def html_row(where, policy, name, pages, width_of):
    """An area, and its pages by node with their bar."""
    count = sum(pages.values())
    return (f'<tr><td>{where}</td><td>{escaped(policy)}</td><td class="name">{escaped(name)}</td>'
            f'<td class="pages">{pages_words(count)}</td><td>{bar_of(pages, width_of(count)) if count else ""}</td>'
            f'<td class="nodes">{pages_text(pages)}</td></tr>')


def bar_of(pages, width):
    width = max(width * WIDTH / INNER, LEAST * min(len(pages), MOST_LEAST))
    return f'<svg width="{width + 2:.0f}" height="18" font-family="monospace">{bar(pages, width, 1, 1)}</svg>'
