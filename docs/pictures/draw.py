#!/usr/bin/env python3
"""Draws mailboxes.svg, and the answers five_vertices.svg and small_town.svg, as examples/draw draws them.

    docs/pictures/draw.py [PROGRAM]          PROGRAM is crates/diffuse/out/diffuse, which ./demo makes; needs Graphviz

benchmarks/run draws speed.svg and factors.svg, and the programs of PLANNING.md draw theirs.
"""
import re
import subprocess
import sys
import tempfile
from pathlib import Path

HERE = Path(__file__).resolve().parent
TOP = HERE.parent.parent
EXAMPLES = TOP / "examples"
sys.path.insert(0, str(TOP / "benchmarks"))
from picture import DARK

INK, SENT, PALE = "#222222", "#c02a1b", "#f4f1ea"


def answer_drawn(program, graph, questions, *words):
    """An answer as an SVG: the program's, drawn by examples/draw and Graphviz."""
    answers = subprocess.run([program, "solve", EXAMPLES / graph, EXAMPLES / questions, "--plain"], stdout=subprocess.PIPE, check=True).stdout
    with tempfile.NamedTemporaryFile() as file:
        file.write(answers)
        file.flush()
        drawn = subprocess.run([EXAMPLES / "draw", EXAMPLES / graph, file.name, *words], stdout=subprocess.PIPE, check=True).stdout
    drawn = subprocess.run(["dot", "-Tsvg"], input=drawn, stdout=subprocess.PIPE, check=True).stdout.decode()
    return re.sub(r"(<svg )([^>]*>\n)", rf'\1class="diffuse" \2<style>{DARK}</style>\n', drawn, count=1)


def svg(width, height, body):
    """A whole picture on a light ground, with one arrow head for each ink."""
    heads = "".join(
        f'<marker id="{name}" viewBox="0 0 10 10" refX="9" refY="5" markerWidth="7" markerHeight="7" orient="auto-start-reverse">'
        f'<path d="M0 0L10 5L0 10z" fill="{ink}"/></marker>'
        for name, ink in (("plain", INK), ("sent", SENT))
    )
    return (
        f'<svg xmlns="http://www.w3.org/2000/svg" viewBox="0 0 {width} {height}" width="{width}" height="{height}" '
        f'font-family="sans-serif" font-size="14" class="diffuse">\n<style>{DARK}</style>\n<defs>{heads}</defs>\n<rect width="{width}" height="{height}" fill="white"/>\n'
        + "\n".join(body)
        + "\n</svg>\n"
    )


def text(x, y, words, ink=INK, size=14, anchor="middle"):
    return f'<text x="{x:.0f}" y="{y:.0f}" dy="0.35em" fill="{ink}" font-size="{size}" text-anchor="{anchor}">{words}</text>'


def arrow(start, end, ink=INK, words="", above=-11):
    """An arrow, with words beside its middle."""
    (x, y), (u, v) = start, end
    name = "sent" if ink == SENT else "plain"
    yield f'<line x1="{x}" y1="{y}" x2="{u}" y2="{v}" stroke="{ink}" stroke-width="2" marker-end="url(#{name})"/>'
    if words:
        yield text((x + u) / 2, (y + v) / 2 + above, words, ink, 13)


def box(x, y, width, height, words, fill=PALE):
    return f'<rect x="{x}" y="{y}" width="{width}" height="{height}" rx="5" fill="{fill}" stroke="{INK}"/>' + text(x + width / 2, y + height / 2, words)


def part(x, number, top, below):
    """A part: its queue, tables and outbox from top to bottom, or the other way round."""
    yield text(x + 85, 24, f"part of shard {number}" + (", with the source" if number == 0 else ""))
    yield f'<rect x="{x}" y="42" width="170" height="340" rx="8" fill="none" stroke="{INK}" stroke-dasharray="4 4"/>'
    for y, words in ((60, top), (150, "tables"), (240, below)):
        yield box(x + 20, y, 130, 40, words)
    down = top == "queue"
    for y, words in ((102, "handle" if down else "new items"), (192, "new items" if down else "handle")):
        yield from arrow((x + 85, y), (x + 85, y + 44)) if down else arrow((x + 85, y + 46), (x + 85, y + 2))
        yield text(x + 92, y + 23, words, size=12, anchor="start")


def slots(y, sender, receiver):
    """Four slots, of which one has a batch."""
    yield text(425, y - 16, f"from shard {sender} to shard {receiver}: four slots", size=13)
    for number in range(4):
        yield box(325 + 50 * number, y, 44, 34, "batch" if number == sender else "", "white")


def mailboxes():
    body = [*part(15, 0, "outbox", "queue"), *part(665, 1, "queue", "outbox"), text(425, 24, "the floor")]
    body += [*slots(63, 0, 1), *slots(243, 1, 0), box(365, 330, 120, 34, "done word", "white")]
    body += [*arrow((167, 80), (321, 80), SENT, "try_fill, publish"), *arrow((525, 80), (683, 80), SENT, "try_read, clear")]
    body += [*arrow((683, 260), (525, 260), SENT, "try_fill, publish"), *arrow((321, 260), (167, 260), SENT, "try_read, clear")]
    body += [*arrow((187, 340), (361, 340), INK, "announce"), *arrow((361, 356), (187, 356), INK, "look", 12)]
    body += arrow((489, 356), (663, 356), INK, "look", 12)
    return svg(850, 400, body)


def main():
    program = sys.argv[1] if len(sys.argv) > 1 else TOP / "crates/diffuse/out/diffuse"
    (HERE / "mailboxes.svg").write_text(mailboxes())
    (HERE / "five_vertices.svg").write_text(answer_drawn(program, "five_vertices.gr", "five_vertices.ss"))
    (HERE / "small_town.svg").write_text(answer_drawn(program, "small_town.gr", "small_town.p2p", "--answer", "10", "--near", "1"))


if __name__ == "__main__":
    main()
