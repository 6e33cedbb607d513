"""Writes pictures as SVG, and checks that the files are what their script draws."""
import os
import re
import sys
from html import escape

FONT = "DejaVu Sans, Verdana, Arial, sans-serif"
INK, FAINT, LINE = "#1d2733", "#5b6877", "#9aa7b4"
ARROW = ('<marker id="%s" viewBox="0 0 10 10" refX="9" refY="5" markerWidth="7" markerHeight="7" orient="auto-start-reverse">'
         '<path d="M 0 0 L 10 5 L 0 10 z" fill="%s"/></marker>')


def text(x, y, words, size=12, anchor="start", color=INK, weight="normal", style="normal", turn=0):
    turned = ' transform="rotate(%d %g %g)"' % (turn, x, y) if turn else ""
    return '<text x="%g" y="%g" font-size="%g" text-anchor="%s" fill="%s" font-weight="%s" font-style="%s"%s>%s</text>' % (
        x, y, size, anchor, color, weight, style, turned, escape(words))


def rect(x, y, width, height, fill="#ffffff", stroke="none", round_by=0, dashes=""):
    return '<rect x="%g" y="%g" width="%g" height="%g" rx="%g" fill="%s" stroke="%s"%s/>' % (
        x, y, width, height, round_by, fill, stroke, ' stroke-dasharray="%s"' % dashes if dashes else "")


def arrow_of(stroke):
    """The name of the arrow head of this colour."""
    return "arrow" if stroke == FAINT else "arrow-" + stroke.lstrip("#")


def ends(stroke, dashes, ends_in_arrow):
    return (' stroke-dasharray="%s"' % dashes if dashes else "",
            ' marker-end="url(#%s)"' % arrow_of(stroke) if ends_in_arrow else "")


def line(x1, y1, x2, y2, stroke=LINE, width=1, dashes="", ends_in_arrow=False):
    return '<line x1="%g" y1="%g" x2="%g" y2="%g" stroke="%s" stroke-width="%g"%s%s/>' % (
        x1, y1, x2, y2, stroke, width, *ends(stroke, dashes, ends_in_arrow))


def path(points, stroke=LINE, width=2, dashes="", ends_in_arrow=False):
    joined = " ".join("%g,%g" % point for point in points)
    return '<polyline points="%s" fill="none" stroke="%s" stroke-width="%g"%s%s/>' % (
        joined, stroke, width, *ends(stroke, dashes, ends_in_arrow))


def circle(x, y, radius, fill):
    return '<circle cx="%g" cy="%g" r="%g" fill="%s"/>' % (x, y, radius, fill)


def picture(width, height, title, parts):
    """The text of a picture. The title is read out where the picture can't be seen."""
    strokes = [FAINT, *sorted({"#" + it for part in parts for it in re.findall(r"url\(#arrow-(\w+)\)", part)})]
    arrows = "<defs>%s</defs>" % "".join(ARROW % (arrow_of(it), it) for it in strokes)
    head = '<svg xmlns="http://www.w3.org/2000/svg" width="%g" height="%g" viewBox="0 0 %g %g" role="img" font-family="%s">' % (
        width, height, width, height, FONT)
    body = [head, "<title>%s</title>" % escape(title), arrows, rect(0, 0, width, height), *parts, "</svg>"]
    return "\n".join(body) + "\n"


def draw_or_check(folder, pictures):
    """Writes the pictures, which are pairs of a file's name and its text. With the word --check it writes none, and says which files have
    another text. Returns the status of the script."""
    if sys.argv[1:] not in ([], ["--check"]):
        print("%s [--check]" % sys.argv[0], file=sys.stderr)
        return 2
    stale = []
    for name, octets in pictures:
        file = os.path.join(folder, name)
        if not sys.argv[1:]:
            with open(file, "w") as out:
                out.write(octets)
            continue
        stands = open(file).read() if os.path.isfile(file) else ""
        if stands != octets:
            stale.append(name)
    for name in stale:
        print("%s isn't what %s draws: run it" % (name, os.path.basename(sys.argv[0])))
    return 1 if stale else 0
