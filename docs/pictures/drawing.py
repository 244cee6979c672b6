"""Pictures as SVG text: a sheet with a white ground, shapes put on it, and where it is saved."""
import os
from xml.sax.saxutils import escape

HERE = os.path.dirname(os.path.abspath(__file__))
TOP = os.path.dirname(os.path.dirname(HERE))
INK, FAINT, BLUE, ORANGE, GREEN = "#1f2933", "#c3ccd5", "#1f6feb", "#d9730d", "#2a8a4a"


class Sheet:
    def __init__(self, width, height, title):
        self.size = width, height
        self.shapes = [f"<title>{escape(title)}</title>", f'<rect width="{width}" height="{height}" fill="#ffffff"/>']

    def line(self, x1, y1, x2, y2, colour=INK, width=1.0):
        self.shapes.append(
            f'<line x1="{x1:.1f}" y1="{y1:.1f}" x2="{x2:.1f}" y2="{y2:.1f}" stroke="{colour}" stroke-width="{width}" stroke-linecap="round"/>'
        )

    def path(self, points, colour=INK, width=2.0):
        told = " ".join(f"{x:.1f},{y:.1f}" for x, y in points)
        self.shapes.append(f'<polyline points="{told}" fill="none" stroke="{colour}" stroke-width="{width}" stroke-linejoin="round"/>')

    def dot(self, x, y, radius, colour=INK):
        self.shapes.append(f'<circle cx="{x:.1f}" cy="{y:.1f}" r="{radius}" fill="{colour}"/>')

    def bar(self, x, y, width, height, colour):
        self.shapes.append(f'<rect x="{x:.1f}" y="{y:.1f}" width="{width:.1f}" height="{height:.1f}" fill="{colour}"/>')

    def text(self, x, y, what, size=13, colour=INK, anchor="middle", weight="normal"):
        self.shapes.append(
            f'<text x="{x:.1f}" y="{y:.1f}" font-family="sans-serif" font-size="{size}" font-weight="{weight}" fill="{colour}" '
            f'text-anchor="{anchor}">{escape(str(what))}</text>'
        )

    def save(self, name):
        width, height = self.size
        path = os.path.join(HERE, name)
        with open(path, "w", encoding="utf-8") as file:
            file.write(f'<svg xmlns="http://www.w3.org/2000/svg" viewBox="0 0 {width} {height}" width="{width}" height="{height}">\n')
            file.write("\n".join(self.shapes) + "\n</svg>\n")
        return os.path.relpath(path, TOP)
