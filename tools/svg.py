"""What the scripts that draw stand on: shapes of a picture, put down in order, as one SVG text."""
from xml.sax.saxutils import escape, quoteattr

FONT = "font-family: Helvetica, Arial, sans-serif"
FIXED = "font-family: Menlo, Consolas, 'DejaVu Sans Mono', monospace"


def number(value):
    """A length, with at most one decimal."""
    return f"{value:.1f}".rstrip("0").rstrip(".") if isinstance(value, float) else str(value)


class Drawing:
    """The shapes of a picture; later ones lie over earlier ones."""

    def __init__(self, title, styles):
        self.title, self.styles, self.shapes = title, styles, []

    def put(self, tag, text="", hover="", **attributes):
        """One shape with its text, and what is shown when the mouse rests on it."""
        words = "".join(f" {name.strip('_').replace('_', '-')}={quoteattr(number(value))}"
                        for name, value in attributes.items())
        inner = (f"<title>{escape(hover)}</title>" if hover else "") + escape(text)
        self.shapes.append(f"<{tag}{words}>{inner}</{tag}>" if inner else f"<{tag}{words}/>")

    def box(self, kind, x, y, width, height, hover="", **more):
        self.put("rect", hover=hover, class_=kind, x=x, y=y, width=width, height=height, **more)

    def line(self, kind, x1, y1, x2, y2, hover="", **more):
        self.put("line", hover=hover, class_=kind, x1=x1, y1=y1, x2=x2, y2=y2, **more)

    def write(self, kind, x, y, text, hover="", **more):
        self.put("text", text, hover, class_=kind, x=x, y=y, **more)

    def text(self, width, height):
        """The whole picture on a white ground."""
        size = f'width="{number(width)}" height="{number(height)}"'
        head = (f'<svg xmlns="http://www.w3.org/2000/svg" {size} '
                f'viewBox="0 0 {number(width)} {number(height)}">')
        return "\n".join([head, f"<title>{escape(self.title)}</title>",
                          f"<style>\n{self.styles.strip()}\n</style>",
                          f'<rect {size} fill="#fff"/>', *self.shapes, "</svg>\n"])
