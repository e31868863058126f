"""The few elements of SVG that the pictures are made of."""
from xml.sax.saxutils import escape, quoteattr

FONT = "DejaVu Sans, Verdana, sans-serif"


def n(x):
    """A number in a picture: a tenth of a pixel is enough."""
    return f"{x:.1f}".rstrip("0").rstrip(".")


def element(name, inner="", **attributes):
    words = "".join(f" {key.rstrip('_').replace('_', '-')}={quoteattr(n(v) if isinstance(v, float) else str(v))}"
                    for key, v in attributes.items())
    return f"<{name}{words}>{inner}</{name}>" if inner else f"<{name}{words}/>"


def text(x, y, words, **attributes):
    return element("text", escape(words), x=float(x), y=float(y), **attributes)


def title(words):
    """What a viewer shows when the pointer rests on an element."""
    return element("title", escape(words))


def line(x1, y1, x2, y2, **attributes):
    return element("line", x1=float(x1), y1=float(y1), x2=float(x2), y2=float(y2), **attributes)


def circle(x, y, r, inner="", **attributes):
    return element("circle", inner, cx=float(x), cy=float(y), r=float(r), **attributes)


def rect(box, inner="", **attributes):
    left, top, right, bottom = box
    return element("rect", inner, x=float(left), y=float(top), width=float(right - left), height=float(bottom - top), **attributes)


def document(wide, high, parts):
    head = f'<svg xmlns="http://www.w3.org/2000/svg" viewBox="0 0 {n(wide)} {n(high)}" width="{n(wide)}" height="{n(high)}" ' \
           f'font-family={quoteattr(FONT)} font-size="11">'
    return "\n".join([head, element("rect", width="100%", height="100%", fill="white"), *parts, "</svg>"]) + "\n"
