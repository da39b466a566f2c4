"""Pieces of SVG, and how far they reach: the page is made as large as what is drawn on it."""
from contextlib import contextmanager

from .shown import escaped

FONT = 'Helvetica,Arial,DejaVu Sans,sans-serif'
INK, PALE, GREY, RED, GREEN = '#1f2933', '#5f6b78', '#8d99a6', '#c40018', '#1b7f4d'
# fill and edge by buffer; the hues are told apart also by the colour-blind
HUES = [('#d6e6f7', '#2f6fb0'), ('#fde3c4', '#b8660b'), ('#d3efdc', '#1f7a4d'), ('#ecdcf3', '#7d4a9e'),
        ('#fbf0b8', '#8a7300'), ('#cfeeee', '#177a80'), ('#f8d7e1', '#a83a63'), ('#e2e2d6', '#66664a')]
PLAIN = ('#f1f3f5', '#7b8896')
IDLE = ('#fff', GREY)                   # what cannot run, or has not run
DARK, LIGHT = '#4a5563', '#9aa5b1'      # waits on operations without a mark; waits that order nothing more
BOX, LANE, ROW = 34, 60, 24             # how high a box, a lane and the row of a buffer are
RULE = '#dde3e9'                        # lines between panels
HATCH = 'url(#cv-hatch)'
# how wide a character is, in units of the size, in the widest of the fonts
WIDTHS = {**dict.fromkeys("ijlI.,:;|!' ", 0.31), **dict.fromkeys('frt()[]-', 0.42), **dict.fromkeys('csz', 0.55),
          **dict.fromkeys('mwMW@%&≥⋯✕✓…→', 0.95)}


def wide(text, size, bold=False):
    """How wide a text is at most, in any of the usual fonts."""
    units = sum(WIDTHS.get(c) or (0.71 if c.isupper() else 0.63) for c in text)
    return units * size * (1.1 if bold else 1)


def short(text, most):
    """The text, or its first and its last characters: names that begin alike often differ at the end."""
    if len(text) <= most:
        return text
    end = (most - 1) // 2
    return text[:most - 1 - end] + '…' + text[len(text) - end:]


def awaited(name, value, most):
    """A semaphore and its value. The name is cut, the value never."""
    sign = f'≥{value}'
    return short(name, max(most - len(sign), 3)) + sign


class Svg:
    def __init__(self):
        self.parts, self.heads = [], {}
        self.left = self.top = self.right = self.bottom = 0.0

    def add(self, part, *corners):
        """A piece, and points that it reaches."""
        self.parts.append(part)
        for x, y in corners:
            self.left, self.right = min(self.left, x), max(self.right, x)
            self.top, self.bottom = min(self.top, y), max(self.bottom, y)

    def text(self, x, y, text, size=11, colour=INK, anchor='start', bold=False, italic=False, halo=False):
        w = wide(text, size, bold)
        start = {'start': x, 'middle': x - w / 2, 'end': x - w}[anchor]
        more = ' font-weight="bold"' if bold else ''
        more += ' font-style="italic"' if italic else ''
        more += ' stroke="#fff" stroke-width="3" stroke-linejoin="round" paint-order="stroke"' if halo else ''
        self.add(f'<text x="{x:.1f}" y="{y:.1f}" font-size="{size}" fill="{colour}" text-anchor="{anchor}"{more}>'
                 f'{escaped(text)}</text>', (start, y - size), (start + w, y + size * 0.3))

    def rect(self, x, y, w, h, fill, edge='none', width=1.0, round_=0, dash='', name=''):
        more = f' stroke-dasharray="{dash}"' if dash else ''
        more += f' class="{name}"' if name else ''
        half = width / 2 if edge != 'none' else 0
        w = max(w, 0.5)
        self.add(f'<rect x="{x:.1f}" y="{y:.1f}" width="{w:.1f}" height="{h:.1f}" fill="{fill}" stroke="{edge}" '
                 f'stroke-width="{width}" rx="{round_}"{more}/>', (x - half, y - half), (x + w + half, y + h + half))

    def line(self, x1, y1, x2, y2, colour=GREY, width=1.0):
        self.add(f'<line x1="{x1:.1f}" y1="{y1:.1f}" x2="{x2:.1f}" y2="{y2:.1f}" stroke="{colour}" '
                 f'stroke-width="{width}"/>', (x1 - width, y1 - width), (x2 + width, y2 + width))

    def circle(self, x, y, r, fill='none', edge='none', width=1.0):
        r_ = r + width / 2
        self.add(f'<circle cx="{x:.1f}" cy="{y:.1f}" r="{r}" fill="{fill}" stroke="{edge}" stroke-width="{width}"/>',
                 (x - r_, y - r_), (x + r_, y + r_))

    def cross(self, x, y, colour, size=3.4, width=2.2):
        self.add(f'<path d="M{x - size:.1f} {y - size:.1f}l{2 * size} {2 * size}m0 {-2 * size}l{-2 * size} {2 * size}" '
                 f'stroke="{colour}" stroke-width="{width}" fill="none"/>', (x - size, y - size), (x + size, y + size))

    def arrow(self, points, colour, width=1.3, dash='', radius=6):
        """A line with round corners through the points, and an arrow head."""
        d = f'M{points[0][0]:.1f} {points[0][1]:.1f}'
        for before, at, after in zip(points, points[1:], points[2:]):
            (px, py), (qx, qy) = _toward(at, before, radius), _toward(at, after, radius)
            d += f'L{px:.1f} {py:.1f}Q{at[0]:.1f} {at[1]:.1f} {qx:.1f} {qy:.1f}'
        d += f'L{points[-1][0]:.1f} {points[-1][1]:.1f}'
        head = self.heads.setdefault((colour, width > 2), f'cv-{colour[1:]}{"-large" if width > 2 else ""}')
        more = f' stroke-dasharray="{dash}"' if dash else ''
        self.add(f'<path d="{d}" fill="none" stroke="{colour}" stroke-width="{width}" '
                 f'marker-end="url(#{head})"{more}/>',
                 *[(x + s * width, y + s * width) for x, y in points for s in (-1, 1)])

    def shape(self, d, fill, *corners):
        self.add(f'<path d="{d}" fill="{fill}"/>', *corners)

    @contextmanager
    def group(self, title='', name='', of=''):
        """A group with a title that a browser shows; `name` says what it is and `of` of what, for those who read it."""
        more = (f' class="{name}"' if name else '') + (f' data-of="{of}"' if of != '' else '')
        self.parts.append(f'<g{more}>' + (f'<title>{escaped(title)}</title>' if title else ''))
        yield
        self.parts.append('</g>')

    def whole(self, title):
        heads = ''.join(
            f'<marker id="{name}" viewBox="0 0 8 8" refX="7.5" refY="4" markerWidth="{10 if large else 7}" '
            f'markerHeight="{10 if large else 7}" orient="auto" markerUnits="userSpaceOnUse">'
            f'<path d="M0 .8L8 4L0 7.2z" fill="{colour}"/></marker>' for (colour, large), name in self.heads.items())
        hatch = (f'<pattern id="cv-hatch" width="6" height="6" patternUnits="userSpaceOnUse" '
                 f'patternTransform="rotate(45)"><rect width="6" height="6" fill="#ffd9dd"/>'
                 f'<rect width="2.4" height="6" fill="{RED}"/></pattern>')
        x, y = self.left - (8 if self.left < 0 else 0), self.top - (8 if self.top < 0 else 0)
        w, h = self.right - x + 8, self.bottom - y + 8
        return (f'<svg xmlns="http://www.w3.org/2000/svg" viewBox="{x:.0f} {y:.0f} {w:.0f} {h:.0f}" width="{w:.0f}" '
                f'height="{h:.0f}" font-family="{FONT}" role="img"><title>{escaped(title)}</title>'
                f'<defs>{heads}{hatch}</defs>\n'
                f'<rect x="{x:.0f}" y="{y:.0f}" width="{w:.0f}" height="{h:.0f}" fill="#fff"/>\n'
                + '\n'.join(self.parts) + '</svg>\n')


def _toward(corner, point, radius):
    """Where a round corner begins, on the way to a point."""
    (bx, by), (x, y) = corner, point
    length = abs(x - bx) + abs(y - by)
    part = min(radius, length / 2) / length if length else 0
    return bx + (x - bx) * part, by + (y - by) * part
