"""What all pictures share: colours, type, and single elements of SVG."""
from __future__ import annotations

import html
from typing import Optional, Union

INK, SOFT, STOP, GO, RULE, GHOST, HATCH = '#15181c', '#4b525a', '#9b1216', '#0f5a35', '#878e96', '#6a7179', '#d3d6da'
SANS = "'Helvetica Neue',Helvetica,Arial,'Liberation Sans',sans-serif"
MONO = "'DejaVu Sans Mono',Menlo,Consolas,monospace"
DASHED = '3 2.5'

Number = Union[int, float]


def num(x: Number) -> str:
    """A coordinate, in as few digits as a picture needs."""
    return f'{x:.1f}'.rstrip('0').rstrip('.')


def path(d: str, stroke: str = INK, width: Number = 1, dash: str = '', fill: str = 'none') -> str:
    """A line, or a shape with an outline."""
    dashes = f' stroke-dasharray="{dash}"' if dash else ''
    return f'<path d="{d}" fill="{fill}" stroke="{stroke}" stroke-width="{num(width)}"{dashes}/>'


def shape(d: str, fill: str = INK) -> str:
    """A filled shape."""
    return f'<path d="{d}" fill="{fill}"/>'


def rect(x: Number, y: Number, width: Number, height: Number, fill: str = 'none', stroke: str = '', stroke_width: Number = 1,
         dash: str = '') -> str:
    """A rectangle."""
    line = f' stroke="{stroke}" stroke-width="{num(stroke_width)}"' if stroke else ''
    dashes = f' stroke-dasharray="{dash}"' if dash else ''
    return f'<rect x="{num(x)}" y="{num(y)}" width="{num(width)}" height="{num(height)}" fill="{fill}"{line}{dashes}/>'


def dot(x: Number, y: Number, radius: Number, fill: str = INK, stroke: str = '', dash: str = '') -> str:
    """A disc."""
    line = f' stroke="{stroke}" stroke-width="1.3"' if stroke else ''
    dashes = f' stroke-dasharray="{dash}"' if dash else ''
    return f'<circle cx="{num(x)}" cy="{num(y)}" r="{num(radius)}" fill="{fill}"{line}{dashes}/>'


def text(x: Number, y: Number, words: str, anchor: str = '', size: Optional[Number] = None, bold: bool = False, fill: str = '',
         mono: bool = False, small: bool = False) -> str:
    """Words at a place. Small ones stay readable on narrow screens by their class."""
    given = [f'text-anchor="{anchor}"'] * bool(anchor) + [f'font-size="{num(size or 0)}"'] * bool(size) + ['font-weight="700"'] * bold
    given += [f'fill="{fill}"'] * bool(fill) + [f'font-family="{MONO}"'] * mono + ['class="sm"'] * small
    return f'<text x="{num(x)}" y="{num(y)}"{"".join(" " + word for word in given)}>{html.escape(words)}</text>'


def picture(kind: str, box: str, title: str, content: str, describe: str = '', ident: str = '') -> str:
    """A whole picture with its name and, if there is one, its description."""
    head = f'<title>{html.escape(title)}</title>' if not ident else f'<title id="{ident}t">{html.escape(title)}</title>'
    named = ''
    if ident:
        head += f'<desc id="{ident}d">{html.escape(describe)}</desc>'
        named = f' aria-labelledby="{ident}t {ident}d"'
    return (f'<svg class="{kind}" viewBox="{box}" role="img"{named}>{head}'
            f'<g font-family="{SANS}" font-size="12.5" fill="{INK}">{content}</g></svg>')


def hatching(ident: str, colour: str, step: Number, width: Number) -> str:
    """The pattern of slanted lines that marks what is not good."""
    return (f'<pattern id="{ident}" width="{step}" height="{step}" patternUnits="userSpaceOnUse" patternTransform="rotate(45)">'
            f'<rect width="{step}" height="{step}" fill="#fff"/><path d="M1 0V{step}" stroke="{colour}" stroke-width="{width}"/></pattern>')
