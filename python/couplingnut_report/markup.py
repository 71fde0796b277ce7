"""HTML's elements, as the pages use them."""
from __future__ import annotations

import html
import os
from typing import Optional

from .sentences import short

_STYLE = os.path.join(os.path.dirname(os.path.abspath(__file__)), 'style.css')
_FOOT = 'font:8pt Helvetica,Arial,"Liberation Sans",sans-serif;color:#4b525a'
DASH = '<span class="none">–</span>'


def element(tag: str, content: str, kind: str = '') -> str:
    """An element with its class."""
    return f'<{tag} class="{kind}">{content}</{tag}>' if kind else f'<{tag}>{content}</{tag}>'


def section(ident: str, title: str, content: str, kind: str = '') -> str:
    """A part of a page under a heading."""
    named = f' class="{kind}"' if kind else ''
    return f'<section{named} aria-labelledby="{ident}"><h2 id="{ident}">{title}</h2>\n{content}</section>\n'


def byte(number: int) -> str:
    """A byte in the workshop's form, and as a plain number."""
    return f'<span class="v">{short(number)}</span> ({number})'


def byte_or_dash(number: Optional[int]) -> str:
    """A byte of a table, or that there is none."""
    return DASH if number is None else element('span', short(number), 'v')


def head(title: str, version: str, tag: str = 'p') -> str:
    """The first line of a page."""
    return element('header', element(tag, html.escape(title), 'what') + element('p', f'Couplingnut {html.escape(version)}'), 'head') + '\n'


def document(title: str, foot: str, body: str) -> str:
    """A whole file. `foot` stands below each printed sheet, so that no loose one is taken for another's."""
    with open(_STYLE, encoding='utf-8') as source:
        style = source.read()
    quoted = foot.replace('\\', '\\\\').replace('"', '\\"').replace('<', '\\3C ').replace('\n', ' ')
    sheet = (f'@page{{size:A4;margin:10mm 14mm 14mm;@bottom-left{{content:"{quoted}";{_FOOT}}}'
             f'@bottom-right{{content:"Page " counter(page) " of " counter(pages);{_FOOT}}}}}')
    return ('<!DOCTYPE html>\n<html lang="en">\n<head>\n<meta charset="utf-8">\n'
            '<meta name="viewport" content="width=device-width,initial-scale=1">\n'
            f'<title>{html.escape(title)}</title>\n<style>\n{style}{sheet}\n</style>\n</head>\n'
            f'<body>\n<main class="sheet">\n{body}\n</main>\n</body>\n</html>\n')
