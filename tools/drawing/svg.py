"""Elements of SVG as lines of text. Equal calls make equal bytes."""

from __future__ import annotations

import html
import textwrap
from typing import List, NamedTuple, Tuple

WIDTH = 860
SANS = "-apple-system, 'Segoe UI', Helvetica, Arial, sans-serif"
MONO = "ui-monospace, Menlo, Consolas, 'DejaVu Sans Mono', monospace"

# The panel is light on a dark page too, so there is one set of colours. Those of the parts stay apart for each kind of colour
# blindness (orange, blue and yellow are of Okabe and Ito's palette) and are light enough for dark text; each has its name in it.
PANEL_STYLE = f"""\
text {{ font: 12px {SANS}; fill: #1b1f24 }}
.title {{ font-size: 17px; font-weight: 600 }}
.head, .name, .promise {{ font-size: 13px; font-weight: 600 }}
.mono {{ font-family: {MONO} }}
.quiet {{ fill: #57606a }}
.end {{ text-anchor: end }}
.middle {{ text-anchor: middle }}
.panel {{ fill: #fff; stroke: #d0d7de }}
"""

STYLE = PANEL_STYLE + """\
.guide { stroke: #d0d7de; stroke-dasharray: 2 3 }
.axis, .arrow, .way { stroke: #1b1f24; fill: none }
.arrow, .way { stroke-width: 1.5 }
rect { stroke: #57606a }
.usable { fill: #fff }
.reserved, .acpi, .nvs, .bad { fill: url(#hatch) }
.none { fill: #fff; stroke-dasharray: 3 3 }
.pool { fill: #e6e0f5 }
.part { stroke: #1b1f24; stroke-width: 1.5 }
.kernel { fill: #e69f00 }
.module, .initrd { fill: #56b4e9 }
.information, .parameters { fill: #88d898 }
.line { fill: #f0e442 }
.gdt { fill: #c898a8 }
.tables { fill: #98a848 }
"""

TIP = """\
<marker id="tip" viewBox="0 0 8 8" refX="7" refY="4" markerWidth="7" markerHeight="7" orient="auto">
<path d="M0 0L8 4L0 8Z" fill="#1b1f24"/></marker>"""

DEFINITIONS = f"""\
<defs>
<pattern id="hatch" width="8" height="8" patternUnits="userSpaceOnUse" patternTransform="rotate(45)">
<path d="M0 0H8V8H0Z" fill="#f1f3f5"/><path d="M0 0V8" stroke="#d8dde3" stroke-width="4"/></pattern>
{TIP}
</defs>"""


def escaped(text: str) -> str:
    """For text and attributes. A character that XML 1.0 does not allow is written as its number."""
    return html.escape("".join(char if _is_allowed(char) else f"\\u{ord(char):04x}" for char in text))


def _is_allowed(char: str) -> bool:
    code = ord(char)
    return 0x20 <= code <= 0x7E or 0xA0 <= code <= 0xD7FF or 0xE000 <= code <= 0xFFFD or code >= 0x10000


def wrapped(words: str) -> str:
    return "\n".join(map(escaped, textwrap.wrap(words, 120, break_long_words=False, break_on_hyphens=False)))


def text(kind: str, x: int, y: int, words: str) -> str:
    named = f' class="{kind}"' if kind else ""
    return f'<text{named} x="{x}" y="{y}">{escaped(words)}</text>'


def rect(kind: str, corner: Tuple[int, int], size: Tuple[int, int]) -> str:
    return f'<rect class="{kind}" x="{corner[0]}" y="{corner[1]}" width="{size[0]}" height="{size[1]}"/>'


def path(kind: str, steps: str, tip: bool = False) -> str:
    marker = ' marker-end="url(#tip)"' if tip else ""
    return f'<path class="{kind}" d="{steps}"{marker}/>'


class Sheet(NamedTuple):
    """What elements need around them."""

    width: int
    style: str
    definitions: Tuple[str, ...] = ()


MEMORY = Sheet(WIDTH, STYLE, (DEFINITIONS,))
WIDE_MEMORY = Sheet(910, STYLE, (DEFINITIONS,))


def document(height: int, title: str, description: str, elements: List[str], sheet: Sheet = MEMORY) -> str:
    head = [
        f'<svg xmlns="http://www.w3.org/2000/svg" width="{sheet.width}" height="{height}" viewBox="0 0 {sheet.width} {height}"',
        ' role="img" aria-labelledby="title description">',
        f'<title id="title">{escaped(title)}</title>',
        f'<desc id="description">{wrapped(description)}</desc>',
        f"<style>\n{sheet.style}</style>",
        *sheet.definitions,
        f'<rect class="panel" x="0.5" y="0.5" width="{sheet.width - 1}" height="{height - 1}" rx="6"/>',
    ]
    return "\n".join([*head, *elements, "</svg>", ""])
