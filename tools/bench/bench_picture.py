"""Draws the figures of the benchmark as a picture in SVG."""
from __future__ import annotations

import html
from typing import Any

LEFT, WIDEST, TOP, BAR, WIDTH = 300, 330, 85, 15, 940
# The names of the programs in the picture, in the order of a row's bars.
NAMES = ["lldpa", "plain C", "C that checks nothing, with vector instructions"]
FILLS = ["#3b7dd8", "#a9b4c2", "#d9b26f"]


def bars_of(row: dict[str, Any]) -> list[float]:
    """Returns the lengths of a row's bars: that of plain C is 1."""
    ours, *vectors = row["beside_c"]
    return [ours, 1.0, *vectors]


def high(row: dict[str, Any]) -> int:
    """Returns the height of a row: its bars, and a gap."""
    return BAR * len(bars_of(row)) + 10


def bars(row: dict[str, Any], y: float, scale: float) -> list[str]:
    """Returns the SVG lines of a row whose top is at `y`. The bar of plain C is `scale` long."""
    middle = y + high(row) / 2
    out = [f'<text x="{LEFT - 10}" y="{middle:.0f}" text-anchor="end">{html.escape(row["title"])}</text>']
    for k, value in enumerate(bars_of(row)):
        width, down = scale * value, y + 2 + BAR * k
        out.append(f'<rect x="{LEFT}" y="{down}" width="{width:.0f}" height="13" fill="{FILLS[k]}"/>'
                   f'<text x="{LEFT + 6 + width:.0f}" y="{down + 11}" font-size="11">{NAMES[k]} {value:.2f}</text>')
    out.append(f'<text x="{WIDTH - 16}" y="{middle:.0f}" text-anchor="end">{row["instructions"][0]:,.0f} instructions</text>')
    return out


def head(told: dict[str, Any], height: float) -> list[str]:
    """Returns the SVG lines at the beginning: the background, the title, the machine."""
    return [f'<svg xmlns="http://www.w3.org/2000/svg" width="{WIDTH}" height="{height}" viewBox="0 0 {WIDTH} {height}" '
            'font-family="sans-serif" font-size="13">',
            '<rect width="100%" height="100%" fill="white"/>',
            '<text x="16" y="24" font-size="16">Processor time of the agent, beside C that does the same work</text>',
            '<text x="16" y="44" fill="#555">shorter is better; plain C, which reads digit by digit, is 1 in each row; '
            'at the right, what the agent executes</text>',
            f'<text x="16" y="63" fill="#555">measured on {html.escape(told["machine"])}</text>']


def picture(told: dict[str, Any]) -> str:
    """Returns the picture: bars for rows that C runs too, then lines of text for the rest."""
    rows_of_c = [row for row in told["rows"] if row["beside_c"]]
    end = TOP + sum(high(row) for row in rows_of_c)
    foot = [f"{row['title']}: {row['instructions'][0]:,.0f} instructions" for row in told["rows"] if not row["beside_c"]]
    foot.append(f"a start with 64 ports for 128 neighbors each: {told['start_instructions']:,} instructions")
    # C's bar has the same length in all rows, chosen so that the longest bar just fits
    scale = WIDEST / max(max(bars_of(row)) for row in rows_of_c)
    out, y = head(told, end + 34 + 19 * len(foot)), TOP
    for row in rows_of_c:
        out += bars(row, y, scale)
        y += high(row)
    out.append(f'<path d="M{LEFT} {TOP - 6} V{end}" stroke="#444"/>')
    for i, line in enumerate(foot):
        out.append(f'<text x="16" y="{end + 24 + 19 * i}" fill="#555">{html.escape(line)}</text>')
    return "\n".join(out) + "\n</svg>\n"
