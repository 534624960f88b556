"""A table as a picture: a bar for each row, as an SVG file."""
import html

LINE, LABEL, SPAN, EDGE, CHARACTER = 18, 640, 300, 20, 6.2
SMALLER = "&#8230;"


def shortened(text):
    """What of a label fits before its bar, without the marks of code."""
    text = text.replace("`", "")
    most = int((LABEL - EDGE) / CHARACTER)
    return html.escape(text) if len(text) <= most else html.escape(text[: most - 1]) + SMALLER


def drawing(title, rows):
    """The picture of these rows, each a label and how many times as fast it is; a line marks what is as fast as before."""
    most = max([1.0, *(times for _, times in rows)])
    height, scale = LINE * (len(rows) + 3), SPAN / most
    parts = [
        f'<svg xmlns="http://www.w3.org/2000/svg" width="{LABEL + SPAN + 60}" height="{height}" font-family="sans-serif" font-size="11">',
        f'<rect width="100%" height="100%" fill="white"/><text x="{EDGE}" y="{LINE}" font-size="13">{html.escape(title)}</text>',
    ]
    for place, (what, times) in enumerate(rows):
        y = LINE * (place + 2)
        colour = "#b0413e" if times < 0.97 else "#4a7fb5"
        parts.append(f'<text x="{LABEL - 6}" y="{y + 12}" text-anchor="end">{shortened(what)}</text>')
        parts.append(f'<rect x="{LABEL}" y="{y + 2}" width="{times * scale:.1f}" height="{LINE - 4}" fill="{colour}"/>')
        parts.append(f'<text x="{LABEL + times * scale + 4:.1f}" y="{y + 12}">{times:.2f}</text>')
    x = LABEL + scale
    parts.append(f'<line x1="{x:.1f}" y1="{1.5 * LINE:.0f}" x2="{x:.1f}" y2="{height - LINE:.0f}" stroke="black" stroke-dasharray="3 3"/>')
    return "\n".join([*parts, "</svg>", ""])
