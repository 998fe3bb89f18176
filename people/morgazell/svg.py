"""Shapes and letters of a picture. Weight, dash, hatching and words carry the meaning; colour only repeats it."""
from html import escape

WIDTH, LEFT, RIGHT = 720, 66, 706
INK, RED, GREY = "#111", "#b00020", "#777"

STYLE = f"""<style>
text{{font:10px 'DejaVu Sans',Helvetica,Arial,sans-serif;fill:{INK}}}
.lane,.bold{{font-weight:bold}} .small{{font-size:8.5px}} .grey{{fill:{GREY}}} .mid{{text-anchor:middle}} .end{{text-anchor:end}}
.bad{{fill:{RED};font-weight:bold}} .title{{font-size:13px;font-weight:bold}} .behind{{stroke:#fff;stroke-width:3}}
line,path,rect,circle{{stroke:{INK};fill:none;stroke-width:1}} .thin{{stroke-width:.7}} .thick{{stroke-width:2.2}}
.rule{{stroke:#ddd}} .row{{fill:#e6e6e6}} .key{{fill:#cfcfcf;stroke-width:2.2}} .read{{fill:#fff}} .write{{fill:#555}}
.cut{{stroke-dasharray:2 2;stroke:{GREY}}} .badline{{stroke:{RED};stroke-width:2}} .okline{{stroke-dasharray:5 3;stroke-width:1.4}}
.dim{{stroke-width:1.6}} .baddim{{stroke:{RED};stroke-width:1.6}} .after{{fill:url(#veil);stroke:none}}
.white{{fill:#fff;stroke:none}} .badbox{{fill:#fff;stroke:{RED};stroke-width:2}} .mark{{fill:{INK};stroke:none}}
.badmark{{fill:{RED};stroke:none}} .later{{fill:#fff;stroke:{GREY}}} .greyline{{stroke:{GREY};stroke-width:.8}}
.split{{stroke:#fff;stroke-width:.7}} .done{{fill:#555;stroke:none}} .open{{fill:#fff;stroke:{GREY};stroke-width:.6}}
</style><defs><pattern id="veil" width="6" height="6" patternUnits="userSpaceOnUse" patternTransform="rotate(45)">
<line x1="0" y1="0" x2="0" y2="6" style="stroke:#bbb"/></pattern></defs>"""


class Sheet:
    """A picture as it grows; letters on bars are put over all else at the end."""

    def __init__(self):
        self.parts, self.over = [], []

    def line(self, x1, y1, x2, y2, kind=""):
        self.parts.append(f'<line class="{kind}" x1="{x1:.1f}" y1="{y1:.1f}" x2="{x2:.1f}" y2="{y2:.1f}"/>')

    def rect(self, x, y, width, height, kind=""):
        self.parts.append(f'<rect class="{kind}" x="{x:.1f}" y="{y:.1f}" width="{max(width, 0):.1f}" height="{height:.1f}"/>')

    def path(self, steps, kind=""):
        self.parts.append(f'<path class="{kind}" d="{steps}"/>')

    def circle(self, x, y, radius, kind=""):
        self.parts.append(f'<circle class="{kind}" cx="{x:.1f}" cy="{y:.1f}" r="{radius}"/>')

    def text(self, x, y, words, kind=""):
        self.parts.append(letters(x, y, words, kind))

    def clear_text(self, x, y, words, kind="", ground="#fff"):
        """With the ground behind the letters, so that no line runs through them."""
        behind = letters(x, y, words, kind + " behind", f' style="stroke:{ground}"')
        self.over.append(behind + letters(x, y, words, kind))

    def arrow(self, x, y, way, kind="mark"):
        self.path(f"M{x:.1f} {y:.1f} l{-6 * way} -3 v6 z", kind)

    def whole(self, height, title):
        return (f'<svg xmlns="http://www.w3.org/2000/svg" viewBox="0 0 {WIDTH} {height:.0f}" width="100%" role="img">'
                f"<title>{escape(title)}</title>{STYLE}{''.join(self.parts + self.over)}</svg>")


def letters(x, y, words, kind, style=""):
    return f'<text class="{kind}" x="{x:.1f}" y="{y:.1f}"{style}>{escape(words)}</text>'


def wrap(text, most):
    """Lines of so many letters at most."""
    rows = [""]
    for word in text.split():
        if len(rows[-1]) + len(word) + 1 > most:
            rows.append("")
        rows[-1] = (rows[-1] + " " + word).strip()
    return rows


def spread(labels, width):
    """Labels (place, text, weight) into two rows without overlap, the weightiest first; what finds no room is left out."""
    rows, out = [[], []], []
    for x, text, weight in sorted(labels, key=lambda label: -label[2]):
        half = len(text) * width / 2 + 2
        row = next((row for row in (0, 1) if all(x + half < a or x - half > b for a, b in rows[row])), None)
        if row is not None:
            rows[row].append((x - half, x + half))
            out.append((x, text, row))
    return out
