"""The frame of a page: its style, and where its parts stand."""

from __future__ import annotations

import re
from string import Template

# The colours of pieces, on light and on dark ground, as `overlay picture` has them: of near's, of that of far, of the
# others from the largest on; and grey for all that are left.
COLOURS = (
    ("#2b8fcb", "#56b4e9"),
    ("#227256", "#c8f1e6"),
    ("#8f146a", "#b62e6b"),
    ("#544505", "#fbefae"),
    ("#4b17f4", "#9339ec"),
    ("#380c0c", "#e11a14"),
    ("#8a949c", "#8b969e"),
)
# Of a picture: its width, and where the cut stands in it.
WIDTH = re.compile(r'<svg[^>]* width="([\d.]+)"')
CUT = re.compile(r'<text[^>]* x="([\d.]+)"[^>]*>cut</text>')
# How a page begins; by this line a command knows its own page again.
FIRST_LINE = "<!DOCTYPE html><!-- tagzirk report -->"

STYLE = """:root{color-scheme:light dark;--ground:#ffffff;--ink:#1f2933;--soft:#5b6770;--line:#d5dbe0;--box:#f3f5f7;
--warm:#b84a00;--link:#005a9c}
@media (prefers-color-scheme:dark){:root{--ground:#14181c;--ink:#e6eaee;--soft:#98a4ae;--line:#333c44;--box:#1d242a;
--warm:#ff8c42;--link:#7cc4ff}}
body{margin:0 auto;max-width:76rem;padding:1.5rem 1.25rem 4rem;background:var(--ground);color:var(--ink);
font:16px/1.55 system-ui,sans-serif}
h1{font-size:1.7rem;line-height:1.25;margin:0}
h2{font-size:1.15rem;margin:2.4rem 0 .6rem;border-top:1px solid var(--line);padding-top:1rem}
p{margin:.5rem 0;max-width:60rem}
a{color:var(--link)}
.t-soft{color:var(--soft)}
.t-small{font-size:.88rem}
.t-head{display:flex;align-items:center;gap:.9rem;margin:.4rem 0 .6rem}
.t-k{flex:none;min-width:3.2rem;box-sizing:border-box;border-radius:.6rem;padding:.35rem .6rem;text-align:center;
color:#ffffff;line-height:1.15;font-size:.8rem}
.t-k b{display:block;font-size:1.7rem}
.t-split{background:#a3161b}.t-one{background:#b84a00}.t-few{background:#7a5c00}.t-fine{background:#1d6b45}
.t-facts{display:flex;flex-wrap:wrap;gap:.6rem;margin:1rem 0;padding:0;list-style:none}
.t-facts li{background:var(--box);border-radius:.5rem;padding:.5rem .9rem;min-width:5.5rem}
.t-facts b{display:block;font-size:1.35rem;line-height:1.3}
.t-name{white-space:nowrap}
.t-long,td{white-space:normal;overflow-wrap:anywhere}
.t-scroll{overflow-x:auto}
.t-picture{scroll-snap-type:x mandatory}
.t-wide{position:relative}
.t-wide svg{display:block;width:100%;height:auto}
.t-here{position:absolute;top:0;width:1px;height:1px;scroll-initial-target:nearest;animation:t-once .1s forwards}
@keyframes t-once{from{scroll-snap-align:center}to{scroll-snap-align:none}}
table{border-collapse:collapse}
th,td{text-align:left;vertical-align:top;padding:.3rem .8rem .3rem 0;border-bottom:1px solid var(--line)}
th{font-weight:600}
th:first-child{min-width:7rem}
.t-number{text-align:right;white-space:nowrap}
pre{background:var(--box);border-radius:.5rem;padding:.7rem .9rem;white-space:pre-wrap;overflow-wrap:anywhere;
font-size:.88rem}
.t-paste{user-select:all}
strong.t-warm{color:var(--warm)}
.t-doubt{border-left:.25rem solid var(--warm);padding-left:.7rem;overflow-wrap:anywhere}
.t-swatch{display:inline-block;width:.8em;height:.8em;border-radius:50%;background:var(--piece);margin-right:.5em}
@media (max-width:30rem){body{padding:.9rem .9rem 3rem}h1{font-size:1.35rem}.t-facts{gap:.4rem;font-size:.85rem}
.t-facts li{padding:.3rem .6rem;min-width:4rem}.t-facts b{font-size:1.1rem}}
"""

PAGE = Template(
    f"""{FIRST_LINE}
<html lang="en">
<head>
<meta charset="utf-8">
<meta name="viewport" content="width=device-width, initial-scale=1">
<title>$title</title>
<style>
{STYLE}$colours</style>
</head>
<body>
<div class="t-head"><div class="t-k $severity">k<b>$k</b></div><h1>$title</h1></div>
$doubts
$answer
<ul class="t-facts">$facts</ul>
<p class="t-soft t-small">$about</p>
$picture
<h2>$pieces_title</h2>
$pieces
$others<h2>Weakest hosts</h2>
$weakest
<h2>What to add</h2>
$added
<h2>Names to paste</h2>
$paste
<h2>Check it</h2>
$checking
<h2>What the dump says</h2>
$notes
</body>
</html>
"""
)


def framed(picture: str) -> str:
    """A picture that scrolls sideways where it has no room, and then begins with the cut in the middle."""
    wide, cut = WIDTH.search(picture), CUT.search(picture)
    width = float(wide[1]) if wide else 0.0
    here = f'<i class="t-here" style="left:{100 * float(cut[1]) / width:.1f}%"></i>' if cut and width else ""
    style = f' style="width:min({width:g}px,max(100%,50rem))"' if width else ""
    return f'<div class="t-scroll t-picture"><div class="t-wide"{style}>{here}\n{picture}</div></div>'


def colour_rules() -> str:
    """What CSS has of the colours of pieces in the table."""
    light, dark = (
        "".join(f".t-piece-{at}{{--piece:{it[which]}}}" for at, it in enumerate(COLOURS)) for which in (0, 1)
    )
    return f"{light}\n@media (prefers-color-scheme:dark){{{dark}}}\n"


def severity_of(k: int, is_linked: bool) -> str:
    """How bad an answer is, as a class of CSS: parted already, or one host alone; by one crash, by two, or by more if
    at all."""
    return "t-fine" if is_linked and k or k > 2 else ("t-split", "t-one", "t-few")[k]
