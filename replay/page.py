"""Runs as one HTML page that needs nothing beside it: for each text its chart, its telling and
its listing side by side, on a narrow screen one below the other. There is no script; a tick
beside an event is for the one who replays it on real cards."""

import html
import re

from .answers import DONE, meaning
from .chart import drawn
from .telling import FORMULA, answered, broken, counts, demand, moved, standing, sums

STYLE = """
*{box-sizing:border-box}
body{margin:0;font:15px/1.45 system-ui,'DejaVu Sans',Verdana,Arial,sans-serif;color:#222;background:#fff}
header,section{padding:12px 16px}
section{border-top:6px solid #f2f4f7}
h1{font-size:20px;margin:4px 0}h2{font-size:18px;margin:4px 0;overflow-wrap:anywhere}h3{font-size:15px;margin:18px 0 6px}
p{margin:4px 0;max-width:75ch}
nav a{display:inline-block;margin:4px 14px 4px 0}
.parts{display:grid;gap:20px;grid-template-columns:minmax(0,1fr)}
.parts>*{min-width:0}
.picture{overflow-x:auto}
.picture svg{display:block}
ol.told{list-style:none;margin:0;padding:0}
ol.told li{display:grid;grid-template-columns:24px 2.6em minmax(0,1fr);padding:6px 0;border-bottom:1px solid #eceff3}
ol.told input{margin:3px 0 0;width:16px;height:16px}
ol.told .place{color:#666;text-align:right;padding-right:.8em}
code,pre{font:13px/1.5 ui-monospace,'DejaVu Sans Mono',Menlo,Consolas,monospace}
code{font-weight:bold;overflow-wrap:anywhere}
pre{margin:0;overflow-x:auto}
.said,.moved{display:block;overflow-wrap:anywhere}
.moved{color:#555}.money{color:#1b5e20;font-weight:bold}.no{color:#b00020}
.outside{color:#01579b;font-weight:bold}
ul{margin:4px 0;padding-left:20px}
@media(min-width:1100px){.parts{grid-template-columns:minmax(0,44%) minmax(300px,1fr) max-content}
.parts>*{max-height:92vh;overflow:auto}.parts pre{padding-right:12px}.told,.parts ul,.parts p{font-size:14px}
.picture svg{max-width:100%;height:auto}}
@media print{.parts>*{max-height:none;overflow:visible}}
"""


def escaped(words):
    return html.escape(words)


def items(lines):
    return "<ul>" + "".join(f"<li>{escaped(line.strip())}</li>" for line in lines) + "</ul>"


def told(run):
    """The telling as a list of events and the parts below it."""
    if run.opening not in DONE:
        return f'<p class="no">opening refused, {run.opening}: {escaped(meaning(run.opening))}; no event is run</p>'
    out = [
        "<p>opened: "
        + ", ".join(f"purse {n} with {balance}" for n, balance in enumerate(run.text.balances))
        + "</p>"
    ]
    out.append('<ol class="told">')
    for step in run.steps:
        said = "said" if step.done else "said no"
        money = "moved"
        if step.moved:
            money += " outside" if step.from_outside else " money"
        out.append(
            f'<li><input type="checkbox" aria-label="event {step.place} replayed"><span class="place">{step.place}</span>'
            f'<span><code>{escaped(step.event.text)}</code><span class="{said}">{escaped(answered(step))}</span>'
            f'<span class="{money}">{escaped(moved(step))}</span></span></li>'
        )
    out += ["</ol>", "<h3>After the last event</h3>", items(standing(run))]
    found = list(broken(run))
    out.append(f"<h3>Broken transfers: {len(found) or 'none'}</h3>")
    for lines in found:
        out.append(f"<p><b>{escaped(lines[0])}</b></p>{items(lines[1:])}")
    out.append(items(sums(run)))
    out.append(f"<h3>Demand 3</h3><p>{escaped(FORMULA)}</p>{items(demand(run)[0])}")
    return "\n".join(out)


def case(run, place):
    text = run.text
    about = f"<p>{escaped(text.about)}</p>" if text.about else ""
    picture = drawn(run, with_words=False)
    # on a desk a picture is drawn smaller, where that leaves its words legible
    width = int(re.search(r'width="(\d+)"', picture).group(1))
    picture = picture.replace("<svg ", f'<svg style="min-width:{width * 4 // 5}px" ', 1)
    return (
        f'<section id="case{place}"><h2>{escaped(text.name)}</h2>{about}'
        f"<p>{counts(run)}</p>"
        f'<div class="parts"><div class="picture"><h3>Chart</h3>{picture}</div>'
        f"<div><h3>Telling</h3>{told(run)}</div>"
        f"<div><h3>Listing</h3><pre>{escaped(run.listing)}</pre></div></div></section>"
    )


def page(runs):
    links = "".join(
        f'<a href="#case{place}">{escaped(run.text.name)}</a>' for place, run in enumerate(runs, 1)
    )
    return (
        '<!DOCTYPE html>\n<html lang="en"><head><meta charset="utf-8"><meta name="viewport" content="width=device-width,initial-scale=1">'
        f"<title>Purse transfers: {escaped(', '.join(run.text.name for run in runs))}</title><style>{STYLE}</style></head><body>"
        f"<header><h1>Purse transfers</h1>{f'<nav>{links}</nav>' if len(runs) > 1 else ''}</header>\n"
        + "\n".join(case(run, place) for place, run in enumerate(runs, 1))
        + "\n</body></html>\n"
    )
