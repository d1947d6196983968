"""The style of a page and of its pictures. All of it is in the page: none names a font, a picture or a file."""
from __future__ import annotations

# Each colour by its name, on a light ground and on a dark one. Texts have at least 4.5 to 1 against their ground, and what is drawn 3 to 1 (WCAG AA):
# tools/trials/page_in_browser.py looks.
COLOURS = {
    "ground": ("#ffffff", "#15181d"), "text": ("#1b1d21", "#e7e9ec"), "muted": ("#555c66", "#aab2bd"), "line": ("#c9ced6", "#3b424d"),
    "raised": ("#f3f5f8", "#1e232b"), "stripe": ("#e4e9f1", "#2a323e"), "link": ("#0b57b0", "#8ab8ff"), "bad": ("#b3261e", "#ff9088"),
    "bad-ground": ("#fdecea", "#3a1a18"),
    "odd": ("#6b4700", "#ffd479"), "odd-ground": ("#fff5da", "#352a12"), "good": ("#17693a", "#6fd394"),
    "kernel": ("#1f63d6", "#5aa2ff"), "initrd": ("#1a7f37", "#45b75c"), "dtb": ("#b54708", "#f08a3c"), "raw": ("#7d4cd6", "#b78cff"),
    "unknown": ("#68707b", "#9aa4b1"), "ram": ("#e3e7ed", "#2a313b"), "edge": ("#68707b", "#8b949e"),
    "b0": ("#3d2c8d", "#a394f5"), "b1": ("#0a5c66", "#4fc3c9"), "b2": ("#2d86b8", "#3f93c4"), "b3": ("#c2257a", "#f277b6"), "t": ("#8a6d00", "#d0a928"),
}
LIGHT = "".join(f"--{name}:{light};" for name, (light, _) in COLOURS.items())
DARK = "".join(f"--{name}:{dark};" for name, (_, dark) in COLOURS.items())
SANS, MONO = "system-ui,sans-serif", "ui-monospace,monospace"

# What is drawn: texts, the ground, RAM, a box of an item's pages, leads, items by kind and by how they are measured, blocks by level, tables. A picture
# that is used twice is styled where it is used by what it inherits and by its own classes alone, so no rule speaks of what is around.
OF_PICTURE = """
.map{font-size:11px;fill:var(--text)}
.m{fill:var(--muted)}.h{font-weight:700}.a{text-anchor:end}.x{fill:var(--bad)}.g{fill:var(--ground)}
.r{fill:var(--ram);stroke:var(--edge)}.p{fill:var(--ram)}.l{fill:var(--muted);fill-opacity:.16}
.k{fill:var(--kernel);stroke:var(--kernel)}.i{fill:var(--initrd);stroke:var(--initrd)}.d{fill:var(--dtb);stroke:var(--dtb)}
.w{fill:var(--raw);stroke:var(--raw)}.u{fill:var(--unknown);stroke:var(--unknown);fill-opacity:.15;stroke-dasharray:1 2}
.n{fill-opacity:.15;stroke-dasharray:4 2}
.b0{fill:var(--b0)}.b1{fill:var(--b1)}.b2{fill:var(--b2)}.b3{fill:var(--b3)}.t{fill:var(--t)}
"""
OF_PICTURE_ALONE = (f"svg{{{LIGHT}font-family:{SANS}}}@media(prefers-color-scheme:dark){{svg{{{DARK}}}}}@media print{{svg{{{LIGHT}}}}}{OF_PICTURE}")

OF_PAGE = f"""
:root{{color-scheme:light dark;{LIGHT}}}
@media(prefers-color-scheme:dark){{:root{{{DARK}}}}}
*{{box-sizing:border-box}}
body{{margin:0 auto;max-width:84rem;padding:1rem;background:var(--ground);color:var(--text);font:16px/1.45 {SANS}}}
h1{{font-size:1.6rem;line-height:1.2;margin:.3rem 0 .6rem;overflow-wrap:anywhere}}
h2{{font-size:1.25rem;margin:2rem 0 .6rem}}h3{{font-size:1.05rem;margin:0 0 .4rem;overflow-wrap:anywhere}}
p,ul,dl{{margin:.4rem 0}}ul{{overflow-wrap:anywhere}}a{{color:var(--link)}}
:focus-visible{{outline:3px solid var(--link);outline-offset:1px}}
code{{font-family:{MONO};font-size:.9em;overflow-wrap:anywhere;unicode-bidi:isolate}}
samp{{font-family:{MONO};font-size:.88em;display:inline-block;width:32ch;max-width:100%;word-break:break-all;vertical-align:top;
background:repeating-linear-gradient(90deg,transparent 0 8ch,var(--stripe) 8ch 16ch)}}
.bad,.odd{{border-left:5px solid var(--bad);background:var(--bad-ground);padding:.5rem .8rem;margin:.8rem 0;overflow-wrap:anywhere}}
.odd{{border-color:var(--odd);background:var(--odd-ground)}}ul.odd{{list-style:none}}
.bad h1,.bad h2,.odd h2{{margin:.2rem 0}}.bad :is(h1,h2,strong),td em{{color:var(--bad)}}.odd h2,td b{{color:var(--odd)}}em{{font-style:normal;font-weight:700}}
.wide{{overflow-x:auto}}.wide table{{min-width:38rem}}
table{{border-collapse:collapse;width:100%;font-size:.875rem}}caption{{text-align:left;color:var(--muted);padding:.2rem 0}}
th,td{{text-align:left;vertical-align:top;padding:.35rem .5rem;border-bottom:1px solid var(--line);overflow-wrap:break-word}}
thead th{{background:var(--raised);overflow-wrap:normal}}
#launches{{table-layout:fixed;min-width:77rem}}#launches.more{{min-width:78rem}}
#launches th:nth-child(1){{width:14%}}#launches :is(th:nth-child(2),th:nth-child(3)){{width:8%}}#launches th:nth-child(4){{width:6rem}}
#launches.more th:nth-child(1){{width:12%}}#launches.more :is(th:nth-child(2),th:nth-child(3)){{width:7%}}#launches th:nth-child(5){{width:7.2rem}}
#launches th:nth-child(7){{width:6rem}}#launches th:nth-child(8){{width:16.5rem}}#launches :is(th:nth-child(9),th:nth-child(10)){{width:6.4rem}}
#launches :is(th,td):nth-child(4),#launches :is(th,td):nth-child(5){{text-align:right;white-space:nowrap}}
thead button{{font:inherit;font-weight:700;color:inherit;background:none;border:0;padding:0;cursor:pointer;text-align:left}}
thead button::after{{content:" ↕";color:var(--muted)}}
[aria-sort=ascending] button::after{{content:" ↑"}}[aria-sort=descending] button::after{{content:" ↓"}}
.tools{{display:none;gap:.6rem;align-items:center;flex-wrap:wrap;margin:.5rem 0}}.js .tools{{display:flex}}
input{{font:inherit;color:inherit;background:var(--ground);border:1px solid var(--edge);border-radius:4px;padding:.3rem .5rem;width:min(24rem,100%)}}
section[id]{{border-top:1px solid var(--line);padding:1rem 0;content-visibility:auto;contain-intrinsic-size:auto 46rem}}
section:target h3{{outline:3px solid var(--link);outline-offset:3px}}
figure{{margin:.6rem 0;overflow-x:auto}}.map{{display:block;width:100%;max-width:62rem;min-width:45rem;height:auto;font-family:{SANS}}}
dl{{display:grid;grid-template-columns:max-content 1fr;gap:.1rem .9rem;font-size:.9rem}}dt{{color:var(--muted)}}dd{{margin:0;overflow-wrap:anywhere}}
.bar{{display:block;width:100%;max-width:56rem;height:1rem}}
.e0{{--c:var(--edge)}}.e1{{--c:var(--b2)}}.e2{{--c:var(--initrd)}}.e3{{--c:var(--dtb)}}.e4{{--c:var(--raw)}}.bar path{{fill:var(--c)}}
.key{{list-style:none;padding:0;display:flex;flex-wrap:wrap;gap:.2rem 1.2rem;font-size:.9rem}}
.key li::before{{content:"";display:inline-block;width:.8em;height:.8em;margin-right:.4em;background:var(--c)}}
.sides{{display:grid;grid-template-columns:repeat(auto-fit,minmax(min(30rem,100%),1fr));gap:1.5rem}}.sides>*{{min-width:0}}
.sides .map{{min-width:38rem}}
pre{{font-family:{MONO};font-size:.85rem;white-space:pre-wrap;overflow-wrap:anywhere;background:var(--raised);padding:.6rem}}
footer{{margin-top:2.5rem;border-top:1px solid var(--line);color:var(--muted);font-size:.875rem}}
@media screen and (max-width:48rem){{
#launches,#launches.more{{display:block;min-width:0}}#launches :is(caption,thead,tbody){{display:block}}
#launches thead tr{{display:flex;flex-wrap:wrap}}#launches tbody tr{{display:flex;flex-direction:column;padding:.5rem 0;border-bottom:1px solid var(--line)}}
#launches :is(th,td):nth-child(n){{border:0;padding:.1rem .5rem;text-align:left;width:auto}}
#launches td:nth-child(n)::before{{color:var(--muted);margin-right:.5em}}#launches tbody th{{order:-2}}#launches td:nth-child(8){{order:-1}}
#launches td:nth-child(2)::before{{content:"Kernel"}}#launches td:nth-child(3)::before{{content:"Initrd"}}#launches td:nth-child(4)::before{{content:"Memory"}}
#launches td:nth-child(5)::before{{content:"Processors"}}#launches td:nth-child(6)::before{{content:"Command line"}}
#launches td:nth-child(7)::before{{content:"Algorithm"}}#launches td:empty{{display:none}}
}}
[hidden]{{display:none!important}}
@media print{{
:root{{{LIGHT}color-scheme:light;font-size:9.5pt}}
@page{{margin:11mm}}
body{{max-width:none;padding:0;font-size:1rem}}
.tools :is(label,input),.back{{display:none!important}}a{{color:inherit;text-decoration:none}}
.wide,figure{{overflow:visible}}
table{{font-size:7pt}}th,td{{padding:2pt 3pt}}thead{{display:table-header-group}}tr{{break-inside:avoid}}
.wide table,#launches,#launches.more{{min-width:0}}thead button::after{{content:none!important}}
#launches th:nth-child(2),#launches th:nth-child(3){{width:9%}}#launches :is(th:nth-child(4),th:nth-child(7),th:nth-child(9),th:nth-child(10)){{width:8%}}
#launches th:nth-child(5){{width:9%}}#launches th:nth-child(8){{width:25%}}
h2,h3,caption{{break-after:avoid}}
section[id]{{content-visibility:visible;break-inside:avoid-page}}
.map,.sides .map{{min-width:0;max-width:150mm}}
samp,path,.key li::before{{print-color-adjust:exact;-webkit-print-color-adjust:exact}}
}}
{OF_PICTURE}"""
