"""How the report looks: colours that can be told apart by those who see few, beside a pattern for
each outcome."""
from __future__ import annotations


STYLE = """/* of a report of git farmdawn */
:root { color-scheme: light dark; --ink: #1c1e21; --soft: #5b6168; --paper: #ffffff; --plate: #f3f4f6; --line: #d5d8dc;
  --good: #0072b2; --bad: #c94f00; --skipped: #6f7378; --stopped: #9c3d78; --ended: #6f7378; --running: #1c1e21;
  --mark: #ffffff; --added: #00598c; --removed: #a83f00 }
@media (prefers-color-scheme: dark) { :root { --ink: #e6e8ea; --soft: #a3a9b0; --paper: #15171a; --plate: #1f2226; --line: #3a3f45;
  --good: #56b4e9; --bad: #ff9040; --skipped: #a8adb3; --stopped: #e39bc7; --ended: #a8adb3; --running: #e6e8ea;
  --mark: #15171a; --added: #7cc6f2; --removed: #ffab70 } }
* { box-sizing: border-box }
body { margin: 0 auto; max-width: 76rem; padding: 1rem; background: var(--paper); color: var(--ink);
  font: 1rem/1.5 system-ui, sans-serif; overflow-wrap: anywhere }
h1 { font-size: 1.4rem; line-height: 1.3; margin: .5rem 0 1rem }
h2 { font-size: 1.1rem; margin: 2rem 0 .5rem }
code, pre, .name { font-family: ui-monospace, monospace; font-size: .85rem }
pre { background: var(--plate); border: 1px solid var(--line); border-radius: 4px; padding: .6rem; margin: .5rem 0; overflow: auto;
  max-height: 40rem; overflow-wrap: normal; line-height: 1.4 }
pre.prose { white-space: pre-wrap; overflow-wrap: anywhere; unicode-bidi: plaintext }
.kind { color: var(--soft); font-size: .9rem; margin: 0 }
.verdict { border-left: 6px solid var(--bad); padding: .1rem 0 .1rem 1rem }
.card { margin: 1.5rem 0 } .card h2 { margin-top: .3rem } .matrix svg { max-width: 100%; height: auto }
.verdict.none { border-color: var(--skipped) }
dl { display: grid; grid-template-columns: fit-content(40%) 1fr; gap: .15rem 1rem; margin: 0; align-items: baseline }
dt { color: var(--soft) }
dt::first-letter { text-transform: uppercase }
dd { margin: 0 }
dd code { white-space: pre-wrap }
a { color: var(--good) }
.added { color: var(--added) } .removed { color: var(--removed) } .place { color: var(--soft) }
summary { cursor: pointer; color: var(--soft) }
svg { display: block }
.drawing { width: 100%; overflow: visible; padding: 0 8px 0 30px }
.drawing text { fill: var(--soft); font: 11px system-ui, sans-serif }
.row { fill: var(--plate) } .tick { stroke: var(--line) }
.patterns { position: absolute }
.good { stroke: var(--good) } .bad { stroke: var(--bad) } .skipped { stroke: var(--skipped) } .stopped { stroke: var(--stopped) }
.ended { stroke: var(--ended); stroke-dasharray: 3 2 } .running { stroke: var(--running) }
.needless { fill-opacity: .18 }
.strip { margin: 0; font-size: 0 } .strip svg { display: inline-block; margin-bottom: 4px }
.boundary { stroke: var(--ink); stroke-width: 2 } rect.doubt { stroke: var(--ink); stroke-width: 2 }
li.doubt { color: var(--removed) }
.c-good { fill: var(--good) } .c-bad { fill: var(--bad) } .c-skipped { fill: var(--skipped) } .c-stopped { fill: var(--stopped) }
.m { stroke: var(--mark); stroke-width: 1.6; fill: none }
.legend { display: flex; flex-wrap: wrap; gap: .2rem 1.1rem; padding: 0; margin: .5rem 0; list-style: none; font-size: .9rem }
.legend li { display: inline-flex; align-items: center; gap: .4rem; white-space: nowrap }
table { border-collapse: collapse; width: 100%; font-size: .9rem }
th { text-align: left; color: var(--soft); font-weight: normal }
th, td { padding: .25rem .6rem .25rem 0; border-bottom: 1px solid var(--line); vertical-align: top }
td, th { white-space: nowrap } td.what { white-space: normal; width: 100% }
td.number, th.number { text-align: right; font-variant-numeric: tabular-nums }
tr:target { background: var(--plate) }
table + .kind, .drawing + .kind, pre + .kind, dl + .kind { margin-top: .5rem }
footer { color: var(--soft); font-size: .85rem; margin-top: 2rem }
@media (max-width: 45rem) {
  dl { gap: .15rem .6rem } dl.lines { display: block } dl.lines dd { margin-bottom: .5rem }
  thead { position: absolute; left: -100rem }
  tr { display: flex; flex-wrap: wrap; gap: 0 .7rem; padding: .4rem 0; border-bottom: 1px solid var(--line) }
  td { border: 0; padding: 0; font-size: .8rem } td:empty { display: none }
  td:first-child, td.what { font-size: .9rem } td:first-child { min-width: 5.2rem }
  td.what { flex: 1 1 calc(100% - 7.5rem) }
  .matrix tr, .matrix td { display: block; white-space: normal }
}
"""
