"""The report's style sheet: light and dark by the reader's own setting, ink on white on paper, one column on
a phone.

The three colours are told apart by colour-blind readers (Okabe and Ito's blue, orange, vermilion); hatching
and words say the same without colour.
"""

CSS = """
:root { color-scheme: light dark; --page: #ffffff; --text: #1a1c20; --faint: #565b66; --rule: #d8dbe2; \
--track: #eef0f4;
  --within: #0072b2; --some: #e69f00; --over: #d55e00; --pass: #00634a; --fail: #a63c00; }
@media (prefers-color-scheme: dark) { :root { --page: #15171c; --text: #e8eaf0; --faint: #a4aab8; \
--rule: #363b47; --track: #23272f;
  --within: #56b4e9; --some: #f0b429; --over: #ff8a4c; --pass: #4fd0a8; --fail: #ff9a66; } }
* { box-sizing: border-box; }
body { margin: 0; background: var(--page); color: var(--text); font: 16px/1.5 system-ui, sans-serif; }
main { max-width: 1080px; margin: 0 auto; padding: 24px 16px 48px; }
h1 { font-size: 1.7em; margin: 0 0 4px; overflow-wrap: anywhere; }
h2 { font-size: 1.25em; margin: 40px 0 8px; }
h3 { font-size: 1em; margin: 20px 0 4px; }
p { margin: 4px 0 12px; max-width: 72ch; overflow-wrap: anywhere; }
.faint, .legend { color: var(--faint); font-size: .9em; }
.verdicts { list-style: none; padding: 0; margin: 12px 0; display: grid; \
grid-template-columns: repeat(3, 1fr); gap: 12px; }
.verdicts li { border: 1px solid var(--rule); border-left: 6px solid var(--pass); border-radius: 6px; \
padding: 10px 14px; }
.verdicts li.fail { border-left-style: double; border-left-color: var(--fail); }
.verdicts h3 { margin: 0; font-size: 1em; font-weight: 600; }
.verdicts b { font-size: 1.2em; color: var(--pass); }
.verdicts .fail b { color: var(--fail); }
.verdicts p { margin: 2px 0 0; font-size: .9em; }
.cuts { font-size: .9em; } .cuts th, .cuts td { border-top: 1px solid var(--rule); padding: 2px 8px 2px 0; }
.cuts th { font-weight: 400; overflow-wrap: anywhere; } .cuts th small { display: block; \
color: var(--faint); } .cuts .figure { padding: 2px 0 2px 8px; }
table { border-collapse: collapse; width: 100%; font-variant-numeric: tabular-nums; }
th { font-weight: 600; text-align: left; }
th, td { padding: 4px 12px 4px 0; vertical-align: middle; }
td.figure, th.figure { text-align: right; white-space: nowrap; padding-right: 0; padding-left: 12px; }
.plain { width: auto; } .plain th, .plain td, .plain .figure { border-bottom: 1px solid var(--rule); \
padding: 4px 20px 4px 0; }
.plain th { white-space: normal; vertical-align: bottom; } .plain tr > :last-child { padding-right: 0; }
.months th[scope=row] { font-weight: 400; white-space: nowrap; }
.bars { table-layout: fixed; } .bars th { font-weight: 400; width: 20%; overflow-wrap: anywhere; }
.bars td.bar { width: 52%; padding: 2px 0; }
.bars td.figure small { display: block; color: var(--faint); white-space: normal; }
.bars svg { display: block; width: 100%; height: 22px; } .bars svg.broken { overflow: visible; }
.gap { fill: var(--page); } path.mark { fill: none; } .broken text { fill: var(--text); font-size: 13px; }
.track { fill: var(--track); } .within { fill: var(--within); } .some { fill: var(--some); } \
.over { fill: var(--over); }
.hatch { stroke: var(--page); stroke-width: 3; } .mark { stroke: var(--text); stroke-width: 1.5; }
.mark0 { stroke-dasharray: 5 3; } .mark1 { stroke-dasharray: 1.5 2.5; }
.legend svg { display: inline-block; width: 26px; height: 14px; vertical-align: -2px; margin-right: 6px; }
.legend span { margin-right: 18px; white-space: nowrap; }
details { margin: 8px 0; } summary { cursor: pointer; color: var(--faint); }
code { font: .85em/1.4 ui-monospace, monospace; overflow-wrap: anywhere; }
@media (max-width: 640px) {
  .verdicts { grid-template-columns: 1fr; }
  .bars tr { display: grid; grid-template-columns: minmax(0, 1fr) auto; gap: 0 10px; padding: 6px 0; \
border-bottom: 1px solid var(--rule); }
  .bars th, .bars td, .bars td.bar, .bars td.figure { width: auto; padding: 0; } \
.bars td.bar { grid-column: 1 / -1; grid-row: 2; }
  .plain { width: 100%; } .plain th, .plain td, .plain .figure { font-size: .85em; padding-right: 8px; } \
td:first-child { white-space: nowrap; }
  .months .heads { display: none; } .months tr { display: block; padding-bottom: 8px; } \
.months tr > * { display: flex; justify-content: space-between; }
  .plain.months td, .plain.months .figure { border: 0; padding: 1px 0; } \
.months td::before { content: attr(data-name); color: var(--faint); }
  .hashes tr { display: block; padding-bottom: 8px; } .plain.hashes td, .plain.hashes .figure { display: \
block; border: 0; text-align: left; padding: 0; }
}
@media print {
  :root { --page: #fff; --text: #000; --faint: #444; --rule: #bbb; --track: #eee; --within: #0072b2; \
--some: #e69f00; --over: #d55e00;
    --pass: #00634a; --fail: #a63c00; }
  body { font-size: 11px; print-color-adjust: exact; -webkit-print-color-adjust: exact; } \
main { max-width: none; padding: 0; }
  section, tr, li { break-inside: avoid; } .loading { break-inside: auto; } h2 { break-after: avoid; }
  details::details-content { content-visibility: visible; block-size: auto; }
}
"""
