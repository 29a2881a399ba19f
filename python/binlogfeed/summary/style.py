"""The style of a summary's page."""

STYLE = """
:root {
  --back: #fbfbfa; --front: #1d2327; --soft: #5c666d; --line: #d9dde0; --panel: #ffffff; --room: #eceff1;
  --all: #3b6ea5; --insert: #2a7f62; --update: #d08a1d; --delete: #b3445b; --fault: #b3261e;
}
@media (prefers-color-scheme: dark) {
  :root {
    --back: #15191c; --front: #e6eaed; --soft: #a3adb4; --line: #353d43; --panel: #1d2327; --room: #2b3339;
    --all: #78aee3; --insert: #5cc29c; --update: #ecb552; --delete: #ea8197; --fault: #ff8a80;
  }
}
* { box-sizing: border-box; }
body { margin: 0 auto; padding: 1rem; max-width: 76rem; background: var(--back); color: var(--front);
  font: 15px/1.5 system-ui, sans-serif; }
h1 { font-size: 1.5rem; line-height: 1.25; margin: .5rem 0; overflow-wrap: anywhere; }
h2 { font-size: 1.1rem; margin: 0 0 .75rem; }
h3 { font-size: 1rem; font-weight: normal; margin: 1rem 0 .25rem; }
p { margin: .25rem 0 .75rem; overflow-wrap: anywhere; }
section { background: var(--panel); border: 1px solid var(--line); border-radius: .5rem; padding: 1rem; margin: 1rem 0;
  min-width: 0; }
.pair { display: grid; gap: 1rem; margin: 1rem 0; align-items: start;
  grid-template-columns: repeat(auto-fit, minmax(min(100%, 24rem), 1fr)); }
.pair section { margin: 0; }
code { font: .92em ui-monospace, monospace; overflow-wrap: anywhere; }
.gaps span { white-space: nowrap; }
.fault { border-left: .3rem solid var(--fault); padding: .5rem .75rem; background: var(--panel); }
.fault strong { color: var(--fault); }
.tiles { display: flex; flex-wrap: wrap; gap: .75rem 2rem; margin: 0 0 1rem; }
.tiles div { display: flex; flex-direction: column-reverse; }
.tiles dt { color: var(--soft); }
.tiles dd { margin: 0; font-size: 1.5rem; line-height: 1.2; font-variant-numeric: tabular-nums; }
.scroll { overflow-x: auto; }
table { border-collapse: collapse; width: 100%; }
th, td { text-align: left; padding: .3rem .75rem .3rem 0; border-bottom: 1px solid var(--line); vertical-align: top; }
th { color: var(--soft); font-weight: 600; }
td:first-child { overflow-wrap: anywhere; min-width: 5rem; }
.number { text-align: right; font-variant-numeric: tabular-nums; white-space: nowrap; }
.number + td:not(.number), .number + th:not(.number) { padding-left: 1rem; }
tbody tr:last-child td { border-bottom: 0; }
figure { margin: 0 0 .5rem; }
figcaption, summary { color: var(--soft); }
summary { cursor: pointer; }
svg { display: block; overflow: visible; }
svg text { fill: var(--front); font-size: 13px; font-variant-numeric: tabular-nums; }
svg .end { text-anchor: end; } svg .middle { text-anchor: middle; }
.all { fill: var(--all); } .insert { fill: var(--insert); } .update { fill: var(--update); }
.delete { fill: var(--delete); }
.missing { fill: var(--fault); } .room { fill: var(--room); } .hover { fill: transparent; }
g:hover .hover { fill: var(--room); }
.grid { stroke: var(--line); }
.plot { display: flex; } .plot svg[role] { flex: 1; min-width: 0; } .scale { flex: none; }
.scale text { fill: var(--soft); }
.legend { display: flex; flex-wrap: wrap; gap: .25rem 1.25rem; list-style: none; margin: 0 0 .5rem; padding: 0; }
.legend li { display: flex; align-items: center; gap: .4rem; }
@media (max-width: 40rem) {
  .rare { display: none; }
  .plot text { font-size: 12px; }
  th, td { padding-right: .5rem; font-size: .85rem; }
  td:last-child, th:last-child { padding-right: 0; }
  .tables tr { display: grid; grid-template-columns: repeat(4, 1fr); border-bottom: 1px solid var(--line); }
  .tables td, .tables th { border: 0; padding: .15rem 0; }
  .tables td:first-child, .tables th:first-child { grid-column: 1 / -1; }
  .stacked thead { display: none; }
  .stacked tr { display: block; padding: .4rem 0; border-bottom: 1px solid var(--line); }
  .stacked td { display: flex; gap: .5rem; justify-content: space-between; border: 0; padding: .1rem 0;
    text-align: right; }
  .stacked .number + td { padding-left: 0; }
  .stacked td::before { content: attr(data-head); color: var(--soft); text-align: left; flex: none; }
}
"""
