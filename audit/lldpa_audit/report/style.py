"""Defines the style of a page: for wide screens and telephones, in light and in dark."""

STYLE = """
:root { --ink: #1d2329; --dim: #5c6670; --rule: #d5dade; --paper: #fff; color-scheme: light dark; }
@media (prefers-color-scheme: dark) { :root { --ink: #e4e8eb; --dim: #9aa5af; --rule: #3a424a;
  --paper: #14181c; } }
* { box-sizing: border-box; }
body { margin: 0 auto; padding: 16px; max-width: 1180px; background: var(--paper);
  color: var(--ink); font: 15px/1.45 system-ui, sans-serif; overflow-wrap: anywhere; }
h1 { font-size: 22px; margin: 0 0 4px; }
h2 { font-size: 18px; margin: 28px 0 8px; border-top: 1px solid var(--rule); padding-top: 14px; }
.count { font-size: 17px; margin: 0 0 16px; }
.tables { display: flex; flex-wrap: wrap; gap: 24px 40px; align-items: flex-start; }
table { border-collapse: collapse; max-width: 100%; }
caption { text-align: left; font-weight: 600; padding: 0 0 4px; }
th { text-align: left; font-weight: 600; color: var(--dim); font-size: 13px; white-space: nowrap; }
td, th { padding: 3px 14px 3px 0; border-bottom: 1px solid var(--rule); vertical-align: top; }
.tables td:first-child { min-width: 6em; }
.number { text-align: right; font-variant-numeric: tabular-nums; }
a { color: inherit; }
small { color: var(--dim); font-size: 12px; }
details { margin: 16px 0 0; color: var(--dim); }
.faults, .repairs { width: 100%; }
.repairs { margin: 0 0 24px; }
.repairs td:nth-child(2) { min-width: 9em; }
.repairs td:nth-child(4), .repairs td:nth-child(5) { min-width: 15em; }
.faults td:first-child { white-space: nowrap; }
.faults td:last-child { min-width: 22em; }
@media (max-width: 640px) {
  .faults tr:first-child, .repairs tr:first-child { display: none; }
  .faults, .faults tbody, .faults tr, .faults td { display: block; }
  .repairs, .repairs caption, .repairs tbody, .repairs tr, .repairs td { display: block; }
  .repairs td:nth-child(-n+2), .repairs td:last-child { display: inline; }
  .repairs td:first-child::after { content: ". "; }
  .repairs td:last-child::before { content: "links: "; font-size: 12px; color: var(--dim); }
  .faults td, .faults td:last-child, .repairs td { border: 0; padding: 0; min-width: 0; }
  .faults tr, .repairs tr { padding: 6px 0; border-bottom: 1px solid var(--rule); }
}
"""
