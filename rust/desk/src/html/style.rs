//! How pages look: black on white, A4, and a colour with a pattern for each initiator, so that they can be told apart in black and white.

use crate::html::element::{element, Element};
use crate::html::svg::{circle, drawn, rect};
use crate::plan::Plan;

/// The initiators of a plan, rising, have colours 0 to 7; more are only in a plan that is refused.
pub const COLOURS: usize = 8;

/// Those who have a colour, rising. In a refused plan an entry's initiator may have no path.
pub fn initiators(plan: &Plan) -> Vec<u8> {
    let mut initiators = plan.initiators();
    initiators.extend(plan.entries.iter().map(|entry| entry.initiator));
    initiators.sort_unstable();
    initiators.dedup();
    initiators
}

/// The class that gives a bar or a box the colour and the pattern of the initiator at this place.
pub fn colour(place: usize) -> String {
    format!("i{}", place % COLOURS)
}

/// Light, dark.
const TINTS: [(&str, &str); COLOURS] = [
    ("#d3e5f7", "#0b5394"),
    ("#fde6c8", "#a85503"),
    ("#d8eed3", "#2d6a1f"),
    ("#e6dbf4", "#5b2c92"),
    ("#f9d8dd", "#9c1c36"),
    ("#d0eeec", "#0b6b66"),
    ("#f7f0bd", "#6f6000"),
    ("#e9e2da", "#5c4331"),
];

/// The lines of each pattern, in a square of eight units.
const LINES: [&str; COLOURS] = [
    "",
    "M-2 2l4-4M0 8l8-8M6 10l4-4",
    "M0 4h8",
    "M4 0v8",
    "M-2 6l4 4M0 0l8 8M6-2l4 4",
    "",
    "M0 4h8M4 0v8",
    "M0 0l8 8M0 8l8-8",
];
/// The pattern that has dots.
const DOTTED: usize = 5;

/// What the classes of `colour` refer to; it takes no room on the page.
pub fn patterns() -> Element {
    let patterns = TINTS.iter().zip(LINES).enumerate();
    let patterns = patterns.map(|(place, (&(light, dark), lines))| {
        let pattern = element("pattern")
            .with("id", format!("p{place}"))
            .with("width", 8)
            .with("height", 8)
            .with("patternUnits", "userSpaceOnUse")
            .add(rect(0.0, 0.0, 8.0, 8.0).with("fill", light));
        match (place, lines) {
            (DOTTED, _) => pattern.add(
                circle(4.0, 4.0, 1.3)
                    .with("fill", dark)
                    .with("fill-opacity", "0.6"),
            ),
            (_, "") => pattern,
            _ => pattern.add(
                drawn(lines)
                    .with("fill", "none")
                    .with("stroke", dark)
                    .with("stroke-opacity", "0.5"),
            ),
        }
    });
    let defs = element("defs").add_all(patterns);
    element("svg")
        .class("patterns")
        .with("width", 0)
        .with("height", 0)
        .with("aria-hidden", "true")
        .add(defs)
}

/// The letters at the foot of a sheet of paper.
pub const FOOT: &str = "font: 8pt Arial, 'Liberation Sans', Helvetica, sans-serif;";

/// The style sheet. It has no `<` and no `&`, which HTML would take as they are and XML would not.
pub const SHEET: &str = "
:root { color-scheme: light; }
* { box-sizing: border-box; }
html { background: #e6e9ec; }
body { max-width: 210mm; margin: 0 auto; padding: 10mm 12mm; background: #fff; color: #000;
  font: 10pt/1.35 Arial, 'Liberation Sans', Helvetica, sans-serif; overflow-wrap: break-word; }
h1 { margin: 0 0 1mm; font-size: 20pt; line-height: 1.15; overflow-wrap: anywhere; }
h2 { margin: 5mm 0 2mm; padding-bottom: 0.8mm; border-bottom: 0.3mm solid #000; font-size: 12pt; break-after: avoid; }
h3 { margin: 3mm 0 1mm; font-size: 10pt; break-after: avoid; }
p { margin: 1.5mm 0; }
.lead { break-after: avoid; }
.small { font-size: 8.5pt; }
code, pre, .mono { font-family: 'DejaVu Sans Mono', 'Liberation Mono', Menlo, Consolas, monospace; font-size: 0.92em; }
pre { margin: 1mm 0; white-space: pre-wrap; }
table { border-collapse: collapse; font-size: 9pt; }
th, td { padding: 0.5mm 2mm; border-bottom: 0.2mm solid #999; text-align: left; vertical-align: top; }
thead { display: table-header-group; }
thead th { border-bottom: 0.4mm solid #000; vertical-align: bottom; }
th.number, td.number { text-align: right; font-variant-numeric: tabular-nums; white-space: nowrap; }
th.number { width: 1%; white-space: normal; }
.wide { width: 100%; }
.rest { width: 55%; }
.two { columns: 2; column-gap: 8mm; }
.two table { width: 100%; font-size: 8.5pt; }
.two th, .two td { padding: 0.5mm 1mm; }
.two .rest { width: auto; }
.two .mono { white-space: nowrap; }
tr, svg, pre, .whole { break-inside: avoid; }
.facts { margin: 2mm 0; }
.facts th { padding-left: 0; font-weight: normal; color: #333; white-space: nowrap; }
.facts th, .facts td { border: 0; }
.facts td { overflow-wrap: anywhere; }
.print td { font-size: 15pt; font-weight: bold; letter-spacing: 0.3mm; line-height: 1.1; }
.print th { vertical-align: middle; }
.verdict { margin: 3mm 0; padding: 2mm 3mm; border: 0.5mm solid #000; }
.verdict strong { font-size: 12pt; }
.refused { border-width: 1.2mm; }
svg { display: block; max-width: 100%; height: auto; margin: 1mm 0; }
#network svg { max-height: 205mm; }
svg text { font-size: 11px; fill: #000; text-anchor: middle; dominant-baseline: central; }
svg text.from { text-anchor: start; }
svg text.to { text-anchor: end; }
svg text.tiny { font-size: 9px; }
svg text.strong { font-weight: bold; }
svg text.halo { paint-order: stroke; stroke: #fff; stroke-width: 3px; stroke-linejoin: round; }
.patterns { position: absolute; width: 0; height: 0; margin: 0; }
.grid { stroke: #bbb; stroke-width: 0.6px; }
.axis { stroke: #000; stroke-width: 1px; }
.i0 { fill: url(#p0); stroke: #0b5394; }
.i1 { fill: url(#p1); stroke: #a85503; }
.i2 { fill: url(#p2); stroke: #2d6a1f; }
.i3 { fill: url(#p3); stroke: #5b2c92; }
.i4 { fill: url(#p4); stroke: #9c1c36; }
.i5 { fill: url(#p5); stroke: #0b6b66; }
.i6 { fill: url(#p6); stroke: #6f6000; }
.i7 { fill: url(#p7); stroke: #5c4331; }
.device rect { stroke-width: 1.4px; }
.device rect.plain { fill: #fff; stroke: #000; }
.router rect.plain { fill: #e4e4e4; }
.missing rect.plain { stroke-dasharray: 3 2; }
.device.fault rect { stroke: #b00000; stroke-width: 3px; stroke-dasharray: 6 2; }
.link path { fill: none; stroke: #333; stroke-width: 1.2px; }
.link.way path { stroke-width: 3px; }
.link.fault path { stroke: #b00000; stroke-width: 5px; stroke-dasharray: 8 2.5; }
.link.fault .frame { fill: #b00000; }
.link.fault text { fill: #fff; }
.bar path { stroke-width: 1.2px; }
.bar.fault path { stroke: #b00000; stroke-width: 3px; stroke-dasharray: 6 2; }
.bar.fault text { font-weight: bold; }
.slot { fill: none; stroke: #b00000; stroke-width: 2px; stroke-dasharray: 2 2; }
.letters { columns: 3; margin: 1mm 0; padding: 0; font-size: 8.5pt; list-style: none; }
.letters li { break-inside: avoid; }
p.fault, .facts tr.fault td, .facts tr.fault th, li.fault { font-weight: bold; color: #b00000; }
mark { background: none; color: #b00000; font-weight: bold; text-decoration: underline; }
tr.fault td, tr.fault th, p.fault { border-top: 0.6mm solid #b00000; border-bottom: 0.6mm solid #b00000; }
.fault-words { font-weight: bold; color: #b00000; }
@page { size: A4 portrait; margin: 12mm; @bottom-right { content: 'page ' counter(page) ' of ' counter(pages);
  font: 8pt Arial, 'Liberation Sans', Helvetica, sans-serif; } }
@media print { html { background: #fff; } body { max-width: none; margin: 0; padding: 0;
  print-color-adjust: exact; -webkit-print-color-adjust: exact; } }
";
