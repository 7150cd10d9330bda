//! Colours and lines. The picture has its own white background, so it looks the same on a light
//! page and on a dark one.

use super::text::FONTS;

const SHAPES: &str = "\
.paper{fill:#fff}
.track{fill:#f8fafc;stroke:none}
.past{fill:#ffe4e6}
.rail{fill:none;stroke:#94a3b8}
.grid{fill:none;stroke:#e2e8f0}
.tick{fill:none;stroke:#64748b}
.end{fill:none;stroke:#111827;stroke-width:2}
.l0{fill:#dbeafe;stroke:#1e3a5f;fill-opacity:.85}
.l1{fill:#fde8b0;stroke:#1e3a5f;fill-opacity:.85}
.lx{fill:#fff;stroke:#b00020;stroke-dasharray:3 2;fill-opacity:.85}
.fixed{fill:url(#held);stroke:none}
.cut{stroke:none}
.side{fill:none;stroke:#1e3a5f}
.named{fill:none;stroke:#b00020;stroke-width:3}
.p{fill:#6d28d9}
.n{fill:#0f766e}
.mir{fill:#111827;stroke:#111827;stroke-width:.8}
.fill{fill:url(#dense);stroke:#94a3b8}
.wide{fill:url(#sparse);stroke:none}
.one{fill:#fecaca;stroke:#b00020;stroke-width:1.5}
.over{fill:url(#crossed);stroke:#b00020}
.back{fill:#fff;stroke:none}
.size{fill:none;stroke:#64748b}
.jog{fill:none;stroke:#dc0018;stroke-width:2.5}
.s0{fill:#dc0018;stroke:#fff}
.s2{fill:#fff;stroke:#dc0018;stroke-width:1.8}
.ghost{fill:none;stroke:#64748b;stroke-dasharray:3 2}
.shift{fill:none;stroke:#334155;stroke-width:1.2}
.rule{fill:none;stroke:#cbd5e1}
";

const PATTERNS: &str = "\
<pattern id=\"dense\" width=\"5\" height=\"5\" patternUnits=\"userSpaceOnUse\">\
<path d=\"M0 5L5 0\" stroke=\"#64748b\" stroke-width=\".9\"/></pattern>
<pattern id=\"sparse\" width=\"10\" height=\"10\" patternUnits=\"userSpaceOnUse\">\
<path d=\"M0 10L10 0\" stroke=\"#cbd5e1\" stroke-width=\".9\"/></pattern>
<pattern id=\"crossed\" width=\"6\" height=\"6\" patternUnits=\"userSpaceOnUse\">\
<path d=\"M0 6L6 0M0 0L6 6\" stroke=\"#b00020\"/></pattern>
<pattern id=\"held\" width=\"7\" height=\"7\" patternUnits=\"userSpaceOnUse\">\
<path d=\"M0 0L7 7\" stroke=\"#1e3a5f\" stroke-opacity=\".3\"/></pattern>
";

/// The style and the patterns, which stand before all shapes.
pub fn definitions() -> String {
    let mut style = String::from(SHAPES);
    style += "text{font-family:'DejaVu Sans Mono',Menlo,Consolas,monospace;pointer-events:none}\n";
    for font in FONTS {
        let weight = if font.bold { ";font-weight:bold" } else { "" };
        let (class, size, colour) = (font.class, font.size, font.colour);
        style += &format!(".{class}{{font-size:{size}px;fill:{colour}{weight}}}\n");
    }
    format!("<defs>\n<style>\n{style}</style>\n{PATTERNS}</defs>\n")
}
