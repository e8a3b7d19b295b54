//! The colours, in light and in dark, and the letters. Colours are written out at each class and once more for dark, and
//! not as CSS variables, which many programs that print or convert SVG do not know. Paper is always light.

/// A selector, its property, and its colours in light and in dark.
const COLOURS: [(&str, &str, &str, &str); 22] = [
    (".paper", "fill", "#ffffff", "#12161b"),
    ("svg", "color", "#1b1f24", "#e6e9ed"),
    (".faint", "color", "#5c6672", "#9aa5b1"),
    (".on", "fill", "#ffffff", "#12161b"),
    (".h", "fill", "#ffffff", "#12161b"),
    (".grid", "stroke", "#d9dee4", "#2c343d"),
    (".lane", "stroke", "#7b8591", "#808b97"),
    (".shade", "fill", "#d5e3f6", "#2b4668"),
    (".bar", "fill", "#bcd2ee", "#35547b"),
    (".edge", "stroke", "#7fa3d1", "#5d83b3"),
    (".data", "color", "#0a57a5", "#74b6ff"),
    (".confirmation", "color", "#6a3a9c", "#cba6ff"),
    (".abort", "color", "#b3261e", "#ff8f80"),
    (".plain", "color", "#4e5965", "#b9c3ce"),
    (".delivery", "color", "#14663a", "#63d391"),
    (".drop", "color", "#8f3d00", "#ffb27a"),
    (".missed", "color", "#b3261e", "#ff8f80"),
    (".all", "color", "#14663a", "#63d391"),
    (".none", "color", "#1b1f24", "#e6e9ed"),
    (".differs", "color", "#b3261e", "#ff8f80"),
    (".keeps", "fill", "#14663a", "#63d391"),
    (".breaks", "fill", "#b3261e", "#ff8f80"),
];

/// What is the same in light and in dark. `s` solid, `h` hollow, `o` outline; `m` letters in marks, `p` payloads,
/// `b` bold, `r` replies, `t` ticks, `k` the legend.
const RULES: &str = "\
text{fill:currentColor;font:14px system-ui,'Segoe UI',Roboto,Helvetica,Arial,'DejaVu Sans',sans-serif}
.title{font-size:21px;font-weight:700}
.name,.m,.verdict text{font-weight:700}
.m,.k{font-size:13px}
.p{font:14px ui-monospace,Menlo,Consolas,'DejaVu Sans Mono',monospace}
.on,.b{font-weight:700}
.r,.t{font-size:12px}
.t{font-variant-numeric:tabular-nums}
.s{fill:currentColor}
.h{stroke:currentColor;stroke-width:2}
.o{fill:none;stroke:currentColor}
.thin{stroke-width:1.5}
.thick{stroke-width:3}
.broken{stroke-dasharray:3 2.5}
.grid{stroke-width:1}
.lane{fill:none;stroke-width:2}
.fold{stroke-dasharray:2 5}
.shade{fill-opacity:.5}
.edge{fill:none;stroke-width:1.5}
.link{fill:none;stroke:currentColor;stroke-width:2}
.link.short{stroke-dasharray:5 4}
";

pub fn style() -> String {
    let mut text = String::from(RULES);
    for (selector, property, light, _) in COLOURS {
        text.push_str(&format!("{selector}{{{property}:{light}}}\n"));
    }
    text.push_str("@media screen and (prefers-color-scheme:dark){\n");
    for (selector, property, _, dark) in COLOURS {
        text.push_str(&format!("{selector}{{{property}:{dark}}}\n"));
    }
    text.push_str("}\n");
    text
}
