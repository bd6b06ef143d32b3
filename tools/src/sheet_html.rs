//! The sheet as one page for a browser or a printer: no script, nothing from elsewhere, and a drawing of the roots and of what is held under them.
use crate::page;
use crate::paper::grouped;
use crate::sheet::{run_words, OnSheet, Root, Sheet, CHECKED};
use crate::words::counted;
use std::fmt::Write;

/// The drawing's width, and the least of a root in it.
const WIDTH: f64 = 660.0;
const LEAST: f64 = 18.0;

/// The least width of a cell of the strip, one that is drawn by itself, and its height.
const CELL: f64 = 3.0;
const SEEN: f64 = 8.0;
const STRIP: f64 = 16.0;

const STYLE: &str = "
body { font: 11pt/1.35 sans-serif; max-width: 46em; margin: 1.5em auto; padding: 0 1em; color: #000; background: #fff; }
h1 { font-size: 1.5em; margin: 0; } h2 { font-size: 1.1em; margin: 1.2em 0 .3em; border-bottom: 1px solid #000; }
table { border-collapse: collapse; } th, td { text-align: left; vertical-align: top; padding: .1em 1.2em .1em 0; font-weight: normal; } th { color: #444; }
code, pre, .hash { font-family: monospace; } .hash { font-size: 1.15em; white-space: pre; } pre { margin: .3em 0; }
.roots { font-size: .85em; margin: .4em 0; } .warning { font-weight: bold; border: 2px solid #000; padding: .3em .6em; } svg { max-width: 100%; height: auto; margin: .4em 0; }
section, table, svg { break-inside: avoid; }
@media print { body { margin: 0; max-width: none; } }
";

fn escaped(words: &str) -> String {
    words.replace('&', "&amp;").replace('<', "&lt;").replace('>', "&gt;").replace('"', "&quot;")
}

/// The whole page.
pub fn page(sheet: &Sheet) -> String {
    let name = escaped(&sheet.name);
    let mut page = format!(
        "<!DOCTYPE html>\n<html lang=\"en\">\n<head>\n<meta charset=\"utf-8\"/>\n\
         <meta http-equiv=\"Content-Security-Policy\" content=\"default-src 'none'; style-src 'unsafe-inline'\"/>\n\
         <title>Archive {name}, {date}</title>\n<style>{STYLE}</style>\n</head>\n<body>\n<h1>Archive {name}</h1>\n\
         <p>Sheet of {date}, by sleep-archive {version}.</p>\n<p{warning}>{audited}</p>\n",
        date = escaped(&sheet.date),
        version = page::VERSION,
        warning = if sheet.audited { "" } else { " class=\"warning\"" },
        audited = escaped(sheet.audit_words()),
    );
    for register in &sheet.registers {
        page += &section(sheet, register);
    }
    page + &format!("<p>{}</p>\n</body>\n</html>\n", escaped(CHECKED))
}

fn row(name: &str, words: &str) -> String {
    format!("<tr><th>{name}</th><td>{words}</td></tr>\n")
}

fn section(sheet: &Sheet, register: &OnSheet) -> String {
    let digits = |bytes: &[u8]| format!("<span class=\"hash\">{}</span>", grouped(bytes).join("\n"));
    let files =
        register.files.iter().map(|(name, length)| format!("{name} {}", counted(*length, "byte"))).collect::<Vec<_>>().join("<br/>");
    let mut section = format!("<section>\n<h2>{}</h2>\n<table>\n", register.title());
    section += &row("chunks", &register.n.to_string());
    section += &row("bytes", &register.size.to_string());
    section += &row("files", &files);
    section += &row("held", &register.held_words());
    section += &row("signatures", &register.signature_words());
    section += &row("public key", &register.key.map_or("none is kept".into(), |key| digits(&key)));
    let root = register.root.as_ref().map_or("not all roots are known in this copy".into(), |(root, _)| digits(root));
    section += &row("root hash", &root);
    section += "</table>\n";
    if let Some((_, roots)) = register.root.as_ref().filter(|(_, roots)| !roots.is_empty()) {
        section += &drawing(register, roots);
        section += &table_of(roots);
    }
    if let Some(command) = register.command(&sheet.name) {
        section += &format!("<p>Held to this sheet by</p>\n<pre>{}</pre>\n", escaped(&command.join("\n")));
    }
    section + "</section>\n"
}

/// The roots by the numbers that they have in the drawing.
fn table_of(roots: &[Root]) -> String {
    let mut table =
        "<table class=\"roots\">\n<tr><th>root</th><th>chunks</th><th>tree index</th><th>bytes</th><th>its hash begins</th></tr>\n"
            .to_string();
    for (count, root) in roots.iter().enumerate() {
        let Root { first, chunks, index, bytes, hash } = root;
        let (run, begins) = (run_words(*first, first + chunks), &grouped(hash)[0][..19]);
        writeln!(table, "<tr><td>{}</td><td>{run}</td><td>{index}</td><td>{bytes}</td><td class=\"hash\">{begins}</td></tr>", count + 1)
            .unwrap();
    }
    table + "</table>\n"
}

/// The places of the roots side by side: each as wide as its share of the chunks, and no narrower than can be seen.
fn places(roots: &[Root]) -> Vec<(f64, f64)> {
    let all = roots.iter().map(|root| root.chunks).sum::<u64>() as f64;
    let (spare, mut at) = (WIDTH - LEAST * roots.len() as f64, 0.0);
    let place = |root: &Root| {
        let (from, width) = (at, LEAST + spare * root.chunks as f64 / all);
        at += width;
        (from, width)
    };
    roots.iter().map(place).collect()
}

/// A triangle for each root, as high as its tree is deep, over a strip that shows which of its chunks are held.
fn drawing(register: &OnSheet, roots: &[Root]) -> String {
    let height = |root: &Root| 14.0 + 6.0 * f64::from(root.index.trailing_ones());
    let top = 14.0 + roots.iter().map(height).fold(0.0, f64::max);
    let all = top + STRIP + 22.0;
    let mut svg = format!(
        "<svg xmlns=\"http://www.w3.org/2000/svg\" viewBox=\"-1 0 {} {all}\" width=\"{}\" height=\"{all}\" role=\"img\" aria-label=\"the roots, and which chunks are held\" font-family=\"sans-serif\" font-size=\"10\">\n\
         <defs><pattern id=\"some-{id}\" width=\"4\" height=\"4\" patternUnits=\"userSpaceOnUse\"><path d=\"M0,4 L4,0\" stroke=\"#000\" stroke-width=\".8\"/></pattern></defs>\n",
        WIDTH + 2.0,
        WIDTH + 2.0,
        id = register.which.name(),
    );
    for (count, (root, (from, width))) in roots.iter().zip(places(roots)).enumerate() {
        let (middle, peak) = (from + width / 2.0, top - height(root));
        writeln!(svg, "<path d=\"M{from:.1},{top} L{middle:.1},{peak} L{:.1},{top} Z\" fill=\"#eee\" stroke=\"#000\"/>", from + width)
            .unwrap();
        writeln!(svg, "<text x=\"{middle:.1}\" y=\"{:.1}\" text-anchor=\"middle\">{}</text>", peak - 3.0, count + 1).unwrap();
        svg += &strip(register, root, (from, width), top);
    }
    svg += &legend(register, top + STRIP + 8.0);
    svg + "</svg>\n"
}

/// The chunks below a root as cells, each for a run of chunks: all of them held, some or none.
fn strip(register: &OnSheet, root: &Root, (from, width): (f64, f64), top: f64) -> String {
    let cells = root.chunks.min((width / CELL) as u64).max(1);
    let (step, mut drawn) = (width / cells as f64, String::new());
    let place = |cell: u64| root.first + cell * root.chunks / cells;
    let mut cell = 0;
    while cell < cells {
        let shade = shade(register, place(cell), place(cell + 1));
        // Cells of one kind are one field, unless each is a chunk that can be seen.
        let other = |next: &u64| step >= SEEN || self::shade(register, place(*next), place(next + 1)) != shade;
        let next = (cell + 1..cells).find(other).unwrap_or(cells);
        let (left, wide) = (from + step * cell as f64, step * (next - cell) as f64);
        writeln!(drawn, "<rect x=\"{left:.1}\" y=\"{top}\" width=\"{wide:.1}\" height=\"{STRIP}\" fill=\"{shade}\" stroke=\"#888\" stroke-width=\".5\"/>").unwrap();
        cell = next;
    }
    drawn
}

/// How a run of chunks is filled in.
fn shade(register: &OnSheet, from: u64, to: u64) -> String {
    let Some(runs) = &register.held else { return "#fff".into() };
    let first = runs.partition_point(|run| run.1 <= from);
    let count = runs[first..].iter().take_while(|run| run.0 < to).map(|run| run.1.min(to) - run.0.max(from)).sum::<u64>();
    match count {
        0 => "#fff".into(),
        count if count == to - from => "#444".into(),
        _ => format!("url(#some-{})", register.which.name()),
    }
}

fn legend(register: &OnSheet, top: f64) -> String {
    let mut drawn = String::new();
    let kinds =
        [("#444".to_string(), "held"), (format!("url(#some-{})", register.which.name()), "some of them held"), ("#fff".into(), "not held")];
    for (count, (fill, words)) in kinds.iter().enumerate() {
        let left = 130.0 * count as f64;
        writeln!(drawn, "<rect x=\"{left}\" y=\"{top}\" width=\"10\" height=\"10\" fill=\"{fill}\" stroke=\"#000\" stroke-width=\".5\"/>")
            .unwrap();
        writeln!(drawn, "<text x=\"{}\" y=\"{}\">{words}</text>", left + 15.0, top + 9.0).unwrap();
    }
    let all = counted(register.n, "chunk");
    writeln!(drawn, "<text x=\"{WIDTH}\" y=\"{}\" text-anchor=\"end\">{all}</text>", top + 9.0).unwrap();
    drawn
}

#[cfg(test)]
mod tests {
    use super::*;
    use crate::counts::Which;

    fn register(n: u64, held: Vec<(u64, u64)>) -> OnSheet {
        OnSheet { which: Which::Content, n, size: 0, signatures: None, files: Vec::new(), key: None, root: None, held: Some(held) }
    }

    fn root(first: u64, chunks: u64) -> Root {
        Root { first, chunks, index: 2 * first + chunks - 1, hash: [0; 32], bytes: 0 }
    }

    #[test]
    fn shades_of_runs() {
        let register = register(10, vec![(0, 2), (3, 5), (9, 10)]);
        for (from, to, shade_of) in
            [(0, 2, "#444"), (2, 3, "#fff"), (0, 5, "url(#some-content)"), (5, 9, "#fff"), (9, 10, "#444"), (4, 6, "url(#some-content)")]
        {
            assert_eq!(shade(&register, from, to), shade_of, "{from} {to}");
        }
    }

    #[test]
    fn the_drawing_is_as_wide_as_the_page() {
        for roots in [vec![root(0, 1)], vec![root(0, 8), root(8, 4), root(12, 1)], (0..20).map(|at| root(0, 1 << (19 - at))).collect()] {
            let places = places(&roots);
            let (from, width) = places[places.len() - 1];
            assert!((from + width - WIDTH).abs() < 1e-6 && places.iter().all(|(_, width)| *width >= LEAST));
        }
    }

    #[test]
    fn nothing_of_a_name_is_obeyed() {
        let sheet = Sheet { name: "<script>&\"".into(), date: "2026-11-17".into(), audited: true, registers: vec![register(0, vec![])] };
        let page = page(&sheet);
        assert!(!page.contains("<script") && page.contains("&lt;script&gt;&amp;&quot;"));
    }
}
