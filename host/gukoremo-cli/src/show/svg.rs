//! The picture as SVG: a row for each file, a column for each snapshot, and behind those what no snapshot shows any more. Titles say more when one points at
//! something.

use super::{range, Bar, Column, Picture};
use crate::values::times;

const MARGIN: usize = 16;
const ROW: usize = 20;
/// How much of a row a bar leaves free above and below.
const INSET: usize = 3;
/// An average letter of the font below.
const LETTER: usize = 7;
const STATE: usize = 84;

const STYLE: &str = "
text { font: 12px sans-serif; fill: #222 }
.title { font-size: 16px; font-weight: bold }
.table { font-weight: bold }
.small { fill: #666 }
.column { fill: #fff }
.odd { fill: #f2f2f2 }
.data { fill: #0072b2 }
.data.ended { fill: #86bcdc }
.delete { fill: #d55e00 }
.delete.ended { fill: #f0b48a }
.expired { fill: url(#grey) }
.scheduled { fill: url(#amber); stroke: #c88a00 }
.gone { fill: none; stroke: #888; stroke-dasharray: 4 3 }
";

const PATTERNS: &str = "<defs>\
<pattern id=\"grey\" width=\"6\" height=\"6\" patternUnits=\"userSpaceOnUse\"><rect width=\"6\" height=\"6\" fill=\"#e4e4e4\"/><path d=\"M0 6L6 0\" stroke=\"#bbb\"/></pattern>\
<pattern id=\"amber\" width=\"6\" height=\"6\" patternUnits=\"userSpaceOnUse\"><rect width=\"6\" height=\"6\" fill=\"#ffe2a8\"/><path d=\"M0 6L6 0\" stroke=\"#e69f00\" stroke-width=\"2\"/></pattern>\
</defs>\n";

/// What a mark means.
const LEGEND: [(&str, &str); 7] = [
    ("data", "data file, in the latest snapshot"),
    ("data ended", "data file that has ended"),
    ("delete", "delete file, in the latest snapshot"),
    ("delete ended", "delete file that has ended"),
    ("expired", "expired snapshots"),
    ("scheduled", "scheduled to be removed"),
    ("gone", "gone: handed out by a cleanup"),
];

pub fn draw(picture: &Picture) -> String {
    let mut drawing = Drawing::new(picture);
    drawing.columns();
    for (table, bars) in &picture.tables {
        drawing.label("table", 0, table);
        drawing.end_row();
        bars.iter().for_each(|bar| drawing.bar(bar));
    }
    drawing.states();
    drawing.svg()
}

/// Where columns lie, and what is drawn so far, row by row.
struct Drawing<'a> {
    picture: &'a Picture,
    /// The left edge of each column, and the right edge of the last.
    edges: Vec<usize>,
    top: usize,
    y: usize,
    rows: String,
}

impl Drawing<'_> {
    fn new(picture: &Picture) -> Drawing<'_> {
        let width = match picture.columns.len() {
            0..=40 => 32,
            41..=160 => 16,
            _ => 8,
        };
        let mut edges = vec![MARGIN + LETTER * (4 + longest_label(picture))];
        for column in &picture.columns {
            let own = if matches!(column, Column::Expired { .. }) { width / 2 } else { width };
            edges.push(edges[edges.len() - 1] + own);
        }
        // title, a line of the legend for each mark, a line of snapshot ids
        let top = MARGIN + ROW * (4 + LEGEND.len());
        Drawing { picture, edges, top, y: top, rows: String::new() }
    }

    fn right(&self) -> usize {
        self.edges[self.edges.len() - 1]
    }

    /// The left edge of the column of a snapshot; the middle of one that stands for several, which are expired.
    fn edge(&self, snapshot: u64) -> usize {
        let at = self.picture.columns.partition_point(|column| column.last() < snapshot).min(self.picture.columns.len() - 1);
        match self.picture.columns[at] {
            Column::Snapshot { .. } => self.edges[at],
            Column::Expired { .. } => (self.edges[at] + self.edges[at + 1]) / 2,
        }
    }

    fn height(&self) -> usize {
        let of_tables: usize = self.picture.tables.iter().map(|(_, bars)| 1 + bars.len()).sum();
        let others = self.picture.scheduled.len() + self.picture.gone.len();
        ROW * (of_tables + others + usize::from(others > 0)).max(1)
    }

    /// Stripes, and the ids above as many of them as have room for it.
    fn columns(&mut self) {
        let height = self.height();
        let mut labelled = 0;
        for (at, column) in self.picture.columns.iter().enumerate() {
            let (x, width) = (self.edges[at], self.edges[at + 1] - self.edges[at]);
            let (id, class, about) = match column {
                Column::Snapshot { id, about } => {
                    (format!(" id=\"snapshot-{id}\""), if at % 2 == 0 { "column" } else { "column odd" }, about.clone())
                }
                Column::Expired { first, last } => (String::new(), "expired", format!("snapshot {}: expired", range(*first, *last))),
            };
            self.rows += &rect(&format!("{id} class=\"{class}\""), x, self.top, width, height, &about);
            if let Column::Snapshot { id, .. } = column {
                let half = LETTER * id.to_string().len() / 2 + 1;
                let middle = x + width / 2;
                if middle >= labelled + half {
                    self.rows += &format!("<text x=\"{middle}\" y=\"{}\" text-anchor=\"middle\">{id}</text>\n", self.top - 6);
                    labelled = middle + half + 2;
                }
            }
        }
        self.rows += &format!("<text x=\"{MARGIN}\" y=\"{}\" class=\"small\">snapshot</text>\n", self.top - 6);
    }

    fn label(&mut self, class: &str, indent: usize, words: &str) {
        let (x, y) = (MARGIN + LETTER * indent, self.y + ROW - 6);
        self.rows += &format!("<text x=\"{x}\" y=\"{y}\" class=\"{class}\">{}</text>\n", escaped(words));
    }

    fn end_row(&mut self) {
        self.y += ROW;
    }

    fn bar(&mut self, bar: &Bar) {
        let (class, indent) = if bar.deletes_of.is_some() { ("delete", 4) } else { ("data", 2) };
        self.label("", indent, &label(bar));
        let (left, right) = (self.edge(bar.life.begin.0), bar.life.end.map_or(self.right(), |end| self.edge(end.0)));
        let ended = if bar.life.end.is_some() { " ended" } else { "" };
        let about = match bar.life.end {
            None => format!("{}, from snapshot {} on, {}", label(bar), bar.life.begin, bar.path),
            Some(end) => format!("{}, from snapshot {} on, ended by {end}, {}", label(bar), bar.life.begin, bar.path),
        };
        let marks = format!(" id=\"file-{}\" class=\"{class}{ended}\"", bar.file);
        self.rows += &rect(&marks, left, self.y + INSET, right - left, ROW - 2 * INSET, &about);
        self.end_row();
    }

    /// What no snapshot shows any more: the lives of these files are not on record.
    fn states(&mut self) {
        let picture = self.picture;
        let (left, height) = (self.right() + MARGIN, ROW - 2 * INSET);
        if !picture.scheduled.is_empty() || !picture.gone.is_empty() {
            self.label("table", 0, "in no snapshot");
            self.end_row();
        }
        for file in &picture.scheduled {
            let about = format!("file {}, scheduled since {}, {}", file.file, times::both(file.time), file.path);
            self.label("", 2, &format!("file {}", file.file));
            self.rows += &rect(&format!(" id=\"file-{}\" class=\"scheduled\"", file.file), left, self.y + INSET, STATE, height, &about);
            self.end_row();
        }
        for (first, last) in &picture.gone {
            let files = format!("file {}", range(*first, *last));
            self.label("", 2, &files);
            self.rows += &rect(&format!(" id=\"file-{first}\" class=\"gone\""), left, self.y + INSET, STATE, height, &format!("{files}: gone"));
            self.end_row();
        }
    }

    fn svg(self) -> String {
        let legend_width = 40 + LETTER * LEGEND.iter().map(|(_, words)| words.len()).max().unwrap_or(0);
        let width = (self.right() + 2 * MARGIN + STATE).max(2 * MARGIN + legend_width).max(2 * MARGIN + 10 * self.picture.title.chars().count());
        let height = self.top + self.height() + MARGIN;
        let mut svg = format!(
            "<svg xmlns=\"http://www.w3.org/2000/svg\" width=\"{width}\" height=\"{height}\" viewBox=\"0 0 {width} {height}\">\n<style>{STYLE}</style>\n{PATTERNS}"
        );
        svg += &format!("<rect width=\"{width}\" height=\"{height}\" fill=\"#fff\"/>\n");
        svg += &format!("<text x=\"{MARGIN}\" y=\"{}\" class=\"title\">{}: files over snapshots</text>\n", MARGIN + 14, escaped(&self.picture.title));
        for (at, (class, words)) in LEGEND.iter().enumerate() {
            let y = MARGIN + ROW * (2 + at) - ROW / 2;
            svg += &rect(&format!(" class=\"{class}\""), MARGIN, y + INSET, 28, ROW - 2 * INSET, words);
            svg += &format!("<text x=\"{}\" y=\"{}\">{words}</text>\n", MARGIN + 36, y + ROW - 6);
        }
        svg + &self.rows + "</svg>\n"
    }
}

/// What stands at a file's row.
fn label(bar: &Bar) -> String {
    match (bar.deletes_of, bar.count) {
        (None, 1) => format!("data file {}, 1 row", bar.file),
        (None, count) => format!("data file {}, {count} rows", bar.file),
        (Some(_), 1) => format!("delete file {}, 1 position", bar.file),
        (Some(_), count) => format!("delete file {}, {count} positions", bar.file),
    }
}

fn longest_label(picture: &Picture) -> usize {
    let of_bars = picture.tables.iter().flat_map(|(name, bars)| bars.iter().map(|bar| label(bar).len()).chain([name.len()]));
    let of_gone = picture.gone.iter().map(|(first, last)| 5 + range(*first, *last).len());
    of_bars.chain(of_gone).chain([12]).max().unwrap_or(0)
}

fn rect(attributes: &str, x: usize, y: usize, width: usize, height: usize, title: &str) -> String {
    format!("<rect{attributes} x=\"{x}\" y=\"{y}\" width=\"{width}\" height=\"{height}\"><title>{}</title></rect>\n", escaped(title))
}

/// A text within XML, which has no control characters.
fn escaped(text: &str) -> String {
    let plain: String = text.chars().map(|character| if character.is_control() { '\u{fffd}' } else { character }).collect();
    plain.replace('&', "&amp;").replace('<', "&lt;").replace('>', "&gt;")
}
