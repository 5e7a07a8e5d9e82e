//! The table in Markdown, and the plot of its ratios.

use std::fmt::Write;

use crate::measure::{Ours, Row};
use crate::spread::{short, spread};

fn met(row: &Row, ours: &Ours) -> &'static str {
    match row.goal {
        None => "",
        Some(goal) if ours.ratio.median >= goal => "yes",
        Some(_) => "**no**",
    }
}

/// The lines of a row, one for each side of ours.
pub fn line(row: &Row) -> String {
    let goal = row.goal.map_or(String::new(), short);
    let lines = row.ours.iter().map(|ours| {
        format!(
            "| {} | {} | {} | {} | {} | {} | {goal} | {} |",
            row.name,
            ours.side,
            row.unit,
            spread(&row.rust),
            spread(&ours.time),
            spread(&ours.ratio),
            met(row, ours),
        )
    });
    lines.collect::<Vec<_>>().join("\n")
}

pub fn table(rows: &[Row]) -> String {
    let mut text = String::from(
        "| row | ours is | unit | Rust | ours | ratio | goal | met |\n|---|---|---|---|---|---|---|---|\n",
    );
    for row in rows {
        writeln!(text, "{}", line(row)).unwrap();
    }
    text
}

/// Where the plot's lines are, in its units.
const LEFT: f64 = 330.0;
const WIDTH: f64 = 520.0;
const STEP: f64 = 30.0;
const TOP: f64 = 50.0;

/// Powers of two from 1/64 to 64 across the plot.
fn across(ratio: f64) -> f64 {
    let part = (ratio.log2() + 6.0) / 12.0;
    LEFT + WIDTH * part.clamp(0.0, 1.0)
}

/// Ratios in a logarithmic scale: a bar from 1 to the median, a thin line from the tenth to the
/// ninetieth hundredth.
pub fn plot(rows: &[Row]) -> String {
    let height = TOP + STEP * rows.len() as f64 + 20.0;
    let mut svg = format!(
        "<svg xmlns=\"http://www.w3.org/2000/svg\" viewBox=\"0 0 {} {height}\" font-family=\"sans-serif\" font-size=\"12\">\n\
         <rect width=\"100%\" height=\"100%\" fill=\"white\"/>\n\
         <text x=\"8\" y=\"16\">The Rust's time divided by ours: right of 1 ours is faster. Blue: crate, orange: exports, green: batch, grey: program</text>\n",
        LEFT + WIDTH + 30.0
    );
    for power in -6..=6 {
        let (x, ratio) = (across(2f64.powi(power)), 2f64.powi(power));
        let (colour, name) = match power {
            0 => ("black", "1".to_string()),
            p if p > 0 => ("#ddd", format!("{ratio}")),
            p => ("#ddd", format!("1/{}", 1 << -p)),
        };
        writeln!(
            svg,
            "<line x1=\"{x}\" x2=\"{x}\" y1=\"{}\" y2=\"{}\" stroke=\"{colour}\"/>\
             <text x=\"{x}\" y=\"{}\" text-anchor=\"middle\">{name}</text>",
            TOP - 6.0,
            height - 14.0,
            TOP - 12.0
        )
        .unwrap();
    }
    for (i, row) in rows.iter().enumerate() {
        bars(&mut svg, row, TOP + STEP * i as f64);
    }
    svg.push_str("</svg>\n");
    svg
}

fn colour(side: &str) -> &'static str {
    match side {
        "crate" => "#3b6ea5",
        "exports" => "#e0912f",
        "batch" => "#4f9d4f",
        _ => "#777",
    }
}

fn bars(svg: &mut String, row: &Row, y: f64) {
    let name = row.name.replace('&', "&amp;").replace('<', "&lt;");
    writeln!(
        svg,
        "<text x=\"{}\" y=\"{}\" text-anchor=\"end\">{name}</text>",
        LEFT - 8.0,
        y + 16.0
    )
    .unwrap();
    let thick = (STEP - 8.0) / row.ours.len() as f64;
    for (i, ours) in row.ours.iter().enumerate() {
        let (one, to) = (across(1.0), across(ours.ratio.median));
        let (low, high) = (across(ours.ratio.low), across(ours.ratio.high));
        let top = y + 3.0 + thick * i as f64;
        let middle = top + (thick - 1.0) / 2.0;
        writeln!(
            svg,
            "<rect x=\"{:.1}\" width=\"{:.1}\" y=\"{top:.1}\" height=\"{:.1}\" fill=\"{}\"><title>{}: {}</title></rect>\
             <line x1=\"{low:.1}\" x2=\"{high:.1}\" y1=\"{middle:.1}\" y2=\"{middle:.1}\" stroke=\"black\"/>",
            one.min(to),
            (to - one).abs(),
            thick - 1.0,
            colour(ours.side),
            ours.side,
            spread(&ours.ratio),
        )
        .unwrap();
    }
}
