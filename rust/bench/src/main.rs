//! The engine beside the published Rust, timed (docs/BENCH.md; `make bench RUST=folder`).
//!
//! Both are built in one program and make the same calls on the same input. First every answer is
//! compared: at a difference this says so and exits with 1. Then each row is timed in alternating
//! runs; the table goes to standard output as Markdown and the plot to the file that is named.
//!
//! ```text
//! bench PLOT.svg [PART]      all rows, or those whose name has the part; one with a full stop is a whole name
//! ```

#[cfg(published)]
mod batch;
#[cfg(published)]
#[path = "../../beside/src/chance.rs"]
#[allow(dead_code)]
mod chance;
#[cfg(published)]
mod exports;
#[cfg(published)]
mod measure;
#[cfg(published)]
mod programs;
#[cfg(published)]
mod report;
#[cfg(published)]
mod rows;
#[cfg(published)]
mod sides;
#[cfg(published)]
mod spread;
#[cfg(published)]
mod work;

#[cfg(published)]
fn main() {
    let words: Vec<String> = std::env::args().skip(1).collect();
    let part = words.get(1).cloned().unwrap_or_default();
    let rows = rows::all(&part);
    print!("{}", report::table(&rows));
    if let Some(file) = words.first() {
        std::fs::write(file, report::plot(&rows)).expect("the plot can be written");
    }
}

#[cfg(not(published))]
fn main() {
    println!("bench: skipped, XIENGMADO_RUST does not name the folder of the published Rust");
}
