//! Samples in three numbers, and those as text.

/// The median, the tenth and the ninetieth hundredth.
#[derive(Clone, Copy)]
pub struct Spread {
    pub low: f64,
    pub median: f64,
    pub high: f64,
}

impl Spread {
    pub fn of(mut samples: Vec<f64>) -> Spread {
        samples.sort_by(f64::total_cmp);
        let at = |part: usize| samples[(samples.len() - 1) * part / 100];
        Spread {
            low: at(10),
            median: at(50),
            high: at(90),
        }
    }
}

/// Three digits or a little more.
pub fn short(x: f64) -> String {
    match x {
        x if x >= 1000.0 => format!("{x:.0}"),
        x if x >= 100.0 => format!("{x:.1}"),
        _ => format!("{x:.2}"),
    }
}

pub fn spread(s: &Spread) -> String {
    format!(
        "{} ({} to {})",
        short(s.median),
        short(s.low),
        short(s.high)
    )
}
