//! What was timed, and tables of it.

use std::fmt::Write;

/// A median and the first and last decile.
#[derive(Clone, Copy)]
pub struct Spread {
    pub median: f64,
    pub low: f64,
    pub high: f64,
}

impl Spread {
    pub fn of(mut numbers: Vec<f64>) -> Spread {
        numbers.sort_unstable_by(f64::total_cmp);
        let at = |tenths: usize| numbers[numbers.len() * tenths / 10];
        Spread { median: at(5), low: at(1), high: at(9) }
    }
}

/// The times of each round, in microseconds.
pub struct Rounds {
    pub ours: Vec<f64>,
    pub rusts: Vec<f64>,
}

impl Rounds {
    pub fn add(&mut self, more: Rounds) {
        self.ours.extend(more.ours);
        self.rusts.extend(more.rusts);
    }
}

/// What was timed, at one size.
pub struct Row {
    pub what: &'static str,
    pub order: &'static str,
    pub n: usize,
    pub rounds: Rounds,
}

impl Row {
    pub fn ours(&self) -> Spread {
        Spread::of(self.rounds.ours.clone())
    }

    pub fn rusts(&self) -> Spread {
        Spread::of(self.rounds.rusts.clone())
    }

    /// Of the ratios of each round's two times.
    fn ratio(&self) -> Spread {
        Spread::of(self.rounds.ours.iter().zip(&self.rounds.rusts).map(|(one, other)| one / other).collect())
    }
}

/// 16384 as 16,384.
pub fn grouped(number: usize) -> String {
    let digits = number.to_string();
    let mut text = String::new();
    for (place, digit) in digits.chars().enumerate() {
        if place > 0 && (digits.len() - place).is_multiple_of(3) {
            text.push(',');
        }
        text.push(digit);
    }
    text
}

/// A time in microseconds with three figures at least.
fn time(us: f64) -> String {
    match us {
        us if us < 10.0 => format!("{us:.2}"),
        us if us < 100.0 => format!("{us:.1}"),
        us => format!("{us:.0}"),
    }
}

/// What was timed, each thing once.
pub fn whats(rows: &[Row]) -> Vec<&'static str> {
    let mut whats = Vec::new();
    for row in rows {
        if !whats.contains(&row.what) {
            whats.push(row.what);
        }
    }
    whats
}

/// The same, each with an order of the chain.
fn kinds(rows: &[Row]) -> Vec<(&'static str, &'static str)> {
    whats(rows).into_iter().flat_map(|what| [(what, "ascending"), (what, "scattered")]).collect()
}

/// A table with a line for each kind and a column for each size.
fn table(rows: &[Row], sizes: &[usize], cell: impl Fn(&Row) -> String) -> String {
    let mut text = String::from("| what | order |");
    sizes.iter().for_each(|&n| write!(text, " {} |", grouped(n)).unwrap());
    writeln!(text, "\n|---|---|{}", "---|".repeat(sizes.len())).unwrap();
    for (what, order) in kinds(rows) {
        write!(text, "| {what} | {order} |").unwrap();
        for &n in sizes {
            let row = rows.iter().find(|row| (row.what, row.order, row.n) == (what, order, n));
            write!(text, " {} |", row.map_or(String::new(), &cell)).unwrap();
        }
        text.push('\n');
    }
    text
}

/// How often as long each kind takes at a size as at the size before, by the first decile.
fn growth(rows: &[Row], sizes: &[usize]) -> String {
    let mut text = String::from("| what | order |");
    for two in sizes.windows(2) {
        write!(text, " {} to {}: {} times the sectors |", grouped(two[0]), grouped(two[1]), two[1] / two[0]).unwrap();
    }
    writeln!(text, "\n|---|---|{}", "---|".repeat(sizes.len() - 1)).unwrap();
    for (what, order) in kinds(rows) {
        write!(text, "| {what} | {order} |").unwrap();
        let of = |n| rows.iter().find(|row| (row.what, row.order, row.n) == (what, order, n));
        for two in sizes.windows(2) {
            if let (Some(small), Some(large)) = (of(two[0]), of(two[1])) {
                let ours = large.ours().low / small.ours().low;
                let rusts = large.rusts().low / small.rusts().low;
                write!(text, " {ours:.1} / {rusts:.1} |").unwrap();
            } else {
                text.push_str(" |");
            }
        }
        text.push('\n');
    }
    text
}

/// The three tables.
pub fn tables(rows: &[Row], sizes: &[usize]) -> String {
    let medians = table(rows, sizes, |row| {
        format!("{} / {}: **{:.2}**", time(row.ours().median), time(row.rusts().median), row.ratio().median)
    });
    let spreads = table(rows, sizes, |row| {
        let ratio = row.ratio();
        let [ours, rusts] = [row.ours(), row.rusts()].map(|side| format!("{} to {}", time(side.low), time(side.high)));
        format!("{ours} / {rusts}: {:.2} to {:.2}", ratio.low, ratio.high)
    });
    format!(
        "Medians in microseconds, ours / the Rust's, by the number of sectors; behind them the **ratio**, which is the median\n\
         of each round's own. Above 1 ours takes longer.\n\n{medians}\n\
         The spread: the first to the last decile of the same.\n\n{spreads}\n\
         How times grow, by the first decile, which changes of the processor's speed touch least: how often as long as at the\n\
         size before, ours / the Rust's.\n\n{}",
        growth(rows, sizes)
    )
}
