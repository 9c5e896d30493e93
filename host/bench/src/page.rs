//! docs/bench.md, and the lines that are printed meanwhile.
use crate::machine::Machine;
use crate::results::{Results, Row};
use crate::timing::{Effort, Measured, Spread};
use crate::workloads::{Growth, Workload};

/// A measured workload as it is printed.
pub fn line(workload: &Workload, measured: &Measured) -> String {
    let ratio = |spread: Spread, most: Option<f64>| {
        let most = most.map_or("-".into(), digits);
        format!("{:>6} (at most {most:>4})", digits(spread.median))
    };
    format!(
        "{:<40} Rust {:>9} ns   C {}   crate {}",
        workload.name,
        nanoseconds(measured.rust.median),
        ratio(measured.words_ratio, workload.target.words),
        ratio(measured.session_ratio, workload.target.session),
    )
}

/// The whole page.
pub fn page(results: &Results, machine: &Machine, effort: Effort) -> String {
    let mut text = head(machine, effort);
    for (workload, measured) in &results.workloads {
        text += &row(workload, measured, results.before(&workload.name));
    }
    text += &missed(&results.workloads);
    text += GROWTH;
    for (growth, measured) in &results.growth {
        text += &grown(growth, measured, results);
    }
    text
}

fn head(machine: &Machine, effort: Effort) -> String {
    format!(
        "# How long calls take

Written by `make bench` (host/README.md). The unchanged Rust, the C function `tapewoad_apply` on words made before (*C*; a submission, poll or
recovery with its reply, so two calls) and the crate's `UsbSession` (*crate*) make the same calls in one process. Blocks of at least {} µs take turns, {}
each; a ratio is that of a turn's two blocks, shown by its median and, in brackets, the middle half of the turns. Trust the ratios more than
the nanoseconds: other programs may have run. **Bold** is over what was aimed at (*at most*); *before* is host/bench/before.txt.

{}.

\"127 held + 896\" are 127 held requests after 896 completed ones, in a store of 1,024 rows of 65,536 bytes as everywhere above the second table.
The call is about the last request, where nothing else is said. A backend replies at once from what was laid ready, the state is brought back
outside the time, and an answer is dropped within it. From build to build the lines with many rows move by up to two thirds: it matters where the
linker places the loop that looks for a request.

![Ratios by workload, and time by rows](bench.svg)

| workload | Rust, ns | C / Rust | before | at most | crate / Rust | before | at most |
|---|---:|---:|---:|---:|---:|---:|---:|
",
        effort.block.as_micros(),
        effort.blocks,
        machine.line(),
    )
}

fn row(workload: &Workload, measured: &Measured, before: Option<&Row>) -> String {
    let optional = |value: Option<f64>| value.map_or("–".into(), digits);
    let target = workload.target;
    format!(
        "| {} | {} | {} | {} | {} | {} | {} | {} |\n",
        workload.name,
        nanoseconds(measured.rust.median),
        ratio(measured.words_ratio, target.words),
        optional(before.map(|it| it.words)),
        optional(target.words),
        ratio(measured.session_ratio, target.session),
        optional(before.map(|it| it.session)),
        optional(target.session),
    )
}

fn ratio(spread: Spread, most: Option<f64>) -> String {
    let median = digits(spread.median);
    let median = match is_over(spread, most) {
        true => format!("**{median}**"),
        false => median,
    };
    format!(
        "{median} ({} to {})",
        digits(spread.low),
        digits(spread.high)
    )
}

fn is_over(spread: Spread, most: Option<f64>) -> bool {
    most.is_some_and(|most| spread.median > most)
}

/// How many of the targets are missed.
fn missed(workloads: &[(Workload, Measured)]) -> String {
    let words = workloads
        .iter()
        .map(|(it, measured)| (measured.words_ratio, it.target.words));
    let session = workloads
        .iter()
        .map(|(it, measured)| (measured.session_ratio, it.target.session));
    format!(
        "\nOver what was aimed at: {} by C, {} through the crate.\n",
        over(words),
        over(session)
    )
}

fn over(ratios: impl Iterator<Item = (Spread, Option<f64>)>) -> String {
    let aimed: Vec<_> = ratios.filter(|(_, most)| most.is_some()).collect();
    let over = aimed.iter().filter(|(ratio, most)| is_over(*ratio, *most));
    format!("{} of {}", over.count(), aimed.len())
}

const GROWTH: &str = "
## By the rows of the store

Four requests are held, so a call should take as long in every store, but for the one scan of the rows' status words. Nanoseconds; the last
columns are the largest store's time over the smallest's. The Rust has no store.

| call | side | 16 rows | 64 | 256 | 1,024 | 1,024 / 16 | before |
|---|---|---:|---:|---:|---:|---:|---:|
";

fn grown(growth: &Growth, measured: &[Measured], results: &Results) -> String {
    let names = growth.workloads.iter().map(|it| &it.name);
    let before: Option<Vec<&Row>> = names.map(|it| results.before(it)).collect();
    let now = |time: &dyn Fn(&Measured) -> f64| -> Vec<f64> { measured.iter().map(time).collect() };
    let then = |time: &dyn Fn(&Row) -> f64| -> Option<f64> {
        let rows = before.as_ref()?;
        Some(ends(&rows.iter().map(|it| time(it)).collect::<Vec<_>>()))
    };
    [
        ("Rust", now(&|it| it.rust.median), then(&|it| it.rust)),
        (
            "C",
            now(&|it| it.words.median),
            then(&|it| it.rust * it.words),
        ),
        (
            "crate",
            now(&|it| it.session.median),
            then(&|it| it.rust * it.session),
        ),
    ]
    .into_iter()
    .map(|(side, times, before)| grown_row(growth.name, side, &times, before))
    .collect()
}

fn grown_row(name: &str, side: &str, times: &[f64], before: Option<f64>) -> String {
    let cells: Vec<_> = times.iter().map(|it| nanoseconds(*it)).collect();
    let before = before.map_or("–".into(), digits);
    let (cells, last) = (cells.join(" | "), digits(ends(times)));
    format!("| {name} | {side} | {cells} | {last} | {before} |\n")
}

/// The last over the first.
fn ends(values: &[f64]) -> f64 {
    values[values.len() - 1] / values[0]
}

/// Two or three digits of a ratio.
pub fn digits(value: f64) -> String {
    match value {
        ..0.1 => format!("{value:.3}"),
        ..10.0 => format!("{value:.2}"),
        ..100.0 => format!("{value:.1}"),
        _ => format!("{value:.0}"),
    }
}

/// Whole, with a comma before each three digits; below 100 with a tenth.
pub fn nanoseconds(value: f64) -> String {
    if value < 100.0 {
        return format!("{value:.1}");
    }
    grouped(value.round() as u64)
}

fn grouped(number: u64) -> String {
    match number {
        0..1_000 => number.to_string(),
        _ => format!("{},{:03}", grouped(number / 1_000), number % 1_000),
    }
}

#[cfg(test)]
mod tests {
    use super::*;

    fn spread(low: f64, median: f64, high: f64) -> Spread {
        Spread { low, median, high }
    }

    #[test]
    fn numbers_have_few_digits() {
        let shown = [0.0304, 0.55, 1.1, 12.34, 289.4].map(digits);
        assert_eq!(shown, ["0.030", "0.55", "1.10", "12.3", "289"]);
        let shown = [19.96, 472_832.4, 1_001.0].map(nanoseconds);
        assert_eq!(shown, ["20.0", "472,832", "1,001"]);
    }

    #[test]
    fn a_ratio_over_its_target_is_bold() {
        let measured = spread(1.0, 1.2, 1.3);
        assert_eq!(ratio(measured, Some(1.1)), "**1.20** (1.00 to 1.30)");
        assert_eq!(ratio(measured, Some(1.2)), "1.20 (1.00 to 1.30)");
        assert_eq!(ratio(measured, None), "1.20 (1.00 to 1.30)");
    }
}
