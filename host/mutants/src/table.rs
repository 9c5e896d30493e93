//! docs/mutants.md: a line for each mutant, what they come to, and the edits of
//! crates/*/must-fail that they stand for.
use std::fmt::Write;

use crate::{Amount, Built, Edit, Found, Trial};

/// Where nothing showed it.
const NOTHING: &str = "–";

/// What told a mutant, as its line of the table has it.
#[derive(Debug, Clone, PartialEq, Eq)]
pub struct Row {
    pub name: String,
    recorded: String,
    seeds: Vec<String>,
}

impl Row {
    pub fn new(name: &str, trial: &Trial) -> Self {
        let recorded = match (trial.shortest(), &trial.test) {
            (Some((script, found)), _) => {
                format!("{}: {script} {}", trial.recorded.len(), shown(*found))
            }
            (None, Some(test)) => format!("{NOTHING}; test `{test}`"),
            (None, None) => NOTHING.into(),
        };
        let seeds = trial.seeds.iter();
        Self {
            name: name.into(),
            recorded,
            seeds: seeds.map(|it| it.map_or(NOTHING.into(), shown)).collect(),
        }
    }

    /// From a line of the page. None where it is no mutant's.
    pub fn read(line: &str) -> Option<Self> {
        let cells = line.strip_prefix("| `")?.strip_suffix(" |")?;
        let cells: Vec<_> = cells.split(" | ").collect();
        let [name, _what, _file, recorded, seeds @ ..] = &cells[..] else {
            return None;
        };
        Some(Self {
            name: name.strip_suffix('`')?.into(),
            recorded: (*recorded).into(),
            seeds: seeds.iter().map(|it| (*it).into()).collect(),
        })
    }

    /// The line.
    pub fn line(&self, edit: &Edit) -> String {
        let file = edit.file.trim_start_matches("crates/");
        let file = file.replacen("/src/", "/", 1);
        let mut text = format!(
            "| `{}` | {} | {file} | {} |",
            self.name, edit.what, self.recorded
        );
        for seed in &self.seeds {
            let _ = write!(text, " {seed} |");
        }
        text
    }

    fn is_recorded(&self) -> bool {
        !self.recorded.starts_with(NOTHING)
    }

    /// Whether papers show it, or were all that was tried.
    fn on_papers(&self, edit: &Edit) -> bool {
        self.recorded.contains(": papers/") || edit.built() == Ok(vec![Built::Key])
    }

    fn test(&self) -> Option<&str> {
        Some(self.recorded.split_once("; ")?.1)
    }

    /// By this many of the seeds.
    fn by_seeds(&self) -> usize {
        self.seeds.iter().filter(|it| **it != NOTHING).count()
    }

    /// What told it from the Rust, in a word or two.
    fn told(&self) -> Option<String> {
        if self.is_recorded() {
            return Some(self.recorded.clone());
        }
        let mut seeds = (1..).zip(&self.seeds);
        let seed = seeds.find(|(_, found)| **found != NOTHING);
        let seed = seed.map(|(seed, found)| format!("seed {seed}: {found}"));
        seed.or_else(|| self.test().map(Into::into))
    }
}

/// The whole page.
pub fn page(rows: &[(&Edit, Row)], amount: Amount) -> String {
    let mut text = head(amount);
    for (edit, row) in rows {
        text += &row.line(edit);
        text.push('\n');
    }
    text += &summary(rows, amount);
    text += &went(rows);
    text
}

/// What stands before the mutants' lines.
fn head(amount: Amount) -> String {
    let mut text = format!(
        "# Mutants

Written by `make mutants` (host/README.md, \"Mutants\"); `make mutants MUTANTS=\"NAME NAME\"` writes the lines of those anew. Each is the port with the one
change that `host/mutants/NAME.edit` makes, compiled without proof. *Recorded* is how many of the recorded scripts answer otherwise than the Rust did, with
the script that shows it in the fewest calls and the number of that call. A *seed*'s column has the generated call, of {}, at which the sides parted; `–`
where they did not. *Ended* means that the mutant stopped the program. A test is named where neither shows it. A mutant that the library has not, or that
nothing of these shows, is tried on the program `key`: *recorded* has the stored papers with another key and the line, a seed's column the number of the
generated paper, of {} events in all.

| mutant | change | in | recorded |",
        thousands(amount.calls),
        thousands(amount.events)
    );
    for seed in 1..=amount.seeds {
        let _ = write!(text, " seed {seed} |");
    }
    text += "\n|---|---|---|---|";
    for _ in 0..amount.seeds {
        text += "---:|";
    }
    text.push('\n');
    text
}

/// How many mutants there are, and how many of them what shows.
#[derive(Default)]
struct Counts {
    all: usize,
    recorded: usize,
    every_seed: usize,
    some_seed: usize,
    tests: usize,
}

impl Counts {
    fn add(&mut self, row: &Row) {
        self.all += 1;
        self.recorded += usize::from(row.is_recorded());
        self.every_seed += usize::from(row.by_seeds() == row.seeds.len());
        self.some_seed += usize::from(row.by_seeds() > 0);
        self.tests += usize::from(row.test().is_some());
    }
}

/// What all of them come to, and every one that was not found.
fn summary(rows: &[(&Edit, Row)], amount: Amount) -> String {
    let (mut calls, mut papers) = (Counts::default(), Counts::default());
    for (edit, row) in rows {
        let counts = match row.on_papers(edit) {
            true => &mut papers,
            false => &mut calls,
        };
        counts.add(row);
    }
    let mut text = format!(
        "
{} mutants. Of {} on the library the recorded scripts show {}; {} generated calls of each seed show {} by every seed and {} by one at least; the
tests of `tapewoad` and `port` show {} of the others. Of {} on the key program the stored papers show {}; papers of {} events show {} by every seed
and {} by one at least.\n",
        rows.len(),
        calls.all,
        calls.recorded,
        thousands(amount.calls),
        calls.every_seed,
        calls.some_seed,
        calls.tests,
        papers.all,
        papers.recorded,
        thousands(amount.events),
        papers.every_seed,
        papers.some_seed,
    );
    for (edit, row) in rows {
        let name = &edit.name;
        let _ = match (row.told(), &edit.survives) {
            (Some(_), None) => continue,
            (None, Some(reason)) => write!(text, "\n`{name}` survives: {reason}.\n"),
            (None, None) => write!(text, "\n`{name}` SURVIVED, and its edit gives no reason.\n"),
            (Some(_), Some(_)) => write!(
                text,
                "\n`{name}` was FOUND, and its edit says that nothing can.\n"
            ),
        };
    }
    text
}

/// For each edit that a proof had to refuse, the mutant that stands for it.
fn went(rows: &[(&Edit, Row)]) -> String {
    let mut lines = Vec::new();
    for (edit, row) in rows {
        let told = row.told().unwrap_or("nothing: see above".into());
        for was in &edit.was {
            lines.push(format!("| `{was}` | `{}` | {told} |\n", edit.name));
        }
    }
    lines.sort();
    format!(
        "
## Edits that went

{} edits of crates/\\*/must-fail changed code below a contract that is an equation: such an edit can only fail, and each proved its crate again. They went (a 63rd, `slot_alone` of `scope`, is back).
The mutant that makes the change shows that the comparison would notice it: by recorded scripts or stored papers, how many and which first, else by a seed's
call or a test.

| edit that went | mutant | told by |
|---|---|---|
{}",
        lines.len(),
        lines.concat()
    )
}

fn shown(found: Found) -> String {
    match found {
        Found::At(call) => thousands(call),
        Found::Ended => "ended".into(),
    }
}

/// A number with a comma before each three digits.
fn thousands(number: u64) -> String {
    match number {
        0..1000 => number.to_string(),
        _ => format!("{},{:03}", thousands(number / 1000), number % 1000),
    }
}

#[cfg(test)]
mod tests {
    use super::*;

    const AMOUNT: Amount = Amount {
        seeds: 2,
        calls: 10,
        events: 20,
    };

    fn edit(more: &str) -> Edit {
        let text = "# a lie\nfile: crates/words/src/lib.rt\nold: 1\nnew: 2\n";
        Edit::parse("lie", &format!("{text}{more}")).unwrap()
    }

    fn row(line: &str) -> Row {
        Row::read(&format!("| `lie` | a lie | words/lib.rt | {line} |")).unwrap()
    }

    #[test]
    fn numbers_are_grouped() {
        let shown: Vec<_> = [7, 1000, 20_304_005].map(thousands).into();
        assert_eq!(shown, ["7", "1,000", "20,304,005"]);
    }

    #[test]
    fn a_line_names_the_script_of_fewest_calls() {
        let trial = Trial {
            recorded: vec![("a".into(), Found::At(9)), ("b".into(), Found::At(1234))],
            seeds: vec![Some(Found::Ended), None],
            test: None,
        };
        let row = Row::new("lie", &trial);
        let line = "| `lie` | a lie | words/lib.rt | 2: a 9 | ended | – |";
        assert_eq!(row.line(&edit("")), line);
        assert_eq!(Row::read(line), Some(row));
        assert_eq!(Row::read("|---|---|---|---|---:|---:|"), None);
    }

    #[test]
    fn a_survivor_is_told() {
        let told = |more, line| page(&[(&edit(more), row(line))], AMOUNT);
        let none = "– | – | –";
        assert!(told("", none).contains("`lie` SURVIVED"));
        let reason = "survives: no call reads it\n";
        assert!(told(reason, none).contains("`lie` survives: no call reads it."));
        assert!(told(reason, "– | 7 | –").contains("`lie` was FOUND"));
    }

    #[test]
    fn an_edit_that_went_has_what_told_its_mutant() {
        let was = edit("was: words/true\n");
        for (line, told) in [
            ("2: a 9 | 7 | –", "2: a 9"),
            ("– | – | 7", "seed 2: 7"),
            ("–; test `b` | – | –", "test `b`"),
            ("– | – | –", "nothing: see above"),
        ] {
            let page = page(&[(&was, row(line))], AMOUNT);
            assert!(page.ends_with(&format!("|\n| `words/true` | `lie` | {told} |\n")));
        }
    }
}
