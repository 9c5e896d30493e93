//! The input and the expected output of `replay`, part after part.
use std::collections::BTreeMap;
use std::fmt::{self, Display, Formatter};
use std::fs;
use std::path::Path;

use generate::{Generator, Mix, Phase, Table};
use oracle::{Oracle, View};
use script::{Answer, Call, Side, parse_line};

use crate::calls::exchanges;
use crate::{answers, store};

/// What has no Rust side: statuses, lines that are no call, refusals between the
/// two calls of a recovery, and where the port departs from the Rust.
const BY_HAND: [&str; 2] = [
    include_str!("../by-hand.stdin"),
    include_str!("../by-hand.stdout"),
];

const HEAD: &str = "\
# Recorded calls, written by `make -C host words`; docs/CALLS.md has the words. A comment is the script's call that the next lines are.
# What they must print comes from the unchanged Rust; the last part, which has no Rust side, is by hand.
";

pub struct Recording {
    pub stdin: String,
    pub stdout: String,
    /// What the script's calls met.
    pub table: Table,
    /// How often each call of the word format comes.
    words: BTreeMap<u64, u64>,
    left_out: u64,
}

/// A script's part of a recording.
#[derive(Default)]
struct Part {
    stdin: String,
    stdout: String,
    calls: u64,
    left_out: u64,
}

impl Recording {
    /// What the list says: a script of the folder by its name, or a seed, a
    /// number of calls and a phase for the generator.
    pub fn new(folder: &Path, list: &str) -> Result<Self, String> {
        let mut recording = Self {
            stdin: HEAD.into(),
            stdout: String::new(),
            table: Table::new(Mix::Default),
            words: BTreeMap::new(),
            left_out: 0,
        };
        for line in list.lines().filter(|line| !line.starts_with('#')) {
            let fields: Vec<_> = line.split_whitespace().collect();
            match fields[..] {
                [] => {}
                [name] => recording.script(folder, name)?,
                [seed, calls, phase] => recording.generated(line, seed, calls, phase)?,
                _ => return Err(format!("neither a script nor SEED CALLS PHASE: {line}")),
            }
        }
        recording.by_hand();
        match recording.stdin.len() {
            ..=store::INPUT => Ok(recording),
            length => Err(format!(
                "{length} bytes of input, more than {}",
                store::INPUT
            )),
        }
    }

    fn script(&mut self, folder: &Path, name: &str) -> Result<(), String> {
        let path = folder.join(format!("{name}.script"));
        let text = fs::read_to_string(&path);
        let text = text.map_err(|error| format!("{}: {error}", path.display()))?;
        let mut oracle = Oracle::new();
        let mut part = Part::default();
        for (index, line) in text.lines().enumerate() {
            let call = parse_line(index + 1, line);
            let call = call.map_err(|error| format!("{name}: {error}"))?;
            let Some(call) = call.filter(is_recorded) else {
                continue;
            };
            let before = oracle.view();
            if store::fits(&call, &before.rows) {
                let answer = oracle.apply(&call);
                let answer = answer.map_err(|message| format!("{name}: {call}: {message}"))?;
                self.add(&mut part, &call, &answer, &before)?;
            } else {
                part.left_out += 1;
            }
        }
        self.close(&format!("host/recorded/{name}.script"), part);
        Ok(())
    }

    /// So many calls of the generator's; one that does not fit is not run, and
    /// the next is made as if it had never been.
    fn generated(
        &mut self,
        line: &str,
        seed: &str,
        calls: &str,
        phase: &str,
    ) -> Result<(), String> {
        let wrong = || format!("not SEED CALLS PHASE: {line}");
        let seed = seed.parse().map_err(|_| wrong())?;
        let calls: u64 = calls.parse().map_err(|_| wrong())?;
        let only = Phase::from_name(phase).ok_or_else(wrong)?;
        let mut generator = Generator::new(seed, Mix::Default, Some(only));
        let mut part = Part::default();
        for _ in 0..calls {
            let call = generator.propose();
            if !is_recorded(&call) {
                continue;
            }
            if store::fits(&call, &generator.before().rows) {
                let answer = generator.answer(&call)?;
                self.add(&mut part, &call, &answer, generator.before())?;
            } else {
                part.left_out += 1;
            }
        }
        self.close(
            &format!("generated: seed {seed}, {calls} calls, phase {phase}"),
            part,
        );
        Ok(())
    }

    fn add(
        &mut self,
        part: &mut Part,
        call: &Call,
        answer: &Answer,
        before: &View,
    ) -> Result<(), String> {
        part.stdin += &format!("# {call}\n");
        for exchange in exchanges(call, answer, &before.rows)? {
            let number = exchange.call.split(' ').next();
            let number = number.and_then(|word| word.parse().ok());
            *self
                .words
                .entry(number.expect("a call's number"))
                .or_default() += 1;
            part.stdin += &format!("{}\n", exchange.call);
            part.stdout += &format!("{}\n", exchange.answer);
        }
        part.stdin += "=\n";
        part.stdout += &format!("{}\n", answers::state(answer));
        part.calls += 1;
        self.table.count(call, answer, before);
        Ok(())
    }

    fn close(&mut self, name: &str, part: Part) {
        let (calls, left_out) = (part.calls, part.left_out);
        self.stdin += &format!(
            "\n# {name}: {calls} calls; {left_out} left out, whose answer depends on the size of the store\n"
        );
        self.stdin += &part.stdin;
        self.stdout += &part.stdout;
        self.left_out += left_out;
    }

    fn by_hand(&mut self) {
        let [stdin, stdout] = BY_HAND;
        self.stdin += &format!("\n{stdin}");
        self.stdout += stdout;
    }
}

/// `dump` shows what no call of the library does.
fn is_recorded(call: &Call) -> bool {
    !matches!(call, Call::Dump)
}

impl Display for Recording {
    fn fmt(&self, f: &mut Formatter<'_>) -> fmt::Result {
        writeln!(f, "{}", self.table)?;
        writeln!(f, "calls of the word format")?;
        for (number, count) in &self.words {
            writeln!(f, "{number:4} {count:8}")?;
        }
        writeln!(
            f,
            "\n{} calls of scripts, {} of the word format, {} left out; {} bytes of input, {} of output",
            self.table.calls,
            self.words.values().sum::<u64>(),
            self.left_out,
            self.stdin.len(),
            self.stdout.len()
        )
    }
}
