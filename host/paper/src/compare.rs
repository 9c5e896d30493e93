//! The same papers through every side and through the key program.
use crate::cut::Difference;
use crate::generate::Generator;
use crate::{FIRST, Program, SIDES, Table, lines, new_side};

/// One that says a paper's key.
pub struct Marker {
    pub name: String,
    mark: Box<Mark>,
}

type Mark = dyn Fn(&[u8]) -> Result<Vec<u8>, String>;

impl Marker {
    pub fn new(name: &str, mark: impl Fn(&[u8]) -> Result<Vec<u8>, String> + 'static) -> Self {
        Self {
            name: name.into(),
            mark: Box::new(mark),
        }
    }

    /// By calls on a side made anew.
    pub fn by_calls(side: &'static str) -> Self {
        Self::new(side, move |paper| {
            let key = lines::key(new_side(side)?.as_mut(), paper)?;
            Ok(key.to_string().into_bytes())
        })
    }

    pub fn by_program(program: Program) -> Self {
        Self::new("the key program", move |paper| program.key(paper))
    }

    /// What it prints, or why it prints nothing.
    pub fn output(&self, paper: &[u8]) -> Vec<u8> {
        let told = |message| format!("no answer: {message}\n").into_bytes();
        (self.mark)(paper).unwrap_or_else(told)
    }
}

/// The sides that are built in, and the program where one is given.
pub fn markers(program: Option<Program>) -> Vec<Marker> {
    let sides = SIDES.iter().copied().map(Marker::by_calls);
    sides.chain(program.map(Marker::by_program)).collect()
}

/// Why a comparison stopped.
pub enum Stop {
    /// At the paper of this number, from 1.
    Difference(u64, Difference),
    Failure(String),
}

/// What a paper shows: `cut_down` or `uncut`.
pub type Find = fn(&[u8], &[Marker]) -> Option<Difference>;

/// Papers of the seed, until they have so many events.
pub fn compare(
    seed: u64,
    events: u64,
    markers: &[Marker],
    find: Find,
    table: &mut Table,
) -> Result<(), Stop> {
    let mut generator = Generator::new(seed);
    let aimed_to = table.events + events;
    while table.events < aimed_to {
        let paper = new_side(FIRST).and_then(|mut side| generator.any(side.as_mut()));
        let paper = paper.map_err(Stop::Failure)?;
        if let Some(found) = find(&paper, markers) {
            return Err(Stop::Difference(table.papers + 1, found));
        }
        let key = new_side(FIRST).and_then(|mut side| lines::key(side.as_mut(), &paper));
        table.count(&paper, &key.map_err(Stop::Failure)?);
    }
    Ok(())
}
