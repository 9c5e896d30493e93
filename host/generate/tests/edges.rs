//! Edges that chance alone meets too seldom: every seed has some of each.
use std::collections::BTreeMap;

use generate::{Generator, Mix, Table};
use oracle::RowView;
use script::{Answer, Call, Outcome, PortId, RequestId, Submit, TransferType};

const ZEROS: RequestId = RequestId {
    session: 0,
    generation: 0,
    sequence: 0,
};

/// How often each edge came, and what is set.
#[derive(Default)]
struct Edges {
    times: BTreeMap<&'static str, u32>,
    opening: u64,
    ports: BTreeMap<u8, PortId>,
    lists: BTreeMap<u8, Vec<(u8, TransferType)>>,
}

impl Edges {
    fn count(&mut self, call: &Call, answer: &Answer, before: &[RowView]) {
        let refusal = match answer.outcome {
            Outcome::Refused { number, .. } => Some(number),
            _ => None,
        };
        match call {
            Call::Open(open) => {
                self.ports.clear();
                self.lists.clear();
                self.opening = open.session;
            }
            Call::Device { id, port, .. } => {
                self.ports.insert(id.slot, *port);
            }
            Call::Endpoints { slot, list } => {
                self.lists.insert(*slot, list.clone());
            }
            Call::Submit(submit) => self.submission(submit, refusal),
            Call::Report(ZEROS)
            | Call::Cancel(ZEROS)
            | Call::Timeout(ZEROS)
            | Call::Reclaim(ZEROS)
            | Call::Poll { id: ZEROS, .. }
            | Call::Recover { id: ZEROS, .. } => {
                self.note("40 of zeros", refusal == Some(40));
            }
            _ => {}
        }
        let last = before.iter().any(|row| row.id.sequence == u64::MAX - 1);
        self.note("last sequence", last);
    }

    fn submission(&mut self, submit: &Submit, refusal: Option<u16>) {
        let slot = submit.device.slot;
        let port = self.ports.get(&slot);
        let lower = port.is_some_and(|port| port.session < self.opening);
        let list = self.lists.get(&slot).filter(|list| list.len() == 30);
        let target = (submit.endpoint, submit.transfer_type);
        let last = list.is_some_and(|list| list.last() == Some(&target));
        let code = submit.readings[1].map_or(0, |word| word >> 10 & 15);
        let bulk = submit.transfer_type == TransferType::Bulk;
        self.note("31 of a lower session", lower && refusal == Some(31));
        self.note("last of 30 endpoints", last && refusal.is_none());
        let near_low = bulk && code == 10;
        self.note("bulk at speed 10", near_low && refusal.is_none());
    }

    fn note(&mut self, name: &'static str, met: bool) {
        *self.times.entry(name).or_default() += u32::from(met);
    }
}

#[test]
fn every_seed_meets_the_edges() {
    for seed in 1..=10 {
        let mut generator = Generator::new(seed, Mix::Default, None);
        let mut edges = Edges::default();
        let mut table = Table::new(Mix::Default);
        for _ in 0..20_000 {
            let (call, answer) = generator.step().unwrap();
            table.count(&call, &answer, generator.before());
            edges.count(&call, &answer, &generator.before().rows);
        }
        assert_eq!(edges.times.len(), 5);
        let left = table.times("reset, ready, that leaves a row Failed and not quiescent");
        assert!(left >= 3, "seed {seed}: rows left {left} times");
        for (name, times) in edges.times {
            assert!(times >= 5, "seed {seed}: {name} {times} times");
        }
    }
}
