//! A short measurement, saved and read again, on its page and in its picture.
use std::time::Duration;

use bench::{Effort, Machine, Results, Row, growth, measure, page, plot, workloads};

const EFFORT: Effort = Effort {
    blocks: 3,
    block: Duration::from_micros(20),
};

fn results(before: Vec<Row>) -> Results {
    let cancels = workloads()
        .into_iter()
        .filter(|it| it.name == "cancel, 1 held");
    let growth = growth().into_iter().filter(|it| it.name == "status");
    Results {
        workloads: cancels
            .map(|it| (it.clone(), measure(&[it], EFFORT)[0]))
            .collect(),
        growth: growth
            .map(|it| (it.clone(), measure(&it.workloads, EFFORT)))
            .collect(),
        before,
    }
}

#[test]
fn a_page_shows_what_was_saved_before() {
    let saved = Row::read(&results(Vec::new()).save()).expect("as it was saved");
    assert_eq!(saved.len(), 5);
    assert!(
        saved
            .iter()
            .all(|it| it.rust > 0.0 && it.words > 0.0 && it.session > 0.0)
    );
    let mut before = saved.clone();
    before[0].words = 7_777.0;
    let page = page(&results(before), &Machine::here(), EFFORT);
    let line = page.lines().find(|it| it.starts_with("| cancel, 1 held |"));
    let cells: Vec<_> = line.expect("its line").split(" | ").collect();
    assert_eq!(cells[3..5], ["7777", "1.10"]);
    let growth = page.lines().filter(|it| it.starts_with("| status |"));
    assert_eq!(growth.count(), 3);
}

#[test]
fn a_plot_has_a_line_of_each_side() {
    let plot = plot(&results(Vec::new()));
    assert!(plot.starts_with("<svg ") && plot.ends_with("</svg>\n"));
    assert!(plot.contains(">cancel, 1 held</text>"));
    // The legend's two and the workload's two; nothing was saved before.
    assert_eq!(plot.matches("<circle ").count(), 4);
    assert_eq!(plot.matches("stroke-dasharray=\"6\"").count(), 1);
}
