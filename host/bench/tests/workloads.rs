//! Every workload runs on the three sides and is answered alike.
use std::collections::BTreeSet;

use bench::{
    Answer, Call, Reply, Report, Rust, Scene, Session, Side, State, Words, Workload, growth,
    workloads,
};

fn all() -> Vec<Workload> {
    let growth = growth().into_iter().flat_map(|it| it.workloads);
    workloads().into_iter().chain(growth).collect()
}

/// The answers of two turns.
fn turns<S: Side>(workload: &Workload) -> [Answer; 2] {
    let mut scene = Scene::<S>::new(workload.rows, 2);
    let first = scene.answer(workload.call);
    scene.put_back(workload.call);
    [first, scene.answer(workload.call)]
}

/// The C function's answer to a reclaim has no bytes.
fn without_data(answer: Answer) -> Answer {
    match answer {
        Answer::Report(report) => Answer::Report(Report {
            data: None,
            ..report
        }),
        answer => answer,
    }
}

#[test]
fn the_three_sides_answer_alike() {
    for workload in all() {
        let name = &workload.name;
        let [rust, words, session] =
            [turns::<Rust>, turns::<Words>, turns::<Session>].map(|it| it(&workload));
        assert_eq!(rust, session, "{name}");
        match workload.call {
            Call::Reclaim | Call::Life => {
                assert_eq!(rust.map(without_data), words.map(without_data), "{name}")
            }
            _ => assert_eq!(rust, words, "{name}"),
        }
    }
}

/// What a workload is named after is what it does.
#[test]
fn the_answers_are_those_of_the_calls() {
    for workload in all() {
        let [answer, _] = turns::<Rust>(&workload);
        let (name, rows) = (&workload.name, workload.rows);
        let state = |expected| matches!(&answer, Answer::Report(it) if it.state == expected);
        let completed = State::Completed {
            length: rows.length as u64,
        };
        let right = match workload.call {
            Call::Open | Call::Close => answer == Answer::Passed,
            Call::SubmitRefused | Call::StatusUnknown | Call::Poll(Reply::Refused) => {
                answer == Answer::Refused(0)
            }
            Call::Submit(_) | Call::Poll(Reply::Nothing) | Call::Cancel | Call::Timeout => {
                state(State::Pending)
            }
            Call::Poll(Reply::Failed) => state(State::Failed),
            Call::Poll(Reply::Completed(_)) | Call::Reclaim | Call::Life => state(completed),
            Call::Status => state(State::Pending) || rows.held == 0 && state(completed),
            Call::Reports => {
                matches!(&answer, Answer::Reports(it) if it.len() == rows.completed + rows.held)
            }
            Call::Abort | Call::Reset => {
                matches!(&answer, Answer::Aborted(it) if it.len() == rows.stopped)
            }
        };
        assert!(right, "{name}: {answer:?}");
    }
}

/// What the rows are, but for the numbers of their requests.
fn rows<S: Side>(scene: &mut Scene<S>) -> BTreeSet<String> {
    let Answer::Reports(reports) = scene.answer(Call::Reports) else {
        panic!("no reports");
    };
    let mut reports: Vec<_> = reports
        .iter()
        .map(|it| (it.endpoint, it.length, format!("{:?}", it.state)))
        .collect();
    reports.sort();
    let numbered = reports.into_iter().enumerate();
    numbered.map(|it| format!("{it:?}")).collect()
}

fn comes_back<S: Side>(workload: &Workload) {
    let mut scene = Scene::<S>::new(workload.rows, 1);
    let before = rows(&mut scene);
    scene.answer(workload.call);
    assert_eq!(
        rows(&mut scene) == before,
        leaves_rows(workload.call),
        "{}",
        workload.name
    );
    scene.put_back(workload.call);
    assert_eq!(rows(&mut scene), before, "{}", workload.name);
}

fn leaves_rows(call: Call) -> bool {
    call.repeats()
        || matches!(
            call,
            Call::SubmitRefused | Call::Poll(Reply::Refused) | Call::Life
        )
}

/// An opening needs nothing of what was there, and after a close all is anew.
#[test]
fn the_state_is_brought_back() {
    let all = workloads();
    let calls = all
        .iter()
        .filter(|it| !matches!(it.call, Call::Open | Call::Close));
    for workload in calls {
        comes_back::<Rust>(workload);
        comes_back::<Words>(workload);
        comes_back::<Session>(workload);
    }
}

#[test]
fn names_are_told_apart() {
    let names: BTreeSet<_> = all().into_iter().map(|it| it.name).collect();
    assert_eq!(names.len(), all().len());
}
