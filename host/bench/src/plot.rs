//! docs/bench.svg: ratios by workload, and time by the rows of the store.
use crate::page::nanoseconds;
use crate::results::{Results, Row};
use crate::svg::{Anchor, Axis, Svg};
use crate::timing::Measured;
use crate::workloads::{Growth, STORES, Workload};

const WIDTH: f64 = 900.0;
/// Where the labels end and the axes begin.
const LEFT: f64 = 250.0;
const RIGHT: f64 = WIDTH - 20.0;
const TOP: f64 = 60.0;
const LINE: f64 = 17.0;
const GROWTH_HEIGHT: f64 = 300.0;

const WORDS: &str = "#0072b2";
const SESSION: &str = "#d55e00";
const GRID: &str = "#dddddd";
const ONE: &str = "#888888";
const TARGET: &str = "#222222";
/// Of the calls of [`Results::growth`].
const CALLS: [&str; 4] = ["#0072b2", "#d55e00", "#009e73", "#aa4499"];

pub fn plot(results: &Results) -> String {
    let bottom = TOP + LINE * results.workloads.len() as f64;
    let mut svg = Svg::new(WIDTH, bottom + 90.0 + GROWTH_HEIGHT);
    legend(&mut svg);
    ratios(&mut svg, results, bottom);
    growth(&mut svg, &results.growth, bottom + 60.0);
    svg.end()
}

fn legend(svg: &mut Svg) {
    svg.text(
        (LEFT, 18.0),
        Anchor::Start,
        "Time of a call as a ratio to the Rust: now (dot), before (ring), at most (bar)",
    );
    for (x, colour, name) in [
        (LEFT, WORDS, "C function, on the upper line"),
        (
            LEFT + 220.0,
            SESSION,
            "crate (UsbSession), on the lower line",
        ),
    ] {
        svg.dot((x + 4.0, 32.0), colour, true);
        svg.text((x + 14.0, 36.0), Anchor::Start, name);
    }
}

fn ratios(svg: &mut Svg, results: &Results, bottom: f64) {
    let axis = Axis {
        values: (0.01, 1_000.0),
        places: (LEFT, RIGHT),
    };
    for power in axis.powers() {
        let (x, colour) = (axis.place(power), if power == 1.0 { ONE } else { GRID });
        svg.line(&[(x, TOP - 6.0), (x, bottom)], colour, 0);
        svg.text((x, TOP - 10.0), Anchor::Middle, &power.to_string());
    }
    for (place, (workload, measured)) in results.workloads.iter().enumerate() {
        let y = TOP + LINE * (place as f64 + 0.5);
        svg.text((LEFT - 8.0, y + 4.0), Anchor::End, &workload.name);
        let before = results.before(&workload.name);
        for side in sides(workload, measured, before) {
            side.draw(svg, &axis, y);
        }
    }
}

/// One side of a workload's line.
struct Mark {
    colour: &'static str,
    /// From the line's middle.
    offset: f64,
    ratio: f64,
    before: Option<f64>,
    most: Option<f64>,
}

fn sides(workload: &Workload, measured: &Measured, before: Option<&Row>) -> [Mark; 2] {
    [
        Mark {
            colour: WORDS,
            offset: -3.5,
            ratio: measured.words_ratio.median,
            before: before.map(|it| it.words),
            most: workload.target.words,
        },
        Mark {
            colour: SESSION,
            offset: 3.5,
            ratio: measured.session_ratio.median,
            before: before.map(|it| it.session),
            most: workload.target.session,
        },
    ]
}

impl Mark {
    fn draw(&self, svg: &mut Svg, axis: &Axis, middle: f64) {
        let y = middle + self.offset;
        if let Some(most) = self.most {
            let x = axis.place(most);
            svg.line(&[(x, y - 3.5), (x, y + 3.5)], TARGET, 0);
        }
        if let Some(before) = self.before {
            svg.dot((axis.place(before), y), self.colour, false);
        }
        svg.dot((axis.place(self.ratio), y), self.colour, true);
    }
}

fn growth(svg: &mut Svg, growth: &[(Growth, Vec<Measured>)], top: f64) {
    let x = Axis {
        values: (STORES[0] as f64, STORES[3] as f64),
        places: (LEFT, RIGHT - 120.0),
    };
    let y = Axis {
        values: (10.0, 10_000.0),
        places: (top + GROWTH_HEIGHT, top + 20.0),
    };
    svg.text((LEFT, top), Anchor::Start, "Nanoseconds of a call by the rows of the store, 4 of them used: C (whole), crate (dashed), Rust (dotted)");
    for power in y.powers() {
        svg.line(
            &[(x.places.0, y.place(power)), (x.places.1, y.place(power))],
            GRID,
            0,
        );
        svg.text(
            (LEFT - 8.0, y.place(power) + 4.0),
            Anchor::End,
            &nanoseconds(power),
        );
    }
    for store in STORES {
        let place = (x.place(store as f64), y.places.0 + 16.0);
        svg.text(place, Anchor::Middle, &nanoseconds(store as f64));
    }
    for (place, ((growth, measured), colour)) in growth.iter().zip(CALLS).enumerate() {
        let points = |time: &dyn Fn(&Measured) -> f64| -> Vec<_> {
            let times = STORES.iter().zip(measured);
            times
                .map(|(store, it)| (x.place(*store as f64), y.place(time(it))))
                .collect()
        };
        svg.line(&points(&|it| it.words.median), colour, 0);
        svg.line(&points(&|it| it.session.median), colour, 6);
        svg.line(&points(&|it| it.rust.median), colour, 2);
        let label = (x.places.1 + 12.0, top + 30.0 + LINE * place as f64);
        svg.line(&[label, (label.0 + 16.0, label.1)], colour, 0);
        svg.text((label.0 + 22.0, label.1 + 4.0), Anchor::Start, growth.name);
    }
}
