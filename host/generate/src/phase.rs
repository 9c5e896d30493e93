//! What a stretch of a script is after: which calls come how often.
use seeded::Rng;

use crate::Mix;

#[derive(Debug, Clone, Copy, PartialEq, Eq)]
pub enum Action {
    Submit,
    Plan,
    Poll,
    Cancel,
    Timeout,
    Reclaim,
    Report,
    Reports,
    Abort,
    Reset,
    Close,
    Dump,
    Device,
    Port,
    Endpoints,
    Raw,
    Acquire,
    Initialise,
}

impl Action {
    pub fn needs_a_row(self) -> bool {
        matches!(
            self,
            Poll | Cancel | Timeout | Reclaim | Report | Abort | Reset
        )
    }
}

#[derive(Debug, Clone, Copy, PartialEq, Eq)]
pub enum Phase {
    /// A bit of everything.
    Mixed,
    /// Submissions that are wrong in one place or two.
    Checks,
    /// Control plans, right and wrong.
    Plans,
    /// Pulled cables, failed readings, stale devices.
    Ports,
    /// Sequence, revision and port generation near their maxima.
    Limits,
    /// Submissions without completions, until 128 are held.
    Hold,
    /// Completed rows kept, until all 1,024 are used.
    Fill,
    /// Errors, stalls and the recovery from them.
    Stalls,
    /// Openings, failed acquires, closes.
    Lifecycle,
    /// Submissions to marked slots, most of them without a device (26 before 27).
    Marked,
    /// Edges that chance meets too seldom. It is never picked: it comes before
    /// another phase's opening.
    Edges,
}

impl Phase {
    pub fn from_name(name: &str) -> Option<Self> {
        Some(match name {
            "mixed" => Self::Mixed,
            "checks" => Self::Checks,
            "plans" => Self::Plans,
            "ports" => Self::Ports,
            "limits" => Self::Limits,
            "hold" => Self::Hold,
            "fill" => Self::Fill,
            "stalls" => Self::Stalls,
            "lifecycle" => Self::Lifecycle,
            "marked" => Self::Marked,
            "edges" => Self::Edges,
            _ => return None,
        })
    }

    pub fn pick(rng: &mut Rng) -> Self {
        rng.weighted(&[
            (40, Self::Mixed),
            (28, Self::Checks),
            (20, Self::Plans),
            (24, Self::Ports),
            (24, Self::Limits),
            (11, Self::Hold),
            (2, Self::Fill),
            (50, Self::Stalls),
            (12, Self::Lifecycle),
            (26, Self::Marked),
        ])
    }

    /// How many calls it lasts.
    pub fn duration(self, rng: &mut Rng) -> usize {
        match self {
            Self::Fill => 2_700 + rng.below(300),
            Self::Hold => 250 + rng.below(150),
            Self::Limits | Self::Lifecycle => 40 + rng.below(60),
            Self::Marked => 15 + rng.below(20),
            Self::Edges => 16 + rng.below(10),
            _ => 80 + rng.below(250),
        }
    }

    /// The next action, where so many rows are held.
    pub fn action(self, rng: &mut Rng, mix: Mix, full: bool, held: usize) -> Action {
        let weights = match (full, held) {
            (true, _) => FULL,
            (_, 124..) => HELD,
            _ => self.weights(),
        };
        let action = rng.weighted(weights);
        match action {
            Action::Abort | Action::Reset if mix == Mix::NoRecovery => Action::Poll,
            _ => action,
        }
    }

    /// Devices that can be used by every submission.
    pub fn is_steady(self) -> bool {
        matches!(self, Self::Hold | Self::Fill | Self::Edges)
    }

    fn weights(self) -> &'static [(u32, Action)] {
        match self {
            Self::Mixed => MIXED,
            Self::Checks => CHECKS,
            Self::Plans => PLANS,
            Self::Ports => PORTS,
            Self::Limits => LIMITS,
            Self::Hold => HOLD,
            Self::Fill => FILL,
            Self::Stalls => STALLS,
            Self::Lifecycle => LIFECYCLE,
            Self::Marked => MARKED,
            Self::Edges => EDGES,
        }
    }

    /// Percent of submissions and plans that are made wrong.
    pub fn wrong(self) -> u32 {
        match self {
            Self::Checks | Self::Plans => 75,
            Self::Mixed => 15,
            Self::Hold | Self::Fill => 1,
            _ => 6,
        }
    }

    /// Percent of port readings that fail or show a change.
    pub fn disturbed(self) -> u32 {
        match self {
            Self::Ports => 30,
            Self::Limits => 15,
            Self::Hold | Self::Fill => 0,
            _ => 3,
        }
    }

    /// Percent of replies that are errors of the backend.
    pub fn failing(self) -> u32 {
        match self {
            Self::Hold | Self::Fill => 0,
            Self::Lifecycle => 20,
            _ => 6,
        }
    }

    /// Percent of tokens that another row already has.
    pub fn equal_tokens(self) -> u32 {
        match self {
            Self::Stalls => 35,
            _ => 10,
        }
    }
}

use Action::*;

const MIXED: &[(u32, Action)] = &[
    (22, Submit),
    (8, Plan),
    (22, Poll),
    (5, Cancel),
    (5, Timeout),
    (12, Reclaim),
    (4, Report),
    (1, Reports),
    (5, Abort),
    (4, Reset),
    (1, Close),
    (4, Dump),
    (2, Device),
    (2, Port),
    (1, Endpoints),
    (1, Raw),
    (1, Acquire),
    (1, Initialise),
];
const CHECKS: &[(u32, Action)] = &[
    (80, Submit),
    (5, Poll),
    (8, Reclaim),
    (2, Raw),
    (2, Device),
    (1, Endpoints),
    (2, Dump),
];
const PLANS: &[(u32, Action)] = &[
    (80, Plan),
    (8, Poll),
    (8, Reclaim),
    (1, Raw),
    (1, Device),
    (2, Dump),
];
const PORTS: &[(u32, Action)] = &[
    (40, Submit),
    (12, Plan),
    (8, Poll),
    (4, Reclaim),
    (12, Port),
    (14, Device),
    (2, Raw),
    (8, Dump),
];
const LIMITS: &[(u32, Action)] = &[
    (30, Submit),
    (8, Plan),
    (24, Poll),
    (8, Reset),
    (4, Abort),
    (8, Port),
    (4, Device),
    (2, Close),
    (12, Dump),
];
const HOLD: &[(u32, Action)] = &[
    (150, Submit),
    (15, Plan),
    (8, Poll),
    (4, Cancel),
    (4, Timeout),
    (2, Reclaim),
    (1, Report),
    (1, Abort),
    (1, Reset),
    (1, Dump),
];
/// Where 128 are held, or nearly.
const HELD: &[(u32, Action)] = &[
    (50, Submit),
    (8, Plan),
    (25, Poll),
    (4, Cancel),
    (4, Timeout),
    (4, Reclaim),
    (3, Report),
    (1, Reports),
    (3, Abort),
    (3, Reset),
    (2, Dump),
];
const FILL: &[(u32, Action)] = &[
    (100, Submit),
    (20, Plan),
    (130, Poll),
    (3, Cancel),
    (3, Timeout),
    (1, Reclaim),
    (2, Report),
    (1, Dump),
];
/// Where all rows are used, or nearly.
const FULL: &[(u32, Action)] = &[
    (50, Submit),
    (10, Plan),
    (30, Poll),
    (2, Cancel),
    (2, Timeout),
    (20, Reclaim),
    (4, Report),
    (1, Reports),
    (1, Abort),
    (1, Reset),
    (2, Dump),
];
const STALLS: &[(u32, Action)] = &[
    (50, Submit),
    (3, Plan),
    (20, Poll),
    (3, Cancel),
    (3, Timeout),
    (4, Reclaim),
    (10, Abort),
    (14, Reset),
    (1, Close),
    (8, Dump),
    (1, Reports),
    (2, Device),
];
const LIFECYCLE: &[(u32, Action)] = &[
    (12, Submit),
    (3, Plan),
    (8, Poll),
    (16, Close),
    (12, Acquire),
    (12, Initialise),
    (4, Report),
    (4, Cancel),
    (6, Dump),
];
/// Between the edges.
const EDGES: &[(u32, Action)] = &[(30, Submit), (40, Poll), (20, Reclaim), (10, Dump)];
const MARKED: &[(u32, Action)] = &[(45, Submit), (15, Plan), (30, Raw), (6, Device), (4, Dump)];
