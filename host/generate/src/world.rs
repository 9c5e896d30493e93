//! What the generator knows of the session it steers, and its next call.
use std::collections::VecDeque;

use oracle::{Oracle, RowView, View};
use script::{
    Answer, Call, ControllerState, DeviceId, DeviceState, Outcome, PortId, RequestId, TransferType,
};
use seeded::Rng;

use crate::Mix;
use crate::bounded::StoreSize;
use crate::episode::Step;
use crate::phase::{Action, Phase};

/// A device as it was last set.
#[derive(Debug, Clone, Copy)]
pub struct Device {
    pub id: DeviceId,
    pub port: PortId,
    pub state: DeviceState,
}

pub struct World {
    pub rng: Rng,
    pub mix: Mix,
    pub phase: Phase,
    /// The only phase, where one was asked for.
    only: Option<Phase>,
    /// The phase whose opening edges come before.
    put_off: Option<Phase>,
    /// Calls left of the phase.
    left: usize,
    /// Whether an opening must be next.
    ended: bool,
    /// Calls that are already decided.
    pub queue: VecDeque<Call>,
    /// Steps that become calls when the rows before them are known.
    pub episode: VecDeque<Step>,
    pub devices: Vec<Device>,
    pub endpoints: Vec<(u8, u8, TransferType)>,
    pub marked: Vec<u8>,
    /// Whether the opening placed one endpoint alone.
    pub alone: bool,
    /// Whether each row gets a token of its own.
    pub distinct: bool,
    pub state: ControllerState,
    /// The ledger's session number.
    pub session: u64,
    /// The opening's session number, which port ids carry.
    pub opening: u64,
    pub next_token: u64,
    /// Whether every opening has a smaller store.
    pub small_stores: bool,
    /// The latest opening's store.
    pub store: StoreSize,
    /// What was there before the latest call.
    pub before: View,
}

impl World {
    pub fn new(seed: u64, mix: Mix, only: Option<Phase>) -> Self {
        Self {
            rng: Rng::new(seed),
            mix,
            phase: Phase::Mixed,
            only,
            put_off: None,
            left: 0,
            ended: false,
            queue: VecDeque::new(),
            episode: VecDeque::new(),
            devices: Vec::new(),
            endpoints: Vec::new(),
            marked: Vec::new(),
            alone: false,
            distinct: false,
            state: ControllerState::Closed,
            session: 0,
            opening: 0,
            next_token: 1,
            small_stores: false,
            store: StoreSize::WHOLE,
            before: View::default(),
        }
    }

    pub fn next_call(&mut self, oracle: &Oracle) -> Call {
        if self.left == 0 {
            self.next_phase(oracle.ports().is_none());
        }
        self.left = self.left.saturating_sub(1);
        self.before = oracle.view();
        if let Some(call) = self.queue.pop_front() {
            return call;
        }
        let rows = self.before.rows.clone();
        if let Some(call) = self.next_step(oracle, &rows) {
            return call;
        }
        if self.phase == Phase::Edges
            && let Some(call) = self.edge(oracle, &rows)
        {
            return call;
        }
        if self.state != ControllerState::Initialized && self.rng.chance(self.eagerness()) {
            return self.towards_initialized(&rows);
        }
        self.free_call(oracle, &rows)
    }

    /// The next call of an episode, where one is under way or begins now.
    fn next_step(&mut self, oracle: &Oracle, rows: &[RowView]) -> Option<Call> {
        let ready = self.phase == Phase::Stalls && self.state == ControllerState::Initialized;
        let may_begin = ready && self.mix == Mix::Default && self.episode.is_empty();
        if may_begin && self.rng.chance(5) {
            self.plan_episode(oracle);
        }
        let step = self.episode.pop_front()?;
        let call = self.episode_call(step, oracle, rows);
        if call.is_none() {
            self.episode.clear();
        }
        call
    }

    fn free_call(&mut self, oracle: &Oracle, rows: &[RowView]) -> Call {
        let held = rows.iter().filter(|row| row.held).count();
        let full = self.is_full(rows.len());
        let mut action = self.phase.action(&mut self.rng, self.mix, full, held);
        let idle = rows.is_empty() && action.needs_a_row() && self.rng.chance(85);
        let early = matches!(action, Action::Abort | Action::Reset) && held < 124;
        if idle || (self.is_alone() && (early || action == Action::Plan)) {
            action = Action::Submit;
        }
        // A marked slot is refused in any state, and is to stay marked.
        let submits =
            matches!(action, Action::Submit | Action::Plan) && self.phase != Phase::Marked;
        let ready = self.state == ControllerState::Initialized;
        if submits && !ready && self.rng.chance(60) {
            return self.towards_initialized(rows);
        }
        if submits
            && self.rng.chance(40)
            && let Some(call) = self.repair(oracle)
        {
            return call;
        }
        self.act(action, oracle, rows)
    }

    /// Whether every submission goes to one endpoint.
    pub fn is_alone(&self) -> bool {
        self.alone && self.phase == Phase::Hold
    }

    /// Percent of calls, while not Initialized, that lead back to it.
    fn eagerness(&self) -> u32 {
        match self.phase {
            Phase::Stalls | Phase::Lifecycle => 20,
            Phase::Marked => 5,
            Phase::Hold | Phase::Fill => 90,
            _ => 60,
        }
    }

    fn next_phase(&mut self, no_ports: bool) {
        if self.phase == Phase::Marked {
            self.clear_marks();
        }
        if let Some(phase) = self.put_off.take() {
            self.begin(phase);
            return self.open();
        }
        let phase = Phase::pick(&mut self.rng);
        self.begin(self.only.unwrap_or(phase));
        let fresh = matches!(
            self.phase,
            Phase::Limits | Phase::Lifecycle | Phase::Hold | Phase::Fill | Phase::Edges
        );
        let stays = self.phase == Phase::Marked;
        if fresh || no_ports || self.ended || (!stays && self.rng.chance(50)) {
            // The session ends here anyway, so edges take nothing from a phase.
            if self.only.is_none() && self.rng.chance(25) {
                self.put_off = Some(self.phase);
                self.begin(Phase::Edges);
            }
            self.open();
        }
    }

    /// The phase is over, and the next begins with an opening.
    pub fn end_history(&mut self) {
        self.left = 0;
        self.ended = true;
    }

    fn begin(&mut self, phase: Phase) {
        self.phase = phase;
        self.left = phase.duration(&mut self.rng);
    }

    fn open(&mut self) {
        self.ended = false;
        match self.phase {
            Phase::Edges => self.plan_edges(),
            _ => self.plan_opening(),
        }
        self.left += self.queue.len();
    }

    fn act(&mut self, action: Action, oracle: &Oracle, rows: &[RowView]) -> Call {
        match action {
            Action::Submit => self.submit(oracle, rows),
            Action::Plan => self.plan(oracle, rows),
            Action::Poll => self.poll(rows),
            Action::Cancel => Call::Cancel(self.pick_id(rows, |row| row.pending)),
            Action::Timeout => Call::Timeout(self.pick_id(rows, |row| row.pending)),
            Action::Reclaim => Call::Reclaim(self.pick_id(rows, |row| !row.held)),
            Action::Report => Call::Report(self.pick_id(rows, |_| true)),
            Action::Reports if rows.len() > 60 && self.rng.chance(80) => Call::Dump,
            Action::Reports => Call::Reports,
            Action::Abort | Action::Reset => self.recover(rows, action == Action::Reset),
            Action::Close => self.close(),
            Action::Dump => Call::Dump,
            Action::Device => self.set_device(oracle),
            Action::Port => self.set_port(oracle),
            Action::Endpoints => self.set_endpoints(),
            Action::Raw if self.phase == Phase::Marked => self.mark_slot(),
            Action::Raw => self.set_raw(),
            Action::Acquire => self.acquire(),
            Action::Initialise => self.initialise(),
        }
    }

    /// A row that `wanted` likes, mostly; else any row, or an id without one.
    pub fn pick_id(&mut self, rows: &[RowView], wanted: impl Fn(&RowView) -> bool) -> RequestId {
        let liked: Vec<_> = rows.iter().filter(|row| wanted(row)).collect();
        match self.rng.below(20) {
            0 => self.stray_id(rows),
            1 | 2 if !rows.is_empty() => rows[self.rng.below(rows.len())].id,
            _ if !liked.is_empty() => self.rng.pick(&liked).id,
            _ if !rows.is_empty() => rows[self.rng.below(rows.len())].id,
            _ => self.stray_id(rows),
        }
    }

    /// An id near a real one, wrong in one part.
    fn stray_id(&mut self, rows: &[RowView]) -> RequestId {
        let mut id = RequestId {
            session: self.session,
            generation: 0,
            sequence: self.rng.below(40) as u64,
        };
        if !rows.is_empty() {
            id = rows[self.rng.below(rows.len())].id;
        }
        match self.rng.below(4) {
            0 => id.session = id.session.wrapping_add(1),
            1 => id.generation = 1,
            2 => id.sequence = id.sequence.wrapping_add(5_000),
            _ => id.sequence = u64::MAX,
        }
        id
    }

    /// Keeps what a call that passed has changed.
    pub fn note(&mut self, call: &Call, answer: &Answer) {
        self.state = answer.state;
        if matches!(answer.outcome, Outcome::Refused { .. }) {
            return;
        }
        match call {
            Call::Open(open) => {
                self.session = open.session;
                self.opening = open.session;
            }
            Call::Close { fresh, .. } => self.session = fresh.unwrap_or(self.session),
            _ => {}
        }
    }
}
