//! What the box knows between two calls, and the buffers it is lent.

#[derive(Clone, Copy, Debug, PartialEq, Eq)]
pub enum Spoiled {
    Not,
    Overspent,
    Panicked,
}

/// What a cursor still has to list: its window and limit shrink with each record handed over (57).
#[derive(Clone, Copy, Debug, PartialEq, Eq)]
pub struct Cursor {
    pub filter: [u8; 64],
    pub size: u64,
    pub from: u64,
    pub to: u64,
    pub limit: u64,
    pub desc: bool,
}

/// A free slot has the handle 0 (D17).
#[derive(Clone, Copy, Debug, PartialEq, Eq)]
pub struct Slot {
    pub handle: u64,
    pub cursor: Cursor,
}

#[derive(Clone, Copy, Debug, PartialEq, Eq)]
pub struct Lengths {
    pub staging: u64,
    pub card: u64,
    pub manifest: u64,
    /// in entries
    pub index: u64,
}

#[derive(Clone, Copy, Debug, PartialEq, Eq)]
pub struct Weave {
    pub running: bool,
    pub spoiled: Spoiled,
    pub turn: u64,
    /// for ingress: a module call or a return has been accepted
    pub late: bool,
    pub staged: u64,
    pub count: u64,
    pub units: u64,
    pub res_max: u64,
    pub time: u64,
    pub trace: [u8; 32],
    pub opened: u64,
    pub slots: [Slot; 4],
}

#[derive(Clone, Copy, Debug, PartialEq, Eq)]
pub struct State {
    pub lengths: Lengths,
    pub used: u64,
    /// "a next number (the id after the card's last)"
    pub next: u64,
    pub faulted: bool,
    pub weave: Weave,
}

/// "memory, staging, card and manifest are lent byte buffers"; 02, A9: "lent beside the card, a table with the offset of each record"
#[derive(Clone, Debug, PartialEq, Eq, Default)]
pub struct Lent {
    pub memory: Vec<u8>,
    pub staging: Vec<u8>,
    pub card: Vec<u8>,
    pub manifest: Vec<u8>,
    pub index: Vec<u32>,
}

impl Lent {
    pub fn lengths(&self) -> Lengths {
        Lengths {
            staging: self.staging.len() as u64,
            card: self.card.len() as u64,
            manifest: self.manifest.len() as u64,
            index: self.index.len() as u64,
        }
    }
}

impl Slot {
    pub const FREE: Slot =
        Slot { handle: 0, cursor: Cursor { filter: [0; 64], size: 0, from: 0, to: 0, limit: 0, desc: false } };
}

impl Weave {
    /// No weave: everything 0 (12).
    pub const NONE: Weave = Weave {
        running: false,
        spoiled: Spoiled::Not,
        turn: 0,
        late: false,
        staged: 0,
        count: 0,
        units: 0,
        res_max: 0,
        time: 0,
        trace: [0; 32],
        opened: 0,
        slots: [Slot::FREE; 4],
    };
}

impl State {
    /// "refuses, its state all 0"
    pub const NONE: State = State {
        lengths: Lengths { staging: 0, card: 0, manifest: 0, index: 0 },
        used: 0,
        next: 0,
        faulted: false,
        weave: Weave::NONE,
    };
}
