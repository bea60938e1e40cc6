//! The archive as include/loafheron.h has it: structs of plain numbers, and a slice as a pointer and a length.
use std::mem::offset_of;

#[repr(C)]
#[derive(Clone, Copy, Debug, PartialEq, Eq)]
pub struct Room {
    pub handle: u64,
    pub from: u64,
    pub to: u64,
    pub limit: u64,
    pub desc: u64,
    pub size: u64,
    pub filter: [u8; 64],
}

#[repr(C)]
#[derive(Clone, Copy, Debug, PartialEq, Eq)]
pub struct State {
    pub staging_len: u64,
    pub card_len: u64,
    pub manifest_len: u64,
    pub index_len: u64,
    pub used: u64,
    pub next: u64,
    pub faulted: u64,
    pub running: u64,
    pub spoiled: i64,
    pub turn: u64,
    pub late: u64,
    pub staged: u64,
    pub count: u64,
    pub units: u64,
    pub res_max: u64,
    pub time: u64,
    pub opened: u64,
    pub trace: [u8; 32],
    pub rooms: [Room; 4],
}

#[must_use]
#[repr(C)]
#[derive(Clone, Copy, Debug, PartialEq, Eq)]
pub struct Mounted {
    pub code: i64,
    pub at: u64,
    pub state: State,
}

#[must_use]
#[repr(C)]
#[derive(Clone, Copy, Debug, PartialEq, Eq)]
pub struct Answer {
    pub code: i64,
    pub value: u64,
    /// with a module call's -5 which field it is for, else 0; [`crate::host::Field`] has the names
    pub field: u64,
    pub state: State,
}

#[must_use]
#[repr(C)]
#[derive(Clone, Copy, Debug, PartialEq, Eq)]
pub struct Outcome {
    pub kind: u64,
    pub code: i64,
    pub events: u64,
    pub bytes: u64,
}

#[must_use]
#[repr(C)]
#[derive(Clone, Copy, Debug, PartialEq, Eq)]
pub struct Returned {
    pub outcome: Outcome,
    pub state: State,
}

#[must_use]
#[repr(C)]
#[derive(Clone, Copy, Debug, PartialEq, Eq)]
pub struct Place {
    pub buffer: u64,
    pub at: u64,
    pub len: u64,
}

impl Room {
    /// Free.
    pub const FREE: Room = Room { handle: 0, from: 0, to: 0, limit: 0, desc: 0, size: 0, filter: [0; 64] };
}

impl State {
    /// All 0, as a refused mount leaves it.
    pub const NONE: State = State {
        staging_len: 0,
        card_len: 0,
        manifest_len: 0,
        index_len: 0,
        used: 0,
        next: 0,
        faulted: 0,
        running: 0,
        spoiled: 0,
        turn: 0,
        late: 0,
        staged: 0,
        count: 0,
        units: 0,
        res_max: 0,
        time: 0,
        opened: 0,
        trace: [0; 32],
        rooms: [Room::FREE; 4],
    };
}

// The same numbers stand in include/loafheron.h; tests/sizes measures them in the archive.
const _: () = assert!(size_of::<Room>() == 112 && size_of::<State>() == 616);
const _: () = assert!(offset_of!(State, index_len) == 24 && offset_of!(State, trace) == 136);
const _: () = assert!(size_of::<Mounted>() == 632 && size_of::<Answer>() == 640);
const _: () = assert!(offset_of!(Answer, field) == 16 && offset_of!(Answer, state) == 24);
const _: () = assert!(size_of::<Outcome>() == 32 && size_of::<Returned>() == 648 && size_of::<Place>() == 24);

// The archive itself, where it is linked: on x86-64.
#[cfg(linked)]
extern "C" {
    pub fn loafheron_state_size() -> u64;
    pub fn loafheron_mount(
        staging: *const u8,
        staging_len: usize,
        card: *const u8,
        card_len: usize,
        manifest: *const u8,
        manifest_len: usize,
        index: *mut u32,
        index_len: usize,
        used: u64,
    ) -> Mounted;
    pub fn loafheron_begin(
        state: State,
        staging: *mut u8,
        staging_len: usize,
        card: *const u8,
        card_len: usize,
        manifest: *const u8,
        manifest_len: usize,
        args: *const u8,
        args_len: usize,
    ) -> Answer;
    pub fn loafheron_ingress(
        state: State,
        staging: *mut u8,
        staging_len: usize,
        card: *const u8,
        card_len: usize,
        manifest: *const u8,
        manifest_len: usize,
        topic: *const u8,
        topic_len: usize,
        payload: *const u8,
        payload_len: usize,
    ) -> Answer;
    pub fn loafheron_write(
        state: State,
        memory: *const u8,
        memory_len: usize,
        staging: *mut u8,
        staging_len: usize,
        card: *const u8,
        card_len: usize,
        manifest: *const u8,
        manifest_len: usize,
        at: u64,
    ) -> Answer;
    pub fn loafheron_read(
        state: State,
        memory: *mut u8,
        memory_len: usize,
        staging: *const u8,
        staging_len: usize,
        card: *const u8,
        card_len: usize,
        manifest: *const u8,
        manifest_len: usize,
        at: u64,
    ) -> Answer;
    pub fn loafheron_open(
        state: State,
        memory: *const u8,
        memory_len: usize,
        staging: *const u8,
        staging_len: usize,
        card: *const u8,
        card_len: usize,
        manifest: *const u8,
        manifest_len: usize,
        at: u64,
    ) -> Answer;
    pub fn loafheron_next(
        state: State,
        memory: *mut u8,
        memory_len: usize,
        staging: *const u8,
        staging_len: usize,
        card: *const u8,
        card_len: usize,
        manifest: *const u8,
        manifest_len: usize,
        index: *const u32,
        index_len: usize,
        at: u64,
    ) -> Answer;
    pub fn loafheron_close(
        state: State,
        memory: *const u8,
        memory_len: usize,
        staging: *const u8,
        staging_len: usize,
        card: *const u8,
        card_len: usize,
        manifest: *const u8,
        manifest_len: usize,
        at: u64,
    ) -> Answer;
    pub fn loafheron_return(
        state: State,
        staging: *mut u8,
        staging_len: usize,
        card: *mut u8,
        card_len: usize,
        manifest: *const u8,
        manifest_len: usize,
        index: *mut u32,
        index_len: usize,
        code: i64,
    ) -> Returned;
    pub fn loafheron_look_up(
        state: State,
        staging: *const u8,
        staging_len: usize,
        card: *const u8,
        card_len: usize,
        manifest: *const u8,
        manifest_len: usize,
        index: *const u32,
        index_len: usize,
        id: u64,
    ) -> Place;
}
