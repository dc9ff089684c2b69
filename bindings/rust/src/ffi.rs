//! The exports of the library, as `msc.h` has them. The calls of this crate make pointers and lengths from slices, and
//! lend each slice for the call alone.

/// A post or a board. Its words are for the library alone; it is empty when both are zero.
#[repr(C)]
pub struct Handle {
    state: u64,
    at: *mut u8,
}

impl Handle {
    pub const EMPTY: Handle = Handle { state: 0, at: std::ptr::null_mut() };
}

/// The lengths of the name and the body of a message that `msc_send_all_` sends.
#[repr(C)]
pub struct Lengths {
    pub name: usize,
    pub body: usize,
}

#[repr(C)]
#[derive(Clone, Default)]
pub struct Arrival {
    pub from: u32,
    pub event: u32,
    pub name_length: usize,
    pub body_length: usize,
    pub races: usize,
}

#[repr(C)]
#[derive(Default)]
pub struct Event {
    pub receives: u32,
    pub partner: u32,
    pub region: u32,
    pub name_length: usize,
}

#[repr(C)]
#[derive(Default)]
pub struct Report {
    pub instance: u32,
    pub event: u32,
    pub races: usize,
}

#[repr(C)]
pub struct Place {
    pub from: u32,
    pub to: u32,
    pub number: usize,
}

#[repr(C)]
#[derive(Default)]
pub struct Left {
    pub name_length: usize,
    pub body_length: usize,
}

/// The bytes of a word or a text.
#[repr(C)]
pub struct Bytes {
    at: *const u8,
    length: usize,
}

impl Bytes {
    /// These bytes, while they are lent.
    pub fn of(bytes: &[u8]) -> Bytes {
        Bytes { at: bytes.as_ptr(), length: bytes.len() }
    }
}

/// The lengths of the texts that a program's task wrote.
#[repr(C)]
#[derive(Default)]
pub struct Written {
    pub out: usize,
    pub err: usize,
}

extern "C" {
    pub fn msc_open_numbered_(
        posts: *mut Handle,
        count: usize,
        capacity: u32,
        origin: u64,
        number: u64,
    ) -> i32;
    pub fn msc_send_(
        post: *mut Handle,
        to: u32,
        name: *const u8,
        name_length: usize,
        body: *const u8,
        body_length: usize,
        event: *mut u32,
    ) -> i32;
    pub fn msc_send_all_(
        post: *mut Handle,
        to: u32,
        bytes: *const u8,
        length: usize,
        messages: *const Lengths,
        count: usize,
        event: *mut u32,
    ) -> i32;
    pub fn msc_receive_(post: *mut Handle, from: u32, arrival: *mut Arrival) -> i32;
    pub fn msc_any_(post: *mut Handle, arrival: *mut Arrival) -> i32;
    pub fn msc_receive_up_to_(
        post: *mut Handle,
        from: u32,
        arrivals: *mut Arrival,
        most: usize,
        count: *mut usize,
    ) -> i32;
    pub fn msc_name_of_(
        post: *mut Handle,
        which: usize,
        buffer: *mut u8,
        room: usize,
        length: *mut usize,
    ) -> i32;
    pub fn msc_body_of_(
        post: *mut Handle,
        which: usize,
        buffer: *mut u8,
        room: usize,
        length: *mut usize,
    ) -> i32;
    pub fn msc_races_of_(
        post: *mut Handle,
        which: usize,
        buffer: *mut u32,
        room: usize,
        count: *mut usize,
    ) -> i32;
    pub fn msc_close_(post: *mut Handle, to: u32) -> i32;
    pub fn msc_open_coregion_(post: *mut Handle) -> i32;
    pub fn msc_close_coregion_(post: *mut Handle) -> i32;
    pub fn msc_reserve_(post: *mut Handle, events: u32) -> i32;
    pub fn msc_event_(post: *mut Handle, number: u32, event: *mut Event, buffer: *mut u8, room: usize)
        -> i32;
    pub fn msc_gather_(posts: *mut Handle, count: usize, board: *mut Handle) -> i32;
    pub fn msc_meet_(posts: *mut Handle, count: usize) -> i32;
    pub fn msc_carry_over_(
        board: *mut Handle,
        posts: *mut Handle,
        count: usize,
        carried: *mut usize,
        room: usize,
        total: *mut usize,
    ) -> i32;
    pub fn msc_board_text_(
        board: *const Handle,
        names: *const u8,
        names_length: usize,
        lengths: *const usize,
        count: usize,
        buffer: *mut u8,
        room: usize,
        length: *mut usize,
    ) -> i32;
    pub fn msc_board_report_(
        board: *const Handle,
        number: usize,
        report: *mut Report,
        buffer: *mut u32,
        room: usize,
    ) -> i32;
    pub fn msc_board_left_(
        board: *const Handle,
        place: *const Place,
        left: *mut Left,
        name: *mut u8,
        name_room: usize,
        body: *mut u8,
        body_room: usize,
    ) -> i32;
    pub fn msc_perform_(
        task: u32,
        seed: u64,
        text: *const u8,
        length: usize,
        out: *mut u8,
        out_room: usize,
        err: *mut u8,
        err_room: usize,
        lengths: *mut Written,
    ) -> i32;
    pub fn msc_view_(
        words: *const Bytes,
        count: usize,
        texts: *const Bytes,
        many: usize,
        out: *mut u8,
        out_room: usize,
        err: *mut u8,
        err_room: usize,
        lengths: *mut Written,
    ) -> i32;
    pub fn msc_free_(handle: *mut Handle);
    pub fn msc_version() -> u32;
}
