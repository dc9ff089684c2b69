//! Each request for memory refused in turn, by functions of memory of the test's own: each call answers
//! `Error::NoMemory` and has changed nothing, the same call is made again, and at the end all blocks are given back.
//!
//!     cargo test --features own-allocator --test refused

use msc::{Board, Error, GatherError, Post};
use std::alloc::Layout;
use std::sync::atomic::{AtomicIsize, AtomicUsize, Ordering::SeqCst};

static ASKED: AtomicUsize = AtomicUsize::new(0);
static REFUSED: AtomicUsize = AtomicUsize::new(0);
static LIVE: AtomicIsize = AtomicIsize::new(0);

/// What `rattle_alloc` and `rattle_realloc` answer.
#[repr(C)]
pub struct Block {
    ok: bool,
    at: *mut u8,
}

/// The bytes before a block, in which its size is kept.
const HEAD: usize = 16;

fn layout(size: usize) -> Layout {
    Layout::from_size_align(size + HEAD, 16).unwrap()
}

fn is_refused() -> bool {
    ASKED.fetch_add(1, SeqCst) + 1 == REFUSED.load(SeqCst)
}

#[no_mangle]
pub extern "C" fn rattle_alloc(size: usize, _align: usize) -> Block {
    if is_refused() {
        return Block { ok: false, at: std::ptr::null_mut() };
    }
    LIVE.fetch_add(1, SeqCst);
    // SAFETY: the layout has a size, and the block has room for its head.
    unsafe {
        let at = std::alloc::alloc(layout(size));
        at.cast::<usize>().write(size);
        Block { ok: true, at: at.add(HEAD) }
    }
}

/// # Safety
/// The block is one of those above.
#[no_mangle]
pub unsafe extern "C" fn rattle_realloc(at: *mut u8, _used: usize, size: usize, _align: usize) -> Block {
    if is_refused() {
        return Block { ok: false, at: std::ptr::null_mut() };
    }
    // SAFETY: as above.
    unsafe {
        let head = at.sub(HEAD);
        let at = std::alloc::realloc(head, layout(head.cast::<usize>().read()), size + HEAD);
        at.cast::<usize>().write(size);
        Block { ok: true, at: at.add(HEAD) }
    }
}

/// # Safety
/// The block is one of those above, or there is none.
#[no_mangle]
pub unsafe extern "C" fn rattle_dealloc(at: *mut u8) {
    if !at.is_null() {
        LIVE.fetch_sub(1, SeqCst);
        // SAFETY: as above.
        unsafe {
            let head = at.sub(HEAD);
            std::alloc::dealloc(head, layout(head.cast::<usize>().read()));
        }
    }
}

/// Makes a call again where memory was refused, and counts that.
fn again<T>(met: &mut usize, mut call: impl FnMut() -> Result<T, Error>) -> T {
    let answer = match call() {
        Err(Error::NoMemory) => {
            *met += 1;
            call()
        }
        answer => answer,
    };
    answer.expect("a call that is made again")
}

fn pass(met: &mut usize, posts: &mut [Post<'_>]) {
    let [one, two, three] = posts else { panic!("three posts") };
    for _ in 0..3 {
        again(met, || one.send(3, "left", b"0123456789abcdef"));
        again(met, || two.send(3, "right", b"0123456789abcdef"));
        assert_eq!(again(met, || three.any()).got().expect("a message").name, "left");
        let message = again(met, || three.any()).got().expect("a message");
        assert_eq!((message.from, message.body.len()), (2, 16));
    }
    again(met, || one.reserve(64));
    again(met, || one.send_all(2, &[("item", "tea"), ("waits", "0123456789abcdef")]));
    again(met, || one.close(3));
}

/// Gathers a board, with the one that comes back where memory was refused.
fn gathered(met: &mut usize, board: Board) -> msc::Gathered {
    match board.gather() {
        Ok(gathered) => gathered,
        Err(GatherError { board, error }) => {
            assert_eq!(error, Error::NoMemory);
            *met += 1;
            board.gather().expect("the same board")
        }
    }
}

fn round_trip(met: &mut usize) {
    let mut board = again(met, || Board::new(3, 4));
    pass(met, &mut board.posts());
    again(met, || board.meet());
    let mut gathered = gathered(met, board);
    again(met, || gathered.text(&["client", "server", "logger"]));
    assert_eq!(gathered.reports().count(), 6);
    assert_eq!(gathered.left().count(), 2);
    let (mut next, carried) = again(met, || gathered.carry_over());
    assert_eq!(carried, [2, 0, 0]);
    assert_eq!(again(met, || next.posts()[1].receive(1)).got().expect("a message").body, b"tea");
}

#[test]
fn each_request_is_refused_in_turn() {
    round_trip(&mut 0);
    let all = ASKED.load(SeqCst);
    assert!(all > 0 && LIVE.load(SeqCst) == 0);
    for number in 1..=all {
        let mut met = 0;
        ASKED.store(0, SeqCst);
        REFUSED.store(number, SeqCst);
        round_trip(&mut met);
        assert_eq!((met, LIVE.load(SeqCst)), (1, 0), "request {number} of {all}");
    }
    println!("{all} requests");
}
