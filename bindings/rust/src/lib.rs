//! Message passing between threads that reports message races as they happen, for programs in Rust.
//!
//! A [`Board`] has 2 to 32 instances, with a lane from each to every other. A lane is first in, first out, and has 1
//! to 64 slots. An instance acts through its [`Post`], in any thread: it sends, receives and closes lanes. Each message
//! comes with the races of its receive: the earlier events of this instance that came before it only by luck. In
//! another run they may come after it.
//!
//! ```
//! use msc::{Board, Error, Post, Taken};
//! use std::thread;
//!
//! /// Receives until all others have closed their lanes, and prints each race by the names of its two messages.
//! fn serve(mut post: Post<'_>) -> Result<usize, Error> {
//!     let mut races = 0;
//!     loop {
//!         match post.any()? {
//!             Taken::Got(message) => {
//!                 for &number in &message.races {
//!                     let earlier = post.event(number).expect("an earlier event");
//!                     println!("{} may come before {} (event {number})", message.name, earlier.name);
//!                     races += 1;
//!                 }
//!             }
//!             Taken::Nothing => thread::yield_now(),
//!             Taken::Ended => return Ok(races),
//!         }
//!     }
//! }
//!
//! fn order(mut post: Post<'_>, what: &str) -> Result<(), Error> {
//!     post.send(3, "order", what.as_bytes())?;
//!     post.close(3)
//! }
//!
//! fn main() -> Result<(), Error> {
//!     let mut board = Board::new(3, 4)?;
//!     let [first, second, server] = board.posts_array()?;
//!     let races = thread::scope(|scope| {
//!         scope.spawn(|| order(first, "tea"));
//!         scope.spawn(|| order(second, "ale"));
//!         serve(server)
//!     })?;
//!     assert_eq!(races, 1);
//!     println!("{}", board.gather()?.text(&["first", "second", "server"])?);
//!     Ok(())
//! }
//! ```
//!
//! **Waiting.** No call waits. If nothing waits, or a lane is full ([`Error::Full`]), try again after
//! [`std::thread::yield_now`] or a growing pause. A timeout is a number of tries, or a time that the caller takes:
//! `examples/give_up.rs` has a loop that sends and one that receives. To stop an instance from outside, send it a
//! message, or close the lanes to it: then it gets [`Taken::Ended`].
//!
//! **Long runs.** A line has 4,096 events; further sends and receives are refused ([`Error::LineFull`]). A longer run
//! gathers its board before that, and goes on with the next one: [`Gathered::carry_over`].
//!
//! **Panics.** If a thread panics and drops its post, the board stays as it was. It can still be gathered, and it can
//! lend its posts anew.
//!
//! **Linking.** The crate links `libmsc.a` from the folder that the variable `MSC_LIB_DIR` names or `pkg-config` finds,
//! and `libmsc_malloc.a` beside it. With the feature `own-allocator` it leaves out the second. The program then defines
//! `rattle_alloc`, `rattle_realloc` and `rattle_dealloc` itself.
//!
//! What the library does is proved. This crate, which passes slices to it, isn't.

#![deny(missing_docs, unsafe_op_in_unsafe_fn)]

mod board;
mod error;
mod ffi;
mod gathered;
mod message;
mod post;
mod texts;

pub use board::{Board, GatherError};
pub use error::Error;
pub use gathered::{Gathered, Left, Report, Reports, Waiting};
pub use message::{Direction, Event, Message, Name, Taken};
pub use post::{Events, Post};
pub use texts::{check, random, replay, view, Answer, Refused};

/// The version of the library that the program is linked with: major × 10,000 + minor × 100 + patch.
pub fn version() -> u32 {
    // SAFETY: it reads nothing of the caller's.
    unsafe { ffi::msc_version() }
}
