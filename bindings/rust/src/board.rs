//! Boards.

use crate::error::{done, Error};
use crate::ffi::{self, Handle};
use crate::gathered::Gathered;
use crate::post::Post;
use std::fmt;
use std::sync::atomic::{AtomicU64, Ordering};

/// How many boards this crate has opened. With its address, which no other counter has, the count numbers a board. So
/// the library tells its posts from those of other boards.
static OPENED: AtomicU64 = AtomicU64::new(0);

/// A board: 2 to 32 instances, with a lane of 1 to 64 slots from each to each other one.
///
/// ```
/// # fn main() -> Result<(), msc::Error> {
/// let mut board = msc::Board::new(2, 4)?;
/// let [mut client, mut server] = board.posts_array()?;
/// client.send(2, "ask", b"what time is it?")?;
/// let message = server.receive(1)?.got().expect("a message waits");
/// assert_eq!((message.name.as_str(), message.body.as_slice()), ("ask", &b"what time is it?"[..]));
/// let gathered = board.gather()?;
/// assert_eq!(gathered.left().count(), 0);
/// # Ok(())
/// # }
/// ```
pub struct Board {
    handles: Vec<Handle>,
    capacity: u32,
}

// SAFETY: the library lets any thread use the posts of a board, and nothing of it belongs to the thread that opened it.
// A board is not shared: all its calls want it for themselves.
unsafe impl Send for Board {}

impl Board {
    /// Opens a board of this many instances, whose lanes have `capacity` slots.
    ///
    /// [`Error::BadSize`], [`Error::BadCapacity`], [`Error::NoMemory`].
    pub fn new(instances: usize, capacity: u32) -> Result<Board, Error> {
        if instances > 32 {
            return Err(Error::BadSize);
        }
        let mut handles: Vec<Handle> = (0..instances).map(|_| Handle::EMPTY).collect();
        let origin = std::ptr::addr_of!(OPENED) as u64;
        let number = OPENED.fetch_add(1, Ordering::Relaxed) + 1;
        // SAFETY: the handles are empty, and the length is theirs.
        done(unsafe {
            ffi::msc_open_numbered_(handles.as_mut_ptr(), handles.len(), capacity, origin, number)
        })?;
        Ok(Board { handles, capacity })
    }

    /// How many instances it has.
    #[allow(clippy::len_without_is_empty)]
    pub fn len(&self) -> usize {
        self.handles.len()
    }

    /// How many slots a lane has.
    pub fn capacity(&self) -> u32 {
        self.capacity
    }

    /// The posts of all instances, by number: instance 1 has `posts[0]`. A dropped post, even one dropped by a thread
    /// that panics, is lent anew by the next call, as it was.
    pub fn posts(&mut self) -> Vec<Post<'_>> {
        self.handles.iter_mut().zip(1..).map(|(handle, number)| Post::new(handle, number)).collect()
    }

    /// The same as an array, to be destructured. [`Error::BadSize`] if the board has another number of instances.
    pub fn posts_array<const N: usize>(&mut self) -> Result<[Post<'_>; N], Error> {
        <[Post<'_>; N]>::try_from(self.posts()).map_err(|_| Error::BadSize)
    }

    /// All posts meet: then each has seen all that any of them did. This adds no event and removes no race.
    pub fn meet(&mut self) -> Result<(), Error> {
        // SAFETY: the handles are all of one board, and nobody else has one of them.
        done(unsafe { ffi::msc_meet_(self.handles.as_mut_ptr(), self.handles.len()) })
    }

    /// Gathers the board and returns the result. If memory is refused, the error has the board.
    pub fn gather(mut self) -> Result<Gathered, GatherError> {
        let mut board = Handle::EMPTY;
        // SAFETY: as above, and the board is empty.
        let answer = unsafe { ffi::msc_gather_(self.handles.as_mut_ptr(), self.handles.len(), &mut board) };
        match done(answer) {
            Ok(()) => Ok(Gathered::new(board, self.len() as u32, self.capacity)),
            Err(error) => Err(GatherError { board: self, error }),
        }
    }

    /// Carries over to this board, which has done nothing yet, what a gathered one left. That one has as many instances
    /// and at most as many slots. Returns how many sends each instance carried.
    pub(crate) fn take_over(&mut self, left: &mut Handle) -> Result<Vec<u32>, Error> {
        let (mut carried, mut total) = (vec![0usize; self.len()], 0);
        // SAFETY: as above, and the other handle is lent.
        done(unsafe {
            ffi::msc_carry_over_(
                left,
                self.handles.as_mut_ptr(),
                self.handles.len(),
                carried.as_mut_ptr(),
                carried.len(),
                &mut total,
            )
        })?;
        // (a line has 4,096 events at most)
        Ok(carried.into_iter().map(|sends| sends as u32).collect())
    }
}

impl Drop for Board {
    fn drop(&mut self) {
        for handle in &mut self.handles {
            // SAFETY: a handle is open or empty, and nobody else has it.
            unsafe { ffi::msc_free_(handle) };
        }
    }
}

impl fmt::Debug for Board {
    fn fmt(&self, to: &mut fmt::Formatter<'_>) -> fmt::Result {
        to.debug_struct("Board")
            .field("len", &self.len())
            .field("capacity", &self.capacity)
            .finish_non_exhaustive()
    }
}

/// A board that wasn't gathered because memory was refused. It is as it was.
#[derive(Debug)]
pub struct GatherError {
    /// The board.
    pub board: Board,
    /// Why.
    pub error: Error,
}

impl fmt::Display for GatherError {
    fn fmt(&self, to: &mut fmt::Formatter<'_>) -> fmt::Result {
        self.error.fmt(to)
    }
}

impl std::error::Error for GatherError {}

impl From<GatherError> for Error {
    fn from(lost: GatherError) -> Error {
        lost.error
    }
}
