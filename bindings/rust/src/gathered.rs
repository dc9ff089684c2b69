//! The result of gathering a board.

use crate::board::Board;
use crate::error::{done, Error};
use crate::ffi::{self, Handle};
use crate::message::Name;
use std::fmt;

/// The result of gathering a board: its chart, the races of each receive, and the messages that still wait.
///
/// ```
/// # fn main() -> Result<(), msc::Error> {
/// let mut board = msc::Board::new(2, 1)?;
/// let [mut client, mut server] = board.posts_array()?;
/// client.send(2, "cancel", b"")?;
/// server.send(1, "question", b"")?;
/// client.receive(2)?.got().unwrap();
/// let gathered = board.gather()?;
/// for report in gathered.reports() {
///     for earlier in report.races {
///         println!("race: {} {earlier} {}", report.instance, report.event);
///     }
/// }
/// for left in gathered.left() {
///     println!("{} waits from {} to {}", left.name, left.from, left.to);
/// }
/// println!("{}", gathered.text(&["client", "server"])?);
/// # Ok(())
/// # }
/// ```
pub struct Gathered {
    handle: Handle,
    instances: u32,
    capacity: u32,
}

// SAFETY: nothing of a gathered board belongs to a thread.
unsafe impl Send for Gathered {}

// SAFETY: the calls that lend a gathered board only read it, and the library lets several threads do so at once.
unsafe impl Sync for Gathered {}

impl Gathered {
    /// The result of a board with this many instances, whose lanes have this many slots.
    pub(crate) fn new(handle: Handle, instances: u32, capacity: u32) -> Gathered {
        Gathered { handle, instances, capacity }
    }

    /// How many instances it has.
    pub fn instances(&self) -> usize {
        self.instances as usize
    }

    /// The text of its chart, with these names of its instances, in order. `mscrun check`, `mscview` and
    /// [`crate::check`] read it.
    ///
    /// [`Error::Misuse`] if the number of names isn't that of the instances. Otherwise the fault of the first bad name.
    pub fn text<N: AsRef<str>>(&self, names: &[N]) -> Result<String, Error> {
        let joined: String = names.iter().map(AsRef::as_ref).collect();
        let lengths: Vec<usize> = names.iter().map(|name| name.as_ref().len()).collect();
        let (mut text, mut length) = (Vec::new(), 0);
        loop {
            // SAFETY: the handle is only read, the buffer has the length given, and the others are lent.
            done(unsafe {
                ffi::msc_board_text_(
                    &self.handle,
                    joined.as_ptr(),
                    joined.len(),
                    lengths.as_ptr(),
                    lengths.len(),
                    text.as_mut_ptr(),
                    text.len(),
                    &mut length,
                )
            })?;
            if length <= text.len() {
                return Ok(String::from_utf8_lossy(&text).into_owned());
            }
            text.resize(length, 0);
        }
    }

    /// The report of each receive, ordered by instance and event. It has the races that came with the message.
    pub fn reports(&self) -> Reports<'_> {
        Reports { board: self, next: 1 }
    }

    /// The messages that still wait, lane by lane, in the order in which they were sent.
    pub fn left(&self) -> Waiting<'_> {
        Waiting { board: self, from: 1, to: 1, number: 1 }
    }

    /// The next board of a run whose lines are full, with as many slots: see `carry_over_to`.
    pub fn carry_over(&mut self) -> Result<(Board, Vec<u32>), Error> {
        self.carry_over_to(self.capacity)
    }

    /// Opens the next board of a run, with as many instances and lanes of `capacity` slots, and carries over to it what
    /// this one left. Each message that still waited is sent again by its sender, in order, and each lane that was
    /// closed is closed again. Then no message and no closed lane is left here. Also returns how many sends each
    /// instance carried, by instance: they are the first events of its line on the new board.
    ///
    /// A race whose earlier event is a carried send may be enforced by what this board saw: leave it out. Races between
    /// an event of this board and a receive on the next one are not reported. An open coregion isn't carried over, nor
    /// the instance with which `any` begins.
    ///
    /// [`Error::Misuse`] if the lanes would have fewer slots than those of this board. On this, [`Error::BadCapacity`]
    /// and [`Error::NoMemory`], what was left stays here.
    ///
    /// ```
    /// # fn main() -> Result<(), msc::Error> {
    /// let mut board = msc::Board::new(2, 4)?;
    /// board.posts()[0].send(2, "token", b"")?;
    /// let mut gathered = board.gather()?;
    /// let (mut next, carried) = gathered.carry_over()?;
    /// assert_eq!(carried, [1, 0]);
    /// assert_eq!(next.posts()[1].receive(1)?.got().unwrap().name, "token");
    /// # Ok(())
    /// # }
    /// ```
    pub fn carry_over_to(&mut self, capacity: u32) -> Result<(Board, Vec<u32>), Error> {
        if capacity < self.capacity {
            return Err(Error::Misuse);
        }
        let mut board = Board::new(self.instances(), capacity)?;
        let carried = board.take_over(&mut self.handle)?;
        Ok((board, carried))
    }

    /// The report with this number, from 1.
    fn report(&self, number: usize) -> Option<Report> {
        let (mut info, mut races) = (ffi::Report::default(), Vec::new());
        loop {
            // SAFETY: as above.
            let answer = unsafe {
                ffi::msc_board_report_(&self.handle, number, &mut info, races.as_mut_ptr(), races.len())
            };
            if answer != 0 {
                return None;
            }
            if info.races == races.len() {
                return Some(Report { instance: info.instance, event: info.event, races });
            }
            races.resize(info.races, 0);
        }
    }

    /// The message with this number, from 1, that waits on a lane.
    fn left_at(&self, from: u32, to: u32, number: usize) -> Option<Left> {
        let place = ffi::Place { from, to, number };
        let (mut info, mut name, mut body) = (ffi::Left::default(), Name::NONE, Vec::new());
        loop {
            let mut answer = 0;
            name.write(|bytes| {
                // SAFETY: as above.
                answer = unsafe {
                    ffi::msc_board_left_(
                        &self.handle,
                        &place,
                        &mut info,
                        bytes.as_mut_ptr(),
                        bytes.len(),
                        body.as_mut_ptr(),
                        body.len(),
                    )
                };
                info.name_length
            });
            if answer != 0 {
                return None;
            }
            if info.body_length == body.len() {
                return Some(Left { from, to, name, body });
            }
            body.resize(info.body_length, 0u8);
        }
    }
}

impl Drop for Gathered {
    fn drop(&mut self) {
        // SAFETY: the handle is this board's alone.
        unsafe { ffi::msc_free_(&mut self.handle) };
    }
}

impl fmt::Debug for Gathered {
    fn fmt(&self, to: &mut fmt::Formatter<'_>) -> fmt::Result {
        to.debug_struct("Gathered").field("instances", &self.instances).finish_non_exhaustive()
    }
}

/// The races of a receive.
#[derive(Clone, Debug, PartialEq, Eq)]
pub struct Report {
    /// The number of the instance that received, from 1.
    pub instance: u32,
    /// The number of the receive among that instance's events, from 1.
    pub event: u32,
    /// The earlier events of the same instance that came before it only by luck.
    pub races: Vec<u32>,
}

/// The reports of a board.
#[derive(Clone, Debug)]
pub struct Reports<'a> {
    board: &'a Gathered,
    next: usize,
}

impl Iterator for Reports<'_> {
    type Item = Report;

    fn next(&mut self) -> Option<Report> {
        let report = self.board.report(self.next)?;
        self.next += 1;
        Some(report)
    }
}

/// A message that still waits.
#[derive(Clone, Debug, PartialEq, Eq)]
pub struct Left {
    /// The number of its sender.
    pub from: u32,
    /// The number of its receiver.
    pub to: u32,
    /// Its name.
    pub name: Name,
    /// Its body.
    pub body: Vec<u8>,
}

/// The messages that still wait on a board.
#[derive(Clone, Debug)]
pub struct Waiting<'a> {
    board: &'a Gathered,
    from: u32,
    to: u32,
    number: usize,
}

impl Iterator for Waiting<'_> {
    type Item = Left;

    fn next(&mut self) -> Option<Left> {
        while self.from <= self.board.instances {
            if let Some(left) = self.board.left_at(self.from, self.to, self.number) {
                self.number += 1;
                return Some(left);
            }
            self.number = 1;
            self.to += 1;
            if self.to > self.board.instances {
                self.to = 1;
                self.from += 1;
            }
        }
        None
    }
}
