//! Refusals.

use std::fmt;

/// Why a call was refused. A refused call changes nothing, except that a post may have seen more.
#[derive(Clone, Copy, Debug, PartialEq, Eq, Hash)]
#[non_exhaustive]
pub enum Error {
    /// F1: a name is empty.
    NameEmpty,
    /// F2: a name is longer than 32 bytes.
    NameTooLong,
    /// F3: a name is a letter followed by letters, digits and `_`.
    NameBadByte,
    /// F4: a name is a reserved word of the chart's text, such as `in`.
    NameReserved,
    /// F5: a body has more than 4,096 bytes.
    BodyTooLong,
    /// F6: an allocation was refused.
    NoMemory,
    /// F7: the instance has 4,096 events. Gather the board, and go on with the next one (`Gathered::carry_over`).
    LineFull,
    /// F8: a board has 2 to 32 instances.
    BadSize,
    /// F9: a lane has 1 to 64 slots.
    BadCapacity,
    /// F11: as many messages wait as the lane has slots. Try again later.
    Full,
    /// F12: this post closed the lane.
    Closed,
    /// F13: an instance has no lane to itself.
    ToItself,
    /// F14: instances are numbered from 1 to the board's size.
    NoSuchInstance,
    /// F15: these are not all posts of their board.
    NotAllPosts,
    /// F22: two instances would have the same name.
    NameTwice,
    /// F27: more messages in one call than the lane has slots.
    TooMany,
    /// F28: a coregion is open.
    CoregionOpen,
    /// F29: no coregion is open.
    CoregionNotOpen,
    /// F30: a coregion contains no sends.
    InCoregion,
    /// F31: there is no event with this number.
    NoSuchEvent,
    /// Arguments that don't belong together: a wrong number of names, or a next board with fewer slots.
    Misuse,
    /// A misuse: a handle is empty, or was freed.
    Empty,
    /// A misuse: a handle that should be empty is in use.
    InUse,
    /// A misuse: a number or a count that doesn't fit the rest of the call.
    WrongNumber,
    /// A misuse: the posts are of two boards.
    OtherBoard,
    /// An answer that this version of the crate doesn't know.
    Unknown(i32),
}

/// Each refusal with its answer and its words, as `msc_refusal_text` has them.
const TABLE: [(Error, i32, &str); 25] = [
    (Error::NameEmpty, -1, "the name is empty"),
    (Error::NameTooLong, -2, "the name is longer than 32 bytes"),
    (Error::NameBadByte, -3, "a byte doesn't belong in a name"),
    (Error::NameReserved, -4, "the name is a reserved word"),
    (Error::BodyTooLong, -5, "the body is longer than 4096 bytes"),
    (Error::NoMemory, -6, "out of memory"),
    (Error::LineFull, -7, "the line is full"),
    (Error::BadSize, -8, "a board has 2 to 32 instances"),
    (Error::BadCapacity, -9, "a lane has 1 to 64 slots"),
    (Error::Full, -11, "the lane is full"),
    (Error::Closed, -12, "the lane is closed"),
    (Error::ToItself, -13, "an instance has no lane to itself"),
    (Error::NoSuchInstance, -14, "the board has no such instance"),
    (Error::NotAllPosts, -15, "not all posts of the board"),
    (Error::NameTwice, -22, "two instances have one name"),
    (Error::TooMany, -27, "more messages than the lane has slots"),
    (Error::CoregionOpen, -28, "a coregion is open"),
    (Error::CoregionNotOpen, -29, "no coregion is open"),
    (Error::InCoregion, -30, "nothing is sent in a coregion"),
    (Error::NoSuchEvent, -31, "the line has no event of this number"),
    (Error::Misuse, -100, "misuse: no pointer, an empty handle, or what doesn't belong together"),
    (Error::Empty, -101, "misuse: a handle is empty"),
    (Error::InUse, -103, "misuse: a handle is in use"),
    (Error::WrongNumber, -104, "misuse: a number doesn't fit the call"),
    (Error::OtherBoard, -105, "misuse: the posts are of two boards"),
];

impl Error {
    /// The refusal for an answer below 0.
    pub(crate) fn of(answer: i32) -> Error {
        TABLE.iter().find(|row| row.1 == answer).map_or(Error::Unknown(answer), |row| row.0)
    }

    /// The answer of the C library: -N for the refusal FN, -100 or less for a misuse.
    pub fn answer(self) -> i32 {
        match self {
            Error::Unknown(answer) => answer,
            known => TABLE.iter().find(|row| row.0 == known).map_or(0, |row| row.1),
        }
    }

    /// The refusal in words.
    pub fn words(self) -> &'static str {
        TABLE.iter().find(|row| row.0 == self).map_or("no answer of this library", |row| row.2)
    }
}

impl fmt::Display for Error {
    fn fmt(&self, to: &mut fmt::Formatter<'_>) -> fmt::Result {
        to.write_str(self.words())
    }
}

impl std::error::Error for Error {}

/// The refusal, if the answer is below 0.
pub(crate) fn done(answer: i32) -> Result<(), Error> {
    if answer < 0 {
        return Err(Error::of(answer));
    }
    Ok(())
}
