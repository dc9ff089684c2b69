//! Messages that were received, and events of a line.

use std::fmt;

/// The name of a message: a letter followed by letters, digits and `_`, 1 to 32 bytes in all.
#[derive(Clone, Copy, PartialEq, Eq, Hash)]
pub struct Name {
    bytes: [u8; Name::ROOM],
    length: usize,
}

impl Name {
    pub(crate) const ROOM: usize = 32;

    /// No name yet.
    pub(crate) const NONE: Name = Name { bytes: [0; Name::ROOM], length: 0 };

    /// The name that a call writes. The call returns its whole length, which is at most 32 bytes.
    pub(crate) fn write(&mut self, by: impl FnOnce(&mut [u8; Name::ROOM]) -> usize) {
        self.length = by(&mut self.bytes).min(Name::ROOM);
    }

    /// The name as text.
    pub fn as_str(&self) -> &str {
        std::str::from_utf8(&self.bytes[..self.length]).unwrap_or("")
    }
}

impl std::ops::Deref for Name {
    type Target = str;

    fn deref(&self) -> &str {
        self.as_str()
    }
}

impl fmt::Display for Name {
    fn fmt(&self, to: &mut fmt::Formatter<'_>) -> fmt::Result {
        to.pad(self.as_str())
    }
}

impl fmt::Debug for Name {
    fn fmt(&self, to: &mut fmt::Formatter<'_>) -> fmt::Result {
        fmt::Debug::fmt(self.as_str(), to)
    }
}

impl PartialEq<str> for Name {
    fn eq(&self, other: &str) -> bool {
        self.as_str() == other
    }
}

impl PartialEq<&str> for Name {
    fn eq(&self, other: &&str) -> bool {
        self.as_str() == *other
    }
}

/// A message that was received, with the races of its receive.
#[derive(Clone, Debug, PartialEq, Eq)]
pub struct Message {
    /// The number of its sender, from 1.
    pub from: u32,
    /// The number of its receive among the receiving instance's events, from 1.
    pub event: u32,
    /// Its name.
    pub name: Name,
    /// Its body, of at most 4,096 bytes.
    pub body: Vec<u8>,
    /// The earlier events of the same instance that came before this receive only by luck: in another run they may
    /// come after it. `Post::event` returns each of them.
    pub races: Vec<u32>,
}

impl Message {
    /// A message without contents, for `Post::receive_into`.
    pub const fn empty() -> Message {
        Message { from: 0, event: 0, name: Name::NONE, body: Vec::new(), races: Vec::new() }
    }
}

impl Default for Message {
    fn default() -> Message {
        Message::empty()
    }
}

/// What a receive finds.
#[derive(Clone, Debug, PartialEq, Eq)]
#[must_use]
pub enum Taken<T = Message> {
    /// A message.
    Got(T),
    /// No message waits, and one may still come.
    Nothing,
    /// No message waits, and none will come: the lane is closed, or for `any` all lanes are.
    Ended,
}

impl<T> Taken<T> {
    /// The message, if there is one.
    pub fn got(self) -> Option<T> {
        match self {
            Taken::Got(message) => Some(message),
            Taken::Nothing | Taken::Ended => None,
        }
    }

    /// The same with what a function makes of the message.
    pub(crate) fn map<U>(self, by: impl FnOnce(T) -> U) -> Taken<U> {
        match self {
            Taken::Got(message) => Taken::Got(by(message)),
            Taken::Nothing => Taken::Nothing,
            Taken::Ended => Taken::Ended,
        }
    }
}

/// Whether an event sends or receives.
#[derive(Clone, Copy, Debug, PartialEq, Eq, Hash)]
pub enum Direction {
    /// A send, to the partner.
    Sent,
    /// A receive, from the partner.
    Received,
}

/// An event of an instance.
#[derive(Clone, Copy, Debug, PartialEq, Eq, Hash)]
pub struct Event {
    /// Its number among the events of its instance, from 1.
    pub number: u32,
    /// Whether it sends or receives.
    pub direction: Direction,
    /// The number of the instance at the other end of the message, from 1.
    pub partner: u32,
    /// The name of the message.
    pub name: Name,
    /// The number of its coregion, from 1.
    pub region: Option<u32>,
}
