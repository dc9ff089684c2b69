//! Posts.

use crate::error::{done, Error};
use crate::ffi;
use crate::message::{Direction, Event, Message, Name, Taken};
use std::marker::PhantomData;
use std::ops::Range;

/// The post of an instance, through which the instance sends, receives and closes lanes. Its board lends it, and it may
/// be moved to another thread.
///
/// No call waits. A thread can pass its post on:
///
/// ```
/// let mut board = msc::Board::new(2, 2).unwrap();
/// let [mut post, _other] = board.posts_array().unwrap();
/// std::thread::scope(|scope| {
///     let first = scope.spawn(move || {
///         post.send(2, "one", b"").unwrap();
///         post
///     });
///     let mut post = first.join().unwrap();
///     scope.spawn(move || post.send(2, "two", b""));
/// });
/// ```
///
/// Two threads can't use one post at the same time: that doesn't compile.
///
/// ```compile_fail,E0499
/// let mut board = msc::Board::new(2, 1).unwrap();
/// let mut posts = board.posts();
/// let post = &mut posts[0];
/// std::thread::scope(|scope| {
///     scope.spawn(|| post.send(2, "one", b""));
///     scope.spawn(|| post.send(2, "two", b""));
/// });
/// ```
///
/// ```compile_fail,E0277
/// let mut board = msc::Board::new(2, 1).unwrap();
/// let posts = board.posts();
/// let post = &posts[0];
/// std::thread::scope(|scope| {
///     scope.spawn(|| post.events().count());
///     scope.spawn(|| post.events().count());
/// });
/// ```
pub struct Post<'a> {
    handle: *mut ffi::Handle,
    number: u32,
    board: PhantomData<&'a mut ffi::Handle>,
}

// SAFETY: the library lets any thread call with a post, one at a time. A post is the only way to its handle while it
// exists, and isn't shared between threads (a pointer isn't `Sync`).
unsafe impl Send for Post<'_> {}

impl<'a> Post<'a> {
    /// The post of an open handle, whose instance has this number.
    pub(crate) fn new(handle: &'a mut ffi::Handle, number: u32) -> Post<'a> {
        Post { handle, number, board: PhantomData }
    }

    /// The number of its instance, from 1.
    pub fn number(&self) -> u32 {
        self.number
    }

    /// Sends a message to the instance `to`, and returns the number of the send among this instance's events.
    ///
    /// [`Error::Full`] if the lane has no free slot: try again later. [`Error::LineFull`] after 4,096 events.
    pub fn send(&mut self, to: u32, name: &str, body: &[u8]) -> Result<u32, Error> {
        let mut event = 0;
        // SAFETY: the handle is this post's alone, and the others are lent for the call.
        let answer = unsafe {
            ffi::msc_send_(self.handle, to, name.as_ptr(), name.len(), body.as_ptr(), body.len(), &mut event)
        };
        done(answer).map(|()| event)
    }

    /// Sends these messages to the instance `to`, one directly after another and with one store: all or none. Returns
    /// the numbers of the sends among this instance's events.
    ///
    /// [`Error::TooMany`] if the lane has fewer slots, [`Error::Full`] if fewer are free.
    pub fn send_all<N: AsRef<str>, B: AsRef<[u8]>>(
        &mut self,
        to: u32,
        messages: &[(N, B)],
    ) -> Result<Range<u32>, Error> {
        let (mut bytes, mut lengths) = (Vec::new(), Vec::with_capacity(messages.len()));
        for (name, body) in messages {
            let (name, body) = (name.as_ref().as_bytes(), body.as_ref());
            bytes.extend_from_slice(name);
            bytes.extend_from_slice(body);
            lengths.push(ffi::Lengths { name: name.len(), body: body.len() });
        }
        let mut event = 0;
        // SAFETY: as above.
        done(unsafe {
            ffi::msc_send_all_(
                self.handle,
                to,
                bytes.as_ptr(),
                bytes.len(),
                lengths.as_ptr(),
                lengths.len(),
                &mut event,
            )
        })?;
        Ok(event..event + lengths.len() as u32)
    }

    /// Receives the first message that waits on the lane from the instance `from`.
    pub fn receive(&mut self, from: u32) -> Result<Taken, Error> {
        let mut message = Message::empty();
        Ok(self.receive_into(from, &mut message)?.map(|()| message))
    }

    /// Receives the first message that it finds on the lanes from all other instances. It looks at them in turn,
    /// beginning after the sender of the last message.
    pub fn any(&mut self) -> Result<Taken, Error> {
        let mut message = Message::empty();
        Ok(self.any_into(&mut message)?.map(|()| message))
    }

    /// As `receive`, into a message whose memory is reused: it allocates nothing if the new one fits.
    pub fn receive_into(&mut self, from: u32, message: &mut Message) -> Result<Taken<()>, Error> {
        // SAFETY: as above.
        self.taken(message, |post, arrival| unsafe { ffi::msc_receive_(post, from, arrival) })
    }

    /// As `any`, into a message whose memory is reused.
    pub fn any_into(&mut self, message: &mut Message) -> Result<Taken<()>, Error> {
        // SAFETY: as above.
        self.taken(message, |post, arrival| unsafe { ffi::msc_any_(post, arrival) })
    }

    /// What a call that receives finds, written to a message. If it finds none, the message stays as it is.
    fn taken(
        &mut self,
        message: &mut Message,
        call: impl FnOnce(*mut ffi::Handle, *mut ffi::Arrival) -> i32,
    ) -> Result<Taken<()>, Error> {
        let mut arrival = ffi::Arrival::default();
        match call(self.handle, &mut arrival) {
            0 => {}
            1 => return Ok(Taken::Nothing),
            2 => return Ok(Taken::Ended),
            refused => return Err(Error::of(refused)),
        }
        self.copy(0, &arrival, message);
        Ok(Taken::Got(()))
    }

    /// Receives the first messages that wait on the lane from the instance `from`, by one call: at most `most`, and at
    /// least one for `Got`. If a message after the first is refused, the next call returns the refusal.
    pub fn receive_up_to(&mut self, from: u32, most: usize) -> Result<Taken<Vec<Message>>, Error> {
        // (a line has no more events)
        let mut arrivals = vec![ffi::Arrival::default(); most.min(4096)];
        let mut count = 0;
        // SAFETY: as above.
        let answer = unsafe {
            ffi::msc_receive_up_to_(self.handle, from, arrivals.as_mut_ptr(), arrivals.len(), &mut count)
        };
        match answer {
            _ if count > 0 => {}
            1 => return Ok(Taken::Nothing),
            2 => return Ok(Taken::Ended),
            refused => return Err(Error::of(refused)),
        }
        let mut messages = vec![Message::empty(); count];
        for (which, message) in messages.iter_mut().enumerate() {
            self.copy(which, &arrivals[which], message);
        }
        Ok(Taken::Got(messages))
    }

    /// Copies one of the messages that the post has kept since its last receive.
    fn copy(&mut self, which: usize, arrival: &ffi::Arrival, message: &mut Message) {
        let mut length = 0;
        message.from = arrival.from;
        message.event = arrival.event;
        // SAFETY: as above, and each buffer has the length given. The three calls copy from what the post has kept
        // since the call before, so they aren't refused.
        unsafe {
            message.name.write(|bytes| {
                ffi::msc_name_of_(self.handle, which, bytes.as_mut_ptr(), bytes.len(), &mut length);
                length
            });
            message.body.resize(arrival.body_length, 0);
            ffi::msc_body_of_(self.handle, which, message.body.as_mut_ptr(), message.body.len(), &mut length);
            message.races.resize(arrival.races, 0);
            if arrival.races > 0 {
                let races = &mut message.races;
                ffi::msc_races_of_(self.handle, which, races.as_mut_ptr(), races.len(), &mut length);
            }
        }
    }

    /// Closes the lane to the instance `to`. Messages that wait on it can still be received; then it has ended.
    pub fn close(&mut self, to: u32) -> Result<(), Error> {
        // SAFETY: as above.
        done(unsafe { ffi::msc_close_(self.handle, to) })
    }

    /// Opens a coregion, which contains the receives of this post from now on: their order isn't claimed, and is no
    /// race. Nothing is sent until it is closed.
    pub fn open_coregion(&mut self) -> Result<(), Error> {
        // SAFETY: as above.
        done(unsafe { ffi::msc_open_coregion_(self.handle) })
    }

    /// Closes the coregion.
    pub fn close_coregion(&mut self) -> Result<(), Error> {
        // SAFETY: as above.
        done(unsafe { ffi::msc_close_coregion_(self.handle) })
    }

    /// Allocates room for the next `events` events. While some is left, on boards of up to 8 instances, a send
    /// allocates only for its body.
    pub fn reserve(&mut self, events: u32) -> Result<(), Error> {
        // SAFETY: as above.
        done(unsafe { ffi::msc_reserve_(self.handle, events) })
    }

    /// The event with this number, from 1, among those that this post has sent and received.
    pub fn event(&self, number: u32) -> Option<Event> {
        let (mut event, mut name) = (ffi::Event::default(), Name::NONE);
        let mut answer = 0;
        name.write(|bytes| {
            // SAFETY: as above. The call changes nothing, and no thread but this one has the post.
            answer =
                unsafe { ffi::msc_event_(self.handle, number, &mut event, bytes.as_mut_ptr(), bytes.len()) };
            event.name_length
        });
        (answer == 0).then(|| Event {
            number,
            direction: if event.receives == 1 { Direction::Received } else { Direction::Sent },
            partner: event.partner,
            name,
            region: (event.region != 0).then_some(event.region),
        })
    }

    /// What this post has sent and received so far, event by event.
    pub fn events(&self) -> Events<'_> {
        Events { post: self, next: 1 }
    }
}

impl std::fmt::Debug for Post<'_> {
    fn fmt(&self, to: &mut std::fmt::Formatter<'_>) -> std::fmt::Result {
        to.debug_struct("Post").field("number", &self.number).finish_non_exhaustive()
    }
}

/// The events of a post, from the first one on.
#[derive(Clone, Debug)]
pub struct Events<'a> {
    post: &'a Post<'a>,
    next: u32,
}

impl Iterator for Events<'_> {
    type Item = Event;

    fn next(&mut self) -> Option<Event> {
        let event = self.post.event(self.next)?;
        self.next += 1;
        Some(event)
    }
}
