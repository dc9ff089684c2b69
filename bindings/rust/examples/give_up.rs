//! A client asks a server, which gives up when nothing comes for a while, and informs a logger. Three threads, a post
//! each. Each race is printed as it comes. At the end the board is gathered, and its chart is printed, which `mscrun
//! check` and `mscview` read.
//!
//!     cargo run --example give_up

use msc::{Board, Error, Message, Post, Taken};
use std::thread;
use std::time::Duration;

const NAMES: [&str; 3] = ["client", "server", "logger"];
const CLIENT: u32 = 1;
const SERVER: u32 = 2;
const LOGGER: u32 = 3;

/// Posts never wait: who finds nothing looks again after a pause, which gets longer up to a millisecond.
fn back_off(tries: u32) {
    thread::sleep(Duration::from_micros(1 << tries.min(10)));
}

fn send(post: &mut Post<'_>, to: u32, name: &str, body: &str) -> Result<(), Error> {
    for tries in 0.. {
        match post.send(to, name, body.as_bytes()) {
            Err(Error::Full) => back_off(tries),
            answer => return answer.map(|_event| ()),
        }
    }
    unreachable!("it tries on until the lane has room")
}

/// Reports a message, and its races by the names of the two messages.
fn show(post: &Post<'_>, message: &Message) {
    let me = NAMES[post.number() as usize - 1];
    println!("{me}: event {} is {} from {}", message.event, message.name, NAMES[message.from as usize - 1]);
    for &number in &message.races {
        let earlier = post.event(number).expect("an earlier event");
        println!("{me}: {} may come before {} (event {number})", message.name, earlier.name);
    }
}

/// The next message from any instance: `Nothing` if none has come after that many looks.
fn next(post: &mut Post<'_>, looks: u32) -> Result<Taken, Error> {
    for tries in 0..looks {
        match post.any()? {
            Taken::Nothing => back_off(tries),
            Taken::Ended => return Ok(Taken::Ended),
            Taken::Got(message) => {
                show(post, &message);
                return Ok(Taken::Got(message));
            }
        }
    }
    Ok(Taken::Nothing)
}

fn client(mut post: Post<'_>) -> Result<(), Error> {
    send(&mut post, LOGGER, "begins", "")?;
    send(&mut post, SERVER, "ask", "what time is it?")?;
    while next(&mut post, 1000)? == Taken::Nothing {}
    post.close(SERVER)?;
    post.close(LOGGER)
}

fn server(mut post: Post<'_>) -> Result<(), Error> {
    let (answer, notice) = match next(&mut post, 20)? {
        Taken::Got(_) => (("answer", "late"), "answered"),
        Taken::Nothing | Taken::Ended => (("gives_up", ""), "gave_up"),
    };
    send(&mut post, CLIENT, answer.0, answer.1)?;
    send(&mut post, LOGGER, notice, "")?;
    post.close(CLIENT)?;
    post.close(LOGGER)
}

fn logger(mut post: Post<'_>) -> Result<(), Error> {
    while next(&mut post, 1000)? != Taken::Ended {}
    Ok(())
}

fn main() -> Result<(), Error> {
    let mut board = Board::new(3, 8)?;
    let [first, second, third] = board.posts_array()?;
    thread::scope(|scope| {
        let threads =
            [scope.spawn(|| client(first)), scope.spawn(|| server(second)), scope.spawn(|| logger(third))];
        threads.into_iter().try_for_each(|thread| thread.join().expect("no thread panics"))
    })?;
    let gathered = board.gather()?;
    print!("{}", gathered.text(&NAMES)?);
    for left in gathered.left() {
        println!(
            "{} waits from {} to {}",
            left.name,
            NAMES[left.from as usize - 1],
            NAMES[left.to as usize - 1]
        );
    }
    Ok(())
}
