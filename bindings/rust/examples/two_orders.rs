use msc::{Board, Error, Post, Taken};
use std::thread;

fn order(mut post: Post<'_>, what: &str) -> Result<(), Error> {
    post.send(3, "order", what.as_bytes())?; // to the third instance
    post.close(3)
}

/// Receives until both have closed their lanes, and prints each race.
fn serve(mut post: Post<'_>) -> Result<(), Error> {
    loop {
        match post.any()? {
            Taken::Got(message) => {
                for &number in &message.races {
                    let earlier = post.event(number).expect("an earlier event");
                    println!("{} may come before {} (event {number})", message.name, earlier.name);
                }
            }
            Taken::Nothing => thread::yield_now(),
            Taken::Ended => return Ok(()),
        }
    }
}

fn main() -> Result<(), Error> {
    let mut board = Board::new(3, 4)?; // three instances, lanes of four slots
    let [first, second, server] = board.posts_array()?;
    thread::scope(|scope| {
        scope.spawn(|| order(first, "tea"));
        scope.spawn(|| order(second, "ale"));
        serve(server)
    })?;
    print!("{}", board.gather()?.text(&["first", "second", "server"])?);
    Ok(())
}
