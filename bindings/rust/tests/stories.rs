//! The stories of the bindings of all languages, and what is Rust's own: threads, panics, the words of refusals.

use msc::{Board, Direction, Error, Message, Post, Taken};
use std::thread;

/// The message that waits.
fn got(taken: Result<Taken, Error>) -> Message {
    taken.expect("a look").got().expect("a message waits")
}

#[test]
fn a_race_is_reported() {
    let mut board = Board::new(3, 4).unwrap();
    let [mut one, mut two, mut server] = board.posts_array().unwrap();
    assert_eq!(one.send(3, "order", b"tea"), Ok(1));
    assert_eq!(two.send(3, "question", b""), Ok(1));
    let first = got(server.any());
    assert_eq!((first.from, first.event, &first.body[..], first.races.len()), (1, 1, &b"tea"[..], 0));
    let second = got(server.any());
    assert_eq!((second.from, second.event, &second.name[..]), (2, 2, "question"));
    assert_eq!(second.races, [1]);
    assert_eq!(server.event(second.races[0]).unwrap().name, "order");
    assert_eq!(server.any(), Ok(Taken::Nothing));
}

#[test]
fn messages_cross() {
    let mut board = Board::new(2, 1).unwrap();
    let [mut client, mut server] = board.posts_array().unwrap();
    client.send(2, "cancel", b"").unwrap();
    server.send(1, "question", b"").unwrap();
    assert_eq!(got(client.receive(2)).races, [1]);
    assert_eq!(got(server.receive(1)).races, [1]);
    let events: Vec<_> = client.events().map(|event| (event.number, event.direction, event.name)).collect();
    assert_eq!(events.len(), 2);
    assert_eq!((events[0].1, events[1].1), (Direction::Sent, Direction::Received));
    assert_eq!(client.event(2).map(|event| (event.partner, event.region)), Some((2, None)));
    assert_eq!((client.event(0), client.event(3)), (None, None));
}

#[test]
fn several_at_once() {
    let mut board = Board::new(3, 4).unwrap();
    let [mut one, mut two, mut three] = board.posts_array().unwrap();
    assert_eq!(two.receive_up_to(1, 4), Ok(Taken::Nothing));
    one.send_all(2, &[("a", "1"), ("b", "22"), ("c", "")]).unwrap();
    three.send(2, "d", b"").unwrap();
    assert_eq!(got(two.receive(3)).name, "d");
    let listed = |taken: Result<Taken<Vec<Message>>, Error>| {
        let messages = taken.expect("a look").got().expect("messages");
        messages
            .iter()
            .map(|m| (m.event, m.name.to_string(), m.body.len(), m.races.clone()))
            .collect::<Vec<_>>()
    };
    let wanted = [(2, "a".to_string(), 1, vec![1]), (3, "b".to_string(), 2, vec![1])];
    assert_eq!(listed(two.receive_up_to(1, 2)), wanted);
    one.close(2).unwrap();
    assert_eq!(listed(two.receive_up_to(1, usize::MAX)), [(4, "c".to_string(), 0, vec![1])]);
    assert_eq!(two.receive_up_to(1, 2), Ok(Taken::Ended));
    assert_eq!(two.receive_up_to(1, 0), Err(Error::Misuse));
    assert_eq!(two.receive_up_to(2, 1), Err(Error::ToItself));
}

#[test]
fn a_full_lane() {
    let mut board = Board::new(2, 1).unwrap();
    let [mut one, mut two] = board.posts_array().unwrap();
    one.send(2, "first", b"").unwrap();
    assert_eq!(one.send(2, "second", b""), Err(Error::Full));
    assert_eq!(one.send_all(2, &[("a", "1"), ("b", "2")]), Err(Error::TooMany));
    assert_eq!(got(two.receive(1)).name, "first");
    assert_eq!(one.send(2, "second", b""), Ok(2));
}

#[test]
fn a_closed_lane() {
    let mut board = Board::new(3, 2).unwrap();
    let [mut one, mut two, mut three] = board.posts_array().unwrap();
    one.send(2, "last", b"").unwrap();
    one.close(2).unwrap();
    assert_eq!(one.close(2), Err(Error::Closed));
    assert_eq!(one.send(2, "more", b""), Err(Error::Closed));
    assert_eq!(got(two.receive(1)).name, "last");
    assert_eq!(two.receive(1), Ok(Taken::Ended));
    assert_eq!(two.any(), Ok(Taken::Nothing));
    three.close(2).unwrap();
    assert_eq!(two.any(), Ok(Taken::Ended));
}

/// The chart of `whole_board`.
const CHART: &str = "\
msc run;
instance client;
out order to server;
out more to server;
endinstance;
instance server;
out hello to client;
in order from client;
endinstance;
instance logger;
endinstance;
endmsc;
";

/// Two messages to the server, of which one is received, and one that waits.
fn whole_board() -> Board {
    let mut board = Board::new(3, 4).unwrap();
    let [mut client, mut server, _logger] = board.posts_array().unwrap();
    server.send(1, "hello", b"h").unwrap();
    assert_eq!(client.send_all(2, &[("order", "tea"), ("more", "milk")]), Ok(1..3));
    assert_eq!(got(server.receive(1)).races, [1]);
    board.meet().unwrap();
    board
}

#[test]
fn a_gathered_board() {
    let gathered = whole_board().gather().unwrap();
    assert_eq!(gathered.text(&["client", "server", "logger"]).unwrap(), CHART);
    assert_eq!(gathered.text(&["client", "server"]), Err(Error::Misuse));
    assert_eq!(gathered.text(&["client", "server", "client"]), Err(Error::NameTwice));
    assert_eq!(gathered.text(&["client", "in", ""]), Err(Error::NameReserved));
    let reports: Vec<_> =
        gathered.reports().map(|report| (report.instance, report.event, report.races)).collect();
    assert_eq!(reports, [(2, 2, vec![1])]);
    let left: Vec<_> = gathered.left().collect();
    let listed: Vec<_> = left.iter().map(|left| (left.from, left.to, &left.name[..], &left.body[..])).collect();
    assert_eq!(listed, [(1, 2, "more", &b"milk"[..]), (2, 1, "hello", &b"h"[..])]);
}

#[test]
fn a_board_after_a_board() {
    let mut board = whole_board();
    board.posts()[1].close(3).unwrap();
    let mut gathered = board.gather().unwrap();
    assert_eq!(gathered.carry_over_to(3).err(), Some(Error::Misuse));
    assert_eq!(gathered.left().count(), 2);
    let (mut next, carried) = gathered.carry_over().unwrap();
    assert_eq!(carried, [1, 1, 0]);
    assert_eq!(gathered.left().count(), 0);
    let [mut client, mut server, mut logger] = next.posts_array().unwrap();
    assert_eq!(got(client.receive(2)).body, b"h");
    assert_eq!(got(server.receive(1)).body, b"milk");
    assert_eq!(logger.receive(2), Ok(Taken::Ended));
    assert_eq!(server.send(3, "m", b""), Err(Error::Closed));
}

#[test]
fn mistakes() {
    assert_eq!(Board::new(1, 1).err(), Some(Error::BadSize));
    assert_eq!(Board::new(33, 1).err(), Some(Error::BadSize));
    assert_eq!(Board::new(2, 0).err(), Some(Error::BadCapacity));
    assert_eq!(Board::new(2, 65).err(), Some(Error::BadCapacity));
    let mut board = Board::new(2, 1).unwrap();
    assert_eq!(board.posts_array::<3>().err(), Some(Error::BadSize));
    let mut posts = board.posts();
    let post = &mut posts[0];
    let long = "a23456789012345678901234567890123";
    for (to, name, body, error) in [
        (0, "m", &b""[..], Error::NoSuchInstance),
        (3, "m", b"", Error::NoSuchInstance),
        (1, "m", b"", Error::ToItself),
        (2, "", b"", Error::NameEmpty),
        (2, long, b"", Error::NameTooLong),
        (2, "a-b", b"", Error::NameBadByte),
        (2, "a\0b", b"", Error::NameBadByte),
        (2, "in", b"", Error::NameReserved),
        (2, "m", &[0; 4097], Error::BodyTooLong),
    ] {
        assert_eq!(post.send(to, name, body), Err(error), "{name}");
    }
    assert_eq!(post.close_coregion(), Err(Error::CoregionNotOpen));
    post.open_coregion().unwrap();
    assert_eq!(post.open_coregion(), Err(Error::CoregionOpen));
    assert_eq!(post.send(2, "m", b""), Err(Error::InCoregion));
    post.close_coregion().unwrap();
    post.reserve(10).unwrap();
    assert_eq!(post.send(2, "m", &[7; 4096]), Ok(1));
    assert_eq!(got(posts[1].receive(1)).body, [7; 4096]);
}

#[test]
fn a_coregion_has_no_races() {
    let mut board = Board::new(3, 1).unwrap();
    let [mut one, mut two, mut three] = board.posts_array().unwrap();
    one.send(3, "a", b"").unwrap();
    two.send(3, "b", b"").unwrap();
    three.open_coregion().unwrap();
    assert_eq!(got(three.any()).races, [0; 0]);
    assert_eq!(got(three.any()).races, [0; 0]);
    assert_eq!(three.event(2).unwrap().region, Some(1));
}

#[test]
fn a_full_line() {
    let mut board = Board::new(2, 1).unwrap();
    let [mut one, mut two] = board.posts_array().unwrap();
    let mut message = Message::empty();
    for _ in 0..4096 {
        one.send(2, "m", b"").unwrap();
        assert_eq!(two.receive_into(1, &mut message), Ok(Taken::Got(())));
    }
    assert_eq!(message.event, 4096);
    assert_eq!(one.send(2, "m", b""), Err(Error::LineFull));
}

#[test]
fn texts() {
    let answer = msc::check(CHART.as_bytes()).unwrap();
    assert_eq!((answer.has_races, &answer.text()[..]), (true, "race server 1 2\n"));
    let refused = msc::check(b"no chart").unwrap_err();
    assert!(refused.to_string().starts_with("refused: F"), "{refused}");
    assert!(msc::replay(b"no schedule").is_err());
    assert!(msc::random(b"no schedule", 7).is_err());
}

#[test]
fn views() {
    let answer = msc::view(&["races", "run.msc"], &[CHART]).unwrap();
    assert!(answer.has_races && answer.text().starts_with("server: order (2, from client) may come before "));
    assert!(msc::view(&["races", "run.msc"], &["no chart"]).unwrap_err().line.starts_with("refused: F"));
    assert!(msc::view::<&str, &str>(&[], &[]).unwrap_err().line.starts_with("refused: G1 Usage"));
    assert!(msc::view(&["races", "run.msc"], &[CHART, CHART]).unwrap_err().line.starts_with("misuse: "));
}

/// Sends so many messages to the second instance, in order.
fn send_many(mut post: Post<'_>, many: u32) -> Result<(), Error> {
    for number in 0..many {
        while let Err(error) = post.send(2, "item", &number.to_le_bytes()) {
            if error != Error::Full {
                return Err(error);
            }
            thread::yield_now();
        }
    }
    post.close(2)
}

#[test]
fn two_threads() {
    let mut board = Board::new(2, 4).unwrap();
    let [one, mut two] = board.posts_array().unwrap();
    let bodies = thread::scope(|scope| {
        scope.spawn(|| send_many(one, 1000).unwrap());
        let mut bodies = Vec::new();
        loop {
            match two.receive(1).unwrap() {
                Taken::Got(message) => bodies.push(message.body),
                Taken::Nothing => thread::yield_now(),
                Taken::Ended => return bodies,
            }
        }
    });
    assert_eq!(bodies, (0..1000u32).map(|number| number.to_le_bytes().to_vec()).collect::<Vec<_>>());
}

#[test]
fn a_thread_panics() {
    let mut board = Board::new(2, 4).unwrap();
    let [mut one, mut two] = board.posts_array().unwrap();
    let thread = thread::scope(|scope| {
        let act = move || {
            one.send(2, "before", b"1").unwrap();
            panic!("this panic belongs to the test");
        };
        scope.spawn(act).join()
    });
    assert!(thread.is_err());
    assert_eq!(got(two.receive(1)).name, "before");
    // (its post is lent anew)
    let [mut one, _two] = board.posts_array().unwrap();
    assert_eq!(one.send(2, "after", b"2"), Ok(2));
    let gathered = board.gather().unwrap();
    assert_eq!(gathered.left().map(|left| left.body).collect::<Vec<_>>(), [b"2"]);
}

#[test]
fn a_board_goes_to_a_thread() {
    let board = whole_board();
    let text = thread::spawn(move || board.gather().unwrap().text(&["client", "server", "logger"]).unwrap());
    assert_eq!(text.join().unwrap(), CHART);
}

/// The words of each refusal, and the version, are those of the header.
#[test]
fn words_are_those_of_the_header() {
    // (where it lies beside the crate in the sources, or where it is installed)
    let top = std::path::Path::new(env!("CARGO_MANIFEST_DIR"));
    let paths = ["../../include/msc.h", "../../../include/msc.h"];
    let header = paths.iter().find_map(|path| std::fs::read_to_string(top.join(path)).ok()).expect("msc.h");
    let mut numbers = std::collections::HashMap::new();
    let mut words = 0;
    for line in header.lines().map(str::trim) {
        if let Some((name, rest)) = line.split_once(" = ") {
            let number = rest.split([',', ' ']).next().unwrap_or("");
            numbers.insert(name.to_string(), number.parse::<i32>().unwrap_or(0));
        }
        if let Some((name, rest)) =
            line.strip_prefix("case MSC_").and_then(|rest| rest.split_once(": return \""))
        {
            let answer = numbers[&format!("MSC_{name}")];
            if answer < 0 {
                let error = ALL.iter().find(|error| error.answer() == answer);
                assert_eq!(error.map(|error| error.words()), rest.strip_suffix("\";"), "{name}");
                words += 1;
            }
        }
        if let Some(version) = line.strip_prefix("#define MSC_VERSION ") {
            assert_eq!(version.parse(), Ok(msc::version()));
        }
    }
    assert_eq!(words, ALL.len());
}

const ALL: [Error; 25] = [
    Error::NameEmpty,
    Error::NameTooLong,
    Error::NameBadByte,
    Error::NameReserved,
    Error::BodyTooLong,
    Error::NoMemory,
    Error::LineFull,
    Error::BadSize,
    Error::BadCapacity,
    Error::Full,
    Error::Closed,
    Error::ToItself,
    Error::NoSuchInstance,
    Error::NotAllPosts,
    Error::NameTwice,
    Error::TooMany,
    Error::CoregionOpen,
    Error::CoregionNotOpen,
    Error::InCoregion,
    Error::NoSuchEvent,
    Error::Misuse,
    Error::Empty,
    Error::InUse,
    Error::WrongNumber,
    Error::OtherBoard,
];
