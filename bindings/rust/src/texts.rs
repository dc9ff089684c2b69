//! What the programs `mscrun` and `mscview` do, with bytes in place of files.

use crate::error::Error;
use crate::ffi::{self, Bytes, Written};
use std::borrow::Cow;
use std::fmt;

/// What a program answers for a text that it doesn't refuse.
#[derive(Clone, Debug, PartialEq, Eq)]
pub struct Answer {
    /// Whether its exit status is 1. For `check`, `replay` and `random`: whether there are races. For `view`: whether
    /// there is something of what was asked for.
    pub has_races: bool,
    /// Whether its exit status isn't 3. If it is 3, `notes` says why it isn't known whether there is something.
    pub is_known: bool,
    /// What it writes to standard output.
    pub out: Vec<u8>,
    /// What it writes to standard error: notes.
    pub notes: Vec<u8>,
}

impl Answer {
    /// What it writes to standard output, as text.
    pub fn text(&self) -> Cow<'_, str> {
        String::from_utf8_lossy(&self.out)
    }
}

/// Why a program refuses a text: the line that it writes, such as `refused: F20 Syntax`.
#[derive(Clone, Debug, PartialEq, Eq)]
pub struct Refused {
    /// What it writes to standard error.
    pub line: String,
}

impl fmt::Display for Refused {
    fn fmt(&self, to: &mut fmt::Formatter<'_>) -> fmt::Result {
        to.write_str(self.line.trim_end())
    }
}

impl std::error::Error for Refused {}

/// Checks the chart in these bytes, as `mscrun check` does: one line for each of its races.
///
/// ```
/// let mut board = msc::Board::new(2, 1)?;
/// let [mut client, mut server] = board.posts_array()?;
/// client.send(2, "cancel", b"")?;
/// server.send(1, "question", b"")?;
/// client.receive(2)?.got().unwrap();
/// let chart = board.gather()?.text(&["client", "server"])?;
/// let answer = msc::check(chart.as_bytes())?;
/// assert!(answer.has_races);
/// print!("{}", answer.text());
/// # Ok::<(), Box<dyn std::error::Error>>(())
/// ```
pub fn check(chart: &[u8]) -> Result<Answer, Refused> {
    perform(2, 0, chart)
}

/// Replays the schedule in these bytes, as `mscrun replay` does: its chart, its races and its notes.
pub fn replay(schedule: &[u8]) -> Result<Answer, Refused> {
    perform(0, 0, schedule)
}

/// Replays the schedule in an order that the seed draws, as `mscrun random` does.
pub fn random(schedule: &[u8], seed: u64) -> Result<Answer, Refused> {
    perform(1, seed, schedule)
}

/// Does what `mscview` does for these words of a command line, whose files are in memory. The texts are what the words
/// read, in the order in which they name them. If no file is named, standard input is one of them.
///
/// Another number of texts than the words read is refused too, as a misuse.
///
/// ```
/// let chart = b"msc run;\ninstance a;\nout m to b;\nendinstance;\ninstance b;\nendinstance;\nendmsc;\n";
/// match msc::view(&["races", "--json", "run.msc"], &[chart]) {
///     Ok(answer) => print!("{}", answer.text()),
///     Err(refused) => println!("{refused}"),
/// }
/// ```
pub fn view<W: AsRef<str>, T: AsRef<[u8]>>(words: &[W], texts: &[T]) -> Result<Answer, Refused> {
    let length = texts.iter().map(|text| text.as_ref().len()).sum();
    let words: Vec<Bytes> = words.iter().map(|word| Bytes::of(word.as_ref().as_bytes())).collect();
    let texts: Vec<Bytes> = texts.iter().map(|text| Bytes::of(text.as_ref())).collect();
    whole(length, |out, err, written| {
        // SAFETY: as below, and the words and texts are lent as long as this function runs.
        unsafe {
            ffi::msc_view_(
                words.as_ptr(),
                words.len(),
                texts.as_ptr(),
                texts.len(),
                out.as_mut_ptr(),
                out.len(),
                err.as_mut_ptr(),
                err.len(),
                written,
            )
        }
    })
}

fn perform(task: u32, seed: u64, text: &[u8]) -> Result<Answer, Refused> {
    whole(text.len(), |out, err, written| {
        // SAFETY: the buffers have the lengths given, and all is lent for the call.
        unsafe {
            ffi::msc_perform_(
                task,
                seed,
                text.as_ptr(),
                text.len(),
                out.as_mut_ptr(),
                out.len(),
                err.as_mut_ptr(),
                err.len(),
                written,
            )
        }
    })
}

/// The whole answer of a call that writes as much as fits. If there was too little room, the call is made again.
fn whole(
    length: usize,
    mut call: impl FnMut(&mut [u8], &mut [u8], &mut Written) -> i32,
) -> Result<Answer, Refused> {
    let (mut out, mut err) = (vec![0; 4096 + 4 * length], vec![0; 4096]);
    loop {
        let mut written = Written::default();
        let status = call(&mut out, &mut err, &mut written);
        if status < 0 {
            return Err(Refused { line: Error::of(status).to_string() });
        }
        if written.out > out.len() || written.err > err.len() {
            out.resize(written.out, 0);
            err.resize(written.err, 0);
            continue;
        }
        out.truncate(written.out);
        err.truncate(written.err);
        return match status {
            0 | 1 | 3 => Ok(Answer { has_races: status == 1, is_known: status != 3, out, notes: err }),
            _ => Err(Refused { line: String::from_utf8_lossy(&err).into_owned() }),
        };
    }
}
