//! Searches of which each is stopped at a limit of processor time. The library's search can't be told to stop, so child processes run them: a child goes
//! through the cases in turn and ends at the first that is over the limit, and the next child begins behind that case.

use crate::library::{self, Tables, Work};
use crate::listing::Listing;
use crate::terms::{bytes_of, Record, VARIABLES};
use crate::timing::{micros, once, process_time};
use std::env;
use std::process::{Command, Stdio};
use std::sync::mpsc::{channel, RecvTimeoutError};
use std::thread::Builder;
use std::time::Duration;

/// What a main thread has on Linux, so that a search in a thread has no less.
const STACK: usize = 8 << 20;
/// Between two looks at the clock.
const PAUSE: Duration = Duration::from_millis(5);

pub struct Task {
    pub pattern: Vec<Record>,
    pub recipe: Vec<Record>,
    pub known: Known,
}

/// What is known of the answer, from how the case was made.
pub enum Known {
    /// This many lines, or minus this refusal number.
    Answer(i64),
    /// One line, which assigns this to p0 and nothing else.
    Line(Vec<Record>),
    /// These values are a match.
    Match([Vec<Record>; VARIABLES]),
    Nothing,
}

impl Known {
    /// Whether the answer and the lines written are as they must be. No case is made that is refused for another reason than want of room.
    fn allows(&self, answer: i64, tables: &Tables) -> bool {
        let listing = Listing::read(tables, answer.max(0) as usize);
        let agrees =
            |line: usize, values: &[Vec<Record>]| listing.values(line).iter().zip(values).all(|(entry, value)| entry.is_none_or(|entry| entry == value));
        match self {
            Known::Answer(expected) => answer == *expected,
            Known::Line(value) => answer == 1 && listing.values(0)[0] == Some(value) && listing.values(0)[1..].iter().all(Option::is_none),
            // document 01: every match agrees with exactly one line
            Known::Match(values) => is_out_of_room(answer) || (0..listing.len()).filter(|&line| agrees(line, values)).count() == 1,
            Known::Nothing => answer >= 0 || is_out_of_room(answer),
        }
    }
}

fn is_out_of_room(answer: i64) -> bool {
    answer == -9 || answer == -10
}

/// What the library did within the limit.
pub struct Outcome {
    /// Lines, or minus a refusal number.
    pub answer: i64,
    pub milliseconds: f64,
    /// The answer is as it must be by what is known of it.
    pub is_right: bool,
}

/// The child's part: prints a line for each case, up to the first that is over the limit. The process must end then: that search goes on until it does.
pub fn run_child(tasks: impl Iterator<Item = Task>, limit: Duration) {
    for task in tasks {
        let Some(Outcome { answer, milliseconds, is_right }) = run(&task, limit) else {
            println!("limit");
            return;
        };
        println!("{answer} {milliseconds} {is_right}");
    }
}

fn run(task: &Task, limit: Duration) -> Option<Outcome> {
    let (pattern, recipe) = (bytes_of(&task.pattern), bytes_of(&task.recipe));
    let search = move || {
        let (mut tables, mut work) = (Tables::new(), Work::new());
        let (answer, mut time) = once(|| library::list(&pattern, &recipe, &mut tables, &mut work));
        if time < Duration::from_millis(50) {
            // again, with warm tables
            time = once(|| library::list(&pattern, &recipe, &mut tables, &mut work)).1;
        }
        (answer, time, tables)
    };
    let (answer, time, tables) = within(limit, search)?;
    (time <= limit).then(|| Outcome { answer, milliseconds: micros(time) / 1000.0, is_right: task.known.allows(answer, &tables) })
}

/// Runs something in a thread; nothing if the process has had more than the limit before its end.
fn within<T: Send + 'static>(limit: Duration, run: impl FnOnce() -> T + Send + 'static) -> Option<T> {
    let (sender, receiver) = channel();
    let start = process_time();
    Builder::new().stack_size(STACK).spawn(move || sender.send(run())).expect("a thread");
    loop {
        match receiver.recv_timeout(PAUSE) {
            Ok(answer) => return Some(answer),
            Err(RecvTimeoutError::Timeout) if process_time() - start > limit => return None,
            Err(RecvTimeoutError::Timeout) => {}
            Err(RecvTimeoutError::Disconnected) => panic!("the search failed"),
        }
    }
}

/// The outcomes of the cases of a part, in turn; nothing for a case that was stopped. `part` is what `--part` names.
pub fn outcomes(part: &str, count: usize) -> Vec<Option<Outcome>> {
    let mut found = Vec::new();
    while found.len() < count {
        let more = ask_child(part, found.len());
        assert!(!more.is_empty(), "{part}: the child did nothing");
        found.extend(more);
    }
    found
}

/// Has a child run the cases from a number on.
fn ask_child(part: &str, from: usize) -> Vec<Option<Outcome>> {
    let program = env::current_exe().expect("this program's own path");
    let mut command = Command::new(program);
    command.args(env::args().skip(1)).args(["--part", part, "--from", &from.to_string()]).stdout(Stdio::piped());
    let output = command.spawn().and_then(|child| child.wait_with_output()).expect("a child process");
    assert!(output.status.success(), "{part}: a search from number {from} on failed");
    String::from_utf8(output.stdout).expect("plain text").lines().map(read_outcome).collect()
}

/// One line that a child printed.
fn read_outcome(text: &str) -> Option<Outcome> {
    let words: Vec<&str> = text.split_whitespace().collect();
    let [answer, milliseconds, is_right] = words[..] else {
        assert!(text == "limit", "a child printed {text}");
        return None;
    };
    let figure = "a figure";
    Some(Outcome { answer: answer.parse().expect(figure), milliseconds: milliseconds.parse().expect(figure), is_right: is_right == "true" })
}
