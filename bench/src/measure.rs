//! One case: the library's list against the baselines, answers compared and times taken in one run.

use crate::cases::Case;
use crate::library::{self, Tables, Work, LINE};
use crate::listing::Listing;
use crate::plain::{self, Prunings};
use crate::timing::{in_turns, now, once, Time, Timed};
use crate::tuned;
use std::time::Duration;

/// What the library is measured against.
#[derive(Clone, Copy)]
pub enum Baseline {
    /// (a)
    Pruned,
    /// (b)
    Bare,
    /// (c)
    Tuned,
}

impl Baseline {
    fn list(self, case: &Case, tables: &mut Tables, deadline: Duration) -> Option<i64> {
        let Case { pattern, recipe, .. } = case;
        match self {
            Baseline::Pruned => plain::list(pattern, recipe, tables, Prunings::Three, deadline),
            Baseline::Bare => plain::list(pattern, recipe, tables, Prunings::None, deadline),
            Baseline::Tuned => tuned::list(pattern, recipe, tables, deadline),
        }
    }
}

/// What was found of a case. A time that is missing means that the limit passed.
pub struct Row {
    /// What the library answers: lines, or minus a refusal number.
    pub answer: i64,
    /// The expected answer was given, and by the others too, down to the bytes of lines and values.
    pub agrees: bool,
    pub library: Time,
    /// The times of the baselines, in the order in which they were handed over.
    pub others: Vec<Option<Time>>,
}

impl Row {
    /// What each baseline took, divided by what the library took.
    pub fn ratios(&self) -> impl Iterator<Item = Option<f64>> + '_ {
        self.others.iter().map(|time| time.map(|time| time.median / self.library.median))
    }
}

/// The answer and the time of one search by a baseline, and the tables that it wrote to; no answer means that the limit passed.
pub struct Tried {
    baseline: Baseline,
    answer: Option<i64>,
    pub time: Duration,
    tables: Tables,
}

impl Tried {
    /// Searches once, no longer than the limit.
    pub fn new(case: &Case, baseline: Baseline, limit: Duration) -> Tried {
        let mut tables = Tables::new();
        let (answer, time) = once(|| baseline.list(case, &mut tables, now() + limit));
        Tried { baseline, answer, time, tables }
    }

    pub fn is_answered(&self) -> bool {
        self.answer.is_some()
    }

    /// The same search again, to be timed; nothing where it had no answer.
    fn timed<'a>(&'a mut self, case: &'a Case) -> Option<Timed<'a>> {
        self.answer?;
        let deadline = now() + Duration::from_secs(3600);
        Some(Timed::new(self.time, move || {
            self.baseline.list(case, &mut self.tables, deadline);
        }))
    }
}

/// Measures the library on a case, turn by turn with the baselines that were tried before.
pub fn measure(case: &Case, mut tried: Vec<Tried>) -> Row {
    let Case { pattern, recipe, .. } = case;
    let (mut tables, mut work) = (Tables::new(), Work::new());
    let (answer, mut first) = once(|| library::list(pattern, recipe, &mut tables, &mut work));
    if first < Duration::from_millis(50) {
        first = once(|| library::list(pattern, recipe, &mut tables, &mut work)).1;
    }
    let agrees = answer == case.expected && tried.iter().all(|one| is_same(answer, &tables, one));

    let answered: Vec<bool> = tried.iter().map(Tried::is_answered).collect();
    let mut things = vec![Timed::new(first, || {
        library::list(pattern, recipe, &mut tables, &mut work);
    })];
    things.extend(tried.iter_mut().filter_map(|one| one.timed(case)));
    let mut times = in_turns(things).into_iter();
    let library = times.next().expect("the library's time");
    let others = answered.into_iter().map(|is_answered| if is_answered { times.next() } else { None }).collect();
    Row { answer, agrees, library, others }
}

/// Whether the library gives the expected answer, and the baselines the same, down to the bytes. Nothing is timed.
pub fn agrees(case: &Case, baselines: &[Baseline], limit: Duration) -> bool {
    let (mut tables, mut work) = (Tables::new(), Work::new());
    let answer = library::list(&case.pattern, &case.recipe, &mut tables, &mut work);
    answer == case.expected && baselines.iter().all(|&baseline| is_same(answer, &tables, &Tried::new(case, baseline, limit)))
}

/// The case measured against (a) and (c).
pub fn measure_pruned(case: &Case, limit: Duration) -> Row {
    measure(case, [Baseline::Pruned, Baseline::Tuned].map(|baseline| Tried::new(case, baseline, limit)).into())
}

/// No answer, or the same number and with it the same bytes of lines and values.
fn is_same(answer: i64, tables: &Tables, tried: &Tried) -> bool {
    let lines = answer.max(0) as usize;
    let bytes = 4 * Listing::read(tables, lines).records();
    let Tried { answer: other_answer, tables: other, .. } = tried;
    other_answer.is_none_or(|other_answer| {
        answer == other_answer && tables.lines[..LINE * lines] == other.lines[..LINE * lines] && tables.values[..bytes] == other.values[..bytes]
    })
}
