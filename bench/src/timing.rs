//! Times of repeated calls; how steady the machine is. All are times of the processor, not of day: other programs on the machine
//! take turns with this one, and that isn't counted.

use crate::library::TABLE;
use std::hint::black_box;
use std::time::Duration;

/// Turns in which each thing is timed.
const TURNS: usize = 15;
/// Calls are timed in batches of at least this long, so that the clock itself doesn't count.
const BATCH: Duration = Duration::from_micros(200);
/// What all turns of one thing may take; a slow one gets fewer.
const BUDGET: Duration = Duration::from_millis(400);

/// Microseconds of one call.
#[derive(Clone, Copy)]
pub struct Time {
    pub best: f64,
    pub median: f64,
}

pub fn micros(time: Duration) -> f64 {
    time.as_nanos() as f64 / 1000.0
}

#[repr(C)]
struct Timespec {
    seconds: i64,
    nanoseconds: i64,
}

extern "C" {
    fn clock_gettime(clock: i32, time: *mut Timespec) -> i32;
}

/// Linux's numbers of the clocks that count while this process runs, all threads together, and while this thread runs.
const CLOCK_PROCESS_CPUTIME_ID: i32 = 2;
const CLOCK_THREAD_CPUTIME_ID: i32 = 3;

/// The processor time that this thread has had so far.
pub fn now() -> Duration {
    read_clock(CLOCK_THREAD_CPUTIME_ID)
}

/// The processor time that all threads of this process have had so far.
pub fn process_time() -> Duration {
    read_clock(CLOCK_PROCESS_CPUTIME_ID)
}

fn read_clock(clock: i32) -> Duration {
    let mut time = Timespec { seconds: 0, nanoseconds: 0 };
    // SAFETY: `time` has the layout of C's `timespec` on a 64-bit Linux, and nobody else reaches it.
    let failed = unsafe { clock_gettime(clock, &mut time) };
    assert!(failed == 0, "no clock of number {clock}");
    Duration::new(time.seconds as u64, time.nanoseconds as u32)
}

/// Runs something once; gives its answer and its time.
pub fn once<T>(run: impl FnOnce() -> T) -> (T, Duration) {
    let start = now();
    let answer = run();
    (answer, now() - start)
}

/// One of several things that are timed turn by turn, so that a disturbance of the machine meets all of them.
pub struct Timed<'a> {
    run: Box<dyn FnMut() + 'a>,
    batch: u32,
    turns: usize,
    samples: Vec<f64>,
}

impl<'a> Timed<'a> {
    /// `first` is what one call took before.
    pub fn new(first: Duration, run: impl FnMut() + 'a) -> Timed<'a> {
        let nanos = first.as_nanos().max(1);
        let batch = (BATCH.as_nanos() / nanos).clamp(1, 100_000) as u32;
        let turns = (BUDGET.as_nanos() / (nanos * batch as u128)).clamp(1, TURNS as u128) as usize;
        Timed { run: Box::new(run), batch, turns, samples: Vec::new() }
    }

    fn turn(&mut self) {
        let start = now();
        for _ in 0..self.batch {
            (self.run)();
        }
        self.samples.push(micros(now() - start) / self.batch as f64);
    }

    fn time(mut self) -> Time {
        Time { best: self.samples.iter().copied().fold(f64::INFINITY, f64::min), median: median(&mut self.samples) }
    }
}

/// Times all of them, turn by turn.
pub fn in_turns(mut things: Vec<Timed>) -> Vec<Time> {
    for turn in 0..TURNS {
        for thing in things.iter_mut().filter(|thing| turn < thing.turns) {
            thing.turn();
        }
    }
    things.into_iter().map(Timed::time).collect()
}

/// Times one thing.
pub fn alone(mut run: impl FnMut()) -> Time {
    run();
    let ((), first) = once(&mut run);
    in_turns(vec![Timed::new(first, run)])[0]
}

/// The middle figure; of two middle ones the lower. Sorts the figures.
pub fn median(figures: &mut [f64]) -> f64 {
    figures.sort_unstable_by(f64::total_cmp);
    figures[(figures.len() - 1) / 2]
}

/// How steady the machine is: one fixed piece of work that touches no memory, and the clearing of 65,536 bytes.
pub fn print_noise(when: &str) {
    let mut samples: Vec<f64> = (0..200).map(|_| micros(once(fixed_work).1)).collect();
    let middle = median(&mut samples);
    let mut area = vec![1u8; TABLE];
    let clearing = alone(|| black_box(&mut area).fill(0));
    let (best, most) = (samples[0], samples[samples.len() - 1]);
    println!("machine noise {when}: 200 times the same work: best {best:.1} µs, median {middle:.1} µs, most {most:.1} µs;");
    println!("clearing 65,536 bytes, as each call of the library but the shelf's does: best {:.2} µs, median {:.2} µs", clearing.best, clearing.median);
}

fn fixed_work() -> u64 {
    (0..100_000u64).fold(1, |state, step| black_box(state.wrapping_mul(6364136223846793005).wrapping_add(step)))
}
