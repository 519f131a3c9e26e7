//! Alternating repetitions of two ways to do one thing, and their times.

use std::cmp::Ordering;
use std::time::{Duration, Instant};

/// How long one row may be repeated.
const TIME_FOR_A_ROW: Duration = Duration::from_secs(1);
/// The fewest and the most repetitions of a row.
const REPETITIONS: (usize, usize) = (11, 2001);

/// Something that is done and timed.
pub type Work = Box<dyn FnMut()>;

/// One thing to be timed, done by the library and by the reference.
pub struct Row {
    /// What is done.
    pub name: String,
    /// The ratio that the library must keep.
    pub at_most: f64,
    /// The library's way.
    pub library: Work,
    /// The reference's way.
    pub reference: Work,
}

/// Two ways to do one thing, compared.
pub struct Compared {
    /// The median time of one.
    one: Duration,
    /// The median time of the other.
    other: Duration,
    /// The median of the ratios of each repetition of the one to the repetition
    /// of the other behind it: where the machine changes its speed in between,
    /// the medians of the times may be of different speeds.
    ratio: f64,
}

/// Times a row and prints its medians and ratio.
pub fn print(mut row: Row) {
    let compared = compare(&mut row.library, &mut row.reference);
    println!("{} {:>8.2}", columns(&row.name, &compared), row.at_most);
}

/// What is done, the two times and their ratio, as columns of a table.
pub fn columns(name: &str, compared: &Compared) -> String {
    let [one, other] = [compared.one, compared.other].map(|time| 1e6 * time.as_secs_f64());
    let ratio = compared.ratio;
    format!("{name:<40} {one:>9.1} µs {other:>9.1} µs {ratio:>7.2}")
}

/// Compares two ways to do one thing.
pub fn compare(one: &mut Work, other: &mut Work) -> Compared {
    let times = times(one, other);
    let ratios = times.iter().map(|(a, b)| a.as_secs_f64() / b.as_secs_f64());
    Compared {
        ratio: median(ratios.collect(), f64::total_cmp),
        one: median(times.iter().map(|t| t.0).collect(), Duration::cmp),
        other: median(times.iter().map(|t| t.1).collect(), Duration::cmp),
    }
}

fn median<T: Copy>(mut all: Vec<T>, order: impl Fn(&T, &T) -> Ordering) -> T {
    all.sort_unstable_by(order);
    all[all.len() / 2]
}

/// The least times of two things. Where one takes far longer, a busy machine
/// disturbs its median more.
pub fn least(one: &mut Work, other: &mut Work) -> (Duration, Duration) {
    let times = times(one, other);
    let least = |time: fn(&(Duration, Duration)) -> Duration| times.iter().map(time).min();
    (
        least(|t| t.0).unwrap_or_default(),
        least(|t| t.1).unwrap_or_default(),
    )
}

/// The times of alternating repetitions.
fn times(one: &mut Work, other: &mut Work) -> Vec<(Duration, Duration)> {
    let (fewest, most) = REPETITIONS;
    let mut times = Vec::with_capacity(most);
    let start = Instant::now();
    while times.len() < fewest || (times.len() < most && start.elapsed() < TIME_FOR_A_ROW) {
        times.push((time(one), time(other)));
    }
    times
}

fn time(work: &mut Work) -> Duration {
    let start = Instant::now();
    work();
    start.elapsed()
}
