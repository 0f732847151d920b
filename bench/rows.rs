// Times the planner's row_used against plain Rust that does the same, in one process, and checks on random lists, of
// which many are refused, that both answer alike and hand back a part of the same length that holds the same numbers: a
// price stands in one place of the lists only, so a part that has one is told by its numbers. The call comes from a
// static library that bench/run builds; rows_call.txt is what it exports.
use std::hint::black_box;
use std::time::Instant;

const NO_LINK: u32 = 1_048_575;
const CHECKED: u32 = 200_000;
const BATCHES: usize = 15;
const BATCH_CALLS: u32 = 100_000;

unsafe extern "C" {
    // A lent slice is a pointer and a count.
    fn rows_call(
        school: *const u32,
        school_count: usize,
        shipped: *const u32,
        shipped_count: usize,
        count: u32,
        feeder: u32,
        place: usize,
        answer: *mut u32,
        number: *mut u32,
    ) -> usize;
}

// The answer, the length of the row, and its number at a place, or 0.
type Told = (u32, usize, u32);
type Call = fn(&[u32], &[u32], u32, u32, usize) -> Told;

fn ours(school: &[u32], shipped: &[u32], count: u32, feeder: u32, place: usize) -> Told {
    let (mut answer, mut number) = (77, 77);
    let (a, b) = (school.as_ptr(), shipped.as_ptr());
    // each pointer comes with the length of its slice, and the two words are the call's own
    let length =
        unsafe { rows_call(a, school.len(), b, shipped.len(), count, feeder, place, &mut answer, &mut number) };
    (answer, length, number)
}

fn plain(school: &[u32], shipped: &[u32], count: u32, feeder: u32, place: usize) -> Told {
    let (answer, row) = row_used(school, shipped, count, feeder);
    (answer, row.len(), row.get(place).copied().unwrap_or(0))
}

// Document 02, A12, in plain Rust.
fn row_used<'a>(school: &'a [u32], shipped: &'a [u32], count: u32, feeder: u32) -> (u32, &'a [u32]) {
    let none = &shipped[..0];
    if !(1..=32).contains(&count) {
        return (29, none);
    }
    if feeder >= count {
        return (9, none);
    }
    let n = count as usize;
    if school.len() < n * n || shipped.len() < n * n {
        return (14, none);
    }
    let places = feeder as usize * n..(feeder as usize + 1) * n;
    let own = &school[places.clone()];
    let row = if own.iter().any(|&w| w != NO_LINK) { own } else { &shipped[places] };
    if row.iter().any(|&w| w > NO_LINK) { (30, none) } else { (0, row) }
}

struct Random(u64);

impl Random {
    fn below(&mut self, bound: u32) -> u32 {
        self.0 ^= self.0 << 13;
        self.0 ^= self.0 >> 7;
        self.0 ^= self.0 << 17;
        ((self.0 >> 32) % bound as u64) as u32
    }

    // Mostly no link, some prices, each in one place only, and few numbers that are none.
    fn list(&mut self, places: usize, first: u32) -> Vec<u32> {
        let number = |g: &mut Random, k: usize| match g.below(40) {
            0 => NO_LINK + 1 + g.below(1_000_000),
            1..8 => first + k as u32,
            _ => NO_LINK,
        };
        (0..places).map(|k| number(self, k)).collect()
    }
}

// How many calls were accepted and how many were refused.
fn check() -> [u32; 2] {
    let mut g = Random(88_172_645_463_325_252);
    let mut counts = [0; 2];
    for _ in 0..CHECKED {
        let n = g.below(34);
        // one place too few, just enough, or more
        let [a, b] = [g.below(16), g.below(16)].map(|more| (n * n + more).saturating_sub(1) as usize);
        let (school, shipped) = (g.list(a, 1), g.list(b, 2000));
        let feeder = g.below(n + 2);
        for place in 0..n as usize + 1 {
            let told = ours(&school, &shipped, n, feeder, place);
            let alike = told == plain(&school, &shipped, n, feeder, place);
            assert!(alike, "{n} {feeder} {school:?} {shipped:?}: {told:?}");
            counts[(told.0 != 0) as usize] += (place == 0) as u32;
        }
    }
    counts
}

// Nanoseconds of a call: the least of several batches, since other processes only add to it.
fn time(call: Call, school: &[u32], shipped: &[u32], count: u32, least: &mut f64) {
    let start = Instant::now();
    for k in 0..BATCH_CALLS {
        black_box(call(black_box(school), black_box(shipped), count, k % count, 0));
    }
    *least = least.min(start.elapsed().as_nanos() as f64 / BATCH_CALLS as f64);
}

fn main() {
    let [rows, refused] = check();
    println!("{CHECKED} calls alike: {rows} rows, {refused} refused");
    println!("| Positions | The school's row | Plain ns | row_used ns | Ratio |\n|---|---|---|---|---|");
    for n in [8, 16, 32] {
        let shipped = vec![5; n * n];
        let last = (0..n * n).map(|k| if k % n == n - 1 { 7 } else { NO_LINK }).collect();
        let lists = [("all prices", vec![7; n * n]), ("one price, the last", last), ("none", vec![NO_LINK; n * n])];
        for (what, school) in lists {
            let mut times = [f64::MAX; 2];
            for _ in 0..BATCHES {
                time(plain, &school, &shipped, n as u32, &mut times[0]);
                time(ours, &school, &shipped, n as u32, &mut times[1]);
            }
            println!("| {n} | {what} | {:.1} | {:.1} | {:.2} |", times[0], times[1], times[1] / times[0]);
        }
    }
}
