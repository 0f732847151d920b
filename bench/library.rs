// Times a look of the library, feed_look, against the baseline's on the same cards (cards.rs), both in this process, so
// that no start of one is in it: from the bytes of a card to outcome and states. What they show must agree, and so must
// the feeders, which the baseline finds untimed. A time is that of a look: the five cards of a row in turn, over and
// over, the least of several such batches, since other processes only add to it. The library is linked in by
// bench/library.sh.
#[allow(dead_code)] // names for another table
mod card_rows;
#[allow(dead_code)] // price lists and history cards
mod cards;

use card_rows::{Row, all_rows, rows};
use cards::{FURTHER, Instance, Random};
use std::hint::black_box;
use std::time::Instant;

const BATCHES: usize = 15;

// How long a batch of looks may take, about.
const BATCH_US: f64 = 300.0;

const CUT_WORDS: usize = 122;

// The places of a buffer that are more than a look needs, and what its bytes hold before it.
const SPARE: usize = 3;
const BEFORE: u8 = 0xEE;

// The baseline's own functions, with what it prints as values.
#[allow(dead_code)] // its texts, listings and price lists, and the program itself
mod baseline {
    include!("baseline.rs");

    // Outcome (0 none, 1 plan, 2 over), total, and the states into the buffer.
    pub fn look(card: &[u8], states: &mut [u8]) -> (u32, u32) {
        let s = open(card).expect("a card that opens");
        let rows = remaining(&s);
        let total = cheapest(s.n, s.root, &rows);
        let used = total.map_or([[false; 32]; 32], |v| usable(&s, &rows, s.budget.max(v)));
        for tail in 0..s.n {
            for head in 0..s.n {
                states[tail * s.n + head] = state(&s, &used[head], tail, head);
            }
        }
        total.map_or((0, 0), |v| (if v > s.budget { 2 } else { 1 }, v))
    }

    pub fn total(card: &[u8]) -> Option<u32> {
        let s = open(card).expect("a card that opens");
        cheapest(s.n, s.root, &remaining(&s))
    }

    // 255 at the root, and everywhere where there is no tree.
    pub fn feeders(card: &[u8]) -> Vec<u8> {
        let s = open(card).expect("a card that opens");
        let rows = remaining(&s);
        let tree = cheapest(s.n, s.root, &rows).map(|v| first_tree(&s, &rows, v));
        let feeder = |h: usize| tree.filter(|_| h != s.root).map_or(255, |tails| tails[h] as u8);
        (0..s.n).map(feeder).collect()
    }
}

unsafe extern "C" {
    // A lent slice is a pointer and a count.
    fn feed_look(
        card: *const u8,
        card_length: usize,
        feeders: *mut u8,
        feeders_length: usize,
        states: *mut u8,
        states_length: usize,
        cuts: *mut u32,
        cuts_length: usize,
        outcome: &mut u32,
        total: &mut u32,
        pairs: &mut u32,
    ) -> u32;
}

// The buffers of a look.
struct Room {
    feeders: Vec<u8>,
    states: Vec<u8>,
    cuts: Vec<u32>,
}

impl Room {
    fn new(n: usize) -> Room {
        let (feeders, states) = (vec![BEFORE; n + SPARE], vec![BEFORE; n * n + SPARE]);
        Room { feeders, states, cuts: vec![u32::from_ne_bytes([BEFORE; 4]); CUT_WORDS + SPARE] }
    }
}

// The outcome and the total.
type Look = fn(&[u8], &mut Room) -> (u32, u32);

fn plain(card: &[u8], room: &mut Room) -> (u32, u32) {
    baseline::look(card, &mut room.states)
}

fn ours(card: &[u8], room: &mut Room) -> (u32, u32) {
    let (mut outcome, mut total, mut pairs) = (0, 0, 0);
    let (f, s, c) = (room.feeders.as_mut_ptr(), room.states.as_mut_ptr(), room.cuts.as_mut_ptr());
    let (fl, sl, cl) = (room.feeders.len(), room.states.len(), room.cuts.len());
    let (o, t, p) = (&mut outcome, &mut total, &mut pairs);
    // each pointer comes with the length of its slice, and what is written overlaps nothing
    let answer = unsafe { feed_look(card.as_ptr(), card.len(), f, fl, s, sl, c, cl, o, t, p) };
    assert_eq!(answer, 0, "a look is refused");
    (outcome, total)
}

fn check(card: &[u8], n: usize) {
    let (mut base, mut shown) = (Room::new(n), Room::new(n));
    assert_eq!(plain(card, &mut base), ours(card, &mut shown), "outcomes differ");
    assert_eq!(base.states, shown.states, "states differ, or a byte behind them changed");
    assert_eq!(baseline::feeders(card), shown.feeders[..n], "feeders differ");
    assert_eq!(shown.feeders[n..], [BEFORE; SPARE], "a byte behind the feeders changed");
    assert_eq!(shown.cuts[CUT_WORDS..], base.cuts[CUT_WORDS..], "a word behind the cuts changed");
}

// The time of a look in microseconds, each card of a row `rounds` times.
fn batch(look: Look, cards: &[Vec<u8>], room: &mut Room, rounds: usize) -> f64 {
    let start = Instant::now();
    for _ in 0..rounds {
        for card in cards {
            black_box(look(black_box(card), room));
        }
    }
    start.elapsed().as_secs_f64() * 1e6 / (rounds * cards.len()) as f64
}

// The least of several batches of each, in turn.
fn times(cards: &[Vec<u8>], n: usize) -> [f64; 2] {
    let looks: [Look; 2] = [plain, ours];
    let mut room = Room::new(n);
    let rounds = looks.map(|look| {
        let once = batch(look, cards, &mut room, 1) * cards.len() as f64;
        (BATCH_US / once).ceil().max(1.0) as usize
    });
    let mut least = [f64::MAX; 2];
    for _ in 0..BATCHES {
        for (k, look) in looks.iter().enumerate() {
            least[k] = least[k].min(batch(*look, cards, &mut room, rounds[k]));
        }
    }
    least
}

// One line of the table: the looks at a family's cards of one size, budget by budget. Every look is checked first.
fn print_family(row: &[&Row], longest: &mut f64) {
    print!("| {}", row[0].family);
    if row[0].is_shuffled {
        print!(", shuffled");
    }
    for row in row {
        let cards = row.instances.each_ref().map(Instance::card);
        cards.iter().for_each(|card| check(card, row.n));
        let [base, ours] = times(&cards, row.n);
        print!(" | {ours:.1} to {base:.1}, {:.2}", ours / base);
        *longest = longest.max(ours);
    }
    println!(" |");
}

fn main() {
    let cheapest = |s: &Instance| baseline::total(&s.card());
    let mut all = all_rows(&cheapest, &mut Random::seeded());
    // the smaller cards of the further families, which the other benchmarks do not have
    all.extend(rows(&FURTHER, &[8, 16], &cheapest, &mut Random::seeded()));
    println!("microseconds of feed_look to those of the baseline, and their ratio");
    for n in [8, 16, 32] {
        let rows: Vec<&Row> = all.iter().filter(|row| row.n == n).collect();
        let families: Vec<&[&Row]> =
            rows.chunk_by(|a, b| (a.family, a.is_shuffled) == (b.family, b.is_shuffled)).collect();
        let budgets: Vec<&str> = families[0].iter().map(|row| row.budget).collect();
        println!("\n| {n} positions | {} |\n|---{}|", budgets.join(" | "), "|---".repeat(budgets.len()));
        let mut longest = 0.0;
        families.iter().for_each(|family| print_family(family, &mut longest));
        println!("\n{} looks agree; the longest took {longest:.0} us", 5 * rows.len());
    }
}
