// A lesson at a console, by the library from Rust: opens a card, looks, pins the link from 2 to 1, looks, takes the pin
// back and looks again. Argument: a card, as examples/p1.card. console.c is the same in C, and console.txt what both
// print.
use std::process::exit;

const MAX_CARD: usize = 5174;
const MAX_POSITIONS: usize = 32;
const MAX_STATES: usize = MAX_POSITIONS * MAX_POSITIONS;
const CUT_WORDS: usize = 122;
const NO_FEEDER: u8 = 255;

// As include/feed_planner.h has them: a slice is a pointer and a count. Nothing checks these against the library.
unsafe extern "C" {
    fn feed_sheet(
        card: *const u8,
        card_length: usize,
        prices: *mut u32,
        prices_length: usize,
        marks: *mut u8,
        marks_length: usize,
        positions: &mut u32,
        console: &mut u32,
        budget: &mut u32,
        recorded: &mut usize,
    ) -> u32;
    fn feed_look(
        card: *const u8,
        card_length: usize,
        feeders: *mut u8,
        feeders_length: usize,
        states: *mut u8,
        states_length: usize,
        cuts: *mut u32,
        cuts_length: usize,
        outcome: &mut u32,
        total: &mut u32,
        pairs: &mut u32,
    ) -> u32;
    fn feed_pin(
        card: *const u8,
        card_length: usize,
        feeder: u32,
        fed: u32,
        out: *mut u8,
        out_length: usize,
        length: &mut usize,
    ) -> u32;
    fn feed_take_back(card: *const u8, card_length: usize, out: *mut u8, out_length: usize, length: &mut usize) -> u32;
}

// A card, or the number that something was refused by.
type Answer<T> = Result<T, u32>;

struct Sheet {
    positions: usize,
    console: u32,
    budget: u32,
    recorded: usize,
}

struct View {
    outcome: usize,
    total: u32,
    feeders: [u8; MAX_POSITIONS],
    states: [u8; MAX_STATES],
}

fn answered<T>(answer: u32, value: T) -> Answer<T> {
    if answer == 0 { Ok(value) } else { Err(answer) }
}

// In each of these every pointer comes with the length of its slice, and what is written overlaps nothing.
fn sheet(card: &[u8]) -> Answer<Sheet> {
    let (mut prices, mut marks) = ([0; MAX_STATES], [0; MAX_STATES]);
    let (mut positions, mut console, mut budget, mut recorded) = (0, 0, 0, 0);
    let (p, m) = (prices.as_mut_ptr(), marks.as_mut_ptr());
    let (n, c, b, r) = (&mut positions, &mut console, &mut budget, &mut recorded);
    let answer = unsafe { feed_sheet(card.as_ptr(), card.len(), p, MAX_STATES, m, MAX_STATES, n, c, b, r) };
    answered(answer, Sheet { positions: positions as usize, console, budget, recorded })
}

fn look(card: &[u8]) -> Answer<View> {
    let (mut feeders, mut states, mut cuts) = ([0; MAX_POSITIONS], [0; MAX_STATES], [0; CUT_WORDS]);
    let (mut outcome, mut total, mut pairs) = (0, 0, 0);
    let (f, s, c) = (feeders.as_mut_ptr(), states.as_mut_ptr(), cuts.as_mut_ptr());
    let (o, t, p) = (&mut outcome, &mut total, &mut pairs);
    let (bytes, length) = (card.as_ptr(), card.len());
    let answer = unsafe { feed_look(bytes, length, f, MAX_POSITIONS, s, MAX_STATES, c, CUT_WORDS, o, t, p) };
    answered(answer, View { outcome: outcome as usize, total, feeders, states })
}

fn pin(card: &[u8], feeder: u32, fed: u32) -> Answer<Vec<u8>> {
    let (mut next, mut length) = (vec![0; MAX_CARD], 0);
    let out = next.as_mut_ptr();
    let answer = unsafe { feed_pin(card.as_ptr(), card.len(), feeder, fed, out, MAX_CARD, &mut length) };
    next.truncate(length);
    answered(answer, next)
}

fn take_back(card: &[u8]) -> Answer<Vec<u8>> {
    let (mut next, mut length) = (vec![0; MAX_CARD], 0);
    let answer = unsafe { feed_take_back(card.as_ptr(), card.len(), next.as_mut_ptr(), MAX_CARD, &mut length) };
    next.truncate(length);
    answered(answer, next)
}

fn fail(what: &str) -> ! {
    eprintln!("console: {what}");
    exit(1)
}

fn show(card: &[u8], n: usize) {
    let view = look(card).unwrap_or_else(|_| fail("the look is refused"));
    println!("{} {}", ["none", "plan", "over"][view.outcome], view.total);
    for (fed, feeder) in view.feeders[..n].iter().enumerate().filter(|&(_, &f)| f != NO_FEEDER) {
        println!("feed {fed} from {feeder}");
    }
    for (feeder, row) in view.states[..n * n].chunks(n).enumerate() {
        let states: String = row.iter().map(|state| state.to_string()).collect();
        println!("row {feeder} {states}");
    }
}

// After a refused press the card before it is the state still, so a console would show the number and go on.
fn pressed(card: Vec<u8>, press: &str, next: Answer<Vec<u8>>) -> Vec<u8> {
    match next {
        Ok(next) => {
            println!("{press}");
            next
        }
        Err(answer) => {
            println!("{press}: refused by {answer}");
            card
        }
    }
}

fn main() {
    let name = std::env::args().nth(1).unwrap_or_else(|| fail("usage: console CARD"));
    let mut card = std::fs::read(name).unwrap_or_else(|_| fail("the card cannot be read"));
    let Sheet { positions, console, budget, recorded } = sheet(&card).unwrap_or_else(|_| fail("it is no card"));
    println!("positions {positions} console {console} budget {budget} recorded {recorded}");
    show(&card, positions);
    let next = pin(&card, 2, 1);
    card = pressed(card, "pin 2 to 1", next);
    show(&card, positions);
    let next = take_back(&card);
    card = pressed(card, "take back", next);
    show(&card, positions);
    let next = take_back(&card);
    pressed(card, "take back", next);
}
