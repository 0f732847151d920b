// Times the planner's plan_runs against the plain baseline of plain.rs, and the quicker one of kruskal.rs in two forms,
// on the same halls (halls.rs), in one process, and checks that what they show agrees. A time is that of a call: the
// five halls of a row in turn, over and over, the least of several such batches, since other processes only add to it.
// The call comes from a static library that bench/run builds; runs_call.txt is what it exports. Its stack is measured
// by painting.
mod halls;
mod kruskal;
mod plain;

use halls::{FAMILIES, Hall, Random, small};
use kruskal::{Forest, Labels, NO_RUN, NOT_IN_TREE, View};
use std::arch::asm;
use std::hint::black_box;
use std::time::Instant;

const BATCHES: usize = 15;
const SMALL_HALLS: usize = 50_000;

// How long a batch of calls may take, about.
const BATCH_US: f64 = 300.0;

// The places of a buffer that are more than a hall needs, and what its bytes hold before a call.
const SPARE: usize = 3;
const BEFORE: u8 = 0xEE;

const PAINT: u8 = 0xA5;

unsafe extern "C" {
    // A lent slice is a pointer and a count.
    fn runs_call(
        prices: *const u32,
        price_count: usize,
        marks: *const u8,
        mark_count: usize,
        count: u32,
        budget: u32,
        states: *mut u8,
        state_count: usize,
        replacements: *mut u32,
        replacement_count: usize,
    ) -> u64;
}

fn view(answer: u64) -> View {
    let number = answer as u32;
    match answer >> 32 {
        0 => View::Plan(number),
        1 => View::Over(number),
        2 => View::NoTree,
        _ => View::Refused(number),
    }
}

type Call = fn(&[u32], &[u8], u32, u32, &mut [u8], &mut [u32]) -> View;

fn ours(p: &[u32], m: &[u8], count: u32, budget: u32, s: &mut [u8], r: &mut [u32]) -> View {
    let (states, replacements) = (s.as_mut_ptr(), r.as_mut_ptr());
    // each pointer comes with the length of its slice, and the two that are written overlap nothing
    view(unsafe {
        runs_call(p.as_ptr(), p.len(), m.as_ptr(), m.len(), count, budget, states, s.len(), replacements, r.len())
    })
}

// The plain baseline, the quicker one in its two forms, and the planner's call.
const CALLS: [Call; 4] = [plain::plan_runs, kruskal::plan_runs::<Forest>, kruskal::plan_runs::<Labels>, ours];

// What a call shows, and the buffers that it fills.
#[derive(Clone, PartialEq)]
struct Shown {
    view: View,
    states: Vec<u8>,
    replacements: Vec<u32>,
}

impl Shown {
    fn room(places: usize) -> Shown {
        let replacements = vec![u32::from_ne_bytes([BEFORE; 4]); places];
        Shown { view: View::NoTree, states: vec![BEFORE; places], replacements }
    }

    fn call(&mut self, call: Call, hall: &Hall, budget: u32) {
        let (states, replacements) = (&mut self.states[..], &mut self.replacements[..]);
        self.view = call(&hall.prices, &hall.marks, hall.n as u32, budget, states, replacements);
    }
}

fn shown(call: Call, hall: &Hall, budget: u32) -> Shown {
    let mut shown = Shown::room(hall.n * hall.n + SPARE);
    shown.call(call, hall, budget);
    shown
}

// The runs of the tree that was shown are those with a replacement price: a spanning tree of that total, with every pin
// and no ban.
fn check_tree(hall: &Hall, shown: &Shown, total: u32) {
    let n = hall.n;
    let mut group: Vec<usize> = (0..n).collect();
    let (mut runs, mut sum) = (0, 0);
    for (i, j) in (0..n).flat_map(|i| (i + 1..n).map(move |j| (i, j))) {
        let (price, mark) = (hall.prices[i * n + j], hall.marks[i * n + j]);
        let is_taken = shown.replacements[i * n + j] != NOT_IN_TREE;
        let is_kept = if is_taken { price != NO_RUN && mark != 2 } else { mark != 1 };
        assert!(is_kept, "the tree does not keep the marks: {hall:?}");
        if is_taken {
            let (from, to) = (group[i], group[j]);
            assert!(from != to, "the tree has a ring: {hall:?}");
            group.iter_mut().filter(|g| **g == from).for_each(|g| *g = to);
            runs += 1;
            sum += price;
        }
    }
    assert!(runs == n - 1 && sum == total, "the tree is not a cheapest one: {hall:?}");
}

// All is the same but for the tree. A replacement price goes by the run alone, and is 0 where the other tree, which is
// cheapest too, does without the run.
fn check(hall: &Hall, budget: u32) -> View {
    let [plain, base, other, ours] = CALLS.map(|call| shown(call, hall, budget));
    assert!(base == other, "the baselines differ at budget {budget}: {hall:?}");
    assert!(base.view == plain.view && base.states == plain.states, "the plain one differs at budget {budget}: {hall:?}");
    assert!(base.view == ours.view, "{:?} is not {:?} at budget {budget}: {hall:?}", ours.view, base.view);
    assert!(base.states == ours.states, "states differ at budget {budget}: {hall:?}");
    let (View::Plan(total) | View::Over(total)) = ours.view else {
        assert!(base.replacements == ours.replacements, "replacement prices differ: {hall:?}");
        return ours.view;
    };
    check_tree(hall, &base, total);
    check_tree(hall, &ours, total);
    let size = hall.n * hall.n;
    for (k, (&p, &q)) in base.replacements.iter().zip(&ours.replacements).enumerate() {
        let turned = if k < size { k % hall.n * hall.n + k / hall.n } else { k };
        assert!(q == ours.replacements[turned], "replacement prices are not alike both ways: {hall:?}");
        let is_right = match (p, q) {
            (NOT_IN_TREE, 0) | (0, NOT_IN_TREE) => k < size,
            _ => p == q,
        };
        assert!(is_right, "replacement prices differ: {hall:?}");
    }
    ours.view
}

fn check_small(r: &mut Random) {
    let mut kinds = [0; 4];
    for _ in 0..SMALL_HALLS {
        let hall = small(r);
        let budget = [0, r.below(30) as u32, r.below(3_000_000) as u32, u32::MAX][r.below(4) as usize];
        kinds[match check(&hall, budget) {
            View::Plan(_) => 0,
            View::Over(_) => 1,
            View::NoTree => 2,
            View::Refused(_) => 3,
        }] += 1;
    }
    let [plan, over, none, refused] = kinds;
    println!("small halls that agree: {plan} plan, {over} over, {none} none, {refused} refused");
}

// The time of a call in microseconds, each hall of a row `rounds` times.
fn batch(call: Call, halls: &[(Hall, u32)], room: &mut Shown, rounds: usize) -> f64 {
    let start = Instant::now();
    for _ in 0..rounds {
        for (hall, budget) in halls {
            room.call(call, black_box(hall), *budget);
            black_box(&mut *room);
        }
    }
    start.elapsed().as_secs_f64() * 1e6 / (rounds * halls.len()) as f64
}

// The least of several batches of each, in turn.
fn times(halls: &[(Hall, u32)]) -> [f64; 4] {
    let mut room = Shown::room(32 * 32);
    let rounds = CALLS.map(|call| {
        let once = batch(call, halls, &mut room, 1) * halls.len() as f64;
        (BATCH_US / once).ceil().max(1.0) as usize
    });
    let mut least = [f64::MAX; 4];
    for _ in 0..BATCHES {
        for (k, call) in CALLS.iter().enumerate() {
            least[k] = least[k].min(batch(*call, halls, &mut room, rounds[k]));
        }
    }
    least
}

struct Painted<'a> {
    hall: &'a Hall,
    budget: u32,
    room: &'a mut Shown,
}

extern "C" fn call_painted(p: &mut Painted) {
    p.room.call(ours, p.hall, p.budget);
}

// The bytes of stack that a call takes: it runs on a stack of its own, painted before, and what is painted still from
// the far end was not reached.
fn stack_of(hall: &Hall, budget: u32) -> usize {
    let mut room = Shown::room(hall.n * hall.n);
    let mut stack = vec![PAINT; 1 << 20];
    let top = stack.as_mut_ptr_range().end as usize & !15;
    let mut painted = Painted { hall, budget, room: &mut room };
    // r12 is kept by the callee; the painted stack is far larger than the call needs
    unsafe {
        asm!(
            "mov r12, rsp",
            "mov rsp, {top}",
            "call {call}",
            "mov rsp, r12",
            top = in(reg) top,
            call = sym call_painted,
            in("rdi") &mut painted,
            out("r12") _,
            clobber_abi("C"),
        );
    }
    stack.len() - black_box(&stack).iter().take_while(|&&b| b == PAINT).count()
}

// The cheapest total itself, a twentieth more, or the largest number.
fn with_budget(hall: Hall, budget: &str) -> (Hall, u32) {
    let (View::Plan(total) | View::Over(total)) = shown(CALLS[0], &hall, 0).view else {
        panic!("a hall has no tree");
    };
    let budget = match budget {
        "exact" => total,
        "5% over" => total + total / 20,
        _ => u32::MAX,
    };
    (hall, budget)
}

fn main() {
    let mut r = Random::seeded();
    check_small(&mut r);
    println!("                          us a call      sorted once              ratio to the");
    println!("family   budget      n      plain  union-find  labels  plan_runs  plain  quicker");
    let (mut largest, mut deepest) = (0f64, 0);
    for (name, make) in FAMILIES {
        for budget in ["exact", "5% over", "unlimited"] {
            for n in [8, 16, 32] {
                let halls: [(Hall, u32); 5] = std::array::from_fn(|_| with_budget(make(&mut r, n), budget));
                for (hall, budget) in &halls {
                    check(hall, *budget);
                    deepest = deepest.max(stack_of(hall, *budget));
                }
                let [plain, forest, labels, ours] = times(&halls);
                let (ratio, other) = (ours / plain, ours / forest.min(labels));
                println!(
                    "{name:<8} {budget:<10} {n:>2} {plain:>10.1} {forest:>11.1} {labels:>7.1} {ours:>10.1} {ratio:>6.3} {other:>8.2}"
                );
                if n == 32 {
                    largest = largest.max(ratio);
                }
            }
        }
    }
    println!("largest ratio to the plain one at 32 positions: {largest:.3}; it may be 0.2");
    println!("deepest stack of a call: {deepest} bytes");
}
