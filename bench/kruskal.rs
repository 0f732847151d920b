// A quicker baseline for passive runs, beside the plain one of plain.rs: Kruskal's algorithm from document 02 alone,
// with a planning anew for each run. One sorting serves all plannings: banned runs are left out of it, pinned ones are
// joined once and their groups copied for each planning. A planning goes through the sorted runs until all positions
// are joined. A run in the tree is left out of its planning, which gives its replacement price and whether it is sure;
// any other is joined first, which tells open from closed. So each run that has no mark gets one planning. Groups of
// positions are kept in two ways, union-find as in any textbook and a label for each position, of which either may be
// the faster.
pub const NO_RUN: u32 = 1_048_575;
pub const NO_REPLACEMENT: u32 = 4_294_967_295;
pub const NOT_IN_TREE: u32 = 4_294_967_294;
const PINNED: u8 = 1;
const BANNED: u8 = 2;

#[derive(Clone, Copy, Debug, PartialEq)]
pub enum View {
    Plan(u32),
    Over(u32),
    NoTree,
    Refused(u32),
}

#[derive(Clone, Copy)]
pub struct Run {
    price: u32,
    i: u8,
    j: u8,
}

// Which positions are joined, and how many joins are still to be made.
pub trait Groups: Copy {
    fn apart(n: usize) -> Self;

    fn left(&self) -> u32;

    // False where the run would close a ring.
    fn join(&mut self, run: &Run) -> bool;
}

// Union-find, by size and with paths halved.
#[derive(Clone, Copy)]
pub struct Forest {
    parent: [u8; 32],
    size: [u8; 32],
    left: u32,
}

impl Forest {
    #[inline(always)]
    fn find(&mut self, mut v: u8) -> u8 {
        loop {
            let up = self.parent[v as usize];
            if up == v {
                return v;
            }
            let next = self.parent[up as usize];
            self.parent[v as usize] = next;
            v = next;
        }
    }
}

impl Groups for Forest {
    fn apart(n: usize) -> Forest {
        Forest { parent: std::array::from_fn(|v| v as u8), size: [1; 32], left: n as u32 - 1 }
    }

    fn left(&self) -> u32 {
        self.left
    }

    #[inline(always)]
    fn join(&mut self, run: &Run) -> bool {
        let (a, b) = (self.find(run.i), self.find(run.j));
        if a == b {
            return false;
        }
        let (from, to) = if self.size[a as usize] < self.size[b as usize] { (a, b) } else { (b, a) };
        self.parent[from as usize] = to;
        self.size[to as usize] += self.size[from as usize];
        self.left -= 1;
        true
    }
}

// A label for each position, the same in a group: a join goes over all 32 labels, which is one vector.
#[derive(Clone, Copy)]
pub struct Labels {
    label: [u8; 32],
    left: u32,
}

impl Groups for Labels {
    fn apart(n: usize) -> Labels {
        Labels { label: std::array::from_fn(|v| v as u8), left: n as u32 - 1 }
    }

    fn left(&self) -> u32 {
        self.left
    }

    #[inline(always)]
    fn join(&mut self, run: &Run) -> bool {
        let (from, to) = (self.label[run.i as usize], self.label[run.j as usize]);
        if from == to {
            return false;
        }
        for label in &mut self.label {
            *label = if *label == from { to } else { *label };
        }
        self.left -= 1;
        true
    }
}

// Joins along the runs, in their order, until nothing is left to join. Gives what the runs taken cost.
fn join_along<G: Groups>(groups: &mut G, runs: &[Run]) -> u32 {
    let mut sum = 0;
    for run in runs {
        if groups.left() == 0 {
            break;
        }
        if groups.join(run) {
            sum += run.price;
        }
    }
    sum
}

// The refusal of a hall, or 0: count, room, then cell by cell.
pub fn refusal(prices: &[u32], marks: &[u8], n: usize, states: usize, replacements: usize) -> u32 {
    if n == 0 || n > 32 {
        return 29;
    }
    if [prices.len(), marks.len(), states, replacements].iter().any(|&room| room < n * n) {
        return 14;
    }
    for i in 0..n {
        for j in (0..n).filter(|&j| j != i) {
            let (price, mark) = (prices[i * n + j], marks[i * n + j]);
            if price > NO_RUN || mark > BANNED || price == NO_RUN && mark != 0 {
                return 30;
            }
            if price != prices[j * n + i] || mark != marks[j * n + i] {
                return 31;
            }
        }
    }
    0
}

// The pinned runs, and the free ones with the cheapest first.
fn sorted_runs(prices: &[u32], marks: &[u8], n: usize) -> (Vec<Run>, Vec<Run>) {
    let (mut pinned, mut free) = (Vec::new(), Vec::with_capacity(n * n / 2));
    for i in 0..n {
        for j in i + 1..n {
            let run = Run { price: prices[i * n + j], i: i as u8, j: j as u8 };
            match marks[i * n + j] {
                PINNED => pinned.push(run),
                BANNED => {}
                _ if run.price == NO_RUN => {}
                _ => free.push(run),
            }
        }
    }
    free.sort_unstable_by_key(|run| run.price);
    (pinned, free)
}

fn put<T: Copy>(cells: &mut [T], n: usize, run: &Run, value: T) {
    let (i, j) = (run.i as usize, run.j as usize);
    cells[i * n + j] = value;
    cells[j * n + i] = value;
}

// The least total without the free run at place k, if there is a tree without it.
fn without<G: Groups>(free: &[Run], pins: &G, pinned_total: u32, k: usize) -> Option<u32> {
    let mut groups = *pins;
    let sum = join_along(&mut groups, &free[..k]) + join_along(&mut groups, &free[k + 1..]);
    (groups.left() == 0).then_some(pinned_total + sum)
}

// The least total with that run.
fn with<G: Groups>(free: &[Run], pins: &G, pinned_total: u32, k: usize) -> Option<u32> {
    let mut groups = *pins;
    if !groups.join(&free[k]) {
        return None;
    }
    let sum = free[k].price + join_along(&mut groups, free);
    (groups.left() == 0).then_some(pinned_total + sum)
}

// The cheapest total and which free runs its tree takes, if there is a tree.
fn cheapest<G: Groups>(free: &[Run], pins: &G, pinned_total: u32) -> Option<(u32, Vec<bool>)> {
    let mut groups = *pins;
    let mut total = pinned_total;
    let mut is_taken = vec![false; free.len()];
    for (run, is_taken) in free.iter().zip(&mut is_taken) {
        *is_taken = groups.left() > 0 && groups.join(run);
        total += if *is_taken { run.price } else { 0 };
    }
    (groups.left() == 0).then_some((total, is_taken))
}

pub fn plan_runs<G: Groups>(
    prices: &[u32],
    marks: &[u8],
    n: u32,
    budget: u32,
    states: &mut [u8],
    replacements: &mut [u32],
) -> View {
    let n = n as usize;
    let answer = refusal(prices, marks, n, states.len(), replacements.len());
    if answer != 0 {
        return View::Refused(answer);
    }
    for k in 0..n * n {
        states[k] = u8::from(k / n != k % n && prices[k] != NO_RUN);
    }
    replacements[..n * n].fill(NOT_IN_TREE);
    let (pinned, free) = sorted_runs(prices, marks, n);
    let mut pins = G::apart(n);
    if !pinned.iter().all(|run| pins.join(run)) {
        return View::NoTree;
    }
    let pinned_total = pinned.iter().map(|run| run.price).sum();
    let Some((total, is_taken)) = cheapest(&free, &pins, pinned_total) else { return View::NoTree };
    let bound = budget.max(total);
    for run in &pinned {
        put(states, n, run, 3);
        put(replacements, n, run, NO_REPLACEMENT);
    }
    for (k, run) in free.iter().enumerate() {
        if is_taken[k] {
            let least = without(&free, &pins, pinned_total, k);
            put(states, n, run, if least.is_some_and(|w| w <= bound) { 2 } else { 3 });
            put(replacements, n, run, least.map_or(NO_REPLACEMENT, |w| w - total));
        } else if with(&free, &pins, pinned_total, k).is_some_and(|w| w <= bound) {
            put(states, n, run, 2);
        }
    }
    if total > budget { View::Over(total) } else { View::Plan(total) }
}
