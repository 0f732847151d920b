// The benchmark's cards: instances of several families, drawn at random, and their bits.
pub const NONE: u32 = 1_048_575;
pub const MAX_WEIGHT: u32 = 1_048_574;
pub const MAX_BUDGET: u32 = 32_505_794;

// The dearest price of most families: the limit before request A9, so that rows from then can be compared.
const DRAWN: u64 = 1_000_000;

const RECORDS: usize = 200;

pub struct Random(u64);

impl Random {
    // Each of these draws the same numbers.
    pub fn seeded() -> Random {
        Random(0x9E37_79B9_7F4A_7C15)
    }

    fn below(&mut self, k: u64) -> u64 {
        self.0 ^= self.0 << 13;
        self.0 ^= self.0 >> 7;
        self.0 ^= self.0 << 17;
        (self.0 >> 11) % k
    }
}

#[derive(Clone)]
pub struct Instance {
    pub n: usize,
    pub root: usize,
    pub budget: u32,
    pub weight: Vec<u32>, // tail by tail
    pub mark: Vec<u32>,
}

impl Instance {
    pub fn new(n: usize, root: usize) -> Instance {
        Instance { n, root, budget: MAX_BUDGET, weight: vec![NONE; n * n], mark: vec![0; n * n] }
    }

    // The first lines of its price list, in written order.
    pub fn prices(&self, lines: usize) -> String {
        let places = (0..self.n).flat_map(|tail| (0..self.n).map(move |head| (tail, head)));
        let priced = places.map(|(tail, head)| (tail, head, self.weight[tail * self.n + head]));
        let arcs = priced.filter(|&(tail, head, price)| tail != head && head != self.root && price != NONE);
        arcs.take(lines).map(|(tail, head, price)| format!("{tail} {head} {price}\n")).collect()
    }

    fn fill(mut self, mut weight: impl FnMut(usize, usize) -> u32) -> Instance {
        for t in 0..self.n {
            for h in 0..self.n {
                if t != h && h != self.root {
                    self.weight[t * self.n + h] = weight(t, h);
                }
            }
        }
        self
    }

    // The same with its vertices renumbered at random, so that any vertex can be the root.
    fn shuffled(&self, r: &mut Random) -> Instance {
        let n = self.n;
        let mut places: Vec<usize> = (0..n).collect();
        (1..n).rev().for_each(|k| places.swap(k, r.below(k as u64 + 1) as usize));
        let mut s = Instance::new(n, places[self.root]);
        s.budget = self.budget;
        for t in 0..n {
            for h in 0..n {
                let (from, to) = (t * n + h, places[t] * n + places[h]);
                s.weight[to] = self.weight[from];
                s.mark[to] = self.mark[from];
            }
        }
        s
    }

    fn put_sheet(&self, bits: &mut Vec<bool>) {
        put(bits, self.n as u32, 6);
        put(bits, self.root as u32, 5);
        put(bits, self.budget, 25);
        for t in 0..self.n {
            for h in 0..self.n {
                if t != h && h != self.root {
                    put(bits, self.weight[t * self.n + h], 20);
                    put(bits, self.mark[t * self.n + h], 2);
                }
            }
        }
    }

    pub fn card(&self) -> Vec<u8> {
        let mut bits = Vec::new();
        self.put_sheet(&mut bits);
        packed(bits)
    }

    // With as many records as there can be, each as long as it can be: group presses on all links of the root. Every
    // pair must be a link.
    pub fn history_card(&self) -> Vec<u8> {
        let mut bits = Vec::new();
        put(&mut bits, 63, 6);
        self.put_sheet(&mut bits);
        put(&mut bits, RECORDS as u32, 8);
        let members = ((1u64 << self.n) - 1) as u32 & !(1 << self.root);
        for k in 0..RECORDS {
            put(&mut bits, 2, 2);
            put(&mut bits, self.root as u32, 5);
            put(&mut bits, members, 32);
            (1..self.n).for_each(|h| put(&mut bits, ((h + k) % 3) as u32, 2));
        }
        packed(bits)
    }
}

fn put(bits: &mut Vec<bool>, v: u32, width: u32) {
    (0..width).rev().for_each(|k| bits.push(v >> k & 1 == 1));
}

fn packed(mut bits: Vec<bool>) -> Vec<u8> {
    bits.resize((bits.len() + 7) / 8 * 8, false);
    bits.chunks(8).map(|c| c.iter().fold(0, |v, &b| v << 1 | u8::from(b))).collect()
}

pub fn dense(r: &mut Random, n: usize) -> Instance {
    let root = r.below(n as u64) as usize;
    Instance::new(n, root).fill(|_, _| r.below(DRAWN + 1) as u32)
}

pub fn equal(r: &mut Random, n: usize) -> Instance {
    let w = r.below(DRAWN + 1) as u32;
    Instance::new(n, 0).fill(|_, _| w)
}

fn few(r: &mut Random, n: usize) -> Instance {
    Instance::new(n, 0).fill(|_, _| r.below(4) as u32)
}

pub fn sparse(r: &mut Random, n: usize) -> Instance {
    Instance::new(n, 0).fill(|t, h| if t + 1 == h || r.below(8) == 0 { r.below(DRAWN + 1) as u32 } else { NONE })
}

// Every contraction takes in one vertex more: v + 1 is cheapest from within {1 .. v}, and {1 .. v} cheapest from v + 1.
pub fn nested(r: &mut Random, n: usize) -> Instance {
    Instance::new(n, 0).fill(|t, h| match (t, h) {
        (0, _) => 900_000 + r.below(1000) as u32,
        (t, 1) => 100 * t as u32 + r.below(50) as u32,
        (t, h) if t + 1 == h => 1 + r.below(5) as u32,
        _ => 500_000 + r.below(300_000) as u32,
    })
}

fn marked(r: &mut Random, n: usize) -> Instance {
    let mut s = dense(r, n);
    for h in 0..n {
        for t in 0..n {
            if t != h && h != s.root && r.below(3) == 0 {
                s.mark[t * n + h] = 2;
            }
        }
        if r.below(6) == 0 {
            let t = s.root;
            if t != h {
                s.mark[t * n + h] = 1;
            }
        }
    }
    s
}

// Every price is above the limit before request A9.
fn dear(r: &mut Random, n: usize) -> Instance {
    Instance::new(n, 0).fill(|_, _| MAX_WEIGHT - r.below(u64::from(MAX_WEIGHT) - DRAWN) as u32)
}

// Nested with one price for each kind of arc.
fn nested_kinds(_: &mut Random, n: usize) -> Instance {
    Instance::new(n, 0).fill(|t, h| match (t, h) {
        (0, _) => 900_000,
        (t, 1) => 100 * t as u32,
        (t, h) if t + 1 == h => 1,
        _ => 500_000,
    })
}

// The same, but the way back from a vertex costs the same to every lower one.
fn nested_back(_: &mut Random, n: usize) -> Instance {
    Instance::new(n, 0).fill(|t, h| match (t, h) {
        (0, _) => 900_000,
        (t, h) if t > h => 100 * t as u32,
        (t, h) if t + 1 == h => 1,
        _ => 500_000,
    })
}

// Nested with many cheapest trees: each vertex but the root is a cut of 1, each {1 .. v} one of 100, and an arc costs
// just what the cuts that it enters add up to. So every tree that enters each cut once is cheapest.
fn nested_open(_: &mut Random, n: usize) -> Instance {
    Instance::new(n, 0).fill(|t, h| {
        let last = if t == 0 { n } else { t };
        1 + 100 * last.saturating_sub(h.max(2)) as u32
    })
}

type Make = fn(&mut Random, usize) -> Instance;

pub struct Family {
    pub name: &'static str,
    pub is_shuffled: bool,
    make: Make,
}

impl Family {
    pub fn draw(&self, r: &mut Random, n: usize) -> Instance {
        let s = (self.make)(r, n);
        if self.is_shuffled { s.shuffled(r) } else { s }
    }
}

const fn plain(name: &'static str, make: Make) -> Family {
    Family { name, is_shuffled: false, make }
}

const fn shuffled(name: &'static str, make: Make) -> Family {
    Family { name, is_shuffled: true, make }
}

pub const FAMILIES: [Family; 7] = [
    plain("dense", dense),
    plain("equal", equal),
    plain("few", few),
    plain("nested", nested),
    plain("sparse", sparse),
    plain("marked", marked),
    plain("dear", dear),
];

// Those that came with request A10. Dense cards are not shuffled: their root and prices are random as they are.
pub const FURTHER: [Family; 12] = [
    plain("kinds", nested_kinds),
    plain("back", nested_back),
    plain("open", nested_open),
    shuffled("equal", equal),
    shuffled("few", few),
    shuffled("nested", nested),
    shuffled("sparse", sparse),
    shuffled("marked", marked),
    shuffled("dear", dear),
    shuffled("kinds", nested_kinds),
    shuffled("back", nested_back),
    shuffled("open", nested_open),
];
