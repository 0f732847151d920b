// The benchmark's halls for passive runs: prices and marks of several families, drawn at random, equal both ways.
use crate::kruskal::NO_RUN;

const DEAREST: u64 = 1_000_000;

pub struct Random(u64);

impl Random {
    // Each of these draws the same numbers.
    pub fn seeded() -> Random {
        Random(0x9E37_79B9_7F4A_7C15)
    }

    pub fn below(&mut self, k: u64) -> u64 {
        self.0 ^= self.0 << 13;
        self.0 ^= self.0 >> 7;
        self.0 ^= self.0 << 17;
        (self.0 >> 11) % k
    }

    fn price(&mut self) -> u32 {
        self.below(DEAREST + 1) as u32
    }
}

#[derive(Debug)]
pub struct Hall {
    pub n: usize,
    pub prices: Vec<u32>,
    pub marks: Vec<u8>,
}

impl Hall {
    // A price for each pair i < j.
    fn priced(n: usize, mut price: impl FnMut(usize, usize) -> u32) -> Hall {
        let mut hall = Hall { n, prices: vec![NO_RUN; n * n], marks: vec![0; n * n] };
        for i in 0..n {
            for j in i + 1..n {
                let price = price(i, j);
                hall.prices[i * n + j] = price;
                hall.prices[j * n + i] = price;
            }
        }
        hall
    }

    fn mark(&mut self, i: usize, j: usize, mark: u8) {
        self.marks[i * self.n + j] = mark;
        self.marks[j * self.n + i] = mark;
    }
}

fn dense(r: &mut Random, n: usize) -> Hall {
    Hall::priced(n, |_, _| r.price())
}

fn few(r: &mut Random, n: usize) -> Hall {
    Hall::priced(n, |_, _| r.below(4) as u32)
}

fn equal(r: &mut Random, n: usize) -> Hall {
    let price = r.price();
    Hall::priced(n, |_, _| price)
}

// Positions on a grid twice as wide as high or square, numbered at random; a price goes by the distance along the grid.
fn grid(r: &mut Random, n: usize) -> Hall {
    let width = if n < 32 { 4 } else { 8 };
    let mut places: Vec<usize> = (0..n).collect();
    (1..n).rev().for_each(|k| places.swap(k, r.below(k as u64 + 1) as usize));
    Hall::priced(n, |i, j| {
        let (a, b) = (places[i], places[j]);
        2_000 * ((a % width).abs_diff(b % width) + (a / width).abs_diff(b / width)) as u32
    })
}

// One run from each position to a lower one, so that there is a tree, and one in eight of the others.
fn sparse(r: &mut Random, n: usize) -> Hall {
    let lower: Vec<usize> = (0..n).map(|v| r.below(v.max(1) as u64) as usize).collect();
    Hall::priced(n, |i, j| if lower[j] == i || r.below(8) == 0 { r.price() } else { NO_RUN })
}

// A third of the runs banned, and a pin from one in six positions to a lower one, so that no pins close a ring.
fn marked(r: &mut Random, n: usize) -> Hall {
    let mut hall = dense(r, n);
    for j in 1..n {
        (0..j).filter(|_| r.below(3) == 0).collect::<Vec<_>>().iter().for_each(|&i| hall.mark(i, j, 2));
        if r.below(6) == 0 {
            hall.mark(r.below(j as u64) as usize, j, 1);
        }
    }
    hall
}

// The cheapest tree is the path through all positions, as deep as can be from position 0.
fn path(r: &mut Random, n: usize) -> Hall {
    Hall::priced(n, |i, j| match j - i {
        1 => 1 + r.below(1_000) as u32,
        far => 10_000 * far as u32 + r.below(10_000) as u32,
    })
}

pub type Family = (&'static str, fn(&mut Random, usize) -> Hall);

pub const FAMILIES: [Family; 7] = [
    ("dense", dense),
    ("few", few),
    ("grid", grid),
    ("sparse", sparse),
    ("marked", marked),
    ("path", path),
    ("equal", equal),
];

// A small hall with any marks, so that there is often no tree; in one of eight a cell, or one of the diagonal, is
// changed, so that it may be refused.
pub fn small(r: &mut Random) -> Hall {
    let n = 1 + r.below(7) as usize;
    let dearest = [3, 10, 1_000_000][r.below(3) as usize];
    let share = 2 + r.below(8);
    let mut hall = Hall::priced(n, |_, _| if r.below(share) == 0 { NO_RUN } else { r.below(dearest) as u32 });
    for i in 0..n {
        for j in i + 1..n {
            if hall.prices[i * n + j] != NO_RUN {
                hall.mark(i, j, [0, 0, 0, 0, 1, 2][r.below(6) as usize]);
            }
        }
    }
    let place = r.below((n * n) as u64) as usize;
    match r.below(24) {
        0 => hall.prices[place] = [0, NO_RUN - 1, NO_RUN, NO_RUN + 1, u32::MAX][r.below(5) as usize],
        1 => hall.marks[place] = r.below(4) as u8,
        2 => (hall.prices[place], hall.marks[place]) = (NO_RUN, 1),
        _ => {}
    }
    hall
}
