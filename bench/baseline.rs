// The baseline: exact states by one dense planning for each arc, written for speed in plain Rust and from documents 01
// and 02 alone. Reads a card on standard input and prints what the planner prints but for the feed lines: this is what
// is timed, and it does what it did when any cheapest tree could be shown. With the argument `first` it prints the feed
// lines too, those of the first cheapest tree. With the argument `all` it lists all plans instead, by a recursive walk
// in place, and prints what print_listing prints. With the arguments `prices`, count, root and budget it reads a price
// list instead and writes its card, as print_card does, or the line of its refusal on standard error.
use std::io::{Read, Write};

const NONE: u32 = 1_048_575;
const MAX_BUDGET: u32 = 32_505_794;
const INF: u32 = u32::MAX;
const MAX_TRIES: u32 = 1_000_000;
const ROOM: usize = 16_384;
type Rows = [[u32; 32]; 32];

struct Instance {
    n: usize,
    root: usize,
    budget: u32,
    weight: Rows, // weight[head][tail]
    mark: [[u8; 32]; 32],
}

// The vertices of the path that grows, the last one last.
struct Path {
    places: [usize; 32],
    len: usize,
}

impl Path {
    fn last(&self) -> usize {
        self.places[self.len - 1]
    }

    fn push(&mut self, p: usize) {
        self.places[self.len] = p;
        self.len += 1;
    }

    fn pop(&mut self) -> usize {
        self.len -= 1;
        self.places[self.len]
    }

    fn all(&self) -> &[usize] {
        &self.places[..self.len]
    }
}

struct Bits<'a> {
    bytes: &'a [u8],
    at: usize,
}

impl Bits<'_> {
    fn take(&mut self, width: usize) -> u32 {
        let mut v = 0;
        for _ in 0..width {
            v = v << 1 | u32::from(self.bytes[self.at / 8] >> (7 - self.at % 8) & 1);
            self.at += 1;
        }
        v
    }
}

fn needed(n: usize) -> usize {
    (36 + 22 * (n - 1) * (n - 1) + 7) / 8
}

fn open(card: &[u8]) -> Result<Instance, u32> {
    if card.len() < 5 {
        return Err(1);
    }
    let mut b = Bits { bytes: card, at: 0 };
    let n = b.take(6) as usize;
    if n == 0 || n > 32 {
        return Err(2);
    }
    if card.len() != needed(n) {
        return Err(3);
    }
    let root = b.take(5) as usize;
    if root >= n {
        return Err(4);
    }
    let budget = b.take(25);
    if budget > MAX_BUDGET {
        return Err(5);
    }
    let mut s = Instance { n, root, budget, weight: [[NONE; 32]; 32], mark: [[0; 32]; 32] };
    read_cells(&mut s, &mut b)?;
    while b.at < 8 * card.len() {
        if b.take(1) != 0 {
            return Err(8);
        }
    }
    Ok(s)
}

fn read_cells(s: &mut Instance, b: &mut Bits) -> Result<(), u32> {
    let root = s.root;
    for tail in 0..s.n {
        for head in (0..s.n).filter(|&h| h != tail && h != root) {
            let (w, m) = (b.take(20), b.take(2));
            if m == 3 || w == NONE && m != 0 {
                return Err(7);
            }
            s.weight[head][tail] = w;
            s.mark[head][tail] = m as u8;
        }
    }
    Ok(())
}

fn remaining(s: &Instance) -> Rows {
    let mut rows = [[INF; 32]; 32];
    for head in 0..s.n {
        let pins = (0..s.n).filter(|&t| s.mark[head][t] == 1).count();
        for t in 0..s.n {
            let lost = match pins {
                0 => false,
                1 => s.mark[head][t] != 1,
                _ => true,
            };
            if s.weight[head][t] != NONE && s.mark[head][t] != 2 && !lost {
                rows[head][t] = s.weight[head][t];
            }
        }
    }
    rows
}

// The cheapest arc into vertex j: its weight and its tail; all arcs into j are lowered by its weight.
#[inline(always)]
fn charge(row: &mut [u32; 32], j: usize, n: usize) -> Option<(u32, usize)> {
    let (mut best, mut from) = (INF, 0);
    for (i, &x) in row[..n].iter().enumerate() {
        if x < best && i != j {
            best = x;
            from = i;
        }
    }
    if best == INF {
        return None;
    }
    for x in row[..n].iter_mut() {
        *x = if *x == INF { INF } else { *x - best };
    }
    Some((best, from))
}

// Vertex p goes up in vertex `into`.
#[inline(always)]
fn merge(c: &mut Rows, group: &mut [u8; 32], n: usize, p: usize, into: usize) {
    for i in 0..n {
        c[into][i] = c[into][i].min(c[p][i]);
    }
    for r in c[..n].iter_mut() {
        r[into] = r[into].min(r[p]);
        r[p] = INF;
    }
    for g in group[..n].iter_mut() {
        if *g as usize == p {
            *g = into as u8;
        }
    }
}

// The cheapest total by growing paths backwards and merging cycles: O(n²) on a dense matrix.
fn cheapest(n: usize, root: usize, rows: &Rows) -> Option<u32> {
    let mut c = *rows;
    let mut done = [false; 32];
    let mut on_path = [false; 32];
    let mut group: [u8; 32] = std::array::from_fn(|v| v as u8);
    done[root] = true;
    let mut total = 0;
    for s in 0..n {
        let start = group[s] as usize;
        if done[start] {
            continue;
        }
        let mut path = Path { places: [start; 32], len: 1 };
        on_path[start] = true;
        loop {
            let j = path.last();
            let (best, from) = charge(&mut c[j], j, n)?;
            total += best;
            if done[from] {
                break;
            }
            if !on_path[from] {
                path.push(from);
                on_path[from] = true;
                continue;
            }
            while path.last() != from {
                let p = path.pop();
                on_path[p] = false;
                merge(&mut c, &mut group, n, p, from);
            }
            c[from][from] = INF;
        }
        for &p in path.all() {
            done[p] = true;
            on_path[p] = false;
        }
    }
    Some(total)
}

// No arc into head h but the one from tail t.
fn forced(rows: &Rows, h: usize, t: usize) -> Rows {
    let mut one = *rows;
    one[h] = [INF; 32];
    one[h][t] = rows[h][t];
    one
}

// Which arcs a tree with a total of at most the limit uses, indexed by head and then tail.
fn usable(s: &Instance, rows: &Rows, limit: u32) -> [[bool; 32]; 32] {
    let mut used = [[false; 32]; 32];
    for h in (0..s.n).filter(|&h| h != s.root) {
        for t in 0..s.n {
            if rows[h][t] != INF {
                used[h][t] = cheapest(s.n, s.root, &forced(rows, h, t)).is_some_and(|v| v <= limit);
            }
        }
    }
    used
}

// The first of the trees with the cheapest total when tails are compared vertex by vertex. Vertices are settled
// upwards, each by the lowest tail that leaves the cheapest total as it is, with all arcs settled before it forced too.
fn first_tree(s: &Instance, rows: &Rows, total: u32) -> [usize; 32] {
    let mut tails = [s.root; 32];
    let mut left = *rows;
    for h in (0..s.n).filter(|&h| h != s.root) {
        let keeps = |&t: &usize| cheapest(s.n, s.root, &forced(&left, h, t)) == Some(total);
        tails[h] = (0..s.n).find(keeps).expect("a cheapest tree begins with the arcs settled so far");
        left = forced(&left, h, tails[h]);
    }
    tails
}

fn feed_lines(s: &Instance, tails: &[usize; 32]) -> String {
    let line = |h: usize| format!("feed {h} from {} price {}\n", tails[h], s.weight[h][tails[h]]);
    (0..s.n).filter(|&h| h != s.root).map(line).collect()
}

fn state(s: &Instance, used: &[bool; 32], tail: usize, head: usize) -> u8 {
    if tail == head || head == s.root || s.weight[head][tail] == NONE {
        0
    } else if !used[tail] {
        1
    } else if used.iter().filter(|&&u| u).count() == 1 {
        3
    } else {
        2
    }
}

fn text(card: &[u8], with_feeds: bool) -> String {
    let s = match open(card) {
        Ok(s) => s,
        Err(k) => return format!("refused {k}\n"),
    };
    let rows = remaining(&s);
    let mut out = format!("positions {} root {} budget {}\n", s.n, s.root, s.budget);
    let mut used = [[false; 32]; 32];
    match cheapest(s.n, s.root, &rows) {
        None => out.push_str("none\n"),
        Some(v) => {
            out.push_str(&format!("{} {v}\n", if v > s.budget { "over" } else { "plan" }));
            if with_feeds {
                out.push_str(&feed_lines(&s, &first_tree(&s, &rows, v)));
            }
            used = usable(&s, &rows, s.budget.max(v));
        }
    }
    for tail in 0..s.n {
        out.push_str(&format!("row {tail} "));
        for head in 0..s.n {
            out.push((b'0' + state(&s, &used[head], tail, head)) as char);
        }
        out.push('\n');
    }
    out
}

// A walk over all plans: the positions below the next one have their feeders.
struct Walk<'a> {
    s: &'a Instance,
    rows: &'a Rows,
    parents: [u8; 32],
    trees: Vec<(u32, [u8; 32])>,
    tries: u32,
    ended: &'static str,
}

impl Walk<'_> {
    // Whether the way from t comes to v, so that t must not feed it.
    fn closes_ring(&self, v: usize, t: usize) -> bool {
        let mut at = t;
        while at < v {
            at = self.parents[at] as usize;
        }
        at == v
    }

    // Every way to settle v and those after it; false where the walk has ended before its time.
    fn settle(&mut self, v: usize, sum: u32) -> bool {
        if v == self.s.n {
            return sum > self.s.budget || self.store(sum);
        }
        if v == self.s.root {
            return self.settle(v + 1, sum);
        }
        for t in 0..self.s.n {
            let price = self.rows[v][t];
            if price == INF {
                continue;
            }
            if self.tries == MAX_TRIES {
                self.ended = "limit";
                return false;
            }
            self.tries += 1;
            if self.closes_ring(v, t) {
                continue;
            }
            if v + 1 == self.s.n && sum + price > self.s.budget {
                continue;
            }
            self.parents[v] = t as u8;
            if !self.settle(v + 1, sum + price) {
                return false;
            }
        }
        true
    }

    fn store(&mut self, sum: u32) -> bool {
        if (self.trees.len() + 1) * self.s.n > ROOM {
            self.ended = "room";
            return false;
        }
        self.trees.push((sum, self.parents));
        true
    }
}

fn listing(card: &[u8]) -> String {
    let s = match open(card) {
        Ok(s) => s,
        Err(k) => return format!("refused {k}\n"),
    };
    let rows = remaining(&s);
    let mut walk = Walk { s: &s, rows: &rows, parents: [255; 32], trees: Vec::new(), tries: 0, ended: "complete" };
    walk.settle(0, 0);
    let mut out = format!("positions {} root {} budget {}\n", s.n, s.root, s.budget);
    out.push_str(&format!("{} trees {} tries {}\n", walk.ended, walk.trees.len(), walk.tries));
    for (sum, parents) in &walk.trees {
        out.push_str("tree");
        for p in &parents[..s.n] {
            out.push_str(&format!(" {p}"));
        }
        out.push_str(&format!(" total {sum}\n"));
    }
    out
}

// A number, capped, and the separator behind it.
fn number(list: &[u8], at: &mut usize, separator: u8) -> Option<u32> {
    let start = *at;
    let mut value = 0u32;
    while let Some(digit) = list.get(*at).filter(|b| b.is_ascii_digit()) {
        value = (10 * value + u32::from(digit - b'0')).min(100_000_000);
        *at += 1;
    }
    let needless = *at > start + 1 && list[start] == b'0';
    if *at == start || needless || list.get(*at) != Some(&separator) {
        return None;
    }
    *at += 1;
    Some(value)
}

// The prices of a list, or its refusal and the faulty line.
fn read_prices(list: &[u8], n: usize, root: usize) -> Result<Rows, (u32, usize)> {
    let mut rows = [[NONE; 32]; 32];
    let (mut at, mut line) = (0, 0);
    while at < list.len() {
        line += 1;
        let mut field = |separator| number(list, &mut at, separator).ok_or((16, line));
        let (tail, head, price) = (field(b' ')? as usize, field(b' ')? as usize, field(b'\n')?);
        let answer = match () {
            _ if tail >= n || head >= n => 17,
            _ if tail == head || head == root => 18,
            _ if price >= NONE => 19,
            _ if rows[head][tail] != NONE => 20,
            _ => 0,
        };
        if answer != 0 {
            return Err((answer, line));
        }
        rows[head][tail] = price;
    }
    Ok(rows)
}

// The bits of a card, the first of a number first.
fn put(bits: &mut Vec<bool>, width: u32, value: u32) {
    bits.extend((0..width).rev().map(|k| value >> k & 1 == 1));
}

fn card(list: &[u8], n: usize, root: usize, budget: u32) -> Result<Vec<u8>, (u32, usize)> {
    if n == 0 || n > 32 {
        return Err((2, 0));
    }
    if root >= n {
        return Err((4, 0));
    }
    if budget > MAX_BUDGET {
        return Err((5, 0));
    }
    let rows = read_prices(list, n, root)?;
    let mut bits = Vec::new();
    put(&mut bits, 6, n as u32);
    put(&mut bits, 5, root as u32);
    put(&mut bits, 25, budget);
    for tail in 0..n {
        for head in (0..n).filter(|&h| h != tail && h != root) {
            put(&mut bits, 20, rows[head][tail]);
            put(&mut bits, 2, 0);
        }
    }
    Ok(bits.chunks(8).map(|c| c.iter().enumerate().fold(0, |b, (k, &x)| b | u8::from(x) << (7 - k))).collect())
}

fn print_card(list: &[u8], numbers: &[u32]) {
    match card(list, numbers[0] as usize, numbers[1] as usize, numbers[2]) {
        Ok(bytes) => std::io::stdout().write_all(&bytes).expect("standard output"),
        Err((answer, 0)) => eprintln!("refused {answer}"),
        Err((answer, line)) => eprintln!("refused {answer} line {line}"),
    }
}

fn main() {
    let mut card = Vec::new();
    std::io::stdin().read_to_end(&mut card).expect("a card or a list on standard input");
    if std::env::args().nth(1).as_deref() == Some("prices") {
        let numbers: Vec<u32> = std::env::args().skip(2).map(|w| w.parse().expect("a number")).collect();
        return print_card(&card, &numbers);
    }
    let printed = match std::env::args().nth(1).as_deref() {
        Some("all") => listing(&card),
        Some("first") => text(&card, true),
        _ => text(&card, false),
    };
    std::io::stdout().write_all(printed.as_bytes()).expect("standard output");
}
