// The baseline that the request names: Kruskal's algorithm in plain Rust, from document 02 alone, "with a replanning
// for each run". A planning is a whole one: it reads the lists, sorts the runs with the pinned ones first, and joins
// groups by union-find. A run in the tree is planned without, any other with it pinned. kruskal.rs has a quicker one
// beside it.
use crate::kruskal::{NO_REPLACEMENT, NO_RUN, NOT_IN_TREE, View, refusal};

const PINNED: u8 = 1;
const BANNED: u8 = 2;

type Pair = (usize, usize);

fn find(parent: &mut [usize], mut v: usize) -> usize {
    while parent[v] != v {
        parent[v] = parent[parent[v]];
        v = parent[v];
    }
    v
}

// The cheapest tree with one run pinned and one left out, if there is a tree: its total and its runs.
fn planned(
    prices: &[u32],
    marks: &[u8],
    n: usize,
    pinned: Option<Pair>,
    left_out: Option<Pair>,
) -> Option<(u32, Vec<Pair>)> {
    let mut runs = Vec::new();
    for i in 0..n {
        for j in i + 1..n {
            let (price, mark) = (prices[i * n + j], marks[i * n + j]);
            if price != NO_RUN && mark != BANNED && left_out != Some((i, j)) {
                let is_free = mark != PINNED && pinned != Some((i, j));
                runs.push((is_free, price, i, j));
            }
        }
    }
    runs.sort_unstable();
    let mut parent: Vec<usize> = (0..n).collect();
    let (mut total, mut tree) = (0, Vec::new());
    for (is_free, price, i, j) in runs {
        let (a, b) = (find(&mut parent, i), find(&mut parent, j));
        if a != b {
            parent[a] = b;
            total += price;
            tree.push((i, j));
        } else if !is_free {
            return None;
        }
    }
    (tree.len() == n - 1).then_some((total, tree))
}

pub fn plan_runs(
    prices: &[u32],
    marks: &[u8],
    n: u32,
    budget: u32,
    states: &mut [u8],
    replacements: &mut [u32],
) -> View {
    let n = n as usize;
    let answer = refusal(prices, marks, n, states.len(), replacements.len());
    if answer != 0 {
        return View::Refused(answer);
    }
    for k in 0..n * n {
        states[k] = u8::from(k / n != k % n && prices[k] != NO_RUN);
    }
    replacements[..n * n].fill(NOT_IN_TREE);
    let Some((total, tree)) = planned(prices, marks, n, None, None) else { return View::NoTree };
    let bound = budget.max(total);
    for (i, j) in (0..n).flat_map(|i| (i + 1..n).map(move |j| (i, j))) {
        let (price, mark) = (prices[i * n + j], marks[i * n + j]);
        if price == NO_RUN || mark == BANNED {
            continue;
        }
        let state = if tree.contains(&(i, j)) {
            let other = if mark == PINNED { None } else { planned(prices, marks, n, None, Some((i, j))) };
            let cost = other.as_ref().map_or(NO_REPLACEMENT, |(w, _)| w - total);
            replacements[i * n + j] = cost;
            replacements[j * n + i] = cost;
            if other.is_some_and(|(w, _)| w <= bound) { 2 } else { 3 }
        } else if planned(prices, marks, n, Some((i, j)), None).is_some_and(|(w, _)| w <= bound) {
            2
        } else {
            1
        };
        states[i * n + j] = state;
        states[j * n + i] = state;
    }
    if total > budget { View::Over(total) } else { View::Plan(total) }
}
