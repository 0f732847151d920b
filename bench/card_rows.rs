// The rows of a table of looks: five cards of a family (cards.rs) with one kind of budget. A budget goes by the
// cheapest total of a card, which `cheapest` tells, if there is a tree: by a process or by a call, as the benchmark has
// it.
use crate::cards::{FAMILIES, FURTHER, Family, Instance, MAX_BUDGET, MAX_WEIGHT, NONE, Random};

pub type Cheapest<'a> = &'a dyn Fn(&Instance) -> Option<u32>;

// The head over the names of rows.
pub const NAMES: &str = "family            budget      n";

pub struct Row {
    pub family: &'static str,
    pub is_shuffled: bool,
    pub budget: &'static str,
    pub n: usize,
    pub instances: [Instance; 5],
}

impl Row {
    fn new(family: &Family, budget: &'static str, n: usize, instances: [Instance; 5]) -> Row {
        Row { family: family.name, is_shuffled: family.is_shuffled, budget, n, instances }
    }

    pub fn name(&self) -> String {
        let order = if self.is_shuffled { "shuffled" } else { "" };
        format!("{:<8} {order:<8} {:<10} {:>2}", self.family, self.budget, self.n)
    }
}

// With a budget of the cheapest total, a tenth more, or the largest.
pub fn with_budget(mut instance: Instance, budget: &str, cheapest: Cheapest) -> Instance {
    if let Some(v) = cheapest(&instance) {
        instance.budget = match budget {
            "tight" => v,
            "middling" => (v + v / 10).min(MAX_BUDGET),
            _ => MAX_BUDGET,
        };
    }
    instance
}

// A card whose budget is its cheapest total, with a budget one below. No budget is below 0: where 0 is the cheapest
// total, every price is raised by 1 first, which changes no state, since every tree has as many links.
pub fn below(tight: &Instance) -> Instance {
    let mut s = tight.clone();
    if s.budget == 0 {
        for w in s.weight.iter_mut().filter(|w| **w != NONE) {
            assert!(*w < MAX_WEIGHT);
            *w += 1;
        }
        s.budget = s.n as u32 - 1;
    }
    s.budget -= 1;
    s
}

pub fn rows(families: &[Family], sizes: &[usize], cheapest: Cheapest, r: &mut Random) -> Vec<Row> {
    let is_over = |s: &Instance| cheapest(s).is_some_and(|v| v > s.budget);
    let mut rows = Vec::new();
    for family in families {
        for budget in ["tight", "middling", "unlimited"] {
            for &n in sizes {
                let instances = std::array::from_fn(|_| with_budget(family.draw(r, n), budget, cheapest));
                // the same cards again, so that nothing more is drawn and every other row keeps its cards
                let over = (budget == "tight").then(|| instances.each_ref().map(below));
                rows.push(Row::new(family, budget, n, instances));
                if let Some(instances) = over {
                    assert!(instances.iter().all(is_over), "a card is not over its budget");
                    rows.push(Row::new(family, "over", n, instances));
                }
            }
        }
    }
    rows
}

// For the further families the drawing starts again from the seed, so that the other rows keep their cards.
pub fn all_rows(cheapest: Cheapest, r: &mut Random) -> Vec<Row> {
    let mut all = rows(&FAMILIES, &[8, 16, 32], cheapest, r);
    all.extend(rows(&FURTHER, &[32], cheapest, &mut Random::seeded()));
    all
}
