// Runs the planner's print_plan and the baseline on the same cards (cards.rs) in turn, checks that they print the same
// text, and prints times and ratios; the same for print_listing, and for print_card on price lists. With `against
// BEFORE`, a print_plan of another commit, it compares print_plan with that and does nothing else; with `prices` it
// does the price lists and nothing else. Arguments: PRINT_PLAN PRINT_LISTING PRINT_CARD PRINT_PRICES BASELINE [prices |
// against BEFORE] [valgrind]. A time is that of a whole process, its start included (but for those of an answer, of a
// listing and of a price list): the least of several runs, since other processes only add to it. Under valgrind it also
// prints what no clock shows: plannings, the deepest stack, and the instructions of a process after its start.
mod card_rows;
mod cards;

use card_rows::{NAMES, Row, all_rows, below, with_budget};
use cards::{Instance, MAX_BUDGET, MAX_WEIGHT, Random, dense, equal, nested, sparse};
use std::fs::{self, File};
use std::io::{Read, Write};
use std::process::{Command, Stdio};
use std::thread::sleep;
use std::time::{Duration, Instant};

const CARD: &str = "target/bench/card";

// How often each program answers each card when looks are compared.
const ANSWERS: usize = 60;

// A program with its arguments, if it has any, behind spaces.
fn command(program: &str) -> Command {
    let mut words = program.split(' ');
    let mut command = Command::new(words.next().unwrap());
    command.args(words);
    command
}

fn run(program: &str, card: &str) -> String {
    let out = command(program).stdin(File::open(card).unwrap()).output().expect(program);
    String::from_utf8(out.stdout).unwrap()
}

fn time(program: &str, card: &str) -> f64 {
    let mut run = command(program);
    run.stdin(File::open(card).unwrap()).stdout(Stdio::null()).stderr(Stdio::null());
    let start = Instant::now();
    let status = run.status().expect(program);
    assert!(status.success());
    start.elapsed().as_secs_f64() * 1000.0
}

// The outcome and the rows: before request A10 any cheapest tree could be shown, so the feed lines are left out.
fn fixed(text: &str) -> Vec<&str> {
    text.lines().filter(|l| !l.starts_with("feed ")).collect()
}

// The cheapest total of an instance, by the baseline.
fn cheapest(base: &str) -> impl Fn(&Instance) -> Option<u32> + '_ {
    move |instance| {
        fs::write(CARD, instance.card()).unwrap();
        let text = run(base, CARD);
        let line = text.lines().nth(1)?;
        line.strip_prefix("plan ").or(line.strip_prefix("over "))?.parse().ok()
    }
}

fn valgrind(tool: &[&str], program: &str, card: &str) {
    Command::new("valgrind")
        .args(tool)
        .args(program.split(' '))
        .stdin(File::open(card).unwrap())
        .stdout(Stdio::null())
        .stderr(Stdio::null())
        .status()
        .expect("valgrind");
}

// How often the planner was called, and the instructions of `main` with all that it calls.
fn count(program: &str, card: &str) -> (u64, u64) {
    let out = "target/bench/callgrind";
    valgrind(&["--tool=callgrind", &format!("--callgrind-out-file={out}")], program, card);
    let text = fs::read_to_string(out).unwrap();
    let mut names = std::collections::HashMap::new();
    let (mut plannings, mut instructions) = (0, 0);
    let (mut callee, mut after_calls) = (String::new(), false);
    for line in text.lines() {
        if let Some(rest) = line.strip_prefix("cfn=").or(line.strip_prefix("fn=")) {
            let (id, name) = rest.split_once(' ').unwrap_or((rest, ""));
            if !name.is_empty() {
                names.insert(id.to_string(), name.to_string());
            }
            if line.starts_with("cfn=") {
                callee = names.get(id).cloned().unwrap_or_default();
            }
        } else if let Some(rest) = line.strip_prefix("calls=") {
            if callee.contains("plan_matrix") {
                plannings += rest.split(' ').next().unwrap().parse::<u64>().unwrap();
            }
            after_calls = true;
            continue;
        } else if after_calls && callee == "main" {
            instructions += line.split(' ').next_back().unwrap().parse::<u64>().unwrap();
        }
        after_calls = false;
    }
    assert!(instructions > 0, "callgrind names no main");
    (plannings, instructions)
}

fn peak_stack(program: &str, card: &str) -> u64 {
    let out = "target/bench/massif";
    valgrind(&["--tool=massif", "--stacks=yes", &format!("--massif-out-file={out}")], program, card);
    let text = fs::read_to_string(out).unwrap();
    text.lines().filter_map(|l| l.strip_prefix("mem_stacks_B=")?.parse().ok()).max().unwrap()
}

// The least of several runs of each program in turn.
fn times(base: &str, ours: &str) -> (f64, f64) {
    let (mut p, mut q) = (f64::MAX, f64::MAX);
    for _ in 0..15 {
        p = p.min(time(base, CARD));
        q = q.min(time(ours, CARD));
    }
    (p, q)
}

// The columns of a row: means of the times of five cards; under valgrind also the most plannings, the deepest stack and
// the mean of the instructions. What is not measured has no column.
fn columns(ours: &str, base: &str, deep: bool, instances: &[Instance; 5]) -> String {
    let (mut a, mut b, mut plannings, mut stack, mut instructions) = (0.0, 0.0, 0, 0, 0);
    for instance in instances {
        fs::write(CARD, instance.card()).unwrap();
        assert_eq!(run(&format!("{base} first"), CARD), run(ours, CARD));
        let (p, q) = times(base, ours);
        a += p / 5.0;
        b += q / 5.0;
        if deep {
            let (calls, all) = count(ours, CARD);
            assert!(calls > 0, "callgrind names no plan_matrix");
            plannings = plannings.max(calls);
            instructions += all / 5;
            stack = stack.max(peak_stack(ours, CARD));
        }
    }
    let line = format!("{a:>12.2} {b:>14.2} {:>6.2}", b / a);
    if deep { format!("{line} {plannings:>10} {stack:>12} {instructions:>13}") } else { line }
}

// From the last byte of a card to the answer, in ms: the process has started and waits for that byte, so its start,
// which is many times an opening, is not in it.
fn answer_time(program: &str, card: &[u8]) -> f64 {
    let mut child = Command::new(program).stdin(Stdio::piped()).stdout(Stdio::piped()).spawn().expect(program);
    let (mut input, mut output) = (child.stdin.take().unwrap(), child.stdout.take().unwrap());
    let (front, last) = card.split_at(card.len().saturating_sub(1));
    input.write_all(front).unwrap();
    sleep(Duration::from_millis(2));
    let start = Instant::now();
    input.write_all(last).unwrap();
    drop(input);
    let bytes = output.read(&mut [0; 64]).unwrap();
    let took = start.elapsed().as_secs_f64() * 1000.0;
    assert!(bytes > 0 && child.wait().unwrap().success());
    took
}

// The least of several runs of each program on its card, in ms: all in turn, so that a slow spell of the machine spoils
// none alone.
fn least_answers(runs: usize, pairs: &[(&str, &[u8])]) -> Vec<f64> {
    let mut least = vec![f64::MAX; pairs.len()];
    for _ in 0..runs {
        for (k, &(program, card)) in pairs.iter().enumerate() {
            least[k] = least[k].min(answer_time(program, card));
        }
    }
    least
}

// The longest card of each kind with a fault at its very end, so that all of it is read and nothing is planned: a
// filling bit of 1 on a plain card, a last mark of 3 on a history card. From times and instructions those of a
// process that is handed no byte are taken off. Under valgrind also the deepest stack of nested cycles on both kinds.
fn opening(ours: &str, deep: bool, r: &mut Random) {
    let s = dense(r, 32);
    let (mut plain, mut history) = (s.card(), s.history_card());
    *plain.last_mut().unwrap() |= 1;
    *history.last_mut().unwrap() |= 3;
    let cards =
        [("no byte", "refused 1\n", vec![]), ("plain", "refused 8\n", plain), ("history", "refused 27\n", history)];
    let file = |k: usize| format!("{CARD}{k}");
    for (k, (_, refusal, card)) in cards.iter().enumerate() {
        fs::write(file(k), card).unwrap();
        assert_eq!(run(ours, &file(k)), *refusal);
    }
    let least = least_answers(1000, &cards.each_ref().map(|(_, _, card)| (ours, &card[..])));
    let more = if deep { "  instructions  stack bytes" } else { "" };
    println!("opening  bytes  print_plan ms{more}");
    let start = if deep { count(ours, &file(0)).1 } else { 0 };
    let mut instructions = [0; 3];
    for (k, (name, _, card)) in cards.iter().enumerate().skip(1) {
        print!("{name:<8} {:>5} {:>14.3}", card.len(), least[k] - least[0]);
        if deep {
            instructions[k] = count(ours, &file(k)).1 - start;
            print!(" {:>13} {:>12}", instructions[k], peak_stack(ours, &file(k)));
        }
        println!();
    }
    print!("ratio {:>23.1}", (least[2] - least[0]) / (least[1] - least[0]));
    if !deep {
        return println!();
    }
    let ratio = instructions[2] as f64 / instructions[1] as f64;
    println!(" {ratio:>13.2}");
    assert!(ratio <= 10.0, "a history card takes too long to open");
    let deepest = nested(r, 32);
    for (name, card) in [("plain", deepest.card()), ("history", deepest.history_card())] {
        fs::write(CARD, card).unwrap();
        assert!(run(ours, CARD).lines().nth(1).is_some_and(|l| l.starts_with("plan ")));
        println!("nested cycles, {name:<8} {:>32}", peak_stack(ours, CARD));
    }
}

// The least of several runs of each program on two cards, with the first card's times taken off the second's: all four
// in turn, so that a slow spell of the machine spoils none alone.
fn times_after(runs: usize, base: &str, ours: &str, start: &str, card: &str) -> (f64, f64) {
    let mut least = [f64::MAX; 4];
    for _ in 0..runs {
        for (k, &(program, card)) in [(base, start), (ours, start), (base, card), (ours, card)].iter().enumerate() {
            least[k] = least[k].min(time(program, card));
        }
    }
    (least[2] - least[0], least[3] - least[1])
}

// One line of the listings' table: both print the same text, so they have made the same tries. From the times those of
// a listing of one vertex are taken off; where hardly anything is left, a ratio would say nothing.
fn listing_row(ours: &str, base: &str, deep: bool, instance: &Instance) -> String {
    let start = format!("{CARD}0");
    fs::write(&start, Instance::new(1, 0).card()).unwrap();
    fs::write(CARD, instance.card()).unwrap();
    let text = run(ours, CARD);
    assert_eq!(text, run(base, CARD));
    let words: Vec<&str> = text.lines().nth(1).unwrap().split(' ').collect();
    let (p, q) = times_after(15, base, ours, &start, CARD);
    let ratio = if p < 0.2 { "-".to_string() } else { format!("{:.2}", q / p) };
    let line = format!("{:<8} {:>5} {:>8} {p:>12.2} {q:>17.2} {ratio:>6}", words[0], words[2], words[4]);
    if deep { format!("{line} {:>12}", peak_stack(ours, CARD)) } else { line }
}

// All plans, to 1,000,000 tries or to the end. With a budget below the cheapest total no tree is listed, so that
// nothing but the walk is timed; with the largest one the trees fill the room after few tries, and mostly printing is
// timed.
fn listings(ours: &str, base: &str, deep: bool, r: &mut Random) {
    let walks = format!("{base} all");
    let more = if deep { "  stack bytes" } else { "" };
    println!("family   budget      n ended    trees    tries  baseline ms  print_listing ms  ratio{more}");
    let families: [(&str, fn(&mut Random, usize) -> Instance); 3] =
        [("dense", dense), ("sparse", sparse), ("equal", equal)];
    for (name, make) in families {
        for n in [8, 16, 32] {
            let instance = below(&with_budget(make(r, n), "tight", &cheapest(base)));
            println!("{name:<8} {:<10} {n:>2} {}", "below", listing_row(ours, &walks, deep, &instance));
        }
    }
    for n in [8, 16, 32] {
        println!("{:<8} {:<10} {n:>2} {}", "dense", "unlimited", listing_row(ours, &walks, deep, &dense(r, n)));
    }
}

// What a program writes and what it says on standard error.
fn outputs(program: &str, list: &str) -> (Vec<u8>, String) {
    let out = command(program).stdin(File::open(list).unwrap()).output().expect(program);
    (out.stdout, String::from_utf8(out.stderr).unwrap())
}

// One line of the price lists' table. From times and instructions those of the empty list are taken off, of a refused
// list those of an empty line, which is refused at once; where hardly any time is left, a ratio would say nothing.
// `said` is what print_card says on standard error; the baseline says the same but of a line that is too long, which it
// reads to its end.
fn price_row(ours: &str, base: &str, deep: bool, list: &str, said: &str) -> String {
    let start = format!("{CARD}0");
    fs::write(&start, if said.is_empty() { "" } else { "\n" }).unwrap();
    fs::write(CARD, list).unwrap();
    let (card, words) = outputs(ours, CARD);
    assert_eq!(words, said);
    let (other, same) = outputs(base, CARD);
    assert!(other == card && (same == said || said.starts_with("refused long")));
    let (p, q) = times_after(200, base, ours, &start, CARD);
    let lines = list.bytes().filter(|&b| b == b'\n').count();
    let ratio = if p < 0.02 { "-".to_string() } else { format!("{:.2}", q / p) };
    let line = format!("{lines:>7} {:>9} {p:>12.3} {q:>14.3} {ratio:>6}", list.len());
    if !deep {
        return line;
    }
    let [p, q] = [base, ours].map(|program| count(program, CARD).1 - count(program, &start).1);
    format!("{line} {p:>13} {q:>11} {:>6.2} {:>12}", q as f64 / p as f64, peak_stack(ours, CARD))
}

// Price lists of 32 positions into cards: lists of several lengths, a text of 100,000 lines, of which the first 961 are
// a list and all others name a link again, and a price of 1,000,000 digits. Under valgrind also the deepest stack of
// print_prices, at the longest card.
fn price_lists(ours: &str, back: &str, base: &str, deep: bool, r: &mut Random) {
    let (ours, base) = (format!("{ours} 32 0 {MAX_BUDGET}"), format!("{base} prices 32 0 {MAX_BUDGET}"));
    let mut s = dense(r, 32);
    s.root = 0;
    s.weight.iter_mut().for_each(|w| *w = (*w).min(MAX_WEIGHT));
    let more = if deep { "  instructions: baseline, ours, ratio  stack bytes" } else { "" };
    println!("price list            lines     bytes  baseline ms  print_card ms  ratio{more}");
    for lines in [100, 200, 400, 961] {
        println!("{:<18} {}", "accepted", price_row(&ours, &base, deep, &s.prices(lines), ""));
    }
    let whole = s.prices(961);
    let many: String = whole.lines().cycle().take(100_000).map(|l| format!("{l}\n")).collect();
    println!("{:<18} {}", "100,000 lines", price_row(&ours, &base, deep, &many, "refused 20 line 962\n"));
    let long = format!("0 1 {}\n", "7".repeat(1_000_000));
    println!("{:<18} {}", "1,000,000 digits", price_row(&ours, &base, deep, &long, "refused long line 1\n"));
    if deep {
        fs::write(CARD, s.history_card()).unwrap();
        println!("print_prices, the longest card: stack {} bytes", peak_stack(back, CARD));
    }
}

// The looks of two programs at the same five cards, the one of before first. Times are the means of their answers, in
// microseconds; `starts` are those of a card of one vertex, in turn with them.
struct Looks {
    starts: [f64; 2],
    times: [f64; 2],
    instructions: [u64; 2],
    plannings: [u64; 2],
}

// One program answers all cards before the other does: with the two in turn at each card the second takes less time, as
// the same program against itself shows. Both must show the same outcome and states.
fn looks(programs: [&str; 2], deep: bool, row: &Row) -> Looks {
    let one = Instance::new(1, 0);
    let cards: Vec<Vec<u8>> = std::iter::once(&one).chain(&row.instances).map(Instance::card).collect();
    let pairs: Vec<(&str, &[u8])> = programs.iter().flat_map(|&p| cards.iter().map(move |c| (p, &c[..]))).collect();
    let least = least_answers(ANSWERS, &pairs);
    let mut looks = Looks { starts: [0.0; 2], times: [0.0; 2], instructions: [0; 2], plannings: [0; 2] };
    for (k, least) in least.chunks(cards.len()).enumerate() {
        looks.starts[k] = 1000.0 * least[0];
        looks.times[k] = 1000.0 * least[1..].iter().sum::<f64>() / 5.0;
    }
    for card in &cards[1..] {
        fs::write(CARD, card).unwrap();
        assert_eq!(fixed(&run(programs[0], CARD)), fixed(&run(programs[1], CARD)));
        for k in (0..2).filter(|_| deep) {
            let (calls, all) = count(programs[k], CARD);
            looks.instructions[k] += all / 5;
            looks.plannings[k] = looks.plannings[k].max(calls);
        }
    }
    looks
}

// The ratios of the times, of the times above those of one vertex, and, if they were counted, of the instructions.
fn ratios(looks: &Looks) -> [f64; 3] {
    let above = |k: usize| looks.times[k] - looks.starts[k];
    let instructions = looks.instructions.map(|c| c as f64);
    [looks.times[1] / looks.times[0], above(1) / above(0), instructions[1] / instructions[0]]
}

fn looks_line(looks: &Looks, deep: bool) -> String {
    let ([p, q], [u, v], r) = (looks.times, looks.starts, ratios(looks));
    let line = format!("{p:>10.1} {q:>8.1} {:>6.2} {:>7.1} {:>9.1} {:>8.1} {:>6.2}", r[0], q - p, p - u, q - v, r[1]);
    if !deep {
        return line;
    }
    let ([i, j], [k, l]) = (looks.instructions, looks.plannings);
    format!("{line} {i:>10} {j:>9} {:>6.2} {k:>7} {l:>6}", r[2])
}

fn looks_head(deep: bool) {
    let mut groups = format!("{:<32}answer, us                         above one vertex, us", "");
    let mut names = format!("{NAMES}     before    after  ratio    more    before    after  ratio");
    if deep {
        groups.push_str("       instructions               plannings");
        names.push_str("     before     after  ratio  before  after");
    }
    println!("{groups}\n{names}");
}

// Against the print_plan of another commit, at the cards of 32 vertices.
fn against(before: &str, after: &str, base: &str, deep: bool) {
    looks_head(deep);
    let mut largest = [[0.0; 3]; 2];
    for row in all_rows(&cheapest(base), &mut Random::seeded()).iter().filter(|row| row.n == 32) {
        let looks = looks([before, after], deep, row);
        println!("{} {}", row.name(), looks_line(&looks, deep));
        for (most, ratio) in largest[usize::from(row.is_shuffled)].iter_mut().zip(ratios(&looks)) {
            *most = ratio.max(*most);
        }
    }
    for (name, [whole, above, instructions]) in ["plain", "shuffled"].iter().zip(largest) {
        print!("largest ratio, {name:<8} {whole:>6.2}, above one vertex {above:>6.2}");
        println!("{}", if deep { format!(", instructions {instructions:>6.2}") } else { String::new() });
    }
}

fn table(ours: &str, base: &str, deep: bool, r: &mut Random) {
    fs::write(CARD, Instance::new(1, 0).card()).unwrap();
    let (p, q) = times(base, ours);
    println!("one vertex, that is the start of the process: baseline {p:.2} ms, print_plan {q:.2} ms");
    let more = if deep { "  plannings  stack bytes  instructions" } else { "" };
    println!("{NAMES}  baseline ms  print_plan ms  ratio{more}");
    for row in all_rows(&cheapest(base), r) {
        println!("{} {}", row.name(), columns(ours, base, deep, &row.instances));
    }
}

fn main() {
    let args: Vec<String> = std::env::args().collect();
    let [ours, listing, card, prices, base] = &args[1..6] else { panic!("five programs") };
    let deep = args.last().is_some_and(|a| a == "valgrind");
    fs::create_dir_all("target/bench").unwrap();
    match args.get(6).map(String::as_str) {
        Some("against") => return against(&args[7], ours, base, deep),
        Some("prices") => return price_lists(card, prices, base, deep, &mut Random::seeded()),
        _ => {}
    }
    let mut random = Random::seeded();
    table(ours, base, deep, &mut random);
    // after the table, so that every row above keeps its cards
    opening(ours, deep, &mut random);
    // a seed of its own: an opening draws more under valgrind
    listings(listing, base, deep, &mut Random::seeded());
    price_lists(card, prices, base, deep, &mut Random::seeded());
}
