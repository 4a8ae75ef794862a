//! How many rounds close until the dead boards are known, beside the bounds: the
//! worst-case latency, which is proved, and two greater ones. Random plants, with the
//! library's figures over their rounds, and the slowest plants of samples/slowest.txt.
//! How many grants pass from a crash until then, beside the bound that is proved; and the
//! most where nobody is dead before, by every case.
//!
//! `latency` writes the rows of the tables of docs/latency.md anew, and its two pictures,
//! under the current folder, and prints the page; `--quick` tries less, and only prints.

use bench::detection::{random_dead, rounds_of_slowest, rounds_until_known, worst_case, Order};
use bench::grants::{self, Taken};
use bench::one_dead;
use shared::groups::{self, dimension};
use shared::random::Random;
use shared::slowest;
use std::fs::{self, File};
use std::io::Write;
use std::process::{Command, ExitCode, Stdio};
use std::thread;
use vcube::{Figures, Fraction, OneDead, Wiring, MOST_RESULTS};

const PAGE: &str = "docs/latency.md";

const SEED: u64 = 1;

/// The powers of two, and three sizes between them.
const SIZES: [usize; 9] = [2, 4, 8, 11, 16, 19, 32, 48, 64];

/// The orders of turns, the first one for a table of its own.
const ORDERS: [Order; 6] =
    [Order::Random, Order::Passes, Order::Rising, Order::Falling, Order::Delaying, Order::Driven];

/// The sizes at which grants are counted, and the greatest at which all crashes of
/// a round are tried.
const GRANT_SIZES: [usize; 6] = [4, 8, 11, 16, 32, 64];
const MOST_SEARCHED: usize = 16;

/// In how many columns the sizes stand where each has only a few figures.
const COLUMNS: usize = 3;

/// The trials of a size, at most as many as the library takes figures over; of
/// the delaying order an eighth.
fn trials(n: usize) -> usize {
    match n {
        33.. => MOST_RESULTS / 2,
        _ => MOST_RESULTS,
    }
}

/// What is said of the rounds of some trials.
struct Summary {
    /// The library's figures.
    figures: Figures,
    /// The least result that at least 99 in 100 do not exceed.
    percentile: u16,
}

impl Summary {
    /// Of as many results as the library takes.
    fn of(mut results: Vec<u16>) -> Summary {
        let figures = vcube::figures(&results).expect("a number of results that is taken");
        results.sort_unstable();
        let place = (99 * results.len()).div_ceil(100) - 1;
        Summary { figures, percentile: results[place] }
    }

    /// Mean and greatest, as a cell.
    fn mean_and_greatest(&self) -> String {
        let Figures { mean, greatest, .. } = self.figures;
        format!("{:.2}, {greatest}", mean.value())
    }
}

/// A fraction as a decimal, and behind it as it is.
fn decimal(fraction: Fraction) -> String {
    format!("{:.2} ({fraction})", fraction.value())
}

/// The results of a size, by order.
struct Results {
    n: usize,
    by_order: Vec<Summary>,
    /// On the ring, in the first order.
    on_ring: Summary,
}

/// What plants of a size took in grants from a crash.
struct Grants {
    wiring: Wiring,
    n: usize,
    random: Vec<Taken>,
    /// Each crash of a round of a fresh plant, at the smaller sizes.
    searched: Option<Vec<Taken>>,
}

/// A slowest plant and the rounds that it takes.
struct Slowest {
    n: usize,
    rounds: u32,
}

/// The slowest plants of a wiring, by the library.
fn run_slowest(wiring: Wiring) -> Result<Vec<Slowest>, String> {
    let plants = match wiring {
        Wiring::Cube => slowest::plants()?,
        Wiring::Ring => slowest::ring_plants().collect(),
    };
    let run = |plant: &slowest::Plant| {
        let n = plant.n;
        rounds_of_slowest(wiring, plant).map(|rounds| Slowest { n, rounds })
    };
    plants.iter().map(run).collect()
}

/// The rounds of the slowest plant of a size, if there is one.
fn rounds_of(slowest: &[Slowest], n: usize) -> Option<u32> {
    let plant = slowest.iter().find(|plant| plant.n == n);
    plant.map(|plant| plant.rounds)
}

fn main() -> ExitCode {
    bench::run("latency", work)
}

fn work(quick: bool) -> Result<(), String> {
    let slowest = [run_slowest(Wiring::Cube)?, run_slowest(Wiring::Ring)?];
    let results = at_once(SIZES.to_vec(), |n| try_size(n, quick));
    let grants = try_grants(quick)?;
    let one_dead = try_one_dead(quick)?;
    let failed = |error| format!("{PAGE}: {error}");
    let page = fs::read_to_string(PAGE).map_err(failed)?;
    let page = with_rows(&page, rows(&results, &grants, &one_dead))?;
    print!("{page}");
    if quick {
        return Ok(());
    }
    fs::write(PAGE, page).map_err(failed)?;
    draw_pictures(&results, &slowest, &grants)
}

/// The page with these rows in its tables, each behind a head of two lines.
fn with_rows(page: &str, rows: [String; 4]) -> Result<String, String> {
    let (mut text, mut rows, mut row) = (String::new(), rows.into_iter(), 0);
    for line in page.lines() {
        row = if line.starts_with('|') { row + 1 } else { 0 };
        if row <= 2 {
            text = text + line + "\n";
        }
        if row == 2 {
            text += &rows.next().ok_or(format!("{PAGE} has more tables"))?;
        }
    }
    match rows.next() {
        None => Ok(text),
        Some(_) => Err(format!("{PAGE} has fewer tables")),
    }
}

/// What is made of each item, all in threads of their own.
fn at_once<T: Send, R: Send>(items: Vec<T>, make: impl Fn(T) -> R + Sync) -> Vec<R> {
    let make = &make;
    thread::scope(|scope| {
        let start = |item| scope.spawn(move || make(item));
        let threads: Vec<_> = items.into_iter().map(start).collect();
        let made = threads.into_iter().map(|thread| thread.join());
        made.map(|made| made.expect("no plant stops the program")).collect()
    })
}

/// Counts grants on both wirings, or says which plant took more than is proved.
fn try_grants(quick: bool) -> Result<Vec<Grants>, String> {
    let on = |wiring| GRANT_SIZES.map(|n| (wiring, n));
    let sizes = [on(Wiring::Cube), on(Wiring::Ring)].concat();
    let all = at_once(sizes, |(wiring, n)| try_crashes(wiring, n, quick));
    all.into_iter().collect()
}

fn try_crashes(wiring: Wiring, n: usize, quick: bool) -> Result<Grants, String> {
    let mut numbers = Random::new(SEED);
    let trials = trials(n) / if quick { 20 } else { 2 };
    let random = (0..trials).map(|_| grants::random(wiring, n, &mut numbers));
    let search = || grants::search(wiring, n);
    Ok(Grants {
        wiring,
        n,
        random: random.collect::<Result<_, _>>()?,
        searched: (n <= MOST_SEARCHED).then(search).transpose()?,
    })
}

/// The most that one dead board takes on both wirings, by every case of each size from 3
/// on; quick, of those at which all crashes are tried. With two boards the other one
/// leaves. Or says which plant took more than is proved.
fn try_one_dead(quick: bool) -> Result<Vec<Option<[OneDead; 2]>>, String> {
    let try_size = |n| match n {
        3.. if !quick || n <= MOST_SEARCHED => {
            let both = at_once(vec![Wiring::Cube, Wiring::Ring], |w| one_dead::search(w, n));
            let both: Result<Vec<OneDead>, String> = both.into_iter().collect();
            both.map(|both| Some([both[0], both[1]]))
        }
        _ => Ok(None),
    };
    let all = at_once(groups::SIZES.collect(), try_size);
    all.into_iter().collect()
}

fn try_size(n: usize, quick: bool) -> Results {
    let trials = if quick { trials(n) / 20 } else { trials(n) };
    let orders = at_once(ORDERS.to_vec(), |order| try_order(Wiring::Cube, n, order, trials));
    Results { n, by_order: orders, on_ring: try_order(Wiring::Ring, n, ORDERS[0], trials) }
}

/// The same dead boards for each order and wiring, as far as its trials go.
fn try_order(wiring: Wiring, n: usize, order: Order, trials: usize) -> Summary {
    let trials = match order {
        Order::Delaying => trials / 8,
        _ => trials,
    };
    let mut boards = Random::new(SEED);
    let mut turns = Random::new(SEED + 1);
    let mut one = || {
        let dead = random_dead(n, &mut boards);
        let rounds = rounds_until_known(wiring, n, &dead, order, &mut turns);
        u16::try_from(rounds).expect("at most the worst-case latency")
    };
    Summary::of((0..trials).map(|_| one()).collect())
}

fn draw_pictures(
    results: &[Results],
    slowest: &[Vec<Slowest>; 2],
    grants: &[Grants],
) -> Result<(), String> {
    let of_size = |row: &Results| {
        let Figures { least, greatest, mean, .. } = row.by_order[0].figures;
        let (n, mean, worst_on_ring) = (row.n, mean.value(), worst_case(Wiring::Ring, row.n));
        let [cube, ring] = [0, 1].map(|wiring| or_none(rounds_of(&slowest[wiring], n), "-"));
        let (d, worst) = (dimension(n), worst_case(Wiring::Cube, n));
        let (triangle, square) = (1 + d * (d - 1) / 2, d * d);
        format!("{n} {least} {mean} {greatest} {cube} {ring} {worst} {triangle} {square} {worst_on_ring}\n")
    };
    let script = include_str!("../../pictures/rounds.gnuplot");
    let lines = results.iter().map(of_size).collect();
    draw("docs/latency.svg", "$rounds", lines, script)?;
    let both = |taken: Taken| format!("{} {}", taken.grants, taken.bound);
    let of_plants = |row: &Grants| {
        let searched = row.searched.as_ref().map(|all| both(grants::nearest(all)));
        let (searched, random) = (searched.unwrap_or("- -".into()), grants::nearest(&row.random));
        let (wiring, n) = (row.wiring, row.n);
        format!("\"{wiring} {n}\" {searched} {}\n", both(random))
    };
    let script = include_str!("../../pictures/grants.gnuplot");
    let lines = grants.iter().map(of_plants).collect();
    draw("docs/latency-grants.svg", "$grants", lines, script)
}

/// The number, or what stands for none.
fn or_none(number: Option<u32>, none: &str) -> String {
    number.map_or(none.into(), |number| number.to_string())
}

/// Draws these lines by a script that has them under this name.
fn draw(path: &str, name: &str, lines: String, script: &str) -> Result<(), String> {
    let drawn = || {
        let mut gnuplot =
            Command::new("gnuplot").stdin(Stdio::piped()).stdout(File::create(path)?).spawn()?;
        let text = format!("{name} << END\n{lines}END\n{script}");
        gnuplot.stdin.take().expect("a pipe").write_all(text.as_bytes())?;
        gnuplot.wait()
    };
    match drawn() {
        Ok(status) if status.success() => Ok(()),
        Ok(status) => Err(format!("{path}: gnuplot ended with {status}")),
        Err(error) => Err(format!("{path}: {error}")),
    }
}

/// The rows of each table.
fn rows(results: &[Results], grants: &[Grants], one_dead: &[Option<[OneDead; 2]>]) -> [String; 4] {
    [
        results.iter().map(row_of_size).collect(),
        results.iter().map(row_of_orders).collect(),
        grants.iter().map(row_of_grants).collect(),
        rows_of_one_dead(one_dead),
    ]
}

fn row_of_size(row: &Results) -> String {
    let (n, worst) = (row.n, worst_case(Wiring::Cube, row.n));
    let Summary { figures, percentile } = &row.by_order[0];
    let (mean, variance) = (decimal(figures.mean), decimal(figures.variance));
    let greatest = figures.greatest;
    format!("| {n} | {mean} | {variance} | {percentile} | {greatest} | {worst} |\n")
}

/// The orders behind the first one, then the ring.
fn row_of_orders(row: &Results) -> String {
    let others = row.by_order[1..].iter().chain([&row.on_ring]);
    let cells: Vec<String> = others.map(Summary::mean_and_greatest).collect();
    format!("| {} | {} |\n", row.n, cells.join(" | "))
}

fn row_of_grants(row: &Grants) -> String {
    let (wiring, n) = (row.wiring, row.n);
    let searched = row.searched.as_ref().map_or(String::from("– | –"), |all| {
        format!("{} | {}", all.len(), grants::greatest(all).grants)
    });
    let proved = grants::bound_of_first_crash(wiring, n);
    let greatest = grants::greatest(&row.random).grants;
    let Taken { grants, bound } = grants::nearest(&row.random);
    format!("| {wiring} | {n} | {searched} | {proved} | {greatest} | {grants} of {bound} |\n")
}

/// The sizes by columns, each with its figures on the cube.
fn rows_of_one_dead(one_dead: &[Option<[OneDead; 2]>]) -> String {
    let cells = |(n, both): (usize, &Option<[OneDead; 2]>)| match both {
        Some([cube, _]) => format!("| {n} | {} | {} ", cube.grants, cube.rounds),
        None => format!("| {n} | – | – "),
    };
    let cells: Vec<String> = groups::SIZES.zip(one_dead).map(cells).collect();
    let height = cells.len().div_ceil(COLUMNS);
    let row = |k: usize| cells[k..].iter().step_by(height).map(String::as_str);
    (0..height).map(|k| row(k).collect::<String>() + "|\n").collect()
}
