//! Our router (libexports.a) and the published Rust, on the same jobs, in one process. usage: bench ROUNDS
//!
//! A row is a mode, a number of keepouts and an answer: 8 jobs of 120 terminals. Each job is routed by both in turn, ROUNDS times,
//! and each side's figure is the least time of each job, averaged over the jobs: on a machine with others at work the least is what
//! says most about the code. Both sides start from the job's bytes and end with the four figures, or with the text, which are
//! compared first.

#[path = "../compare/driver/job.rs"]
#[allow(dead_code)]
mod job;
#[path = "../compare/driver/random.rs"]
#[allow(dead_code)]
mod random;

use job::{Job, Mode, Pt, Rect};
use physdes::generic::{Contain, MinDist};
use physdes::global_router::{GlobalRouter, GlobalRoutingTree};
use physdes::interval::{Hull, Interval};
use physdes::point::Point;
use random::Random;
use std::hint::black_box;
use std::time::Instant;

/// The C calls.
#[allow(dead_code)]
#[path = "../bindings/rust/src/calls.rs"]
mod ours;

const TERMINALS: usize = 120;
const JOBS: u64 = 8;

type Figures = (i32, u32, u32, u32);

// ---- ours

fn our_figures(bytes: &[u8]) -> Figures {
    let (mut a, mut w, mut l, mut v) = (0, 0, 0, 0);
    let answer =
        unsafe { ours::ferruleslate_figures(bytes.as_ptr(), bytes.len(), &mut a, &mut w, &mut l, &mut v) };
    assert_eq!(answer, 0);
    (a, w, l, v)
}

fn our_text(bytes: &[u8], out: &mut [u8]) -> usize {
    let wrote = unsafe { ours::ferruleslate_plan(bytes.as_ptr(), bytes.len(), out.as_mut_ptr(), out.len()) };
    usize::try_from(wrote).unwrap()
}

// ---- the Rust's

fn allowance(job: &Job) -> (i32, u32) {
    let farthest = job.terminals.iter().map(|t| job.source.min_dist_with(t)).max().unwrap_or(0);
    let allowed = match job.mode {
        Mode::Constraints(multiplier) => (farthest as f64 * multiplier).round() as i32,
        _ => i32::MAX,
    };
    (allowed, farthest)
}

/// Its router is handed no list where there is no keepout, which is the quicker way.
fn routed(job: Job) -> GlobalRouter {
    let keepouts = if job.keepouts.is_empty() { None } else { Some(job.keepouts) };
    let mut router = GlobalRouter::new(job.source, job.terminals, keepouts);
    match job.mode {
        Mode::Simple => router.route_simple(),
        Mode::Steiners => router.route_with_steiners(),
        Mode::Constraints(multiplier) => router.route_with_constraints(multiplier),
    }
    router
}

fn their_tree(bytes: &[u8]) -> (GlobalRouter, Figures) {
    let job = job::read(bytes).unwrap();
    let (allowed, farthest) = allowance(&job);
    let router = routed(job);
    let tree = router.get_tree();
    let figures = (
        allowed,
        farthest,
        tree.calculate_total_wirelength() as u32,
        tree.calculate_worst_wirelength() as u32,
    );
    (router, figures)
}

fn their_figures(bytes: &[u8]) -> Figures {
    their_tree(bytes).1
}

fn their_text(bytes: &[u8]) -> String {
    let (router, (a, w, l, v)) = their_tree(bytes);
    router.get_tree().get_tree_structure() + &format!("allowed {a} farthest {w} total {l} worst {v}\n")
}

// ---- how many branches a route examines

/// Of one search: every child of a node that is reached, and what lies below those that no keepout bars.
fn examined(tree: &GlobalRoutingTree, point: Pt, keepouts: &[Rect]) -> u64 {
    let nodes = by_index(tree);
    let (mut count, mut stack) = (0, vec![0usize]);
    while let Some(i) = stack.pop() {
        for &c in &nodes[i].1 {
            count += 1;
            let branch = nodes[i].0.hull_with(&nodes[c].0);
            let near = branch.nearest_to(&point);
            let ways = [near.hull_with(&point), near.hull_with(&nodes[i].0), near.hull_with(&nodes[c].0)];
            if !keepouts.iter().any(|k| k.contains(&near) || ways.iter().any(|w| k.blocks(w))) {
                stack.push(c);
            }
        }
    }
    count
}

/// The nodes stand in one vector, so the order of their addresses is that of their indices.
fn by_index(tree: &GlobalRoutingTree) -> Vec<(Pt, Vec<usize>)> {
    let mut nodes = vec![tree.get_source()];
    nodes.extend(tree.get_all_terminals());
    nodes.extend(tree.get_all_steiner_nodes());
    nodes.sort_by_key(|n| *n as *const _ as usize);
    nodes.iter().map(|n| (n.pt, n.children.clone())).collect()
}

/// Of a whole route in mode 1 or 2: the router's insertions again, in its order, each search counted.
fn branches(bytes: &[u8]) -> u64 {
    let (router, (allowed, ..)) = their_tree(bytes);
    let job = job::read(bytes).unwrap();
    let mut tree = GlobalRoutingTree::new(job.source);
    tree.worst_wirelength = router.get_tree().worst_wirelength;
    let mut count = 0;
    for terminal in router.get_tree().get_all_terminals() {
        count += examined(&tree, terminal.pt, &job.keepouts);
        let keepouts = Some(job.keepouts.clone());
        match job.mode {
            Mode::Simple => unreachable!("mode 0 has no search"),
            Mode::Steiners => tree.insert_terminal_with_steiner(terminal.pt, keepouts),
            Mode::Constraints(_) => tree.insert_terminal_with_constraints(terminal.pt, allowed, keepouts),
        }
    }
    assert_eq!(tree.calculate_total_wirelength(), router.get_tree().calculate_total_wirelength());
    count
}

// ---- jobs and rows

/// Where a row's terminals stand on a square of 2 km about the source: anywhere, or on a grid of 100 m, where many branches are
/// as near as another.
#[derive(Clone, Copy, PartialEq)]
enum Spread {
    Anywhere,
    Grid,
}

/// Keepouts are of up to 40 m, the multiplier is 1.
fn make_job(case: u64, mode: u8, keepouts: usize, spread: Spread) -> Vec<u8> {
    let mut random = Random::of_case(1, case);
    let mut point = || Point::new(random.between(-100_000, 100_000), random.between(-100_000, 100_000));
    let placed = |p: Pt| match spread {
        Spread::Anywhere => p,
        Spread::Grid => Point::new(p.xcoord / 10_000 * 10_000, p.ycoord / 10_000 * 10_000),
    };
    let terminals: Vec<Pt> = (0..TERMINALS).map(|_| placed(point())).collect();
    let corners: Vec<Pt> = (0..keepouts).map(|_| point()).collect();
    let mut side = || random.between(100, 4_000);
    let kept: Vec<Rect> = corners
        .iter()
        .map(|p| {
            let x = Interval::new(p.xcoord, p.xcoord + side());
            let y = Interval::new(p.ycoord, p.ycoord + side());
            Point::new(x, y)
        })
        .collect();
    let multiplier = if mode == 2 { 1f64.to_bits() } else { 0 };
    job::write(mode, multiplier, Point::new(0, 0), &terminals, &kept)
}

fn nanoseconds<T>(call: impl FnOnce() -> T) -> u64 {
    let start = Instant::now();
    black_box(call());
    start.elapsed().as_nanos() as u64
}

/// A mode, a number of keepouts, where the terminals stand, and whether the answer is text; its jobs, and the least time of each,
/// ours and the Rust's.
struct Row {
    mode: u8,
    keepouts: usize,
    spread: Spread,
    text: bool,
    jobs: Vec<Vec<u8>>,
    least: Vec<(u64, u64)>,
}

impl Row {
    fn new(mode: u8, keepouts: usize, spread: Spread, text: bool) -> Self {
        let jobs: Vec<Vec<u8>> = (0..JOBS).map(|case| make_job(case, mode, keepouts, spread)).collect();
        let least = vec![(u64::MAX, u64::MAX); jobs.len()];
        Row { mode, keepouts, spread, text, jobs, least }
    }

    /// Both sides give the same for each job.
    fn compare(&self, out: &mut [u8]) {
        for job in &self.jobs {
            assert_eq!(our_figures(job), their_figures(job));
            let wrote = our_text(job, out);
            assert_eq!(&out[..wrote], their_text(job).as_bytes());
        }
    }

    fn ours(&self, job: &[u8], out: &mut [u8]) -> u64 {
        if self.text {
            nanoseconds(|| our_text(job, out))
        } else {
            nanoseconds(|| our_figures(job))
        }
    }

    fn theirs(&self, job: &[u8]) -> u64 {
        if self.text {
            nanoseconds(|| their_text(job))
        } else {
            nanoseconds(|| their_figures(job))
        }
    }

    /// Each job once by each side; either side goes first every second time.
    fn round(&mut self, ours_first: bool, out: &mut [u8]) {
        for i in 0..self.jobs.len() {
            let job = &self.jobs[i];
            let (x, y) = if ours_first {
                let x = self.ours(job, out);
                (x, self.theirs(job))
            } else {
                let y = self.theirs(job);
                (self.ours(job, out), y)
            };
            let (a, b) = self.least[i];
            self.least[i] = (a.min(x), b.min(y));
        }
    }

    fn print(&self) {
        let jobs = self.jobs.len() as f64;
        let a = self.least.iter().map(|t| t.0 as f64).sum::<f64>() / jobs;
        let b = self.least.iter().map(|t| t.1 as f64).sum::<f64>() / jobs;
        let each = if self.mode == 0 || self.text {
            "| |".to_string()
        } else {
            let n = self.jobs.iter().map(|j| branches(j) as f64).sum::<f64>() / jobs;
            format!("{n:.0} | {:.1} | {:.1}", a / n, b / n)
        };
        let to = if self.text { "text" } else { "figures" };
        let to = if self.spread == Spread::Grid { format!("{to}, grid") } else { to.to_string() };
        println!("| {} | {} | {to} | {a:.0} | {b:.0} | {:.2} | {each} |", self.mode, self.keepouts, a / b);
    }
}

fn main() {
    let rounds: usize = std::env::args().nth(1).and_then(|w| w.parse().ok()).expect("usage: bench ROUNDS");
    let mut out = vec![0u8; 65_610];
    let mut rows = Vec::new();
    for text in [false, true] {
        for mode in [2, 1, 0] {
            for keepouts in [0, 64] {
                rows.push(Row::new(mode, keepouts, Spread::Anywhere, text));
            }
        }
    }
    for mode in [2, 1, 0] {
        rows.push(Row::new(mode, 0, Spread::Grid, false));
    }
    for row in &rows {
        row.compare(&mut out);
    }
    // every round goes through all rows, so that each row is timed over the whole run
    for round in 0..rounds {
        for row in &mut rows {
            row.round(round % 2 == 0, &mut out);
        }
    }
    println!("{JOBS} jobs of {TERMINALS} terminals in each row, {rounds} rounds; least ns for each route\n");
    println!(
        "| mode | K | to | ours | the Rust | ours / the Rust | branches | ours, each | the Rust, each |"
    );
    println!("|---|---|---|---|---|---|---|---|---|");
    for row in &rows {
        row.print();
    }
}
