//! Our C calls against the Rust's router, job by job, through the static library of exports: text, tree bytes and
//! figures, refusals among them; buffers past what was written, and buffers a byte too short. Usage: calls SEED CASES.

#[allow(dead_code)]
mod job;
mod make_jobs;
mod random;
#[allow(dead_code)]
mod route;
#[allow(dead_code)]
mod tree;

use std::process::ExitCode;
use std::sync::atomic::{AtomicU64, Ordering};

/// The C calls.
#[path = "../../bindings/rust/src/calls.rs"]
mod ours;

type Writer = unsafe extern "C" fn(*const u8, usize, *mut u8, usize) -> i64;

const MOST: usize = 65_610;
const NO_ROOM: i64 = -11;

/// What stands in the buffers that are lent: any byte will do.
const FILLER: u8 = 0xA5;

/// The call writes `expected` from the buffer's start and leaves the rest; in a byte less it answers 11 and writes nothing.
fn writes(call: Writer, job: &[u8], expected: &[u8]) -> bool {
    let lent = |length: usize| {
        let mut out = vec![FILLER; length];
        let answer = unsafe { call(job.as_ptr(), job.len(), out.as_mut_ptr(), out.len()) };
        (answer, out)
    };
    let (answer, out) = lent(MOST);
    let whole = answer == expected.len() as i64
        && out.starts_with(expected)
        && out[expected.len()..].iter().all(|b| *b == FILLER);
    let (answer, out) = lent(expected.len() - 1);
    whole && answer == NO_ROOM && out.iter().all(|b| *b == FILLER)
}

/// The call answers the job's refusal, and the buffer is as it was.
fn refuses(call: Writer, job: &[u8], refusal: i64) -> bool {
    let mut out = vec![FILLER; MOST];
    let answer = unsafe { call(job.as_ptr(), job.len(), out.as_mut_ptr(), out.len()) };
    answer == -refusal && out.iter().all(|b| *b == FILLER)
}

fn figures(job: &[u8]) -> (i64, String) {
    let (mut a, mut w, mut l, mut v) = (-1, 1, 1, 1);
    let answer =
        unsafe { ours::ferruleslate_figures(job.as_ptr(), job.len(), &mut a, &mut w, &mut l, &mut v) };
    (answer, format!("allowed {a} farthest {w} total {l} worst {v}\n"))
}

/// All three calls agree with the Rust.
fn agrees(job: &[u8], text: &str, bytes: &[u8]) -> bool {
    let planned = writes(ours::ferruleslate_plan, job, text.as_bytes());
    let (answer, line) = figures(job);
    match text.strip_prefix("refused ") {
        Some(number) => {
            let refusal = number.trim_end().parse().unwrap();
            let untouched = line == "allowed -1 farthest 1 total 1 worst 1\n";
            planned && refuses(ours::ferruleslate_tree_bytes, job, refusal) && answer == -refusal && untouched
        }
        None => {
            planned
                && writes(ours::ferruleslate_tree_bytes, job, bytes)
                && answer == 0
                && text.ends_with(&line)
        }
    }
}

fn main() -> ExitCode {
    let words: Vec<u64> = std::env::args().skip(1).map(|w| w.parse().expect("a number")).collect();
    let [seed, cases] = words[..] else { panic!("usage: calls SEED CASES") };
    let (next, refused, found) = (AtomicU64::new(0), AtomicU64::new(0), AtomicU64::new(0));
    let work = || loop {
        let case = next.fetch_add(1, Ordering::Relaxed);
        if case >= cases {
            break;
        }
        let job = make_jobs::job(seed, case);
        let (text, bytes) = route::answer(&job);
        refused.fetch_add(u64::from(bytes.is_empty()), Ordering::Relaxed);
        if !agrees(&job, &text, &bytes) {
            found.fetch_add(1, Ordering::Relaxed);
            println!("case {case} differs");
        }
    };
    let threads = std::thread::available_parallelism().map_or(1, |n| n.get());
    std::thread::scope(|scope| (0..threads).for_each(|_| drop(scope.spawn(work))));
    let (refused, found) = (refused.into_inner(), found.into_inner());
    println!("seed {seed}: {cases} jobs, {refused} of them refused, {found} differences");
    if found == 0 {
        ExitCode::SUCCESS
    } else {
        ExitCode::FAILURE
    }
}
