//! Runs one of our programs on generated input and compares what it writes with the Rust.

use std::io::{Read, Write};
use std::process::{Command, Stdio};
use std::sync::atomic::{AtomicU64, Ordering};

fn output_of(program: &str, input: &[u8]) -> Vec<u8> {
    let mut child = Command::new(program)
        .stdin(Stdio::piped())
        .stdout(Stdio::piped())
        .spawn()
        .unwrap_or_else(|e| panic!("{program}: {e}"));
    let mut to_child = child.stdin.take().unwrap();
    let mut from_child = child.stdout.take().unwrap();
    let mut output = Vec::new();
    std::thread::scope(|scope| {
        // a program may stop reading early: the pipe then breaks, and that is no fault
        scope.spawn(move || to_child.write_all(input).ok());
        from_child.read_to_end(&mut output).unwrap();
    });
    child.wait().unwrap();
    output
}

/// Equal; or equal up to where the Rust no longer decides.
fn agrees(expected: &str, output: &[u8]) -> bool {
    match expected.strip_suffix("no oracle\n") {
        Some(decided) => output.starts_with(decided.as_bytes()),
        None => output == expected.as_bytes(),
    }
}

/// Cases 0 to `cases` - 1 of the seed, spread over the machine's processors. Each difference is
/// kept in `differences` as CASE.in, CASE.expected and CASE.got. The number of differences.
pub fn compare(
    (seed, cases): (u64, u64),
    program: &str,
    differences: &str,
    make: impl Fn(u64, u64) -> Vec<u8> + Sync,
    answer: impl Fn(&[u8]) -> String + Sync,
) -> u64 {
    let (next, refused, found) = (AtomicU64::new(0), AtomicU64::new(0), AtomicU64::new(0));
    let work = || loop {
        let case = next.fetch_add(1, Ordering::Relaxed);
        if case >= cases {
            break;
        }
        let input = make(seed, case);
        let expected = answer(&input);
        if expected.starts_with("refused") {
            refused.fetch_add(1, Ordering::Relaxed);
        }
        let output = output_of(program, &input);
        if !agrees(&expected, &output) {
            found.fetch_add(1, Ordering::Relaxed);
            std::fs::create_dir_all(differences).unwrap();
            let keep = |suffix: &str, bytes: &[u8]| {
                std::fs::write(format!("{differences}/{case}.{suffix}"), bytes).unwrap()
            };
            keep("in", &input);
            keep("expected", expected.as_bytes());
            keep("got", &output);
        }
    };
    let threads = std::thread::available_parallelism().map_or(1, |n| n.get());
    std::thread::scope(|scope| (0..threads).for_each(|_| drop(scope.spawn(work))));
    let (refused, found) = (refused.into_inner(), found.into_inner());
    println!("seed {seed}: {cases} cases, {refused} of them refused at the start, {found} differences");
    found
}
