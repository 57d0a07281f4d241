//! The published Rust, asked what document 01 asks of our programs. README.md has the commands.

mod against;
mod edits;
mod job;
mod make_jobs;
mod make_scripts;
mod random;
mod route;
mod samples;
mod script;
mod survey;
mod tree;

use std::io::{Read, Write};
use std::process::ExitCode;

const USAGE: &str = "usage: oracle job | bytes | script     (standard input to standard output)
       oracle samples
       oracle make-job SEED CASE | make-script SEED CASE
       oracle replay SEED JOBS SCRIPTS
       oracle compare-jobs SEED CASES PROGRAM DIFFERENCES
       oracle compare-edits SEED CASES PROGRAM DIFFERENCES";

fn standard_input() -> Vec<u8> {
    let mut bytes = Vec::new();
    std::io::stdin().read_to_end(&mut bytes).unwrap();
    bytes
}

fn answers(script: &[u8]) -> String {
    edits::answers(script).unwrap_or_else(|| "no script\n".to_string())
}

/// A case for `replay`: its length, its parts' lengths, the parts.
fn put_case(out: &mut Vec<u8>, parts: &[&[u8]]) {
    let parts_length: usize = parts.iter().map(|part| 4 + part.len()).sum();
    out.extend((parts_length as u32).to_le_bytes());
    out.extend(parts.iter().flat_map(|part| (part.len() as u32).to_le_bytes()));
    out.extend(parts.concat());
}

/// The paper's cases, and as many of the seed's as make the numbers full: first jobs, then scripts
/// that the Rust decides to their end. On standard error what they cover.
fn replay(seed: u64, (job_count, script_count): (u64, u64)) -> Vec<u8> {
    let generated = (0..).map(|case| make_jobs::job(seed, case));
    let jobs: Vec<_> = samples::jobs().into_iter().chain(generated).take(job_count as usize).collect();
    let generated = (0..).map(|case| make_scripts::script(seed, case));
    let decided = |script: &Vec<u8>| !answers(script).ends_with("no oracle\n");
    let scripts = samples::scripts().into_iter().chain(generated).filter(decided);
    let scripts: Vec<_> = scripts.take(script_count as usize).collect();
    let mut out = Vec::new();
    out.extend((jobs.len() as u32).to_le_bytes());
    out.extend((scripts.len() as u32).to_le_bytes());
    for job in &jobs {
        let (text, bytes) = route::answer(job);
        put_case(&mut out, &[job, text.as_bytes(), &bytes]);
    }
    for script in &scripts {
        put_case(&mut out, &[script, answers(script).as_bytes()]);
    }
    eprint!("{}{}", survey::jobs(&jobs), survey::scripts(&scripts));
    out
}

fn main() -> ExitCode {
    let words: Vec<String> = std::env::args().skip(1).collect();
    let words: Vec<&str> = words.iter().map(String::as_str).collect();
    let numbers = |a: &str, b: &str| (a.parse().expect("a number"), b.parse().expect("a number"));
    let output = match words[..] {
        ["job"] => route::answer(&standard_input()).0.into_bytes(),
        ["bytes"] => route::answer(&standard_input()).1,
        ["script"] => answers(&standard_input()).into_bytes(),
        ["samples"] => return if samples::run() { ExitCode::SUCCESS } else { ExitCode::FAILURE },
        ["make-job", seed, case] => {
            let (seed, case) = numbers(seed, case);
            make_jobs::job(seed, case)
        }
        ["make-script", seed, case] => {
            let (seed, case) = numbers(seed, case);
            make_scripts::script(seed, case)
        }
        ["replay", seed, jobs, scripts] => {
            replay(seed.parse().expect("a number"), numbers(jobs, scripts))
        }
        ["compare-jobs", seed, cases, program, kept] => {
            let found = against::compare(numbers(seed, cases), program, kept, make_jobs::job, |job| {
                route::answer(job).0
            });
            return if found == 0 { ExitCode::SUCCESS } else { ExitCode::FAILURE };
        }
        ["compare-edits", seed, cases, program, kept] => {
            let found = against::compare(numbers(seed, cases), program, kept, make_scripts::script, answers);
            return if found == 0 { ExitCode::SUCCESS } else { ExitCode::FAILURE };
        }
        _ => {
            eprintln!("{USAGE}");
            return ExitCode::from(2);
        }
    };
    std::io::stdout().write_all(&output).unwrap();
    ExitCode::SUCCESS
}
