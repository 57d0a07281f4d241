//! What a sample of jobs and scripts covers: how many of them show each thing.

use crate::edits::answers;
use crate::job::{self, Job, Mode, Rect, MAX_COORDINATE, MAX_KEEPOUTS, MAX_TERMINALS};
use crate::script::{self, Start, OPS};
use physdes::generic::MinDist;
use std::collections::BTreeMap;

/// How often each word was said, a line each.
#[derive(Default)]
struct Tally(BTreeMap<String, usize>);

impl Tally {
    fn count(&mut self, word: impl Into<String>, shown: bool) {
        *self.0.entry(word.into()).or_default() += shown as usize;
    }

    fn lines(&self) -> String {
        self.0.iter().map(|(word, count)| format!("{word}: {count}\n")).collect()
    }
}

fn keepouts(tally: &mut Tally, rects: &[Rect]) {
    let any = |test: &dyn Fn(&Rect) -> bool| rects.iter().any(test);
    let flat = |r: &Rect| (r.xcoord.lb == r.xcoord.ub, r.ycoord.lb == r.ycoord.ub);
    let endless = |r: &Rect| {
        [r.xcoord.lb, r.ycoord.lb].contains(&i32::MIN) || [r.xcoord.ub, r.ycoord.ub].contains(&i32::MAX)
    };
    tally.count("keepouts: none", rects.is_empty());
    tally.count("keepouts: a point", any(&|r| flat(r) == (true, true)));
    tally.count("keepouts: an upright line", any(&|r| flat(r) == (true, false)));
    tally.count("keepouts: a level line", any(&|r| flat(r) == (false, true)));
    tally.count("keepouts: an area", any(&|r| flat(r) == (false, false) && !endless(r)));
    tally.count("keepouts: to an end of i32", any(&endless));
    tally.count("keepouts: one twice", rects.iter().enumerate().any(|(i, r)| rects[..i].contains(r)));
    tally.count("keepouts: 64", rects.len() == MAX_KEEPOUTS);
}

fn accepted(tally: &mut Tally, job: &Job) {
    let points = &job.terminals;
    let distances: Vec<u32> = points.iter().map(|p| job.source.min_dist_with(p)).collect();
    let at_limit = |v: i32| v.abs() == MAX_COORDINATE;
    tally.count("mode 0", matches!(job.mode, Mode::Simple));
    tally.count("mode 1", matches!(job.mode, Mode::Steiners));
    tally.count("mode 2", matches!(job.mode, Mode::Constraints(_)));
    if let Mode::Constraints(m) = job.mode {
        tally.count("multiplier: NaN", m.is_nan());
        tally.count("multiplier: infinite", m.is_infinite());
        tally.count("multiplier: negative", m < 0.0);
        tally.count("multiplier: zero", m == 0.0);
        tally.count("multiplier: subnormal", m.is_subnormal());
        tally.count("multiplier: a fraction", m.is_normal() && m != m.trunc());
    }
    tally.count("terminals: none", points.is_empty());
    tally.count("terminals: 120", points.len() == MAX_TERMINALS);
    tally.count("terminals: one twice", points.iter().enumerate().any(|(i, p)| points[..i].contains(p)));
    tally.count("terminals: one at the source", points.contains(&job.source));
    let tie = |(i, d)| distances[..i].contains(d);
    tally.count("terminals: two as far", distances.iter().enumerate().any(tie));
    tally.count("terminals: one at the limit", points.iter().any(|p| at_limit(p.xcoord) || at_limit(p.ycoord)));
    keepouts(tally, &job.keepouts);
}

pub fn jobs(jobs: &[Vec<u8>]) -> String {
    let mut tally = Tally::default();
    for bytes in jobs {
        match job::read(bytes) {
            Ok(job) => accepted(&mut tally, &job),
            Err(refusal) => tally.count(format!("refused {refusal}"), true),
        }
    }
    format!("{} jobs\n{}", jobs.len(), tally.lines())
}

/// Records by call, and answers that refuse.
pub fn scripts(scripts: &[Vec<u8>]) -> String {
    let mut tally = Tally::default();
    for bytes in scripts {
        let (start, edits) = script::read(bytes).expect("a script");
        tally.count("starts by hand", matches!(start, Start::ByHand(_)));
        for op in OPS {
            tally.count(format!("scripts with call {:2}", op as u8), edits.iter().any(|e| e.op == op));
        }
        for edit in &edits {
            tally.count("records", true);
            if !edit.keepouts.is_empty() {
                keepouts(&mut tally, &edit.keepouts);
            }
        }
        for line in answers(bytes).expect("a script").lines() {
            if let Some(number) = line.strip_prefix("refused ") {
                tally.count(format!("refused {number:>2}"), true);
            }
        }
    }
    format!("{} scripts\n{}", scripts.len(), tally.lines())
}
