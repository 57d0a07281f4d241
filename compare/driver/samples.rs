//! Document 01's samples M6 to M12 and its other cases that are run, each with the answer that
//! stands there.

use crate::edits::answers;
use crate::job::{write, Pt, Rect};
use crate::route::answer;
use crate::script::{self, Edit, Name, Op, Start};
use physdes::interval::Interval;
use physdes::point::Point;

/// M6 as bytes, so that reading and writing rest on the paper's layout and not on each other.
#[rustfmt::skip]
const M6: [u8; 48] = [
    2, 0, 0, 0,               // T, K
    32, 0, 0, 0, 48, 0, 0, 0, // offsets
    2, 0, 0, 0,               // mode, spare
    0, 0, 0, 0, 0, 0, 0xf0, 0x3f, // 1.0
    0, 0, 0, 0, 0, 0, 0, 0,   // source
    10, 0, 0, 0, 2, 0, 0, 0,
    4, 0, 0, 0, 6, 0, 0, 0,
];

const M6_TREE: &str = "\
Source(source, (0, 0))
  Steiner(steiner_1, (4, 2))
    Terminal(terminal_1, (4, 6))
    Terminal(terminal_2, (10, 2))
";

/// The terminal is created before its Steiner node, so index 2 is terminal_2 and 3 steiner_1.
#[rustfmt::skip]
const M6_BYTES: [u8; 88] = [
    4, 2, 1, 0, 24, 0, 0, 0,
    12, 0, 0, 0, 12, 0, 0, 0, 16, 0, 0, 0, 12, 0, 0, 0,
    0, 255, 0, 0, 0, 0, 0, 0, 0, 0, 0, 0, 0, 0, 0, 0,
    2, 3, 1, 0, 4, 0, 0, 0, 6, 0, 0, 0, 10, 0, 0, 0,
    2, 3, 2, 1, 10, 0, 0, 0, 2, 0, 0, 0, 12, 0, 0, 0,
    1, 0, 1, 0, 4, 0, 0, 0, 2, 0, 0, 0, 6, 0, 0, 0,
];

fn sample(multiplier: f64, terminals: &[(i32, i32)], keepouts: &[[i32; 4]]) -> Vec<u8> {
    let points: Vec<Pt> = terminals.iter().map(|&(x, y)| Point::new(x, y)).collect();
    let rects: Vec<Rect> =
        keepouts.iter().map(|k| Point::new(Interval::new(k[0], k[1]), Interval::new(k[2], k[3]))).collect();
    write(2, multiplier.to_bits(), Point::new(0, 0), &points, &rects)
}

const M6_TERMINALS: [(i32, i32); 2] = [(10, 2), (4, 6)];

/// So many terminals on one line.
fn row(count: i32) -> Vec<(i32, i32)> {
    (0..count).map(|i| (i, 0)).collect()
}

/// What a job of the paper gives: its whole output, a tree of so many nodes, or some tree.
enum Gives {
    Output(String),
    Nodes(usize),
    Tree,
}

fn output(text: &str) -> Gives {
    Gives::Output(text.to_string())
}

/// The paper's jobs that are run: M6 to M12, then the limits and the keepouts' bounds.
fn cases() -> Vec<(&'static str, Vec<u8>, Gives)> {
    let m6 = |figures: &str| output(&format!("{M6_TREE}{figures}\n"));
    let two = |keepouts: &[[i32; 4]]| sample(1.0, &M6_TERMINALS, keepouts);
    let m7 = "Source(source, (0, 0))\n  Terminal(terminal_1, (4, 6))\n  Terminal(terminal_2, (10, 2))\n\
              allowed 12 farthest 12 total 22 worst 12\n";
    let m10 = "Source(source, (0, 0))\n  Terminal(terminal_1, (0, 5))\n  Terminal(terminal_2, (5, 0))\n    \
               Terminal(terminal_3, (5, 5))\nallowed 10 farthest 10 total 15 worst 10\n";
    let m11 = "Source(source, (0, 0))\nallowed 0 farthest 0 total 0 worst 0\n";
    let m12 = "Source(source, (0, 0))\n  Terminal(terminal_1, (3, 0))\n    Terminal(terminal_2, (3, 0))\n\
               allowed 3 farthest 3 total 3 worst 3\n";
    vec![
        ("M6 printed", M6.to_vec(), m6("allowed 12 farthest 12 total 16 worst 12")),
        ("M7", two(&[[2, 3, 0, 2]]), output(m7)),
        ("M8", two(&[[2, 3, 0, 1]]), m6("allowed 12 farthest 12 total 16 worst 12")),
        ("M9", sample(0.5, &M6_TERMINALS, &[]), m6("allowed 6 farthest 12 total 16 worst 12")),
        ("M10", sample(1.0, &[(0, 5), (5, 0), (5, 5)], &[]), output(m10)),
        ("M11", sample(1.0, &[], &[]), output(m11)),
        ("M12", sample(1.0, &[(3, 0), (3, 0)], &[]), output(m12)),
        ("120 terminals pass", sample(1.0, &row(120), &[]), Gives::Nodes(121)),
        ("121 give 2", sample(1.0, &row(121), &[]), output("refused 2\n")),
        ("1000001 gives 5", sample(1.0, &[(0, 1_000_001)], &[]), output("refused 5\n")),
        ("1000000 passes", sample(1.0, &[(0, 1_000_000)], &[]), Gives::Nodes(2)),
        ("equal keepout bounds pass", two(&[[2, 2, 1, 1]]), Gives::Tree),
        ("reversed bounds give 6", two(&[[2, 1, 1, 1]]), output("refused 6\n")),
    ]
}

pub fn jobs() -> Vec<Vec<u8>> {
    cases().into_iter().map(|(_, job, _)| job).collect()
}

fn gives(job: &[u8], expected: &Gives) -> bool {
    let (text, bytes) = answer(job);
    match expected {
        Gives::Output(output) => text == *output,
        Gives::Nodes(count) => bytes.len() == 24 + 16 * count,
        Gives::Tree => !bytes.is_empty(),
    }
}

fn checks() -> Vec<(&'static str, bool)> {
    let mut checks: Vec<_> = cases().iter().map(|(name, job, expected)| (*name, gives(job, expected))).collect();
    checks.push(("M6 as bytes", answer(&M6).1 == M6_BYTES));
    checks.push(("M6 written", sample(1.0, &M6_TERMINALS, &[]) == M6));
    checks
}

const STEINER_1: Name = Name { kind: 1, number: 1 };
const STEINER_9: Name = Name { kind: 1, number: 9 };
const TERMINAL_1: Name = Name { kind: 2, number: 1 };
const TERMINAL_2: Name = Name { kind: 2, number: 2 };

fn edit(op: Op, (x, y): (i32, i32), a: Name, b: Name) -> Edit {
    Edit { point: Point::new(x, y), a, b, room: 250, ..Edit::new(op) }
}

fn on_branch(kind: u8, at: (i32, i32), a: Name, b: Name) -> Edit {
    Edit { kind, ..edit(Op::InsertOnBranch, at, a, b) }
}

/// A search insert with `count` keepouts that are reversed.
fn with_reversed(at: (i32, i32), count: usize) -> Edit {
    let reversed = Point::new(Interval::new(0, 0), Interval::new(1, 0));
    Edit { keepouts: vec![reversed; count], ..edit(Op::InsertWithSteiner, at, Name::SOURCE, Name::SOURCE) }
}

/// Edits of M6's tree, with the answers that document 01 gives them.
fn edits_of_m6() -> (Vec<Edit>, String) {
    let none = (0, 0);
    let far = (0, 1_000_001);
    let list = |op, a| edit(op, none, a, Name::SOURCE);
    let short = |op, a, room| Edit { room, ..list(op, a) };
    let m6_digits: String = M6_BYTES.iter().map(|b| format!("{b:02x}")).collect();
    let m6_bytes = format!("bytes {m6_digits}");
    let steps = [
        (list(Op::Path, TERMINAL_2), "path 0 3 2"),
        (list(Op::Terminals, Name::SOURCE), "terminals 1 2"),
        (list(Op::Steiners, Name::SOURCE), "steiners 3"),
        (list(Op::Lookup, STEINER_1), "index 3"),
        (list(Op::Lookup, STEINER_9), "refused 7"),
        (short(Op::Path, STEINER_9, 0), "refused 7"),
        (short(Op::Path, TERMINAL_2, 2), "refused 11"),
        (short(Op::Path, TERMINAL_2, 3), "path 0 3 2"),
        (short(Op::Bytes, Name::SOURCE, 87), "refused 11"),
        (short(Op::Bytes, Name::SOURCE, 88), &m6_bytes),
        (list(Op::Figures, Name::SOURCE), "allowed 12 farthest 12 total 16 worst 12"),
        (with_reversed(far, 65), "refused 5"),
        (with_reversed(none, 65), "refused 2"),
        (with_reversed(none, 64), "refused 6"),
        (on_branch(0, far, STEINER_9, TERMINAL_1), "refused 5"),
        (on_branch(0, none, STEINER_9, TERMINAL_1), "refused 7"),
        (on_branch(0, none, Name::SOURCE, TERMINAL_1), "refused 9"),
        (on_branch(1, none, Name::SOURCE, TERMINAL_1), "refused 8"),
        // put on a branch and removed again, and the number isn't given out again
        (on_branch(1, (2, 1), Name::SOURCE, STEINER_1), "ok 5"),
        (list(Op::Optimize, Name::SOURCE), "ok 4"),
        (list(Op::Bytes, Name::SOURCE), &m6_bytes),
        (on_branch(1, (2, 1), Name::SOURCE, STEINER_1), "ok 5"),
        (list(Op::Lookup, Name { kind: 1, number: 2 }), "refused 7"),
        (list(Op::Lookup, Name { kind: 1, number: 3 }), "index 4"),
        (edit(Op::InsertTerminal, (10, 3), Name::SOURCE, Name::SOURCE), "ok 6"),
        (list(Op::Path, Name { kind: 2, number: 3 }), "path 0 4 3 2 5"),
        // index 4 goes and index 5 stays: the Rust's links would be wrong
        (list(Op::Optimize, Name::SOURCE), "no oracle"),
    ];
    let lines = steps.iter().map(|(_, line)| format!("{line}\n"));
    let expected = "ok 4\n".to_string() + &lines.collect::<String>();
    (steps.into_iter().map(|(edit, _)| edit).collect(), expected)
}

/// 249 nodes on one line, then inserts that want two nodes, one, and one too many.
fn edits_of_full_tree() -> (Vec<Edit>, String) {
    let search = |at| edit(Op::InsertWithSteiner, at, Name::SOURCE, Name::SOURCE);
    let first = edit(Op::InsertTerminal, (10, 0), Name::SOURCE, Name::SOURCE);
    let mut edits = vec![first; 248];
    edits.extend([search((5, 5)), search((10, 5)), search((10, 5))]);
    let filled: String = (1..=249).map(|n| format!("ok {n}\n")).collect();
    (edits, filled + "refused 10\nok 250\nrefused 10\n")
}

/// The scripts below, as far as the Rust decides them.
pub fn scripts() -> Vec<Vec<u8>> {
    let by_hand = |x| Start::ByHand(Point::new(0, x));
    let (mut of_m6, _) = edits_of_m6();
    of_m6.pop();
    vec![
        script::write(&Start::Routed(M6.to_vec()), &of_m6),
        script::write(&by_hand(0), &edits_of_full_tree().0),
        script::write(&by_hand(-1_000_001), &[]),
    ]
}

fn edit_checks() -> Vec<(&'static str, bool)> {
    let is = |start: Start, (edits, expected): (Vec<Edit>, String)| {
        answers(&script::write(&start, &edits)) == Some(expected)
    };
    let by_hand = Start::ByHand(Point::new(0, 0));
    let refused = Start::ByHand(Point::new(0, -1_000_001));
    vec![
        ("edits of M6", is(Start::Routed(M6.to_vec()), edits_of_m6())),
        ("edits of a full tree", is(by_hand, edits_of_full_tree())),
        ("a refused start", is(refused, (vec![], "refused 5\n".to_string()))),
    ]
}

/// Prints each check; whether all hold.
pub fn run() -> bool {
    print!("{}", answer(&M6).0);
    let mut checks = checks();
    checks.extend(edit_checks());
    for (name, holds) in &checks {
        println!("{} {name}", if *holds { "ok  " } else { "FAIL" });
    }
    checks.iter().all(|(_, holds)| *holds)
}
