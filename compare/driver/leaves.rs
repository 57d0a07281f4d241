//! Our geometry and allowance against the Rust's, function by function, through the static library
//! of leaf_calls. Usage: leaves SEED CASES; the figures go to standard output.

mod random;

use physdes::generic::{Contain, MinDist};
use physdes::interval::{Hull, Interval};
use physdes::point::Point;
use random::Random;
use std::collections::BTreeMap;
use std::panic::{catch_unwind, AssertUnwindSafe};
use std::process::ExitCode;

type Pt = Point<i32, i32>;
type Rect = Point<Interval<i32>, Interval<i32>>;

/// As crates/leaf_calls_c declares them. None has a `requires`, so every call is safe.
#[rustfmt::skip]
mod ours {
    unsafe extern "C" {
        pub safe fn leaf_calls_min_dist(a: i32, b: i32) -> u32;
        pub safe fn leaf_calls_interval_contains(lb: i32, ub: i32, lb2: i32, ub2: i32) -> bool;
        pub safe fn leaf_calls_point_min_dist_with(px: i32, py: i32, qx: i32, qy: i32) -> u64;
        pub safe fn leaf_calls_hull_with_x_lb(px: i32, py: i32, qx: i32, qy: i32) -> i32;
        pub safe fn leaf_calls_hull_with_x_ub(px: i32, py: i32, qx: i32, qy: i32) -> i32;
        pub safe fn leaf_calls_hull_with_y_lb(px: i32, py: i32, qx: i32, qy: i32) -> i32;
        pub safe fn leaf_calls_hull_with_y_ub(px: i32, py: i32, qx: i32, qy: i32) -> i32;
        pub safe fn leaf_calls_nearest_to_x(xl: i32, xu: i32, yl: i32, yu: i32, px: i32, py: i32) -> i32;
        pub safe fn leaf_calls_nearest_to_y(xl: i32, xu: i32, yl: i32, yu: i32, px: i32, py: i32) -> i32;
        pub safe fn leaf_calls_rectangle_min_dist_with(xl: i32, xu: i32, yl: i32, yu: i32, px: i32, py: i32) -> u64;
        pub safe fn leaf_calls_contains(xl: i32, xu: i32, yl: i32, yu: i32, px: i32, py: i32) -> bool;
        pub safe fn leaf_calls_blocks(xl: i32, xu: i32, yl: i32, yu: i32, xl2: i32, xu2: i32, yl2: i32, yu2: i32) -> bool;
        pub safe fn leaf_calls_allowed(w: u32, bits: u64) -> i32;
    }
}

/// What came of one function's comparisons.
#[derive(Default)]
struct Tally {
    compared: u64,
    overflowed: u64,
    left_out: u64,
    differences: u64,
}

#[derive(Default)]
struct Report {
    tallies: BTreeMap<&'static str, Tally>,
}

impl Report {
    fn tally(&mut self, function: &'static str) -> &mut Tally {
        self.tallies.entry(function).or_default()
    }

    fn equal<T: PartialEq + std::fmt::Debug>(
        &mut self,
        function: &'static str,
        input: &dyn std::fmt::Debug,
        ours: T,
        theirs: T,
    ) {
        let tally = self.tally(function);
        tally.compared += 1;
        if ours != theirs {
            tally.differences += 1;
            if tally.differences <= 5 {
                println!("{function} at {input:?}: ours {ours:?}, the Rust {theirs:?}");
            }
        }
    }

    /// A distance: the Rust's, unless its arithmetic overflows; then the exact one.
    fn distance(
        &mut self,
        function: &'static str,
        input: &dyn std::fmt::Debug,
        ours: u64,
        theirs: impl Fn() -> u32,
        exact: i128,
    ) {
        match catch_unwind(AssertUnwindSafe(theirs)) {
            Ok(theirs) => self.equal(function, input, ours as i128, theirs as i128),
            Err(_) => {
                self.tally(function).overflowed += 1;
                self.equal(function, input, ours as i128, exact);
            }
        }
    }
}

// ---- geometry

fn gap(a: i32, b: i32) -> i128 {
    (a as i128 - b as i128).abs()
}

fn geometry(report: &mut Report, p: Pt, q: Pt, k: Rect, b: Rect) {
    let (px, py, qx, qy) = (p.xcoord, p.ycoord, q.xcoord, q.ycoord);
    let (xl, xu, yl, yu) = (k.xcoord.lb, k.xcoord.ub, k.ycoord.lb, k.ycoord.ub);
    let (xl2, xu2, yl2, yu2) = (b.xcoord.lb, b.xcoord.ub, b.ycoord.lb, b.ycoord.ub);

    report.distance(
        "min_dist_with (numbers)",
        &(px, qx),
        ours::leaf_calls_min_dist(px, qx) as u64,
        || px.min_dist_with(&qx),
        gap(px, qx),
    );
    report.distance(
        "min_dist_with (points)",
        &(p, q),
        ours::leaf_calls_point_min_dist_with(px, py, qx, qy),
        || p.min_dist_with(&q),
        gap(px, qx) + gap(py, qy),
    );
    let hull = Point::new(
        Interval::new(
            ours::leaf_calls_hull_with_x_lb(px, py, qx, qy),
            ours::leaf_calls_hull_with_x_ub(px, py, qx, qy),
        ),
        Interval::new(
            ours::leaf_calls_hull_with_y_lb(px, py, qx, qy),
            ours::leaf_calls_hull_with_y_ub(px, py, qx, qy),
        ),
    );
    report.equal("hull_with", &(p, q), hull, p.hull_with(&q));

    let nearest = Point::new(
        ours::leaf_calls_nearest_to_x(xl, xu, yl, yu, px, py),
        ours::leaf_calls_nearest_to_y(xl, xu, yl, yu, px, py),
    );
    report.equal("nearest_to", &(k, p), nearest, k.nearest_to(&p));
    let distance = ours::leaf_calls_rectangle_min_dist_with(xl, xu, yl, yu, px, py);
    let exact = gap(nearest.xcoord, px) + gap(nearest.ycoord, py);
    if k.xcoord.is_invalid() || k.ycoord.is_invalid() {
        // where lower is above upper the Rust's figure is not d(nearest, p)
        report.tally("min_dist_with (rectangle)").left_out += 1;
        report.equal("d(nearest, p), lower above upper", &(k, p), distance as i128, exact);
    } else {
        report.distance("min_dist_with (rectangle)", &(k, p), distance, || k.min_dist_with(&p), exact);
    }

    report.equal(
        "contains (point)",
        &(k, p),
        ours::leaf_calls_contains(xl, xu, yl, yu, px, py),
        k.contains(&p),
    );
    report.equal(
        "contains (interval)",
        &(k.xcoord, b.xcoord),
        ours::leaf_calls_interval_contains(xl, xu, xl2, xu2),
        k.xcoord.contains(&b.xcoord),
    );
    report.equal(
        "blocks",
        &(k, b),
        ours::leaf_calls_blocks(xl, xu, yl, yu, xl2, xu2, yl2, yu2),
        k.blocks(&b),
    );
}

/// Numbers of one case: close together, within a job's limit, of any size, or at the ends of a range.
fn number(random: &mut Random, family: usize) -> i32 {
    const EDGES: [i32; 14] = [
        i32::MIN,
        i32::MIN + 1,
        -1_000_001,
        -1_000_000,
        -999_999,
        -1,
        0,
        1,
        2,
        999_999,
        1_000_000,
        1_000_001,
        i32::MAX - 1,
        i32::MAX,
    ];
    match family {
        0 => random.between(-3, 3),
        1 => random.between(-1_000_000, 1_000_000),
        2 => random.bits() as i32,
        3 => random.pick(&EDGES),
        _ => {
            let any = random.below(4);
            number(random, any)
        }
    }
}

fn random_rect(random: &mut Random, family: usize) -> Rect {
    let mut interval = || {
        let (a, b) = (number(random, family), number(random, family));
        // one in four as they come, so that some have lower above upper
        if random.one_in(4) {
            Interval::new(a, b)
        } else {
            Interval::new(a.min(b), a.max(b))
        }
    };
    Point::new(interval(), interval())
}

fn all_geometry(report: &mut Report, seed: u64, cases: u64) -> u64 {
    for case in 0..cases {
        let mut random = Random::of_case(seed, case);
        let family = random.below(5);
        let p = Point::new(number(&mut random, family), number(&mut random, family));
        let q = Point::new(number(&mut random, family), number(&mut random, family));
        let k = random_rect(&mut random, family);
        let b = random_rect(&mut random, family);
        geometry(report, p, q, k, b);
    }
    // every eight numbers of 0 to 3 as two rectangles, the second's corners as the points
    let small = 1u64 << 16;
    for code in 0..small {
        let n = |place: u64| (code >> (2 * place) & 3) as i32;
        let k = Point::new(Interval::new(n(0), n(1)), Interval::new(n(2), n(3)));
        let b = Point::new(Interval::new(n(4), n(5)), Interval::new(n(6), n(7)));
        geometry(report, Point::new(n(4), n(6)), Point::new(n(5), n(7)), k, b);
    }
    cases + small
}

// ---- allowance

fn allowance(report: &mut Report, w: u32, bits: u64) {
    let product = w as f64 * f64::from_bits(bits);
    let ours = ours::leaf_calls_allowed(w, bits);
    report.equal("allowed", &(w, bits), ours, product.round() as i32);
    if product.fract().abs() == 0.5 {
        report.equal("allowed, the product ending in a half", &(w, bits), ours, product.round() as i32);
    }
}

const SIGN: u64 = 1 << 63;
const FRACTION: u64 = (1 << 52) - 1;

/// Every exponent with either sign, with a few fractions and distances each.
fn every_exponent(report: &mut Report, random: &mut Random) -> u64 {
    let mut cases = 0;
    for top in 0..1 << 12 {
        let fractions = [0, 1, 1 << 51, (1 << 51) + 1, FRACTION, FRACTION - 1, random.bits() & FRACTION];
        for fraction in fractions {
            for w in [
                0,
                1,
                2,
                3,
                5,
                12,
                3_999_999,
                4_000_000,
                1 << 31,
                u32::MAX,
                random.between(0, 4_000_000) as u32,
            ] {
                allowance(report, w, top << 52 | fraction);
                cases += 1;
            }
        }
    }
    cases
}

fn distance(random: &mut Random) -> u32 {
    match random.below(8) {
        0 => random.bits() as u32,
        1 => random.between(0, 12) as u32,
        _ => random.between(0, 4_000_000) as u32,
    }
}

/// A multiplier whose product with w comes near to a half, or to another part of a whole number.
fn near_half(random: &mut Random, w: u32) -> u64 {
    let whole = match random.below(4) {
        0 => random.between(0, i32::MAX) as f64,
        1 => random.between(0, 4_000_000) as f64,
        2 => random.between(0, 10) as f64,
        _ => random.pick(&[2_147_483_646.0, 2_147_483_647.0, 2_147_483_648.0]),
    };
    let part = random.pick(&[0.5, 0.5, 0.5, 0.0, 0.25, 0.75]);
    let bits = ((whole + part) / w.max(1) as f64).to_bits();
    let neighbour = bits.wrapping_add(random.below(7) as u64).wrapping_sub(3);
    neighbour ^ (random.bits() & SIGN)
}

/// Also NaNs, subnormals, plain fractions, any bits.
fn multiplier(random: &mut Random, w: u32) -> u64 {
    let any = random.bits();
    match random.below(10) {
        0 => any | 0x7ff0_0000_0000_0000,
        1 => any & (SIGN | FRACTION),
        2 => (random.between(-3_000_000, 3_000_000) as f64 / 1_000_000.0).to_bits(),
        // exponents with which the products of a job's distances lie about 1 or the ends of i32
        3 => any & (SIGN | FRACTION) | (1000 + any % 64) << 52,
        4 => any,
        _ => near_half(random, w),
    }
}

fn all_allowance(report: &mut Report, seed: u64, cases: u64) -> u64 {
    for case in 0..cases {
        let mut random = Random::of_case(seed ^ SIGN, case);
        let w = distance(&mut random);
        allowance(report, w, multiplier(&mut random, w));
    }
    cases + every_exponent(report, &mut Random::of_case(seed, u64::MAX))
}

fn main() -> ExitCode {
    let mut words = std::env::args().skip(1).map(|w| w.parse::<u64>().expect("a number"));
    let (Some(seed), Some(cases)) = (words.next(), words.next()) else {
        eprintln!("usage: leaves SEED CASES");
        return ExitCode::from(2);
    };
    std::panic::set_hook(Box::new(|_| {}));
    let mut report = Report::default();
    let geometry_cases = all_geometry(&mut report, seed, cases);
    let allowance_cases = all_allowance(&mut report, seed, cases);
    println!("seed {seed}: {geometry_cases} geometry cases, {allowance_cases} allowance cases");
    let mut differences = 0;
    for (function, t) in &report.tallies {
        print!("{function}: {} compared", t.compared);
        if t.overflowed + t.left_out > 0 {
            print!(", {} of them where the Rust overflows (against exact arithmetic)", t.overflowed);
            print!(", {} left out (lower above upper)", t.left_out);
        }
        println!(", {} differences", t.differences);
        differences += t.differences;
    }
    println!("{differences} differences");
    if differences == 0 {
        ExitCode::SUCCESS
    } else {
        ExitCode::FAILURE
    }
}
