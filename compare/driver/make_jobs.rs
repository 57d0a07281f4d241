//! Job files for the comparison: each depends on the seed and the case's number alone.

use crate::job::{write, Pt, Rect, MAX_COORDINATE, MAX_KEEPOUTS, MAX_TERMINALS};
use crate::random::Random;
use physdes::interval::Interval;
use physdes::point::Point;

/// Where the points of a case lie: a square about a centre. A small one has many equal distances.
pub struct Field {
    centre: Pt,
    reach: i32,
}

impl Field {
    pub fn new(random: &mut Random) -> Self {
        let reach = random.pick(&[1, 2, 2, 3, 3, 4, 6, 10, 50, 1000, MAX_COORDINATE]);
        let shift = MAX_COORDINATE - reach;
        let mut place = || random.pick(&[0, 0, 0, shift, -shift]);
        Field { centre: Point::new(place(), place()), reach }
    }

    pub fn small(random: &mut Random) -> Self {
        Field { centre: Point::new(0, 0), reach: random.between(1, 4) }
    }

    /// Any point of the field, its corners and edges more often than chance has them.
    pub fn point(&self, random: &mut Random) -> Pt {
        let mut part = || match random.below(8) {
            0 => -self.reach,
            1 => self.reach,
            _ => random.between(-self.reach, self.reach),
        };
        let (x, y) = (part(), part());
        Point::new(self.centre.xcoord + x, self.centre.ycoord + y)
    }

    /// A keepout interval: about some coordinate of the field, or far past it.
    fn interval(&self, random: &mut Random, middle: i32) -> Interval<i32> {
        let near = middle.saturating_add(random.between(-self.reach, self.reach));
        match random.below(8) {
            0 | 1 => Interval::new(near, near),
            2 => Interval::new(near, near.saturating_add(1)),
            3 | 4 => Interval::new(near, near + random.between(0, self.reach)),
            5 => Interval::new(middle - self.reach - 1, middle + self.reach + 1),
            6 => Interval::new(i32::MIN, random.pick(&[i32::MAX, near, i32::MIN])),
            _ => Interval::new(random.pick(&[i32::MAX, near, middle]), i32::MAX),
        }
    }

    pub fn keepout(&self, random: &mut Random) -> Rect {
        let x = self.interval(random, self.centre.xcoord);
        let y = self.interval(random, self.centre.ycoord);
        Point::new(x, y)
    }

    /// Points of the field, or on one of its lines, or a few points many times over.
    fn points(&self, random: &mut Random, count: usize) -> Vec<Pt> {
        let line = self.point(random);
        let few: Vec<Pt> = (0..random.between(1, 5)).map(|_| self.point(random)).collect();
        let shape = random.below(8);
        let mut points = Vec::new();
        for _ in 0..count {
            let p = self.point(random);
            points.push(match shape {
                0 => Point::new(line.xcoord, p.ycoord),
                1 => Point::new(p.xcoord, line.ycoord),
                2 => random.pick(&few),
                3 if !points.is_empty() && random.one_in(3) => random.pick(&points),
                _ => p,
            });
        }
        points
    }
}

fn multiplier(random: &mut Random) -> u64 {
    match random.below(12) {
        0..=2 => 1f64.to_bits(),
        3 => random.pick(&[0.5f64, 1.5, 2.0, 0.25, 0.75, 1.25, 0.49999999999999994]).to_bits(),
        4..=6 => (random.between(0, 2_000_000) as f64 / 1_000_000.0).to_bits(),
        7 => (-random.between(0, 3_000_000) as f64 / 1_000_000.0).to_bits(),
        8 => random.pick(&[0f64, -0.0, f64::INFINITY, f64::NEG_INFINITY, f64::MIN_POSITIVE]).to_bits(),
        9 => random.pick(&[0x7ff0_0000_0000_0001u64, 0xfff8_0000_0000_0000, 0x7fff_ffff_ffff_ffff, 1]),
        10 => (random.between(0, i32::MAX) as f64).to_bits(),
        _ => random.bits(),
    }
}

/// How many terminals: few mostly, the limit now and then.
fn terminal_count(random: &mut Random) -> usize {
    match random.below(20) {
        0 => MAX_TERMINALS,
        1 => random.below(MAX_TERMINALS + 1),
        2..=4 => random.below(40),
        5 => random.below(2),
        _ => random.below(12),
    }
}

fn keepout_count(random: &mut Random) -> usize {
    match random.below(16) {
        0 => MAX_KEEPOUTS,
        1 => random.below(MAX_KEEPOUTS + 1),
        2..=6 => 0,
        _ => random.below(6),
    }
}

/// A job that every test accepts.
pub fn accepted_in(random: &mut Random, field: &Field, terminals: usize) -> Vec<u8> {
    let mode = random.pick(&[0, 1, 1, 2, 2, 2, 2, 2]);
    let bits = if mode == 2 { multiplier(random) } else { 0 };
    let source = field.point(random);
    let points = field.points(random, terminals);
    let mut keepouts: Vec<Rect> = (0..keepout_count(random)).map(|_| field.keepout(random)).collect();
    if keepouts.len() > 1 && random.one_in(4) {
        keepouts[0] = keepouts[1];
    }
    write(mode, bits, source, &points, &keepouts)
}

fn accepted(random: &mut Random) -> Vec<u8> {
    let field = Field::new(random);
    let terminals = terminal_count(random);
    accepted_in(random, &field, terminals)
}

/// A job with a count past its limit, whole or cut short.
fn past_limits(random: &mut Random) -> Vec<u8> {
    let (terminals, keepouts) =
        random.pick(&[(121, 0), (0, 65), (121, 65), (120, 65), (121, 64), (300, 0), (0, 70)]);
    let field = Field::new(random);
    let points: Vec<Pt> = (0..terminals).map(|_| field.point(random)).collect();
    let rects: Vec<Rect> = (0..keepouts).map(|_| field.keepout(random)).collect();
    let mut bytes = write(1, 0, field.point(random), &points, &rects);
    if random.one_in(3) {
        bytes.truncate(random.below(bytes.len() + 1));
    }
    bytes
}

/// One fault, put into a job of any kind. Several may be put into one, to see which is told first.
fn damage(random: &mut Random, bytes: &mut Vec<u8>) {
    let faulty = [1_000_001, -1_000_001, i32::MAX, i32::MIN];
    let terminals = 8 * bytes.first().copied().unwrap_or(0) as usize;
    let length = bytes.len();
    let mut put = |at: usize, with: &[u8]| {
        if at + with.len() <= bytes.len() {
            bytes[at..at + with.len()].copy_from_slice(with);
        }
    };
    match random.below(14) {
        0 => bytes.truncate(random.below(length + 1)),
        1 => bytes.truncate(length.saturating_sub(1)),
        2 => bytes.extend((0..random.between(1, 40)).map(|i| i as u8)),
        3 => put(0, &(random.pick(&[0u16, 1, 120, 121, 65535])).to_le_bytes()),
        4 => put(2, &(random.pick(&[0u16, 1, 64, 65, 65535])).to_le_bytes()),
        5 => put(4, &(random.pick(&[0u32, 31, 33, 288, 65568, u32::MAX])).to_le_bytes()),
        6 => put(8, &(random.pick(&[0u32, 31, 32, 33, 40, 65568, u32::MAX])).to_le_bytes()),
        7 => put(12, &[random.pick(&[0u8, 1, 2, 3, 4, 128, 255])]),
        8 => put(13 + random.below(3), &[random.pick(&[1u8, 128, 255])]),
        9 => put(16 + random.below(8), &[random.pick(&[1u8, 128, 255])]),
        10 => put(24 + 4 * random.below(2), &random.pick(&faulty).to_le_bytes()),
        11 if terminals > 0 => put(32 + 4 * random.below(terminals / 4), &random.pick(&faulty).to_le_bytes()),
        12 => put(32 + terminals, &i32::MAX.to_le_bytes()),
        _ => put(random.below(length.max(1)), &[random.bits() as u8]),
    }
}

/// The job file of a case.
pub fn job(seed: u64, case: u64) -> Vec<u8> {
    let mut random = Random::of_case(seed, case);
    let mut bytes = match random.below(40) {
        0 => past_limits(&mut random),
        1 => (0..random.below(80)).map(|_| random.bits() as u8).collect(),
        _ => accepted(&mut random),
    };
    if random.one_in(4) {
        for _ in 0..random.pick(&[1, 1, 1, 2, 3]) {
            damage(&mut random, &mut bytes);
        }
    }
    bytes
}
