//! The job file of document 01: its reading with refusals 1 to 6, and its writing.

use physdes::interval::Interval;
use physdes::point::Point;

pub type Pt = Point<i32, i32>;
pub type Rect = Point<Interval<i32>, Interval<i32>>;

pub const MAX_COORDINATE: i32 = 1_000_000;
pub const MAX_TERMINALS: usize = 120;
pub const MAX_KEEPOUTS: usize = 64;

const HEADER: usize = 32;
const TERMINAL: usize = 8;
const KEEPOUT: usize = 16;

pub enum Mode {
    Simple,
    Steiners,
    Constraints(f64),
}

pub struct Job {
    pub mode: Mode,
    pub source: Pt,
    pub terminals: Vec<Pt>,
    pub keepouts: Vec<Rect>,
}

pub fn u16_at(bytes: &[u8], at: usize) -> u16 {
    u16::from_le_bytes(bytes[at..at + 2].try_into().unwrap())
}

pub fn u32_at(bytes: &[u8], at: usize) -> u32 {
    u32::from_le_bytes(bytes[at..at + 4].try_into().unwrap())
}

pub fn i32_at(bytes: &[u8], at: usize) -> i32 {
    u32_at(bytes, at) as i32
}

pub fn point_at(bytes: &[u8], at: usize) -> Pt {
    Point::new(i32_at(bytes, at), i32_at(bytes, at + 4))
}

pub fn rect_at(bytes: &[u8], at: usize) -> Rect {
    let interval = |at| Interval::new(i32_at(bytes, at), i32_at(bytes, at + 4));
    Point::new(interval(at), interval(at + 8))
}

pub fn put_point(out: &mut Vec<u8>, p: Pt) {
    out.extend(p.xcoord.to_le_bytes());
    out.extend(p.ycoord.to_le_bytes());
}

pub fn put_rect(out: &mut Vec<u8>, r: Rect) {
    for bound in [r.xcoord.lb, r.xcoord.ub, r.ycoord.lb, r.ycoord.ub] {
        out.extend(bound.to_le_bytes());
    }
}

/// Refusal 5's condition.
pub fn out_of_limit(p: Pt) -> bool {
    let limit = -MAX_COORDINATE..=MAX_COORDINATE;
    !limit.contains(&p.xcoord) || !limit.contains(&p.ycoord)
}

/// Refusal 6's condition.
pub fn reversed(r: &Rect) -> bool {
    r.xcoord.is_invalid() || r.ycoord.is_invalid()
}

/// The job, or the number of the first test of document 01 that refuses it.
pub fn read(bytes: &[u8]) -> Result<Job, u8> {
    if bytes.len() < HEADER {
        return Err(1);
    }
    let terminals = u16_at(bytes, 0) as usize;
    let keepouts = u16_at(bytes, 2) as usize;
    if terminals > MAX_TERMINALS || keepouts > MAX_KEEPOUTS {
        return Err(2);
    }
    let keepouts_at = HEADER + TERMINAL * terminals;
    if bytes.len() != keepouts_at + KEEPOUT * keepouts {
        return Err(1);
    }
    if u32_at(bytes, 4) as usize != HEADER || u32_at(bytes, 8) as usize != keepouts_at {
        return Err(3);
    }
    let multiplier = u64::from_le_bytes(bytes[16..24].try_into().unwrap());
    if bytes[13..16] != [0, 0, 0] {
        return Err(4);
    }
    let mode = match (bytes[12], multiplier) {
        (0, 0) => Mode::Simple,
        (1, 0) => Mode::Steiners,
        (2, bits) => Mode::Constraints(f64::from_bits(bits)),
        _ => return Err(4),
    };
    let job = Job {
        mode,
        source: point_at(bytes, 24),
        terminals: (0..terminals).map(|i| point_at(bytes, HEADER + TERMINAL * i)).collect(),
        keepouts: (0..keepouts).map(|i| rect_at(bytes, keepouts_at + KEEPOUT * i)).collect(),
    };
    if out_of_limit(job.source) || job.terminals.iter().any(|&p| out_of_limit(p)) {
        return Err(5);
    }
    if job.keepouts.iter().any(reversed) {
        return Err(6);
    }
    Ok(job)
}

/// A job file with the offsets that its counts require. Nothing else is tested.
pub fn write(mode: u8, multiplier: u64, source: Pt, terminals: &[Pt], keepouts: &[Rect]) -> Vec<u8> {
    let mut out = Vec::new();
    out.extend((terminals.len() as u16).to_le_bytes());
    out.extend((keepouts.len() as u16).to_le_bytes());
    out.extend((HEADER as u32).to_le_bytes());
    out.extend(((HEADER + TERMINAL * terminals.len()) as u32).to_le_bytes());
    out.extend([mode, 0, 0, 0]);
    out.extend(multiplier.to_le_bytes());
    put_point(&mut out, source);
    for &p in terminals {
        put_point(&mut out, p);
    }
    for &r in keepouts {
        put_rect(&mut out, r);
    }
    out
}
