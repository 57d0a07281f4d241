//! The file of an edit script: its layout is in README.md.

use crate::job::{i32_at, point_at, put_point, put_rect, rect_at, u16_at, u32_at, Pt, Rect};
use physdes::point::Point;

pub enum Start {
    ByHand(Pt),
    /// The bytes of a job file.
    Routed(Vec<u8>),
}

#[derive(Clone, Copy, PartialEq)]
pub enum Op {
    InsertSteiner = 1,
    InsertTerminal = 2,
    InsertOnBranch = 3,
    InsertWithSteiner = 4,
    InsertWithConstraints = 5,
    Optimize = 6,
    Path = 7,
    Terminals = 8,
    Steiners = 9,
    Lookup = 10,
    Text = 11,
    Bytes = 12,
    Figures = 13,
}

pub const OPS: [Op; 13] = [
    Op::InsertSteiner,
    Op::InsertTerminal,
    Op::InsertOnBranch,
    Op::InsertWithSteiner,
    Op::InsertWithConstraints,
    Op::Optimize,
    Op::Path,
    Op::Terminals,
    Op::Steiners,
    Op::Lookup,
    Op::Text,
    Op::Bytes,
    Op::Figures,
];

/// A node's name: kind 0 source, 1 Steiner, 2 terminal; the source's number isn't read.
#[derive(Clone, Copy)]
pub struct Name {
    pub kind: u8,
    pub number: u16,
}

impl Name {
    pub const SOURCE: Name = Name { kind: 0, number: 0 };

    pub fn id(self) -> String {
        match self.kind {
            0 => "source".to_string(),
            1 => format!("steiner_{}", self.number),
            _ => format!("terminal_{}", self.number),
        }
    }
}

/// One record. A call reads only the fields that it takes.
#[derive(Clone)]
pub struct Edit {
    pub op: Op,
    /// The new node's kind on a branch, numbered as a name's.
    pub kind: u8,
    /// Whether `a` is the new node's parent.
    pub has_parent: bool,
    pub a: Name,
    pub b: Name,
    pub point: Pt,
    pub allowance: i32,
    /// The length of the buffer that the call is lent: u16s for lists, bytes for text and tree.
    pub room: u32,
    pub keepouts: Vec<Rect>,
}

impl Edit {
    pub fn new(op: Op) -> Self {
        Edit {
            op,
            kind: 0,
            has_parent: false,
            a: Name::SOURCE,
            b: Name::SOURCE,
            point: Point::new(0, 0),
            allowance: 0,
            room: 0,
            keepouts: Vec::new(),
        }
    }

    fn write(&self, out: &mut Vec<u8>) {
        out.extend([self.op as u8, self.kind, self.has_parent as u8, self.keepouts.len() as u8]);
        out.extend([self.a.kind, self.b.kind]);
        out.extend(self.a.number.to_le_bytes());
        out.extend(self.b.number.to_le_bytes());
        out.extend([0, 0]);
        put_point(out, self.point);
        out.extend(self.allowance.to_le_bytes());
        out.extend(self.room.to_le_bytes());
        out.extend([0; 4]);
        for &r in &self.keepouts {
            put_rect(out, r);
        }
    }
}

const RECORD: usize = 32;
const KEEPOUT: usize = 16;

/// The script's parts; nothing where the file isn't one.
pub fn read(bytes: &[u8]) -> Option<(Start, Vec<Edit>)> {
    if bytes.len() < 16 {
        return None;
    }
    let job_length = u32_at(bytes, 4) as usize;
    let mut at = 16 + job_length;
    if at > bytes.len() {
        return None;
    }
    let start = match bytes[0] {
        0 => Start::ByHand(point_at(bytes, 8)),
        _ => Start::Routed(bytes[16..at].to_vec()),
    };
    let mut edits = Vec::new();
    while at < bytes.len() {
        let keepouts = *bytes.get(at + 3)? as usize;
        let end = at + RECORD + KEEPOUT * keepouts;
        if end > bytes.len() {
            return None;
        }
        let r = &bytes[at..end];
        edits.push(Edit {
            op: *OPS.get((r[0] as usize).checked_sub(1)?)?,
            kind: r[1],
            has_parent: r[2] != 0,
            a: Name { kind: r[4], number: u16_at(r, 6) },
            b: Name { kind: r[5], number: u16_at(r, 8) },
            point: point_at(r, 12),
            allowance: i32_at(r, 20),
            room: u32_at(r, 24),
            keepouts: (0..keepouts).map(|i| rect_at(r, RECORD + KEEPOUT * i)).collect(),
        });
        at = end;
    }
    Some((start, edits))
}

pub fn write(start: &Start, edits: &[Edit]) -> Vec<u8> {
    let mut out = vec![0; 16];
    match start {
        Start::ByHand(source) => {
            out.truncate(8);
            put_point(&mut out, *source);
        }
        Start::Routed(job) => {
            out[0] = 1;
            out[4..8].copy_from_slice(&(job.len() as u32).to_le_bytes());
            out.extend(job);
        }
    }
    for edit in edits {
        edit.write(&mut out);
    }
    out
}
