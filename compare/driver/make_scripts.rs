//! Edit scripts for the comparison. A script is made by running it as it grows, so that its names
//! mostly stand for nodes of the tree.

use crate::edits::{Answer, Session};
use crate::job::{self, Pt, MAX_KEEPOUTS};
use crate::make_jobs::{self, accepted_in, Field};
use crate::random::Random;
use crate::script::{write, Edit, Name, Op, Start};
use crate::tree::{kind_of, nodes, number_of};
use physdes::global_router::RoutingNode;
use physdes::interval::Interval;
use physdes::point::Point;

/// What a program that reads scripts must have room for.
const MAX_SCRIPT: usize = 65_536;

/// The largest buffers that a script asks for.
const LIST_ROOM: u32 = 250;
const BYTES_ROOM: u32 = 24 + 16 * 250;
const TEXT_ROOM: u32 = 65_536;

struct Maker {
    random: Random,
    field: Field,
    session: Session,
    edits: Vec<Edit>,
}

fn name_of(node: &RoutingNode) -> Name {
    Name { kind: kind_of(node), number: number_of(node) as u16 }
}

impl Maker {
    fn add(&mut self, edit: Edit) -> bool {
        let answer = self.session.answer(&edit);
        self.edits.push(edit);
        matches!(answer, Answer::Said(_))
    }

    /// A node's name; now and then one that no node has.
    fn name(&mut self) -> Name {
        if self.random.one_in(12) {
            let number = self.random.pick(&[0, 1, 2, 250, 251, 255, 256, 257, 65535]);
            return Name { kind: 1 + self.random.below(2) as u8, number };
        }
        let nodes = nodes(self.session.tree());
        name_of(nodes[self.random.below(nodes.len())])
    }

    /// A node and its parent, mostly.
    fn branch(&mut self) -> (Name, Name) {
        let nodes = nodes(self.session.tree());
        let end = nodes[self.random.below(nodes.len())];
        match end.parent {
            Some(p) if !self.random.one_in(12) => (name_of(nodes[p]), name_of(end)),
            _ => (self.name(), self.name()),
        }
    }

    fn point(&mut self) -> Pt {
        if self.random.one_in(25) {
            let far = self.random.pick(&[1_000_001, -1_000_001, i32::MAX, i32::MIN]);
            return if self.random.one_in(2) { Point::new(far, 0) } else { Point::new(0, far) };
        }
        if self.random.one_in(6) {
            let nodes = nodes(self.session.tree());
            return nodes[self.random.below(nodes.len())].pt;
        }
        self.field.point(&mut self.random)
    }

    fn keepouts(&mut self, edit: &mut Edit) {
        let count = match self.random.below(40) {
            0 => self.random.pick(&[MAX_KEEPOUTS, MAX_KEEPOUTS + 1, 255]),
            1..=20 => 0,
            _ => self.random.below(5),
        };
        edit.keepouts = (0..count).map(|_| self.field.keepout(&mut self.random)).collect();
        if count > 0 && self.random.one_in(15) {
            edit.keepouts[count - 1].ycoord = Interval::new(1, 0);
        }
    }

    /// An edit of the tree.
    fn change(&mut self) {
        let op = self.random.pick(&[
            Op::InsertSteiner,
            Op::InsertTerminal,
            Op::InsertOnBranch,
            Op::InsertOnBranch,
            Op::InsertWithSteiner,
            Op::InsertWithSteiner,
            Op::InsertWithConstraints,
            Op::InsertWithConstraints,
            Op::InsertWithConstraints,
            Op::Optimize,
        ]);
        // where the Rust doesn't decide, only its answer `no oracle` would come of it
        if op == Op::Optimize && !self.session.rust_decides_optimize() {
            return;
        }
        let mut edit = Edit::new(op);
        edit.point = self.point();
        match op {
            Op::InsertSteiner | Op::InsertTerminal => {
                edit.has_parent = self.random.one_in(2);
                edit.a = self.name();
            }
            Op::InsertOnBranch => {
                edit.kind = self.random.pick(&[1, 1, 1, 1, 2, 2, 2, 0]);
                (edit.a, edit.b) = self.branch();
            }
            Op::InsertWithSteiner => self.keepouts(&mut edit),
            Op::InsertWithConstraints => {
                edit.allowance = match self.random.below(8) {
                    0 | 1 => self.random.pick(&[0, -1, -1, -1, i32::MIN, i32::MAX, 1]),
                    2 => self.random.bits() as i32,
                    _ => self.random.between(0, 30),
                };
                self.keepouts(&mut edit);
            }
            _ => {}
        }
        self.add(edit);
    }

    /// Steiner nodes put on branches, and removed again: their indices are above the others, so the
    /// Rust decides what becomes of their children's places.
    fn splices(&mut self) {
        if !self.session.rust_decides_optimize() {
            return;
        }
        for _ in 0..self.random.between(2, 5) {
            let mut edit = Edit::new(Op::InsertOnBranch);
            edit.kind = 1;
            edit.point = self.point();
            (edit.a, edit.b) = self.branch();
            self.add(edit);
        }
        self.add(Edit::new(Op::Optimize));
    }

    /// A call that leaves the tree as it is.
    fn question(&mut self) {
        let op = self.random.pick(&[
            Op::Bytes,
            Op::Bytes,
            Op::Bytes,
            Op::Bytes,
            Op::Text,
            Op::Path,
            Op::Path,
            Op::Terminals,
            Op::Steiners,
            Op::Lookup,
            Op::Figures,
        ]);
        let mut edit = Edit::new(op);
        edit.a = self.name();
        let enough = match op {
            Op::Bytes => BYTES_ROOM,
            Op::Text => TEXT_ROOM,
            _ => LIST_ROOM,
        };
        let tight = match op {
            Op::Bytes => 24 + 16 * nodes(self.session.tree()).len() as u32 - self.random.below(2) as u32,
            Op::Text => self.session.tree().get_tree_structure().len() as u32 - self.random.below(2) as u32,
            _ => self.random.below(8) as u32,
        };
        edit.room = if self.random.one_in(6) { tight.min(enough) } else { enough };
        self.add(edit);
    }

    fn ask_all(&mut self) {
        for (op, room) in [
            (Op::Bytes, BYTES_ROOM),
            (Op::Text, TEXT_ROOM),
            (Op::Terminals, LIST_ROOM),
            (Op::Steiners, LIST_ROOM),
            (Op::Figures, 0),
        ] {
            let mut edit = Edit::new(op);
            edit.room = room;
            self.add(edit);
        }
    }

    /// Inserts until the tree is nearly full, mostly by the search, so that some edits want one
    /// node and some two where one is left.
    fn fill(&mut self) {
        let chain = self.random.one_in(4);
        while nodes(self.session.tree()).len() < 247 {
            let nodes = nodes(self.session.tree());
            let last = name_of(nodes[nodes.len() - 1]);
            let mut edit = Edit::new(if chain { Op::InsertTerminal } else { Op::InsertWithConstraints });
            edit.point = self.field.point(&mut self.random);
            edit.allowance = self.random.between(0, 30);
            edit.has_parent = true;
            edit.a = last;
            self.add(edit);
        }
    }

    /// Steiner nodes put on one branch and removed again, until their numbers are nearly used up.
    fn use_up_numbers(&mut self) {
        let mut terminal = Edit::new(Op::InsertTerminal);
        terminal.point = self.field.point(&mut self.random);
        self.add(terminal);
        let rounds = self.random.pick(&[124, 125, 125, 126]);
        for _ in 0..rounds {
            for _ in 0..2 {
                let nodes = nodes(self.session.tree());
                let Some(p) = nodes[1].parent else { return };
                let mut edit = Edit::new(Op::InsertOnBranch);
                edit.kind = 1;
                (edit.a, edit.b) = (name_of(nodes[p]), name_of(nodes[1]));
                edit.point = self.field.point(&mut self.random);
                self.add(edit);
            }
            self.add(Edit::new(Op::Optimize));
        }
    }
}

/// The script of a case.
pub fn script(seed: u64, case: u64) -> Vec<u8> {
    let mut random = Random::of_case(seed, case);
    let field = Field::small(&mut random);
    let shape = random.below(60);
    let start = match shape {
        0 => Start::ByHand(Point::new(random.pick(&[1_000_001, -1_000_001, 1_000_000, i32::MIN]), 0)),
        1 => Start::Routed(make_jobs::job(seed, case)),
        2..=4 => Start::ByHand(field.point(&mut random)),
        // tree limit 0, where the search begins with 1 as its best distance
        5..=8 => Start::Routed(job::write(2, 0, field.point(&mut random), &[], &[])),
        n if n % 2 == 0 => Start::ByHand(field.point(&mut random)),
        _ => {
            let terminals = random.pick(&[0, 1, 1, 2, 3, 5, 8, 20]);
            Start::Routed(accepted_in(&mut random, &field, terminals))
        }
    };
    let header = write(&start, &[]);
    let session = match Session::begin(start) {
        Ok(session) => session,
        Err(_) => return header,
    };
    let mut maker = Maker { random, field, session, edits: Vec::new() };
    match shape {
        2 | 3 => maker.fill(),
        4 => maker.use_up_numbers(),
        _ => {}
    }
    for _ in 0..maker.random.between(1, 30) {
        if maker.random.one_in(8) {
            maker.splices();
        } else {
            maker.change();
        }
        if maker.random.one_in(2) {
            maker.question();
        }
    }
    maker.ask_all();
    let mut bytes = header;
    bytes.extend(write(&Start::ByHand(Point::new(0, 0)), &maker.edits).split_off(16));
    assert!(bytes.len() <= MAX_SCRIPT);
    bytes
}
