//! Hand edits on a tree of the Rust. The Rust panics on an unknown name and on a branch end that
//! isn't a child, and has no other refusal: document 01's are tested here, in its order.

use crate::job::{self, out_of_limit, reversed, MAX_KEEPOUTS};
use crate::route;
use crate::script::{self, Edit, Op, Start};
use crate::tree::{figures_line, index_of, kind_of, nodes, tree_bytes, Figures};
use physdes::global_router::{GlobalRoutingTree, NodeType};
use std::fmt::Write;

pub const MAX_NODES: usize = 250;
pub const MAX_STEINER_NUMBER: usize = 250;

pub enum Answer {
    /// Whole lines.
    Said(String),
    Refused(u8),
    /// The Rust doesn't decide this one, nor anything after it.
    NoOracle,
}

/// A tree with the accepted edits that led to it, from which it can be built again: the Rust's
/// tree has no copy.
pub struct Session {
    start: Start,
    accepted: Vec<Edit>,
    tree: GlobalRoutingTree,
    figures: Figures,
    steiners_made: usize,
}

impl Session {
    pub fn begin(start: Start) -> Result<Self, u8> {
        let figures = match &start {
            Start::ByHand(source) if out_of_limit(*source) => return Err(5),
            Start::ByHand(_) => Figures::BY_HAND,
            Start::Routed(job) => route::figures(&job::read(job)?),
        };
        let tree = begun(&start);
        let steiners_made = tree.get_all_steiner_nodes().len();
        Ok(Session { start, accepted: Vec::new(), tree, figures, steiners_made })
    }

    pub fn tree(&self) -> &GlobalRoutingTree {
        &self.tree
    }

    /// One record's answer; an accepted edit is made.
    pub fn answer(&mut self, edit: &Edit) -> Answer {
        if let Some(refusal) = self.first_tests(edit) {
            return Answer::Refused(refusal);
        }
        match edit.op {
            Op::Optimize if !self.rust_decides_optimize() => return Answer::NoOracle,
            Op::Path | Op::Terminals | Op::Steiners | Op::Lookup => return self.listed(edit),
            Op::Text => {
                let text = self.tree.get_tree_structure();
                return within(edit.room, text.len(), format!("text {}\n{}", text.len(), text));
            }
            Op::Bytes => {
                let bytes = tree_bytes(&self.tree, self.figures);
                let digits: String = bytes.iter().map(|b| format!("{b:02x}")).collect();
                return within(edit.room, bytes.len(), format!("bytes {digits}\n"));
            }
            Op::Figures => return Answer::Said(figures_line(&self.tree, self.figures)),
            _ => {}
        }
        if self.past_limits(edit) {
            return Answer::Refused(10);
        }
        let before = self.tree.get_all_steiner_nodes().len();
        perform(&mut self.tree, edit);
        let after = self.tree.get_all_steiner_nodes().len();
        self.steiners_made += after.saturating_sub(before);
        self.accepted.push(edit.clone());
        Answer::Said(format!("ok {}\n", count(&self.tree)))
    }

    /// Refusals 5, 2, 6, 7, 9 and 8, in this order.
    fn first_tests(&self, edit: &Edit) -> Option<u8> {
        let (point, keepouts, names) = match edit.op {
            Op::InsertSteiner | Op::InsertTerminal => (true, false, edit.has_parent as usize),
            Op::InsertOnBranch => (true, false, 2),
            Op::InsertWithSteiner | Op::InsertWithConstraints => (true, true, 0),
            Op::Path | Op::Lookup => (false, false, 1),
            _ => (false, false, 0),
        };
        if point && out_of_limit(edit.point) {
            return Some(5);
        }
        if keepouts && edit.keepouts.len() > MAX_KEEPOUTS {
            return Some(2);
        }
        if keepouts && edit.keepouts.iter().any(reversed) {
            return Some(6);
        }
        let nodes = nodes(&self.tree);
        let found: Vec<_> = [edit.a, edit.b][..names].iter().map(|n| index_of(&nodes, &n.id())).collect();
        if found.contains(&None) {
            return Some(7);
        }
        if edit.op == Op::InsertOnBranch {
            if edit.kind == 0 {
                return Some(9);
            }
            if nodes[found[1].unwrap()].parent != found[0] {
                return Some(8);
            }
        }
        None
    }

    /// Refusal 10, decided by making the edit on a copy, since the search tells how many nodes it adds.
    fn past_limits(&self, edit: &Edit) -> bool {
        if count(&self.tree) + 2 <= MAX_NODES && self.steiners_made < MAX_STEINER_NUMBER {
            return false;
        }
        let mut copy = begun(&self.start);
        for earlier in &self.accepted {
            perform(&mut copy, earlier);
        }
        let before = copy.get_all_steiner_nodes().len();
        perform(&mut copy, edit);
        let added = copy.get_all_steiner_nodes().len().saturating_sub(before);
        count(&copy) > MAX_NODES || (added > 0 && self.steiners_made + added > MAX_STEINER_NUMBER)
    }

    /// Whether every index that `optimize_steiner_points` removes is above every one that it leaves.
    pub fn rust_decides_optimize(&self) -> bool {
        let removed: Vec<bool> =
            nodes(&self.tree).iter().map(|n| kind_of(n) == 1 && n.children.len() == 1).collect();
        removed.is_sorted()
    }

    fn listed(&self, edit: &Edit) -> Answer {
        let nodes = nodes(&self.tree);
        let (word, list) = match edit.op {
            Op::Path => ("path", self.tree.find_path_to_source(&edit.a.id())),
            Op::Terminals => ("terminals", self.tree.get_all_terminals()),
            Op::Steiners => ("steiners", self.tree.get_all_steiner_nodes()),
            _ => {
                let index = index_of(&nodes, &edit.a.id()).unwrap();
                return Answer::Said(format!("index {index}\n"));
            }
        };
        let mut line = word.to_string();
        for node in &list {
            write!(line, " {}", index_of(&nodes, &node.id).unwrap()).unwrap();
        }
        within(edit.room, list.len(), line + "\n")
    }
}

fn begun(start: &Start) -> GlobalRoutingTree {
    match start {
        Start::ByHand(source) => GlobalRoutingTree::new(*source),
        Start::Routed(job) => match job::read(job) {
            Ok(job) => route::editable(&job),
            Err(_) => unreachable!("the job was accepted when the session began"),
        },
    }
}

fn count(tree: &GlobalRoutingTree) -> usize {
    1 + tree.get_all_terminals().len() + tree.get_all_steiner_nodes().len()
}

/// Refusal 11, or what is said.
fn within(room: u32, needed: usize, said: String) -> Answer {
    if (room as usize) < needed {
        Answer::Refused(11)
    } else {
        Answer::Said(said)
    }
}

fn perform(tree: &mut GlobalRoutingTree, edit: &Edit) {
    let (a, b) = (edit.a.id(), edit.b.id());
    let parent = edit.has_parent.then_some(a.as_str());
    let keepouts = Some(edit.keepouts.clone());
    match edit.op {
        Op::InsertSteiner => drop(tree.insert_steiner_node(edit.point, parent)),
        Op::InsertTerminal => drop(tree.insert_terminal_node(edit.point, parent)),
        Op::InsertOnBranch => {
            let kind = if edit.kind == 1 { NodeType::Steiner } else { NodeType::Terminal };
            tree.insert_node_on_branch(kind, edit.point, &a, &b);
        }
        Op::InsertWithSteiner => tree.insert_terminal_with_steiner(edit.point, keepouts),
        Op::InsertWithConstraints => {
            tree.insert_terminal_with_constraints(edit.point, edit.allowance, keepouts)
        }
        Op::Optimize => tree.optimize_steiner_points(),
        _ => unreachable!("this call changes no tree"),
    }
}

/// The answers to a script: a line for its start and one for each record (a text's lines follow
/// its own), ending early at a refused start or at `no oracle`. Nothing where the file is no script.
pub fn answers(bytes: &[u8]) -> Option<String> {
    let (start, edits) = script::read(bytes)?;
    let mut session = match Session::begin(start) {
        Ok(session) => session,
        Err(refusal) => return Some(format!("refused {refusal}\n")),
    };
    let mut out = format!("ok {}\n", count(&session.tree));
    for edit in &edits {
        match session.answer(edit) {
            Answer::Said(lines) => out += &lines,
            Answer::Refused(refusal) => writeln!(out, "refused {refusal}").unwrap(),
            Answer::NoOracle => {
                out += "no oracle\n";
                break;
            }
        }
    }
    Some(out)
}
