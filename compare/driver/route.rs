//! Routing a job with the Rust's own router.

use crate::job::{self, Job, Mode};
use crate::tree::{figures_line, tree_bytes, Figures};
use physdes::generic::MinDist;
use physdes::global_router::{GlobalRouter, GlobalRoutingTree};

pub fn figures(job: &Job) -> Figures {
    let distances = job.terminals.iter().map(|t| job.source.min_dist_with(t) as i32);
    let farthest = distances.max().unwrap_or(0);
    let allowed = match job.mode {
        Mode::Constraints(multiplier) => (farthest as f64 * multiplier).round() as i32,
        _ => i32::MAX,
    };
    Figures { allowed, farthest }
}

pub fn route(job: &Job) -> GlobalRouter {
    let mut router = GlobalRouter::new(job.source, job.terminals.clone(), Some(job.keepouts.clone()));
    match job.mode {
        Mode::Simple => router.route_simple(),
        Mode::Steiners => router.route_with_steiners(),
        Mode::Constraints(multiplier) => router.route_with_constraints(multiplier),
    }
    router
}

/// What `routeplan` prints for a job file, and the tree bytes (none on a refusal).
pub fn answer(bytes: &[u8]) -> (String, Vec<u8>) {
    match job::read(bytes) {
        Err(refusal) => (format!("refused {refusal}\n"), Vec::new()),
        Ok(job) => {
            let router = route(&job);
            let tree = router.get_tree();
            let figures = figures(&job);
            let text = tree.get_tree_structure() + &figures_line(tree, figures);
            (text, tree_bytes(tree, figures))
        }
    }
}

/// The routed tree as one that can be edited. The router lends its tree for reading only, so its
/// insertions are made again, in its order, and the outcome is held to the router's.
pub fn editable(job: &Job) -> GlobalRoutingTree {
    let router = route(job);
    let figures = figures(job);
    let mut tree = GlobalRoutingTree::new(job.source);
    tree.worst_wirelength = router.get_tree().worst_wirelength;
    for terminal in router.get_tree().get_all_terminals() {
        let keepouts = Some(job.keepouts.clone());
        match job.mode {
            Mode::Simple => {
                tree.insert_terminal_node(terminal.pt, None);
            }
            Mode::Steiners => tree.insert_terminal_with_steiner(terminal.pt, keepouts),
            Mode::Constraints(_) => {
                tree.insert_terminal_with_constraints(terminal.pt, figures.allowed, keepouts)
            }
        }
    }
    assert!(tree_bytes(&tree, figures) == tree_bytes(router.get_tree(), figures));
    tree
}
