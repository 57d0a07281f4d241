//! A tree of the Rust, read through its public calls: nodes by index, tree bytes, the figures' line.

use physdes::global_router::{GlobalRoutingTree, NodeType, RoutingNode};

/// What document 01 writes beside a tree and no edit changes.
#[derive(Clone, Copy)]
pub struct Figures {
    pub allowed: i32,
    pub farthest: i32,
}

impl Figures {
    pub const BY_HAND: Figures = Figures { allowed: i32::MAX, farthest: 0 };
}

/// Every node, in the order of the indices. The tree lends its nodes by kind only; but they stand
/// in one vector, so the order of their addresses is that of their indices.
pub fn nodes(tree: &GlobalRoutingTree) -> Vec<&RoutingNode> {
    let mut nodes = vec![tree.get_source()];
    nodes.extend(tree.get_all_terminals());
    nodes.extend(tree.get_all_steiner_nodes());
    nodes.sort_by_key(|n| *n as *const RoutingNode as usize);
    for (index, node) in nodes.iter().enumerate() {
        let listed: usize = nodes.iter().map(|n| n.children.iter().filter(|&&c| c == index).count()).sum();
        let linked = match node.parent {
            Some(p) => listed == 1 && nodes[p].children.contains(&index),
            None => listed == 0 && index == 0,
        };
        assert!(linked, "the links of node {index} don't agree with its index");
    }
    nodes
}

/// The index of the node with this name.
pub fn index_of(nodes: &[&RoutingNode], id: &str) -> Option<usize> {
    nodes.iter().position(|n| n.id == id)
}

pub fn kind_of(node: &RoutingNode) -> u8 {
    match node.node_type {
        NodeType::Source => 0,
        NodeType::Steiner => 1,
        NodeType::Terminal => 2,
    }
}

/// The number in a node's name, 0 for the source.
pub fn number_of(node: &RoutingNode) -> usize {
    match node.id.split_once('_') {
        Some((_, digits)) => digits.parse().unwrap(),
        None => 0,
    }
}

/// Document 01's "Tree bytes": a header of 24, then 16 for each node.
pub fn tree_bytes(tree: &GlobalRoutingTree, figures: Figures) -> Vec<u8> {
    let nodes = nodes(tree);
    let mut out = vec![
        nodes.len() as u8,
        tree.get_all_terminals().len() as u8,
        tree.get_all_steiner_nodes().len() as u8,
        0,
    ];
    out.extend(24u32.to_le_bytes());
    let total = tree.calculate_total_wirelength();
    let worst = tree.calculate_worst_wirelength();
    for figure in [figures.allowed, figures.farthest, total, worst] {
        out.extend(figure.to_le_bytes());
    }
    for (index, node) in nodes.iter().enumerate() {
        let (parent, place) = match node.parent {
            Some(p) => (p as u8, nodes[p].children.iter().position(|&c| c == index).unwrap() as u8),
            None => (255, 0),
        };
        out.extend([kind_of(node), parent, number_of(node) as u8, place]);
        for figure in [node.pt.xcoord, node.pt.ycoord, node.path_length] {
            out.extend(figure.to_le_bytes());
        }
    }
    out
}

/// The last line of `routeplan`.
pub fn figures_line(tree: &GlobalRoutingTree, figures: Figures) -> String {
    format!(
        "allowed {} farthest {} total {} worst {}\n",
        figures.allowed,
        figures.farthest,
        tree.calculate_total_wirelength(),
        tree.calculate_worst_wirelength()
    )
}
