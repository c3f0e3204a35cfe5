//! The strict run as one would write it in ordinary Rust, to time ours against.
use crate::engine::{next_value, Netlist};
use crate::judge::judge;

struct Node {
    kind: u8,
    feeders: [usize; 3],
}

/// Writes the values of all nodes in a cycle to the first places of `values`. Answers the number.
pub fn strict(image: &[u8], cycle: u32, values: &mut [i32]) -> u8 {
    let number = judge(image);
    if number != 0 {
        return number;
    }
    let net = Netlist::decode(image);
    if cycle > 1_000_000 {
        return 14;
    }
    if values.len() < net.kinds.len() {
        return 13;
    }

    // A port that no channel feeds reads the node itself; its kind does not look at it.
    let kinds = net.kinds.iter().enumerate();
    let mut nodes: Vec<Node> = kinds.map(|(i, &kind)| Node { kind, feeders: [i; 3] }).collect();
    for channel in &net.channels {
        nodes[channel.to].feeders[channel.port] = channel.from;
    }

    let mut now = net.parameters;
    let mut next = now.clone();
    for _ in 0..cycle {
        for (i, node) in nodes.iter().enumerate() {
            next[i] = next_value(node.kind, now[i], node.feeders.map(|f| now[f]));
        }
        std::mem::swap(&mut now, &mut next);
    }
    values[..now.len()].copy_from_slice(&now);
    0
}
