//! The netlist judge as one would write it in ordinary Rust, to time ours against.

/// How many inputs a node of a kind has, if it is a kind.
fn inputs(kind: u8) -> Option<u8> {
    match kind {
        1 => Some(0),
        2..=5 => Some(1),
        6..=8 => Some(2),
        9 => Some(3),
        _ => None,
    }
}

/// 0 for an image that is accepted, else the first number from 1 to 11 that has a cause anywhere in it.
pub fn judge(image: &[u8]) -> u8 {
    let &[n, c, ref rest @ ..] = image else { return 1 };
    if n == 0 || n > 64 || c > 96 {
        return 2;
    }
    let (n, c) = (n as usize, c as usize);
    if image.len() != 2 + 5 * n + 5 * c {
        return 3;
    }
    let (kinds, rest) = rest.split_at(n);
    let (wires, depths) = rest[4 * n..].split_at(3 * c);
    if kinds.iter().any(|&kind| inputs(kind).is_none()) {
        return 4;
    }
    if wires.chunks_exact(3).any(|wire| wire[0] as usize >= n || wire[1] as usize >= n) {
        return 5;
    }

    // Bit p of a node's number: its port p is fed.
    let mut fed = [0u8; 64];
    let mut twice = false;
    for wire in wires.chunks_exact(3) {
        let (to, port) = (wire[1] as usize, wire[2]);
        if port >= inputs(kinds[to]).unwrap_or(0) {
            return 6;
        }
        twice |= fed[to] >> port & 1 == 1;
        fed[to] |= 1 << port;
    }
    if twice {
        return 7;
    }
    if kinds.iter().zip(fed).any(|(&kind, ports)| ports.count_ones() != inputs(kind).unwrap_or(0) as u32) {
        return 8;
    }
    if depths.chunks_exact(2).any(|depth| depth[0] > 8) {
        return 9;
    }
    if depths.chunks_exact(2).any(|depth| depth[1] == 0 || depth[1] > 8) {
        return 10;
    }
    if depths.chunks_exact(2).map(|depth| depth[0] as u32).sum::<u32>() > 256 {
        return 11;
    }
    0
}
