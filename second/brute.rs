//! Routes by trying all of them: every allowed step from every real stack, one layer for each number of steps. It
//! knows nothing of levels, tunnels or pairs of places, and serves to check the reference on small networks. Of two
//! equally long routes to the same node and stack only the better is kept, as whatever follows one may follow the
//! other; stacks too high to come down within the step limit are dropped.

use crate::reference::{Kind, Network, StepKey};
use std::collections::BTreeMap;

/// Weight, then keys: the order among routes of equally many steps.
type Weighed = (u64, Vec<StepKey>);
/// The packet: the node it is at and its stack, bottom first.
type Packet = (u32, Vec<u32>);

#[derive(Clone, Debug, PartialEq, Eq, PartialOrd, Ord)]
pub struct Tried {
    pub weight: u64,
    pub steps: usize,
    pub keys: Vec<StepKey>,
}

/// The best routes of at most so many steps from node S with only a, by the node and single protocol they end with.
pub fn try_all(network: &Network, s: u32, a: u32, most_steps: usize) -> BTreeMap<(u32, u32), Tried> {
    let mut best: BTreeMap<(u32, u32), Tried> = BTreeMap::new();
    let mut layer = BTreeMap::from([((s, vec![a]), (0, Vec::new()))]);
    for steps in 0..=most_steps {
        for ((node, stack), (weight, keys)) in &layer {
            if let [only] = stack[..] {
                let tried = Tried { weight: *weight, steps, keys: keys.clone() };
                let known = best.entry((*node, only)).or_insert_with(|| tried.clone());
                if tried < *known {
                    *known = tried;
                }
            }
        }
        layer = next_layer(network, &layer);
        layer.retain(|(_, stack), _| stack.len() + steps <= most_steps);
    }
    best
}

fn next_layer(network: &Network, layer: &BTreeMap<Packet, Weighed>) -> BTreeMap<Packet, Weighed> {
    let mut next: BTreeMap<Packet, Weighed> = BTreeMap::new();
    for ((node, stack), (weight, keys)) in layer {
        for (function, function_weight) in network.functions_of(*node) {
            let Some(stack) = after(stack, function.kind, function.x, function.y) else { continue };
            for (number, link) in network.links_of(*node) {
                let key = [number as u16, function.kind as u16, function.x as u16, function.y as u16];
                let total = weight + u64::from(function_weight) + u64::from(link.weight);
                let weighed = (total, [&keys[..], &[key]].concat());
                let known = next.entry((link.to, stack.clone())).or_insert_with(|| weighed.clone());
                if weighed < *known {
                    *known = weighed;
                }
            }
        }
    }
    next
}

/// The stack after a function, or nothing where it is not allowed.
fn after(stack: &[u32], kind: Kind, x: u32, y: u32) -> Option<Vec<u32>> {
    match (kind, stack) {
        (Kind::Conv, [beneath @ .., top]) if *top == x => Some([beneath, &[y]].concat()),
        (Kind::Wrap, [.., top]) if *top == x => Some([stack, &[y]].concat()),
        (Kind::Unwrap, [beneath @ .., top]) if *top == y && beneath.last() == Some(&x) => Some(beneath.to_vec()),
        _ => None,
    }
}
