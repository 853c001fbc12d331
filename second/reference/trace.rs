//! The trace of a route: every step replayed on a real stack. A step that is not allowed where it stands, a wrong end
//! or a wrong total would be a fault of the reference itself, and stops it.

use super::best::{Cost, StepKey};
use super::lines::write_line;
use super::network::{Function, Kind, Network};
use super::Enquiry;

pub fn trace(network: &Network, enquiry: Enquiry, cost: Cost, keys: &[StepKey]) -> Vec<u8> {
    let mut text = String::new();
    write_line(&mut text, &[&"path", &cost.weight, &cost.steps]);
    let mut node = enquiry.s;
    let mut stack = vec![enquiry.a];
    let mut weight = 0;
    for key in keys {
        let [number, kind, x, y] = key.map(u32::from);
        let kind = Kind::ALL[kind as usize];
        let link = network.links[&number];
        assert_eq!(link.from, node, "the link leaves the present node");
        weight += u64::from(link.weight) + u64::from(network.functions[&Function { node, kind, x, y }]);
        apply(&mut stack, kind, x, y);
        node = link.to;
        write_line(&mut text, &[&"step", &number, &kind.word(), &x, &y, &node, &dotted(&stack)]);
    }
    assert_eq!((node, &stack[..]), (enquiry.d, &[enquiry.b][..]), "the route ends where it should");
    assert_eq!((weight, keys.len()), (cost.weight, cost.steps as usize), "the totals are the route's");
    text.into_bytes()
}

fn apply(stack: &mut Vec<u32>, kind: Kind, x: u32, y: u32) {
    let top = stack.pop();
    match kind {
        Kind::Conv => {
            assert_eq!(top, Some(x));
            stack.push(y);
        }
        Kind::Wrap => {
            assert_eq!(top, Some(x));
            stack.extend([x, y]);
        }
        Kind::Unwrap => assert_eq!((top, stack.last()), (Some(y), Some(&x))),
    }
}

/// The stack, bottom first.
fn dotted(stack: &[u32]) -> String {
    stack.iter().map(u32::to_string).collect::<Vec<_>>().join(".")
}
