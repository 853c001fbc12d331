//! A network whose one route from node 0 to its last node opens a chosen number of tunnels before it closes any. A ring
//! of nodes that wrap is left at one node only, and so is a ring of nodes that unwrap: the number of tunnels has to fit
//! both rings, and where the rings' sizes are coprime the smallest number below their product that does is the chosen one.

use crate::reference::{Function, Kind, Link, Network};

#[derive(Clone, Copy)]
pub struct Rings {
    pub wraps: u32,
    pub unwraps: u32,
    pub tunnels: u32,
    /// Passive nodes between the rings, passed inside all tunnels, and after them, passed outside.
    pub inside: u32,
    pub after: u32,
    /// Of every link and every function.
    pub weight: u32,
    /// How many parallel links lead wherever one does; the one numbered lowest belongs to the best route.
    pub parallel: u32,
}

impl Rings {
    pub fn of(wraps: u32, unwraps: u32, tunnels: u32) -> Rings {
        Rings { wraps, unwraps, tunnels, inside: 0, after: 0, weight: 1, parallel: 1 }
    }

    pub fn network(&self) -> Network {
        let unwraps_from = self.wraps + self.inside;
        let after_from = unwraps_from + self.unwraps;
        let mut network = Network::new(after_from + self.after + 1, 1);
        let last_wrap = self.ring(&mut network, Kind::Wrap, 0, self.wraps);
        self.row(&mut network, last_wrap, self.wraps, self.inside);
        let last_unwrap = self.ring(&mut network, Kind::Unwrap, unwraps_from, self.unwraps);
        self.row(&mut network, last_unwrap, after_from, self.after);
        network
    }

    /// Adds a ring of one kind and gives the node at which the chosen number of rounds leaves it.
    fn ring(&self, network: &mut Network, kind: Kind, first: u32, size: u32) -> u32 {
        for at in 0..size {
            self.function(network, kind, first + at);
            self.links(network, first + at, first + (at + 1) % size);
        }
        first + (self.tunnels - 1) % size
    }

    /// Adds so many passive nodes after a node, and the link on to the node that follows them.
    fn row(&self, network: &mut Network, after: u32, first: u32, size: u32) {
        self.links(network, after, first);
        for node in first..first + size {
            self.function(network, Kind::Conv, node);
            self.links(network, node, node + 1);
        }
    }

    fn function(&self, network: &mut Network, kind: Kind, node: u32) {
        network.functions.insert(Function { node, kind, x: 0, y: 0 }, self.weight);
    }

    fn links(&self, network: &mut Network, from: u32, to: u32) {
        for _ in 0..self.parallel {
            network.links.insert(network.links.len() as u32, Link { from, to, weight: self.weight });
        }
    }
}
