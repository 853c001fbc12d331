//! The network file: its lines, its limits, the refusals 1 to 5, and the normal file. Links and functions stand in
//! ordered maps under what they are known by, so that "already given" is a lookup and the normal order is the map's.

use super::lines::{fields, lines, number, write_line};
use super::{Enquiry, Outcome};
use std::collections::BTreeMap;

pub const FILE_LIMIT: usize = 65_536;
/// Most links, and most functions, in a file.
pub const LINE_LIMIT: usize = 1_024;
pub const PLACE_LIMIT: u64 = 1_024;
const NODE_LIMIT: u64 = 256;
const PROTOCOL_LIMIT: u64 = 16;
const LINK_NUMBER_LIMIT: u64 = 65_535;
const STEP_PART_LIMIT: u64 = 1_000_000_000;

#[derive(Clone, Copy, Debug, PartialEq, Eq, PartialOrd, Ord)]
pub enum Kind {
    Conv = 0,
    Wrap = 1,
    Unwrap = 2,
}

impl Kind {
    pub const ALL: [Kind; 3] = [Kind::Conv, Kind::Wrap, Kind::Unwrap];

    pub fn word(self) -> &'static str {
        ["conv", "wrap", "unwrap"][self as usize]
    }

    fn spelled(word: &[u8]) -> Option<Kind> {
        Kind::ALL.into_iter().find(|kind| kind.word().as_bytes() == word)
    }
}

#[derive(Clone, Copy, Debug, PartialEq, Eq)]
pub struct Link {
    pub from: u32,
    pub to: u32,
    pub weight: u32,
}

/// What a function is known by; its order is the normal file's.
#[derive(Clone, Copy, Debug, PartialEq, Eq, PartialOrd, Ord)]
pub struct Function {
    pub node: u32,
    pub kind: Kind,
    pub x: u32,
    pub y: u32,
}

#[derive(Clone, Debug)]
pub struct Network {
    pub nodes: u32,
    pub protocols: u32,
    /// By link number.
    pub links: BTreeMap<u32, Link>,
    /// The weight of each function.
    pub functions: BTreeMap<Function, u32>,
}

/// Outcome number 1 to 5 and the bad line (0 for 1).
#[derive(Clone, Copy, Debug, PartialEq, Eq)]
pub struct Refusal {
    pub number: u32,
    pub line: u32,
}

impl Refusal {
    pub fn outcome(self) -> Outcome {
        Outcome { number: self.number, line: self.line, ..Outcome::default() }
    }
}

/// A line of right shape, its numbers not yet held to their ranges.
enum Line {
    Net { nodes: u64, protocols: u64 },
    Link { number: u64, from: u64, to: u64, weight: u64 },
    Function { node: u64, kind: Kind, x: u64, y: u64, weight: u64 },
}

impl Network {
    pub fn new(nodes: u32, protocols: u32) -> Self {
        Network { nodes, protocols, links: BTreeMap::new(), functions: BTreeMap::new() }
    }

    pub fn read(file: &[u8]) -> Result<Network, Refusal> {
        if file.len() > FILE_LIMIT {
            return Err(Refusal { number: 1, line: 0 });
        }
        let mut lines = lines(file);
        let (_, first) = lines.next().unwrap_or((1, b""));
        let mut network = Network::headed(first).map_err(|number| Refusal { number, line: 1 })?;
        for (line, bytes) in lines {
            network.take(bytes).map_err(|number| Refusal { number, line })?;
        }
        Ok(network)
    }

    /// The empty network that the first line announces, or the number it is refused with.
    fn headed(first: &[u8]) -> Result<Network, u32> {
        match shape(first) {
            Some(Line::Net { nodes, protocols }) => {
                let fits = (1..=NODE_LIMIT).contains(&nodes)
                    && (1..=PROTOCOL_LIMIT).contains(&protocols)
                    && nodes * protocols <= PLACE_LIMIT;
                fits.then(|| Network::new(nodes as u32, protocols as u32)).ok_or(3)
            }
            _ => Err(2),
        }
    }

    /// Adds one later line, or gives the number it is refused with: 2, 3, 4, 5 in that order.
    fn take(&mut self, bytes: &[u8]) -> Result<(), u32> {
        let (nodes, protocols) = (u64::from(self.nodes), u64::from(self.protocols));
        match shape(bytes).ok_or(2u32)? {
            Line::Net { .. } => Err(2),
            Line::Link { number, from, to, weight } => {
                if number > LINK_NUMBER_LIMIT || from >= nodes || to >= nodes || weight > STEP_PART_LIMIT {
                    return Err(3);
                }
                let link = Link { from: from as u32, to: to as u32, weight: weight as u32 };
                insert_once(&mut self.links, number as u32, link)
            }
            Line::Function { node, kind, x, y, weight } => {
                if node >= nodes || x >= protocols || y >= protocols || weight > STEP_PART_LIMIT {
                    return Err(3);
                }
                let function = Function { node: node as u32, kind, x: x as u32, y: y as u32 };
                insert_once(&mut self.functions, function, weight as u32)
            }
        }
    }

    pub fn normal_file(&self) -> Vec<u8> {
        let mut text = String::new();
        write_line(&mut text, &[&"net", &self.nodes, &self.protocols]);
        for (number, Link { from, to, weight }) in &self.links {
            write_line(&mut text, &[&"link", number, from, to, weight]);
        }
        for (Function { node, kind, x, y }, weight) in &self.functions {
            write_line(&mut text, &[&"fun", node, &kind.word(), x, y, weight]);
        }
        text.into_bytes()
    }

    /// N, the number of places.
    pub fn places(&self) -> usize {
        self.place(self.nodes, 0)
    }

    pub fn place(&self, node: u32, protocol: u32) -> usize {
        (node * self.protocols + protocol) as usize
    }

    /// Whether all four values of an enquiry are in range.
    pub fn holds(&self, Enquiry { s, a, d, b }: Enquiry) -> bool {
        s < self.nodes && d < self.nodes && a < self.protocols && b < self.protocols
    }

    pub fn ends(&self, Enquiry { s, a, d, b }: Enquiry) -> (usize, usize) {
        (self.place(s, a), self.place(d, b))
    }

    /// The functions of one node with their weights, in normal order.
    pub fn functions_of(&self, node: u32) -> impl Iterator<Item = (&Function, u32)> {
        let lowest = Function { node, kind: Kind::Conv, x: 0, y: 0 };
        self.functions.range(lowest..).take_while(move |(f, _)| f.node == node).map(|(f, &weight)| (f, weight))
    }

    /// The links leaving one node, rising by number.
    pub fn links_of(&self, node: u32) -> impl Iterator<Item = (u32, &Link)> {
        self.links.iter().filter(move |(_, link)| link.from == node).map(|(&number, link)| (number, link))
    }
}

/// 4 comes before 5, so a used key is told even when the map is full.
fn insert_once<K: Ord, V>(map: &mut BTreeMap<K, V>, key: K, value: V) -> Result<(), u32> {
    if map.contains_key(&key) {
        return Err(4);
    }
    if map.len() == LINE_LIMIT {
        return Err(5);
    }
    map.insert(key, value);
    Ok(())
}

fn shape(bytes: &[u8]) -> Option<Line> {
    let fields = fields(bytes)?;
    match fields[..] {
        [b"net", n, p] => Some(Line::Net { nodes: number(n)?, protocols: number(p)? }),
        [b"link", link, from, to, weight] => {
            Some(Line::Link { number: number(link)?, from: number(from)?, to: number(to)?, weight: number(weight)? })
        }
        [b"fun", node, kind, x, y, weight] => Some(Line::Function {
            node: number(node)?,
            kind: Kind::spelled(kind)?,
            x: number(x)?,
            y: number(y)?,
            weight: number(weight)?,
        }),
        _ => None,
    }
}
