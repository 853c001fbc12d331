//! Networks for the cases, each with an enquiry worth asking. Most are small and full of ties; some families are built
//! to a purpose: totals at the weight limit, stacks as high as two rings force them, routes whose length doubles with
//! every few nodes, and files as full as the limits allow.

use crate::random::Random;
use crate::reference::{Enquiry, Function, Kind, Link, Network, LINE_LIMIT, PLACE_LIMIT};

/// A network file with the name of its family and, where it was built around a route, that route's enquiry.
pub struct Made {
    pub family: &'static str,
    pub file: Vec<u8>,
    pub enquiry: Option<Enquiry>,
}

/// Few different weights make many ties; the last ones come near the limits or past 32 bits when added up.
const PALETTES: [&[u32]; 12] = [
    &[0],
    &[1],
    &[0, 1],
    &[0, 0, 0, 5],
    &[1, 2],
    &[1, 2, 3],
    &[3, 4, 5, 6, 7],
    &[0, 10, 100],
    &[1_000_000_000],
    &[999_999_999, 1_000_000_000],
    &[0, 1, 500_000_000, 1_000_000_000],
    &[1, 294_967_294, 294_967_295, 294_967_296, 1_000_000_000],
];

/// Totals on both sides of the weight limit, of the two marks and of 32 bits.
const TOTALS: [u64; 9] = [
    3_999_999_999,
    4_000_000_000,
    4_000_000_001,
    4_294_967_293,
    4_294_967_294,
    4_294_967_295,
    4_294_967_296,
    4_294_967_297,
    8_589_934_592,
];

/// The greatest weight of a link or function.
const HEAVIEST: u32 = 1_000_000_000;

pub fn make(random: &mut Random) -> Made {
    match random.below(1000) {
        0..=329 => built("ties", random, ties),
        330..=679 => built("layers", random, layers),
        680..=789 => built("weight limit", random, weight_limit),
        790..=859 => built("rings", random, rings),
        860..=909 => built("doubling", random, doubling),
        910..=915 => built("step limit", random, step_limit),
        916..=955 => built("middle", random, middle),
        956..=964 => built("wide", random, wide),
        _ => crowded(random),
    }
}

/// Makes a network around a route and gives the route's enquiry.
type Family = fn(&mut Random) -> (Network, Enquiry);

fn built(family: &'static str, random: &mut Random, family_of: Family) -> Made {
    let (network, enquiry) = family_of(random);
    let file = in_any_order(random, &network.normal_file());
    Made { family, file, enquiry: Some(enquiry) }
}

/// The same lines with all but the first shuffled.
pub fn in_any_order(random: &mut Random, file: &[u8]) -> Vec<u8> {
    let mut lines: Vec<&[u8]> = file.split_inclusive(|&byte| byte == b'\n').collect();
    if let [_, others @ ..] = &mut lines[..] {
        random.shuffle(others);
    }
    lines.concat()
}

/// Where the next node of a planted route is taken from.
#[derive(Clone, Copy)]
enum Walk {
    Anywhere,
    NewNodes,
    /// The layer after the present one, each so many nodes wide.
    NextLayer(u32),
}

/// A network in the making.
struct Draft<'a> {
    random: &'a mut Random,
    network: Network,
    palette: &'static [u32],
    /// Link numbers are drawn below this, which has to exceed the number of links.
    numbers: usize,
    /// The share of links that get a parallel one.
    parallel: usize,
}

impl<'a> Draft<'a> {
    fn new(random: &'a mut Random, nodes: usize, protocols: usize) -> Draft<'a> {
        let palette = random.pick(&PALETTES);
        let numbers = random.pick(&[300, 400, 65_536]);
        Draft { random, network: Network::new(nodes as u32, protocols as u32), palette, numbers, parallel: 15 }
    }

    fn weight(&mut self) -> u32 {
        self.random.pick(self.palette)
    }

    fn node(&mut self) -> u32 {
        self.random.below(self.network.nodes as usize) as u32
    }

    fn protocol(&mut self) -> u32 {
        self.random.below(self.network.protocols as usize) as u32
    }

    /// Any node with any protocol.
    fn start(&mut self) -> (u32, u32) {
        (self.node(), self.protocol())
    }

    fn fresh_node(&mut self) -> u32 {
        self.network.nodes += 1;
        self.network.nodes - 1
    }

    fn link(&mut self, from: u32, to: u32) {
        let weight = self.weight();
        let mut number = self.random.below(self.numbers) as u32;
        while self.network.links.contains_key(&number) {
            number = self.random.below(self.numbers) as u32;
        }
        self.network.links.insert(number, Link { from, to, weight });
    }

    /// One link, and now and then a parallel one.
    fn links(&mut self, from: u32, to: u32) {
        self.link(from, to);
        while self.random.percent(self.parallel) {
            self.link(from, to);
        }
    }

    fn function(&mut self, node: u32, kind: Kind, x: u32, y: u32) {
        let weight = self.weight();
        self.network.functions.entry(Function { node, kind, x, y }).or_insert(weight);
    }

    /// Adds what a route of so many steps from S with only a needs, and gives its enquiry.
    fn plant(&mut self, (s, a): (u32, u32), steps: usize, walk: Walk) -> Enquiry {
        let (mut node, mut stack) = (s, vec![a]);
        for left in (0..steps).rev() {
            let (top, beneath) = (stack[stack.len() - 1], stack.len().checked_sub(2).map(|index| stack[index]));
            let other = self.protocol();
            // Whoever wraps has to find the steps to unwrap again.
            let kinds: Vec<Kind> = Kind::ALL
                .into_iter()
                .filter(|kind| match kind {
                    Kind::Conv => stack.len() - 1 <= left,
                    Kind::Wrap => stack.len() <= left,
                    Kind::Unwrap => beneath.is_some(),
                })
                .collect();
            stack.pop();
            match (self.random.pick(&kinds), beneath) {
                (Kind::Unwrap, Some(hidden)) => self.function(node, Kind::Unwrap, hidden, top),
                (Kind::Wrap, _) => {
                    self.function(node, Kind::Wrap, top, other);
                    stack.extend([top, other]);
                }
                _ => {
                    self.function(node, Kind::Conv, top, other);
                    stack.push(other);
                }
            }
            let to = match walk {
                Walk::Anywhere => self.node(),
                Walk::NewNodes => self.fresh_node(),
                Walk::NextLayer(width) => (node / width + 1) * width + self.random.below(width as usize) as u32,
            };
            self.links(node, to);
            node = to;
        }
        Enquiry { s, a, d: node, b: stack[0] }
    }

    fn sprinkle(&mut self, links: usize, functions: usize) {
        for _ in 0..links {
            let (from, to) = (self.node(), self.node());
            self.link(from, to);
        }
        for _ in 0..functions {
            let node = self.node();
            self.any_function(node);
        }
    }

    fn any_function(&mut self, node: u32) {
        let (x, y) = (self.protocol(), self.protocol());
        let kind = self.random.pick(&Kind::ALL);
        self.function(node, kind, x, y);
    }
}

/// A network small enough to try out all its routes of a few steps.
pub fn small(random: &mut Random) -> (Network, Enquiry) {
    let family = random.pick(&[ties, layers, weight_limit]);
    family(random)
}

/// At most twelve places, everything dense, hardly any two weights different.
fn ties(random: &mut Random) -> (Network, Enquiry) {
    let protocols = random.pick(&[1, 1, 2, 2, 2, 2, 3, 3, 4]);
    let nodes = random.within(1..=12 / protocols);
    let steps = random.within(0..=10);
    let (more_links, more_functions) = (random.below(2 * nodes + 1), random.below(4 * nodes + 1));
    let mut draft = Draft::new(random, nodes, protocols);
    let start = draft.start();
    let enquiry = draft.plant(start, steps, Walk::Anywhere);
    draft.sprinkle(more_links, more_functions);
    (draft.network, enquiry)
}

/// Every link leads to the next layer, so that all routes between two nodes have equally many steps.
fn layers(random: &mut Random) -> (Network, Enquiry) {
    let width = random.within(1..=3) as u32;
    let layers = random.within(3..=[16, 8, 6][width as usize - 1]) as u32;
    let protocols = random.pick(&[1, 2, 2, 2, 3]);
    let palette = random.pick(&PALETTES[..5]);
    let nodes = layers * width;
    let (planted_beside, more_links) = (random.below(4), random.pick(&[0, 30, 60]));
    // Where choices begin late, routes part late.
    let (choices_from, choices) = (random.below(nodes as usize) as u32, random.within(0..=8));
    let mut draft = Draft::new(random, nodes as usize, protocols);
    draft.palette = palette;
    let start = (0, draft.protocol());
    let mut enquiry = draft.plant(start, layers as usize - 1, Walk::NextLayer(width));
    for _ in 0..planted_beside {
        enquiry = draft.plant(start, layers as usize - 1, Walk::NextLayer(width));
    }
    for from in 0..nodes - width {
        for to in 0..width {
            if draft.random.percent(more_links) {
                draft.links(from, (from / width + 1) * width + to);
            }
        }
    }
    for node in choices_from..nodes {
        for _ in 0..choices {
            draft.any_function(node);
        }
    }
    (draft.network, enquiry)
}

/// From thirteen to sixty-four places.
fn middle(random: &mut Random) -> (Network, Enquiry) {
    let protocols = random.pick(&[1, 2, 2, 2, 3, 4, 8, 16]);
    let nodes = random.within(13_usize.div_ceil(protocols)..=64 / protocols);
    let steps = random.within(5..=40);
    let mut draft = Draft::new(random, nodes, protocols);
    let start = draft.start();
    let enquiry = draft.plant(start, steps, Walk::Anywhere);
    draft.sprinkle(nodes / 2, 2 * nodes);
    (draft.network, enquiry)
}

/// More places than the program lends room for, up to the most that a file may have.
fn wide(random: &mut Random) -> (Network, Enquiry) {
    let protocols = random.within(1..=16);
    let most = (PLACE_LIMIT as usize / protocols).min(256);
    let least = 65_usize.div_ceil(protocols);
    let nodes = if random.percent(40) { least } else { random.within(least..=most) };
    let mut draft = Draft::new(random, nodes, protocols);
    draft.numbers = 65_536;
    let start = draft.start();
    let enquiry = draft.plant(start, 12, Walk::Anywhere);
    draft.sprinkle(nodes, 2 * nodes);
    (draft.network, enquiry)
}

/// A chain whose one route weighs exactly a chosen total, with a few heavy lines beside it.
fn weight_limit(random: &mut Random) -> (Network, Enquiry) {
    let steps = random.within(5..=10);
    let protocols = random.within(1..=3);
    let mut total = random.pick(&TOTALS);
    let mut draft = Draft::new(random, 1, protocols);
    draft.parallel = 0;
    let start = draft.start();
    let enquiry = draft.plant(start, steps, Walk::NewNodes);
    let Draft { network, random, .. } = &mut draft;
    let mut weights: Vec<&mut u32> =
        network.links.values_mut().map(|link| &mut link.weight).chain(network.functions.values_mut()).collect();
    random.shuffle(&mut weights);
    // A random share for some, then each is filled up in turn until the total is spent.
    for weight in &mut weights {
        **weight = if random.percent(40) { random.below(HEAVIEST as usize).min(total as usize) as u32 } else { 0 };
        total -= u64::from(**weight);
    }
    for weight in weights {
        let more = u64::from(HEAVIEST - *weight).min(total);
        *weight += more as u32;
        total -= more;
    }
    draft.palette = &[HEAVIEST];
    let beside = draft.random.below(4);
    draft.sprinkle(beside, beside);
    (draft.network, enquiry)
}

/// A ring that wraps at every node and a ring that unwraps at every node, left at one node each: the height has to
/// fit both lengths, so that it grows with their product.
pub fn rings(random: &mut Random) -> (Network, Enquiry) {
    let most = if random.percent(5) { 16 } else { random.within(2..=5) };
    let (first, second) = (random.within(1..=most) as u32, random.within(1..=most - 1) as u32);
    let (leave_first, leave_second) = (random.below(first as usize) as u32, random.below(second as usize) as u32);
    let end = first + second;
    let mut draft = Draft::new(random, end as usize + 1, 2);
    draft.function(0, Kind::Wrap, 0, 1);
    for node in 0..first {
        draft.function(node, Kind::Wrap, 1, 1);
        draft.links(node, (node + 1) % first);
    }
    draft.links(leave_first, first);
    for node in 0..second {
        draft.function(first + node, Kind::Unwrap, 1, 1);
        draft.links(first + node, first + (node + 1) % second);
    }
    draft.function(first + leave_second, Kind::Unwrap, 0, 1);
    draft.links(first + leave_second, end);
    (draft.network, Enquiry { s: 0, a: 0, d: end, b: 0 })
}

/// A few levels of the doubling family, now and then enough of them to pass 4,096 steps.
fn doubling(random: &mut Random) -> (Network, Enquiry) {
    let levels = match random.below(100) {
        // Over 65,535 steps, which 16 bits cannot count.
        0..=2 => 14,
        // 6,139 steps within 64 places.
        3..=9 => 10,
        _ => random.below(6),
    };
    let longer: Vec<usize> = match levels {
        0..=9 => (0..random.below(4)).map(|_| random.below(levels + 1)).collect(),
        _ => Vec::new(),
    };
    let again = (levels > 1 && random.percent(30)).then(|| random.below(levels));
    doubled(random, levels, &longer, again)
}

/// Exactly 4,096 or 4,097 steps within 64 places.
fn step_limit(random: &mut Random) -> (Network, Enquiry) {
    let over = random.percent(50);
    at_step_limit(random, over)
}

pub fn at_step_limit(random: &mut Random, over: bool) -> (Network, Enquiry) {
    // 3,067 + 1 + 379 steps; the longer base adds 576 to them, level 3 adds 72, level 9 one and level 8 two.
    doubled(random, 9, &[0, 3, if over { 8 } else { 9 }], Some(6))
}

/// Level k of this family leads from node u with protocol 0 to node v with protocol 1 and has to pass level k - 1
/// twice inside tunnels, first over a hidden 0 and, after a conversion at node m, over a hidden 1. So the steps are
/// twice those of level k - 1 and five more. Each mention of a level in `longer` adds one step to every pass of it.
/// With `again`, the route goes on from the outermost v through that level once more.
pub fn doubled(random: &mut Random, levels: usize, longer: &[usize], again: Option<usize>) -> (Network, Enquiry) {
    let mut draft = Draft::new(random, 0, 2);
    let mut entrances = Vec::new();
    let mut exit = None;
    for level in 0..=levels {
        let (u, v) = (draft.fresh_node(), draft.fresh_node());
        let mut last = if level == 0 { u } else { draft.fresh_node() };
        draft.function(last, Kind::Conv, 0, 1);
        for _ in longer.iter().filter(|&&mention| mention == level) {
            let extra = draft.fresh_node();
            draft.links(last, extra);
            draft.function(extra, Kind::Conv, 1, 1);
            last = extra;
        }
        match (entrances.last(), exit) {
            (Some(&inner_u), Some(inner_v)) => {
                let m = v + 1;
                for hidden in [0, 1] {
                    draft.function(u, Kind::Wrap, hidden, 0);
                    draft.function(inner_v, Kind::Unwrap, hidden, 1);
                }
                draft.links(u, inner_u);
                draft.links(inner_v, m);
                draft.links(inner_v, v);
                draft.links(last, u);
            }
            _ => draft.links(last, v),
        }
        entrances.push(u);
        exit = Some(v);
    }
    let (s, mut d) = (entrances[levels], exit.unwrap_or(0));
    if let Some(level) = again {
        draft.function(d, Kind::Conv, 1, 0);
        draft.links(d, entrances[level]);
        d = entrances[level] + 1;
    }
    (draft.network, Enquiry { s, a: 0, d, b: 1 })
}

/// As many links or functions as a file may hold, and in most cases a line more, which is refused in one of the ways
/// that a full file can refuse it.
fn crowded(random: &mut Random) -> Made {
    // Where the tables are filled as well, a full network takes long.
    let (nodes, protocols) =
        if random.percent(3) { random.pick(&[(8, 8), (4, 16)]) } else { random.pick(&[(64, 16), (256, 4), (100, 10)]) };
    let (links, functions) = random.pick(&[(LINE_LIMIT, 20), (20, LINE_LIMIT), (LINE_LIMIT, LINE_LIMIT)]);
    let mut draft = Draft::new(random, nodes, protocols);
    draft.numbers = 65_536;
    draft.sprinkle(links, 0);
    while draft.network.functions.len() < functions {
        draft.sprinkle(0, 1);
    }
    let network = draft.network;
    let mut file = network.normal_file();
    if random.percent(80) {
        let link = links == LINE_LIMIT && (functions < LINE_LIMIT || random.percent(50));
        let last = if link { one_more_link(random, &network) } else { one_more_function(random, &network) };
        file.extend(last.bytes());
    }
    if random.percent(50) {
        file = in_any_order(random, &file);
    }
    Made { family: "crowded", file, enquiry: None }
}

/// Well spelled and in range, except sometimes.
fn last_weight(random: &mut Random) -> &'static str {
    random.pick(&["0", "7", "999999999", "1000000000", "1000000001", "00"])
}

fn one_more_link(random: &mut Random, network: &Network) -> String {
    let used = network.links.keys().next().copied().unwrap_or(0);
    let unused = (0..).find(|number| !network.links.contains_key(number)).unwrap_or(0);
    let number = random.pick(&[used, unused, unused, 65_536]);
    format!("link\t{number}\t0\t0\t{}\n", last_weight(random))
}

fn one_more_function(random: &mut Random, network: &Network) -> String {
    let (node, kind) = (random.below(network.nodes as usize + 1), random.pick(&Kind::ALL).word());
    let (x, y) = (random.below(network.protocols as usize), random.below(network.protocols as usize));
    format!("fun\t{node}\t{kind}\t{x}\t{y}\t{}\n", last_weight(random))
}
