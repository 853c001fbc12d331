//! Best routes between all pairs of places, by best-first search over whole routes (Dijkstra's method as Knuth carried
//! it over to grammars). A hop is a conv step, or a tunnel: a wrap step, a level from the place it reaches, an unwrap
//! step that finds the wrap's protocol beneath. A level is nothing, or a hop and then a level. Routes are ordered by
//! (weight, steps, list of step keys), the lists compared from the front. Joining two routes keeps this order on
//! either side, since lists are compared only where steps agree, and never makes a route better than a part of it.
//! So the first route settled for a pair is its best, and joining best parts suffices. Weights over the limit are one
//! value beyond all others, and so, within a weight, are step counts over the limit; such routes carry no keys.

use super::network::{Function, Kind, Network};
use std::cmp::{Ordering, Reverse};
use std::collections::{BTreeMap, BinaryHeap};
use std::rc::Rc;

pub const WEIGHT_LIMIT: u64 = 4_000_000_000;
pub const STEP_LIMIT: u32 = 4_096;
/// The count of a route whose steps are over the limit.
pub const COUNT_OVER: u32 = STEP_LIMIT + 1;

/// Link number, kind, x, y.
pub type StepKey = [u16; 4];

#[derive(Clone, Copy, Debug, PartialEq, Eq, PartialOrd, Ord)]
pub struct Cost {
    pub weight: u64,
    pub steps: u32,
}

impl Cost {
    /// Every route over the weight limit.
    pub const HEAVY: Cost = Cost { weight: WEIGHT_LIMIT + 1, steps: 0 };
    const NOTHING: Cost = Cost { weight: 0, steps: 0 };

    fn of(weight: u64, steps: u32) -> Cost {
        if weight > WEIGHT_LIMIT {
            Cost::HEAVY
        } else {
            Cost { weight, steps: steps.min(COUNT_OVER) }
        }
    }

    fn plus(self, other: Cost) -> Cost {
        Cost::of(self.weight + other.weight, self.steps + other.steps)
    }

    fn within_limits(self) -> bool {
        self != Cost::HEAVY && self.steps <= STEP_LIMIT
    }
}

/// A list of step keys, sharing its parts with the longer lists made from it.
enum Keys {
    Nothing,
    Step(StepKey),
    Joined(Rc<Keys>, Rc<Keys>),
}

impl Keys {
    /// The step keys from the first to the last.
    fn each(&self) -> impl Iterator<Item = StepKey> + '_ {
        let mut ahead = vec![self];
        std::iter::from_fn(move || loop {
            match ahead.pop()? {
                Keys::Nothing => {}
                Keys::Step(key) => return Some(*key),
                Keys::Joined(first, then) => ahead.extend([&**then, &**first]),
            }
        })
    }
}

/// A route between two known places; keys only while within both limits.
#[derive(Clone)]
struct Route {
    cost: Cost,
    keys: Option<Rc<Keys>>,
}

impl Route {
    fn nothing() -> Route {
        Route { cost: Cost::NOTHING, keys: Some(Rc::new(Keys::Nothing)) }
    }

    fn step(weight: u64, key: StepKey) -> Route {
        Route { cost: Cost::of(weight, 1), keys: Some(Rc::new(Keys::Step(key))) }
    }

    fn then(&self, next: &Route) -> Route {
        let cost = self.cost.plus(next.cost);
        let keys = match (&self.keys, &next.keys) {
            (Some(first), Some(then)) if cost.within_limits() => {
                Some(Rc::new(Keys::Joined(Rc::clone(first), Rc::clone(then))))
            }
            _ => None,
        };
        Route { cost, keys }
    }

    /// The order of routes; those over a limit that cost the same count as equal.
    fn order(&self, other: &Route) -> Ordering {
        self.cost.cmp(&other.cost).then_with(|| match (&self.keys, &other.keys) {
            (Some(mine), Some(theirs)) => mine.each().cmp(theirs.each()),
            _ => Ordering::Equal,
        })
    }
}

/// What the search settles. A hop is settled before a level of equal cost, for it may be the whole of that level.
#[derive(Clone, Copy, PartialEq, Eq, PartialOrd, Ord)]
enum Part {
    Hop(usize, usize),
    Level(usize, usize),
}

/// The best wrap step from a place into another.
struct Entry {
    from: usize,
    hidden: u32,
    step: Route,
}

/// The best unwrap step into a place, given the protocol found beneath.
struct Exit {
    to: usize,
    hidden: u32,
    step: Route,
}

struct Search {
    places: usize,
    hops: Vec<Option<Route>>,
    levels: Vec<Option<Route>>,
    queue: BinaryHeap<Reverse<(Cost, Part)>>,
    /// By the place a wrap step reaches.
    entries: Vec<Vec<Entry>>,
    /// By the place an unwrap step leaves.
    exits: Vec<Vec<Exit>>,
    /// Settled hops by the place they reach, and settled levels by the place they leave.
    hops_into: Vec<Vec<usize>>,
    levels_from: Vec<Vec<usize>>,
}

impl Search {
    fn new(network: &Network) -> Search {
        let places = network.places();
        let mut search = Search {
            places,
            hops: vec![None; places * places],
            levels: vec![None; places * places],
            queue: BinaryHeap::new(),
            entries: (0..places).map(|_| Vec::new()).collect(),
            exits: (0..places).map(|_| Vec::new()).collect(),
            hops_into: vec![Vec::new(); places],
            levels_from: vec![Vec::new(); places],
        };
        for ((function, to_node), step) in first_steps(network) {
            let Function { node, kind, x, y } = function;
            match kind {
                Kind::Conv => search.offer(Part::Hop(network.place(node, x), network.place(to_node, y)), step),
                Kind::Wrap => {
                    let entry = Entry { from: network.place(node, x), hidden: x, step };
                    search.entries[network.place(to_node, y)].push(entry);
                }
                Kind::Unwrap => {
                    let exit = Exit { to: network.place(to_node, x), hidden: x, step };
                    search.exits[network.place(node, y)].push(exit);
                }
            }
        }
        for place in 0..places {
            search.offer(Part::Level(place, place), Route::nothing());
        }
        search
    }

    fn known(&mut self, part: Part) -> &mut Option<Route> {
        match part {
            Part::Hop(from, to) => &mut self.hops[from * self.places + to],
            Part::Level(from, to) => &mut self.levels[from * self.places + to],
        }
    }

    /// Keeps a route where it comes before the one known so far.
    fn offer(&mut self, part: Part, route: Route) {
        let known = self.known(part);
        let cheaper = match known {
            None => true,
            Some(old) => match route.order(old) {
                Ordering::Less => route.cost < old.cost,
                _ => return,
            },
        };
        let cost = route.cost;
        *known = Some(route);
        if cheaper {
            self.queue.push(Reverse((cost, part)));
        }
    }

    fn run(&mut self) {
        while let Some(Reverse((cost, part))) = self.queue.pop() {
            let Some(route) = self.known(part).clone() else { continue };
            // An offer that was undercut later is still queued; its part was settled at the lower cost.
            if route.cost != cost {
                continue;
            }
            match part {
                Part::Hop(from, to) => self.settle_hop(from, to, &route),
                Part::Level(from, to) => self.settle_level(from, to, &route),
            }
        }
    }

    fn settle_hop(&mut self, from: usize, to: usize, hop: &Route) {
        self.hops_into[to].push(from);
        for end in self.levels_from[to].clone() {
            let level = self.levels[to * self.places + end].as_ref().expect("a settled level is known");
            let joined = hop.then(level);
            self.offer(Part::Level(from, end), joined);
        }
    }

    fn settle_level(&mut self, from: usize, to: usize, level: &Route) {
        self.levels_from[from].push(to);
        for start in self.hops_into[from].clone() {
            let hop = self.hops[start * self.places + from].as_ref().expect("a settled hop is known");
            let joined = hop.then(level);
            self.offer(Part::Level(start, to), joined);
        }
        for (start, end, tunnel) in self.tunnels(from, to, level) {
            self.offer(Part::Hop(start, end), tunnel);
        }
    }

    /// Every tunnel around a level, with the places it leaves and reaches.
    fn tunnels(&self, from: usize, to: usize, level: &Route) -> Vec<(usize, usize, Route)> {
        let mut tunnels = Vec::new();
        for entry in &self.entries[from] {
            for exit in self.exits[to].iter().filter(|exit| exit.hidden == entry.hidden) {
                tunnels.push((entry.from, exit.to, entry.step.then(level).then(&exit.step)));
            }
        }
        tunnels
    }
}

/// For each function and node that a link leads to, the first step by weight and key: parallel links do the same.
fn first_steps(network: &Network) -> BTreeMap<(Function, u32), Route> {
    let mut steps: BTreeMap<(Function, u32), Route> = BTreeMap::new();
    for (function, weight) in &network.functions {
        for (number, link) in network.links_of(function.node) {
            let key = [number as u16, function.kind as u16, function.x as u16, function.y as u16];
            let step = Route::step(u64::from(*weight) + u64::from(link.weight), key);
            let first = steps.entry((*function, link.to)).or_insert_with(|| step.clone());
            if step.order(first) == Ordering::Less {
                *first = step;
            }
        }
    }
    steps
}

pub struct BestRoutes {
    places: usize,
    levels: Vec<Option<Route>>,
}

impl BestRoutes {
    pub fn of(network: &Network) -> BestRoutes {
        let mut search = Search::new(network);
        search.run();
        BestRoutes { places: search.places, levels: search.levels }
    }

    /// Least weight and fewest steps from one place to another, or nothing where no route is feasible.
    pub fn cost(&self, from: usize, to: usize) -> Option<Cost> {
        self.levels[from * self.places + to].as_ref().map(|route| route.cost)
    }

    /// The step keys of the best route where it keeps to both limits.
    pub fn keys(&self, from: usize, to: usize) -> Option<Vec<StepKey>> {
        let route = self.levels[from * self.places + to].as_ref()?;
        Some(route.keys.as_ref()?.each().collect())
    }
}
