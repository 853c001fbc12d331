//! The list. Networks are shown with tabs as spaces; every function is called what its cases are about.

use super::rings::Rings;
use super::Named;
use crate::case::Subject;
use crate::examples::{run_only, spelled, EXAMPLES, NETWORK_A};
use crate::generate;
use crate::library::{Empty, Lengths};
use crate::random::Random;
use crate::reference::{Enquiry, StepKey};
use std::rc::Rc;

/// Over the trace of any route through rings of at most 4,096 steps.
const DEEP_TEXT: usize = 9_000_000;

const CONV: u16 = 0;
const WRAP: u16 = 1;
const UNWRAP: u16 = 2;

pub fn all() -> Vec<Named> {
    let groups = [
        listing(),
        marked_examples(),
        refused_files(),
        step_limit(),
        weight_limit(),
        depths(),
        ties(),
        zero_weights(),
        self_and_parallel_links(),
        no_steps(),
        out_of_range(),
        rooms_of_no_length(),
        rooms_that_just_suffice(),
    ];
    groups.into_iter().flatten().collect()
}

fn shown(network: &str) -> Rc<Subject> {
    Rc::new(Subject::of(spelled(network)))
}

fn listing() -> Vec<Named> {
    let a = shown(NETWORK_A);
    let asked = |step, text| {
        let name = format!("network A, step room {step}, text room {text}");
        Named::new(name, &a, [0, 0, 3, 0]).lent(|lengths| (lengths.step, lengths.text) = (step, text))
    };
    vec![
        asked(12, 77).gives(0, 20, 3).writes(77),
        asked(12, 76).gives(11, 20, 3).writes(0),
        asked(11, 77).refused(10),
        asked(11, 76).refused(10),
        asked(15, 78).gives(0, 20, 3).writes(77),
    ]
}

fn marked_examples() -> Vec<Named> {
    let named = |(row, (network, enquiry, number, weight, steps, links))| {
        let name = format!("marked example in row {row}");
        Named::new(name, &shown(network), enquiry).gives(number, weight, steps).takes(links)
    };
    EXAMPLES.into_iter().enumerate().map(named).collect()
}

/// Files that document 01 has run only; an accepted one is told by the refusal of its rooms.
fn refused_files() -> Vec<Named> {
    let named = |(text, expected): (String, Option<(u32, u32)>)| {
        let (number, line) = expected.unwrap_or((7, 0));
        let name = format!("file of {} bytes, {:?} and so on", text.len(), text.get(..16).unwrap_or(&text));
        Named::new(name, &shown(&text), [0, 0, 0, 0]).lent(no_length).refused(number).at_line(line)
    };
    run_only().into_iter().map(named).collect()
}

fn no_length(lengths: &mut Lengths) {
    *lengths = Lengths { weight: 0, count: 0, choice: 0, step: 0, text: 0, ..*lengths };
}

fn through_rings(name: impl Into<String>, rings: Rings) -> Named {
    let network = rings.network();
    let subject = Rc::new(Subject::of(network.normal_file()));
    Named::new(name, &subject, [0, 0, network.nodes - 1, 0]).lent(|lengths| lengths.text = DEEP_TEXT)
}

/// A route of few tunnels that passes its innermost part again and again; every link and function weighs 1.
fn doubled_to_the_limit(name: &str, over: bool) -> Named {
    let (mut network, Enquiry { s, a, d, b }) = generate::at_step_limit(&mut Random::of_case(1, 0), over);
    network.links.values_mut().for_each(|link| link.weight = 1);
    network.functions.values_mut().for_each(|weight| *weight = 1);
    let subject = Rc::new(Subject::of(network.normal_file()));
    Named::new(name, &subject, [s, a, d, b]).lent(|lengths| lengths.text = DEEP_TEXT)
}

fn step_limit() -> Vec<Named> {
    let most = Rings::of(46, 45, 2_048);
    let heavy = Rings { weight: 1_000_000, ..most };
    vec![
        doubled_to_the_limit("4,096 steps, few tunnels", false).gives(0, 8_192, 4_096).opens(9),
        doubled_to_the_limit("4,097 steps, few tunnels", true).refused(10),
        through_rings("4,096 steps, step room one short", most).lent(|lengths| lengths.step -= 1).refused(10),
        through_rings("4,096 steps, text room of no length", most)
            .lent(|lengths| lengths.text = 0)
            .gives(11, 8_192, 4_096),
        through_rings("4,097 steps", Rings { after: 1, ..most }).refused(10),
        through_rings("4,097 steps, step room for more", Rings { inside: 1, ..most })
            .lent(|lengths| lengths.step += 40)
            .refused(10),
        through_rings("4,098 steps, 2,049 tunnels", Rings::of(46, 45, 2_049)).refused(10),
        through_rings("4,096 steps, too heavy", heavy).refused(9),
        through_rings("4,097 steps, too heavy", Rings { after: 1, ..heavy }).refused(9),
    ]
}

/// A row of passive nodes whose links have these weights; functions weigh nothing but at the first node.
fn row(function: u32, links: &[u32]) -> Rc<Subject> {
    let mut text = format!("net {} 1\nfun 0 conv 0 0 {function}\n", links.len() + 1);
    for (node, weight) in links.iter().enumerate() {
        text += &format!("link {node} {node} {} {weight}\n", node + 1);
        if node > 0 {
            text += &format!("fun {node} conv 0 0 0\n");
        }
    }
    shown(&text)
}

const HEAVIEST_TUNNEL: &str = "\
net 3 2
link 1 0 1 1000000000
link 2 1 2 1000000000
fun 0 wrap 0 1 1000000000
fun 1 unwrap 0 1 1000000000
";

/// Totals at the limit, at the two marks, and where 32 bits begin again.
fn weight_limit() -> Vec<Named> {
    const MOST: u32 = 1_000_000_000;
    let asked = |total: u64, function, links: &[u32]| {
        Named::new(format!("weight {total}"), &row(function, links), [0, 0, links.len() as u32, 0])
    };
    vec![
        asked(3_999_999_999, 0, &[MOST, MOST, MOST, MOST - 1]).gives(0, 3_999_999_999, 4),
        asked(4_000_000_000, 0, &[MOST; 4]).gives(0, 4_000_000_000, 4),
        asked(4_000_000_001, 1, &[MOST; 4]).refused(9),
        asked(4_000_000_001, 0, &[MOST, MOST, MOST, MOST, 1]).refused(9),
        asked(4_294_967_294, 294_967_294, &[MOST; 4]).refused(9),
        asked(4_294_967_295, 294_967_295, &[MOST; 4]).refused(9),
        asked(4_294_967_296, 294_967_296, &[MOST; 4]).refused(9),
        asked(4_294_967_297, 294_967_297, &[MOST; 4]).refused(9),
        asked(8_589_934_592, 589_934_592, &[MOST; 8]).refused(9),
        Named::new("weight 4000000000 in one tunnel", &shown(HEAVIEST_TUNNEL), [0, 0, 2, 0])
            .gives(0, 4_000_000_000, 2)
            .opens(1),
    ]
}

/// Tunnels open at once; 2,048 are the most that 4,096 steps can open and close.
fn depths() -> Vec<Named> {
    let joined = Rings { inside: 1, after: 1, ..Rings::of(46, 45, 2_025) };
    let doubled = Rings { parallel: 2, ..Rings::of(31, 30, 929) };
    let depth = |rings: Rings| through_rings(format!("{} tunnels open at once", rings.tunnels), rings);
    vec![
        depth(Rings::of(1, 1, 1)).gives(0, 4, 2).opens(1),
        depth(Rings::of(11, 10, 100)).gives(0, 400, 200).opens(100),
        depth(Rings::of(27, 26, 700)).gives(0, 2_800, 1_400).opens(700),
        depth(Rings::of(31, 30, 900)).gives(0, 3_600, 1_800).opens(900),
        depth(doubled).gives(0, 3_716, 1_858).opens(929),
        depth(joined).gives(0, 8_104, 4_052).opens(2_025),
        depth(Rings::of(46, 45, 2_048)).gives(0, 8_192, 4_096).opens(2_048).writes(8_481_932),
    ]
}

/// A tie's name, its network, D (from node 0, protocol 0 at both ends), weight, and the step keys of the best route.
type Tie = (&'static str, &'static str, u32, u32, &'static [StepKey]);

/// Routes of equal weight and equally many steps. x never decides alone: while two routes agree they have the same
/// stack, and the stack says what x is.
const TIES: [Tie; 14] = [
    (
        "link number at the first step, though a later one is greater",
        "net 4 1\nlink 5 0 1 1\nlink 4 0 2 1\nlink 1 1 3 1\nlink 9 2 3 1\n\
         fun 0 conv 0 0 1\nfun 1 conv 0 0 1\nfun 2 conv 0 0 1\n",
        3,
        4,
        &[[4, CONV, 0, 0], [9, CONV, 0, 0]],
    ),
    (
        "the same total by other parts",
        "net 4 1\nlink 1 0 1 3\nlink 2 0 2 2\nlink 3 1 3 1\nlink 4 2 3 0\n\
         fun 0 conv 0 0 0\nfun 1 conv 0 0 1\nfun 2 conv 0 0 3\n",
        3,
        5,
        &[[1, CONV, 0, 0], [3, CONV, 0, 0]],
    ),
    (
        "conv before wrap",
        "net 3 1\nlink 1 0 1 1\nlink 2 1 2 1\n\
         fun 0 wrap 0 0 1\nfun 0 conv 0 0 1\nfun 1 unwrap 0 0 1\nfun 1 conv 0 0 1\n",
        2,
        4,
        &[[1, CONV, 0, 0], [2, CONV, 0, 0]],
    ),
    (
        "conv before unwrap",
        "net 4 1\nlink 1 0 1 1\nlink 2 1 2 1\nlink 3 2 3 1\n\
         fun 0 wrap 0 0 1\nfun 1 unwrap 0 0 1\nfun 1 conv 0 0 1\nfun 2 unwrap 0 0 1\nfun 2 conv 0 0 1\n",
        3,
        6,
        &[[1, WRAP, 0, 0], [2, CONV, 0, 0], [3, UNWRAP, 0, 0]],
    ),
    (
        "wrap before unwrap, the inner exit first",
        "net 5 1\nlink 1 0 1 1\nlink 2 1 2 1\nlink 3 2 3 1\nlink 4 3 4 1\nfun 0 wrap 0 0 1\n\
         fun 1 unwrap 0 0 1\nfun 1 wrap 0 0 1\nfun 2 unwrap 0 0 1\nfun 2 wrap 0 0 1\nfun 3 unwrap 0 0 1\n",
        4,
        8,
        &[[1, WRAP, 0, 0], [2, WRAP, 0, 0], [3, UNWRAP, 0, 0], [4, UNWRAP, 0, 0]],
    ),
    (
        "the link to the outer exit before the kind that goes deeper",
        "net 6 1\nlink 1 0 1 1\nlink 3 1 2 1\nlink 2 1 3 1\nlink 4 2 4 1\nlink 5 3 4 1\nlink 6 4 5 1\n\
         fun 0 wrap 0 0 1\nfun 1 wrap 0 0 1\nfun 1 unwrap 0 0 1\nfun 2 unwrap 0 0 1\nfun 3 wrap 0 0 1\n\
         fun 4 unwrap 0 0 1\n",
        5,
        8,
        &[[1, WRAP, 0, 0], [2, UNWRAP, 0, 0], [5, WRAP, 0, 0], [6, UNWRAP, 0, 0]],
    ),
    (
        "the link to an early exit before the kind that stays inside",
        "net 6 1\nlink 1 0 1 1\nlink 2 1 2 1\nlink 4 2 3 1\nlink 3 2 4 1\nlink 5 3 5 1\nlink 6 4 5 1\n\
         fun 0 wrap 0 0 1\nfun 1 conv 0 0 1\nfun 2 conv 0 0 1\nfun 2 unwrap 0 0 1\nfun 3 unwrap 0 0 1\n\
         fun 4 conv 0 0 1\n",
        5,
        8,
        &[[1, WRAP, 0, 0], [2, CONV, 0, 0], [3, UNWRAP, 0, 0], [6, CONV, 0, 0]],
    ),
    (
        "steps inside a tunnel before a tunnel inside it",
        "net 5 1\nlink 1 0 1 1\nlink 2 1 2 1\nlink 3 2 3 1\nlink 4 3 4 1\nfun 0 wrap 0 0 1\n\
         fun 1 wrap 0 0 1\nfun 1 conv 0 0 1\nfun 2 unwrap 0 0 1\nfun 2 conv 0 0 1\nfun 3 unwrap 0 0 1\n",
        4,
        8,
        &[[1, WRAP, 0, 0], [2, CONV, 0, 0], [3, CONV, 0, 0], [4, UNWRAP, 0, 0]],
    ),
    (
        "of all nestings the deepest",
        "net 7 1\nlink 1 0 1 1\nlink 2 1 2 1\nlink 3 2 3 1\nlink 4 3 4 1\nlink 5 4 5 1\nlink 6 5 6 1\n\
         fun 0 wrap 0 0 1\nfun 1 wrap 0 0 1\nfun 2 wrap 0 0 1\nfun 4 wrap 0 0 1\nfun 3 wrap 0 0 1\n\
         fun 1 unwrap 0 0 1\nfun 2 unwrap 0 0 1\nfun 3 unwrap 0 0 1\nfun 4 unwrap 0 0 1\nfun 5 unwrap 0 0 1\n",
        6,
        12,
        &[[1, WRAP, 0, 0], [2, WRAP, 0, 0], [3, WRAP, 0, 0], [4, UNWRAP, 0, 0], [5, UNWRAP, 0, 0], [6, UNWRAP, 0, 0]],
    ),
    (
        "y of conv",
        "net 3 3\nlink 1 0 1 1\nlink 2 1 2 1\n\
         fun 0 conv 0 2 1\nfun 0 conv 0 1 1\nfun 1 conv 2 0 1\nfun 1 conv 1 0 1\n",
        2,
        4,
        &[[1, CONV, 0, 1], [2, CONV, 1, 0]],
    ),
    (
        "y of wrap",
        "net 3 3\nlink 1 0 1 1\nlink 2 1 2 1\n\
         fun 0 wrap 0 2 1\nfun 0 wrap 0 1 1\nfun 1 unwrap 0 2 1\nfun 1 unwrap 0 1 1\n",
        2,
        4,
        &[[1, WRAP, 0, 1], [2, UNWRAP, 0, 1]],
    ),
    (
        "kind before y",
        "net 3 3\nlink 1 0 1 1\nlink 2 1 2 1\n\
         fun 0 wrap 0 1 1\nfun 0 conv 0 2 1\nfun 1 unwrap 0 1 1\nfun 1 conv 2 0 1\n",
        2,
        4,
        &[[1, CONV, 0, 2], [2, CONV, 2, 0]],
    ),
    (
        "y at the first step, though x is greater at the last",
        "net 4 4\nlink 1 0 1 1\nlink 2 1 2 1\nlink 3 2 3 1\nfun 0 conv 0 1 1\nfun 0 conv 0 2 1\n\
         fun 1 conv 1 3 1\nfun 1 conv 2 2 1\nfun 2 conv 3 0 1\nfun 2 conv 2 0 1\n",
        3,
        6,
        &[[1, CONV, 0, 1], [2, CONV, 1, 3], [3, CONV, 3, 0]],
    ),
    (
        "y of wrap, though the exit's y is greater",
        "net 4 4\nlink 1 0 1 1\nlink 2 1 2 1\nlink 3 2 3 1\nfun 0 wrap 0 1 1\nfun 0 wrap 0 2 1\n\
         fun 1 conv 1 3 1\nfun 1 conv 2 2 1\nfun 2 unwrap 0 3 1\nfun 2 unwrap 0 2 1\n",
        3,
        6,
        &[[1, WRAP, 0, 1], [2, CONV, 1, 3], [3, UNWRAP, 0, 3]],
    ),
];

fn ties() -> Vec<Named> {
    let named = |(name, network, d, weight, keys): Tie| {
        Named::new(format!("tie: {name}"), &shown(network), [0, 0, d, 0])
            .gives(0, weight, keys.len() as u32)
            .has_keys(keys)
    };
    TIES.into_iter().map(named).collect()
}

/// Every loop is free, and every node does everything.
const FREE: &str = "\
net 3 1
link 0 0 0 0
link 1 0 1 0
link 2 1 1 0
link 3 1 2 0
link 4 2 0 0
fun 0 conv 0 0 0
fun 0 wrap 0 0 0
fun 0 unwrap 0 0 0
fun 1 conv 0 0 0
fun 1 wrap 0 0 0
fun 1 unwrap 0 0 0
fun 2 conv 0 0 0
fun 2 wrap 0 0 0
fun 2 unwrap 0 0 0
";

const FREE_DETOUR: &str = "\
net 3 1
link 1 0 1 0
link 2 1 2 0
link 9 0 2 0
fun 0 conv 0 0 0
fun 1 conv 0 0 0
";

fn zero_weights() -> Vec<Named> {
    let free = shown(FREE);
    vec![
        Named::new("zero weights, loops everywhere", &free, [0, 0, 2, 0])
            .gives(0, 0, 2)
            .has_keys(&[[1, CONV, 0, 0], [3, CONV, 0, 0]]),
        Named::new("zero weights, all around", &free, [2, 0, 1, 0])
            .gives(0, 0, 2)
            .has_keys(&[[4, CONV, 0, 0], [1, CONV, 0, 0]]),
        Named::new("zero weights, no steps before a free loop", &free, [0, 0, 0, 0]).gives(0, 0, 0),
        Named::new("zero weights, fewer steps before smaller keys", &shown(FREE_DETOUR), [0, 0, 2, 0])
            .gives(0, 0, 1)
            .takes(&[9]),
        through_rings("zero weights, 100 tunnels", Rings { weight: 0, ..Rings::of(11, 10, 100) })
            .gives(0, 0, 200)
            .opens(100),
    ]
}

/// The protocol is changed and changed back at node 0, or a tunnel is gone through without leaving it.
const SELF_LINK: &str = "\
net 2 3
link 1 0 0 1
link 2 0 1 1
fun 0 conv 0 1 1
fun 0 conv 1 0 1
fun 0 wrap 1 2 1
fun 0 unwrap 1 2 1
fun 1 unwrap 1 0 1
";

const LIGHTER_PARALLEL: &str = "\
net 2 1
link 1 0 1 2
link 2 0 1 1
link 3 0 1 1
fun 0 conv 0 0 0
";

fn self_and_parallel_links() -> Vec<Named> {
    let itself = shown(SELF_LINK);
    let threefold = Rings { parallel: 3, ..Rings::of(3, 2, 4) };
    vec![
        Named::new("self link, then away", &itself, [0, 0, 1, 0])
            .gives(0, 4, 2)
            .has_keys(&[[1, CONV, 0, 1], [2, CONV, 1, 0]]),
        Named::new("self link, a protocol that only tunnels have", &itself, [0, 0, 1, 2]).refused(8),
        Named::new("parallel links, the lighter before the lower", &shown(LIGHTER_PARALLEL), [0, 0, 1, 0])
            .gives(0, 1, 1)
            .takes(&[2]),
        through_rings("parallel links, the lowest at every pass", threefold)
            .gives(0, 16, 8)
            .takes(&[0, 3, 6, 9, 12, 15, 12, 18]),
    ]
}

/// Back at node 0 with another protocol, through a tunnel over it.
const ROUND_TRIP: &str = "\
net 3 2
link 1 0 1 1
link 2 1 2 1
link 3 2 0 1
fun 0 conv 0 1 1
fun 1 wrap 1 0 1
fun 2 unwrap 1 0 1
";

fn no_steps() -> Vec<Named> {
    let a = shown(NETWORK_A);
    let nothing = |text| {
        let name = format!("S = D and a = b, step room 0, text room {text}");
        Named::new(name, &a, [3, 1, 3, 1]).lent(|lengths| (lengths.step, lengths.text) = (0, text))
    };
    vec![
        nothing(9).gives(0, 0, 0).writes(9),
        nothing(8).gives(11, 0, 0).writes(0),
        Named::new("S = D and a = b where steps lead back", &shown(ROUND_TRIP), [0, 1, 0, 1]).gives(0, 0, 0),
        Named::new("S = D, other protocol, a self link", &shown(SELF_LINK), [0, 0, 0, 1])
            .gives(0, 2, 1)
            .has_keys(&[[1, CONV, 0, 1]]),
        Named::new("S = D, other protocol, a round trip", &shown(ROUND_TRIP), [0, 0, 0, 1])
            .gives(0, 6, 3)
            .takes(&[1, 2, 3]),
        Named::new("S = D, other protocol, no route", &a, [3, 0, 3, 1]).refused(8),
    ]
}

/// Each value just past its range, where 8, 16 and 31 bits would bring it back into it, and at its greatest.
fn out_of_range() -> Vec<Named> {
    let a = shown(NETWORK_A);
    let within = [0, 0, 3, 0];
    let mut cases = Vec::new();
    for (position, (name, limit)) in [("S", 4), ("a", 2), ("D", 4), ("b", 2)].into_iter().enumerate() {
        let known = within[position];
        for value in [limit, known + 256, known + 65_536, known + 2_147_483_648, 4_294_967_295] {
            let mut enquiry = within;
            enquiry[position] = value;
            cases.push(Named::new(format!("{name} {value}"), &a, enquiry).refused(6));
        }
    }
    cases.push(Named::new("all values 4294967295", &a, [4_294_967_295; 4]).refused(6));
    cases.push(Named::new("out of range before rooms", &a, [4, 0, 3, 0]).lent(no_length).refused(6));
    cases
}

/// Each room in turn, and all of them, with NULL and with a pointer.
fn rooms_of_no_length() -> Vec<Named> {
    let (a, nothing) = (shown(NETWORK_A), shown(""));
    let mut cases = Vec::new();
    for empty in [Empty::Null, Empty::Pointer] {
        let lent = |room: &str, enquiry, change: fn(&mut Lengths)| {
            Named::new(format!("{room} of no length, {empty:?}"), &a, enquiry)
                .lent(change)
                .lent(|lengths| lengths.empty = empty)
        };
        cases.extend([
            lent("weight room", [0, 0, 3, 0], |lengths| lengths.weight = 0).refused(7),
            lent("count room", [0, 0, 3, 0], |lengths| lengths.count = 0).refused(7),
            lent("choice room", [0, 0, 3, 0], |lengths| lengths.choice = 0).refused(7),
            lent("step room", [0, 0, 3, 0], |lengths| lengths.step = 0).refused(10),
            lent("text room", [0, 0, 3, 0], |lengths| lengths.text = 0).gives(11, 20, 3),
            lent("step and text room", [0, 0, 3, 0], |lengths| (lengths.step, lengths.text) = (0, 0)).refused(10),
            lent("step and text room, no route", [0, 0, 3, 1], |lengths| (lengths.step, lengths.text) = (0, 0))
                .refused(8),
            lent("step and text room, no steps", [3, 1, 3, 1], |lengths| (lengths.step, lengths.text) = (0, 0))
                .gives(11, 0, 0),
            lent("all rooms", [0, 0, 3, 0], no_length).refused(7),
            Named::new(format!("file of no length, {empty:?}"), &nothing, [0, 0, 0, 0])
                .lent(no_length)
                .lent(|lengths| lengths.empty = empty)
                .refused(2)
                .at_line(1),
        ]);
    }
    cases
}

fn rooms_that_just_suffice() -> Vec<Named> {
    let a = shown(NETWORK_A);
    let lent = |name: &str, change: fn(&mut Lengths)| Named::new(name, &a, [0, 0, 3, 0]).lent(change);
    vec![
        lent("weight room one short", |lengths| lengths.weight -= 1).refused(7),
        lent("count room one short", |lengths| lengths.count -= 1).refused(7),
        lent("choice room one short", |lengths| lengths.choice -= 1).refused(7),
        lent("table rooms that just suffice", |_| {}).gives(0, 20, 3),
        lent("table rooms of greater length", |lengths| {
            *lengths = Lengths { weight: 71, count: 72, choice: 513, ..*lengths }
        })
        .gives(0, 20, 3),
    ]
}
