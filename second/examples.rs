//! Document 01's own networks, shown as it shows them: the listing, the marked examples, and the files that are run only.

/// A text with its tabs shown as spaces.
pub fn spelled(text: &str) -> Vec<u8> {
    text.replace(' ', "\t").into_bytes()
}

pub const NETWORK_A: &str = "\
net 4 2
link 10 0 1 5
link 11 1 2 5
link 12 2 3 5
fun 0 conv 0 0 0
fun 1 conv 0 1 1
fun 1 wrap 0 1 2
fun 2 unwrap 0 1 3
";

pub const LISTED_INPUT: &str = "\
ask 0 0 3 0
ask 0 0 3 1
ask 3 1 3 1
";

pub const LISTED_OUTPUT: &str = "\
path 20 3
step 10 conv 0 0 1 0
step 11 wrap 0 1 2 0.1
step 12 unwrap 0 1 3 0
refused 8 2
path 0 0
";

const NETWORK_5: &str = "\
net 4 2
link 1 0 0 1
link 2 0 1 1
link 3 1 2 1
link 4 2 3 1
fun 0 wrap 0 1 0
fun 0 wrap 1 1 0
fun 1 unwrap 1 1 0
fun 2 unwrap 0 1 0
";

const NETWORK_6: &str = "\
net 2 1
link 9 0 1 3
link 7 0 1 3
fun 0 conv 0 0 0
";

const NETWORK_7: &str = "\
net 3 1
link 1 0 2 9
link 2 0 1 4
link 3 1 2 4
fun 0 conv 0 0 0
fun 1 conv 0 0 0
";

const NETWORK_8: &str = "\
net 3 1
link 1 0 2 8
link 2 0 1 4
link 3 1 2 4
fun 0 conv 0 0 0
fun 1 conv 0 0 0
";

const NETWORK_9: &str = "\
net 3 3
link 1 0 1 1
link 2 1 2 1
fun 0 wrap 0 1 0
fun 1 unwrap 2 1 0
";

const NETWORK_10: &str = "\
net 4 1
link 1 0 1 1000000000
link 2 1 2 1000000000
link 3 2 3 1000000000
fun 0 conv 0 0 1000000000
fun 1 conv 0 0 1000000000
fun 2 conv 0 0 1000000000
";

/// Network, S a D b, number, weight, steps, and the links of the route.
pub type Example = (&'static str, [u32; 4], u32, u32, u32, &'static [u16]);

pub const EXAMPLES: [Example; 11] = [
    (NETWORK_A, [0, 0, 3, 0], 0, 20, 3, &[10, 11, 12]),
    (NETWORK_A, [0, 0, 3, 1], 8, 0, 0, &[]),
    (NETWORK_A, [3, 1, 3, 1], 0, 0, 0, &[]),
    (NETWORK_A, [0, 0, 2, 1], 0, 11, 2, &[10, 11]),
    (NETWORK_5, [0, 0, 3, 0], 0, 4, 4, &[1, 2, 3, 4]),
    (NETWORK_6, [0, 0, 1, 0], 0, 3, 1, &[7]),
    (NETWORK_7, [0, 0, 2, 0], 0, 8, 2, &[2, 3]),
    (NETWORK_8, [0, 0, 2, 0], 0, 8, 1, &[1]),
    (NETWORK_9, [0, 0, 2, 2], 8, 0, 0, &[]),
    (NETWORK_10, [0, 0, 2, 0], 0, 4_000_000_000, 2, &[1, 2]),
    (NETWORK_10, [0, 0, 3, 0], 9, 0, 0, &[]),
];

/// Files that document 01 has run only, and others at the limits, each with the number and line it is refused with.
pub fn run_only() -> Vec<(String, Option<(u32, u32)>)> {
    let mut full = String::from("net 1 1\n");
    for number in 0..1_024 {
        full += &format!("link {number} 0 0 0\n");
    }
    vec![
        ("net 64 16\n".to_string(), None),
        ("net 205 5\n".to_string(), Some((3, 1))),
        ("net 05 1\n".to_string(), Some((2, 1))),
        ("net 1 1\nlink 1 0 0 1000000001\n".to_string(), Some((3, 2))),
        (full.clone(), None),
        (format!("{full}link 5 0 0 0\n"), Some((4, 1_026))),
        (format!("{full}link 1024 0 0 0\n"), Some((5, 1_026))),
        (String::new(), Some((2, 1))),
        ("\n".repeat(65_536), Some((2, 1))),
        ("\n".repeat(65_537), Some((1, 0))),
    ]
}
