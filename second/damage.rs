//! Damage to network files: every kind of defect that document 01 names or that a reader might let pass, alone, several
//! in one line, or on different lines. Some leave the file acceptable, which the reference then says.

use crate::random::Random;
use crate::reference::FILE_LIMIT;

type Fields = Vec<Vec<u8>>;
type LineDamage = fn(&mut Random, &mut Fields);
type OrderDamage = fn(&mut Random, &mut Vec<Fields>);
type ByteDamage = fn(&mut Random, &mut Vec<u8>);

const LINE_DAMAGES: [LineDamage; 18] = [
    leading_zero,
    sign,
    emptied_field,
    extra_field,
    missing_field,
    tab_at_front,
    tab_at_end,
    spaces_for_tabs,
    other_number,
    other_number,
    other_number,
    other_number,
    other_number,
    other_number,
    other_word,
    other_kind_word,
    upper_case,
    foreign_byte,
];

const ORDER_DAMAGES: [OrderDamage; 5] = [blank_line, another_net_line, repeated_line, repeated_line, repeated_line];

const BYTE_DAMAGES: [ByteDamage; 13] = [
    without_last_lf,
    one_more_lf,
    carriage_returns,
    byte_order_mark,
    truncated,
    changed_byte,
    removed_byte,
    added_byte,
    removed_lf,
    net_line_elsewhere,
    other_size,
    padded,
    hardly_a_file,
];

/// Numbers at and past the ranges, at and past the usual widths, and longer than any.
const NUMBERS: [&str; 36] = [
    "0",
    "1",
    "2",
    "15",
    "16",
    "17",
    "255",
    "256",
    "257",
    "1024",
    "1025",
    "65535",
    "65536",
    "65537",
    "999999999",
    "1000000000",
    "1000000001",
    "1294967296",
    "2147483647",
    "2147483648",
    "4000000000",
    "4294967294",
    "4294967295",
    "4294967296",
    "4294967297",
    "9999999999",
    "10000000000",
    "9223372036854775808",
    "18446744073709551615",
    "18446744073709551616",
    "18446744073709551617",
    "18446744073709617151",
    "99999999999999999999999",
    "340282366920938463463374607431768211456",
    "340282366920938463463374607431768211457",
    "1000000000000000000000000000000000000000",
];

const WORDS: [&str; 16] =
    ["", "net", "link", "fun", "nett", "ne", "links", "lin", "func", "fu", "Net", "LINK", "Fun", "conv", "net ", "#"];

const KIND_WORDS: [&str; 13] =
    ["", "conv", "wrap", "unwrap", "con", "convv", "wra", "wraps", "unwra", "Unwrap", "CONV", "0", "un wrap"];

/// Bytes next to the digits, white space, controls, and bytes past ASCII.
const BYTES: [u8; 24] = [
    0, 1, 9, 10, 11, 12, 13, 26, 32, b'+', b'-', b'.', b'/', b'0', b'1', b'9', b':', b'_', b'e', b'x', 0x7f, 0x80,
    0xb2, 0xff,
];

pub fn damaged(random: &mut Random, file: &[u8]) -> Vec<u8> {
    let (in_lines, in_bytes) =
        random.pick(&[(true, 0), (true, 0), (true, 0), (false, 1), (false, 1), (true, 1), (false, 3)]);
    let mut file = if in_lines { with_bad_lines(random, file) } else { file.to_vec() };
    for _ in 0..in_bytes {
        random.pick(&BYTE_DAMAGES)(random, &mut file);
    }
    file
}

fn with_bad_lines(random: &mut Random, file: &[u8]) -> Vec<u8> {
    let body = file.strip_suffix(b"\n").unwrap_or(file);
    let mut lines: Vec<Fields> = body
        .split(|&byte| byte == b'\n')
        .map(|line| line.split(|&byte| byte == b'\t').map(<[u8]>::to_vec).collect())
        .collect();
    let other_order = random.percent(35);
    if other_order {
        random.pick(&ORDER_DAMAGES)(random, &mut lines);
    }
    for _ in 0..if other_order { random.below(2) } else { random.within(1..=2) } {
        let line = random.below(lines.len());
        for _ in 0..random.pick(&[1, 1, 1, 1, 2, 3]) {
            random.pick(&LINE_DAMAGES)(random, &mut lines[line]);
        }
    }
    let spelled: Vec<Vec<u8>> = lines.iter().map(|fields| [&fields.join(&b'\t')[..], b"\n"].concat()).collect();
    spelled.concat()
}

/// Any field of a line but, where there are others, its word.
fn some_field<'a>(random: &mut Random, line: &'a mut Fields) -> &'a mut Vec<u8> {
    let index = if line.len() > 1 { random.within(1..=line.len() - 1) } else { 0 };
    &mut line[index]
}

fn leading_zero(random: &mut Random, line: &mut Fields) {
    let zeros = random.within(1..=3);
    some_field(random, line).splice(0..0, vec![b'0'; zeros]);
}

fn sign(random: &mut Random, line: &mut Fields) {
    let sign = random.pick(b"+-");
    some_field(random, line).insert(0, sign);
}

fn emptied_field(random: &mut Random, line: &mut Fields) {
    some_field(random, line).clear();
}

fn extra_field(random: &mut Random, line: &mut Fields) {
    let index = random.within(1..=line.len());
    line.insert(index, b"0".to_vec());
}

fn missing_field(random: &mut Random, line: &mut Fields) {
    if line.len() > 1 {
        let index = random.below(line.len());
        line.remove(index);
    }
}

fn tab_at_front(_: &mut Random, line: &mut Fields) {
    line.insert(0, Vec::new());
}

fn tab_at_end(_: &mut Random, line: &mut Fields) {
    line.push(Vec::new());
}

fn spaces_for_tabs(_: &mut Random, line: &mut Fields) {
    *line = vec![line.join(&b' ')];
}

fn other_number(random: &mut Random, line: &mut Fields) {
    let number = match random.below(10) {
        0..=3 => random.below(13).to_string().into_bytes(),
        4..=7 => random.pick(&NUMBERS).as_bytes().to_vec(),
        _ => {
            let digits = random.within(10..=40);
            (0..digits).map(|index| if index == 0 { b'1' } else { b'0' + random.below(10) as u8 }).collect()
        }
    };
    *some_field(random, line) = number;
}

fn other_word(random: &mut Random, line: &mut Fields) {
    line[0] = random.pick(&WORDS).as_bytes().to_vec();
}

fn other_kind_word(random: &mut Random, line: &mut Fields) {
    if let Some(kind) = line.get_mut(2) {
        *kind = random.pick(&KIND_WORDS).as_bytes().to_vec();
    }
}

fn upper_case(random: &mut Random, line: &mut Fields) {
    let index = random.below(line.len());
    line[index].make_ascii_uppercase();
}

fn foreign_byte(random: &mut Random, line: &mut Fields) {
    let byte = random.pick(&BYTES);
    let index = random.below(line.len());
    let field = &mut line[index];
    field.insert(random.within(0..=field.len()), byte);
}

fn blank_line(random: &mut Random, lines: &mut Vec<Fields>) {
    let index = random.within(0..=lines.len());
    lines.insert(index, vec![Vec::new()]);
}

fn another_net_line(random: &mut Random, lines: &mut Vec<Fields>) {
    let net = random.pick(&["net 1 1", "net 0 0", "net 01 1", "net 256 16", "net 1", "net"]);
    let index = random.within(0..=lines.len());
    lines.insert(index, net.split(' ').map(|field| field.as_bytes().to_vec()).collect());
}

/// The same line further down, as it is or with another number at its end or in its third field.
fn repeated_line(random: &mut Random, lines: &mut Vec<Fields>) {
    let line = random.below(lines.len());
    let mut copy = lines[line].clone();
    let fields = copy.len();
    match random.below(3) {
        0 => copy[fields - 1] = b"3".to_vec(),
        1 if fields > 2 => copy[2] = b"0".to_vec(),
        _ => {}
    }
    let further_down = random.within(line + 1..=lines.len());
    lines.insert(further_down, copy);
}

fn without_last_lf(_: &mut Random, file: &mut Vec<u8>) {
    file.pop();
}

fn one_more_lf(_: &mut Random, file: &mut Vec<u8>) {
    file.push(b'\n');
}

/// Before every LF, or before one.
fn carriage_returns(random: &mut Random, file: &mut Vec<u8>) {
    let everywhere = random.percent(50);
    let ends: Vec<usize> = (0..file.len()).filter(|&index| file[index] == b'\n').collect();
    if ends.is_empty() {
        return;
    }
    let chosen = random.below(ends.len());
    for (rank, end) in ends.into_iter().enumerate().rev() {
        if everywhere || rank == chosen {
            file.insert(end, b'\r');
        }
    }
}

fn byte_order_mark(_: &mut Random, file: &mut Vec<u8>) {
    file.splice(0..0, *b"\xef\xbb\xbf");
}

fn truncated(random: &mut Random, file: &mut Vec<u8>) {
    file.truncate(random.within(0..=file.len()));
}

fn any_byte(random: &mut Random) -> u8 {
    if random.percent(60) {
        random.pick(&BYTES)
    } else {
        random.below(256) as u8
    }
}

fn changed_byte(random: &mut Random, file: &mut Vec<u8>) {
    if !file.is_empty() {
        let index = random.below(file.len());
        file[index] = any_byte(random);
    }
}

fn removed_byte(random: &mut Random, file: &mut Vec<u8>) {
    if !file.is_empty() {
        file.remove(random.below(file.len()));
    }
}

fn added_byte(random: &mut Random, file: &mut Vec<u8>) {
    let index = random.within(0..=file.len());
    file.insert(index, any_byte(random));
}

fn removed_lf(random: &mut Random, file: &mut Vec<u8>) {
    let ends: Vec<usize> = (0..file.len()).filter(|&index| file[index] == b'\n').collect();
    if !ends.is_empty() {
        file.remove(random.pick(&ends));
    }
}

/// The first line moved to the end, or dropped.
fn net_line_elsewhere(random: &mut Random, file: &mut Vec<u8>) {
    let end = file.iter().position(|&byte| byte == b'\n').map_or(file.len(), |index| index + 1);
    let first: Vec<u8> = file.drain(..end).collect();
    if random.percent(50) {
        file.extend(first);
    }
}

/// Another net line in front, with sizes at and past their limits.
fn other_size(random: &mut Random, file: &mut Vec<u8>) {
    const SIZES: [&str; 16] = [
        "1\t1",
        "0\t1",
        "1\t0",
        "256\t4",
        "64\t16",
        "256\t5",
        "257\t1",
        "1\t17",
        "205\t5",
        "65\t16",
        "128\t8",
        "256\t16",
        "257\t17",
        "65536\t65536",
        "4294967297\t1",
        "4294967296\t4294967296",
    ];
    let end = file.iter().position(|&byte| byte == b'\n').unwrap_or(file.len());
    file.splice(..end, format!("net\t{}", random.pick(&SIZES)).bytes());
}

/// Filled up to the greatest size or one byte more: by one long line, by empty lines, or by one long number.
fn padded(random: &mut Random, file: &mut Vec<u8>) {
    let size = FILE_LIMIT + random.below(2);
    match random.below(3) {
        0 => file.resize(size, b'x'),
        1 => file.resize(size, b'\n'),
        _ => {
            file.extend(b"link\t9\t0\t0\t");
            file.resize(size - 1, b'9');
            file.push(b'\n');
        }
    }
}

fn hardly_a_file(random: &mut Random, file: &mut Vec<u8>) {
    let whole =
        random.pick(&["", "", "\n", "net", "net\n", "net\t1\t1", "net\t1\t1\n", "net\t1\t1\n\n", "\t", "\0", "0"]);
    *file = whole.as_bytes().to_vec();
}
