//! The same work as `mx_measure` in plain Rust, to compare with: steps over the MessagePack values in
//! standard input so many times, and prints how many values there were.

use std::io::Read;

const MOST_NESTED: usize = 64;
const MOST_LENGTH: usize = 2_097_152;

/// A number of so many bytes behind the leading byte, the highest first.
fn number(bytes: &[u8], width: usize) -> Option<usize> {
    let digits = bytes.get(1..1 + width)?;
    Some(digits.iter().fold(0, |number, digit| number << 8 | usize::from(*digit)))
}

/// How many bytes stand in front of what the value holds, and how many values that are.
fn head(bytes: &[u8]) -> Option<(usize, usize, bool)> {
    let leading = *bytes.first()?;
    let sized = |width: usize, kind: usize| {
        let size = number(bytes, width)?;
        (size <= MOST_LENGTH).then_some((1 + width + kind + size, 0, false))
    };
    let items = |width: usize, each: usize| {
        let count = number(bytes, width)?;
        (count <= MOST_LENGTH).then_some((1 + width, each * count, true))
    };
    match leading {
        0x00..=0x7f | 0xe0..=0xff | 0xc0 | 0xc2 | 0xc3 => Some((1, 0, false)),
        0x80..=0x8f => Some((1, 2 * usize::from(leading & 0x0f), true)),
        0x90..=0x9f => Some((1, usize::from(leading & 0x0f), true)),
        0xa0..=0xbf => Some((1 + usize::from(leading & 0x1f), 0, false)),
        0xc1 => None,
        0xc4 | 0xd9 => sized(1, 0),
        0xc5 | 0xda => sized(2, 0),
        0xc6 | 0xdb => sized(4, 0),
        0xc7 => sized(1, 1),
        0xc8 => sized(2, 1),
        0xc9 => sized(4, 1),
        0xca | 0xce | 0xd2 => Some((5, 0, false)),
        0xcb | 0xcf | 0xd3 => Some((9, 0, false)),
        0xcc | 0xd0 => Some((2, 0, false)),
        0xcd | 0xd1 => Some((3, 0, false)),
        0xd4 => Some((3, 0, false)),
        0xd5 => Some((4, 0, false)),
        0xd6 => Some((6, 0, false)),
        0xd7 => Some((10, 0, false)),
        0xd8 => Some((18, 0, false)),
        0xdc => items(2, 1),
        0xdd => items(4, 1),
        0xde => items(2, 2),
        0xdf => items(4, 2),
    }
}

/// How many bytes the first value takes.
fn skip(bytes: &[u8]) -> Option<usize> {
    let mut left = [0usize; MOST_NESTED + 1];
    left[0] = 1;
    let mut depth = 1;
    let mut at = 0;
    while depth > 0 {
        if left[depth - 1] == 0 {
            depth -= 1;
            continue;
        }
        left[depth - 1] -= 1;
        let (size, inside, is_container) = head(bytes.get(at..)?)?;
        at += size;
        if at > bytes.len() {
            return None;
        }
        if is_container {
            *left.get_mut(depth)? = inside;
            depth += 1;
        }
    }
    Some(at)
}

fn values_in(bytes: &[u8]) -> usize {
    let mut rest = bytes;
    let mut count = 0;
    while let Some(size) = skip(rest) {
        rest = &rest[size..];
        count += 1;
    }
    count
}

fn main() {
    let times: u32 = std::env::args().nth(1).and_then(|word| word.parse().ok()).expect("a number of times");
    let mut bytes = Vec::new();
    std::io::stdin().read_to_end(&mut bytes).expect("standard input");
    let mut count = 0;
    for _ in 0..times {
        count = values_in(std::hint::black_box(&bytes));
    }
    println!("{count}");
}
