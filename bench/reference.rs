// What the kernels are measured against: the same work in plain Rust, as code over std does it:
// each text validated by itself, each comparison by the order of slices.
//
//     rustc -O -C target-cpu=x86-64-v2 bench/reference.rs -o reference
use std::hint::black_box;
use std::time::Instant;

const ROUNDS: u32 = 30;

fn text(i: u32, last: u8) -> [u8; 6] {
    let n = i.wrapping_mul(45);
    let letter = |power: u32| 97 + (n / power % 26) as u8;
    [letter(17576), letter(676), letter(26), letter(1), b'x', last]
}

// 10,000 texts of six bytes, with fields of W bytes.
fn texts<const W: usize>(last: u8) -> Vec<u8> {
    let mut bytes = 10000u32.to_le_bytes()[..W].to_vec();
    for i in 1..10000u32 {
        bytes.extend_from_slice(&(6 * i).to_le_bytes()[..W]);
    }
    for i in 0..10000 {
        bytes.extend_from_slice(&text(i, last));
    }
    bytes
}

// 40 lists of 250 texts of one byte, with fields of one byte.
fn short_lists(text: u8) -> Vec<u8> {
    let mut list: Vec<u8> = std::iter::once(250).chain(1..250).collect();
    list.extend([text; 250]);
    list.repeat(40)
}

fn field<const W: usize>(bytes: &[u8], i: usize) -> usize {
    let mut field = [0; 4];
    field[..W].copy_from_slice(&bytes[W * i..W * i + W]);
    u32::from_le_bytes(field) as usize
}

#[inline(never)]
fn are_valid<const W: usize>(bytes: &[u8], check: impl Fn(&[u8]) -> bool) -> bool {
    let count = field::<W>(bytes, 0);
    let (starts, things) = bytes[W..].split_at(W * (count - 1));
    let mut start = 0;
    for i in 0..count - 1 {
        let end = field::<W>(starts, i);
        if end < start || end > things.len() || !check(&things[start..end]) {
            return false;
        }
        start = end;
    }
    check(&things[start..])
}

fn get(bytes: &[u8], i: usize) -> &[u8] {
    let count = field::<2>(bytes, 0);
    let (starts, things) = bytes[2..].split_at(2 * (count - 1));
    let start = if i == 0 { 0 } else { field::<2>(starts, i - 1) };
    let end = if i + 1 == count { things.len() } else { field::<2>(starts, i) };
    &things[start..end]
}

#[inline(never)]
fn place_of(bytes: &[u8], key: &[u8]) -> usize {
    let (mut low, mut high) = (0, field::<2>(bytes, 0));
    while low < high {
        let middle = low + (high - low) / 2;
        match get(bytes, middle).cmp(key) {
            std::cmp::Ordering::Less => low = middle + 1,
            std::cmp::Ordering::Equal => return middle,
            std::cmp::Ordering::Greater => high = middle,
        }
    }
    0
}

fn time(name: &str, times: u32, mut work: impl FnMut(u32)) {
    let mut least = u128::MAX;
    for _ in 0..ROUNDS {
        let start = Instant::now();
        for k in 0..times {
            work(k);
        }
        least = least.min(start.elapsed().as_nanos());
    }
    println!("{name}: {} ps", least * 1000 / u128::from(times));
}

fn main() {
    let is_text = |text: &[u8]| std::str::from_utf8(text).is_ok();
    let (even, odd) = (short_lists(b'y'), short_lists(b'z'));
    time("validate 40 times 250 texts, Index8", 100, |k| {
        let lists = black_box(if k % 2 == 0 { &even } else { &odd });
        black_box(lists.chunks_exact(500).all(|list| are_valid::<1>(list, is_text)));
    });
    let (even, odd) = (texts::<4>(b'y'), texts::<4>(b'z'));
    time("validate 10000 texts of 6 bytes, Index32", 100, |k| {
        let list = black_box(if k % 2 == 0 { &even } else { &odd });
        black_box(are_valid::<4>(list, is_text));
    });
    let (even, odd) = (texts::<2>(b'y'), texts::<2>(b'z'));
    let pick = |k: u32| if k % 2 == 0 { &even } else { &odd };
    time("validate 10000 texts of 6 bytes", 100, |k| {
        black_box(are_valid::<2>(black_box(pick(k)), is_text));
    });
    time("validate 10000 byte strings of 6 bytes", 100, |k| {
        black_box(are_valid::<2>(black_box(pick(k)), |_| true));
    });
    let keys: Vec<[u8; 6]> = (0..10000).map(|i: u32| text(i * 7919 % 10000, b'y')).collect();
    time("search among 10000 texts", 10000, |k| {
        black_box(place_of(black_box(&even), &keys[k as usize]));
    });
}
