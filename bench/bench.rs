// Measures the library against a plain safe Rust reader and search and a plain C reader, in one run, as ratios.
#[path = "../tests/gate/library.rs"]
mod library;

use library::{Pool, element, judge, piece};
use std::hint::black_box;
use std::time::Instant;

unsafe extern "C" {
    // The plain reader in C.
    fn c_judge(bytes: *const u8, len: usize) -> i32;
}

// ---- the plain reader

fn plain_length(b: &[u8]) -> Option<(usize, usize)> {
    match *b.first()? {
        n @ 0..=127 => Some((n as usize, 1)),
        129 => {
            let n = *b.get(1)?;
            if n < 128 { None } else { Some((n as usize, 2)) }
        }
        130 => {
            let (high, low) = (*b.get(1)?, *b.get(2)?);
            if high == 0 { None } else { Some((high as usize * 256 + low as usize, 3)) }
        }
        _ => None,
    }
}

// The first element: its tag, its contents, and what is behind it.
fn plain_element(b: &[u8]) -> Option<(u8, &[u8], &[u8])> {
    let tag = *b.first()?;
    let (n, size) = plain_length(&b[1..])?;
    let contents = b.get(1 + size..1 + size + n)?;
    Some((tag, contents, &b[1 + size + n..]))
}

fn plain_row(mut b: &[u8], depth: usize) -> bool {
    while !b.is_empty() {
        let Some((tag, contents, rest)) = plain_element(b) else {
            return false;
        };
        if tag >= 128 && (depth == 0 || !plain_row(contents, depth - 1)) {
            return false;
        }
        b = rest;
    }
    true
}

#[inline(never)]
fn plain_judge(b: &[u8]) -> bool {
    plain_row(b, 8)
}

#[inline(never)]
fn plain_piece<'a>(bytes: &'a [u8], path: &[u64]) -> Option<&'a [u8]> {
    if !plain_row(bytes, 8) {
        return None;
    }
    let mut row = bytes;
    for (i, &number) in path.iter().enumerate() {
        for _ in 0..number {
            row = plain_element(row)?.2;
        }
        let (tag, contents, rest) = plain_element(row)?;
        if i + 1 == path.len() {
            return Some(&row[..row.len() - rest.len()]);
        }
        if tag < 128 {
            return None;
        }
        row = contents;
    }
    None
}

// ---- the plain search

#[inline(never)]
fn plain_chain(p: &Pool, day: u64, first: usize, out: &mut [u16]) -> Result<usize, u8> {
    let n = p.n;
    if n == 0 || n > 200 || p.certificates.len() != 6 * n || p.certificates.chunks(6).any(|c| c[4] > 1) {
        return Err(1);
    }
    let marks = |m: &[u8]| m.iter().all(|&x| x <= 1);
    if p.signatures.len() != n * n || p.anchors.len() != n || !marks(&p.signatures) || !marks(&p.anchors) {
        return Err(2);
    }
    if first >= n {
        return Err(3);
    }
    if out.len() != n {
        return Err(4);
    }
    let at = |a: usize, field: usize| p.number(a, field);
    let holds = |a: usize| p.holds(a, day);
    let mut from = vec![usize::MAX; n];
    let mut far = vec![usize::MAX; n];
    let mut queue = std::collections::VecDeque::new();
    if holds(first) {
        far[first] = 0;
        queue.push_back(first);
    }
    while let Some(a) = queue.pop_front() {
        if p.anchors[a] == 1 {
            let count = far[a] + 1;
            let mut x = a;
            for i in (0..count).rev() {
                out[i] = x as u16;
                x = from[x];
            }
            return Ok(count);
        }
        for b in 0..n {
            if far[b] == usize::MAX
                && at(b, 4) == 1
                && at(b, 0) == at(a, 1)
                && p.signatures[b * n + a] == 1
                && at(b, 5) as usize >= far[a]
                && holds(b)
            {
                far[b] = far[a] + 1;
                from[b] = a;
                queue.push_back(b);
            }
        }
    }
    Ok(0)
}

// ---- timing: rounds of both in turn, the least of each

fn seconds(times: u32, f: &mut dyn FnMut()) -> f64 {
    let start = Instant::now();
    for _ in 0..times {
        f();
    }
    start.elapsed().as_secs_f64()
}

fn least(rivals: &mut [&mut dyn FnMut()]) -> Vec<f64> {
    let mut times = 1;
    while seconds(times, rivals[0]) < 0.004 {
        times *= 2;
    }
    let mut best = vec![f64::MAX; rivals.len()];
    for _ in 0..60 {
        for (rival, best) in rivals.iter_mut().zip(&mut best) {
            *best = best.min(seconds(times, *rival));
        }
    }
    best.iter().map(|s| s / f64::from(times) * 1e9).collect()
}

// ---- inputs

// Elements as certificates have them: a name, days, marks, a key of some hundred bytes, within one another.
fn certificate_like() -> Vec<u8> {
    let field = |tag, size: usize| element(tag, &vec![7; size]);
    let name = element(160, &[field(1, 12), field(2, 20)].concat());
    let days = element(161, &[field(3, 4), field(4, 4)].concat());
    let key = element(162, &[field(5, 3), field(6, 270)].concat());
    let body = element(128, &[field(1, 4), field(2, 4), name.clone(), name, days, key, field(7, 1)].concat());
    let one = element(129, &[body, field(8, 32)].concat());
    one.repeat(40)
}

fn tiny() -> Vec<u8> {
    element(1, &[9]).repeat(4000)
}

// Eight constructed elements within one another, with something behind each or not.
fn eight_deep(behind: &[u8]) -> Vec<u8> {
    let mut b = element(1, &[7]);
    for i in 0..8 {
        b = element(128 + i, &[&b, behind].concat());
    }
    b.repeat(200)
}

fn pool(n: usize, names: impl Fn(usize) -> (u32, u32), signed: impl Fn(usize, usize) -> bool, anchor: impl Fn(usize) -> bool) -> Pool {
    let certificates = (0..n)
        .flat_map(|a| {
            let (subject, issuer) = names(a);
            [subject, issuer, 0, 1000, 1, n as u32]
        })
        .collect();
    let signatures = (0..n * n).map(|i| u8::from(signed(i / n, i % n))).collect();
    let anchors = (0..n).map(|a| u8::from(anchor(a))).collect();
    Pool { n, certificates, signatures, anchors }
}

fn pools() -> Vec<(&'static str, Pool)> {
    let n = 200;
    let next = move |a: usize| (a as u32, ((a + 1) % n) as u32);
    let floor = |a: usize| ((a / 20) as u32, (a / 20 + 1) as u32);
    let scattered = |a: usize| ((a * 7919 % 50) as u32, (a * 104_729 % 50) as u32);
    vec![
        ("a line", pool(n, next, |_, _| true, |a| a == 199)),
        ("a cycle", pool(n, next, |_, _| true, |_| false)),
        ("all for all", pool(n, |_| (1, 1), |_, _| true, |_| false)),
        ("ten floors", pool(n, floor, |_, _| true, |a| a >= 199)),
        ("scattered", pool(n, scattered, |a, b| (a * 31 + b * 17) % 3 != 0, |a| a == 150)),
    ]
}

fn main() {
    println!("{:<28} {:>10} {:>12} {:>8} {:>10} {:>8}", "judging", "ours ns", "plain Rust", "ratio", "plain C", "C/Rust");
    for (name, b) in [("certificate-like", certificate_like()), ("tiny", tiny()), ("eight deep", eight_deep(&[])), ("eight deep, more behind", eight_deep(&[2, 0])), ("one of 65,535 bytes", element(5, &vec![7; 65_535]))] {
        let t = least(&mut [
            &mut || assert_eq!(judge(black_box(&b)), 0),
            &mut || assert!(plain_judge(black_box(&b))),
            &mut || assert_eq!(unsafe { c_judge(black_box(b.as_ptr()), b.len()) }, 1),
        ]);
        println!("{:<28} {:>10.1} {:>12.1} {:>8.2} {:>10.1} {:>8.2}", name, t[0], t[1], t[0] / t[1], t[2], t[2] / t[1]);
    }
    println!("\n{:<28} {:>10} {:>12} {:>8}", "piece", "ours ns", "plain Rust", "ratio");
    let b = certificate_like();
    let path = [39u64, 0, 5, 1];
    let t = least(&mut [
        &mut || assert!(piece(black_box(&b), black_box(&path)).len > 0),
        &mut || assert!(plain_piece(black_box(&b), black_box(&path)).is_some()),
    ]);
    println!("{:<28} {:>10.1} {:>12.1} {:>8.2}", "the last key", t[0], t[1], t[0] / t[1]);
    println!("\n{:<28} {:>10} {:>12} {:>8}", "chain, 200 certificates", "ours ns", "plain Rust", "ratio");
    for (name, p) in pools() {
        let (mut a, mut c) = (vec![0; p.n], vec![0; p.n]);
        let expected = plain_chain(&p, 5, 0, &mut c).unwrap() as u64;
        assert_eq!(p.ask(5, 0, &mut a).len, expected);
        let t = least(&mut [
            &mut || assert_eq!(black_box(&p).ask(5, 0, &mut a).rejection, 0),
            &mut || assert!(plain_chain(black_box(&p), 5, 0, &mut c).is_ok()),
        ]);
        println!("{:<28} {:>10.1} {:>12.1} {:>8.2}", name, t[0], t[1], t[0] / t[1]);
    }
}
