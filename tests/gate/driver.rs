// Drives the three functions of the library beside a plain reader and all chains tried, on random and chosen input.
// usage: driver [SEED]
use std::fmt::Debug;

mod library;

use library::{Found, Pool, Span, element, judge, piece, written_length};

// ---- counting

struct Trials {
    random: u64,
    passed: u64,
    failed: u64,
}

impl Trials {
    fn check<T: PartialEq + Debug>(&mut self, what: &str, got: T, expected: T, input: &dyn Debug) {
        if got == expected {
            self.passed += 1;
            return;
        }
        self.failed += 1;
        if self.failed <= 10 {
            println!("driver: failed: {what}: got {got:?}, expected {expected:?}, for {input:?}");
        }
    }

    // xorshift64*
    fn next(&mut self) -> u64 {
        self.random ^= self.random >> 12;
        self.random ^= self.random << 25;
        self.random ^= self.random >> 27;
        self.random.wrapping_mul(0x2545_F491_4F6C_DD1D)
    }

    fn below(&mut self, n: u64) -> u64 {
        (self.next() >> 11) % n
    }

    fn one_in(&mut self, n: u64) -> bool {
        self.below(n) == 0
    }
}

// ---- a plain reader

enum Reading {
    // Some elements, and then as many bytes as were read.
    Row(Vec<(usize, usize)>),
    // More bytes could make it a row.
    Open,
    Dead,
}

// Elements at the front of the bytes, in a row of so many bytes or in an endless one; depth says how many levels are left.
fn read_row(b: &[u8], room: Option<usize>, depth: usize) -> Reading {
    let mut at = 0;
    let mut found = Vec::new();
    loop {
        let left = room.map(|r| r - at);
        if left == Some(0) || (left.is_none() && at == b.len()) {
            return Reading::Row(found);
        }
        if left == Some(1) {
            return Reading::Dead;
        }
        if at >= b.len() {
            return Reading::Open;
        }
        let constructed = b[at] >= 128;
        if constructed && depth == 0 {
            return Reading::Dead;
        }
        // Every length whose writing goes on from the bytes that are there, and which fits.
        let head = &b[at + 1..b.len().min(at + 4)];
        let fits = |n: usize| {
            let size = 1 + written_length(n).len() + n;
            !(constructed && n == 1) && left.is_none_or(|l| size <= l && l - size != 1)
        };
        let known = (0..=65_535).find(|&n| head.starts_with(&written_length(n)));
        let Some(n) = known else {
            let some = (0..=65_535).any(|n| written_length(n).starts_with(head) && fits(n));
            return if some { Reading::Open } else { Reading::Dead };
        };
        if !fits(n) {
            return Reading::Dead;
        }
        let start = at + 1 + written_length(n).len();
        if constructed {
            match read_row(&b[start..b.len().min(start + n)], Some(n), depth - 1) {
                Reading::Row(_) => {}
                other => return other,
            }
        }
        if b.len() < start + n {
            return Reading::Open;
        }
        found.push((at, start + n - at));
        at = start + n;
    }
}

// Bytes that fill a row of so many: elements of two bytes, and one of three where the number is odd.
fn filling(room: usize) -> Vec<u8> {
    let odd = if room % 2 == 1 { vec![1, 1, 7] } else { Vec::new() };
    [odd.clone(), [1, 0].repeat((room - odd.len()) / 2)].concat()
}

// Bytes behind which these are a row, for bytes that are no row but could become one.
fn completion(b: &[u8], room: Option<usize>, depth: usize) -> Vec<u8> {
    let mut at = 0;
    loop {
        let left = room.map(|r| r - at);
        if at >= b.len() {
            return filling(left.unwrap_or(0));
        }
        let constructed = b[at] >= 128;
        let head = &b[at + 1..b.len().min(at + 4)];
        let fits = |n: usize| {
            let size = 1 + written_length(n).len() + n;
            !(constructed && n == 1) && left.is_none_or(|l| size <= l && l - size != 1)
        };
        let known = (0..=65_535).find(|&n| head.starts_with(&written_length(n)));
        let chosen = known.or_else(|| (0..=65_535).find(|&n| written_length(n).starts_with(head) && fits(n)));
        let n = chosen.expect("the bytes are viable");
        let start = at + 1 + written_length(n).len();
        if b.len() >= start + n {
            at = start + n;
            continue;
        }
        let mut more = written_length(n)[head.len().min(start - at - 1)..].to_vec();
        let within = &b[start.min(b.len())..];
        more.extend(if constructed { completion(within, Some(n), depth - 1) } else { vec![7; n - within.len()] });
        more.extend(filling(left.map_or(0, |l| l - (start + n - at))));
        return more;
    }
}

fn plain_judge(b: &[u8]) -> u64 {
    for k in 0..b.len() {
        if matches!(read_row(&b[..k + 1], None, 8), Reading::Dead) {
            return k as u64 + 1;
        }
    }
    match read_row(b, None, 8) {
        Reading::Row(_) => 0,
        _ => b.len() as u64 + 1,
    }
}

fn plain_piece(b: &[u8], path: &[u64]) -> Span {
    let none = Span { at: 0, len: 0 };
    if plain_judge(b) != 0 || path.is_empty() {
        return none;
    }
    let (mut base, mut end, mut depth) = (0, b.len(), 8);
    for (i, &number) in path.iter().enumerate() {
        let room = if i == 0 { None } else { Some(end - base) };
        let Reading::Row(row) = read_row(&b[base..end], room, depth) else {
            return none;
        };
        let Some(&(at, len)) = row.get(usize::try_from(number).unwrap_or(usize::MAX)) else {
            return none;
        };
        if i + 1 == path.len() {
            return Span { at: (base + at) as u64, len: len as u64 };
        }
        if b[base + at] < 128 {
            return none;
        }
        let head = (0..=65_535).find(|&n| b[base + at + 1..].starts_with(&written_length(n)));
        end = base + at + len;
        base = end - head.unwrap_or(0);
        depth -= 1;
    }
    none
}

// ---- bytes to try

fn random_row(t: &mut Trials, depth: usize) -> Vec<u8> {
    let mut row = Vec::new();
    for _ in 0..t.below(4) {
        if depth > 0 && t.one_in(2) {
            let inner = random_row(t, depth - 1);
            row.extend(element(128 + t.below(128) as u8, &inner));
        } else {
            let size = [0, 1, 2, 5, 127, 128, 130][t.below(7) as usize];
            let contents: Vec<u8> = (0..size).map(|_| t.below(256) as u8).collect();
            row.extend(element(t.below(128) as u8, &contents));
        }
    }
    row
}

// Elements within one another; behind each whose bit is set stands another.
fn nested(depth: usize, behind: u64) -> Vec<u8> {
    let mut b = element(1, &[]);
    for level in 0..depth {
        b = element(200, &b);
        if behind >> level & 1 == 1 {
            b.extend(element(2, &[7]));
        }
    }
    b
}

fn try_bytes(t: &mut Trials, b: &[u8]) {
    let got = judge(b);
    t.check("judge", got, plain_judge(b), &b);
}

// Before the place where bytes are malformed, some bytes behind them make them a row.
fn try_completions(t: &mut Trials, b: &[u8]) {
    let ill = judge(b);
    if ill == 0 {
        return;
    }
    for k in 0..ill as usize {
        let whole = [&b[..k], &completion(&b[..k], None, 8)].concat();
        t.check("completed", judge(&whole), 0, &(&b[..k], &whole));
    }
}

fn try_paths(t: &mut Trials, b: &[u8]) {
    for _ in 0..4 {
        let path: Vec<u64> = (0..t.below(4)).map(|_| if t.one_in(9) { t.next() } else { t.below(3) }).collect();
        let got = piece(b, &path);
        let expected = plain_piece(b, &path);
        if expected.len == 0 {
            t.check("piece: nothing", got.len, 0, &(b, &path));
        } else {
            t.check("piece", got, expected, &(b, &path));
        }
    }
}

fn bytes(t: &mut Trials) {
    for n in [0, 1, 127, 128, 129, 255, 256, 257, 65_534, 65_535] {
        let whole = element(5, &vec![7; n]);
        t.check("edge of a length", judge(&whole), 0, &n);
        t.check("one byte less", judge(&whole[..whole.len() - 1]), whole.len() as u64, &n);
    }
    for depth in 0..11 {
        for behind in [0, u64::MAX, t.next(), t.next(), t.next(), t.next()] {
            try_bytes(t, &nested(depth, behind));
        }
    }
    for _ in 0..300 {
        let b: Vec<u8> = (0..t.below(12)).map(|_| [t.below(256), t.below(8), 128 + t.below(4)][t.below(3) as usize] as u8).collect();
        try_bytes(t, &b);
        try_completions(t, &b);
        try_paths(t, &b);
    }
    for i in 0..150 {
        let mut b = random_row(t, 9);
        try_bytes(t, &b);
        try_paths(t, &b);
        if i < 15 && b.len() < 300 {
            for k in 0..b.len() {
                try_bytes(t, &b[..k]);
            }
        }
        if !b.is_empty() && b.len() < 300 {
            let at = t.below(b.len() as u64) as usize;
            b[at] = t.below(256) as u8;
            try_bytes(t, &b);
            try_paths(t, &b);
        }
    }
}

// ---- chains

impl Pool {
    fn issues(&self, a: usize, b: usize) -> bool {
        self.number(a, 4) == 1 && self.number(a, 0) == self.number(b, 1) && self.signatures[a * self.n + b] == 1
    }

    fn is_chain(&self, day: u64, first: usize, row: &[u16]) -> bool {
        let row: Vec<usize> = row.iter().map(|&x| x as usize).collect();
        row.first() == Some(&first)
            && row.iter().all(|&x| x < self.n && self.holds(x, day))
            && row.windows(2).enumerate().all(|(i, w)| self.issues(w[1], w[0]) && self.number(w[1], 5) as usize >= i)
            && row.last().is_some_and(|&x| self.anchors[x] == 1)
    }

    // The length of a shortest chain, by going along every chain of at most n certificates.
    fn all_tried(&self, day: u64, at: usize, length: usize) -> Option<usize> {
        if !self.holds(at, day) {
            return None;
        }
        if self.anchors[at] == 1 {
            return Some(length);
        }
        if length == self.n {
            return None;
        }
        (0..self.n)
            .filter(|&b| self.issues(b, at) && self.number(b, 5) as usize >= length - 1)
            .filter_map(|b| self.all_tried(day, b, length + 1))
            .min()
    }

    // The same by a plain breadth-first search.
    fn breadth_first(&self, day: u64, first: usize) -> Option<usize> {
        let mut seen = vec![false; self.n];
        let mut layer = vec![first];
        seen[first] = true;
        for length in 1..=self.n {
            layer.retain(|&a| self.holds(a, day));
            if layer.iter().any(|&a| self.anchors[a] == 1) {
                return Some(length);
            }
            let mut next = Vec::new();
            for &a in &layer {
                for b in 0..self.n {
                    if !seen[b] && self.issues(b, a) && self.number(b, 5) as usize >= length - 1 {
                        seen[b] = true;
                        next.push(b);
                    }
                }
            }
            layer = next;
        }
        None
    }
}

fn random_pool(t: &mut Trials, n: usize, names: u64, sparse: u64) -> Pool {
    let mut certificates = Vec::new();
    for _ in 0..n {
        let from = t.below(4) as u32;
        certificates.extend([
            t.below(names) as u32,
            t.below(names) as u32,
            from,
            from + t.below(6) as u32,
            u32::from(!t.one_in(5)),
            if t.one_in(3) { t.below(4) as u32 } else { n as u32 },
        ]);
    }
    let signatures = (0..n * n).map(|_| u8::from(!t.one_in(sparse))).collect();
    let anchors = (0..n).map(|_| u8::from(t.one_in(n as u64))).collect();
    Pool { n, certificates, signatures, anchors }
}

const UNTOUCHED: u16 = 0xABCD;

fn try_chain(t: &mut Trials, p: &Pool, day: u64, first: usize, expected: Option<usize>) {
    let mut out = vec![UNTOUCHED; p.n];
    let got = p.ask(day, first as u64, &mut out);
    let len = expected.unwrap_or(0);
    let input = (p.n, &p.certificates, &p.signatures, &p.anchors, day, first);
    t.check("chain: length", got, Found { rejection: 0, len: len as u64 }, &input);
    t.check("chain: is one", len == 0 || p.is_chain(day, first, &out[..len]), true, &(&input, &out));
    t.check("chain: rest of the buffer", out[len..].iter().all(|&x| x == UNTOUCHED), true, &input);
}

fn chains(t: &mut Trials) {
    for _ in 0..1500 {
        let n = 1 + t.below(8) as usize;
        let names = 1 + t.below(5);
        let p = random_pool(t, n, names, 4);
        let (day, first) = (t.below(9), t.below(n as u64) as usize);
        let expected = p.all_tried(day, first, 1);
        t.check("all tried against breadth first", p.breadth_first(day, first), expected, &(&p.certificates, day));
        try_chain(t, &p, day, first, expected);
    }
    for _ in 0..60 {
        let n = 1 + t.below(200) as usize;
        let names = 1 + t.below(n as u64);
        let p = random_pool(t, n, names, 3);
        let (day, first) = (t.below(9), t.below(n as u64) as usize);
        let expected = p.breadth_first(day, first);
        try_chain(t, &p, day, first, expected);
    }
    for n in [1, 2, 100, 200] {
        let p = line(n, false);
        try_chain(t, &p, 0, 0, Some(n));
        try_chain(t, &line(n, true), 0, 0, None);
    }
}

// Each certificate is issued by the next, the last is the anchor; or, as a cycle, by the next round and round, with none.
fn line(n: usize, cycle: bool) -> Pool {
    let certificates = (0..n).flat_map(|a| [a as u32, ((a + 1) % n) as u32, 0, 9, 1, n as u32]).collect();
    let anchors = (0..n).map(|a| u8::from(!cycle && a + 1 == n)).collect();
    Pool { n, certificates, signatures: vec![1; n * n], anchors }
}

// The first rejection that applies, by the list of reasons.
fn plain_rejection(n: u64, p: &Pool, first: u64, out: usize) -> u64 {
    let marks = |m: &[u8]| m.iter().all(|&x| x <= 1);
    let (n128, len) = (u128::from(n), |l: usize| l as u128);
    if n == 0 || n > 200 || len(p.certificates.len()) != 6 * n128 || (0..n as usize).any(|a| p.number(a, 4) > 1) {
        1
    } else if len(p.signatures.len()) != n128 * n128 || len(p.anchors.len()) != n128 || !marks(&p.signatures) || !marks(&p.anchors) {
        2
    } else if first >= n {
        3
    } else if out as u64 != n {
        4
    } else {
        0
    }
}

fn rejections(t: &mut Trials) {
    for _ in 0..1500 {
        let size = t.below(6) as usize;
        let mut p = random_pool(t, size.max(1), 3, 4);
        let mut n = size as u64;
        let mut first = t.below(n.max(1));
        let mut out = vec![UNTOUCHED; size];
        for _ in 0..1 + t.below(3) {
            match t.below(10) {
                0 => n = [0, 201, n + 1, u64::MAX, 1 << 32][t.below(5) as usize],
                1 => p.certificates.push(1),
                2 => drop(p.certificates.pop()),
                3 => {
                    let at = t.below(size.max(1) as u64) as usize;
                    if let Some(x) = p.certificates.get_mut(6 * at + 4) {
                        *x = 2
                    }
                }
                4 => drop(p.signatures.pop()),
                5 => {
                    let at = t.below(p.signatures.len().max(1) as u64) as usize;
                    if let Some(x) = p.signatures.get_mut(at) {
                        *x = 2
                    }
                }
                6 => p.anchors.push(0),
                7 => {
                    if let Some(x) = p.anchors.last_mut() {
                        *x = 255
                    }
                }
                8 => first = [n, u64::MAX, n.wrapping_add(1)][t.below(3) as usize],
                _ => out.push(UNTOUCHED),
            }
        }
        let expected = plain_rejection(n, &p, first, out.len());
        if expected == 0 {
            continue;
        }
        let named = Pool { n: n as usize, ..p };
        let got = named.ask(3, first, &mut out);
        let input = (n, &named.certificates, &named.signatures, &named.anchors, first, out.len());
        t.check("rejection", got, Found { rejection: expected, len: 0 }, &input);
        t.check("rejection: buffer", out.iter().all(|&x| x == UNTOUCHED), true, &input);
    }
}

fn main() {
    let given = std::env::args().nth(1);
    let Ok(seed) = given.as_deref().map_or(Ok(20_250_101), str::parse::<u64>) else {
        eprintln!("driver: a seed is a number below 2^64; usage: driver [SEED]");
        std::process::exit(2);
    };
    println!("driver: seed {seed}");
    // A state of 0 would draw only zeros.
    let mut t = Trials { random: (seed ^ 0x9E37_79B9_7F4A_7C15).max(1), passed: 0, failed: 0 };
    bytes(&mut t);
    chains(&mut t);
    rejections(&mut t);
    println!("{} passed, {} failed", t.passed, t.failed);
    if t.failed > 0 {
        std::process::exit(1);
    }
}
