//! Times each operation of `fixed_num` beside an implementation over `i128` written for this comparison, checks that
//! both give the same digits, and prints how many times as long the proved one takes.

use std::hint::black_box;
use std::time::Instant;

unsafe extern "C" {
    fn rattle_add(a: i64, d: u8, b: i64, e: u8) -> u64;
    fn rattle_mul(a: i64, d: u8, b: i64, e: u8) -> u64;
    fn rattle_div(a: i64, d: u8, b: i64, e: u8) -> u64;
    fn rattle_modulo(a: i64, d: u8, b: i64, e: u8) -> u64;
    fn rattle_cmp(a: i64, d: u8, b: i64, e: u8) -> u64;
    fn rattle_round(a: i64, d: u8, b: i64, e: u8) -> u64;
    fn rattle_text(a: i64, d: u8, b: i64, e: u8) -> u64;
    fn rattle_parse(text: *const u8, len: usize) -> u64;
}

const LIMIT: i128 = 10_000_000_000_000_000_000;

/// A number over an `i128`, `None` for the asterisk value.
#[derive(Clone, Copy)]
struct Plain(Option<(i128, u32)>);

impl Plain {
    fn new(m: i128, d: u32) -> Plain {
        Plain((m.abs() < LIMIT && d <= 15).then_some((m, d)))
    }

    fn digits(self) -> u64 {
        self.0.map_or(u64::MAX, |(m, _)| m.unsigned_abs() as u64)
    }
}

const POWERS: [i128; 32] = {
    let mut powers = [1; 32];
    let mut k = 1;
    while k < 32 {
        powers[k] = 10 * powers[k - 1];
        k += 1;
    }
    powers
};

fn power(k: u32) -> i128 {
    POWERS[k as usize]
}

/// The nearest whole number, a half away from zero.
fn near(p: i128, q: i128) -> i128 {
    let (n, r) = (p / q, p % q);
    if 2 * r.abs() >= q.abs() { n + p.signum() * q.signum() } else { n }
}

fn both(a: i64, d: u8, b: i64, e: u8) -> Option<((i128, u32), (i128, u32))> {
    Some((Plain::new(a.into(), d.into()).0?, Plain::new(b.into(), e.into()).0?))
}

#[inline(never)]
extern "C" fn plain_add(a: i64, d: u8, b: i64, e: u8) -> u64 {
    let Some(((m, d), (n, e))) = both(a, d, b, e) else { return u64::MAX };
    let k = d.max(e);
    Plain::new(m * power(k - d) + n * power(k - e), k).digits()
}

#[inline(never)]
extern "C" fn plain_mul(a: i64, d: u8, b: i64, e: u8) -> u64 {
    let Some(((m, d), (n, e))) = both(a, d, b, e) else { return u64::MAX };
    let (p, k) = (m * n, d + e);
    if k <= 15 { Plain::new(p, k).digits() } else { Plain::new(near(p, power(k - 15)), 15).digits() }
}

/// Long division, digit by digit.
#[inline(never)]
extern "C" fn plain_div(a: i64, d: u8, b: i64, e: u8) -> u64 {
    let Some(((m, d), (n, e))) = both(a, d, b, e) else { return u64::MAX };
    if n == 0 {
        return u64::MAX;
    }
    let k = d.max(e).max(2);
    let divisor = n.abs();
    let (mut quotient, mut rest) = (m.abs() / divisor, m.abs() % divisor);
    for _ in 0..k + e - d {
        quotient = quotient * 10 + rest * 10 / divisor;
        rest = rest * 10 % divisor;
        if quotient >= LIMIT {
            return u64::MAX;
        }
    }
    if 2 * rest >= divisor {
        quotient += 1;
    }
    Plain::new(quotient, k).digits()
}

#[inline(never)]
extern "C" fn plain_modulo(a: i64, d: u8, b: i64, e: u8) -> u64 {
    let Some(((m, d), (n, e))) = both(a, d, b, e) else { return u64::MAX };
    if n == 0 {
        return u64::MAX;
    }
    let k = d.max(e);
    let (p, q) = (m * power(k - d), n * power(k - e));
    let r = p % q;
    Plain::new(if r != 0 && (r < 0) != (q < 0) { r + q } else { r }, k).digits()
}

#[inline(never)]
extern "C" fn plain_cmp(a: i64, d: u8, b: i64, e: u8) -> u64 {
    let Some(((m, d), (n, e))) = both(a, d, b, e) else { return 0 };
    ((m * power(e)).cmp(&(n * power(d))) as i8 + 1) as u64
}

#[inline(never)]
extern "C" fn plain_round(a: i64, d: u8, _b: i64, e: u8) -> u64 {
    let Some((m, d)) = Plain::new(a.into(), d.into()).0 else { return u64::MAX };
    let e = u32::from(e);
    if e >= d { Plain::new(m * power(e - d), e).digits() } else { Plain::new(near(m, power(d - e)), e).digits() }
}

#[inline(never)]
extern "C" fn plain_text(a: i64, d: u8, _b: i64, _e: u8) -> u64 {
    let Some((m, d)) = Plain::new(a.into(), d.into()).0 else { return u64::MAX };
    let mut bytes = [0u8; 24];
    let mut at = 24;
    let mut left = m.unsigned_abs() as u64;
    let mut written = 0;
    while left > 0 || written <= d {
        if written == d && d > 0 {
            at -= 1;
            bytes[at] = b'.';
        }
        at -= 1;
        bytes[at] = b'0' + (left % 10) as u8;
        left /= 10;
        written += 1;
    }
    if m < 0 {
        at -= 1;
        bytes[at] = b'-';
    }
    bytes[at..].iter().fold(0u64, |mixed, byte| mixed.wrapping_mul(31).wrapping_add((*byte).into()))
}

#[inline(never)]
extern "C" fn plain_parse(text: *const u8, len: usize) -> u64 {
    let mut text = unsafe { std::slice::from_raw_parts(text, len) };
    while let [b' ', rest @ ..] | [rest @ .., b' '] = text {
        text = rest;
    }
    let digits = match text {
        [] => return 0,
        [b'-' | b'+', rest @ ..] => rest,
        _ => text,
    };
    let (mut m, mut d, mut point, mut any, mut up) = (0i128, 0u32, false, false, false);
    for &byte in digits {
        match byte {
            b'0'..=b'9' => {
                any = true;
                let digit = i128::from(byte - b'0');
                if point && d >= 15 {
                    up |= d == 15 && digit >= 5;
                } else {
                    m = (m * 10 + digit).min(LIMIT);
                }
                d += point as u32;
            }
            b'.' if !point => point = true,
            _ => return u64::MAX,
        }
    }
    if any { Plain::new(m + up as i128, d.min(15)).digits() } else { u64::MAX }
}

/// A sequence of pseudo-random numbers of many lengths.
fn cases(count: usize) -> Vec<(i64, u8, i64, u8)> {
    let mut state = 0x9e37_79b9_7f4a_7c15u64;
    let mut next = move || {
        state ^= state << 13;
        state ^= state >> 7;
        state ^= state << 17;
        state
    };
    let mut number = move || {
        let bits = next() % 63 + 1;
        let whole = (next() >> (64 - bits)) as i64;
        (if next() % 2 == 0 { whole } else { -whole }, (next() % 16) as u8)
    };
    (0..count).map(|_| (number(), number())).map(|((a, d), (b, e))| (a, d, b, e)).collect()
}

type Operation = unsafe extern "C" fn(i64, u8, i64, u8) -> u64;

/// Nanoseconds for one call, the least of five rounds.
fn timed(mut round: impl FnMut(), calls: usize) -> f64 {
    (0..5).map(|_| {
        let start = Instant::now();
        round();
        start.elapsed().as_nanos() as f64 / calls as f64
    }).fold(f64::INFINITY, f64::min)
}

fn report(name: &str, proved: f64, plain: f64) {
    println!("{name:8} {proved:8.1} ns {plain:8.1} ns   ratio {:.2}", proved / plain);
}

fn main() {
    let cases = cases(200_000);
    println!("{:8} {:>11} {:>11}", "", "fixed_num", "over i128");
    let operations: [(&str, Operation, Operation); 7] = [
        ("add", rattle_add, plain_add),
        ("mul", rattle_mul, plain_mul),
        ("div", rattle_div, plain_div),
        ("modulo", rattle_modulo, plain_modulo),
        ("cmp", rattle_cmp, plain_cmp),
        ("round", rattle_round, plain_round),
        ("text", rattle_text, plain_text),
    ];
    for (name, proved, plain) in operations {
        for &(a, d, b, e) in &cases {
            let (x, y) = unsafe { (proved(a, d, b, e), plain(a, d, b, e)) };
            assert_eq!(x, y, "{name} at {a} {d} {b} {e}");
        }
        let time = |operation: Operation| timed(|| {
            for &(a, d, b, e) in &cases {
                black_box(unsafe { operation(black_box(a), d, b, e) });
            }
        }, cases.len());
        report(name, time(proved), time(plain));
    }
    let texts: Vec<String> = cases.iter().map(|&(a, d, ..)| {
        let digits = format!("{:0width$}", a.unsigned_abs(), width = usize::from(d) + 1);
        let (whole, decimals) = digits.split_at(digits.len() - usize::from(d));
        format!("{}{whole}.{decimals} ", if a < 0 { " -" } else { "" })
    }).collect();
    let parse = |operation: unsafe extern "C" fn(*const u8, usize) -> u64| timed(|| {
        for text in &texts {
            black_box(unsafe { operation(black_box(text.as_ptr()), text.len()) });
        }
    }, texts.len());
    for text in &texts {
        let (x, y) = unsafe { (rattle_parse(text.as_ptr(), text.len()), plain_parse(text.as_ptr(), text.len())) };
        assert_eq!(x, y, "parse of {text}");
    }
    report("parse", parse(rattle_parse), parse(plain_parse));
}
