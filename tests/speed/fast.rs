//! The bench program of 01, tuned by hand: Rust and the standard library, with unsafe only around SSE2, with eight rooms in a word and with tables of
//! digits. plain.rs is the same program without these. Like the proved program it looks through a table of open calls; nothing is indexed by ticket,
//! which would be faster still and take 128 KB.

mod shared;

use shared::*;
use std::arch::x86_64::*;
use std::process::ExitCode;

fn main() -> ExitCode {
    shared::main::<Rooms>()
}

/// 1 in each byte of a word.
const ONES: u64 = 0x0101_0101_0101_0101;

/// Eight levels to a word, 0 from T on.
struct Rooms([[u64; 9]; 16]);

/// The bytes of the word that are 0; above the lowest of them others may be marked too.
#[inline(always)]
fn zeros(word: u64) -> u64 {
    word.wrapping_sub(ONES) & !word & (ONES << 7)
}

/// 1 in the bytes of the word up to this level's.
#[inline(always)]
fn up_to(level: u8) -> u64 {
    ONES >> (56 - 8 * (level & 7))
}

/// The block of `N` places from `at` on.
#[inline(always)]
fn block<const N: usize, T>(all: &[T; PLACES], at: usize) -> &[T; N] {
    all[at..at + N].first_chunk().unwrap()
}

/// Which of eight numbers are `x`: all bits of those.
#[inline(always)]
fn equal(part: &[u16; 8], x: u16) -> __m128i {
    // here and below: SSE2 is in every x86-64 processor, and what is loaded are the 16 bytes of one part
    unsafe { _mm_cmpeq_epi16(_mm_loadu_si128(part.as_ptr().cast()), _mm_set1_epi16(x as i16)) }
}

/// Which of 32 numbers are `x`, a bit for each.
#[inline(always)]
fn which(block: &[u16; 32], x: u16) -> u32 {
    let (parts, _) = block.as_chunks::<8>();
    let pair = |i: usize| unsafe { _mm_movemask_epi8(_mm_packs_epi16(equal(&parts[i], x), equal(&parts[i + 1], x))) };
    pair(0) as u32 | (pair(2) as u32) << 16
}

/// Some of 64 numbers is `x`.
#[inline(always)]
fn any(block: &[u16; 64], x: u16) -> bool {
    let (parts, _) = block.as_chunks::<8>();
    let pair = |i: usize| unsafe { _mm_or_si128(equal(&parts[i], x), equal(&parts[i + 1], x)) };
    unsafe { _mm_movemask_epi8(_mm_or_si128(_mm_or_si128(pair(0), pair(2)), _mm_or_si128(pair(4), pair(6)))) != 0 }
}

/// Which of 32 ranks are one of `count` (at least 1) from `low` on.
#[inline(always)]
fn inside(block: &[u8; 32], low: u8, count: u8) -> u32 {
    let (parts, _) = block.as_chunks::<16>();
    let part = |i: usize| unsafe {
        let (low, last) = (_mm_set1_epi8(low as i8), _mm_set1_epi8(count as i8 - 1));
        let past = _mm_sub_epi8(_mm_loadu_si128(parts[i].as_ptr().cast()), low);
        _mm_movemask_epi8(_mm_cmpeq_epi8(_mm_min_epu8(past, last), past)) as u32
    };
    part(0) | part(1) << 16
}

impl Way for Rooms {
    fn new(plan: &Plan) -> Rooms {
        let mut rooms = [[0; 9]; 16];
        for site in 0..16 {
            let threads = plan.threads[site];
            for k in 0..threads {
                rooms[site][usize::from(k / 8)] |= u64::from(threads - k) << (8 * (k % 8));
            }
        }
        Rooms(rooms)
    }

    #[inline(always)]
    fn take(&mut self, site: usize, level: u8, limit: &mut u8) {
        let (rooms, last) = (&mut self.0[site], usize::from(level / 8 & 7));
        let mut less = up_to(level);
        for w in (0..=last).rev() {
            rooms[w] -= less;
            less = ONES;
            let full = zeros(rooms[w]);
            if full != 0 {
                *limit = (8 * w as u32 + full.trailing_zeros() / 8) as u8;
            }
        }
    }

    #[inline(always)]
    fn give(&mut self, site: usize, level: u8, limit: &mut u8, _: u8) {
        let (rooms, last) = (&mut self.0[site], usize::from(level / 8 & 7));
        for room in &mut rooms[..last] {
            *room += ONES;
        }
        rooms[last] += up_to(level);
        if level >= *limit {
            let (mut w, mut full) = (last, zeros(rooms[last]));
            while full == 0 && w < 8 {
                w += 1;
                full = zeros(rooms[w]);
            }
            *limit = (8 * w as u32 + full.trailing_zeros() / 8) as u8;
        }
    }

    /// Rooms are at most 64, so that no byte carries into the next one and the marks are exact.
    #[inline(always)]
    fn blocking(&self, site: usize, level: u8) -> u8 {
        let (rooms, mut w) = (&self.0[site], usize::from(level / 8 & 7));
        let mut full = !(rooms[w] + 127 * ONES) & (up_to(level) << 7);
        while full == 0 && w > 0 {
            w -= 1;
            full = !(rooms[w] + 127 * ONES) & (ONES << 7);
        }
        8 * w as u8 + 7 - (full.leading_zeros() / 8) as u8
    }

    #[inline(always)]
    fn room(&self, site: usize, level: u8) -> u8 {
        let (rooms, last) = (&self.0[site], usize::from(level / 8 & 7));
        let least = rooms[..last].iter().flat_map(|word| word.to_le_bytes()).fold(64, u8::min);
        let part = rooms[last].to_le_bytes();
        part[..=usize::from(level & 7)].iter().fold(least, |least, room| least.min(*room))
    }

    /// Goes by 64 until the ticket is met or no more than 32 are left.
    #[inline(always)]
    fn find(tickets: &[u16; PLACES], open: usize, ticket: u16) -> Option<usize> {
        let (mut at, open) = (0, open.min(256));
        while at + 32 < open && !any(block(tickets, at), ticket) {
            at += 64;
        }
        while at < open {
            let hits = which(block(tickets, at), ticket);
            if hits != 0 {
                return Some(at + hits.trailing_zeros() as usize);
            }
            at += 32;
        }
        None
    }

    #[inline(always)]
    fn has_child(parents: &[u16; PLACES], open: usize, at: usize, ticket: u16) -> bool {
        let (mut at, open) = (at & 224, open.min(256));
        while at + 32 < open {
            if any(block(parents, at), ticket) {
                return true;
            }
            at += 64;
        }
        at < open && which(block(parents, at), ticket) != 0
    }

    #[inline(always)]
    fn first_waiter(ranks: &[u8; PLACES], open: usize, low: u8, count: u8) -> Option<usize> {
        let (mut at, open) = (0, open.min(256));
        while at < open {
            let hits = inside(block(ranks, at), low, count);
            if hits != 0 {
                return Some(at + hits.trailing_zeros() as usize);
            }
            at += 32;
        }
        None
    }

    #[inline(always)]
    fn number(line: &mut Line, n: u16) {
        let (high, low) = (usize::from(n / 1000), usize::from(n % 1000));
        if high == 0 {
            let d = DIGITS[low];
            return line.put(d, usize::from(d[3]));
        }
        let d = DIGITS[high];
        line.put(d, usize::from(d[3]));
        line.put(THREE[low], 3);
    }

    #[inline(always)]
    fn tail(line: &mut Line, tail: Tail) {
        let t = TAILS[usize::from(tail & 127)];
        line.put(t.to_le_bytes(), (t >> 56) as usize);
    }
}

// The text.

/// The bytes of each tail, the first one lowest, and in the eighth how many they are.
static TAILS: [u64; 128] = tails();
/// Numbers below 1000: their digits from the first, and in the fourth byte how many they are.
static DIGITS: [[u8; 4]; 1000] = digits(true);
/// The same with zeros in front.
static THREE: [[u8; 4]; 1000] = digits(false);

const fn tails() -> [u64; 128] {
    let mut all = [0; 128];
    let mut i = 0;
    while i < 64 {
        let no = [b'0' + i as u8 / 10, b'0' + i as u8 % 10];
        all[i] = u64::from_le_bytes([b' ', b'R', b' ', no[0], no[1], b'\n', 0, 6]);
        all[BLOCKED as usize + i] = match i {
            0..10 => u64::from_le_bytes([b' ', b'W', b' ', no[1], b'\n', 0, 0, 5]),
            _ => u64::from_le_bytes([b' ', b'W', b' ', no[0], no[1], b'\n', 0, 6]),
        };
        i += 1;
    }
    all[GRANTED as usize] = u64::from_le_bytes(*b" G\n\0\0\0\0\x03");
    all[WAITS as usize] = u64::from_le_bytes(*b" W\n\0\0\0\0\x03");
    all[IS_ACTIVE as usize] = u64::from_le_bytes(*b" A\n\0\0\0\0\x03");
    all[ABSENT as usize] = u64::from_le_bytes(*b" N\n\0\0\0\0\x03");
    all
}

const fn digits(short: bool) -> [[u8; 4]; 1000] {
    let mut all = [[0; 4]; 1000];
    let mut n = 0;
    while n < 1000 {
        let d = [b'0' + (n / 100) as u8, b'0' + (n / 10 % 10) as u8, b'0' + (n % 10) as u8];
        all[n] = match n {
            0..10 if short => [d[2], 0, 0, 1],
            10..100 if short => [d[1], d[2], 0, 2],
            _ => [d[0], d[1], d[2], 3],
        };
        n += 1;
    }
    all
}
