//! The bench program of 01 in plain Rust, written to be fast: a net that is changed in place, fixed arrays, and loops that the compiler makes vector
//! code of. No unsafe, no intrinsics, no tables of digits, no numbers packed into words; fast.rs has all of these. The limit of the proved program's cost
//! is held against this one. The table of open calls is as in the proved program: dense, in order of opening, searched by ticket.

mod shared;

use shared::*;
use std::process::ExitCode;

fn main() -> ExitCode {
    shared::main::<Rooms>()
}

/// By site and level, in parts of 16 levels; 255 from T on.
struct Rooms([Parts; 16]);

type Parts = [[u8; 16]; 4];

/// Some of these passes. There is no exit before the last one, so that many are tested at a time.
#[inline(always)]
fn some<T, const N: usize>(block: &[T; N], test: impl Fn(&T) -> bool) -> bool {
    block.iter().fold(false, |hit, x| hit | test(x))
}

/// The first of the places that passes, looked for in blocks of 32, then in the half of the block that holds it.
#[inline(always)]
fn first<T>(all: &[T], test: impl Fn(&T) -> bool) -> Option<usize> {
    for (b, block) in all.as_chunks::<32>().0.iter().enumerate() {
        if some(block, &test) {
            for (h, half) in block.as_chunks::<16>().0.iter().enumerate() {
                if some(half, &test) {
                    return half.iter().position(test).map(|i| 32 * b + 16 * h + i);
                }
            }
        }
    }
    None
}

/// By level: 1 at the levels up to it.
static UP_TO: [Parts; 64] = {
    let mut all = [[[0; 16]; 4]; 64];
    let mut i = 0;
    while i < 64 * 64 {
        all[i / 64][i % 64 / 16][i % 16] = (i % 64 <= i / 64) as u8;
        i += 1;
    }
    all
};

/// The first block of which some place passes.
#[inline(always)]
fn which<T, const N: usize>(blocks: &[[T; N]], test: impl Fn(&T) -> bool) -> Option<usize> {
    for (b, block) in blocks.iter().enumerate() {
        if some(block, &test) {
            return Some(b);
        }
    }
    None
}

/// The first level without room in these parts.
#[inline(always)]
fn first_full(parts: &[[u8; 16]]) -> Option<usize> {
    let p = which(parts, |room| *room == 0)?;
    parts[p].iter().position(|room| *room == 0).map(|k| 16 * p + k)
}

impl Way for Rooms {
    fn new(plan: &Plan) -> Rooms {
        let mut rooms = [[[255; 16]; 4]; 16];
        for (site, threads) in rooms.iter_mut().zip(plan.threads) {
            let levels = site.as_flattened_mut().iter_mut();
            levels.zip((1..=threads).rev()).for_each(|(room, all)| *room = all);
        }
        Rooms(rooms)
    }

    #[inline(always)]
    fn take(&mut self, site: usize, level: u8, limit: &mut u8) {
        let parts = &mut self.0[site][..usize::from(level / 16) + 1];
        for (rooms, up_to) in parts.iter_mut().zip(&UP_TO[usize::from(level)]) {
            rooms.iter_mut().zip(up_to).for_each(|(room, one)| *room -= one);
        }
        if let Some(full) = first_full(parts) {
            *limit = full as u8;
        }
    }

    #[inline(always)]
    fn give(&mut self, site: usize, level: u8, limit: &mut u8, threads: u8) {
        let parts = &mut self.0[site][..usize::from(level / 16) + 1];
        for (rooms, up_to) in parts.iter_mut().zip(&UP_TO[usize::from(level)]) {
            rooms.iter_mut().zip(up_to).for_each(|(room, one)| *room += one);
        }
        if *limit <= level {
            *limit = first_full(&self.0[site]).map_or(threads, |full| full as u8);
        }
    }

    #[inline(always)]
    fn blocking(&self, site: usize, level: u8) -> u8 {
        let rooms = &self.0[site].as_flattened()[..=usize::from(level & 63)];
        rooms.iter().rposition(|room| *room == 0).unwrap_or(0) as u8
    }

    #[inline(always)]
    fn room(&self, site: usize, level: u8) -> u8 {
        self.0[site].as_flattened()[..=usize::from(level & 63)].iter().fold(255, |least, room| least.min(*room))
    }

    #[inline(always)]
    fn find(tickets: &[u16; PLACES], open: usize, ticket: u16) -> Option<usize> {
        first(&tickets[..open.next_multiple_of(32)], |t| *t == ticket)
    }

    #[inline(always)]
    fn has_child(parents: &[u16; PLACES], open: usize, at: usize, ticket: u16) -> bool {
        which(parents[at / 32 * 32..open.next_multiple_of(32)].as_chunks::<32>().0, |t| *t == ticket).is_some()
    }

    #[inline(always)]
    fn first_waiter(ranks: &[u8; PLACES], open: usize, low: u8, count: u8) -> Option<usize> {
        first(&ranks[..open.next_multiple_of(32)], |rank| rank.wrapping_sub(low) < count)
    }

    #[inline(always)]
    fn number(line: &mut Line, n: u16) {
        match n {
            10000.. => line.put(digits::<5>(n, 10000), 5),
            1000.. => line.put(digits::<4>(n, 1000), 4),
            100.. => line.put(digits::<3>(n, 100), 3),
            10.. => line.put(digits::<2>(n, 10), 2),
            _ => line.put(digits::<1>(n, 1), 1),
        }
    }

    #[inline(always)]
    fn tail(line: &mut Line, tail: Tail) {
        match tail {
            GRANTED => line.put(*b" G\n", 3),
            WAITS => line.put(*b" W\n", 3),
            IS_ACTIVE => line.put(*b" A\n", 3),
            ABSENT => line.put(*b" N\n", 3),
            BLOCKED.. => {
                line.put(*b" W ", 3);
                Self::number(line, u16::from(tail - BLOCKED));
                line.put([b'\n'], 1);
            }
            no => line.put([b' ', b'R', b' ', b'0' + no / 10, b'0' + no % 10, b'\n'], 6),
        }
    }
}

/// The digits of a number below 10 * `first`: the first one is the whole part of a fraction with 32 bits behind the point (rounded up; for 16 bits that is
/// exact enough), and ten times what is left has the next one in front.
#[inline(always)]
fn digits<const N: usize>(n: u16, first: u64) -> [u8; N] {
    let mut rest = u64::from(n) * ((1 << 32) / first + 1);
    std::array::from_fn(|_| {
        let digit = b'0' + (rest >> 32) as u8;
        rest = 10 * (rest & 0xffff_ffff);
        digit
    })
}
