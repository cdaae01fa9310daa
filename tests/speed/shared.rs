//! What fast.rs and plain.rs have in common: the plan, the table of open calls, the commands on it, the lines and the buffers of input and output.
//! The trait `Way` is where they differ.

use std::io::{Read, Write};
use std::process::ExitCode;

/// Bytes read at once, and bytes gathered before they are written.
const IN: usize = 1 << 16;
const OUT: usize = 1 << 16;
/// More than a plan has, so that one filled buffer holds it whole.
const PLAN: usize = 2048;
/// The slot of the output that a line is written into.
const SLOT: usize = 64;

/// What the programs do each in its own way: the rooms of all sites and levels, the searches in the table of open calls, and the text. A search looks at
/// the first `open` places and may look at the empty ones behind them.
pub trait Way {
    fn new(plan: &Plan) -> Self;
    /// One call more of this level at the site: less room at all levels up to it. `limit` is the first level without room, T where none is full.
    fn take(&mut self, site: usize, level: u8, limit: &mut u8);
    /// One call less; the limit rises only where it was at this level or below.
    fn give(&mut self, site: usize, level: u8, limit: &mut u8, threads: u8);
    /// The highest level up to this one without room; there is one.
    fn blocking(&self, site: usize, level: u8) -> u8;
    /// The room at a level below T: the smallest number up to it.
    fn room(&self, site: usize, level: u8) -> u8;
    /// The place of a ticket, which is not 0.
    fn find(tickets: &[u16; PLACES], open: usize, ticket: u16) -> Option<usize>;
    /// Whether the call at place `at` has a child: one stands behind its parent, so that the blocks before it need no look.
    fn has_child(parents: &[u16; PLACES], open: usize, at: usize, ticket: u16) -> bool;
    /// The first place whose rank is one of `count` (at least 1) from `low` on.
    fn first_waiter(ranks: &[u8; PLACES], open: usize, low: u8, count: u8) -> Option<usize>;
    fn number(line: &mut Line, n: u16);
    fn tail(line: &mut Line, tail: Tail);
}

/// The whole program.
pub fn main<W: Way>() -> ExitCode {
    match run::<W>() {
        Ok(()) => ExitCode::SUCCESS,
        Err(_) => ExitCode::FAILURE,
    }
}

// The plan.

pub struct Plan {
    sites: u16,
    nodes: u16,
    edges: u16,
    /// by site, 0 where it is not listed
    pub threads: [u8; 256],
    /// by node: site and level
    places: [Option<(u8, u8)>; 64],
    /// by node: the called nodes
    calls: [u64; 64],
}

impl Plan {
    fn listed(&self, node: u8) -> bool {
        self.places.get(usize::from(node)).is_some_and(|p| p.is_some())
    }

    /// Reads the record at the front of `rest`, which must come behind the key `before`. Answers its length and key.
    fn record(&mut self, rest: &[u8], before: u32) -> Result<(usize, u32), u8> {
        let kind = rest[0];
        let length = match kind {
            1 | 3 => 3,
            2 => 4,
            4 => 1,
            _ => return Err(2),
        };
        let body = rest.get(1..length).ok_or(1)?;
        let key = match kind {
            3 => u32::from_be_bytes([0, 3, body[0], body[1]]),
            4 => 0x40000,
            _ => u32::from_be_bytes([0, kind, body[0], 0]),
        };
        if key <= before {
            return Err(3);
        }
        match kind {
            1 => self.site(body[0], body[1])?,
            2 => self.node(body[0], body[1], body[2])?,
            3 => self.edge(body[0], body[1])?,
            _ => {}
        }
        Ok((length, key))
    }

    fn site(&mut self, site: u8, threads: u8) -> Result<(), u8> {
        if site > 15 || threads == 0 || threads > 64 {
            return Err(4);
        }
        self.sites += 1;
        self.threads[usize::from(site)] = threads;
        Ok(())
    }

    fn node(&mut self, node: u8, site: u8, level: u8) -> Result<(), u8> {
        let threads = self.threads[usize::from(site)];
        if node > 63 {
            return Err(4);
        }
        if threads == 0 {
            return Err(5);
        }
        if level >= threads {
            return Err(6);
        }
        self.nodes += 1;
        self.places[usize::from(node)] = Some((site, level));
        Ok(())
    }

    fn edge(&mut self, from: u8, to: u8) -> Result<(), u8> {
        if !self.listed(from) || !self.listed(to) {
            return Err(5);
        }
        if self.edges == 256 {
            return Err(9);
        }
        self.edges += 1;
        self.calls[usize::from(from)] |= 1 << to;
        Ok(())
    }

    /// By node: the nodes of its site at its level or below, itself among them.
    fn steps(&self) -> [u64; 64] {
        let mut steps = [0; 64];
        for (n, x) in self.places.iter().enumerate() {
            for (m, y) in self.places.iter().enumerate() {
                if let (Some((s, a)), Some((t, b))) = (x, y) {
                    steps[n] |= u64::from(s == t && a >= b) << m;
                }
            }
        }
        steps
    }

    /// 7 and 8, on the whole plan.
    fn fault(&self) -> Option<u8> {
        let steps = self.steps();
        let depends: [u64; 64] = std::array::from_fn(|n| spread(&steps, spread(&self.calls, steps[n])));
        if returns(self.calls) {
            return Some(7);
        }
        returns(depends).then_some(8)
    }
}

/// All that the rows of these nodes hold.
fn spread(rows: &[u64; 64], mut nodes: u64) -> u64 {
    let mut all = 0;
    while nodes != 0 {
        all |= rows[nodes.trailing_zeros() as usize];
        nodes &= nodes - 1;
    }
    all
}

/// Some node is reached from itself.
fn returns(mut rows: [u64; 64]) -> bool {
    for k in 0..64 {
        let through = rows[k];
        for row in rows.iter_mut() {
            *row |= if *row >> k & 1 == 1 { through } else { 0 };
        }
    }
    rows.iter().enumerate().any(|(n, row)| row >> n & 1 == 1)
}

/// The plan and the bytes used, or a refusal and an offset.
fn read_plan(bytes: &[u8]) -> Result<(Plan, usize), (u8, usize)> {
    let mut plan = Plan { sites: 0, nodes: 0, edges: 0, threads: [0; 256], places: [None; 64], calls: [0; 64] };
    let (mut at, mut before) = (0, 0);
    while at < bytes.len() {
        let (length, key) = plan.record(&bytes[at..], before).map_err(|no| (no, at))?;
        if key == 0x40000 {
            return plan.fault().map_or(Ok((plan, at + 1)), |no| Err((no, at)));
        }
        (at, before) = (at + length, key);
    }
    Err((1, at))
}

/// The rank of a node that is not in the plan.
const NO_NODE: u8 = 255;

/// Nodes go by rank: their order by site, then level. So the nodes of a site below a level are one range of ranks.
struct Ranks {
    /// by node, NO_NODE where it is not listed
    rank: [u8; 256],
    /// by rank: site, level, called ranks
    site: [u8; 64],
    level: [u8; 64],
    calls: [u64; 64],
    /// by site and level: the first rank of the site at that level or above
    first: [[u8; 65]; 16],
}

impl Ranks {
    fn new(plan: &Plan) -> Ranks {
        let mut by = Ranks { rank: [NO_NODE; 256], site: [0; 64], level: [0; 64], calls: [0; 64], first: [[0; 65]; 16] };
        let listed = |n: &usize| plan.places[*n].is_some();
        let mut order: Vec<usize> = (0..64).filter(listed).collect();
        order.sort_by_key(|n| plan.places[*n]);
        for (rank, &node) in order.iter().enumerate() {
            by.rank[node] = rank as u8;
            (by.site[rank], by.level[rank]) = plan.places[node].unwrap();
        }
        for (rank, &node) in order.iter().enumerate() {
            let called = |to: &&usize| plan.calls[node] >> **to & 1 == 1;
            by.calls[rank] = order.iter().filter(called).fold(0, |all, to| all | 1 << by.rank[*to]);
        }
        for site in 0..16 {
            for level in 0..65 {
                let before = |n: &&usize| plan.places[**n] < Some((site as u8, level as u8));
                by.first[site][level] = order.iter().filter(before).count() as u8;
            }
        }
        by
    }
}

// The net.

/// 256 calls, and empty places behind them.
pub const PLACES: usize = 320;
/// Added to the rank of an active call.
pub const ACTIVE: u8 = 128;

/// Open calls stand in order of opening, without gaps; behind them are zeros, in `ranks` ACTIVE.
#[repr(align(64))]
struct Net<W> {
    tickets: [u16; PLACES],
    parents: [u16; PLACES],
    ranks: [u8; PLACES],
    open: usize,
    rooms: W,
    /// by site: the first level without room, which is T where none is full
    limit: [u8; 16],
    waiting: [u16; 16],
    threads: [u8; 256],
    by: Ranks,
}

/// The numbers from `at + 1` on move down one place; 16 are moved.
#[inline(always)]
fn shift<T: Copy>(all: &mut [T; PLACES], at: usize) {
    let next: [T; 16] = *all[at + 1..at + 17].first_chunk().unwrap();
    all[at..at + 16].copy_from_slice(&next);
}

impl<W: Way> Net<W> {
    fn new(plan: &Plan) -> Net<W> {
        Net {
            tickets: [0; PLACES],
            parents: [0; PLACES],
            ranks: [ACTIVE; PLACES],
            open: 0,
            rooms: W::new(plan),
            limit: std::array::from_fn(|site| plan.threads[site]),
            waiting: [0; 16],
            threads: plan.threads,
            by: Ranks::new(plan),
        }
    }

    /// The ticket's place and rank, ACTIVE included.
    #[inline(always)]
    fn look_up(&self, ticket: u16) -> Option<(usize, u8)> {
        if ticket == 0 {
            return None;
        }
        let at = W::find(&self.tickets, self.open, ticket)? & 255;
        Some((at, self.ranks[at]))
    }

    #[inline(always)]
    fn place(&self, rank: u8) -> (usize, u8) {
        let rank = usize::from(rank & 63);
        (usize::from(self.by.site[rank] & 15), self.by.level[rank] & 63)
    }

    #[inline(always)]
    fn start(&mut self, ticket: u16, node: u8) -> Tail {
        if ticket == 0 {
            return 20;
        }
        if self.look_up(ticket).is_some() {
            return 21;
        }
        match self.by.rank[usize::from(node)] {
            NO_NODE => 22,
            rank => self.opened(0, ticket, rank),
        }
    }

    #[inline(always)]
    fn call(&mut self, parent: u16, ticket: u16, node: u8) -> Tail {
        if ticket == 0 {
            return 20;
        }
        if self.look_up(ticket).is_some() {
            return 21;
        }
        let Some((_, caller)) = self.look_up(parent) else { return 23 };
        if caller < ACTIVE {
            return 24;
        }
        let rank = self.by.rank[usize::from(node)];
        if rank == NO_NODE {
            return 22;
        }
        if self.by.calls[usize::from(caller & 63)] >> (rank & 63) & 1 == 0 {
            return 25;
        }
        self.opened(parent, ticket, rank)
    }

    #[inline(always)]
    fn opened(&mut self, parent: u16, ticket: u16, rank: u8) -> Tail {
        let at = self.open;
        if at >= 256 {
            return 26;
        }
        let (site, level) = self.place(rank);
        self.open = at + 1;
        self.tickets[at] = ticket;
        self.parents[at] = parent;
        if level < self.limit[site] {
            self.ranks[at] = rank | ACTIVE;
            self.rooms.take(site, level, &mut self.limit[site]);
            return GRANTED;
        }
        self.ranks[at] = rank;
        self.waiting[site] += 1;
        BLOCKED + self.rooms.blocking(site, level)
    }

    /// The ticket admitted or 0, or a refusal.
    #[inline(always)]
    fn back(&mut self, ticket: u16) -> Result<u16, Tail> {
        let Some((at, rank)) = self.look_up(ticket) else { return Err(27) };
        if rank < ACTIVE {
            return Err(28);
        }
        if W::has_child(&self.parents, self.open, at, ticket) {
            return Err(29);
        }
        let (site, level) = self.place(rank);
        self.close(at);
        let old = self.limit[site];
        self.rooms.give(site, level, &mut self.limit[site], self.threads[site]);
        if self.limit[site] == old || self.waiting[site] == 0 {
            return Ok(0);
        }
        Ok(self.serve(site, old))
    }

    /// The calls behind this place move up, 16 at a time; three `copy_within` cost some 25 instructions a command more. A place behind the last call
    /// takes over what an empty place holds.
    #[inline(always)]
    fn close(&mut self, mut at: usize) {
        let open = self.open.min(256);
        while at < open {
            shift(&mut self.tickets, at);
            shift(&mut self.parents, at);
            shift(&mut self.ranks, at);
            at += 16;
        }
        self.open = open - 1;
    }

    /// The oldest call that waits at the site with a level from `old` to below the limit becomes active; lower ones do not wait.
    #[inline(always)]
    fn serve(&mut self, site: usize, old: u8) -> u16 {
        let first = &self.by.first[site];
        let low = first[usize::from(old)];
        let count = first[usize::from(self.limit[site])] - low;
        if count == 0 {
            return 0;
        }
        let Some(at) = W::first_waiter(&self.ranks, self.open, low, count) else { return 0 };
        let (_, level) = self.place(self.ranks[at & 255]);
        self.ranks[at & 255] |= ACTIVE;
        self.waiting[site] -= 1;
        self.rooms.take(site, level, &mut self.limit[site]);
        self.tickets[at & 255]
    }

    /// A call that waits leaves, and nobody is admitted: 0, or a refusal.
    #[inline(always)]
    fn take_back(&mut self, ticket: u16) -> Result<u16, Tail> {
        let Some((at, rank)) = self.look_up(ticket) else { return Err(27) };
        if rank >= ACTIVE {
            return Err(34);
        }
        let (site, _) = self.place(rank);
        self.close(at);
        self.waiting[site] -= 1;
        Ok(0)
    }

    #[inline(always)]
    fn ask(&self, ticket: u16) -> Tail {
        match self.look_up(ticket) {
            None => ABSENT,
            Some((_, rank)) if rank < ACTIVE => WAITS,
            Some(_) => IS_ACTIVE,
        }
    }

    #[inline(always)]
    fn room(&self, site: u8, level: u8) -> Result<u16, Tail> {
        if level >= self.threads[usize::from(site)] {
            return Err(30);
        }
        Ok(u16::from(self.rooms.room(usize::from(site & 15), level)))
    }
}

// The text.

/// How a line ends: a letter, `R` and this number, or from BLOCKED on `W` and a level.
pub type Tail = u8;
pub const GRANTED: Tail = 0;
pub const WAITS: Tail = 1;
pub const IS_ACTIVE: Tail = 2;
pub const ABSENT: Tail = 3;
pub const BLOCKED: Tail = 64;

/// A line in the making. No line has more than 20 bytes, so that the cuts to 31 change nothing.
pub struct Line<'a> {
    bytes: &'a mut [u8; SLOT],
    length: usize,
}

impl Line<'_> {
    /// Writes the first `count` of these bytes; the others are written over later.
    #[inline(always)]
    pub fn put<const N: usize>(&mut self, bytes: [u8; N], count: usize) {
        let at = self.length & 31;
        self.bytes[at..at + N].copy_from_slice(&bytes);
        self.length = at + count;
    }
}

#[inline(always)]
fn answer<W: Way>(line: &mut Line, answer: Result<u16, Tail>) {
    match answer {
        Err(tail) => W::tail(line, tail),
        Ok(n) => {
            line.put([b' '], 1);
            W::number(line, n);
            line.put([b'\n'], 1);
        }
    }
}

/// Carries out the command at the front of the word and writes its line. Answers the command's bytes, 0 for an unknown kind.
#[inline(always)]
fn command<W: Way>(net: &mut Net<W>, word: u64, line: &mut Line) -> usize {
    let (first, second) = ((word >> 40) as u16, (word >> 24) as u16);
    match word >> 56 {
        0x10 => {
            line.put([b'S', b' '], 2);
            W::number(line, first);
            W::tail(line, net.start(first, (word >> 32) as u8));
            4
        }
        0x11 => {
            line.put([b'C', b' '], 2);
            W::number(line, first);
            line.put([b' '], 1);
            W::number(line, second);
            W::tail(line, net.call(first, second, (word >> 16) as u8));
            6
        }
        0x12 => {
            line.put([b'E', b' '], 2);
            W::number(line, first);
            answer::<W>(line, net.back(first));
            3
        }
        0x13 => {
            line.put([b'Q', b' '], 2);
            W::number(line, first);
            W::tail(line, net.ask(first));
            3
        }
        0x14 => {
            line.put([b'M', b' '], 2);
            W::number(line, first >> 8);
            line.put([b' '], 1);
            W::number(line, first & 255);
            answer::<W>(line, net.room((first >> 8) as u8, first as u8));
            3
        }
        0x15 => {
            line.put([b'X', b' '], 2);
            W::number(line, first);
            answer::<W>(line, net.take_back(first));
            3
        }
        _ => 0,
    }
}

// Input and output.

/// What was read and is not yet used: from `at` to `end`. Behind the end at least 8 bytes can be looked at.
struct Source {
    bytes: [u8; IN + 8],
    at: usize,
    end: usize,
    /// the input's bytes in front of the buffer
    gone: u64,
    over: bool,
}

impl Source {
    /// Reads on until `least` bytes are there or the input is over.
    #[inline(never)]
    fn fill(&mut self, least: usize) -> std::io::Result<()> {
        if self.over {
            return Ok(());
        }
        self.bytes.copy_within(self.at..self.end, 0);
        self.gone += self.at as u64;
        (self.at, self.end) = (0, self.end - self.at);
        while self.end < least && !self.over {
            match std::io::stdin().lock().read(&mut self.bytes[self.end..IN]) {
                Ok(count) => (self.end, self.over) = (self.end + count, count == 0),
                Err(e) if e.kind() == std::io::ErrorKind::Interrupted => {}
                Err(e) => return Err(e),
            }
        }
        Ok(())
    }

    /// The command at the front of what is left of the input has not all its bytes.
    fn cut(&self) -> bool {
        let length = match self.bytes[self.at] {
            0x10 => 4,
            0x11 => 6,
            0x12..=0x15 => 3,
            _ => 1,
        };
        self.end - self.at < length
    }
}

fn write(bytes: &[u8]) -> std::io::Result<()> {
    std::io::stdout().lock().write_all(bytes)
}

fn run<W: Way>() -> std::io::Result<()> {
    let mut source = Source { bytes: [0; IN + 8], at: 0, end: 0, gone: 0, over: false };
    source.fill(PLAN)?;
    let (plan, used) = match read_plan(&source.bytes[..source.end]) {
        Err((no, at)) => return write(format!("plan R {no} {at}\n").as_bytes()),
        Ok(read) => read,
    };
    source.at = used;
    write(format!("plan {} {} {} {used}\n", plan.sites, plan.nodes, plan.edges).as_bytes())?;
    let last = commands(&mut Net::<W>::new(&plan), &mut source)?;
    write(last.as_bytes())
}

/// Carries out the commands. Answers the last line.
fn commands<W: Way>(net: &mut Net<W>, source: &mut Source) -> std::io::Result<String> {
    let mut out = [0; OUT];
    let (mut length, mut count) = (0, 0u64);
    let last = loop {
        if source.end - source.at < 8 {
            source.fill(8)?;
            if source.at == source.end {
                break format!("done {count}\n");
            }
            if source.cut() {
                break format!("bad 1 {}\n", source.gone + source.at as u64);
            }
        }
        if length > OUT - SLOT {
            write(&out[..length])?;
            length = 0;
        }
        let at = source.at & (IN - 1); // it is below IN already
        let word = u64::from_be_bytes(*source.bytes[at..at + 8].first_chunk().unwrap());
        let mut line = Line { bytes: out[length..length + SLOT].first_chunk_mut().unwrap(), length: 0 };
        let used = command(net, word, &mut line);
        if used == 0 {
            break format!("bad 2 {}\n", source.gone + source.at as u64);
        }
        length += line.length;
        source.at += used;
        count += 1;
    };
    write(&out[..length])?;
    Ok(last)
}
