//! Makes the loads that speed is measured on: a plan and commands, the same ones each time.
//!
//!     loads NAME COUNT          the plan and COUNT commands, to standard output
//!     loads about NAME COUNT    what the load is like, a row for the table that tests/speed/run prints
//!
//! | name   | sites, T | open calls | what it shows                                             |
//! |--------|----------|------------|-----------------------------------------------------------|
//! | small  | 6, 4     | about 8    | a net that is nearly idle: reading and printing           |
//! | medium | 12, 8    | about 60   | fewer calls than threads, yet some wait                   |
//! | full   | 16, 4    | about 250  | most calls wait, every other return admits one            |
//! | deep   | 4, 64    | about 250  | one node a level, chains of many calls, some wait         |
//!
//! Of the commands about 14 in 100 are questions and rooms and 3 are refused on purpose. The others are starts, calls and
//! returns that the net accepts; opening is drawn the more often the fewer calls are open, so that their number stays.
//! The maker plays the net along, simply and with nothing kept that a look through the open calls can find.

use std::io::Write;

struct Load {
    name: &'static str,
    sites: u8,
    threads: u8,
    nodes: u8,
    /// the edges of one node
    calls: usize,
    /// how many calls are to be open
    open: usize,
    /// of 100 openings, how many are starts
    starts: usize,
    /// of 100 calls, how many are made by the newest call that can make one
    newest: usize,
}

const LOADS: [Load; 4] = [
    Load { name: "small", sites: 6, threads: 4, nodes: 24, calls: 3, open: 8, starts: 60, newest: 30 },
    Load { name: "medium", sites: 12, threads: 8, nodes: 48, calls: 3, open: 60, starts: 60, newest: 30 },
    Load { name: "full", sites: 16, threads: 4, nodes: 64, calls: 3, open: 250, starts: 60, newest: 30 },
    Load { name: "deep", sites: 4, threads: 64, nodes: 64, calls: 3, open: 250, starts: 5, newest: 60 },
];

/// A stream of numbers (xorshift64*).
struct Dice(u64);

impl Dice {
    fn below(&mut self, n: usize) -> usize {
        self.0 ^= self.0 >> 12;
        self.0 ^= self.0 << 25;
        self.0 ^= self.0 >> 27;
        (self.0.wrapping_mul(0x2545_f491_4f6c_dd1d) >> 33) as usize % n.max(1)
    }

    fn percent(&mut self, p: usize) -> bool {
        self.below(100) < p
    }

    fn pick<T: Copy>(&mut self, from: &[T]) -> Option<T> {
        from.get(self.below(from.len())).copied()
    }
}

struct Plan {
    sites: u8,
    threads: u8,
    /// by node: site and level
    nodes: Vec<(u8, u8)>,
    /// by node: the called nodes, rising
    calls: Vec<Vec<u8>>,
}

impl Plan {
    /// Node n stands at site n mod sites. Levels fall from node to node, over all of 0 to T - 1, and every edge goes to a
    /// lower level. A step within a site never rises, so that no node depends on itself.
    fn new(load: &Load, dice: &mut Dice) -> Plan {
        let level = |n: u8| load.threads - 1 - (usize::from(n) * usize::from(load.threads) / usize::from(load.nodes)) as u8;
        let nodes: Vec<(u8, u8)> = (0..load.nodes).map(|n| (n % load.sites, level(n))).collect();
        let mut calls = vec![Vec::new(); nodes.len()];
        for (n, called) in calls.iter_mut().enumerate() {
            let lower: Vec<u8> = (0..load.nodes).filter(|m| nodes[usize::from(*m)].1 < nodes[n].1).collect();
            // the levels next below come first in `lower`: short steps, long chains
            let near = &lower[..lower.len().min(3 * usize::from(load.nodes / load.threads))];
            while called.len() < load.calls.min(near.len()) {
                let to = near[dice.below(near.len())];
                if !called.contains(&to) {
                    called.push(to);
                }
            }
            called.sort();
        }
        Plan { sites: load.sites, threads: load.threads, nodes, calls }
    }

    fn bytes(&self) -> Vec<u8> {
        let mut out = Vec::new();
        (0..self.sites).for_each(|s| out.extend([1, s, self.threads]));
        self.nodes.iter().enumerate().for_each(|(n, (s, l))| out.extend([2, n as u8, *s, *l]));
        for (n, called) in self.calls.iter().enumerate() {
            called.iter().for_each(|to| out.extend([3, n as u8, *to]));
        }
        out.push(4);
        out
    }
}

#[derive(Clone, Copy)]
struct Call {
    ticket: u16,
    parent: u16,
    node: u8,
    site: u8,
    level: u8,
    active: bool,
    /// parents above it
    depth: usize,
}

/// The net as it is played along, and the sums for `about`.
struct Maker {
    load: &'static Load,
    plan: Plan,
    dice: Dice,
    /// in order of opening
    open: Vec<Call>,
    last_ticket: u16,
    bytes: Vec<u8>,
    seen: Seen,
}

/// Sums over all commands (open calls, waiting ones, parents above them), and counts of commands by what became of them.
#[derive(Default)]
struct Seen {
    open: usize,
    most: usize,
    waiting: usize,
    depth: usize,
    deepest: usize,
    starts: usize,
    calls: usize,
    waits: usize,
    returns: usize,
    admitted: usize,
    questions: usize,
    rooms: usize,
    refused: usize,
}

impl Maker {
    fn new(load: &'static Load) -> Maker {
        let mut dice = Dice(0x5eed + load.open as u64 * 64 + u64::from(load.threads));
        let plan = Plan::new(load, &mut dice);
        Maker { load, plan, dice, open: Vec::new(), last_ticket: 0, bytes: Vec::new(), seen: Seen::default() }
    }

    fn find(&self, ticket: u16) -> Option<&Call> {
        self.open.iter().find(|c| c.ticket == ticket)
    }

    /// One more active call of this level leaves the site lawful.
    fn may_admit(&self, site: u8, level: u8) -> bool {
        let mut above = [0; 65];
        let here = self.open.iter().filter(|c| c.active && c.site == site);
        here.for_each(|c| above[usize::from(c.level)] += 1);
        (0..64).rev().for_each(|k| above[k] += above[k + 1]);
        (0..=level).all(|k| above[usize::from(k)] < self.plan.threads - k)
    }

    /// Tickets are counted up, and begin again behind 65535.
    fn ticket(&mut self) -> u16 {
        loop {
            self.last_ticket = self.last_ticket % 65535 + 1;
            if self.find(self.last_ticket).is_none() {
                return self.last_ticket;
            }
        }
    }

    fn write(&mut self, kind: u8, tickets: &[u16], rest: &[u8]) {
        self.bytes.push(kind);
        tickets.iter().for_each(|t| self.bytes.extend(t.to_be_bytes()));
        self.bytes.extend(rest);
    }

    /// Opens a call that is not refused: under an active parent over an edge, or a start.
    fn opening(&mut self) {
        let ticket = self.ticket();
        let can = |c: &&Call| c.active && !self.plan.calls[usize::from(c.node)].is_empty();
        let callers: Vec<Call> = self.open.iter().filter(can).copied().collect();
        let newest = self.dice.percent(self.load.newest);
        let caller = if newest { callers.last().copied() } else { self.dice.pick(&callers) };
        let caller = caller.filter(|_| !self.dice.percent(self.load.starts));
        let node = match caller {
            Some(c) => self.dice.pick(&self.plan.calls[usize::from(c.node)]).unwrap_or(0),
            None => self.dice.below(self.plan.nodes.len()) as u8,
        };
        match caller {
            Some(c) => self.write(0x11, &[c.ticket, ticket], &[node]),
            None => self.write(0x10, &[ticket], &[node]),
        }
        let (site, level) = self.plan.nodes[usize::from(node)];
        let (parent, depth) = caller.map_or((0, 0), |c| (c.ticket, c.depth + 1));
        let active = self.may_admit(site, level);
        self.open.push(Call { ticket, parent, node, site, level, active, depth });
        self.seen.starts += usize::from(caller.is_none());
        self.seen.calls += usize::from(caller.is_some());
        self.seen.waits += usize::from(!active);
    }

    /// Returns an active call without children, if there is one.
    fn returning(&mut self) {
        let mut parent = vec![false; 65536];
        self.open.iter().for_each(|c| parent[usize::from(c.parent)] = true);
        let free = |i: &usize| self.open[*i].active && !parent[usize::from(self.open[*i].ticket)];
        let free: Vec<usize> = (0..self.open.len()).filter(free).collect();
        let Some(at) = self.dice.pick(&free) else { return };
        let call = self.open.remove(at);
        self.write(0x12, &[call.ticket], &[]);
        let served = (0..self.open.len()).find(|i| {
            let c = &self.open[*i];
            !c.active && c.site == call.site && self.may_admit(c.site, c.level)
        });
        served.into_iter().for_each(|i| self.open[i].active = true);
        self.seen.returns += 1;
        self.seen.admitted += usize::from(served.is_some());
    }

    /// A question, mostly about an open call.
    fn question(&mut self) {
        let some = self.dice.pick(&self.open).filter(|_| !self.dice.percent(20));
        let ticket = some.map_or(self.dice.below(65536) as u16, |c| c.ticket);
        self.write(0x13, &[ticket], &[]);
        self.seen.questions += 1;
    }

    fn room(&mut self) {
        let site = self.dice.below(self.plan.sites.into()) as u8;
        let level = self.dice.below(self.plan.threads.into()) as u8;
        self.write(0x14, &[], &[site, level]);
        self.seen.rooms += 1;
    }

    /// A command that is refused: an unknown node, a ticket in use, the return of a waiting call or of one that is not open.
    fn refused(&mut self) {
        let waiting: Vec<Call> = self.open.iter().filter(|c| !c.active).copied().collect();
        let (some, waiting) = (self.dice.pick(&self.open), self.dice.pick(&waiting));
        let ticket = self.ticket();
        let node = self.dice.below(self.plan.nodes.len()) as u8;
        match (self.dice.below(4), some, waiting) {
            (0, _, _) => self.write(0x10, &[ticket], &[200 + node % 32]),
            (1, Some(c), _) => self.write(0x10, &[c.ticket], &[node]),
            (2, _, Some(c)) => self.write(0x12, &[c.ticket], &[]),
            _ => self.write(0x12, &[ticket], &[]),
        }
        self.seen.refused += 1;
    }

    /// Below the wanted number of open calls more is opened than returned, above it less.
    fn command(&mut self) {
        let (open, wanted) = (self.open.len(), self.load.open);
        let chance = (50 + 25 * wanted as i64 / 8 - 25 * open as i64 / 8).clamp(10, 90);
        match self.dice.below(100) {
            0..3 => self.refused(),
            3..11 => self.question(),
            11..17 => self.room(),
            _ if open == 0 || open < 256 && self.dice.percent(chance as usize) => self.opening(),
            _ => self.returning(),
        }
        self.seen.open += self.open.len();
        self.seen.most = self.seen.most.max(self.open.len());
        self.seen.waiting += self.open.iter().filter(|c| !c.active).count();
        self.seen.depth += self.open.iter().map(|c| c.depth).sum::<usize>();
        self.seen.deepest = self.seen.deepest.max(self.open.last().map_or(0, |c| c.depth));
    }

    /// A row: open and most open, waiting, parents above an open call and most, then shares of the commands.
    fn about(&self, count: usize) {
        let s = &self.seen;
        let mean = |sum: usize| format!("{:.1}", sum as f64 / count as f64);
        let share = |sum: usize| format!("{:.1}%", 100.0 * sum as f64 / count as f64);
        let depth = format!("{:.1}", s.depth as f64 / s.open as f64);
        let (open, most, deepest) = (mean(s.open), s.most.to_string(), s.deepest.to_string());
        let shares = [s.starts, s.calls, s.waits, s.returns, s.admitted, s.questions, s.rooms, s.refused].map(share);
        let row = [open, most, mean(s.waiting), depth, deepest].into_iter().chain(shares);
        println!("| {} | {} |", self.load.name, row.collect::<Vec<String>>().join(" | "));
    }
}

fn main() {
    let words: Vec<String> = std::env::args().skip(1).collect();
    let words: Vec<&str> = words.iter().map(String::as_str).collect();
    let (about, name, count) = match words[..] {
        ["about", name, count] => (true, name, count),
        [name, count] => (false, name, count),
        _ => panic!("wanted: [about] NAME COUNT"),
    };
    let load = LOADS.iter().find(|l| l.name == name).expect("small, medium, full or deep");
    let count: usize = count.parse().expect("a number of commands");
    let mut maker = Maker::new(load);
    maker.bytes = maker.plan.bytes();
    (0..count).for_each(|_| maker.command());
    match about {
        true => maker.about(count),
        false => std::io::stdout().write_all(&maker.bytes).expect("written"),
    }
}
