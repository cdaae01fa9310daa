//! Inputs made from a seed.

use crate::bench::{self, command_length};
use crate::net::{Call, Net};
use crate::plan::Plan;
use crate::wrong::Wrong;

pub const KINDS: [&str; 14] = [
    "busy", "deep", "levels", "wide", "tall", "full", "near", "edges", "limits", "damaged", "order", "cut", "unknown",
    "random",
];

/// A stream of numbers (splitmix64).
pub struct Dice(u64);

impl Dice {
    pub fn new(seed: u64, kind: &str) -> Dice {
        let mut dice = Dice(seed.wrapping_mul(0x9e37_79b9_7f4a_7c15));
        for b in kind.bytes() {
            dice.0 ^= u64::from(b);
            dice.next();
        }
        dice
    }

    fn next(&mut self) -> u64 {
        self.0 = self.0.wrapping_add(0x9e37_79b9_7f4a_7c15);
        let mut z = self.0;
        z = (z ^ (z >> 30)).wrapping_mul(0xbf58_476d_1ce4_e5b9);
        z = (z ^ (z >> 27)).wrapping_mul(0x94d0_49bb_1331_11eb);
        z ^ (z >> 31)
    }

    /// A number below n.
    pub fn below(&mut self, n: usize) -> usize {
        (self.next() % n.max(1) as u64) as usize
    }

    /// A number from low to high, both included.
    fn between(&mut self, low: usize, high: usize) -> usize {
        low + self.below(high - low + 1)
    }

    fn percent(&mut self, p: usize) -> bool {
        self.below(100) < p
    }

    fn byte(&mut self) -> u8 {
        self.below(256) as u8
    }

    fn pick<'a, T>(&mut self, from: &'a [T]) -> Option<&'a T> {
        if from.is_empty() {
            return None;
        }
        from.get(self.below(from.len()))
    }

    /// `count` different numbers below `limit`, rising.
    fn some_of(&mut self, limit: usize, count: usize) -> Vec<u8> {
        let mut all: Vec<u8> = (0..limit).map(|n| n as u8).collect();
        while all.len() > count {
            all.remove(self.below(all.len()));
        }
        all
    }
}

/// How large a plan is to be.
struct Size {
    sites: (usize, usize),
    threads: (usize, usize),
    nodes: (usize, usize),
    edges: (usize, usize),
    /// edges go to near ranks first, which makes long chains
    chains: bool,
}

/// An accepted plan. Every node has a rank; at one site a higher rank is a higher level and equal ranks are equal
/// levels; edges go from a rank to a lower one. So no path comes back to the rank it left by an edge.
fn sound_plan(dice: &mut Dice, size: &Size) -> Plan {
    let (mut plan, ranks) = ranked_nodes(dice, size);
    let rank = |n: u8| ranks.iter().find(|r| r.0 == n).unwrap().1;
    let mut pairs = Vec::new();
    for x in &plan.nodes {
        for y in &plan.nodes {
            if rank(x.0) > rank(y.0) {
                let far = if size.chains { usize::from(rank(x.0) - rank(y.0)) } else { 0 };
                pairs.push((far * 1000 + dice.below(1000), x.0, y.0));
            }
        }
    }
    pairs.sort();
    pairs.truncate(dice.between(size.edges.0, size.edges.1));
    plan.edges = pairs.iter().map(|p| (p.1, p.2)).collect();
    plan.edges.sort();
    plan
}

/// Sites and nodes without edges, and each node's rank.
fn ranked_nodes(dice: &mut Dice, size: &Size) -> (Plan, Vec<(u8, u8)>) {
    let mut plan = Plan::default();
    let mut ranks = Vec::new();
    let count = dice.between(size.sites.0, size.sites.1);
    for site in dice.some_of(16, count) {
        plan.sites.push((site, dice.between(size.threads.0, size.threads.1) as u8));
    }
    let steps: Vec<(Vec<u8>, Vec<u8>)> = plan.sites.clone().iter().map(|s| site_steps(dice, s.1)).collect();
    let count = dice.between(size.nodes.0, size.nodes.1);
    for node in dice.some_of(64, count) {
        let place = dice.below(plan.sites.len());
        let (rank, level) = &steps[place];
        let step = dice.below(rank.len());
        plan.nodes.push((node, plan.sites[place].0, level[step]));
        ranks.push((node, rank[step]));
    }
    (plan, ranks)
}

/// The ranks used at a site and their levels, both rising.
fn site_steps(dice: &mut Dice, threads: u8) -> (Vec<u8>, Vec<u8>) {
    let most = usize::from(threads).min(24);
    let steps = dice.between(most.min(2), most);
    let ranks = dice.some_of(40, steps);
    let mut levels = dice.some_of(usize::from(threads), steps);
    if dice.percent(20) {
        levels[steps - 1] = threads - 1;
    }
    (ranks, levels)
}

fn size_of(dice: &mut Dice, kind: &str) -> Size {
    let size = |sites, threads, nodes, edges, chains| Size { sites, threads, nodes, edges, chains };
    match kind {
        "deep" => size((2, 4), (3, if dice.percent(50) { 12 } else { 40 }), (12, 50), (20, 160), true),
        "levels" => size((1, 2), (3, 10), (4, 16), (0, 20), false),
        "wide" => size((16, 16), (1, 6), (30, 64), (20, 256), dice.percent(50)),
        "tall" => size((1, 3), (64, 64), (20, 64), (0, 100), dice.percent(50)),
        "full" => size((1, 4), (1, 64), (4, 30), (3, 60), dice.percent(50)),
        "edges" => size((2, 6), (24, 64), (56, 64), (250, 256), false),
        _ => size((1, 5), (1, 8), (2, 24), (1, 60), dice.percent(50)),
    }
}

// Commands.

fn start(ticket: u16, node: u8) -> Vec<u8> {
    let t = ticket.to_be_bytes();
    vec![0x10, t[0], t[1], node]
}

fn call(parent: u16, ticket: u16, node: u8) -> Vec<u8> {
    let (p, t) = (parent.to_be_bytes(), ticket.to_be_bytes());
    vec![0x11, p[0], p[1], t[0], t[1], node]
}

fn with_ticket(kind: u8, ticket: u16) -> Vec<u8> {
    let t = ticket.to_be_bytes();
    vec![kind, t[0], t[1]]
}

/// A run in the making: the commands so far and the net after them.
struct Busy {
    net: Net,
    bytes: Vec<u8>,
    /// tickets come from 1 to this, or are odd ones
    tickets: usize,
    /// the site that is kept busy
    site: u8,
    used: Vec<u16>,
}

impl Busy {
    fn new(plan: Plan, tickets: usize) -> Busy {
        let net = Net::new(plan, Wrong::None);
        Busy { net, bytes: Vec::new(), tickets, site: 0, used: vec![0, 65535] }
    }

    /// Writes the command down and carries it out.
    fn give(&mut self, command: Vec<u8>) {
        let w = |i: usize| u16::from_be_bytes([command[i], command[i + 1]]);
        match command[0] {
            0x10 => drop(self.net.start(w(1), command[3])),
            0x11 => drop(self.net.call(w(1), w(3), command[5])),
            0x12 => drop(self.net.back(w(1))),
            0x15 => drop(self.net.take_back(w(1))),
            _ => {}
        }
        if command[0] != 0x14 && !self.used.contains(&w(1)) {
            self.used.push(w(1));
        }
        self.bytes.extend(command);
    }

    /// A ticket that is not open: an old one again, a low one, or any.
    fn fresh(&mut self, dice: &mut Dice) -> u16 {
        loop {
            let ticket = match dice.below(20) {
                0 => 65535,
                1 => dice.below(65536) as u16,
                2 => 256 * dice.between(1, 255) as u16,
                _ => dice.between(1, self.tickets) as u16,
            };
            if ticket != 0 && self.net.find(ticket).is_none() {
                return ticket;
            }
        }
    }

    fn some_call(&self, dice: &mut Dice, like: impl Fn(&Call) -> bool) -> Option<u16> {
        let calls: Vec<u16> = self.net.calls.iter().filter(|c| like(c)).map(|c| c.ticket).collect();
        dice.pick(&calls).copied()
    }

    /// A start, mostly at the busy site.
    fn start(&mut self, dice: &mut Dice) {
        let here = dice.percent(70);
        let nodes = self.net.plan.nodes.iter().filter(|n| !here || n.1 == self.site);
        let nodes: Vec<u8> = nodes.map(|n| n.0).collect();
        let Some(&node) = dice.pick(&nodes) else { return };
        let ticket = self.fresh(dice);
        self.give(start(ticket, node));
    }

    /// A call over an edge, often under the newest active call or under a parent that has a child.
    fn call(&mut self, dice: &mut Dice) {
        let calls = |c: &&Call| c.active && self.net.plan.edges.iter().any(|e| e.0 == c.node);
        let parents: Vec<(u16, u8)> = self.net.calls.iter().filter(calls).map(|c| (c.ticket, c.node)).collect();
        let newest = parents.last().copied();
        let parent = if dice.percent(60) { newest } else { dice.pick(&parents).copied() };
        let Some((parent, from)) = parent else { return };
        let edges: Vec<u8> = self.net.plan.edges.iter().filter(|e| e.0 == from).map(|e| e.1).collect();
        let node = *dice.pick(&edges).unwrap();
        let ticket = self.fresh(dice);
        self.give(call(parent, ticket, node));
    }

    /// A start, then a call under the newest call as long as that is active and has an edge.
    fn chain(&mut self, dice: &mut Dice) {
        self.start(dice);
        while self.net.calls.len() < 200 {
            let Some(newest) = self.net.calls.last().filter(|c| c.active) else { return };
            let (parent, from) = (newest.ticket, newest.node);
            let edges: Vec<u8> = self.net.plan.edges.iter().filter(|e| e.0 == from).map(|e| e.1).collect();
            let Some(&node) = dice.pick(&edges) else { return };
            let ticket = self.fresh(dice);
            self.give(call(parent, ticket, node));
        }
    }

    /// A return that is not refused, mostly at the busy site.
    fn back(&mut self, dice: &mut Dice) -> bool {
        let free = |c: &Call| c.active && !self.net.has_child(c.ticket);
        let here = |c: &Call| free(c) && self.net.place(c).0 == self.site;
        let found = if dice.percent(70) { self.some_call(dice, here) } else { None };
        let found = found.or_else(|| self.some_call(dice, free));
        if let Some(ticket) = found {
            self.give(with_ticket(0x12, ticket));
        }
        found.is_some()
    }

    /// A taking back: mostly of a waiting call, most of these at the busy site; or of an active call, a closed one or 0.
    fn take_back(&mut self, dice: &mut Dice) {
        let here = |c: &Call| !c.active && self.net.place(c).0 == self.site;
        let found = match dice.below(10) {
            0 => self.some_call(dice, |c| c.active),
            1 => dice.pick(&self.used).copied(),
            2 => return self.free_parent(dice),
            3 | 4 => self.some_call(dice, |c| !c.active),
            _ => self.some_call(dice, here),
        };
        if let Some(ticket) = found {
            self.give(with_ticket(0x15, ticket));
        }
    }

    /// A parent that can return only once its one open child, which waits, is gone: its return before and after.
    fn free_parent(&mut self, dice: &mut Dice) {
        let siblings = |p: u16| self.net.calls.iter().filter(|c| c.parent == p).count();
        let Some(child) = self.some_call(dice, |c| !c.active && c.parent != 0 && siblings(c.parent) == 1) else { return };
        let parent = self.net.find(child).unwrap().parent;
        for (kind, ticket) in [(0x12, parent), (0x15, child), (0x12, parent)] {
            self.give(with_ticket(kind, ticket));
        }
    }

    /// With 256 calls open: a start that is refused, a taking back, the same start accepted, and one more refused.
    fn use_place_again(&mut self, dice: &mut Dice) {
        let Some(gone) = self.some_call(dice, |c| !c.active).filter(|_| self.net.calls.len() == 256) else { return };
        let nodes: Vec<u8> = self.net.plan.nodes.iter().map(|n| n.0).collect();
        let node = *dice.pick(&nodes).unwrap();
        let ticket = self.fresh(dice);
        self.give(start(ticket, node));
        self.give(with_ticket(0x15, gone));
        self.give(start(ticket, node));
        let ticket = self.fresh(dice);
        self.give(start(ticket, node));
    }

    fn ask(&mut self, dice: &mut Dice) {
        let ticket = if dice.percent(80) { *dice.pick(&self.used).unwrap() } else { dice.below(65536) as u16 };
        self.give(with_ticket(0x13, ticket));
    }

    /// A room, of sites and levels in and out of the plan.
    fn room(&mut self, dice: &mut Dice) {
        let sites = self.net.plan.sites.clone();
        let listed = dice.pick(&sites).copied().unwrap_or((0, 1));
        let site = match dice.below(10) {
            0 => dice.byte(),
            1 => dice.below(17) as u8,
            _ => listed.0,
        };
        let level = match dice.below(10) {
            0 => dice.byte(),
            1 => listed.1,
            2 => listed.1 - 1,
            3 => dice.below(66) as u8,
            _ => dice.below(usize::from(listed.1)) as u8,
        };
        self.give(vec![0x14, site, level]);
    }

    /// A command whose every number may be wrong, each apart from the others.
    fn wild(&mut self, dice: &mut Dice) {
        let fresh = self.fresh(dice);
        let ticket = self.wild_ticket(dice, fresh);
        let parent = if dice.percent(10) { ticket } else { self.wild_ticket(dice, fresh) };
        let node = self.wild_node(dice, parent);
        self.give(match dice.below(9) {
            0 | 1 => start(ticket, node),
            2 | 3 | 4 | 5 => call(parent, ticket, node),
            6 => with_ticket(0x15, parent),
            _ => with_ticket(0x12, parent),
        });
    }

    fn wild_ticket(&self, dice: &mut Dice, fresh: u16) -> u16 {
        let found = match dice.below(10) {
            0 => Some(0),
            1 => Some(65535),
            2 | 3 => self.some_call(dice, |c| !c.active),
            4 | 5 => self.some_call(dice, |c| c.active),
            6 => self.some_call(dice, |c| self.net.has_child(c.ticket)),
            _ => None,
        };
        found.unwrap_or(fresh)
    }

    fn wild_node(&self, dice: &mut Dice, parent: u16) -> u8 {
        let nodes: Vec<u8> = self.net.plan.nodes.iter().map(|n| n.0).collect();
        let from = self.net.find(parent).map(|c| c.node);
        let edges: Vec<u8> = self.net.plan.edges.iter().filter(|e| Some(e.0) == from).map(|e| e.1).collect();
        let found = match dice.below(10) {
            0 => Some(dice.between(64, 255) as u8),
            1 => Some(dice.below(64) as u8),
            2 | 3 | 4 => dice.pick(&nodes).copied(),
            _ => dice.pick(&edges).copied(),
        };
        found.unwrap_or(dice.byte())
    }

    /// A stretch of commands of one mood: shares of start, call, return, ask, room, wild and taking back.
    fn stretch(&mut self, dice: &mut Dice, count: usize, shares: [usize; 7]) {
        let sites = self.net.plan.sites.clone();
        self.site = dice.pick(&sites).map_or(0, |s| s.0);
        for _ in 0..count {
            let mut draw = dice.below(shares.iter().sum());
            let mut which = 0;
            while draw >= shares[which] {
                draw -= shares[which];
                which += 1;
            }
            match which {
                0 => self.start(dice),
                1 => self.call(dice),
                2 => drop(self.back(dice)),
                3 => self.ask(dice),
                4 => self.room(dice),
                5 => self.wild(dice),
                _ => self.take_back(dice),
            }
        }
    }

    /// Stretches of different moods.
    fn moods(&mut self, dice: &mut Dice, stretches: usize) {
        for _ in 0..stretches {
            let shares = match dice.below(7) {
                0 => [8, 4, 1, 1, 1, 1, 1],
                1 => [1, 10, 1, 1, 1, 1, 1],
                2 => [1, 1, 10, 1, 1, 1, 1],
                3 => [6, 2, 5, 1, 1, 0, 0],
                4 => [3, 3, 3, 1, 1, 2, 2],
                5 => [6, 3, 1, 1, 0, 0, 5],
                _ => [1, 1, 1, 2, 2, 6, 1],
            };
            let count = dice.between(4, 30);
            self.stretch(dice, count, shares);
        }
    }

    /// Every call is returned; there is always one that can be.
    fn empty(&mut self, dice: &mut Dice) {
        while self.back(dice) {}
    }

    /// A question for every ticket and a room for every level of every site.
    fn look_at_all(&mut self) {
        for ticket in self.used.clone() {
            self.give(with_ticket(0x13, ticket));
        }
        for (site, threads) in self.net.plan.sites.clone() {
            for level in 0..threads {
                self.give(vec![0x14, site, level]);
            }
        }
    }

    fn finish(&mut self, dice: &mut Dice) {
        if dice.percent(30) {
            self.look_at_all();
        }
        if dice.percent(50) {
            self.empty(dice);
            self.stretch(dice, 5, [1, 1, 1, 1, 1, 1, 1]);
        }
    }
}

fn plan_bytes(plan: &Plan) -> Vec<u8> {
    plan.records().concat()
}

/// A plan and a busy run on it.
fn busy_input(dice: &mut Dice, kind: &str, stretches: usize) -> Vec<u8> {
    let size = size_of(dice, kind);
    let plan = sound_plan(dice, &size);
    let mut bytes = plan_bytes(&plan);
    let tickets = *dice.pick(&[40, 300, 2000]).unwrap();
    let mut busy = Busy::new(plan, tickets.max(300 * usize::from(kind == "full")));
    match kind {
        "deep" => (0..stretches).for_each(|_| {
            (0..dice.between(1, 6)).for_each(|_| busy.chain(dice));
            busy.stretch(dice, 30, [1, 20, 2, 1, 1, 1, 2]);
            busy.stretch(dice, 20, [1, 2, 12, 1, 1, 1, 2]);
        }),
        "levels" => (0..stretches).for_each(|_| {
            busy.stretch(dice, 20, [12, 1, 2, 0, 1, 0, 2]);
            busy.stretch(dice, 15, [2, 1, 12, 1, 1, 1, 2]);
        }),
        "full" => fill(dice, &mut busy),
        _ => busy.moods(dice, stretches),
    }
    busy.finish(dice);
    bytes.extend(busy.bytes);
    bytes
}

/// 256 open calls, the 257th, and commands of every sort while the table is full or nearly so.
fn fill(dice: &mut Dice, busy: &mut Busy) {
    while busy.net.calls.len() < 256 {
        busy.stretch(dice, 8, [8, 8, 1, 0, 0, 0, 0]);
    }
    for _ in 0..6 {
        busy.use_place_again(dice);
        busy.stretch(dice, 12, [2, 2, 0, 1, 0, 8, 0]);
        busy.stretch(dice, 3, [0, 0, 1, 0, 0, 0, 1]);
        busy.stretch(dice, 6, [1, 1, 0, 0, 0, 0, 0]);
    }
}

/// A sound plan with a few edges more between any nodes: accepted, 8 or 7. Half of them of level 0 or 1 alone.
fn near_input(dice: &mut Dice) -> Vec<u8> {
    let size = size_of(dice, "near");
    let mut plan = sound_plan(dice, &size);
    if dice.percent(30) {
        let low = dice.percent(50);
        plan.nodes.iter_mut().filter(|n| low || n.2 > 1).for_each(|n| n.2 = 0);
    }
    let nodes: Vec<u8> = plan.nodes.iter().map(|n| n.0).collect();
    for _ in 0..dice.below(4) {
        let (x, y) = (*dice.pick(&nodes).unwrap(), *dice.pick(&nodes).unwrap());
        if (x != y || dice.percent(20)) && plan.edges.len() < 256 {
            plan.edges.push((x, y));
        }
    }
    plan.edges.sort();
    plan.edges.dedup();
    let mut bytes = plan_bytes(&plan);
    let mut busy = Busy::new(plan, 40);
    busy.stretch(dice, 40, [4, 6, 2, 1, 1, 1, 1]);
    bytes.extend(busy.bytes);
    bytes
}

/// 250 to 256 edges, or a 257th that is sound, repeated, falling, of no node, cut or closes a loop.
fn edges_input(dice: &mut Dice) -> Vec<u8> {
    let size = Size { edges: (400, 400), ..size_of(dice, "edges") };
    let mut plan = sound_plan(dice, &size);
    let count = *dice.pick(&[250, 255, 256, 256, 257, 257, 257, 257]).unwrap();
    plan.edges.truncate(count);
    let nodes: Vec<u8> = plan.nodes.iter().map(|n| n.0).collect();
    let last = *plan.edges.last().unwrap();
    if count == 257 {
        let edge = match dice.below(7) {
            0 => plan.edges[255],
            1 => *dice.pick(&plan.edges[..255]).unwrap(),
            2 => (last.0, dice.between(64, 255) as u8),
            3 => (dice.byte(), dice.byte()),
            4 => (nodes[nodes.len() - 1], nodes[0]),
            _ => last,
        };
        plan.edges[256] = edge;
    }
    let mut bytes = plan_bytes(&plan);
    if count == 257 && dice.percent(25) {
        bytes.truncate(bytes.len() - dice.between(1, 3));
        return bytes;
    }
    let mut busy = Busy::new(plan, 40);
    busy.stretch(dice, 20, [4, 6, 2, 1, 1, 1, 1]);
    bytes.extend(busy.bytes);
    bytes
}

/// A sound plan with one to three things wrong, and commands after it.
fn damaged_input(dice: &mut Dice) -> Vec<u8> {
    let size = size_of(dice, "damaged");
    let plan = sound_plan(dice, &size);
    let mut records = plan.records();
    for _ in 0..dice.between(1, 3) {
        damage(dice, &mut records);
    }
    let mut bytes = records.concat();
    let mut busy = Busy::new(plan, 40);
    busy.stretch(dice, 20, [4, 4, 2, 1, 1, 1, 1]);
    if dice.percent(80) {
        bytes.extend(busy.bytes);
    }
    bytes
}

fn damage(dice: &mut Dice, records: &mut Vec<Vec<u8>>) {
    let place = dice.below(records.len());
    let other = dice.below(records.len());
    match dice.below(9) {
        0 => records.swap(place, other),
        1 => records.insert(place, records[other].clone()),
        2 => drop(records.remove(place)),
        3 => records.insert(place, odd_record(dice)),
        4 => drop(records[place].pop()),
        5 => records[place].push(dice.byte()),
        6 => records[place][0] = *dice.pick(&[0, 1, 2, 3, 4, 5, 16, 255]).unwrap(),
        _ => {
            let at = dice.below(records[place].len());
            records[place][at] = odd_number(dice);
        }
    }
    if records.is_empty() {
        records.push(vec![4]);
    }
}

/// A sound plan in which one number stands at a limit or just beyond it, and commands after it.
fn limits_input(dice: &mut Dice) -> Vec<u8> {
    let size = size_of(dice, "limits");
    let mut plan = sound_plan(dice, &size);
    let (site, node) = (dice.below(plan.sites.len()), dice.below(plan.nodes.len()));
    let threads = plan.threads(plan.nodes[node].1).unwrap();
    let number = plan.nodes[node].0;
    match dice.below(7) {
        0 => plan.sites[site].1 = *dice.pick(&[0, 64, 65, 255]).unwrap(),
        1 => plan.sites.last_mut().unwrap().0 = *dice.pick(&[15, 16, 255]).unwrap(),
        2 => plan.nodes.last_mut().unwrap().0 = *dice.pick(&[63, 64, 255]).unwrap(),
        3 => plan.nodes[node].1 = odd_number(dice),
        4 => plan.edges.push((number, *dice.pick(&[number, 63, 64, 255]).unwrap())),
        _ => plan.nodes[node].2 = *dice.pick(&[threads - 1, threads, threads + 1, 64, 255]).unwrap(),
    }
    plan.edges.sort();
    let mut bytes = plan_bytes(&plan);
    let mut busy = Busy::new(sound_plan(dice, &size), 40);
    busy.stretch(dice, 20, [4, 4, 2, 1, 1, 1, 1]);
    bytes.extend(busy.bytes);
    bytes
}

/// Numbers at and around the limits.
fn odd_number(dice: &mut Dice) -> u8 {
    match dice.below(3) {
        0 => dice.byte(),
        1 => dice.below(8) as u8,
        _ => *dice.pick(&[0, 1, 14, 15, 16, 17, 62, 63, 64, 65, 254, 255]).unwrap(),
    }
}

fn odd_record(dice: &mut Dice) -> Vec<u8> {
    let kind = *dice.pick(&[1, 1, 2, 2, 2, 3, 3, 4, 0, 5, 0x15, 0x27, 255]).unwrap();
    let length = crate::plan::body_length(kind);
    let mut record = vec![kind];
    record.extend((0..length).map(|_| odd_number(dice)));
    record
}

/// A sound beginning, then one record whose every number may be wrong, perhaps cut, perhaps with more behind.
fn order_input(dice: &mut Dice) -> Vec<u8> {
    let size = size_of(dice, "order");
    let plan = sound_plan(dice, &size);
    let records = plan.records();
    let keep = dice.below(records.len());
    let mut bytes = records[..keep].concat();
    let mut odd = match dice.percent(50) {
        true => odd_record(dice),
        false => records[keep].clone(),
    };
    for at in 1..odd.len() {
        if dice.percent(30) {
            odd[at] = odd_number(dice);
        } else if dice.percent(30) {
            odd[at] = records[dice.below(records.len())].last().copied().unwrap();
        }
    }
    if dice.percent(20) {
        odd[0] = dice.between(1, 4) as u8;
    }
    bytes.extend(odd);
    match dice.below(4) {
        0 => bytes.truncate(bytes.len() - dice.below(3).min(bytes.len())),
        1 => {}
        _ => bytes.extend(records[keep..].concat()),
    }
    bytes
}

/// A kind that no command has and none of the requests brings.
fn unknown_kind(dice: &mut Dice) -> u8 {
    loop {
        let kind = match dice.below(3) {
            0 => *dice.pick(&[0, 1, 2, 3, 4, 5, 0x0f, 0x17, 0x18, 0x20, 0x27, 0x28, 0x29, 0x2a, 0x7f, 0xff]).unwrap(),
            _ => dice.byte(),
        };
        if command_length(kind).is_none() && !later_kind(kind) {
            return kind;
        }
    }
}

/// 16 becomes a command by a later request.
fn later_kind(kind: u8) -> bool {
    kind == 0x16
}

/// A busy run in which one command's kind is unknown; what follows it must not matter.
fn unknown_input(dice: &mut Dice) -> Vec<u8> {
    let stretches = dice.between(1, 4);
    let bytes = busy_input(dice, "busy", stretches);
    let pieces = bench::pieces(&bytes);
    let plan = pieces.iter().position(|p| p[0] == 4).unwrap() + 1;
    let place = dice.between(plan, pieces.len());
    let mut out = pieces[..place].concat();
    out.push(unknown_kind(dice));
    match dice.below(3) {
        0 => {}
        1 => out.extend((0..dice.below(6)).map(|_| dice.byte())),
        _ => out.extend(pieces[place..].concat()),
    }
    out
}

/// A busy run cut at any byte, more often in its commands than in its plan.
fn cut_input(dice: &mut Dice) -> Vec<u8> {
    let stretches = dice.between(1, 4);
    let mut bytes = busy_input(dice, "busy", stretches);
    let plan: usize = bench::pieces(&bytes).iter().take_while(|p| p[0] != 4).map(|p| p.len()).sum();
    let low = if dice.percent(70) { plan } else { 0 };
    bytes.truncate(dice.between(low, bytes.len()));
    bytes
}

/// Bytes by chance: of any value, of small values, or after a sound plan.
fn random_input(dice: &mut Dice) -> Vec<u8> {
    let length = dice.below(60);
    match dice.below(4) {
        0 => (0..length).map(|_| dice.byte()).collect(),
        1 => (0..length).map(|_| dice.below(6) as u8).collect(),
        2 => (0..dice.below(12)).flat_map(|_| odd_record(dice)).collect(),
        _ => {
            let size = size_of(dice, "random");
            let mut bytes = plan_bytes(&sound_plan(dice, &size));
            for _ in 0..length {
                bytes.push(0x10 + dice.below(6) as u8);
                bytes.extend((0..dice.between(2, 5)).map(|_| if dice.percent(50) { 0 } else { dice.byte() }));
            }
            bytes
        }
    }
}

/// Where a run would end at a kind that later requests make a command, another unknown kind takes its place.
fn without_later_kinds(mut bytes: Vec<u8>) -> Vec<u8> {
    let text = bench::text(&bytes, Wrong::None);
    let last = text.lines().last().unwrap_or("");
    if let Some(offset) = last.strip_prefix("bad 2 ") {
        let offset: usize = offset.parse().unwrap();
        if later_kind(bytes[offset]) {
            bytes[offset] = 0xfe;
        }
    }
    bytes
}

/// A kind that is made for tests/bench alone: some thousand commands over a plan of all 16 sites.
pub const LONG: &str = "long";

/// One input of the kind. One seed in 25 gives a very long busy one.
pub fn input(seed: u64, kind: &str) -> Vec<u8> {
    let mut dice = Dice::new(seed, kind);
    let dice = &mut dice;
    let bytes = match kind {
        "near" => near_input(dice),
        "edges" => edges_input(dice),
        "limits" => limits_input(dice),
        "damaged" => damaged_input(dice),
        "order" => order_input(dice),
        "cut" => cut_input(dice),
        "unknown" => unknown_input(dice),
        "random" => random_input(dice),
        "busy" if seed % 25 == 7 => busy_input(dice, kind, 1200),
        LONG => busy_input(dice, "wide", 250),
        _ => {
            let stretches = dice.between(1, 8);
            busy_input(dice, kind, stretches)
        }
    };
    without_later_kinds(bytes)
}
