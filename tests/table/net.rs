//! The open calls and the commands on them. Nothing is kept that can be counted.

use crate::plan::Plan;
use crate::wrong::{first, List, Wrong};

/// "An open call has a ticket, a node, a parent or none, and is active or waiting."
#[derive(Clone)]
pub struct Call {
    pub ticket: u16,
    pub node: u8,
    /// 0 is none
    pub parent: u16,
    pub active: bool,
    /// the moment it was opened, which is when a waiting call began to wait
    pub since: u64,
}

#[derive(Clone)]
pub struct Net {
    pub plan: Plan,
    pub calls: Vec<Call>,
    clock: u64,
    /// admissions less returns, a site
    balance: [i64; 256],
    /// the parents of calls that were taken back, where a wrong rule goes on counting them, and places that one loses
    ghosts: Vec<u16>,
    lost: usize,
    wrong: Wrong,
}

#[derive(Clone, Copy, PartialEq, Debug)]
pub enum Answer {
    Active,
    /// the level in the way
    Waiting(u8),
    Refused(u8),
    /// the ticket admitted by a return, or 0
    Served(u16),
    TakenBack,
    Asked(char),
    Room(i64),
}

/// Room for every level a plan can have, and for those a wrong rule lets in.
const LEVELS: usize = 66;

/// A[k]: "the sum of a[j] for all j at or above k".
fn at_or_above(counts: &[i64], k: usize) -> i64 {
    counts[k..].iter().sum()
}

/// "The site is lawful when A[k] is at most T - k for every k from 0 to T - 1."
fn lawful(threads: u8, counts: &[i64], wrong: Wrong) -> bool {
    let t = i64::from(threads);
    let shift = match wrong {
        Wrong::LimitUp => 1,
        Wrong::LimitDown => -1,
        _ => 0,
    };
    let last = if wrong == Wrong::LimitAboveT { 64 } else { usize::from(threads) };
    (0..last).all(|k| at_or_above(counts, k) <= t - k as i64 + shift)
}

/// "exactly when the site stays lawful with a[i] one larger"
fn admissible(threads: u8, counts: &[i64], level: u8, wrong: Wrong) -> bool {
    let (t, i) = (i64::from(threads), i64::from(level));
    let above = |k| at_or_above(counts, k);
    match wrong {
        Wrong::BadP => above(0) < t && above(level as usize) < t - i,
        Wrong::BasicP => i < t - above(0),
        Wrong::EfficientP => above(0) < t && (i == 0 || i < t - above(1)),
        _ => {
            let mut more = counts.to_vec();
            more[level as usize] += 1;
            lawful(threads, &more, wrong)
        }
    }
}

/// 02, 1/14: "for a level that may not be admitted, the highest full level at or below it". 0 where a wrong rule holds a
/// call back and no level is full.
fn in_the_way(threads: u8, counts: &[i64], level: u8, wrong: Wrong) -> u8 {
    let full = |k: &u8| at_or_above(counts, usize::from(*k)) == i64::from(threads) - i64::from(*k);
    let found = match wrong {
        Wrong::BlockLowest => (0..=level).find(full),
        Wrong::BlockBelow => (0..level).rev().find(full),
        Wrong::BlockAnywhere => (0..threads).rev().find(full),
        Wrong::BlockOwn => Some(level),
        _ => (0..=level).rev().find(full),
    };
    found.unwrap_or(0)
}

impl Net {
    pub fn new(plan: Plan, wrong: Wrong) -> Net {
        Net { plan, calls: Vec::new(), clock: 0, balance: [0; 256], ghosts: Vec::new(), lost: 0, wrong }
    }

    pub fn find(&self, ticket: u16) -> Option<&Call> {
        self.calls.iter().find(|c| c.ticket == ticket)
    }

    pub fn place(&self, call: &Call) -> (u8, u8) {
        self.plan.node(call.node).unwrap_or((0, 0))
    }

    /// a[k] for every k: "the active calls of level k" at the site.
    pub fn counts(&self, site: u8) -> Vec<i64> {
        let mut counts = vec![0; LEVELS];
        for call in &self.calls {
            let (s, level) = self.place(call);
            if s == site && (call.active || self.wrong == Wrong::WaitingCounted) {
                counts[level as usize] += 1;
            }
        }
        counts
    }

    pub fn may_admit(&self, site: u8, level: u8) -> bool {
        let threads = self.plan.threads(site).unwrap_or(0);
        admissible(threads, &self.counts(site), level, self.wrong)
    }

    fn blocked_by(&self, site: u8, level: u8) -> u8 {
        in_the_way(self.plan.threads(site).unwrap_or(0), &self.counts(site), level, self.wrong)
    }

    pub fn has_child(&self, ticket: u16) -> bool {
        self.calls.iter().any(|c| c.parent == ticket) || self.ghosts.contains(&ticket)
    }

    /// "Start: a call without a parent."
    pub fn start(&mut self, ticket: u16, node: u8) -> Answer {
        let holds = |no| self.opening_fault(no, 0, ticket, node);
        match first(List::Start, self.wrong, holds) {
            Some(no) => Answer::Refused(no),
            None => self.open(0, ticket, node),
        }
    }

    /// "Call: a call under an active parent whose node has an edge to the called node."
    pub fn call(&mut self, parent: u16, ticket: u16, node: u8) -> Answer {
        let holds = |no| self.opening_fault(no, parent, ticket, node);
        match first(List::Call, self.wrong, holds) {
            Some(no) => Answer::Refused(no),
            None => self.open(parent, ticket, node),
        }
    }

    /// The table of 01, numbers 20 to 26.
    fn opening_fault(&self, no: u8, parent: u16, ticket: u16, node: u8) -> bool {
        let most = match self.wrong {
            Wrong::Open257 => 257,
            Wrong::Open255 => 255,
            _ => 256,
        };
        match no {
            20 => ticket == 0,
            21 => self.find(ticket).is_some(),
            22 => self.plan.node(node).is_none(),
            23 => self.find(parent).is_none(),
            24 => self.find(parent).is_some_and(|p| !p.active),
            25 => !self.find(parent).is_some_and(|p| self.plan.edge(p.node, node)),
            26 => self.calls.len() + self.lost >= most,
            _ => false,
        }
    }

    /// "If the level may be admitted the new call is active, else it waits, last at its site."
    fn open(&mut self, parent: u16, ticket: u16, node: u8) -> Answer {
        let (site, level) = self.plan.node(node).unwrap_or((0, 0));
        let queued = self.wrong == Wrong::NoPassing && !self.waiting(site).is_empty();
        let active = self.may_admit(site, level) && !queued;
        let blocked_by = self.blocked_by(site, level);
        let since = self.clock;
        self.clock += 1;
        self.calls.push(Call { ticket, node, parent, active, since });
        if active {
            self.balance[site as usize] += 1;
            return Answer::Active;
        }
        Answer::Waiting(blocked_by)
    }

    /// "Return: the ticket's call ends and its thread comes back."
    pub fn back(&mut self, ticket: u16) -> Answer {
        let holds = |no| self.return_fault(no, ticket);
        if let Some(no) = first(List::Return, self.wrong, holds) {
            return Answer::Refused(no);
        }
        let place = self.calls.iter().position(|c| c.ticket == ticket).unwrap();
        let (site, _) = self.place(&self.calls[place]);
        self.calls.remove(place);
        self.balance[site as usize] -= 1;
        Answer::Served(self.serve(site))
    }

    /// The table of 01, numbers 27 to 29.
    fn return_fault(&self, no: u8, ticket: u16) -> bool {
        match no {
            27 => self.find(ticket).is_none(),
            28 => self.find(ticket).is_some_and(|c| !c.active),
            29 => match self.wrong {
                Wrong::NoChildren => false,
                Wrong::ActiveChildren => self.calls.iter().any(|c| c.parent == ticket && c.active),
                _ => self.has_child(ticket),
            },
            _ => false,
        }
    }

    /// 02, 4/14: "The call leaves, its parent has one child fewer, the others keep their order, and nobody becomes
    /// admissible by it." It had no thread, so no thread comes back.
    pub fn take_back(&mut self, ticket: u16) -> Answer {
        let holds = |no| self.taking_back_fault(no, ticket);
        if let Some(no) = first(List::TakeBack, self.wrong, holds) {
            return Answer::Refused(no);
        }
        let place = self.calls.iter().position(|c| c.ticket == ticket).unwrap();
        let gone = self.calls.remove(place);
        self.wrongly_taken_back(&gone);
        Answer::TakenBack
    }

    /// "Refusals: first 27 if not open, then 34 if active": 34 asks whether the call does not wait, which behind 27 is
    /// the same, and so the order of the two is seen.
    fn taking_back_fault(&self, no: u8, ticket: u16) -> bool {
        let waits = self.find(ticket).is_some_and(|c| !c.active);
        match no {
            27 => self.find(ticket).is_none(),
            34 => !waits && self.wrong != Wrong::BackActive,
            _ => false,
        }
    }

    /// What the wrong rules of a taking back do beyond it; nothing where the rules are right.
    fn wrongly_taken_back(&mut self, gone: &Call) {
        let site = self.place(gone).0;
        let order: Vec<u16> = self.waiting(site).iter().map(|w| w.1).collect();
        let mut moments: Vec<u64> = order.iter().map(|t| self.find(*t).unwrap().since).collect();
        match self.wrong {
            Wrong::BackServes => {
                for call in self.calls.iter_mut().filter(|c| order.first() == Some(&c.ticket)) {
                    call.active = true;
                    self.balance[site as usize] += 1;
                }
            }
            Wrong::BackTurns => moments.reverse(),
            Wrong::BackLastMoves => moments.iter_mut().last().into_iter().for_each(|m| *m = gone.since.min(*m)),
            Wrong::BackStillChild => self.ghosts.push(gone.parent),
            Wrong::BackKeepsPlace => self.lost += 1,
            _ => {}
        }
        for (ticket, since) in order.iter().zip(moments) {
            self.calls.iter_mut().filter(|c| c.ticket == *ticket).for_each(|c| c.since = since);
        }
    }

    /// The calls that wait at the site, the one that has waited longest first: their level and ticket.
    fn waiting(&self, site: u8) -> Vec<(u8, u16)> {
        let here = |c: &&Call| !c.active && self.place(c).0 == site;
        let mut calls: Vec<&Call> = self.calls.iter().filter(here).collect();
        calls.sort_by_key(|c| c.since);
        calls.iter().map(|c| (self.place(c).1, c.ticket)).collect()
    }

    /// "of the calls waiting at that site with an admissible level, the one that has waited longest becomes active"
    fn serve(&mut self, site: u8) -> u16 {
        let mut waiting = self.waiting(site);
        match self.wrong {
            Wrong::FirstWaiter => waiting.truncate(1),
            Wrong::Youngest => waiting.reverse(),
            Wrong::LowestTicket => waiting.sort_by_key(|w| w.1),
            Wrong::LowestLevel => waiting.sort_by_key(|w| w.0),
            Wrong::HighestLevel => waiting.sort_by_key(|w| 255 - w.0),
            Wrong::NobodyServed => waiting.clear(),
            _ => {}
        }
        let (threads, counts) = (self.plan.threads(site).unwrap_or(0), self.counts(site));
        let may = |w: &&(u8, u16)| admissible(threads, &counts, w.0, self.wrong);
        let Some(&(_, ticket)) = waiting.iter().find(may) else {
            return 0;
        };
        let call = self.calls.iter_mut().find(|c| c.ticket == ticket).unwrap();
        call.active = true;
        self.balance[site as usize] += 1;
        ticket
    }

    /// "a question `A`, `W` or `N` (not open)"; its `W` has no level.
    pub fn ask(&self, ticket: u16) -> Answer {
        match self.find(ticket) {
            None => Answer::Asked('N'),
            Some(c) if c.active => Answer::Asked('A'),
            Some(c) if self.wrong == Wrong::AskBlock => Answer::Waiting(self.blocked_by(self.place(c).0, self.place(c).1)),
            Some(_) => Answer::Asked('W'),
        }
    }

    /// 02, 3/14: "the number of calls of level k that could be admitted one after another with no return between"; 30: "an unlisted
    /// site, or a level not below its threads".
    pub fn room(&self, site: u8, level: u8) -> Answer {
        match self.plan.threads(site) {
            Some(t) if level < t => Answer::Room(self.wrong_room(t, site, level).unwrap_or_else(|| self.fitting(t, site, level))),
            _ => Answer::Refused(30),
        }
    }

    /// Admits calls of the level one after another and counts them.
    fn fitting(&self, threads: u8, site: u8, level: u8) -> i64 {
        let mut counts = self.counts(site);
        let mut fit = 0;
        while fit < 64 && admissible(threads, &counts, level, self.wrong) {
            counts[usize::from(level)] += 1;
            fit += 1;
        }
        fit
    }

    fn wrong_room(&self, threads: u8, site: u8, level: u8) -> Option<i64> {
        let counts = self.counts(site);
        let spare = |k: u8| i64::from(threads) - i64::from(k) - at_or_above(&counts, usize::from(k));
        match self.wrong {
            Wrong::RoomFormula => Some(spare(level)),
            Wrong::RoomBelow => (0..level).map(spare).min().or(Some(spare(level))),
            Wrong::RoomAllLevels => (0..threads).map(spare).min(),
            Wrong::RoomZeroOff if level == 0 => Some(spare(0) - 1),
            _ => None,
        }
    }

    /// How hard the state is: the newest call's chain, the chain's calls at the newest call's site, the newest call's
    /// parent's children, the calls that wait at its site, and their different levels.
    pub fn shape(&self) -> [usize; 5] {
        let Some(newest) = self.calls.last() else { return [0; 5] };
        let site = self.place(newest).0;
        let (mut length, mut here, mut at) = (0, 0, Some(newest));
        while let Some(c) = at {
            length += 1;
            here += usize::from(self.place(c).0 == site);
            at = self.find(c.parent);
        }
        let family = |c: &&Call| c.parent != 0 && c.parent == newest.parent;
        let children = self.calls.iter().filter(family).count();
        let waiting = self.waiting(site);
        let mut levels: Vec<u8> = waiting.iter().map(|w| w.0).collect();
        levels.sort();
        levels.dedup();
        [length, here, children, waiting.len(), levels.len()]
    }

    /// Demand 3 and the net rules, of the state as it stands. Says what is broken.
    pub fn broken(&self) -> Option<String> {
        let sites = self.plan.sites.iter();
        sites.clone().find_map(|s| self.site_broken(s.0, s.1)).or_else(|| self.calls_broken()).or_else(|| self.stuck())
    }

    /// A taking back moves nobody: every other call is as it was, and each site's waiting order is the old one without it.
    pub fn moved(&self, before: &Net, gone: Option<u16>) -> Option<String> {
        let others = before.calls.iter().filter(|c| Some(c.ticket) != gone);
        let same = |(c, d): (&Call, &Call)| (c.ticket, c.node, c.parent, c.active) == (d.ticket, d.node, d.parent, d.active);
        if others.clone().count() != self.calls.len() || !others.zip(&self.calls).all(same) {
            return Some("a taking back changed another call".to_string());
        }
        let kept = |site| before.waiting(site).into_iter().filter(|w| Some(w.1) != gone).collect::<Vec<_>>();
        let turned = self.plan.sites.iter().find(|s| kept(s.0) != self.waiting(s.0))?;
        Some(format!("site {}: a taking back changed the order of the others", turned.0))
    }

    /// At each site, for each k below T, at most T - k active calls of level k or higher; no waiting call admissible.
    fn site_broken(&self, site: u8, threads: u8) -> Option<String> {
        let active = |c: &&Call| c.active && self.place(c).0 == site;
        let levels: Vec<u8> = self.calls.iter().filter(active).map(|c| self.place(c).1).collect();
        for k in 0..threads {
            let high = levels.iter().filter(|l| **l >= k).count();
            if high > usize::from(threads - k) {
                return Some(format!("site {site}: {high} active calls of level {k} or higher, {threads} threads"));
            }
        }
        if levels.len() as i64 != self.balance[site as usize] {
            return Some(format!("site {site}: admissions less returns are not its active calls"));
        }
        let counts = self.counts(site);
        let highest = highest(threads, &counts);
        for level in 0..threads {
            let may = admissible(threads, &counts, level, Wrong::None);
            if may != (i64::from(level) <= highest) {
                return Some(format!("site {site}: level {level} and the highest level {highest}"));
            }
        }
        let late = self.waiting(site).into_iter().find(|w| i64::from(w.0) <= highest)?;
        Some(format!("site {site}: ticket {} waits and is admissible", late.1))
    }

    /// "open tickets differ and none is 0; every parent is open and active, with the edge in the plan"
    fn calls_broken(&self) -> Option<String> {
        for (i, c) in self.calls.iter().enumerate() {
            let twice = self.calls[..i].iter().any(|d| d.ticket == c.ticket);
            let parent = self.find(c.parent);
            let lone = c.parent == 0;
            let under = parent.is_some_and(|p| p.active && self.plan.edge(p.node, c.node));
            if c.ticket == 0 || twice || !(lone || under) || self.plan.node(c.node).is_none() {
                return Some(format!("the call of ticket {} breaks a net rule", c.ticket));
            }
        }
        (self.calls.len() > 256).then(|| "more than 256 open calls".to_string())
    }

    /// If any call is open, some active call has no open child.
    fn stuck(&self) -> Option<String> {
        let free = self.calls.iter().any(|c| c.active && !self.has_child(c.ticket));
        (!self.calls.is_empty() && !free).then(|| "no active call without an open child".to_string())
    }
}

/// "one less than the lowest k below T with A[k] = T - k, and T - 1 if no level is full"; -1 is "none".
fn highest(threads: u8, counts: &[i64]) -> i64 {
    let t = i64::from(threads);
    let full = |k: &i64| at_or_above(counts, *k as usize) == t - k;
    (0..t).find(full).unwrap_or(t) - 1
}
