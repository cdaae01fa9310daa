//! Plans: their bytes, and the checks on them, straight from the definitions.

use crate::wrong::{first, List, Wrong};

#[derive(Clone, Default)]
pub struct Plan {
    /// site, threads
    pub sites: Vec<(u8, u8)>,
    /// node, site, level
    pub nodes: Vec<(u8, u8, u8)>,
    /// calling, called
    pub edges: Vec<(u8, u8)>,
}

impl Plan {
    pub fn threads(&self, site: u8) -> Option<u8> {
        self.sites.iter().find(|s| s.0 == site).map(|s| s.1)
    }

    /// The node's site and level.
    pub fn node(&self, node: u8) -> Option<(u8, u8)> {
        self.nodes.iter().find(|n| n.0 == node).map(|n| (n.1, n.2))
    }

    pub fn edge(&self, from: u8, to: u8) -> bool {
        self.edges.contains(&(from, to))
    }

    /// The plan as records, the end record last.
    pub fn records(&self) -> Vec<Vec<u8>> {
        let mut out = Vec::new();
        out.extend(self.sites.iter().map(|s| vec![1, s.0, s.1]));
        out.extend(self.nodes.iter().map(|n| vec![2, n.0, n.1, n.2]));
        out.extend(self.edges.iter().map(|e| vec![3, e.0, e.1]));
        out.push(vec![4]);
        out
    }

    fn add(&mut self, r: &Record) {
        match r.kind {
            1 => self.sites.push((r.byte(0), r.byte(1))),
            2 => self.nodes.push((r.byte(0), r.byte(1), r.byte(2))),
            3 => self.edges.push((r.byte(0), r.byte(1))),
            _ => {}
        }
    }
}

/// One record of the file; the body may be cut.
struct Record<'a> {
    kind: u8,
    body: &'a [u8],
}

impl Record<'_> {
    fn byte(&self, i: usize) -> u8 {
        self.body.get(i).copied().unwrap_or(0)
    }

    /// "Within a kind the site number, the node number, or the pair".
    fn number(&self) -> (u8, u8) {
        match self.kind {
            3 => (self.byte(0), self.byte(1)),
            _ => (self.byte(0), 0),
        }
    }
}

/// "a body whose length the kind fixes". An unknown kind has none; the 2 is asked for only where 1 wrongly comes first.
pub fn body_length(kind: u8) -> usize {
    match kind {
        1 => 2,
        2 => 3,
        3 => 2,
        4 => 0,
        _ => 2,
    }
}

fn record_at(bytes: &[u8], at: usize) -> Option<Record<'_>> {
    let kind = *bytes.get(at)?;
    let end = bytes.len().min(at + 1 + body_length(kind));
    Some(Record { kind, body: &bytes[at + 1..end] })
}

/// The plan and the bytes used, or a refusal and an offset.
pub fn read(bytes: &[u8], wrong: Wrong) -> Result<(Plan, usize), (u8, usize)> {
    let mut plan = Plan::default();
    let mut before = (0, (0, 0));
    let mut at = 0;
    loop {
        // "or the input length where a kind byte is lacking"
        let Some(record) = record_at(bytes, at) else {
            return Err((1, bytes.len()));
        };
        let holds = |no| record_fault(no, &plan, before, &record, wrong);
        if let Some(no) = first(List::Record, wrong, holds) {
            return Err((no, at));
        }
        if record.kind == 4 {
            return match end_fault(&plan, wrong) {
                Some(no) => Err((no, at)),
                None => Ok((plan, at + 1)),
            };
        }
        plan.add(&record);
        before = (record.kind, record.number());
        at += 1 + body_length(record.kind);
    }
}

/// The table of 01, numbers 1 to 6 and 9.
fn record_fault(no: u8, plan: &Plan, before: (u8, (u8, u8)), r: &Record, wrong: Wrong) -> bool {
    match no {
        1 => r.body.len() < body_length(r.kind),
        2 => !(1..=4).contains(&r.kind),
        3 => !rises(before, r, wrong),
        4 => out_of_range(r, wrong),
        5 => names_nothing(plan, r),
        6 => level_too_high(plan, r, wrong),
        9 => r.kind == 3 && plan.edges.len() >= most_edges(wrong),
        _ => false,
    }
}

/// "At most 256 call edges."
fn most_edges(wrong: Wrong) -> usize {
    match wrong {
        Wrong::Edge257 => 257,
        Wrong::Edge256 => 255,
        _ => 256,
    }
}

/// "Kinds never fall. Within a kind the site number, the node number, or the pair strictly rises."
fn rises(before: (u8, (u8, u8)), r: &Record, wrong: Wrong) -> bool {
    let (kind, number) = before;
    if r.kind != kind {
        return r.kind > kind;
    }
    match wrong {
        Wrong::Repeats => r.number() >= number,
        Wrong::CalledOnly if kind == 3 => r.number().1 > number.1,
        _ => r.number() > number,
    }
}

/// 4: "site record: site above 15, or threads 0 or above 64; node record: node above 63".
fn out_of_range(r: &Record, wrong: Wrong) -> bool {
    let more = u8::from(wrong == Wrong::Numbers);
    let most = if wrong == Wrong::Threads65 { 65 } else { 64 };
    match r.kind {
        1 => r.byte(0) > 15 + more || r.byte(1) == 0 || r.byte(1) > most,
        2 => r.byte(0) > 63 + more,
        _ => false,
    }
}

/// 5: "a node names a site, or an edge names a node, that has no record".
fn names_nothing(plan: &Plan, r: &Record) -> bool {
    match r.kind {
        2 => plan.threads(r.byte(1)).is_none(),
        3 => plan.node(r.byte(0)).is_none() || plan.node(r.byte(1)).is_none(),
        _ => false,
    }
}

/// 6: "the level is not below its site's threads".
fn level_too_high(plan: &Plan, r: &Record, wrong: Wrong) -> bool {
    let threads = plan.threads(r.byte(1)).unwrap_or(0);
    let over = u8::from(wrong == Wrong::LevelT);
    r.kind == 2 && r.byte(2) >= threads + over
}

/// "When the end record is reached, 7, then 8".
fn end_fault(plan: &Plan, wrong: Wrong) -> Option<u8> {
    let any = |f: fn(&Plan, u8, Wrong) -> bool| plan.nodes.iter().any(|n| f(plan, n.0, wrong));
    first(List::End, wrong, |no| match no {
        7 => any(on_a_loop),
        _ => any(depends_on_itself),
    })
}

/// 7: "the call edges have a loop (an edge from a node to itself is one)".
fn on_a_loop(plan: &Plan, node: u8, wrong: Wrong) -> bool {
    let mut reached = [false; 256];
    let mut open = vec![node];
    while let Some(x) = open.pop() {
        for &(from, to) in &plan.edges {
            let skip = wrong == Wrong::SelfEdge && from == to;
            if from == x && !reached[to as usize] && !skip {
                reached[to as usize] = true;
                open.push(to);
            }
        }
    }
    reached[node as usize]
}

/// 8: n depends on n. Stands on pairs (node, a call edge has been taken).
pub fn depends_on_itself(plan: &Plan, node: u8, wrong: Wrong) -> bool {
    let mut reached = [[false; 256]; 2];
    let mut open = vec![(node, false)];
    reached[0][node as usize] = true;
    while let Some((x, called)) = open.pop() {
        let mut go = |y: u8, c: bool| {
            if !reached[usize::from(c)][y as usize] {
                reached[usize::from(c)][y as usize] = true;
                open.push((y, c));
            }
        };
        for &(from, to) in &plan.edges {
            if from == x {
                go(to, true);
            }
        }
        for &(y, _, _) in &plan.nodes {
            if site_step(plan, x, y, wrong) {
                go(y, called);
            }
        }
    }
    reached[1][node as usize]
}

/// "may also step between nodes of one site from level a to level b if a is at least b"
fn site_step(plan: &Plan, x: u8, y: u8, wrong: Wrong) -> bool {
    let (Some((s, a)), Some((t, b))) = (plan.node(x), plan.node(y)) else {
        return false;
    };
    s == t
        && match wrong {
            Wrong::StrictLevels => a > b,
            Wrong::NoSiteSteps => false,
            Wrong::StepsBothWays => true,
            _ => a >= b,
        }
}
