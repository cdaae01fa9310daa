//! A reader of plan bytes in plain Rust, written from document 01 alone, with Warshall's closure for the checks on the whole plan.
//! It shares nothing with the proved reader, so that the two can be compared.

pub const SITES: usize = 16;
pub const THREADS: u8 = 64;
pub const NODES: usize = 64;
pub const EDGES: usize = 256;

#[derive(Clone, Copy)]
pub struct Node {
    pub site: u8,
    pub level: u8,
}

#[derive(Clone, Copy)]
pub struct Plan {
    /// The threads of each site; 0 where the site has no record.
    pub threads: [u8; SITES],
    pub nodes: [Option<Node>; NODES],
    pub edges: [(u8, u8); EDGES],
    pub edge_count: usize,
}

#[derive(Clone, Copy)]
pub struct Refusal {
    pub number: u8,
    pub offset: usize,
}

/// What was read, and the bytes used or the refusal. The plan holds every record before the one that was refused.
pub struct Reading {
    pub plan: Plan,
    pub answer: Result<usize, Refusal>,
}

/// For each ordered pair of nodes, whether a path leads from the first to the second.
pub type Table = [[bool; NODES]; NODES];

impl Plan {
    pub fn empty() -> Plan {
        Plan { threads: [0; SITES], nodes: [None; NODES], edges: [(0, 0); EDGES], edge_count: 0 }
    }

    pub fn edges(&self) -> &[(u8, u8)] {
        &self.edges[..self.edge_count]
    }

    pub fn has_site(&self, site: u8) -> bool {
        (site as usize) < SITES && self.threads[site as usize] > 0
    }

    pub fn has_node(&self, node: u8) -> bool {
        (node as usize) < NODES && self.nodes[node as usize].is_some()
    }

    // Each of these asks those of checks 4, 5, 6 and 9 that its kind of record has, in this order, and puts the record down.

    fn add_site(&mut self, site: u8, threads: u8) -> Result<(), u8> {
        if site as usize >= SITES || threads == 0 || threads > THREADS {
            return Err(4);
        }
        self.threads[site as usize] = threads;
        Ok(())
    }

    fn add_node(&mut self, node: u8, site: u8, level: u8) -> Result<(), u8> {
        if node as usize >= NODES {
            return Err(4);
        }
        if !self.has_site(site) {
            return Err(5);
        }
        if level >= self.threads[site as usize] {
            return Err(6);
        }
        self.nodes[node as usize] = Some(Node { site, level });
        Ok(())
    }

    fn add_edge(&mut self, calling: u8, called: u8) -> Result<(), u8> {
        if !self.has_node(calling) || !self.has_node(called) {
            return Err(5);
        }
        if self.edge_count == EDGES {
            return Err(9);
        }
        self.edges[self.edge_count] = (calling, called);
        self.edge_count += 1;
        Ok(())
    }
}

/// The length of the body that follows a kind byte; none for a kind that there is not.
fn body_length(kind: u8) -> Option<usize> {
    match kind {
        1 => Some(2),
        2 => Some(3),
        3 => Some(2),
        4 => Some(0),
        _ => None,
    }
}

/// A record's place in the order of a file: by kind, and within a kind by its number or pair.
fn rank(kind: u8, body: &[u8]) -> (u8, u8, u8) {
    match kind {
        1 | 2 => (kind, body[0], 0),
        3 => (kind, body[0], body[1]),
        _ => (kind, 0, 0),
    }
}

/// The kind and the body of the record at the head of the bytes: checks 2 and 1.
fn record(bytes: &[u8]) -> Result<(u8, &[u8]), u8> {
    let kind = *bytes.first().ok_or(1)?;
    let length = body_length(kind).ok_or(2)?;
    let body = bytes.get(1..1 + length).ok_or(1)?;
    Ok((kind, body))
}

pub fn read(bytes: &[u8]) -> Reading {
    let mut plan = Plan::empty();
    let answer = read_into(&mut plan, bytes);
    Reading { plan, answer }
}

fn read_into(plan: &mut Plan, bytes: &[u8]) -> Result<usize, Refusal> {
    let mut offset = 0;
    let mut before = (0, 0, 0);
    loop {
        let refuse = |number| Refusal { number, offset };
        let (kind, body) = record(&bytes[offset..]).map_err(refuse)?;
        let here = rank(kind, body);
        if here <= before {
            return Err(refuse(3));
        }
        match kind {
            1 => plan.add_site(body[0], body[1]).map_err(refuse)?,
            2 => plan.add_node(body[0], body[1], body[2]).map_err(refuse)?,
            3 => plan.add_edge(body[0], body[1]).map_err(refuse)?,
            _ => {
                whole(plan).map_err(refuse)?;
                return Ok(offset + 1);
            }
        }
        before = here;
        offset += 1 + body.len();
    }
}

/// The checks on the whole plan: 7, then 8.
pub fn whole(plan: &Plan) -> Result<(), u8> {
    let mut calls = call_steps(plan);
    close(&mut calls);
    if (0..NODES).any(|n| calls[n][n]) {
        return Err(7);
    }
    let steps = paths(plan);
    // A node depends on itself where a path leads back from the called node of some edge to the calling one.
    if plan.edges().iter().any(|&(calling, called)| steps[called as usize][calling as usize]) {
        return Err(8);
    }
    Ok(())
}

fn call_steps(plan: &Plan) -> Table {
    let mut table = [[false; NODES]; NODES];
    for &(calling, called) in plan.edges() {
        table[calling as usize][called as usize] = true;
    }
    table
}

/// Whether a path of any length, none at all included, leads from one node to the other, over call edges and over steps within a site.
fn paths(plan: &Plan) -> Table {
    let mut table = call_steps(plan);
    for n in 0..NODES {
        for m in 0..NODES {
            if let (Some(from), Some(to)) = (plan.nodes[n], plan.nodes[m]) {
                table[n][m] |= from.site == to.site && from.level >= to.level;
            }
        }
    }
    close(&mut table);
    table
}

/// Warshall's closure, in place.
fn close(table: &mut Table) {
    for k in 0..NODES {
        let through = table[k];
        for row in table.iter_mut() {
            if row[k] {
                for (to, &further) in row.iter_mut().zip(&through) {
                    *to |= further;
                }
            }
        }
    }
}

/// Which node depends on which: a path to the calling node of some edge, that edge, and a path on from the called node.
pub fn dependences(plan: &Plan) -> Table {
    let steps = paths(plan);
    let mut table = [[false; NODES]; NODES];
    for &(calling, called) in plan.edges() {
        for n in 0..NODES {
            for m in 0..NODES {
                table[n][m] |= steps[n][calling as usize] && steps[called as usize][m];
            }
        }
    }
    table
}
