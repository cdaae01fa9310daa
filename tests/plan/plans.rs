//! Plans to test with, as drafts that can be altered, and numbers at random from a fixed seed.

use std::collections::BTreeSet;

pub fn site(site: u8, threads: u8) -> [u8; 3] {
    [1, site, threads]
}

pub fn node(node: u8, site: u8, level: u8) -> [u8; 4] {
    [2, node, site, level]
}

pub fn edge(calling: u8, called: u8) -> [u8; 3] {
    [3, calling, called]
}

pub const END: [u8; 1] = [4];

#[derive(Clone, Default)]
pub struct Draft {
    pub sites: Vec<(u8, u8)>,
    pub nodes: Vec<(u8, u8, u8)>,
    pub edges: BTreeSet<(u8, u8)>,
}

impl Draft {
    /// So many sites, from 0 on, and so many nodes, from 0 on, dealt out to the sites in turn, at level 0.
    pub fn new(sites: u8, threads: u8, nodes: u8) -> Draft {
        Draft {
            sites: (0..sites).map(|s| (s, threads)).collect(),
            nodes: (0..nodes).map(|n| (n, n % sites, 0)).collect(),
            edges: BTreeSet::new(),
        }
    }

    /// The records without the end record.
    pub fn open(&self) -> Vec<u8> {
        let mut bytes = Vec::new();
        for &(s, threads) in &self.sites {
            bytes.extend(site(s, threads));
        }
        for &(n, s, level) in &self.nodes {
            bytes.extend(node(n, s, level));
        }
        for &(calling, called) in &self.edges {
            bytes.extend(edge(calling, called));
        }
        bytes
    }

    pub fn bytes(&self) -> Vec<u8> {
        [self.open(), END.to_vec()].concat()
    }
}

/// Two sites of 2 threads, edges 0 to 1 and 2 to 3; the plan of the level sheet, with node 2 at this level.
pub fn two_sites(level: u8) -> Draft {
    Draft {
        sites: vec![(0, 2), (1, 2)],
        nodes: vec![(0, 0, 0), (1, 1, 0), (2, 1, level), (3, 0, 0)],
        edges: BTreeSet::from([(0, 1), (2, 3)]),
    }
}

/// One call from each site to the next and from the last to the first, each by a node of its own, so that no call edge follows another:
/// node 2k calls node 2k + 1, which stands at the site of the next caller. Called and calling node of a site have these levels.
pub fn ring(sites: u8, called: u8, calling: u8) -> Draft {
    let mut draft = Draft { sites: (0..sites).map(|s| (s, 2)).collect(), ..Draft::default() };
    for s in 0..sites {
        draft.nodes.push((2 * s, s, calling));
        draft.nodes.push((2 * s + 1, (s + 1) % sites, called));
        draft.edges.insert((2 * s, 2 * s + 1));
    }
    draft
}

/// The first so many pairs of nodes below a number, from the lowest on, a node with itself included.
pub fn first_pairs(nodes: u8, count: usize) -> BTreeSet<(u8, u8)> {
    (0..nodes).flat_map(|a| (0..nodes).map(move |b| (a, b))).take(count).collect()
}

/// Xorshift.
pub struct Random(u64);

impl Random {
    pub fn new(seed: u64) -> Random {
        Random(seed)
    }

    fn next(&mut self) -> u64 {
        self.0 ^= self.0 << 13;
        self.0 ^= self.0 >> 7;
        self.0 ^= self.0 << 17;
        self.0
    }

    pub fn below(&mut self, limit: usize) -> usize {
        ((self.next() >> 16) % limit as u64) as usize
    }

    pub fn within(&mut self, low: usize, high: usize) -> usize {
        low + self.below(high - low + 1)
    }

    pub fn byte(&mut self) -> u8 {
        self.below(256) as u8
    }

    /// So many different numbers below a limit, rising.
    fn some(&mut self, count: usize, limit: usize) -> Vec<u8> {
        let mut chosen = BTreeSet::new();
        while chosen.len() < count {
            chosen.insert(self.below(limit) as u8);
        }
        chosen.into_iter().collect()
    }

    /// A well-formed plan of so many sites, nodes and edges, without a loop of call edges. The level of a node is at first its height, the
    /// number of calls on the longest path from it, so that the plan is sound; then so many levels are set anew, at random.
    pub fn plan(&mut self, sites: usize, nodes: usize, edges: usize, anew: usize) -> Draft {
        let numbers = self.some(nodes, 64);
        let order = self.order(&numbers);
        let mut draft = Draft { sites: self.some(sites, 16).into_iter().map(|s| (s, 64)).collect(), ..Draft::default() };
        while draft.edges.len() < edges {
            let a = self.below(nodes - 1);
            let b = self.within(a + 1, nodes - 1);
            draft.edges.insert((order[a], order[b]));
        }
        let heights = heights(&order, &draft.edges);
        for n in numbers {
            let s = draft.sites[self.below(sites)].0;
            draft.nodes.push((n, s, heights[n as usize]));
        }
        for _ in 0..anew {
            let at = self.below(nodes);
            draft.nodes[at].2 = self.below(4) as u8;
        }
        self.threads(&mut draft);
        draft
    }

    /// Gives each site threads enough for its levels, now and then not one more.
    fn threads(&mut self, draft: &mut Draft) {
        for (s, threads) in &mut draft.sites {
            let highest = draft.nodes.iter().filter(|node| node.1 == *s).map(|node| node.2).max().unwrap_or(0);
            let least = highest as usize + 1;
            *threads = if self.below(2) == 0 { least } else { self.within(least, 64) } as u8;
        }
    }

    /// The bytes with one thing wrong, most often.
    pub fn damage(&mut self, bytes: &[u8]) -> Vec<u8> {
        let mut bytes = bytes.to_vec();
        let at = self.below(bytes.len());
        match self.below(6) {
            0 => bytes[at] = self.byte(),
            1 => bytes[at] = bytes[at].wrapping_add(1),
            2 => bytes[at] = bytes[at].wrapping_sub(1),
            3 => bytes.truncate(at),
            4 => drop(bytes.remove(at)),
            _ => {
                let other = self.below(bytes.len());
                bytes.swap(at, other);
            }
        }
        bytes
    }

    /// The numbers in an order by chance.
    fn order(&mut self, numbers: &[u8]) -> Vec<u8> {
        let mut order = numbers.to_vec();
        for i in (1..order.len()).rev() {
            let j = self.within(0, i);
            order.swap(i, j);
        }
        order
    }
}

/// The height of each node, where calls lead onward in the order only.
fn heights(order: &[u8], edges: &BTreeSet<(u8, u8)>) -> [u8; 64] {
    let mut heights = [0; 64];
    for &calling in order.iter().rev() {
        for &(_, called) in edges.range((calling, 0)..=(calling, 255)) {
            heights[calling as usize] = heights[calling as usize].max(heights[called as usize] + 1);
        }
    }
    heights
}
