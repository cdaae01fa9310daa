//! The inputs, group by group.

use crate::compare::{Comparison, LONGEST};
use crate::plans::{edge, first_pairs, node, ring, site, two_sites, Draft, Random, END};

/// All groups; each function begins its own.
pub fn all(c: &mut Comparison) {
    cut(c);
    one_byte(c);
    kinds(c);
    limits(c);
    edge_limit(c);
    loops(c);
    levels(c);
    order_of_checks(c);
    offsets(c);
    after_the_end(c);
    random_plans(c);
    random_loops(c);
    damaged(c);
    largest(c);
    behind_the_largest(c);
    each_length(c);
}

/// A fixed plan of the largest size: 16 sites, 64 nodes, 256 edges.
pub fn largest_plan(seed: u64, anew: usize) -> Draft {
    Random::new(seed).plan(16, 64, 256, anew)
}

fn cut(c: &mut Comparison) {
    c.group("cut at every byte");
    let mut looped = two_sites(0);
    looped.edges.extend([(1, 2), (3, 0)]);
    for draft in [two_sites(0), two_sites(1), looped, ring(16, 0, 0), ring(5, 0, 1), Draft::new(16, 64, 64)] {
        c.beginnings(&draft.bytes());
    }
    c.beginnings(&largest_plan(11, 0).bytes());
    let mut crowded = Draft::new(1, 1, 17);
    crowded.edges = first_pairs(17, 257);
    c.beginnings(&crowded.bytes());
}

/// Every byte of the level sheet's plan in turn takes every value.
fn one_byte(c: &mut Comparison) {
    c.group("one byte changed");
    let bytes = two_sites(1).bytes();
    for at in 0..bytes.len() {
        for value in 0..=255 {
            let mut changed = bytes.clone();
            changed[at] = value;
            c.same(&changed);
        }
    }
}

/// Every kind byte at every stage of a plan, with a body of any length after it and with none.
fn kinds(c: &mut Comparison) {
    c.group("kinds");
    let stages: [&[u8]; 4] = [&[], &[1, 3, 5], &[1, 3, 5, 2, 7, 3, 4], &[1, 3, 5, 2, 7, 3, 4, 3, 7, 7]];
    for stage in stages {
        for kind in 0..=255 {
            c.same(&[stage, &[kind]].concat());
            c.same(&[stage, &[kind, 8, 3, 1, 4]].concat());
        }
    }
    let records: [&[u8]; 4] = [&[1, 9, 9], &[2, 9, 9, 0], &[3, 9, 9], &END];
    for first in records {
        for second in records {
            for third in records {
                c.same(&[first, second, third].concat());
            }
        }
    }
}

/// Every value of every number in a record, and each level against each number of threads.
fn limits(c: &mut Comparison) {
    c.group("limits");
    for value in 0..=255 {
        c.same(&[&site(value, 1)[..], &END].concat());
        c.same(&[&site(15, value)[..], &END].concat());
        c.same(&[&site(0, 64)[..], &node(value, 0, 63), &END].concat());
        c.same(&[&site(15, 64)[..], &node(63, value, 63), &END].concat());
        c.same(&[&site(15, 64)[..], &node(63, 15, value), &END].concat());
    }
    for threads in 1..=64 {
        for level in [threads - 1, threads, 64] {
            c.same(&[&site(4, threads)[..], &node(0, 4, level), &END].concat());
        }
    }
    let nodes = Draft::new(1, 2, 2).open();
    for value in 0..=255 {
        c.same(&[&nodes[..], &edge(value, 1), &END].concat());
        c.same(&[&nodes[..], &edge(0, value), &END].concat());
    }
}

/// The 256th and the 257th edge, over few nodes and over many.
fn edge_limit(c: &mut Comparison) {
    c.group("the 257th edge");
    for nodes in 17..=30 {
        let mut draft = Draft::new(1 + nodes % 3, 1, nodes);
        draft.edges = first_pairs(nodes, 255);
        draft.edges.insert((16, 16));
        let open = draft.open();
        c.same(&[&open[..], &END].concat());
        for (calling, called) in [(16, 17), (16, 15), (16, 16), (0, 0), (nodes, 0), (17, 64), (18, 18), (255, 255)] {
            let full = [&open[..], &edge(calling, called)].concat();
            c.same(&full);
            c.same(&full[..full.len() - 1]);
            c.same(&full[..full.len() - 2]);
            c.same(&[&full[..], &END].concat());
        }
    }
    acyclic_edges(c);
}

/// 256 edges without a loop are accepted; with one more the loop that it would close is not asked for.
fn acyclic_edges(c: &mut Comparison) {
    let mut draft = Draft::new(3, 64, 24);
    draft.edges = first_pairs(24, 576).into_iter().filter(|(a, b)| a < b).take(256).collect();
    for node in &mut draft.nodes {
        node.2 = 23 - node.0;
    }
    let open = draft.open();
    c.first_line(&draft.bytes(), &format!("plan 3 24 256 {}", open.len() + 1));
    for back in [edge(23, 0), edge(23, 23), edge(22, 23)] {
        c.refused(&[&open[..], &back, &END].concat(), 9, open.len());
    }
    let last = *draft.edges.last().expect("an edge");
    draft.edges.remove(&last);
    draft.edges.insert((23, 0));
    c.refused(&draft.bytes(), 7, open.len());
}

/// An edge from each node to itself, loops of every length, and paths that only just are none.
fn loops(c: &mut Comparison) {
    c.group("loops of call edges");
    for n in 0..64 {
        let mut draft = Draft::new(16, 64, 64);
        draft.edges.insert((n, n));
        c.refused(&draft.bytes(), 7, 307);
    }
    for length in 2..=64 {
        let mut draft = Draft::new(16, 64, 64);
        for n in 1..length {
            draft.edges.insert((n - 1, n));
            draft.nodes[n as usize - 1].2 = length - n;
        }
        c.same(&draft.bytes());
        draft.edges.insert((length - 1, 0));
        c.refused(&draft.bytes(), 7, draft.open().len());
    }
}

/// Dependences that go through levels: rings over several sites, and the level sheet's plan with every pair of levels.
fn levels(c: &mut Comparison) {
    c.group("levels");
    for sites in 1..=16 {
        c.refused(&ring(sites, 0, 0).bytes(), 8, 14 * sites as usize);
        c.refused(&ring(sites, 1, 1).bytes(), 8, 14 * sites as usize);
        c.refused(&ring(sites, 1, 0).bytes(), 8, 14 * sites as usize);
        c.same(&ring(sites, 0, 1).bytes());
    }
    for levels in 0..256u32 {
        let mut draft = two_sites(0);
        for (n, node) in draft.nodes.iter_mut().enumerate() {
            node.2 = (levels >> (2 * n) & 3) as u8;
        }
        draft.sites = vec![(0, 4), (1, 4)];
        c.same(&draft.bytes());
    }
    one_raised(c);
}

/// In a ring one site after the other gets its calling node above the called one: this alone breaks the ring.
fn one_raised(c: &mut Comparison) {
    for sites in 1..=16 {
        for raised in 0..sites {
            let mut draft = ring(sites, 0, 0);
            draft.nodes.iter_mut().filter(|node| node.0 == 2 * raised).for_each(|node| node.2 = 1);
            c.same(&draft.bytes());
        }
    }
}

/// Two checks hold on one record: the earlier one decides. The words name the checks that hold. 6 and 9 are never asked of one record.
fn order_of_checks(c: &mut Comparison) {
    c.group("order of checks");
    let s: &[u8] = &site(3, 5);
    let n: &[u8] = &[2, 7, 3, 4];
    let records = [s, n].concat();
    let cases: Vec<(&str, Vec<u8>, u8, usize)> = vec![
        ("2, 1", vec![5], 2, 0),
        ("2, 1", [s, &[255]].concat(), 2, 3),
        ("2, 3", [s, &[0, 0, 0]].concat(), 2, 3),
        ("2, 1, 3", [s, &[0]].concat(), 2, 3),
        ("1, 3: the kind", [&records[..], &[1, 9]].concat(), 1, 7),
        ("1, 3: the site", [s, &[1, 3]].concat(), 1, 3),
        ("1, 3: the node", [&records[..], &[2, 7, 3]].concat(), 1, 7),
        ("1, 3: the pair", [&records[..], &edge(7, 7), &[3, 6]].concat(), 1, 10),
        ("1, 4: the site", vec![1, 16], 1, 0),
        ("1, 4: the node", [s, &[2, 64]].concat(), 1, 3),
        ("1, 5: the site", [s, &[2, 7, 4]].concat(), 1, 3),
        ("1, 5: the node", [&records[..], &[3, 8]].concat(), 1, 7),
        ("3, 4: the threads", [s, &site(3, 0)].concat(), 3, 3),
        ("3, 4: the kind, and the site", [&records[..], &site(16, 65)].concat(), 3, 7),
        ("3, 4: the kind, and the node", [&records[..], &edge(7, 7), &node(64, 3, 0)].concat(), 3, 10),
        ("3, 5: the node", [&records[..], &node(7, 4, 0)].concat(), 3, 7),
        ("3, 5: the pair", [&records[..], &edge(7, 7), &edge(6, 6)].concat(), 3, 10),
        ("3, 6", [&records[..], &node(7, 3, 5)].concat(), 3, 7),
        ("4, 5", [s, &node(64, 4, 0)].concat(), 4, 3),
        ("4, 6", [s, &node(64, 3, 5)].concat(), 4, 3),
        ("4, 5, 6", [s, &node(255, 16, 255)].concat(), 4, 3),
        ("5, 6", [s, &node(0, 4, 64)].concat(), 5, 3),
        ("5, 6", [s, &node(0, 255, 255)].concat(), 5, 3),
        ("7, 8", [&records[..], &edge(7, 7), &END].concat(), 7, 10),
    ];
    for (_, bytes, number, offset) in &cases {
        c.refused(bytes, *number, *offset);
    }
    let mut both = two_sites(0);
    both.edges.insert((0, 0));
    c.refused(&both.bytes(), 7, 31);
    order_at_the_257th(c);
}

/// 1, 3 and 5 stand before 9, and 9 before what the end record would show.
fn order_at_the_257th(c: &mut Comparison) {
    let mut full = Draft::new(1, 1, 18);
    full.edges = first_pairs(17, 256);
    let open = full.open();
    assert!(open.ends_with(&edge(15, 0)));
    let mut behind = |record: &[u8], number| c.refused(&[&open[..], record].concat(), number, open.len());
    behind(&[3, 15], 1);
    behind(&edge(15, 0), 3);
    behind(&edge(0, 64), 3);
    behind(&edge(15, 18), 5);
    behind(&edge(15, 1), 9);
    behind(&[&edge(17, 17)[..], &END].concat(), 9);
}

/// Each refusal at several offsets: behind some sites, behind some nodes, behind some edges.
fn offsets(c: &mut Comparison) {
    c.group("offsets of each refusal");
    for sites in 1..=15 {
        let draft = Draft::new(sites, 3, 4 * sites);
        let behind_sites = Draft { nodes: vec![], ..draft.clone() }.open();
        let mut behind_edges = draft.clone();
        behind_edges.edges = (1..4 * sites).map(|n| (n - 1, n)).take(3).collect();
        let at = |open: &[u8], record: &[u8]| ([open, record].concat(), open.len());
        let mut refused = |number: u8, (bytes, offset): (Vec<u8>, usize)| c.refused(&bytes, number, offset);
        let (nodes, edges) = (draft.open(), behind_edges.open());
        for open in [&behind_sites, &nodes, &edges] {
            refused(1, at(open, &[]));
            refused(1, at(open, &[3, 0]));
            refused(2, at(open, &[5]));
            refused(3, at(open, &site(0, 1)));
        }
        refused(3, at(&nodes, &node(0, 0, 0)));
        refused(3, at(&edges, &edge(0, 0)));
        refused(4, at(&behind_sites, &site(16, 1)));
        refused(4, at(&behind_sites, &site(15, 0)));
        refused(4, at(&nodes, &node(64, 0, 0)));
        refused(5, at(&behind_sites, &node(0, 15, 0)));
        refused(5, at(&nodes, &edge(0, 63)));
        refused(5, at(&edges, &edge(63, 0)));
        refused(6, at(&behind_sites, &node(0, 0, 3)));
        refused(6, at(&nodes, &node(63, 0, 3)));
        refused(7, at(&[&nodes[..], &edge(3, 3)].concat(), &END));
        refused(7, at(&[&edges[..], &edge(3, 0)].concat(), &END));
    }
    offsets_of_eight_and_nine(c);
}

fn offsets_of_eight_and_nine(c: &mut Comparison) {
    for sites in 2..=16 {
        let mut draft = ring(sites, 0, 0);
        c.refused(&draft.bytes(), 8, 14 * sites as usize);
        draft.nodes.push((63, 0, 1));
        c.refused(&draft.bytes(), 8, 14 * sites as usize + 4);
    }
    for sites in 1..=16 {
        let mut draft = Draft::new(sites, 1, 18 + sites);
        draft.edges = first_pairs(17, 256);
        let open = draft.open();
        c.refused(&[&open[..], &edge(17, 17)].concat(), 9, open.len());
    }
}

/// Bytes after the end record change nothing, be the plan accepted or refused.
fn after_the_end(c: &mut Comparison) {
    c.group("bytes after the end record");
    let mut looped = two_sites(0);
    looped.edges.insert((3, 3));
    for draft in [Draft::default(), Draft::new(2, 2, 3), two_sites(1), two_sites(0), looped] {
        let bytes = draft.bytes();
        let mut draw = Random::new(3);
        for value in 0..=255 {
            c.same(&[&bytes[..], &[value]].concat());
        }
        for length in [2, 3, 29, 300, LONGEST - bytes.len()] {
            let rest: Vec<u8> = (0..length).map(|_| draw.byte()).collect();
            c.same(&[&bytes[..], &rest].concat());
        }
        c.same(&[&bytes[..], &bytes].concat());
    }
    let full = largest_plan(12, 0).bytes();
    for value in 0..=255 {
        c.same(&[&full[..], &[value]].concat());
    }
}

/// Well-formed plans, sparse and dense, with levels from sound to any.
fn random_plans(c: &mut Comparison) {
    let mut draw = Random::new(20061022);
    for (name, dense) in [("random plans, sparse", false), ("random plans, dense", true)] {
        c.group(name);
        for _ in 0..2000 {
            let draft = random_plan(&mut draw, dense);
            c.same(&draft.bytes());
        }
    }
}

fn random_plan(draw: &mut Random, dense: bool) -> Draft {
    let (sites, nodes) = (draw.within(1, 16), draw.within(2, 64));
    let most = (nodes * (nodes - 1) / 2).min(256);
    let edges = if dense { draw.within(most / 2, most) } else { draw.below(most.min(nodes) + 1) };
    let anew = [0, 1, 3, nodes][draw.below(4)];
    draw.plan(sites, nodes, edges, anew)
}

/// As above, and then some edges in any direction.
fn random_loops(c: &mut Comparison) {
    c.group("random plans with edges back");
    let mut draw = Random::new(1971);
    for round in 0..1000 {
        let mut draft = random_plan(&mut draw, round % 2 == 0);
        for _ in 0..draw.within(1, 3) {
            let (a, b) = (draw.below(draft.nodes.len()), draw.below(draft.nodes.len()));
            draft.edges.insert((draft.nodes[a].0, draft.nodes[b].0));
        }
        let bytes = draft.bytes();
        c.same(&bytes[..bytes.len().min(LONGEST)]);
    }
}

fn damaged(c: &mut Comparison) {
    c.group("random plans, damaged");
    let mut draw = Random::new(4242);
    for round in 0..4000 {
        let mut bytes = random_plan(&mut draw, round % 8 == 0).bytes();
        for _ in 0..draw.within(1, 2) {
            if !bytes.is_empty() {
                bytes = draw.damage(&bytes);
            }
        }
        c.same(&bytes);
    }
}

/// Behind the records of a plan of the largest size: a record of each kind, whole and cut.
fn behind_the_largest(c: &mut Comparison) {
    c.group("a record behind the largest plan's");
    let full = largest_plan(13, 0).bytes();
    let records = &full[..full.len() - 1];
    c.first_line(&[records, &[3, 63, 63, 4]].concat(), "plan R 9 1072");
    c.first_line(&[records, &[2, 0, 0, 0]].concat(), "plan R 3 1072");
    for record in [[1, 0, 1, 4], [2, 63, 15, 0], [3, 0, 0, 4], [3, 63, 62, 4], [3, 64, 63, 4], [5, 0, 0, 0]] {
        for length in 0..=record.len() {
            c.same(&[records, &record[..length]].concat());
        }
    }
}

fn largest(c: &mut Comparison) {
    c.group("plans of the largest size");
    for seed in 1..=150 {
        let sound = largest_plan(seed, 0);
        c.first_line(&sound.bytes(), "plan 16 64 256 1073");
        c.same(&largest_plan(seed, 1).bytes());
        c.same(&largest_plan(seed, 64).bytes());
        let mut back = sound.clone();
        let last = *back.edges.last().expect("an edge");
        back.edges.remove(&last);
        back.edges.insert((last.1, last.0));
        c.same(&back.bytes());
    }
}

/// Sound plans from the smallest to the largest, each into buffers from no byte to one more than it needs.
fn each_length(c: &mut Comparison) {
    c.group("each length of buffer");
    let mut draw = Random::new(214);
    for round in 0..200 {
        let (sites, nodes) = (draw.within(1, 16), draw.within(2, 64));
        let edges = draw.below((nodes * (nodes - 1) / 2).min(256) + 1);
        let rest: Vec<u8> = (0..round % 4).map(|_| draw.byte()).collect();
        c.each_length(&[draw.plan(sites, nodes, edges, 0).bytes(), rest].concat());
    }
    for seed in 1..=5 {
        let largest = largest_plan(seed, 0).bytes();
        assert_eq!(largest.len(), 1073);
        c.each_length(&largest);
    }
    c.each_length(&END);
}
