//! A writer of plan files in plain Rust, over the plain reader's plan and written from request 2/14 alone.
//! It shares nothing with the proved writer, so that the two can be compared.

use crate::reader::{whole, Plan, EDGES, THREADS};

/// Writes the plan's file into the front of the buffer and answers its length, or 18 or 10 with the buffer as it was.
pub fn write(plan: &Plan, buffer: &mut [u8]) -> Result<usize, u8> {
    if !sound(plan) {
        return Err(18);
    }
    if buffer.len() < length(plan) {
        return Err(10);
    }
    let mut at = 0;
    for (site, &threads) in plan.threads.iter().enumerate() {
        if threads > 0 {
            put(buffer, &mut at, [1, site as u8, threads]);
        }
    }
    for (number, node) in plan.nodes.iter().enumerate() {
        if let Some(node) = node {
            put(buffer, &mut at, [2, number as u8, node.site, node.level]);
        }
    }
    for &(calling, called) in plan.edges() {
        put(buffer, &mut at, [3, calling, called]);
    }
    put(buffer, &mut at, [4]);
    Ok(at)
}

fn put<const N: usize>(buffer: &mut [u8], at: &mut usize, record: [u8; N]) {
    buffer[*at..*at + N].copy_from_slice(&record);
    *at += N;
}

fn length(plan: &Plan) -> usize {
    let sites = plan.threads.iter().filter(|&&threads| threads > 0).count();
    3 * sites + 4 * plan.nodes.iter().flatten().count() + 3 * plan.edge_count + 1
}

/// Whether the plan passes checks 3 to 9. A node or site out of range has no place in it.
fn sound(plan: &Plan) -> bool {
    plan.edge_count <= EDGES
        && plan.threads.iter().all(|&threads| threads <= THREADS)
        && plan.nodes.iter().flatten().all(|node| plan.has_site(node.site) && node.level < plan.threads[node.site as usize])
        && plan.edges().iter().all(|&(calling, called)| plan.has_node(calling) && plan.has_node(called))
        && plan.edges().windows(2).all(|pair| pair[0] < pair[1])
        && whole(plan).is_ok()
}
