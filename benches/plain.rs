//! The walk of a contraction in plain Rust, without contracts: the same networks, orders and turns as `sweep.rt.txt`.
//!
//! It prints a line for each network: name, value, turns, and the processor time of the fastest of
//! its rounds, in nanoseconds.

use std::collections::HashMap;
use std::time::Duration;

const MODULUS: u64 = 41;
const ROOT: u64 = 2;
const ROOT_INVERSE: u64 = 21;
const DELTA: u64 = 6;
const MOST_OPEN: usize = 24;
const MOST_PAIRINGS: usize = 262_144;

struct Node {
    group: u32,
    ends: Vec<u32>,
    terms: Vec<(u64, Vec<u8>)>,
}

/// The crossings of a closed braid: each letter is the left one of its two strands, from 1, and its sign.
fn closed_braid(letters: &[(usize, bool)]) -> Vec<Node> {
    let mut totals = [0u32; 18];
    for (strand, _) in letters {
        totals[*strand] += 1;
        totals[*strand + 1] += 1;
    }
    let mut passed = [0u32; 18];
    let name = |strand: usize, passed: u32| strand as u32 * 1000 + passed % totals[strand];
    let mut nodes = Vec::new();
    for &(left, positive) in letters {
        let right = left + 1;
        let ends = if positive {
            [
                name(right, passed[right]),
                name(right, passed[right] + 1),
                name(left, passed[left] + 1),
                name(left, passed[left]),
            ]
        } else {
            [
                name(left, passed[left]),
                name(right, passed[right]),
                name(right, passed[right] + 1),
                name(left, passed[left] + 1),
            ]
        };
        passed[left] += 1;
        passed[right] += 1;
        nodes.push(Node {
            group: left as u32,
            ends: ends.to_vec(),
            terms: vec![(ROOT, vec![1, 0, 3, 2]), (ROOT_INVERSE, vec![3, 2, 1, 0])],
        });
    }
    nodes
}

fn times(x: u64, y: u64) -> u64 {
    (u128::from(x) * u128::from(y) % u128::from(MODULUS)) as u64
}

fn slot(all: &[u32], name: u32) -> usize {
    all.iter().position(|other| *other == name).unwrap()
}

/// The value of the network, and the turns.
fn contract(nodes: &[Node], order: &[usize]) -> (u64, u64) {
    let mut powers = [1u64; 25];
    for k in 1..25 {
        powers[k] = times(powers[k - 1], DELTA);
    }
    let mut table = HashMap::from([(0u128, 1u64)]);
    let mut next: HashMap<u128, u64> = HashMap::new();
    let mut names: Vec<u32> = Vec::new();
    let mut turns = 0;
    for place in order {
        let node = &nodes[*place];
        let points = names.len();
        let mut all = names.clone();
        all.extend(&node.ends);
        let mut open: Vec<u32> = all
            .iter()
            .copied()
            .filter(|name| all.iter().filter(|other| *other == name).count() == 1)
            .collect();
        open.sort_unstable();
        assert!(open.len() <= MOST_OPEN);
        let end_slots: Vec<usize> = node.ends.iter().map(|name| slot(&all, *name)).collect();
        let open_slots: Vec<usize> = open.iter().map(|name| slot(&all, *name)).collect();
        let mut places = [0u8; 48];
        for (place, slot) in open_slots.iter().enumerate() {
            places[*slot] = place as u8;
        }
        next.clear();
        next.reserve((table.len() * node.terms.len()).min(MOST_PAIRINGS));
        for (code, coefficient) in &table {
            let mut partner = [0u8; MOST_OPEN];
            let mut rest = *code;
            for partner in &mut partner[..points] {
                *partner = rest as u8 & 31;
                rest >>= 5;
            }
            for (weight, pairs) in &node.terms {
                let mut mates: [u8; 48] = std::array::from_fn(|slot| slot as u8);
                mates[..points].copy_from_slice(&partner[..points]);
                let mut loops = 0;
                for (i, j) in pairs.iter().enumerate() {
                    if i < usize::from(*j) {
                        let a = end_slots[i];
                        let b = end_slots[usize::from(*j)];
                        let c = usize::from(mates[a]);
                        if c == b {
                            loops += 1;
                        } else {
                            let d = usize::from(mates[b]);
                            mates[c] = d as u8;
                            mates[d] = c as u8;
                        }
                    }
                }
                let mut digits = 0;
                for slot in open_slots.iter().rev() {
                    digits = digits << 5 | u128::from(places[usize::from(mates[*slot])]);
                }
                let glued = digits | (open.len() as u128) << 120;
                let more = times(*coefficient, times(*weight, powers[loops]));
                let sum = next.entry(glued).or_insert(0);
                *sum += more;
                if *sum >= MODULUS {
                    *sum -= MODULUS;
                }
                assert!(next.len() <= MOST_PAIRINGS);
                turns += 1;
            }
        }
        std::mem::swap(&mut table, &mut next);
        names = open;
    }
    (table.get(&0).copied().unwrap_or(0), turns)
}

#[repr(C)]
struct Timespec {
    seconds: i64,
    nanoseconds: i64,
}

unsafe extern "C" {
    fn clock_gettime(clock: i32, time: *mut Timespec) -> i32;
}

/// The processor time of this thread, on Linux.
fn thread_cpu_time() -> Duration {
    const CLOCK_THREAD_CPUTIME_ID: i32 = 3;
    let mut time = Timespec { seconds: 0, nanoseconds: 0 };
    let status = unsafe { clock_gettime(CLOCK_THREAD_CPUTIME_ID, &mut time) };
    assert_eq!(status, 0);
    Duration::new(time.seconds as u64, time.nanoseconds as u32)
}

fn report(name: &str, nodes: &[Node], rounds: u32) {
    let mut order: Vec<usize> = (0..nodes.len()).collect();
    if name == "weave" {
        order.sort_by_key(|place| nodes[*place].group);
    }
    let mut fastest = u128::MAX;
    let mut answer = (0, 0);
    for _ in 0..rounds {
        let start = thread_cpu_time();
        answer = std::hint::black_box(contract(std::hint::black_box(nodes), &order));
        fastest = fastest.min((thread_cpu_time() - start).as_nanos());
    }
    println!("{name} {} {} {fastest}", answer.0, answer.1);
}

fn main() {
    let torus: Vec<_> = (0..256).map(|_| (1, true)).collect();
    let braid: Vec<_> = (0..120).map(|i| (i % 3 + 1, i % 3 != 1)).collect();
    let weave: Vec<_> = (0..120)
        .map(|i| match i % 15 {
            k if k < 8 => (2 * k + 1, true),
            k => (2 * (k - 8) + 2, false),
        })
        .collect();
    report("torus", &closed_braid(&torus), 200);
    report("braid", &closed_braid(&braid), 200);
    report("weave", &closed_braid(&weave), 40);
}
