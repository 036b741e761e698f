//! Keys that are made to wait, asked for and answered, in plain Rust over the standard ordered maps: what a
//! wait and a response cost there, to compare `resolver_bench` with. The keys come and are answered in
//! the order in which the bench's are.
//!
//!     rustc -O -g tools/plain/fetcher.rs -o fetcher
//!     valgrind --tool=callgrind ./fetcher 100000
use std::collections::{BTreeMap, BTreeSet};
struct Request {
    key: u64,
    peer: u16,
    deadline: u128,
    start: u128,
}
struct Fetcher {
    fresh: BTreeSet<(u128, u64)>,
    dues: BTreeMap<u64, u128>,
    by_id: BTreeMap<u64, Request>,
    deadlines: BTreeSet<(u128, u64)>,
    by_key: BTreeMap<u64, u64>,
    next: u64,
}
fn scattered(i: u64) -> u64 {
    i.wrapping_mul(0x9e37_79b9_7f4a_7c15)
}
#[inline(never)]
fn wait(f: &mut Fetcher, key: u64) -> bool {
    if f.by_key.contains_key(&key) {
        return false;
    }
    if let Some(due) = f.dues.insert(key, 0) {
        f.fresh.remove(&(due, key));
    }
    f.fresh.insert((0, key))
}
#[inline(never)]
fn ask(f: &mut Fetcher) {
    let (_, key) = f.fresh.pop_first().unwrap();
    f.dues.remove(&key);
    let id = f.next;
    f.next += 1;
    f.by_id.insert(
        id,
        Request {
            key,
            peer: (id % 16) as u16,
            deadline: 1,
            start: 0,
        },
    );
    f.deadlines.insert((1, id));
    f.by_key.insert(key, id);
}
#[inline(never)]
fn respond(f: &mut Fetcher, id: u64, peer: u16) -> Option<(u64, u128)> {
    if f.by_id.get(&id)?.peer != peer {
        return None;
    }
    let request = f.by_id.remove(&id)?;
    f.deadlines.remove(&(request.deadline, id));
    f.by_key.remove(&request.key);
    Some((request.key, request.start))
}
#[inline(never)]
fn request_of(f: &Fetcher, key: u64) -> (u64, u16) {
    let id = f.by_key[&key];
    (id, f.by_id[&id].peer)
}
fn main() {
    let size: u64 = std::env::args().nth(1).unwrap().parse().unwrap();
    let mut f = Fetcher {
        fresh: BTreeSet::new(),
        dues: BTreeMap::new(),
        by_id: BTreeMap::new(),
        deadlines: BTreeSet::new(),
        by_key: BTreeMap::new(),
        next: 0,
    };
    for i in 0..size {
        wait(&mut f, scattered(i));
    }
    for _ in 0..size {
        ask(&mut f);
    }
    let mut found = 0;
    for i in 0..size {
        let (id, peer) = request_of(&f, scattered(i));
        if respond(&mut f, id, peer).is_some() {
            found += 1;
        }
    }
    println!("{found}");
}
