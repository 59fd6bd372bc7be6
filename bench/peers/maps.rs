//! A cache of names, and local zones and records, by the maps of Rust's std: `maps WORD CALL SIZE COUNT` prints a number that
//! depends on each call. The words are `cells`, `room` and `tables`.
//! It has no flush, no undo, no journal and no limit, and one set for each name. The call `memory` prints by how many octets the
//! process grows as it fills a map.
use std::collections::HashMap;

/// What is found about a name.
struct Find {
    rank: u8,
    ttl: u32,
    since: u64,
    data: Vec<[u8; 4]>,
}

/// A name as on the wire.
fn wire(text: &str) -> Vec<u8> {
    let mut octets = Vec::with_capacity(text.len() + 1);
    for label in text.split('.') {
        octets.push(label.len() as u8);
        octets.extend_from_slice(label.as_bytes());
    }
    octets
}

/// A name that is looked up. Its octets lie in it, as those of a short name of ours do, so that reading it is one place of memory.
struct Asked {
    length: usize,
    octets: [u8; 32],
}

impl Asked {
    fn new(name: &[u8]) -> Asked {
        let mut octets = [0; 32];
        octets[..name.len()].copy_from_slice(name);
        Asked { length: name.len(), octets }
    }

    fn name(&self) -> &[u8] {
        &self.octets[..self.length]
    }
}

/// The next place, which is far from the last one.
fn place_after(place: usize, places: usize) -> usize {
    if places == 0 { 0 } else { (place + 7_919) % places }
}

// ---- cells

fn find_at(place: u32) -> (Vec<u8>, Find) {
    let [_, high, middle, low] = place.to_be_bytes();
    let find = Find { rank: 4, ttl: 3_600, since: 0, data: vec![[192, high, middle, low]] };
    (wire(&format!("n{place}.test.")), find)
}

fn cache_of(size: u32) -> HashMap<Vec<u8>, Find> {
    let mut cache = HashMap::new();
    for place in 0..size {
        let (name, find) = find_at(place);
        cache.insert(name, find);
    }
    cache
}

/// The find of a name if it is alive: its rank, the seconds left and the last octet of its address.
/// A number that depends on each part of what is valid at a moment, or 0.
fn told(find: Option<&Find>, moment: u64) -> u32 {
    match find {
        Some(find) if moment.saturating_sub(find.since) < u64::from(find.ttl) => {
            let left = find.ttl - (moment - find.since) as u32;
            left + u32::from(find.rank) + find.data.first().map_or(0, |octets| u32::from(octets[3]))
        }
        _ => 0,
    }
}

fn look(cache: &HashMap<Vec<u8>, Find>, name: &[u8], moment: u64) -> u32 {
    told(cache.get(name), moment)
}

fn cells(call: &str, size: u32, count: u32) -> u32 {
    match call {
        "fill" => (0..count).fold(0, |sum: u32, _| sum.wrapping_add(cache_of(size).len() as u32 % 65_536)),
        "look" => {
            let cache = cache_of(size);
            let names: Vec<Asked> = (0..size).map(|place| Asked::new(&find_at(place).0)).collect();
            let (mut sum, mut place) = (0u32, 0);
            for _ in 0..count {
                place = place_after(place, names.len());
                sum = sum.wrapping_add(look(&cache, names[place].name(), 0));
            }
            sum
        }
        "memory" => growth(|| cache_of(size)),
        _ => panic!("there is no such call"),
    }
}

// ---- room: a cache that forgets the name that was used least recently

/// No place in the list of names.
const NOWHERE: u32 = u32::MAX;

/// A name in the list of names, in the order in which they were used.
struct Slot {
    name: Vec<u8>,
    find: Find,
    newer: u32,
    older: u32,
}

/// A cache with room for so many names.
struct Recent {
    room: usize,
    places: HashMap<Vec<u8>, u32>,
    slots: Vec<Slot>,
    newest: u32,
    oldest: u32,
}

impl Recent {
    fn new(room: usize) -> Recent {
        Recent { room, places: HashMap::new(), slots: Vec::new(), newest: NOWHERE, oldest: NOWHERE }
    }

    /// Takes a slot out of the list.
    fn unlink(&mut self, place: u32) {
        let Slot { newer, older, .. } = self.slots[place as usize];
        match newer {
            NOWHERE => self.newest = older,
            newer => self.slots[newer as usize].older = older,
        }
        match older {
            NOWHERE => self.oldest = newer,
            older => self.slots[older as usize].newer = newer,
        }
    }

    /// Puts a slot at the end of those that were used last.
    fn link(&mut self, place: u32) {
        let older = self.newest;
        self.slots[place as usize].newer = NOWHERE;
        self.slots[place as usize].older = older;
        match older {
            NOWHERE => self.oldest = place,
            older => self.slots[older as usize].newer = place,
        }
        self.newest = place;
    }

    /// What is known of a name at a moment, which is then the name that was used last, or 0.
    fn look(&mut self, name: &[u8], moment: u64) -> u32 {
        let Some(&place) = self.places.get(name) else {
            return 0;
        };
        self.unlink(place);
        self.link(place);
        told(Some(&self.slots[place as usize].find), moment)
    }

    /// Adds a find of a name that is not known. If there is no room, the name that was used least recently makes way.
    fn add(&mut self, name: &[u8], find: &Find, moment: u64) {
        let find = Find { since: moment, data: find.data.clone(), ..*find };
        if let Some(&place) = self.places.get(name) {
            self.slots[place as usize].find = find;
            return;
        }
        let place = if self.places.len() == self.room {
            let place = self.oldest;
            self.unlink(place);
            let slot = &mut self.slots[place as usize];
            self.places.remove(&slot.name);
            slot.name = name.to_vec();
            slot.find = find;
            place
        } else {
            self.slots.push(Slot { name: name.to_vec(), find, newer: NOWHERE, older: NOWHERE });
            self.slots.len() as u32 - 1
        };
        self.places.insert(name.to_vec(), place);
        self.link(place);
    }
}

/// How many of the names were new: there are twice as many as there is room for, and they come in turn.
fn room(size: u32, count: u32) -> u32 {
    let finds: Vec<(Vec<u8>, Find)> = (0..2 * size).map(find_at).collect();
    let mut recent = Recent::new(size as usize);
    let (mut sum, mut place) = (0u32, 0);
    for turn in 0..size + count {
        let moment = u64::from(turn / (size / 3_600 + 1));
        let (name, find) = &finds[place];
        if recent.look(name, moment) == 0 {
            recent.add(name, find, moment);
            sum += 1;
        }
        place = (place + 1) % finds.len();
    }
    sum
}

// ---- tables: things in order, with an index by name

/// A list of named things in the order in which they came, with the places of each name.
struct Ordered<T> {
    list: Vec<T>,
    places: HashMap<Vec<u8>, Vec<u32>>,
}

impl<T> Ordered<T> {
    fn new() -> Ordered<T> {
        Ordered { list: Vec::new(), places: HashMap::new() }
    }

    fn push(&mut self, name: Vec<u8>, thing: T) {
        self.places.entry(name).or_default().push(self.list.len() as u32);
        self.list.push(thing);
    }
}

/// A zone answers from its records, or it refuses each question.
const STATIC: u8 = 2;

struct Record {
    owner: Vec<u8>,
    kind: u16,
    ttl: u32,
    data: [u8; 4],
}

struct Tables {
    /// The type of each zone.
    zones: Ordered<u8>,
    records: Ordered<Record>,
}

fn last_zone(size: u32) -> u32 {
    (size / 16).max(2) - 1
}

fn owner_at(place: u32, size: u32) -> String {
    let zone = if place < size / 100 { 0 } else { 1 + place % last_zone(size) };
    format!("n{place}.z{zone}.test.")
}

fn tables_of(size: u32) -> Tables {
    let mut tables = Tables { zones: Ordered::new(), records: Ordered::new() };
    for zone in 0..=last_zone(size) {
        tables.zones.push(wire(&format!("z{zone}.test.")), STATIC);
    }
    for place in 0..size {
        let owner = wire(&owner_at(place, size));
        let [_, _, middle, low] = place.to_be_bytes();
        tables.records.push(owner.clone(), Record { owner, kind: 1, ttl: 60, data: [192, 0, middle, low] });
    }
    tables
}

/// The type of the zone that is closest to a name: one look-up a label.
fn zone_of(tables: &Tables, mut name: &[u8]) -> Option<u8> {
    loop {
        if let Some(places) = tables.zones.places.get(name) {
            return Some(tables.zones.list[places[0] as usize]);
        }
        match name.first() {
            Some(&length) if length > 0 => name = &name[1 + usize::from(length)..],
            _ => return None,
        }
    }
}

/// The TTL and the last octet of the first address of a name in a zone that answers.
fn answer(tables: &Tables, name: &[u8]) -> u32 {
    if zone_of(tables, name) != Some(STATIC) {
        return 0;
    }
    let Some(places) = tables.records.places.get(name) else {
        return 0;
    };
    let records = places.iter().map(|place| &tables.records.list[*place as usize]);
    match records.into_iter().find(|record| record.kind == 1 && record.owner == name) {
        Some(record) => record.ttl + u32::from(record.data[3]),
        None => 0,
    }
}

fn tables(call: &str, size: u32, count: u32) -> u32 {
    match call {
        "fill" => (0..count).fold(0, |sum: u32, _| sum.wrapping_add(tables_of(size).records.list.len() as u32 % 65_536)),
        "answer" => {
            let tables = tables_of(size);
            let names: Vec<Asked> = (0..size).map(|place| Asked::new(&wire(&owner_at(place, size)))).collect();
            let (mut sum, mut place) = (0u32, 0);
            for _ in 0..count {
                place = place_after(place, names.len());
                sum = sum.wrapping_add(answer(&tables, names[place].name()));
            }
            sum
        }
        "memory" => growth(|| tables_of(size)),
        _ => panic!("there is no such call"),
    }
}

/// The octets that the process has in memory.
fn resident() -> u32 {
    let status = std::fs::read_to_string("/proc/self/status").unwrap();
    let line = status.lines().find(|line| line.starts_with("VmRSS:")).unwrap();
    line.split_whitespace().nth(1).unwrap().parse::<u32>().unwrap() * 1_024
}

/// By how many octets the process grows.
fn growth<T>(make: impl FnOnce() -> T) -> u32 {
    let before = resident();
    let made = make();
    let grown = resident() - before;
    drop(made);
    grown
}

fn main() {
    let words: Vec<String> = std::env::args().collect();
    let [_, word, call, size, count] = &words[..] else {
        panic!("maps WORD CALL SIZE COUNT");
    };
    let (size, count) = (size.parse().unwrap(), count.parse().unwrap());
    let told = match word.as_str() {
        "cells" => cells(call, size, count),
        "room" => room(size, count),
        "tables" => tables(call, size, count),
        _ => panic!("there is no such word"),
    };
    println!("{call} {told}");
}
