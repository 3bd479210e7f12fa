//! A plain machine of nine threads, as `cdc6600 run` has them, to be timed beside it: one that issues, one for each of
//! the seven units, each with a lane of two reservations, and one for memory, all over one lock. Nothing in it is
//! proved. It has the conflicts of the same machine, but takes references to memory one after the other, without banks.
//!
//! `running yield BUDGET` has threads that yield between tries, `running sleep BUDGET` threads that sleep on condition
//! variables until something was changed. It reads a deck as the plain interpreter does, runs it and prints the dump.
#[path = "../replaying/plain.rs"]
#[allow(dead_code)]
mod interpreter;

use interpreter::*;
use std::collections::VecDeque;
use std::io::Read;
use std::sync::{Condvar, Mutex, MutexGuard};

/// A register's number, of A, B and X in this order.
const A: usize = 0;
const B: usize = 8;
const X: usize = 16;

#[derive(Clone, Copy)]
struct Instr {
    op: u32,
    i: usize,
    j: usize,
    k: usize,
    jk: u32,
    address: u32,
    next: u32,
}

/// An issued instruction in its unit.
#[derive(Clone, Copy)]
struct Reservation {
    number: u64,
    instr: Instr,
    sources: u32,
    results: u32,
    /// For each source the reservation that is to write it, 0 where none was.
    producers: [(usize, u64); 4],
    is_read: bool,
}

/// A reference that waits for memory; no address is one out of range.
struct Reference {
    number: u64,
    load: Option<usize>,
    at: Option<usize>,
    word: u64,
}

struct Machine {
    state: State,
    units: [Option<Reservation>; 7],
    /// The reservation that is to write each register, 0 where none is.
    writers: [u64; 24],
    hopper: VecDeque<Reference>,
    last: u64,
    issues: u64,
    is_ended: bool,
}

/// A value under a lock, for which threads wait by one of the two ways.
struct Watched<T> {
    value: Mutex<T>,
    changed: Condvar,
    sleeps: bool,
}

impl<T> Watched<T> {
    fn new(value: T, sleeps: bool) -> Watched<T> {
        Watched { value: Mutex::new(value), changed: Condvar::new(), sleeps }
    }

    /// Tries until something is answered.
    fn until<Y>(&self, mut attempt: impl FnMut(&mut T) -> Option<Y>) -> Y {
        let mut guard: MutexGuard<'_, T> = self.value.lock().expect("no panic");
        loop {
            if let Some(answer) = attempt(&mut guard) {
                drop(guard);
                if self.sleeps {
                    self.changed.notify_all();
                }
                return answer;
            }
            guard = if self.sleeps {
                self.changed.wait(guard).expect("no panic")
            } else {
                drop(guard);
                std::thread::yield_now();
                self.value.lock().expect("no panic")
            };
        }
    }
}

/// A lane: at most two items, of which None is the last.
type Lane = Watched<VecDeque<Option<Reservation>>>;

fn send(lane: &Lane, item: Option<Reservation>) {
    lane.until(|items| (items.len() < 2).then(|| items.push_back(item)));
}

fn bit(register: usize) -> u32 {
    // B0 is no result and no source.
    if register == B { 0 } else { 1 << register }
}

fn sources(instr: &Instr) -> u32 {
    let Instr { op, i, j, k, .. } = *instr;
    let index = || match op & 7 {
        0 => bit(A + j),
        1 => bit(B + j),
        2 => bit(X + j),
        3 => bit(X + j) | bit(B + k),
        4 | 5 => bit(A + j) | bit(B + k),
        _ => bit(B + j) | bit(B + k),
    };
    match op {
        0o02 => bit(B + i),
        0o03 | 0o10 => bit(X + j),
        0o04..=0o07 => bit(B + i) | bit(B + j),
        0o14 | 0o47 => bit(X + k),
        0o11..=0o17 | 0o36 | 0o37 => bit(X + j) | bit(X + k),
        0o20 | 0o21 => bit(X + i),
        0o22 | 0o23 => bit(B + j) | bit(X + k),
        0o50..=0o57 if i > 5 => index() | bit(X + i),
        0o50..=0o77 => index(),
        _ => 0,
    }
}

fn results(instr: &Instr) -> u32 {
    let i = instr.i;
    match instr.op {
        0o01..=0o07 => 0,
        0o50..=0o57 if i > 0 && i < 6 => bit(A + i) | bit(X + i),
        0o50..=0o57 => bit(A + i),
        0o60..=0o67 => bit(B + i),
        _ => bit(X + i),
    }
}

fn is_reference(instr: &Instr) -> bool {
    instr.op == 0o01 || (instr.op >> 3 == 0o5 && instr.i > 0)
}

fn is_store(instr: &Instr) -> bool {
    instr.op == 0o01 || (instr.op >> 3 == 0o5 && instr.i > 5)
}

/// What a unit computes of its operands: a word, an address, or 1 where a branch is taken.
fn value(instr: &Instr, from: &State) -> u64 {
    let Instr { op, i, j, k, jk, address, .. } = *instr;
    let (x, b) = (&from.x, &from.b);
    let index = || from.index(op & 7, j, k, address);
    match op {
        0o02 => u64::from(add18(b[i], address)),
        0o03 => u64::from(from.x_holds(i, x[j])),
        0o04 => u64::from(b[i] == b[j]),
        0o05 => u64::from(b[i] != b[j]),
        0o06 => u64::from(order(b[i]) >= order(b[j])),
        0o07 => u64::from(order(b[i]) < order(b[j])),
        0o10 => x[j],
        0o11 => x[j] & x[k],
        0o12 => x[j] | x[k],
        0o13 => x[j] ^ x[k],
        0o14 => ONES60 - x[k],
        0o15 => x[j] & (ONES60 - x[k]),
        0o16 => x[j] | (ONES60 - x[k]),
        0o17 => x[j] ^ (ONES60 - x[k]),
        0o20 => rotate_left(x[i], jk),
        0o21 => shift_right(x[i], jk),
        0o22 => shift_nominal(b[j], x[k], true),
        0o23 => shift_nominal(b[j], x[k], false),
        0o36 => add60(x[j], x[k]),
        0o37 => add60(x[j], ONES60 - x[k]),
        0o43 => ONES60 - (ONES60 >> jk.min(60)),
        0o47 => u64::from(x[k].count_ones()),
        0o50..=0o67 => u64::from(index()),
        0o70..=0o77 => extended(index()),
        _ => 0,
    }
}

impl Machine {
    /// Whether an older reservation is still to read one of these registers.
    fn is_held(&self, number: u64, registers: u32) -> bool {
        let earlier = |unit: &Reservation| unit.number < number && !unit.is_read && unit.sources & registers != 0;
        self.units.iter().flatten().any(earlier)
    }

    fn is_drained(&self) -> bool {
        self.hopper.is_empty() && self.units.iter().all(Option::is_none)
    }

    fn written(&mut self, registers: u32) {
        for register in 0..24 {
            if registers >> register & 1 == 1 {
                self.writers[register] = 0;
            }
        }
    }

    /// The word that is held or fetched. None while a store is still to come.
    fn fetched(&mut self) -> Option<Option<u64>> {
        if let Some(word) = self.state.held {
            return Some(Some(word));
        }
        let to_come = |unit: &Reservation| is_store(&unit.instr);
        if self.units.iter().flatten().any(to_come) || self.hopper.iter().any(|waits| waits.load.is_none()) {
            return None;
        }
        Some(self.state.absolute(self.state.p).map(|at| self.state.memory[at]))
    }

    /// Issues, and answers the lane with the reservation. None while it may not be.
    fn issue(&mut self) -> Option<Option<(usize, Reservation)>> {
        if self.units[0].is_some() {
            return None;
        }
        let word = self.fetched()?;
        let Some(word) = word else {
            self.state.halt = Some(Halt::Fetch);
            self.issues += 1;
            return Some(None);
        };
        let parcel = (word >> (45 - 15 * self.state.parcel)) as u32 & 0o77777;
        let (op, field) = (parcel >> 9, |by: u32| (parcel >> by & 7) as usize);
        let parcels = PARCELS[op as usize];
        if op == 0 || parcels == 0 || (op == 0o01 && field(6) != 0) || (parcels == 2 && self.state.parcel == 3) {
            self.state.held = Some(word);
            self.state.halt = Some(if op == 0 {
                Halt::Stop
            } else if parcels == 2 && (op != 0o01 || field(6) == 0) {
                Halt::Straddle
            } else {
                Halt::Illegal(parcel)
            });
            self.issues += 1;
            return Some(None);
        }
        let address = if parcels == 2 { (word >> (30 - 15 * self.state.parcel)) as u32 & ONES18 } else { 0 };
        let next = (self.state.p + 1) & ONES18;
        let instr = Instr { op, i: field(6), j: field(3), k: field(0), jk: parcel & 0o77, address, next };
        let reserved = if op == 0o46 { None } else { Some(self.reserve(instr)?) };
        self.state.held = Some(word);
        self.state.parcel += parcels;
        if self.state.parcel == 4 {
            self.state.jump(next);
        }
        self.issues += 1;
        Some(reserved)
    }

    /// Reserves the unit and the results. None while one isn't free.
    fn reserve(&mut self, instr: Instr) -> Option<(usize, Reservation)> {
        let unit = match instr.op {
            0o01..=0o07 => 0,
            0o10..=0o17 => 1,
            0o20..=0o23 | 0o43 => 2,
            0o36 | 0o37 => 3,
            0o47 => 4,
            _ if self.units[5].is_none() => 5,
            _ => 6,
        };
        let (sources, results) = (sources(&instr), results(&instr));
        let reserved = |register: usize| results >> register & 1 == 1 && self.writers[register] != 0;
        if self.units[unit].is_some() || (0..24).any(reserved) {
            return None;
        }
        self.last += 1;
        let mut producers = [(0, 0); 4];
        let mut count = 0;
        for register in 0..24 {
            if sources >> register & 1 == 1 {
                producers[count] = (register, self.writers[register]);
                count += 1;
            }
        }
        for register in 0..24 {
            if results >> register & 1 == 1 {
                self.writers[register] = self.last;
            }
        }
        let reservation = Reservation { number: self.last, instr, sources, results, producers, is_read: false };
        self.units[unit] = Some(reservation);
        Some((unit, reservation))
    }

    /// The operands of a unit. None while one is awaited.
    fn read(&mut self, unit: usize) -> Option<State> {
        let reservation = self.units[unit].as_mut()?;
        if reservation.producers.iter().any(|(at, by)| *by != 0 && self.writers[*at] == *by) {
            return None;
        }
        reservation.is_read = true;
        let mut operands = State::boot(Vec::new());
        (operands.x, operands.a, operands.b) = (self.state.x, self.state.a, self.state.b);
        Some(operands)
    }

    /// Makes what the value leads to. None while it may not be. An X register that a store takes is `word`.
    fn store(&mut self, unit: usize, value: u64, word: u64) -> Option<()> {
        let Reservation { number, instr, results, .. } = self.units[unit]?;
        let Instr { op, i, address, next, .. } = instr;
        // The X register of a load is written when it returns.
        let now = if op >> 3 == 0o5 { results & 0o377 } else { results };
        let older = |other: &Reservation| other.number < number && is_reference(&other.instr);
        if self.is_held(number, now)
            || (is_reference(&instr) && (self.hopper.len() > 3 || self.units.iter().flatten().any(older)))
        {
            return None;
        }
        match op {
            0o01 => {
                self.refer(number, None, address, 0o0400 << 48 | u64::from(next) << 30);
                self.state.jump((address + 1) & ONES18);
            }
            0o02 => self.state.jump(value as u32),
            0o03..=0o07 => self.state.jump_if(value == 1, address),
            0o50..=0o57 => {
                self.state.a[i] = value as u32;
                if i > 0 {
                    self.refer(number, (i < 6).then_some(i), value as u32, word);
                }
            }
            0o60..=0o67 => self.state.set_b(i, value as u32),
            _ => self.state.x[i] = value,
        }
        self.written(now);
        self.units[unit] = None;
        Some(())
    }

    /// A reference enters the hopper, or is out of range.
    fn refer(&mut self, number: u64, load: Option<usize>, address: u32, word: u64) {
        let at = self.state.absolute(address);
        if at.is_none() {
            self.state.out_of_range();
        }
        if at.is_some() || load.is_some() {
            self.hopper.push_back(Reference { number, load, at, word });
        }
    }

    /// Takes the oldest reference through memory. False at the run's end, None while there is none that may be.
    fn refer_next(&mut self) -> Option<bool> {
        let Some(first) = self.hopper.front() else {
            return self.is_ended.then_some(false);
        };
        let (number, load, at, word) = (first.number, first.load, first.at, first.word);
        match (load, at) {
            (Some(i), _) => {
                if self.is_held(number, bit(X + i)) {
                    return None;
                }
                self.state.x[i] = at.map_or(0, |at| self.state.memory[at]);
                self.written(bit(X + i));
            }
            (None, Some(at)) => self.state.memory[at] = word,
            (None, None) => {}
        }
        self.hopper.pop_front();
        Some(true)
    }
}

/// Serves a lane to its end.
fn work(machine: &Watched<Machine>, lane: &Lane, unit: usize) {
    while let Some(reservation) = lane.until(VecDeque::pop_front) {
        let instr = reservation.instr;
        let operands = machine.until(|machine| machine.read(unit));
        let value = value(&instr, &operands);
        machine.until(|machine| machine.store(unit, value, operands.x[instr.i]));
    }
}

/// Issues to the end.
fn conduct(machine: &Watched<Machine>, lanes: &[Lane; 7], budget: u64) {
    loop {
        let issued = machine.until(|machine| {
            if machine.state.halt.is_some() || machine.state.fault || machine.issues == budget {
                return machine.is_drained().then_some(None);
            }
            machine.issue().map(Some)
        });
        match issued {
            None => break,
            Some(None) => {}
            Some(Some((unit, reservation))) => send(&lanes[unit], Some(reservation)),
        }
    }
    machine.until(|machine| Some(machine.is_ended = true));
    lanes.iter().for_each(|lane| send(lane, None));
}

fn main() {
    let sleeps = match std::env::args().nth(1).as_deref() {
        Some("yield") => false,
        Some("sleep") => true,
        _ => panic!("yield or sleep"),
    };
    let budget = std::env::args().nth(2).and_then(|budget| budget.parse().ok()).expect("a budget");
    let mut text = String::new();
    std::io::stdin().read_to_string(&mut text).expect("a deck");
    let (memory, shows) = deck(&text);
    let start = text.lines().find_map(|line| line.strip_prefix("start ")).map(octal).expect("a start");
    let mut state = State::boot(memory);
    state.exchange(start as usize);
    let machine = Machine {
        state,
        units: [None; 7],
        writers: [0; 24],
        hopper: VecDeque::new(),
        last: 0,
        issues: 0,
        is_ended: false,
    };
    let machine = Watched::new(machine, sleeps);
    let lanes: [Lane; 7] = std::array::from_fn(|_| Watched::new(VecDeque::new(), sleeps));
    std::thread::scope(|scope| {
        for (unit, lane) in lanes.iter().enumerate() {
            let machine = &machine;
            scope.spawn(move || work(machine, lane, unit));
        }
        scope.spawn(|| while machine.until(Machine::refer_next) {});
        conduct(&machine, &lanes, budget);
    });
    let machine = machine.value.into_inner().expect("no panic");
    let log = if machine.issues > 0 { format!("E{start:o} I{}", machine.issues) } else { format!("E{start:o}") };
    print!("{}", machine.state.dump(&shows, &log));
}
