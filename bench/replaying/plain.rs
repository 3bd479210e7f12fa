//! A plain interpreter of the same machine, to be timed and compared with: one match on the opcode, each arm
//! making its change. Nothing in it is proved, and it carries out the branches and the references to memory too.
//!
//! `plain LOG` reads a deck of `core`, `at`, `word`, `start`, `show` and `end` lines on standard input, goes
//! through the log and prints the dump, as `cdc6600 replay LOG` does. It takes deck and log to be right, and
//! panics where they aren't. bench/running takes its parts; tools/check emulators compares it as an emulator, and
//! copies of it with the faults of tests/planted_faults.txt and tests/planting.py.

use std::fmt::Write;
use std::io::Read;

pub const ONES60: u64 = (1 << 60) - 1;
pub const ONES18: u32 = (1 << 18) - 1;

/// How many parcels an instruction has by its opcode's two digits; 0 where the opcode is refused.
pub const PARCELS: [u32; 64] = [
    1, 2, 2, 2, 2, 2, 2, 2, // 00 to 07
    1, 1, 1, 1, 1, 1, 1, 1, // 10 to 17
    1, 1, 1, 1, 0, 0, 0, 0, // 20 to 27
    0, 0, 0, 0, 0, 0, 1, 1, // 30 to 37
    0, 0, 0, 1, 0, 0, 1, 1, // 40 to 47
    2, 2, 2, 1, 1, 1, 1, 1, // 50 to 57
    2, 2, 2, 1, 1, 1, 1, 1, // 60 to 67
    2, 2, 2, 1, 1, 1, 1, 1, // 70 to 77
];

pub enum Halt {
    Stop,
    Illegal(u32),
    Straddle,
    Fetch,
}

pub struct State {
    pub x: [u64; 8],
    pub a: [u32; 8],
    pub b: [u32; 8],
    pub memory: Vec<u64>,
    pub p: u32,
    pub parcel: u32,
    pub held: Option<u64>,
    pub ra: u32,
    pub fl: u32,
    pub mode: u32,
    pub halt: Option<Halt>,
    pub fault: bool,
}

pub fn add60(left: u64, right: u64) -> u64 {
    let total = left + right;
    (total + ((total + 1) >> 60)) & ONES60
}

pub fn add18(left: u32, right: u32) -> u32 {
    let total = left + right;
    (total + ((total + 1) >> 18)) & ONES18
}

pub fn rotate_left(x: u64, count: u32) -> u64 {
    let by = count % 60;
    ((x << by) & ONES60) | (x >> (60 - by))
}

pub fn shift_right(x: u64, count: u32) -> u64 {
    let by = count.min(59);
    if x >> 59 == 0 { x >> by } else { (ONES60 - (ONES60 >> by)) | (x >> by) }
}

pub fn shift_nominal(b: u32, x: u64, left: bool) -> u64 {
    let negative = b >> 17 == 1;
    let magnitude = if negative { ONES18 - b } else { b };
    if left != negative {
        rotate_left(x, magnitude % 64)
    } else if magnitude > 63 {
        0
    } else {
        shift_right(x, magnitude)
    }
}

pub fn low18(x: u64) -> u32 {
    x as u32 & ONES18
}

pub fn extended(index: u32) -> u64 {
    let sign = if index >> 17 == 1 { ONES60 - u64::from(ONES18) } else { 0 };
    sign | u64::from(index)
}

/// The order of two B registers: -0 comes before +0.
pub fn order(b: u32) -> u32 {
    b ^ 0o400000
}

impl State {
    pub fn boot(memory: Vec<u64>) -> State {
        State {
            x: [0; 8],
            a: [0; 8],
            b: [0; 8],
            memory,
            p: 0,
            parcel: 0,
            held: None,
            ra: 0,
            fl: 0,
            mode: 0,
            halt: Some(Halt::Stop),
            fault: false,
        }
    }

    pub fn absolute(&self, address: u32) -> Option<usize> {
        let at = (self.ra + address) as usize;
        if address < self.fl && at < self.memory.len() { Some(at) } else { None }
    }

    pub fn out_of_range(&mut self) {
        if self.mode >> 12 & 1 == 1 {
            self.fault = true;
        }
    }

    pub fn store(&mut self, address: u32, word: u64) {
        match self.absolute(address) {
            Some(at) => self.memory[at] = word,
            None => self.out_of_range(),
        }
    }

    pub fn load(&mut self, address: u32) -> u64 {
        match self.absolute(address) {
            Some(at) => self.memory[at],
            None => {
                self.out_of_range();
                0
            }
        }
    }

    pub fn set_a(&mut self, i: usize, address: u32) {
        self.a[i] = address;
        match i {
            0 => {}
            1..=5 => self.x[i] = self.load(address),
            _ => self.store(address, self.x[i]),
        }
    }

    pub fn set_b(&mut self, i: usize, value: u32) {
        if i != 0 {
            self.b[i] = value;
        }
    }

    pub fn jump(&mut self, to: u32) {
        self.p = to;
        self.parcel = 0;
        self.held = None;
    }

    pub fn jump_if(&mut self, taken: bool, to: u32) {
        if taken {
            self.jump(to);
        }
    }

    pub fn x_holds(&self, test: usize, x: u64) -> bool {
        let upper = x >> 48;
        match test {
            0 => x == 0 || x == ONES60,
            1 => x != 0 && x != ONES60,
            2 => x >> 59 == 0,
            3 => x >> 59 == 1,
            4 => upper != 0o3777 && upper != 0o4000,
            5 => upper == 0o3777 || upper == 0o4000,
            6 => upper != 0o1777 && upper != 0o6000,
            _ => upper == 0o1777 || upper == 0o6000,
        }
    }

    /// What SA, SB and SX set their register to, by the opcode's second digit.
    pub fn index(&self, m: u32, j: usize, k: usize, address: u32) -> u32 {
        match m {
            0 => add18(self.a[j], address),
            1 => add18(self.b[j], address),
            2 => add18(low18(self.x[j]), address),
            3 => add18(low18(self.x[j]), self.b[k]),
            4 => add18(self.a[j], self.b[k]),
            5 => add18(self.a[j], ONES18 - self.b[k]),
            6 => add18(self.b[j], self.b[k]),
            _ => add18(self.b[j], ONES18 - self.b[k]),
        }
    }

    pub fn step(&mut self) {
        let word = match self.held {
            Some(word) => word,
            None => match self.absolute(self.p) {
                Some(at) => self.memory[at],
                None => {
                    self.halt = Some(Halt::Fetch);
                    return;
                }
            },
        };
        self.held = Some(word);
        let parcel = (word >> (45 - 15 * self.parcel)) as u32 & 0o77777;
        let op = parcel >> 9;
        let i = (parcel >> 6 & 7) as usize;
        let j = (parcel >> 3 & 7) as usize;
        let k = (parcel & 7) as usize;
        let jk = parcel & 0o77;
        let parcels = PARCELS[op as usize];
        if parcels == 0 || (op == 0o01 && i != 0) {
            self.halt = Some(Halt::Illegal(parcel));
            return;
        }
        if op == 0o00 {
            self.halt = Some(Halt::Stop);
            return;
        }
        let mut address = 0;
        if parcels == 2 {
            if self.parcel == 3 {
                self.halt = Some(Halt::Straddle);
                return;
            }
            address = (word >> (30 - 15 * self.parcel)) as u32 & ONES18;
        }
        let next = (self.p + 1) & ONES18;
        self.parcel += parcels;
        if self.parcel == 4 {
            self.jump(next);
        }
        match op {
            0o01 => {
                self.store(address, 0o0400 << 48 | u64::from(next) << 30);
                self.jump((address + 1) & ONES18);
            }
            0o02 => self.jump(add18(self.b[i], address)),
            0o03 => self.jump_if(self.x_holds(i, self.x[j]), address),
            0o04 => self.jump_if(self.b[i] == self.b[j], address),
            0o05 => self.jump_if(self.b[i] != self.b[j], address),
            0o06 => self.jump_if(order(self.b[i]) >= order(self.b[j]), address),
            0o07 => self.jump_if(order(self.b[i]) < order(self.b[j]), address),
            0o10 => self.x[i] = self.x[j],
            0o11 => self.x[i] = self.x[j] & self.x[k],
            0o12 => self.x[i] = self.x[j] | self.x[k],
            0o13 => self.x[i] = self.x[j] ^ self.x[k],
            0o14 => self.x[i] = ONES60 - self.x[k],
            0o15 => self.x[i] = self.x[j] & (ONES60 - self.x[k]),
            0o16 => self.x[i] = self.x[j] | (ONES60 - self.x[k]),
            0o17 => self.x[i] = self.x[j] ^ (ONES60 - self.x[k]),
            0o20 => self.x[i] = rotate_left(self.x[i], jk),
            0o21 => self.x[i] = shift_right(self.x[i], jk),
            0o22 => self.x[i] = shift_nominal(self.b[j], self.x[k], true),
            0o23 => self.x[i] = shift_nominal(self.b[j], self.x[k], false),
            0o36 => self.x[i] = add60(self.x[j], self.x[k]),
            0o37 => self.x[i] = add60(self.x[j], ONES60 - self.x[k]),
            0o43 => self.x[i] = ONES60 - (ONES60 >> jk.min(60)),
            0o46 => {}
            0o47 => self.x[i] = u64::from(self.x[k].count_ones()),
            0o50..=0o57 => self.set_a(i, self.index(op & 7, j, k, address)),
            0o60..=0o67 => self.set_b(i, self.index(op & 7, j, k, address)),
            _ => self.x[i] = extended(self.index(op & 7, j, k, address)),
        }
    }

    pub fn issue_many(&mut self, count: u64) {
        for _ in 0..count {
            if self.halt.is_some() {
                return;
            }
            self.step();
        }
    }

    /// The registers and the sixteen words at an address change places.
    pub fn exchange(&mut self, at: usize) {
        let status = u32::from(self.halt.is_some()) + 2 * u32::from(self.fault);
        let upper = [self.p, self.ra, self.fl, self.mode, 0, 0, 0, status];
        let incoming = self.memory[at..at + 16].to_vec();
        for n in 0..8 {
            let (upper, a, b) = (u64::from(upper[n]), u64::from(self.a[n]), u64::from(self.b[n]));
            self.memory[at + n] = upper << 36 | a << 18 | b;
            self.memory[at + 8 + n] = self.x[n];
        }
        let upper = |n: usize| low18(incoming[n] >> 36);
        self.jump(upper(0));
        (self.ra, self.fl, self.mode) = (upper(1), upper(2), upper(3));
        for n in 0..8 {
            self.a[n] = low18(incoming[n] >> 18);
            self.set_b(n, low18(incoming[n]));
            self.x[n] = incoming[8 + n];
        }
        (self.halt, self.fault) = (None, false);
    }

    pub fn replay(&mut self, log: &str) {
        for entry in log.split(' ').filter(|entry| *entry != "none") {
            match entry.split_at(1) {
                ("E", at) => self.exchange(octal(at) as usize),
                ("I", count) => self.issue_many(count.parse().expect("decimal digits")),
                ("R", _) => {} // A peripheral processor's read changes nothing here.
                ("W", access) => {
                    let (at, word) = access.split_once('=').expect("an address and a word");
                    self.memory[octal(at) as usize] = octal(word);
                }
                _ => panic!("an entry {entry}"),
            }
        }
    }

    pub fn dump(&self, shows: &[(usize, usize)], log: &str) -> String {
        let held = self.held.map_or(String::from("none"), |word| format!("{word:020o}"));
        let halt = match self.halt {
            None => String::from("running"),
            Some(Halt::Stop) => String::from("stop"),
            Some(Halt::Illegal(parcel)) if parcel >> 9 == 0o01 => format!("illegal {:03o}", parcel >> 6),
            Some(Halt::Illegal(parcel)) => format!("illegal {:02o}", parcel >> 9),
            Some(Halt::Straddle) => String::from("straddle"),
            Some(Halt::Fetch) => String::from("fetch"),
        };
        let fault = if self.fault { "address" } else { "none" };
        let indexes = |all: &[u32; 8]| all.map(|index| format!(" {index:06o}")).concat();
        let mut text = format!("P {:06o} PARCEL {} HELD {held}\n", self.p, self.parcel);
        text += &format!("HALT {halt} FAULT {fault}\n");
        text += &format!("RA {:06o} FL {:06o} EM {:06o}\n", self.ra, self.fl, self.mode);
        text += &format!("A{}\nB{}\n", indexes(&self.a), indexes(&self.b));
        for (n, x) in self.x.iter().enumerate() {
            text += &format!("X{n} {x:020o}\n");
        }
        for at in shows.iter().flat_map(|(first, last)| *first..=*last) {
            writeln!(text, "M {at:06o} {:020o}", self.memory[at]).expect("a string");
        }
        text + &format!("LOG {log}\n")
    }
}

pub fn octal(digits: &str) -> u64 {
    u64::from_str_radix(digits, 8).expect("octal digits")
}

/// The memory, and the first and last address of each `show` line.
pub fn deck(text: &str) -> (Vec<u64>, Vec<(usize, usize)>) {
    let (mut memory, mut place, mut shows) = (Vec::new(), 0, Vec::new());
    for line in text.lines() {
        let (name, rest) = line.split_once(' ').unwrap_or((line, ""));
        match name {
            "core" => memory = vec![0; rest.parse().expect("decimal digits")],
            "at" => place = octal(rest) as usize,
            "word" => {
                memory[place] = octal(rest);
                place += 1;
            }
            "start" => {}
            "show" => {
                let (first, last) = rest.split_once(' ').expect("two addresses");
                shows.push((octal(first) as usize, octal(last) as usize));
            }
            "end" => break,
            _ => panic!("a line {line}"),
        }
    }
    (memory, shows)
}

fn main() {
    let log = std::env::args().nth(1).expect("a log");
    let mut text = String::new();
    std::io::stdin().read_to_string(&mut text).expect("a deck");
    let (memory, shows) = deck(&text);
    let mut state = State::boot(memory);
    state.replay(&log);
    print!("{}", state.dump(&shows, &log));
}
