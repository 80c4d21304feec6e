//! Seeded runs of commands. The same seed, number and mode make the same run.

// `generate` and `compare` each use a part of it
#![allow(dead_code)]

#[derive(Clone, Copy, PartialEq, Eq)]
pub enum Mode {
    Accounts,
    Seats,
}

impl Mode {
    pub fn of(word: &str) -> Option<Mode> {
        match word {
            "accounts" => Some(Mode::Accounts),
            "seats" => Some(Mode::Seats),
            _ => None,
        }
    }

    pub fn word(self) -> &'static str {
        match self {
            Mode::Accounts => "accounts",
            Mode::Seats => "seats",
        }
    }
}

/// The most changing commands of a run, where nothing else is said.
pub const LONGEST: u64 = 30;

/// Lines that are passed over, not understood, or written oddly, parted by `;`. K is a key of the run.
const ODD: &str = "; \t\r ;#;# list; # list;ADD K K 1;added K K 1;add;add K;add K K;add K x;add x;add K K x;\
    add K K 4294967296;add K K 4294967296x;add K K 1 2;add K K -1;add K K 00000000000000000007;\
    \tadd  K K\t8 \r;node;node K K;node 0K;node 7x;node 1-1;node 1-1-1-1;node 1--1;node -1-1-1;\
    node 256-0-0;node 0-256-0;node 0-0-65536;node 4294967296;node 99999999999999999999999;\
    node 1-99999999999999999999999-1;set K K;set K K 1 1;remove K;remove K K K;drop;drop K K;clear 1;\
    list K;nodes K;row;row K 0;neighbors;neighbors K up;neighbors K out in;neighbors K in\r;edges;\
    edges K IN;edges K in in;edges K x y;price K;price 00K 00K;price K K K;degree;degree K K;counts 0;\
    directed 5;undirected x 5;directed 5 5 5;undirected 4294967296;extend K K 1 K;\
    extend K K 1 K K 2x 4294967296";

/// SplitMix64.
struct Dice(u64);

impl Dice {
    fn next(&mut self) -> u64 {
        self.0 = self.0.wrapping_add(0x9E37_79B9_7F4A_7C15);
        let mut z = self.0;
        z = (z ^ (z >> 30)).wrapping_mul(0xBF58_476D_1CE4_E5B9);
        z = (z ^ (z >> 27)).wrapping_mul(0x94D0_49BB_1331_11EB);
        z ^ (z >> 31)
    }

    /// A number below n.
    fn below(&mut self, n: u64) -> u64 {
        self.next() % n
    }

    fn one_of<T: Copy>(&mut self, items: &[T]) -> T {
        items[self.below(items.len() as u64) as usize]
    }
}

struct Run {
    dice: Dice,
    keys: Vec<String>,
    /// the ends of the links that were added so far, some of which may have left
    added: Vec<(String, String)>,
    commands: Vec<String>,
}

/// One run: a new map, then changing commands with a full dump after each.
pub fn run(seed: u64, number: u64, mode: Mode, longest: u64) -> Vec<String> {
    let salt = match mode {
        Mode::Accounts => 1,
        Mode::Seats => 2,
    };
    let mut dice = Dice(seed);
    dice.0 = dice.next() ^ number.wrapping_mul(0x2545_F491_4F6C_DD1D) ^ (salt << 62);
    let count = 2 + dice.below(5).max(dice.below(5));
    let keys = match mode {
        Mode::Accounts => accounts(&mut dice, count as usize),
        Mode::Seats => seats(&mut dice, count as usize),
    };
    let mut run = Run {
        dice,
        keys,
        added: Vec::new(),
        commands: Vec::new(),
    };
    run.new_map();
    let changes = 1 + run.dice.below(longest);
    let way = run.dice.below(3);
    for index in 0..changes {
        let weights = match way {
            0 => [40, 16, 6, 8, 20, 9, 1],
            1 => [30, 30, 2, 4, 22, 12, 0],
            _ if index * 2 < changes => [55, 35, 4, 3, 2, 1, 0],
            _ => [10, 2, 3, 10, 50, 24, 1],
        };
        if run.dice.below(12) == 0 {
            run.odd();
        }
        run.change(weights);
        run.dump();
    }
    run.commands
}

fn accounts(dice: &mut Dice, count: usize) -> Vec<String> {
    let mut keys = Vec::new();
    while keys.len() < count {
        let key = match dice.below(10) {
            0 => dice.one_of(&[0, u64::from(u32::MAX)]),
            1 => dice.below(1 << 32),
            _ => dice.below(12),
        };
        push_new(&mut keys, key.to_string());
    }
    keys
}

/// The first has the smaller section and the larger row than the second.
/// A third one differs from the second, at times, in its number or its section only.
fn seats(dice: &mut Dice, count: usize) -> Vec<String> {
    let small = [0, 1, 2, 3, 9];
    let (section, row) = (dice.one_of(&small), dice.one_of(&small));
    let number = dice.one_of(&small);
    let later_row = row + 1 + dice.below(9);
    let later_section = section + 1 + dice.below(9);
    let mut keys = vec![
        format!("{section}-{later_row}-{}", dice.one_of(&small)),
        format!("{later_section}-{row}-{number}"),
    ];
    if count > 2 {
        match dice.below(4) {
            0 | 1 => push_new(&mut keys, format!("{later_section}-{row}-{}", number + 1)),
            2 => push_new(&mut keys, format!("{}-{row}-0", later_section + 1)),
            _ => {}
        }
    }
    while keys.len() < count {
        let section = dice.one_of(&[0, 1, 2, 3, 9, 255]);
        let row = dice.one_of(&[0, 1, 2, 3, 9, 255]);
        let number = dice.one_of(&[0, 1, 2, 300, 65535]);
        push_new(&mut keys, format!("{section}-{row}-{number}"));
    }
    keys
}

fn push_new(keys: &mut Vec<String>, key: String) {
    if !keys.contains(&key) {
        keys.push(key);
    }
}

impl Run {
    fn say(&mut self, command: String) {
        self.commands.push(command);
    }

    fn key(&mut self) -> String {
        let index = self.dice.below(self.keys.len() as u64);
        self.keys[index as usize].clone()
    }

    fn price(&mut self) -> u64 {
        match self.dice.below(8) {
            0 => self.dice.one_of(&[0, 1, u64::from(u32::MAX)]),
            _ => 1 + self.dice.below(999),
        }
    }

    /// A link to be added: its two ends and its price.
    fn item(&mut self) -> String {
        let (from, to) = (self.key(), self.key());
        self.added.push((from.clone(), to.clone()));
        format!("{from} {to} {}", self.price())
    }

    /// Two ends: those of a link that was added, in one order or the other, or any two.
    fn ends(&mut self) -> String {
        let (from, to) = match (self.added.len() as u64, self.dice.below(3)) {
            (0, _) | (_, 0) => (self.key(), self.key()),
            (count, way) => {
                let (from, to) = self.added[self.dice.below(count) as usize].clone();
                if way == 1 {
                    (from, to)
                } else {
                    (to, from)
                }
            }
        };
        format!("{from} {to}")
    }

    /// A capacity for as many as may be wanted: often too small, at times 0.
    fn capacity(&mut self, wanted: u64) -> u64 {
        if self.dice.below(16) == 0 {
            return 0;
        }
        let (one, other) = (self.dice.below(wanted + 1), self.dice.below(wanted + 1));
        1 + one.max(other)
    }

    /// A new map: with no capacities told, with large ones, with enough for all links,
    /// with too few of each, or with some capacities.
    fn new_map(&mut self) {
        let kind = self.dice.one_of(&["directed", "undirected"]);
        let keys = self.keys.len() as u64;
        let large = [1_000, 65_535, 65_536, u64::from(u32::MAX)];
        let (nodes, links) = match self.dice.below(10) {
            0 => return self.say(kind.to_string()),
            1 => (self.dice.one_of(&large), self.dice.one_of(&large)),
            2..=5 => (keys + self.dice.below(3), keys * keys + self.dice.below(3)),
            6..=7 => (1 + self.dice.below(keys - 1), self.dice.below(keys)),
            _ => (self.capacity(keys), self.capacity(2 * keys)),
        };
        self.say(format!("{kind} {nodes} {links}"));
    }

    /// One changing command; the weights are those of add, extend, node, set, remove, drop and clear.
    fn change(&mut self, weights: [u64; 7]) {
        let mut drawn = self.dice.below(weights.iter().sum());
        let mut which = 0;
        while drawn >= weights[which] {
            drawn -= weights[which];
            which += 1;
        }
        let command = match which {
            0 => format!("add {}", self.item()),
            1 => {
                let count = self.dice.below(7);
                let items = (0..count).map(|_| format!(" {}", self.item()));
                format!("extend{}", items.collect::<String>())
            }
            2 => format!("node {}", self.key()),
            3 => format!("set {} {}", self.ends(), self.price()),
            4 => format!("remove {}", self.ends()),
            5 => format!("drop {}", self.key()),
            _ => "clear".to_string(),
        };
        self.say(command);
    }

    fn odd(&mut self) {
        let lines: Vec<&str> = ODD.split(';').collect();
        let (line, key) = (self.dice.one_of(&lines), self.key());
        self.say(line.replace('K', &key));
    }

    fn dump(&mut self) {
        for question in ["counts", "nodes", "list"] {
            self.say(question.to_string());
        }
        for key in self.keys.clone() {
            let edges_out = self.dice.one_of(&["edges K", "edges K out"]);
            let questions = [
                "row K",
                "neighbors K",
                "neighbors K out",
                "neighbors K in",
                edges_out,
                "edges K in",
                "degree K",
            ];
            for question in questions {
                self.say(question.replace('K', &key));
            }
        }
        for from in self.keys.clone() {
            for to in self.keys.clone() {
                self.say(format!("price {from} {to}"));
            }
        }
    }
}
