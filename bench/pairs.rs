// The plain Rust program that `bench/joined` measures against: it reads the same table, judges the same pairs in the same
// loop shape, and prints the same lines. It proves nothing, and takes its table for a good one.
use std::io::Read;

enum Part {
    Linear { lowest: u32, step: u32, count: u16 },
    Listed { levels: Vec<u32> },
    Divider { parent: u32, count: u16 },
    Tree { divisors: u16, parents: Vec<u32> },
}

impl Part {
    fn count(&self) -> u16 {
        match self {
            Part::Linear { count, .. } => *count,
            Part::Listed { levels } => levels.len() as u16,
            Part::Divider { count, .. } => *count,
            Part::Tree { divisors, parents } => parents.len() as u16 * divisors,
        }
    }

    fn level(&self, code: u16) -> u32 {
        match self {
            Part::Linear { lowest, step, .. } => lowest + u32::from(code) * step,
            Part::Listed { levels } => levels[usize::from(code)],
            Part::Divider { parent, .. } => parent.div_ceil(u32::from(code) + 1),
            Part::Tree { divisors, parents } => {
                parents[usize::from(code / divisors)].div_ceil(u32::from(code % divisors) + 1)
            }
        }
    }

    fn linked(&self, from: u16, to: u16) -> bool {
        match self {
            Part::Tree { divisors, .. } => {
                from != to && (from / divisors == to / divisors || from % divisors == to % divisors)
            }
            _ => from != to,
        }
    }
}

enum Rule {
    Window { rail: u8, floor: u32, ceiling: u32 },
    Spread { rail: u8, other: u8, most: u32 },
    Step { rail: u8, most: u32 },
    Need { clock: u8, above: u32, rail: u8, least: u32 },
    Cap { clock: u8, most: u32 },
}

struct Board {
    parts: Vec<Part>,
    rules: Vec<Rule>,
    states: usize,
}

impl Board {
    fn read(table: &[u8]) -> Board {
        let word = |b: &[u8], i: usize| u32::from_le_bytes([b[i], b[i + 1], b[i + 2], b[i + 3]]);
        let words = |b: &[u8]| (0..b.len() / 4).map(|i| word(b, 4 * i)).collect::<Vec<u32>>();
        let (mut parts, mut rules) = (Vec::new(), Vec::new());
        let mut at = 0;
        while at < table.len() {
            let length = usize::from(u16::from_le_bytes([table[at], table[at + 1]]));
            let b = &table[at + 4..at + 2 + length];
            match table[at + 2] {
                1 => parts.push(Part::Linear { lowest: word(b, 0), step: word(b, 4), count: u16::from(b[8]) }),
                2 => parts.push(Part::Listed { levels: words(b) }),
                3 => parts.push(Part::Divider { parent: word(b, 0), count: u16::from(b[4]) }),
                4 => parts.push(Part::Tree { divisors: u16::from(b[0]), parents: words(&b[1..]) }),
                5 => rules.push(Rule::Window { rail: b[0], floor: word(b, 1), ceiling: word(b, 5) }),
                6 => rules.push(Rule::Spread { rail: b[0], other: b[1], most: word(b, 2) }),
                7 => rules.push(Rule::Step { rail: b[0], most: word(b, 1) }),
                8 => rules.push(Rule::Need { clock: b[0], above: word(b, 1), rail: b[5], least: word(b, 6) }),
                _ => rules.push(Rule::Cap { clock: b[0], most: word(b, 1) }),
            }
            at += 2 + length;
        }
        let states = parts.iter().map(|p| usize::from(p.count())).product();
        Board { parts, rules, states }
    }

    fn code_at(&self, state: u16, part: u8) -> u16 {
        let mut rest = state;
        for before in 0..usize::from(part) {
            rest /= self.parts[before].count();
        }
        rest % self.parts[usize::from(part)].count()
    }

    fn level_at(&self, state: u16, part: u8) -> u32 {
        self.parts[usize::from(part)].level(self.code_at(state, part))
    }

    fn holds(&self, state: u16, rule: &Rule) -> bool {
        match rule {
            Rule::Window { rail, floor, ceiling } => {
                let level = self.level_at(state, *rail);
                *floor <= level && level <= *ceiling
            }
            Rule::Spread { rail, other, most } => {
                self.level_at(state, *rail).abs_diff(self.level_at(state, *other)) <= *most
            }
            Rule::Step { .. } => true,
            Rule::Need { clock, above, rail, least } => {
                *above >= self.level_at(state, *clock) || *least <= self.level_at(state, *rail)
            }
            Rule::Cap { clock, most } => self.level_at(state, *clock) <= *most,
        }
    }

    fn lawful(&self, state: u16) -> bool {
        usize::from(state) < self.states && self.rules.iter().all(|rule| self.holds(state, rule))
    }

    fn changed(&self, from: u16, to: u16) -> Option<u8> {
        let (mut a, mut b, mut changed) = (from, to, None);
        for (part, device) in self.parts.iter().enumerate() {
            let count = device.count();
            if a % count != b % count {
                if changed.is_some() {
                    return None;
                }
                changed = Some(part as u8);
            }
            a /= count;
            b /= count;
        }
        changed
    }

    fn allows(&self, from: u16, to: u16, part: u8, rule: &Rule) -> bool {
        match rule {
            Rule::Step { rail, most } if *rail == part => {
                self.level_at(from, part).abs_diff(self.level_at(to, part)) <= *most
            }
            _ => true,
        }
    }

    fn joined(&self, from: u16, to: u16) -> bool {
        let Some(part) = self.changed(from, to) else {
            return false;
        };
        self.parts[usize::from(part)].linked(self.code_at(from, part), self.code_at(to, part))
            && self.rules.iter().all(|rule| self.allows(from, to, part, rule))
            && self.lawful(from)
            && self.lawful(to)
    }
}

fn main() {
    let mut table = Vec::new();
    std::io::stdin().read_to_end(&mut table).unwrap();
    let board = Board::read(&table);
    println!("states {}", board.states);
    println!("lawful {}", (0..board.states).filter(|s| board.lawful(*s as u16)).count());
    let mut pairs = 0usize;
    for from in 0..board.states {
        for to in 0..board.states {
            if board.joined(from as u16, to as u16) {
                pairs += 1;
            }
        }
    }
    println!("joined {pairs}");
}
