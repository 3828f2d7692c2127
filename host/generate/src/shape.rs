//! Shapes, and of each its words, whole tables, broken cards and what they send.

use crate::Random;
use second::beat::beat;
use second::count::NONE;
use second::params;
use second::split;

/// n, f and c within the limits.
#[derive(Clone, Copy, Debug, PartialEq, Eq)]
pub struct Shape {
    pub n: u32,
    pub f: u32,
    pub c: u32,
}

impl Shape {
    /// Every f is equally likely, so that groups are often nested deeply.
    pub fn random(random: &mut Random) -> Shape {
        let f = random.between(0, params::MOST_BROKEN);
        let n = random.between(3 * f + 1, params::MOST_CARDS);
        let c = modulus(random);
        Shape { n, f, c }
    }

    /// Every allowed n and f, each with a random c.
    pub fn each(random: &mut Random) -> Vec<Shape> {
        let mut shapes = Vec::new();
        for n in 1..=params::MOST_CARDS {
            for f in (0..=params::MOST_BROKEN).filter(|f| 3 * f < n) {
                let c = modulus(random);
                shapes.push(Shape { n, f, c });
            }
        }
        shapes
    }

    /// W, the words in a record.
    pub fn words(&self) -> usize {
        params::words(self.f as usize)
    }

    /// The words in n records.
    pub fn table_words(&self) -> usize {
        self.n as usize * self.words()
    }

    /// A number at which the reading of a word changes: c, or c0, c1 or 2·c1 of some depth.
    fn turning_point(&self, random: &mut Random) -> u16 {
        let depth = random.between(0, self.f) as usize;
        if depth == 0 {
            self.c as u16
        } else {
            let (c0, c1) = (params::c0(depth), params::c1(depth));
            random.pick(&[c0, c1, params::restart(depth)])
        }
    }

    /// Any word, but mostly one in range, or near where the reading changes.
    pub fn word(&self, random: &mut Random) -> u16 {
        let turn = self.turning_point(random);
        match random.below(6) {
            0 => random.word(),
            1 => NONE,
            2 => random.below(4) as u16,
            3 => turn.wrapping_add(random.below(5) as u16).wrapping_sub(2),
            _ => random.below(usize::from(turn)) as u16,
        }
    }

    fn any_words(&self, random: &mut Random, count: usize) -> Vec<u16> {
        (0..count).map(|_| self.word(random)).collect()
    }

    /// One record of any words.
    pub fn record(&self, random: &mut Random) -> Vec<u16> {
        self.any_words(random, self.words())
    }

    /// n records: of any words, nearly alike, or as beats leave them.
    pub fn table(&self, random: &mut Random) -> Vec<u16> {
        match random.below(3) {
            0 => self.any_words(random, self.table_words()),
            1 => self.table_nearly_alike(random),
            _ => self.table_from_run(random),
        }
    }

    /// The same record for all cards but for a word here and there, so that votes succeed.
    fn table_nearly_alike(&self, random: &mut Random) -> Vec<u16> {
        let mut table = self.record(random).repeat(self.n as usize);
        for word in &mut table {
            if random.one_in(12) {
                *word = self.word(random);
            }
        }
        table
    }

    /// What some beats make of a random start. The cooldowns are shortened half way, or
    /// pointers would hardly ever be followed.
    fn table_from_run(&self, random: &mut Random) -> Vec<u16> {
        let broken = self.broken_set(random);
        let mut table = self.table_nearly_alike(random);
        self.run(random, broken, &mut table);
        for (place, word) in table.iter_mut().enumerate() {
            let in_level = place % self.words() % split::WORDS;
            if in_level == split::W || in_level == split::W + 1 {
                *word = random.below(5) as u16;
            }
        }
        self.run(random, broken, &mut table);
        table
    }

    /// Up to seven beats.
    fn run(&self, random: &mut Random, broken: u32, table: &mut Vec<u16>) {
        for _ in 0..random.below(8) {
            let sent = self.sent(random, broken, table);
            *table = self.after_beat(broken, table, &sent);
        }
    }

    /// The table after one beat with these words from the broken cards.
    pub fn after_beat(&self, broken: u32, table: &[u16], sent: &[u16]) -> Vec<u16> {
        let mut next = vec![0; table.len()];
        beat(self.n, self.f, self.c, broken, table, sent, &mut next)
            .expect("a generated beat is within the rules");
        next
    }

    /// A broken set of at most f cards, often of exactly f.
    pub fn broken_set(&self, random: &mut Random) -> u32 {
        let wanted = if random.one_in(2) {
            self.f
        } else {
            random.between(0, self.f)
        };
        let mut broken: u32 = 0;
        while broken.count_ones() < wanted {
            broken |= 1 << random.below(self.n as usize);
        }
        broken
    }

    /// The words broken cards send in one beat: any words, or a held record with changes, which
    /// is what misleads most.
    pub fn sent(&self, random: &mut Random, broken: u32, table: &[u16]) -> Vec<u16> {
        let cards = self.n as usize;
        let records = cards * broken.count_ones() as usize;
        let mut sent = Vec::new();
        for _ in 0..records {
            if random.one_in(4) {
                sent.extend(self.record(random));
            } else {
                let start = random.below(cards) * self.words();
                let copied = &table[start..start + self.words()];
                let changed = |&word: &u16| match random.below(6) {
                    0 => self.word(random),
                    1 => word.wrapping_add(1),
                    _ => word,
                };
                sent.extend(copied.iter().map(changed));
            }
        }
        sent
    }
}

fn modulus(random: &mut Random) -> u32 {
    let any = random.between(params::LEAST_MODULUS, params::MOST_MODULUS);
    let small = random.between(4, 20);
    random.pick(&[2, 3, params::MOST_MODULUS, any, small])
}
