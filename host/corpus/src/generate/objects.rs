//! The script block of a large corpus: a forest of native packages, classes and what lies in them.
use super::Random;
use super::names::{ODD, WIDE, words};
use crate::{Described, NULL, Text, import_index, script_block, script_index};

pub struct Objects {
    pub block: Vec<u8>,
    /// global indices of objects named `*Class`
    pub metas: Vec<u64>,
    /// of ordinary native classes
    pub plain: Vec<u64>,
    /// of objects in a straight line, the i-th with a path of i + 1 objects; empty in a small corpus
    pub line: Vec<u64>,
    /// of objects without a path, and of some whose path ends unusually
    pub odd: Vec<u64>,
}

struct Maker<'a> {
    random: &'a mut Random,
    corpus: Described,
}

impl Objects {
    pub fn new(random: &mut Random, least: usize, large: bool) -> Objects {
        let mut maker = Maker {
            random,
            corpus: Described::default(),
        };
        let engine = maker.add(Text::of("/Script/Engine"), 0, NULL);
        let metas = [
            "BlueprintGeneratedClass",
            "WidgetBlueprintGeneratedClass",
            "AnimBlueprintGeneratedClass",
            "Class",
        ];
        let metas = metas.map(|n| maker.add(Text::of(n), 0, engine)).to_vec();
        let plain = maker.forest(engine, least);
        let line = if large { maker.line() } else { Vec::new() };
        let odd = maker.odd(plain[0]);
        Objects {
            block: script_block(&maker.corpus.names, &maker.corpus.entries),
            metas,
            plain,
            line,
            odd,
        }
    }
}

/// A script block of about so many bytes, as a build has it: each object with the hash of its path.
pub fn natives(seed: u64, bytes: usize) -> Described {
    let mut maker = Maker {
        random: &mut Random(seed),
        corpus: Described::default(),
    };
    let engine = maker.add(Text::of("/Script/Engine"), 0, NULL);
    // An object is some 56 bytes, its name's included.
    maker.forest(engine, bytes / 56);
    maker.corpus.hashed()
}

impl Maker<'_> {
    /// A global index that no object has: its low bits count.
    fn fresh(&mut self) -> u64 {
        let count = self.corpus.entries.len() as u64;
        let high = self.random.next() & ((1 << 40) - 1);
        script_index(high << 22 | count)
    }

    fn add(&mut self, name: Text, number: u32, outer: u64) -> u64 {
        let global = self.fresh();
        self.corpus.add_object(name, number, global, outer)
    }

    /// Native packages and classes until there are enough objects; the classes.
    fn forest(&mut self, engine: u64, least: usize) -> Vec<u64> {
        let mut packages = vec![engine];
        let mut classes = Vec::new();
        while self.corpus.entries.len() < least {
            if self.random.chance(2) {
                let name = format!("/Script/{}", words(self.random, 2));
                packages.push(self.add(Text::of(&name), 0, NULL));
            } else {
                let outer = *self.random.pick(&packages);
                classes.push(self.class(outer));
            }
        }
        classes
    }

    /// A class with functions and their parameters below it.
    fn class(&mut self, outer: u64) -> u64 {
        let mut name = words(self.random, 3);
        if self.random.chance(2) {
            name += *self.random.pick(&WIDE);
        }
        let number = if self.random.chance(3) {
            self.random.below(9) as u32
        } else {
            0
        };
        let class = self.add(Text::of(&name), number, outer);
        let mut at = class;
        for _ in 0..self.random.below(4) {
            let name = words(self.random, 2);
            let inner = self.add(Text::of(&name), 0, at);
            at = if self.random.chance(30) { inner } else { at };
        }
        class
    }

    /// 66 objects, each the outer of the next; the last has one too many for a path.
    fn line(&mut self) -> Vec<u64> {
        let mut outer = NULL;
        let mut line = Vec::new();
        for i in 0..66 {
            let name = ODD.get(i % 16).copied().unwrap_or("D");
            outer = self.add(Text::of(name), 0, outer);
            line.push(outer);
        }
        line
    }

    /// A ring of three, an object that is its own outer, outers that are missing or of another kind, a null outer with
    /// low bits set.
    fn odd(&mut self, class: u64) -> Vec<u64> {
        let first = self.add(Text::of("Ring"), 0, NULL);
        let at = self.corpus.entries.len() - 1;
        let second = self.add(Text::of("Ring"), 1, first);
        let third = self.add(Text::of("Ring"), 2, second);
        self.corpus.entries[at].outer = third;
        let own = self.fresh();
        self.corpus.add_object(Text::of("Own"), 0, own, own);
        let missing = self.fresh();
        let outers = [missing, 0, import_index(0, 0), 3 << 62, class];
        let mut odd = vec![first, own];
        odd.extend(outers.map(|outer| self.add(Text::of("?"), 0, outer)));
        odd
    }
}
