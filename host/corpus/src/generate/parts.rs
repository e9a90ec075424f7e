//! The parts of a package of chance.
use super::Random;
use super::names::{ODD, WIDE, class_hash, package_base, package_name, words};
use super::packages::Plan;
use super::spelling::{capitals, mistaken, mixed, spelled};
use crate::{Export, NULL, Package, Text, import_index, script_index};

/// A package in the making.
pub struct Maker<'a> {
    pub random: &'a mut Random,
    plan: &'a Plan<'a>,
    number: u64,
    pub package: Package,
    /// components of kind 1 and of kind 2, other exports
    counts: [u64; 3],
}

impl<'a> Maker<'a> {
    pub fn new(random: &'a mut Random, plan: &'a Plan, number: u64) -> Maker<'a> {
        let mut package = Package::default();
        // The same rendered name, with and without an instance number.
        let base = random.chance(10);
        let name = if base {
            package.name.1 = number as u32 + 1;
            package_base(plan.seed, number)
        } else {
            package_name(plan.seed, number)
        };
        package.add_name(if name.is_ascii() {
            Text::of(&name)
        } else {
            spelled(random, &name)
        });
        let counts = [10, 6, 12].map(|most| random.below(most));
        Maker {
            random,
            plan,
            number,
            package,
            counts,
        }
    }

    /// How many exports the package will have at least.
    fn exports(&self) -> u64 {
        2 + self.counts.iter().sum::<u64>()
    }

    /// Imported names, each with the hash of that package's class; the import map.
    pub fn imports(&mut self, at_least_one: bool) {
        let many = if self.random.chance(4) {
            u64::from(at_least_one)
        } else {
            2 + self.random.below(10)
        };
        for k in 0..many {
            let total = self.plan.total;
            let i = match self.random.below(10) {
                _ if k == 0 => self.plan.first_import(self.random, self.number),
                0..5 => self.random.below(1 + self.number),
                5..9 => self.random.below(total),
                _ => total + self.random.below(1000),
            };
            let no_hash = k > 0 && self.random.chance(3);
            self.import(i, no_hash);
        }
        let values = (0..self.random.below(20)).map(|_| self.random.next());
        self.package.imports = values.collect();
    }

    /// Imports package i's class, or hash 0 of it.
    fn import(&mut self, i: u64, no_hash: bool) {
        let name = self.imported_name(i);
        self.package.imported.push(name);
        let hash = if no_hash {
            0
        } else {
            class_hash(self.plan.seed, i)
        };
        self.package.hashes.push(hash);
    }

    /// Package i's name, perhaps spelt otherwise or with its number apart; beyond ASCII sometimes mistaken for another.
    fn imported_name(&mut self, i: u64) -> (Text, u32) {
        let name = package_name(self.plan.seed, i);
        let base = package_base(self.plan.seed, i);
        let number = i as u32 + 1;
        match (name.is_ascii(), self.random.below(20)) {
            (false, 0..7) => match mistaken(&name) {
                Some(other) => (Text::of(&other), 0),
                None => (spelled(self.random, &name), 0),
            },
            (false, 7..12) => (spelled(self.random, &base), number),
            (false, _) => (spelled(self.random, &name), 0),
            (true, 0) => (Text::of(&base), number),
            (true, 1) => (Text::wide(&name), 0),
            (true, 2) => (Text::of(&capitals(&name)), 0),
            (true, 3) => (Text::of(&mixed(self.random, &name)), 0),
            (true, _) => (Text::of(&name), 0),
        }
    }

    /// A class index of some kind.
    pub fn class_index(&mut self) -> u64 {
        let objects = self.plan.objects;
        let imported = self.package.imported.len() as u64;
        match self.random.below(100) {
            0..60 => *self.random.pick(&objects.plain),
            60..62 if !objects.line.is_empty() => *self.random.pick(&objects.line),
            60..64 => *self.random.pick(&objects.odd),
            64..67 => script_index(self.random.next() >> 2),
            67..88 if imported > 0 => {
                let k = self.random.below(imported) as u32;
                import_index(k, k)
            }
            67..90 => self.random.below(self.exports()),
            90..94 => 0,
            94..96 => NULL,
            96..98 => self.exports() + 10 + self.random.below(5),
            _ => {
                let beyond = (imported + self.random.below(3)) as u32;
                import_index(beyond, self.random.below(1 + imported) as u32)
            }
        }
    }

    /// A name that ends so, of every kind of text.
    pub fn text(&mut self, end: &str) -> Text {
        let n = 1 + self.random.below(3);
        let start = words(self.random, n);
        match self.random.below(100) {
            0..4 => Text::wide(&format!("{start}{}{end}", self.random.pick(&WIDE))),
            4..7 => Text::of(&format!("{start}é{end}")),
            7..9 => Text::wide(&format!("{start}{end}")),
            9..12 => Text::of(&format!("{}{end}", self.random.pick(&ODD))),
            _ => Text::of(&format!("{start}{end}")),
        }
    }

    /// An export that is no class.
    pub fn push(&mut self, name: Text, number: u32, outer: u64, class: u64) {
        let top = if self.random.chance(5) {
            (self.random.below(4) as u32) << 30
        } else {
            0
        };
        let name = self.package.add_name(name) | top;
        self.package.exports.push(Export {
            name,
            number,
            outer,
            class,
            super_index: NULL,
            hash: 0,
        });
    }

    /// Candidates of both kinds: below the class, and below its default object.
    pub fn components(&mut self) {
        let [first, second, _] = self.counts;
        (0..first).for_each(|_| self.component("_GEN_VARIABLE", 0));
        (0..second).for_each(|_| self.component("", 1));
    }

    fn component(&mut self, end: &str, outer: u64) {
        let name = self.text(end);
        let number = if self.random.chance(10) {
            1 + self.random.below(12) as u32
        } else {
            0
        };
        let class = self.class_index();
        self.push(name, number, outer, class);
    }

    /// A candidate of each class that is imported by a name beyond ASCII.
    pub fn accented(&mut self) {
        for k in 0..self.package.imported.len() {
            if beyond_ascii(&self.package.imported[k].0) {
                let name = self.text("_GEN_VARIABLE");
                self.push(name, 0, 0, import_index(k as u32, k as u32));
            }
        }
    }

    /// Other exports, some of them classes, some of those candidates too; outers nested and missing.
    pub fn others(&mut self) {
        for _ in 0..self.counts[2] {
            let candidate = self.random.chance(5);
            let name = self.text(if candidate { "_GEN_VARIABLE" } else { "" });
            let outer = match self.random.below(10) {
                0..5 => 0,
                5..8 => self.random.below(self.exports()),
                8 => self.exports() + 20,
                _ => NULL,
            };
            let class = self.class_index();
            self.push(name, 0, outer, class);
            if candidate || self.random.chance(10) {
                let meta = *self.random.pick(&self.plan.objects.metas);
                let super_index = self.class_index();
                let hash = self.random.next() | 1;
                let export = self.package.exports.last_mut().expect("just pushed");
                (export.class, export.super_index, export.hash) = (meta, super_index, hash);
            }
        }
    }

    /// Names that nothing uses, and the bytes that nobody reads.
    pub fn rest(&mut self) {
        for _ in 0..self.random.below(30) {
            let name = self.text("");
            self.package.add_name(name);
        }
        self.package.bulk = vec![0xb0; 8 * self.random.below(6) as usize];
        self.package.skipped = [
            vec![0xe0; 8 * self.exports() as usize],
            vec![0xd0; 12 * self.random.below(8) as usize],
            vec![0xd1; 4 * self.random.below(20) as usize],
        ];
        self.package.tail = vec![0x7a; self.random.below(64) as usize];
    }
}

fn beyond_ascii(text: &Text) -> bool {
    match text {
        Text::Latin1(bytes) => !bytes.is_ascii(),
        Text::Utf16(units) => units.iter().any(|unit| *unit > 0x7f),
    }
}
