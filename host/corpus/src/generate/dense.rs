//! Small corpora in which everything meets: few names, indices, hashes and ids, so that rings, long chains, keys that
//! come twice, names that are empty, `?` or hold separators, and references of every kind are all common.
use super::Random;
use super::spelling::mixed;
use crate::name::{id, rendered};
use crate::{Described, Export, NULL, Package, ScriptEntry, Text, import_index, script_index};

const POOL: [&str; 20] = [
    "A_GEN_VARIABLE",
    "_GEN_VARIABLE",
    "GEN_VARIABLE",
    "x_GEN_VARIABLE_GEN_VARIABLE",
    "x_GEN_VARIABLE_0",
    "Default__X",
    "Default__",
    "default__x",
    "C",
    "MyClass",
    "Class",
    "lass",
    "a.b:Class",
    "Class.",
    "?",
    "",
    "é_GEN_VARIABLE",
    "Default__🎯",
    "Klass\u{fffe}",
    "\u{feff}Class",
];

/// The names that packages are imported by: a corpus has one row of these, so that imports are found across spellings.
const IMPORTED: [[&str; 4]; 6] = [
    [
        "/Q",
        "/q",
        "",
        "/Game/LONGER_name_that_is_past_sixteen_units",
    ],
    ["/École", "/éCOLE", "/ÿk", "/Ÿ\u{212a}"],
    ["/Œuvre", "/œUVRE", "/ΑΣ", "/ας"],
    ["/İ", "/i", "/\u{1c5}x", "/\u{1c6}X"],
    ["/𐐀𞤀", "/𐐨𞤢", "/Straße", "/STRAẞE"],
    [
        "/Game/à_côté_past_sixteen_units",
        "/GAME/À_CÔTÉ_PAST_SIXTEEN_UNITS",
        "/Ω",
        "/\u{2126}",
    ],
];

/// What a corpus's blocks share.
struct Dense {
    random: Random,
    /// script objects
    objects: u64,
    /// whether they stand in a line, each the outer of the next
    line: bool,
    /// whether packages start with a long chain of classes
    chain: bool,
    /// a hash that no export has
    fresh: u64,
    /// names that packages are imported by
    imported: &'static [&'static str],
}

pub fn dense(seed: u64) -> Vec<u8> {
    dense_described(seed).bytes()
}

pub fn dense_described(seed: u64) -> Described {
    let mut random = Random(seed.wrapping_mul(0x2545_f491_4f6c_dd1d) ^ 0x5555);
    let line = random.chance(25);
    let chain = random.chance(15);
    let objects = if random.chance(4) {
        0
    } else if line {
        60 + random.below(15)
    } else {
        1 + random.below(8)
    };
    let imported = if random.chance(50) {
        &IMPORTED[0]
    } else {
        random.pick(&IMPORTED[1..])
    };
    let mut dense = Dense {
        random,
        objects,
        line,
        chain,
        fresh: 10,
        imported,
    };
    let mut corpus = dense.script();
    for _ in 0..dense.random.below(5) {
        let mut package = dense.package();
        let id = dense.known_by(&mut package);
        corpus.packages.push((id, package));
    }
    corpus
}

impl Dense {
    fn text(&mut self, from: &[&str]) -> Text {
        let s = *self.random.pick(from);
        self.wide_or_not(s)
    }

    fn wide_or_not(&mut self, s: &str) -> Text {
        if self.random.chance(20) {
            Text::wide(s)
        } else {
            Text::of(s)
        }
    }

    /// A name's number in a batch of so many, with some top bits.
    fn name(&mut self, count: usize) -> u32 {
        self.random.below(count as u64) as u32 | (self.random.below(4) as u32) << 30
    }

    fn script(&mut self) -> Described {
        let mut corpus = Described::default();
        if self.objects > 0 {
            corpus.names.push(Text::of("Class"));
            let many = self.random.below(6);
            corpus.names.extend((0..many).map(|_| self.text(&POOL)));
        }
        for i in 0..self.objects {
            let entry = ScriptEntry {
                name: self.name(corpus.names.len()),
                number: if self.random.chance(20) {
                    self.random.below(3) as u32
                } else {
                    0
                },
                global: script_index(i),
                outer: self.outer_object(i),
            };
            corpus.entries.push(entry);
        }
        if self.objects > 0 && (self.chain || self.random.chance(80)) {
            // So that classes are common.
            let first = &mut corpus.entries[0];
            (first.name, first.number, first.outer) = (0, 0, NULL);
        }
        corpus
    }

    fn outer_object(&mut self, i: u64) -> u64 {
        match self.random.below(10) {
            _ if self.line && i > 0 && self.random.chance(98) => script_index(i - 1),
            0..5 => NULL,
            5 => 3 << 62 | self.random.next() >> 2,
            6 => *(self.random).pick(&[0, import_index(0, 0), script_index(self.objects)]),
            _ => script_index(self.random.below(self.objects)),
        }
    }

    /// An index of any kind, in package p of so many exports.
    fn index(&mut self, p: &Package, exports: u64) -> u64 {
        match self.random.below(12) {
            0..3 => self.object(),
            3..6 => self.random.below(exports + 1),
            6..10 => {
                let beyond = u64::from(self.random.chance(15));
                let name = self.random.below(p.imported.len() as u64 + beyond);
                let hash = self.random.below(p.hashes.len() as u64 + beyond);
                import_index(name as u32, hash as u32)
            }
            10 => NULL,
            _ => *self.random.pick(&[
                3 << 62,
                import_index(0x3fff_ffff, 0),
                import_index(0, u32::MAX),
                (1 << 62) - 1,
                (1 << 32) + 1,
            ]),
        }
    }

    /// A script object, in a line often one near the limit.
    fn object(&mut self) -> u64 {
        let n = self.objects;
        let near = self.line && n > 0 && self.random.chance(50);
        script_index(if near {
            n - 1 - self.random.below(n.min(12))
        } else {
            self.random.below(n + 1)
        })
    }

    /// One of few hashes, 0 among them.
    fn hash(&mut self) -> u64 {
        self.random.below(4)
    }

    fn package(&mut self) -> Package {
        let mut p = Package::default();
        let many = 1 + self.random.below(8);
        p.names = (0..many).map(|_| self.text(&POOL)).collect();
        p.name = (self.name(p.names.len()), self.random.below(2) as u32);
        p.bulk = self.bytes();
        p.hashes = (0..self.random.below(5)).map(|_| self.hash()).collect();
        p.imports = vec![7; self.random.below(3) as usize];
        for _ in 0..self.random.below(5) {
            let name = self.text(self.imported);
            p.imported.push((name, u32::from(self.random.chance(15))));
        }
        self.exports(&mut p);
        p.skipped = std::array::from_fn(|_| self.bytes());
        p.tail = self.bytes();
        p
    }

    /// An id for a package by one of the imported names; often the package has that name too, perhaps spelt otherwise.
    fn known_by(&mut self, p: &mut Package) -> u64 {
        let name = *self.random.pick(self.imported);
        let number = u32::from(self.random.chance(10));
        if self.random.chance(50) {
            let own = mixed(&mut self.random, name);
            let (own, number) = if self.random.chance(50) {
                (rendered(&own, number), 0)
            } else {
                (own, number)
            };
            p.name = (p.add_name(self.wide_or_not(&own)), number);
        }
        id(&rendered(name, number))
    }

    /// A few bytes that nobody reads.
    fn bytes(&mut self) -> Vec<u8> {
        vec![1; self.random.below(4) as usize]
    }

    /// Exports of chance; before them perhaps a chain of classes, each the super of the one before.
    fn exports(&mut self, p: &mut Package) {
        let chain = if self.chain {
            60 + self.random.below(12)
        } else {
            0
        };
        let exports = chain + self.random.below(8);
        for k in 0..exports {
            let mut export = self.export(p, exports);
            if k < chain {
                export.class = script_index(0);
                export.hash = self.fresh;
            }
            if k + 1 < chain {
                export.super_index = k + 1;
            }
            p.exports.push(export);
        }
    }

    fn export(&mut self, p: &Package, exports: u64) -> Export {
        self.fresh += 1;
        Export {
            name: self.name(p.names.len()),
            number: if self.random.chance(20) {
                *self.random.pick(&[1, 2, 11, u32::MAX])
            } else {
                0
            },
            outer: if self.random.chance(60) {
                self.random.below(exports + 1)
            } else {
                self.index(p, exports)
            },
            class: match self.random.below(10) {
                0..3 => script_index(0),
                3..5 => script_index(self.random.below(self.objects.max(1))),
                _ => self.index(p, exports),
            },
            super_index: self.index(p, exports),
            hash: if self.random.chance(50) {
                self.hash()
            } else {
                self.fresh
            },
        }
    }
}
