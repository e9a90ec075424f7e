//! Which packages a large corpus has: first a line of classes, each the super of the next, and rings; then packages
//! of chance.
use super::Random;
use super::names::{class_hash, package_name};
use super::objects::Objects;
use super::parts::Maker;
use crate::name::id;
use crate::{Export, NULL, Package, Text, import_index};

/// In a large corpus package i below this has a class with a chain of i + 1 classes, all in packages of their own: from
/// 1 to 67. The next has a class that is its own super, the two behind it are each other's; then come one without
/// exports and one with the same id.
const LINE: u64 = 67;
const RINGS: u64 = LINE + 3;

pub struct Plan<'a> {
    pub seed: u64,
    /// about how many packages there will be
    pub total: u64,
    pub large: bool,
    pub objects: &'a Objects,
}

impl Plan<'_> {
    /// Whether package i is part of the line or of a ring.
    fn in_line(&self, i: u64) -> bool {
        self.large && i < RINGS
    }

    /// Package i, with its id.
    pub fn package(&self, random: &mut Random, i: u64) -> (u64, Package) {
        let free = !self.in_line(i);
        let name = package_name(self.seed, i);
        if free && (i == RINGS || random.chance(2)) {
            let empty = Package {
                names: vec![Text::of(&name)],
                ..Package::default()
            };
            return (id(&name), empty);
        }
        // Two packages of one id: the classes' hashes differ, so no key comes twice.
        let same = free && i > 0 && (i == RINGS + 1 || random.chance(1));
        let own = if same {
            package_name(self.seed, i - 1)
        } else {
            name
        };
        (id(&own), self.full(random, i))
    }

    fn full(&self, random: &mut Random, i: u64) -> Package {
        let mut maker = Maker::new(random, self, i);
        maker.imports(self.in_line(i));
        let super_index = self.super_index(&mut maker, i);
        self.own_class(&mut maker, i, super_index);
        if self.in_line(i) {
            self.own_rows(&mut maker, i);
        }
        maker.components();
        maker.others();
        maker.accented();
        maker.rest();
        maker.package
    }

    /// The package that package i imports first.
    pub fn first_import(&self, random: &mut Random, i: u64) -> u64 {
        match i.checked_sub(LINE) {
            _ if !self.in_line(i) => {
                if random.chance(20) {
                    i.saturating_sub(1)
                } else {
                    random.below(self.total)
                }
            }
            None => i.saturating_sub(1),
            Some(0) => i,
            Some(1) => i + 1,
            Some(_) => i - 1,
        }
    }

    /// The super of package i's own class; in the line and the rings it is the first import's.
    fn super_index(&self, maker: &mut Maker, i: u64) -> u64 {
        if self.in_line(i) {
            return match i {
                0 => self.objects.plain[0],
                _ => import_index(0, 0),
            };
        }
        match maker.random.below(10) {
            0..6 if !maker.package.imported.is_empty() => import_index(0, 0),
            0..9 => *maker.random.pick(&self.objects.plain),
            _ => maker.class_index(),
        }
    }

    /// Export 0, the package's own class or an ordinary object of its name, and export 1, its default object.
    fn own_class(&self, maker: &mut Maker, i: u64, super_index: u64) {
        let name = package_name(self.seed, i);
        let leaf = name.rsplit('/').next().expect("a part");
        let class = self.in_line(i) || maker.random.chance(65);
        let (meta, plain) = (&self.objects.metas, &self.objects.plain);
        let own = Export {
            name: maker.package.add_name(Text::of(&format!("{leaf}_C"))),
            number: 0,
            outer: NULL,
            class: *maker.random.pick(if class { meta } else { plain }),
            super_index: if class { super_index } else { NULL },
            hash: class_hash(self.seed, i),
        };
        let default = Export {
            name: (maker.package).add_name(Text::of(&format!("Default__{leaf}_C"))),
            class: 0,
            super_index: NULL,
            hash: maker.random.next(),
            ..own
        };
        maker.package.exports.extend([own, default]);
    }

    /// Rows whose class is the package's own, and an object of the script block's line.
    fn own_rows(&self, maker: &mut Maker, i: u64) {
        let last = self.objects.line.len() as u64 - 1;
        for class in [0, self.objects.line[i.min(last) as usize]] {
            let name = maker.text("_GEN_VARIABLE");
            maker.push(name, 0, 0, class);
        }
    }
}
