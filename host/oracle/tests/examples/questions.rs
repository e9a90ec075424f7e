//! Each question answered with no, and which of two is asked first, on the oracle and on the model.
use crate::cases::{Want::*, *};
use corpus::{NULL, Package, Text, corpus, script_index};
use oracle::question::question;

fn le(number: u32) -> [u8; 4] {
    number.to_le_bytes()
}

#[test]
fn the_corpus() {
    let refused = |what, corpus| case(what, corpus, Refused(1, 0));
    let mut cases: Vec<Case> = (0..21)
        .map(|n| refused("cut short", smallest()[..n].to_vec()))
        .collect();
    let longer = |length: u8| with([smallest(), vec![0]].concat(), 3, &[length]);
    let faulty_script = with(smallest(), 9, &[1]);
    cases.extend([
        refused("a byte too many", longer(0x11)),
        refused("a byte after the last part", longer(0x12)),
        refused("no version byte", vec![0; 4]),
        refused("nothing but a version byte", vec![0, 0, 0, 1, 1]),
        refused("2^32 - 1 packages", with(smallest(), 17, &[0xff; 4])),
        refused(
            "a script block of 2^32 - 1",
            with(smallest(), 5, &[0xff; 4]),
        ),
        case("version 2 and no more", vec![0, 0, 0, 1, 2], Refused(2, 0)),
        refused("the length before the version", vec![0, 0, 0, 2, 2]),
        case(
            "a faulty script block",
            faulty_script.clone(),
            Refused(3, 1),
        ),
        refused("framing before blocks", with(faulty_script, 20, &[1])),
    ]);
    run(&cases);
}

/// Two objects. Batch: headers at 32, strings at 36; count at 38, entries at 42 and 74, end at 106.
fn two_objects() -> Vec<u8> {
    script(&[("a", script_index(1), NULL), ("b", script_index(2), NULL)])
}

fn script_refused(number: u8, block: &[u8]) -> Case {
    let corpus = corpus_of_blocks(block, &[]);
    case("script block", corpus, Refused(number, 1))
}

fn script_changed(number: u8, at: usize, new: &[u8]) -> Case {
    script_refused(number, &with(two_objects(), at, new))
}

#[test]
fn the_batch() {
    let cut = |n: usize| script_refused(3, &two_objects()[..n]);
    let cut_with_version = with(two_objects(), 8, &[1])[..20].to_vec();
    run(&[
        cut(3),
        cut(7),
        cut(15),
        cut(31),
        cut(35),
        cut(37),
        script_changed(3, 0, &[0xff; 4]),
        script_changed(4, 8, &[1]),
        script_refused(4, &cut_with_version),
        script_changed(5, 33, &[3]),
        script_changed(6, 32, &[0x80, 1, 0, 0, 0, 0xd8]),
        script_changed(7, 33, &[0]),
    ]);
}

#[test]
fn the_script_objects() {
    assert_eq!(two_objects().len(), 106);
    let unnamed_and_twice = [&le(2)[..], &[0; 4], &script_index(1).to_le_bytes()].concat();
    let top_bits = with(two_objects(), 45, &[0xc0]);
    run(&[
        script_refused(3, &two_objects()[..41]),
        script_changed(8, 38, &le(0x8000_0000)),
        script_changed(9, 38, &le(3)),
        script_changed(9, 38, &le(i32::MAX as u32)),
        script_changed(10, 42, &le(2)),
        script_changed(11, 57, &[0x80]),
        script_changed(12, 82, &[1]),
        script_changed(10, 74, &unnamed_and_twice),
        script_changed(13, 38, &le(1)),
        script_refused(13, &[two_objects(), vec![0]].concat()),
        case(
            "the top two bits of a name's index",
            corpus_of_blocks(&top_bits, &[]),
            Accepted,
        ),
    ]);
}

/// A package of block 3, so that a wrong block shows.
fn second(number: u8, block: Vec<u8>) -> Case {
    let corpus = corpus_of_blocks(&no_script(), &[empty_a().bytes(), block]);
    case("second package", corpus, Refused(number, 3))
}

/// `empty_a` with bytes replaced. Flag at 0, header size 4, name 8, offsets 24 to 51, batch 52, bulk size 79, imports 87.
fn changed(number: u8, at: usize, new: &[u8]) -> Case {
    second(number, with(empty_a().bytes(), at, new))
}

#[test]
fn the_summary() {
    let cut = |number, n: usize| second(number, empty_a().bytes()[..n].to_vec());
    let two = |number, (at, new): (usize, u32), (then, other): (usize, u32)| {
        let once = with(empty_a().bytes(), at, &le(new));
        second(number, with(once, then, &le(other)))
    };
    run(&[
        cut(3, 3),
        cut(3, 7),
        cut(15, 8),
        changed(14, 0, &[1]),
        second(14, vec![1, 0, 0, 0]),
        changed(15, 4, &le(92)),
        changed(3, 4, &le(0)),
        changed(3, 4, &le(7)),
        changed(3, 4, &le(15)),
        changed(3, 4, &le(51)),
        changed(16, 28, &le(0x8000_0000)),
        changed(17, 24, &le(51)),
        changed(17, 28, &le(86)),
        changed(17, 48, &le(92)),
        two(16, (24, 51), (48, u32::MAX)),
        two(16, (24, u32::MAX), (4, 33)),
        two(3, (48, u32::MAX), (4, 51)),
    ]);
}

#[test]
fn the_names_and_the_bulk_data() {
    let mut split_pair = empty_a();
    split_pair.names = vec![Text::Utf16(vec![0xd83c]), Text::Utf16(vec![0xdfaf])];
    let mut overrun = empty_a();
    overrun.names = vec![Text::Utf16(vec![0xdc00]), Text::of("B")];
    // the second header says 2 bytes
    let overrun = with(overrun.bytes(), 52 + 16 + 16 + 3, &[2]);
    run(&[
        changed(4, 60, &[1]),
        second(6, split_pair.bytes()),
        second(6, overrun),
        changed(18, 86, &[0x80]),
        changed(3, 86, &[0x7f]),
        changed(3, 79, &[13]),
        changed(19, 79, &[1]),
    ]);
}

#[test]
fn the_regions() {
    let mut package = empty_a();
    package.hashes = vec![1];
    package.imports = vec![1];
    package.exports = vec![export(0)];
    let bytes = package.bytes();
    let end = bytes.len() as u32;
    // public hashes at 87, import map 95, export map 103, bundle entries 175
    let changed = |number, at, new: &[u8]| second(number, with(bytes.clone(), at, new));
    let longer = with([bytes.clone(), vec![0]].concat(), 4, &le(end + 1));
    let nameless = with(with(longer.clone(), 8, &le(1)), 4, &le(end));
    run(&[
        changed(20, 28, &le(94)),
        changed(20, 32, &le(104)),
        changed(20, 28, &le(91)),
        changed(21, 36, &le(174)),
        changed(10, 103 + 16, &le(1)),
        second(22, longer.clone()),
        second(22, with(longer, 8, &le(1))),
        second(10, nameless),
    ]);
}

#[test]
fn the_imported_names() {
    let importing = |names: &[&str]| Package {
        imported: names.iter().map(|name| (Text::of(name), 0)).collect(),
        ..empty_a()
    };
    let one = importing(&["/Q"]).bytes();
    let end = one.len() as u32;
    let mut unnamed = importing(&["/é"]);
    unnamed.name = (1, 0);
    run(&[
        second(3, with(one, 4, &le(end - 1))),
        changed(3, 48, &le(91)),
        second(10, unnamed.bytes()),
    ]);
}

/// Halves of surrogate pairs that lowering would change are as ill-formed as others; 6 is asked before the name of the
/// package.
#[test]
fn ill_formed_imported_names() {
    let importing = |units: &[u16]| Package {
        imported: vec![(Text::of("/É"), 0), (Text::Utf16(units.to_vec()), 1)],
        name: (1, 0),
        ..empty_a()
    };
    let ill_formed: [&[u16]; 7] = [
        &[0xd801],
        &[0xdc00],
        &[0xd801, 0x0041],
        &[0xdc00, 0xd801],
        &[0xd801, 0xd801, 0xdc00],
        &[0xd801, 0xdc00, 0xdc00],
        &[0x00c9, 0x0152, 0xd801, 0xdc00, 0xd83a],
    ];
    run(&ill_formed.map(|units| second(6, importing(units).bytes())));
    run(&[second(10, importing(&[0xd801, 0xdc00]).bytes())]);
}

#[test]
fn keys_and_buffers() {
    let script = nested(&["Class"]);
    let class = supers(1, script_index(1)).bytes();
    let ids = |ids: &[u64]| {
        let packages: Vec<_> = ids.iter().map(|id| (*id, class.clone())).collect();
        corpus(&script, &packages)
    };
    let faulty = [(7, class.clone()), (7, class.clone()), (9, vec![])];
    let single = ids(&[7]);
    let report = oracle::report::class_report(&single, 192, u64::MAX);
    let length = report.expect("accepted").len() as u64;
    let buffers = |work, buffer, want| Case {
        what: "buffers",
        corpus: single.clone(),
        work,
        buffer,
        want,
    };
    run(&[
        case(
            "the later class's block",
            ids(&[7, 8, 7, 8]),
            Refused(24, 4),
        ),
        case(
            "every block before a key",
            corpus(&script, &faulty),
            Refused(3, 4),
        ),
        // one script object, one class, one candidate
        buffers(191, 0, Refused(25, 0)),
        buffers(192, length - 1, Refused(26, 0)),
        buffers(192, length, Accepted),
    ]);
}

/// A path of 65 long names is 2 MB and stands in a row twice: the first byte beyond the buffer settles it.
#[test]
fn rows_far_longer_than_the_corpus() {
    let long = "n".repeat(32_767);
    let mut package = one(script_index(65));
    package.exports = vec![package.exports[0]; 10_000];
    let corpus = corpus_of(&nested(&[long.as_str(); 65]), &[&package]);
    run(&[Case {
        buffer: 10_000_000,
        ..case("20 GB of rows", corpus, Refused(26, 0))
    }]);
}

/// A name that looks like a message is quoted in one, and doesn't lead astray.
#[test]
fn messages_are_told_by_their_first_words() {
    let quoted = script(&[("package summary: need 4 bytes", 7, NULL)]);
    run(&[case(
        "quoted",
        corpus_of_blocks(&quoted, &[]),
        Refused(11, 1),
    )]);
    assert_eq!(question("utoc: bad magic"), None);
    assert_eq!(question("name batch at offset x: hash version 0x1"), None);
}
