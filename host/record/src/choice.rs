//! Which corpora are recorded, and with which buffers.
use crate::Question;
use corpus::Described;
use corpus::census::census;
use corpus::damage::{Accent, Fault, accents, damage_block, faults, sound};
use corpus::draft::Draft;
use corpus::generate::{Random, dense, generate, ladder, spelt};
use corpus::rearrange::rearrange;
use oracle::report::class_report;
use std::collections::BTreeSet;

/// Room for any corpus of the list.
const WORK: u64 = 1 << 16;
const BUFFER: u64 = 1 << 16;

pub fn questions() -> Vec<Question> {
    let mut out = examples();
    out.extend(ladders());
    out.extend(single_faults());
    out.extend(close_faults());
    out.extend(pairs_of_faults(10));
    out.extend(accented());
    out.extend((0..4).flat_map(|seed| before_and_after(&spelt(seed).bytes())));
    out.extend(accepted(0..).take(30).map(|c| with_slack(&c)));
    out.extend(
        accepted(500..)
            .filter(|c| imports_a_class(c))
            .take(20)
            .map(|c| with_slack(&c)),
    );
    out.extend(accepted(1_000..).take(8).flat_map(|c| closely(&c)));
    out.extend(
        accepted(2_000..)
            .take(15)
            .flat_map(|c| before_and_after(&c)),
    );
    out.extend((0..4).map(|seed| with_slack(&generate(seed, 6_000))));
    out.extend(damaged(10));
    out
}

fn with_room(corpus: Vec<u8>) -> Question {
    Question {
        corpus,
        work: WORK,
        buffer: BUFFER,
    }
}

fn of_draft(draft: &Draft) -> Question {
    Question {
        corpus: draft.bytes(),
        work: draft.work,
        buffer: draft.report,
    }
}

/// Document 01's smallest corpus and its package named `A`, accepted and refused.
fn examples() -> Vec<Question> {
    let empty = Described::default();
    let mut other_version = empty.draft();
    other_version.version = 2;
    let mut named = Described::default();
    let package = corpus::Package {
        names: vec![corpus::Text::of("A")],
        ..Default::default()
    };
    named.packages.push((7, package));
    let mut too_long = named.draft();
    too_long.packages[0].1.header_size += 1;
    vec![
        with_room(empty.bytes()),
        of_draft(&other_version),
        with_room(named.bytes()),
        of_draft(&too_long),
    ]
}

/// Paths, chains and rings around their limits.
fn ladders() -> Vec<Question> {
    ladder::all(32).map(|line| with_room(line.bytes())).into()
}

/// Imported names beyond ASCII, one at a time.
fn accented() -> Vec<Question> {
    let base = sound(2);
    let with = |accent: &Accent| {
        let mut draft = base.clone();
        accent.apply(&mut draft);
        of_draft(&draft)
    };
    accents(&base).iter().step_by(7).map(with).collect()
}

/// The refusal and the block.
fn answer(fault: &Fault) -> (u8, u32) {
    (fault.refusal, fault.block)
}

/// Faults in the order of the questions, those with the same answer together; the second package's are left out, being
/// the first's in another block.
fn alike(faults: &[Fault]) -> Vec<&[Fault]> {
    faults
        .chunk_by(|a, b| answer(a) == answer(b))
        .filter(|some| some[0].block != 3 || some[0].refusal == 24)
        .collect()
}

/// The base with some faults, of which the first decides.
fn faulty(base: &Draft, some: &[&Fault]) -> Question {
    let mut draft = base.clone();
    some.iter().rev().for_each(|fault| fault.apply(&mut draft));
    of_draft(&draft)
}

/// Faults one at a time: of those with the same answer two.
fn single_faults() -> Vec<Question> {
    let base = sound(0);
    let all = faults(&base);
    (alike(&all).iter())
        .flat_map(|some| some.iter().take(2))
        .map(|fault| faulty(&base, &[fault]))
        .collect()
}

/// Two faults whose questions are asked one after the other or with one between, once for each two answers.
fn close_faults() -> Vec<Question> {
    let base = sound(1);
    let all = faults(&base);
    let groups = alike(&all);
    let pairs = (groups.windows(3)).flat_map(|g| [(g[0], g[1]), (g[0], g[2])]);
    let mut seen = BTreeSet::new();
    pairs
        .map(|(first, second)| (&first[first.len() - 1], &second[0]))
        .filter(|(first, second)| seen.insert((answer(first), answer(second))))
        .map(|(first, second)| faulty(&base, &[first, second]))
        .collect()
}

/// Any two faults.
fn pairs_of_faults(count: usize) -> Vec<Question> {
    let mut random = Random(60);
    (0..count)
        .map(|_| {
            let base = sound(random.below(10));
            let all = faults(&base);
            let second = 1 + random.below(all.len() as u64 - 1);
            let first = random.below(second);
            faulty(&base, &[&all[first as usize], &all[second as usize]])
        })
        .collect()
}

/// Small accepted corpora with rows, from this seed on; sometimes one with long chains.
fn accepted(seeds: std::ops::RangeFrom<u64>) -> impl Iterator<Item = Vec<u8>> {
    seeds.filter_map(|seed| {
        let corpus = dense(seed);
        let small = corpus.len() < if seed % 40 == 0 { 12_000 } else { 2_500 };
        let rows = small && length(&corpus).is_some() && census(&corpus).candidates > 1;
        rows.then_some(corpus)
    })
}

fn imports_a_class(corpus: &[u8]) -> bool {
    census(corpus).features["import of a class"] > 0
}

/// The report's length.
fn length(corpus: &[u8]) -> Option<u64> {
    let report = class_report(corpus, WORK, BUFFER).ok()?;
    Some(report.len() as u64)
}

/// The least lengths with which a corpus is accepted.
fn least(corpus: &[u8]) -> (u64, u64) {
    let report = length(corpus).expect("an accepted corpus");
    (census(corpus).work(), report)
}

/// A few bytes more than needed in each buffer, which must stay as they were in the report's.
fn with_slack(corpus: &[u8]) -> Question {
    let (work, buffer) = least(corpus);
    Question {
        corpus: corpus.to_vec(),
        work: work + buffer % 70,
        buffer: buffer + work % 13,
    }
}

/// Buffers that just fit, and one or both a byte short.
fn closely(corpus: &[u8]) -> [Question; 4] {
    let (work, buffer) = least(corpus);
    [(0, 0), (1, 0), (0, 1), (1, 1)].map(|(less_work, less_buffer)| Question {
        corpus: corpus.to_vec(),
        work: work - less_work,
        buffer: buffer - less_buffer,
    })
}

/// A corpus and the same rearranged, with buffers of the same lengths that just fit.
fn before_and_after(corpus: &[u8]) -> [Question; 2] {
    let (work, buffer) = least(corpus);
    let mut random = Random(corpus.len() as u64);
    let other = rearrange(corpus, &mut random).corpus;
    [corpus.to_vec(), other].map(|corpus| Question {
        corpus,
        work,
        buffer,
    })
}

/// Bytes damaged by chance.
fn damaged(count: u64) -> Vec<Question> {
    let mut random = Random(20);
    accepted(3_000..)
        .take(count as usize)
        .map(|corpus| with_room(damage_block(&mut random, &corpus)))
        .collect()
}
