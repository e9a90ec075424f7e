//! The library against the model (document 01 read afresh) on generated corpora.
use classreport::chain::{End, Headers, LineEnd};
use classreport::{Corpus, CorpusBuilder, Limits, Refusal, Report, Row, Verified};
use classreport::{report, report_into, report_within, verify, verify_into};
use corpus::generate::{LARGE, dense, generate, hashed, ladder, sized, spelt};

fn model(corpus: &[u8]) -> Result<Vec<u8>, Refusal> {
    let answer = model::class_report(corpus, u64::MAX, u64::MAX);
    answer.map_err(|(question, block)| Refusal { question, block })
}

/// The row's bytes, written from what was parsed.
fn row_bytes(row: &Row) -> Vec<u8> {
    let flags = [row.numbered, row.class.is_some(), row.native.is_some()].map(u8::from);
    let mut out = vec![
        1,
        row.kind.number(),
        flags[0],
        row.class_kind.number(),
        flags[1],
        flags[2],
    ];
    let (class, native) = (row.class.unwrap_or("?"), row.native.unwrap_or("?"));
    for text in [
        row.instance,
        row.export,
        row.outer,
        class,
        native,
        row.reference,
    ] {
        out.extend((text.len() as u32).to_be_bytes());
        out.extend(text.as_bytes());
    }
    let mut all = (out.len() as u32).to_be_bytes().to_vec();
    all.extend(out);
    all
}

/// The report's bytes, written from what was parsed.
fn report_bytes(report: &Report) -> Vec<u8> {
    let mut out = vec![0, 0, 0, 0, 1];
    out.extend((report.sections().count() as u32).to_be_bytes());
    for section in report.sections() {
        out.extend(section.id.to_be_bytes());
        out.extend((section.name.len() as u32).to_be_bytes());
        out.extend(section.name.as_bytes());
        out.extend(section.exports.to_be_bytes());
        out.extend((section.rows().count() as u32).to_be_bytes());
        section.rows().for_each(|row| out.extend(row_bytes(&row)));
    }
    let rest = (out.len() - 4) as u32;
    out[..4].copy_from_slice(&rest.to_be_bytes());
    out
}

#[test]
fn reports_are_the_models() {
    let mut accepted = 0;
    for seed in 0..3_000 {
        let corpus = dense(seed);
        let given = report(&corpus);
        assert_eq!(
            given
                .as_ref()
                .map(|report| report.bytes().to_vec())
                .map_err(|r| *r),
            model(&corpus)
        );
        if let Ok(report) = given {
            assert_eq!(report_bytes(&report), report.bytes(), "seed {seed}");
            accepted += 1;
        }
    }
    println!("{accepted} of 3000 accepted");
    assert!(accepted > 1_000);
}

#[test]
fn buffers_grow_with_the_report() {
    for length in [29, 70_000, 13_000_001] {
        let corpus = sized(length).bytes();
        let report = report(&corpus).expect("accepted");
        assert_eq!(report.bytes().len() as u64, length);
    }
}

#[test]
fn lent_buffers_too_short() {
    let corpus = generate(3, 20_000);
    let length = report(&corpus).expect("accepted").bytes().len();
    let (mut work, mut out) = (vec![0; 2 * corpus.len()], vec![7; length]);
    let short = report_into(&corpus, Limits::BOOTHS, &mut [], &mut out).unwrap_err();
    assert_eq!((short.question, short.block), (25, 0));
    let short = report_into(&corpus, Limits::BOOTHS, &mut work, &mut out[1..]).unwrap_err();
    assert_eq!((short.question, short.block), (26, 0));
    assert!(out.iter().all(|byte| *byte == 7), "left as it was");
    assert!(report_into(&corpus, Limits::BOOTHS, &mut work, &mut out).is_ok());
}

/// Counts and flags are the model's, whatever the work buffer.
#[test]
fn hashes_are_verified_as_by_the_model() {
    let mut accepted = 0;
    for seed in 700_000..702_000 {
        let corpus = hashed(seed).bytes();
        let output = model::class_verify(&corpus, u64::MAX);
        let given = verify(&corpus);
        let Ok(output) = output.map_err(|(question, block)| Refusal { question, block }) else {
            assert!(given.is_err());
            continue;
        };
        let verified = given.expect("accepted");
        let mut out = vec![7; output.len() + 1];
        let written = verify_into(&corpus, &mut [], &mut out).map(<[u8]>::to_vec);
        assert_eq!(written.as_ref(), Ok(&output));
        assert_eq!(out[output.len()], 7, "left as it was");
        assert_eq!(verified_bytes(&verified), output);
        let short = verify_into(&corpus, &mut [], &mut out[1..output.len()]).unwrap_err();
        assert_eq!((short.question, short.block), (26, 0));
        accepted += 1;
    }
    assert!(accepted > 1_000);
}

/// The output's bytes, written from what was parsed.
fn verified_bytes(verified: &Verified) -> Vec<u8> {
    let flags = &verified.flags;
    let mut out = vec![1];
    for count in [
        verified.objects,
        verified.resolved,
        verified.matches,
        verified.mismatches,
        flags.len() as u32,
    ] {
        out.extend(count.to_be_bytes());
    }
    out.extend(flags.iter().copied().map(u8::from));
    let length = (out.len() as u32).to_be_bytes();
    [&length[..], &out].concat()
}

/// Follows every chain of an accepted corpus, which compares them with the rows; gives what each ended in.
fn ends(bytes: &[u8], limits: Limits) -> Vec<End> {
    let report = report_within(bytes, limits).expect("accepted");
    let corpus = Corpus::read(bytes).expect("accepted");
    let headers = Headers::read(&corpus, limits).expect("agreed");
    let mut ends = Vec::new();
    for (package, section) in report.sections().enumerate() {
        let components = headers.components(package, &section).expect("agreed");
        for (row, export) in section.rows().zip(components) {
            let chain = headers.chain(package, export, &row).expect("agreed");
            ends.push(chain.end);
        }
    }
    ends
}

#[test]
fn chains_agree_with_the_rows() {
    let mut seen = [0; 9];
    let dense = (0..3_000).map(dense).filter(|corpus| model(corpus).is_ok());
    let ladders = ladder::all(1).map(|line| line.bytes());
    let spelt = (0..500).map(|seed| spelt(seed).bytes());
    let all = dense.chain(spelt).chain(ladders);
    for corpus in all.chain([generate(5, LARGE)]) {
        for end in ends(&corpus, Limits::BOOTHS) {
            seen[match end {
                End::Script(line) => match line.end {
                    LineEnd::Null => 0,
                    LineEnd::Missing(_) => 1,
                    LineEnd::Ring(_) => 2,
                    LineEnd::TooDeep => 3,
                },
                End::NoClass { .. } => 4,
                End::Ring(_) => 5,
                End::TooLong => 6,
                End::Null => 7,
                End::Bad => 8,
            }] += 1;
        }
    }
    println!("rows by the end of their chains: {seen:?}");
    assert!(seen.iter().all(|count| *count > 0), "{seen:?}");
}

/// So they do with other limits, the teaching rooms' among them.
#[test]
fn chains_agree_within_other_limits() {
    let ladders = [
        ladder::paths(),
        ladder::chains(),
        ladder::ring(3),
        ladder::told(),
    ];
    let one = |n| Limits {
        lookups: n,
        objects: n,
    };
    for corpus in ladders.map(|line| line.bytes()) {
        for limits in (1..=64).map(one).chain([Limits::TEACHING]) {
            assert!(!ends(&corpus, limits).is_empty());
        }
    }
    let long = ends(&ladder::chains().bytes(), Limits::TEACHING);
    assert!(long.contains(&End::TooLong));
}

/// A row that says something else than the headers is no chain but an error that says so.
#[test]
fn a_disagreement_is_an_error() {
    let bytes = ladder::ring(3).bytes();
    let (report, corpus) = (report(&bytes).unwrap(), Corpus::read(&bytes).unwrap());
    let headers = Headers::read(&corpus, Limits::BOOTHS).unwrap();
    let (section, row) = report.rows().next().unwrap();
    let export = headers.components(0, &section).unwrap()[0];
    assert!(headers.chain(0, export, &row).is_ok());
    let other = Row {
        native: Some("?"),
        ..row
    };
    let said = headers.chain(0, export, &other).unwrap_err().to_string();
    assert_eq!(
        said,
        "the chains are not shown: package 1, export Row_GEN_VARIABLE: the native class is `?` by the call, but unknown \
         by the host's own reading"
    );
    let components = headers.components(1, &report.sections().next().unwrap());
    assert!(
        components.is_ok(),
        "each package of the ring has as many rows"
    );
}

/// Bytes that were changed anywhere are parsed or refused, and what is parsed can be walked through.
#[test]
fn malformed_reports_are_an_error() {
    let whole = report(&generate(1, 9_000)).expect("accepted");
    let bytes = whole.bytes();
    for length in 0..bytes.len() {
        assert!(Report::parse(&bytes[..length]).is_err(), "{length} bytes");
    }
    let mut refused = 0;
    for place in 0..bytes.len() {
        for change in [1, 0x80, 0xff] {
            let mut other = bytes.to_vec();
            other[place] ^= change;
            match Report::parse(&other) {
                Ok(report) => assert_eq!(report_bytes(&report), other),
                Err(_) => refused += 1,
            }
        }
    }
    assert!(refused > 1_000);
    let longer = [bytes, &[0]].concat();
    let said = Report::parse(&longer).unwrap_err().to_string();
    assert_eq!(said, "malformed report, byte 4: its length is wrong");
}

#[test]
fn frames_are_read_as_they_were_built() {
    let mut builder = CorpusBuilder::new(b"script").unwrap();
    builder.add(3, b"").unwrap();
    builder.add(u64::MAX, b"two").unwrap();
    let bytes = builder.finish();
    assert_eq!(
        bytes,
        corpus::corpus(b"script", &[(3, vec![]), (u64::MAX, b"two".to_vec())])
    );
    let read = Corpus::read(&bytes).unwrap();
    assert_eq!((read.script(), read.packages().len()), (&b"script"[..], 2));
    for length in 0..bytes.len() {
        let refused = Corpus::read(&bytes[..length]).unwrap_err();
        assert_eq!(refused, model(&bytes[..length]).unwrap_err());
    }
}
