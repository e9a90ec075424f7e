//! Both sides timed in turns, by processor time.
use std::hint::black_box;
use std::time::Duration;

use answer::Answer;
use clock::timed;

/// Who races, and what is timed beside them.
pub struct Sides {
    /// the whole of the reference; it needs no work buffer, and an output of at most so many bytes is wanted
    pub reference: fn(&[u8], u64) -> Answer,
    /// the call: corpus, work, output
    pub ours: fn(&[u8], &mut [u8], &mut [u8]) -> u64,
    pub beside_is: &'static str,
    /// of a corpus and an output, with a buffer that both fit into
    pub beside: fn(&[u8], &[u8], &mut [u8]),
}

/// Lengths of the call's buffers.
pub struct Needs {
    pub work: usize,
    pub output: usize,
}

/// The best times: of both sides, and of what is timed beside them.
pub struct Times {
    pub reference: Duration,
    pub ours: Duration,
    pub beside: Duration,
}

/// The shorter of a time and the one that a function takes, whose result is given.
pub fn best<T>(time: &mut Duration, run: impl FnOnce() -> T) -> T {
    let (given, taken) = timed(run);
    *time = taken.min(*time);
    given
}

/// Times a corpus with buffers of these lengths. They are the same in every round, as those of a host that calls often, and
/// hold what the round before left. Both sides have to answer the same.
pub fn race(sides: &Sides, corpus: &[u8], needs: &Needs, rounds: u64) -> Times {
    let (mut work, mut output) = (vec![0xa5; needs.work], vec![0xa5; needs.output]);
    let mut room = vec![0; corpus.len() + output.len()];
    let mut times = Times {
        reference: Duration::MAX,
        ours: Duration::MAX,
        beside: Duration::MAX,
    };
    for _ in 0..rounds {
        let expected = best(&mut times.reference, || {
            (sides.reference)(black_box(corpus), needs.output as u64)
        });
        let number = best(&mut times.ours, || {
            (sides.ours)(black_box(corpus), &mut work, &mut output)
        });
        assert_eq!(number, answer::number(&expected), "the number");
        let written = expected.unwrap_or_default();
        assert!(output[..written.len()] == written, "the output");
        best(&mut times.beside, || {
            (sides.beside)(black_box(corpus), &output, black_box(&mut room[..]));
        });
    }
    times
}
