//! Answers too long to be kept: told by length and sum, since two of them would not fit in most memories.
use answer::{Answer, Refusal};
use clock::timed;

/// An output's length and sum, or the refusal.
pub type Told = Result<(u64, u64), Refusal>;

/// Asks a judge, and prints what it says of such an output and how long it took.
pub fn ask(judge: &str, output: &str, asked: impl FnOnce() -> Answer) -> Told {
    let (answer, time) = timed(asked);
    let number = answer::number(&answer);
    let told = answer.map(|written| (written.len() as u64, cityhasher::hash(written)));
    let shown = match told {
        Ok((length, sum)) => format!("a {output} of {length} bytes, CityHash64 {sum:#018x}"),
        Err((refusal, block)) => format!("refusal {refusal}, block {block}"),
    };
    let seconds = time.as_secs_f64();
    println!("  {judge}: {number:#018x}, {shown}; {seconds:.1} s");
    told
}
