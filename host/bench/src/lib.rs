//! What the benchmarks of whole calls share: options, corpora of several sizes and hostile shapes, and a table of times.
pub mod options;
pub mod race;
pub mod told;

use std::process::ExitCode;
use std::time::Duration;

use answer::Refusal;
use corpus::generate::hostile::Shape;

use options::{Options, options};
use race::{Needs, Sides, Times, race};

const MEGABYTES: [usize; 3] = [1, 10, 100];

/// A corpus of so many bytes.
pub type Sized = fn(usize) -> Vec<u8>;

/// A call against the reference.
pub struct Contest {
    /// the program's name, and what it does
    pub name: &'static str,
    pub usage: &'static str,
    /// what each side includes
    pub about: &'static str,
    pub generated: &'static [(&'static str, Sized)],
    pub shapes: &'static [Shape],
    /// whether shapes of long names are also timed with no room for the output
    pub no_room: bool,
    pub needs: fn(&[u8]) -> Result<Needs, Refusal>,
    pub sides: Sides,
}

impl Contest {
    /// Runs it with the program's own words.
    pub fn run(&self) -> ExitCode {
        match options(std::env::args().skip(1)) {
            Ok(options) => {
                println!("{}", self.about);
                println!("processor time, best of {} rounds", options.rounds);
                self.head();
                for (name, of) in self.generated {
                    self.sizes(&options, name, *of);
                }
                self.all_shapes(&options);
                ExitCode::SUCCESS
            }
            Err(wrong) => {
                eprintln!("{}: {wrong}\n{}", self.name, self.usage);
                ExitCode::from(2)
            }
        }
    }

    fn head(&self) {
        println!(
            "{:<36} {:>9} {:>9} {:>12} {:>9} {:>5} {:>10}",
            "",
            "corpus MB",
            "output MB",
            "reference ms",
            "ours ms",
            "ratio",
            format!("{} ms", self.sides.beside_is)
        );
    }

    /// Generated corpora; then how much longer a MB takes in the largest than in the smallest.
    fn sizes(&self, options: &Options, what: &str, of: Sized) {
        let mut each = Vec::new();
        for megabytes in MEGABYTES {
            let name = format!("{what}, {megabytes} MB");
            if !name.contains(&options.only) {
                continue;
            }
            let corpus = of(megabytes * 1_000_000);
            // The small ones take little time, and more rounds.
            let rounds = options.rounds * (20 / megabytes as u64).max(1);
            let times = self.line(&name, &corpus, &self.needs(&corpus), rounds);
            let of_a_byte = |time: Duration| time.as_secs_f64() / corpus.len() as f64;
            each.push([times.reference, times.ours].map(of_a_byte));
        }
        if let [[reference, ours], _, [last_reference, last_ours]] = each[..] {
            println!(
                "time of a MB at 100 MB to that at 1 MB: reference {:.2}, ours {:.2}",
                last_reference / reference,
                last_ours / ours
            );
        }
    }

    /// Hostile shapes; with no room for the output all is measured and nothing written.
    fn all_shapes(&self, options: &Options) {
        let rounds = options.rounds.div_ceil(2);
        for (name, shape) in self.shapes {
            if !name.contains(&options.only) {
                continue;
            }
            let corpus = shape(options.rows).bytes();
            let needs = self.needs(&corpus);
            self.line(name, &corpus, &needs, rounds);
            if self.no_room && name.starts_with("long") {
                let name = format!("{name}, no room");
                let short = Needs { output: 0, ..needs };
                self.line(&name, &corpus, &short, rounds);
            }
        }
    }

    fn needs(&self, corpus: &[u8]) -> Needs {
        (self.needs)(corpus).expect("an accepted corpus")
    }

    /// Times a corpus and prints a line about it.
    fn line(&self, name: &str, corpus: &[u8], needs: &Needs, rounds: u64) -> Times {
        let times = race(&self.sides, corpus, needs, rounds);
        let ms = |time: Duration| time.as_secs_f64() * 1e3;
        let mb = |bytes: usize| bytes as f64 / 1e6;
        println!(
            "{name:<36} {:>9.2} {:>9.2} {:>12.2} {:>9.2} {:>5.2} {:>10.2}",
            mb(corpus.len()),
            mb(needs.output),
            ms(times.reference),
            ms(times.ours),
            times.ours.as_secs_f64() / times.reference.as_secs_f64(),
            ms(times.beside),
        );
        times
    }
}
