//! What the comparing programs share: their options, their seeds, and how they end.

use crate::tally::Tally;
use std::process::ExitCode;
use std::time::{Duration, Instant, SystemTime, UNIX_EPOCH};

/// How much of a comparison is made.
#[derive(Clone, Copy, Debug, PartialEq, Eq)]
pub enum Extent {
    /// This many random cases from this seed on; before them, if they are not fewer than in a whole
    /// comparison, those made by hand.
    Whole { cases: u64, seed: u64 },
    /// Random ones of fresh seeds.
    Timed { seconds: u64 },
}

/// What a whole comparison is.
pub struct Program {
    pub name: &'static str,
    /// How many random cases it has.
    pub cases: u64,
    /// Puts into the tally what it must meet.
    pub expect: fn(&mut Tally),
    /// How often it must meet a kind.
    pub least: fn(&str) -> usize,
}

/// A comparison on cases made by hand and on random ones.
pub trait Comparison {
    const PROGRAM: Program;

    fn tally(&mut self) -> &mut Tally;
    fn made_by_hand(&mut self) -> Result<(), String>;
    /// The random case of a seed.
    fn random(&mut self, seed: u64) -> Result<(), String>;
}

/// The extent that `[--cases N] [--seed S]` or `--seconds N` ask for.
pub fn extent<C: Comparison>(words: &[String]) -> Option<Extent> {
    if words.first().is_some_and(|name| name == "--seconds") {
        let [seconds] = options(words, ["--seconds"], [0]).filter(|_| words.len() == 2)?;
        return Some(Extent::Timed { seconds });
    }
    let [cases, seed] = options(words, ["--cases", "--seed"], [C::PROGRAM.cases, 0])?;
    Some(Extent::Whole { cases, seed })
}

/// Numbers that are given behind their names; one that is not given is as it was.
pub fn options<const N: usize>(
    words: &[String],
    names: [&str; N],
    mut numbers: [u64; N],
) -> Option<[u64; N]> {
    for option in words.chunks(2) {
        let [name, number] = option else {
            return None;
        };
        let place = names.iter().position(|known| known == name)?;
        numbers[place] = number.parse().ok()?;
    }
    Some(numbers)
}

/// Makes a comparison and tells how it ended.
pub fn compare<C: Comparison>(comparison: &mut C, extent: Extent) -> ExitCode {
    let program = C::PROGRAM;
    // A shorter comparison need not meet every kind.
    let whole = matches!(extent, Extent::Whole { cases, .. } if cases >= program.cases);
    if whole {
        (program.expect)(comparison.tally());
    }
    if let Err(difference) = all(comparison, extent, whole) {
        println!("{difference}\n{}: differs", program.name);
        return ExitCode::FAILURE;
    }
    let least = |kind: &str| if whole { (program.least)(kind) } else { 0 };
    end(program.name, comparison.tally(), least, "no difference")
}

fn all<C: Comparison>(comparison: &mut C, extent: Extent, by_hand: bool) -> Result<(), String> {
    if by_hand {
        comparison.made_by_hand()?;
    }
    match extent {
        Extent::Whole { cases, seed } => {
            (seed..seed + cases).try_for_each(|seed| random(comparison, seed))
        }
        Extent::Timed { seconds } => {
            fresh_seeds(seconds).try_for_each(|seed| random(comparison, seed))
        }
    }
}

fn random<C: Comparison>(comparison: &mut C, seed: u64) -> Result<(), String> {
    comparison
        .random(seed)
        .map_err(|text| format!("seed {seed} (again by --cases 1 --seed {seed})\n{text}"))
}

/// Seeds by the clock, for as long as there is time.
pub fn fresh_seeds(seconds: u64) -> impl Iterator<Item = u64> {
    let end = Instant::now() + Duration::from_secs(seconds);
    let clock = SystemTime::now().duration_since(UNIX_EPOCH);
    let first = clock.map_or(0, |time| time.as_nanos() as u64);
    (0..)
        .map(move |place| first.wrapping_add(place))
        .take_while(move |_| Instant::now() < end)
}

/// Prints what a program has met. It has failed if that is less than `least` asks of a kind.
pub fn end(name: &str, tally: &Tally, least: impl Fn(&str) -> usize, said: &str) -> ExitCode {
    print!("{tally}");
    let missing = tally.missing(least);
    if !missing.is_empty() {
        println!("{name}: met too seldom: {}", missing.join("; "));
        return ExitCode::FAILURE;
    }
    println!("{name}: {said}");
    ExitCode::SUCCESS
}

#[cfg(test)]
mod tests {
    use super::*;

    /// A comparison of which a case, or a kind, is wrong.
    #[derive(Default)]
    struct Counting {
        tally: Tally,
        wrong: Option<u64>,
        seldom: bool,
    }

    impl Comparison for Counting {
        const PROGRAM: Program = Program {
            name: "counting",
            cases: 10,
            expect: |tally| tally.expect("by hand"),
            least: |_| 1,
        };

        fn tally(&mut self) -> &mut Tally {
            &mut self.tally
        }

        fn made_by_hand(&mut self) -> Result<(), String> {
            if !self.seldom {
                self.tally.met("by hand");
            }
            Ok(())
        }

        fn random(&mut self, seed: u64) -> Result<(), String> {
            self.tally.met("case");
            match self.wrong {
                Some(wrong) if wrong == seed => Err("wrong".to_string()),
                _ => Ok(()),
            }
        }
    }

    fn extent_of(words: &str) -> Option<Extent> {
        let words: Vec<String> = words.split_whitespace().map(String::from).collect();
        extent::<Counting>(&words)
    }

    #[test]
    fn options_by_their_names() {
        let whole = |cases, seed| Some(Extent::Whole { cases, seed });
        assert_eq!(extent_of(""), whole(10, 0));
        assert_eq!(extent_of("--seed 7 --cases 3"), whole(3, 7));
        let timed = Some(Extent::Timed { seconds: 5 });
        assert_eq!(extent_of("--seconds 5"), timed);
        for words in [
            "--seconds",
            "--seconds x",
            "--seconds 5 --seed 1",
            "--seconds 5 --seconds 6",
            "--cases",
            "--cases -1",
            "--seed 1 --seconds 5",
            "other 1",
            "7",
        ] {
            assert_eq!(extent_of(words), None, "{words}");
        }
    }

    #[test]
    fn a_difference_and_a_kind_never_met_fail() {
        let ended = |wrong, seldom, cases| {
            let mut counting = Counting {
                wrong,
                seldom,
                ..Counting::default()
            };
            let code = compare(&mut counting, Extent::Whole { cases, seed: 0 });
            (code, counting.tally.count("case"))
        };
        assert_eq!(ended(None, false, 10), (ExitCode::SUCCESS, 10));
        assert_eq!(ended(Some(4), false, 10), (ExitCode::FAILURE, 5));
        assert_eq!(ended(None, true, 10), (ExitCode::FAILURE, 10));
        // Fewer cases than a whole comparison has need not meet every kind.
        assert_eq!(ended(None, true, 9), (ExitCode::SUCCESS, 9));
    }

    #[test]
    fn fresh_seeds_end() {
        assert_eq!(fresh_seeds(0).count(), 0);
    }
}
