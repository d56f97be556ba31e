//! Scripts for the interrupt controllers, the bench at work beside them.

mod beside;
mod calls;
mod ethernet;
mod ladder;
mod malformed;
mod register_access;
mod renewed;
mod serving;
mod setup;

use super::writer::Writer;
use crate::compare::Script;
use crate::random::Random;
pub use malformed::line as malformed_line;

/// The kinds of random script.
const KINDS: [fn(&mut Writer); 18] = [
    serving::of_any_requests,
    serving::of_any_requests,
    serving::of_any_requests,
    serving::of_any_requests,
    serving::of_few_inputs,
    serving::of_few_inputs,
    serving::of_few_inputs,
    ladder::up_and_down,
    ladder::up_and_down,
    ladder::by_changed_controls,
    ethernet::served,
    ethernet::served,
    register_access::of_all_kinds,
    register_access::of_all_kinds,
    register_access::of_all_kinds,
    renewed::at_any_time,
    beside::a_busy_bench,
    malformed::lines,
];

/// One random script, a new bench at its start.
pub fn random_script(random: &mut Random) -> Script {
    let mut writer = Writer::new(random.draw());
    random.pick(&KINDS)(&mut writer);
    writer.lines
}

#[cfg(test)]
mod tests {
    use super::*;
    use crate::console::{Call, Console};

    /// The deepest nesting that scripts of a kind come to.
    fn deepest(kind: fn(&mut Writer), seeds: std::ops::Range<u64>) -> Vec<usize> {
        seeds
            .map(|seed| {
                let mut writer = Writer::new(seed);
                kind(&mut writer);
                let mut console = Console::new();
                let depths = writer.lines.iter().map(|line| {
                    console.take(line);
                    console.pair.service.len()
                });
                depths.max().unwrap_or_default()
            })
            .collect()
    }

    #[test]
    fn ladders_are_deep_and_come_down() {
        for kind in [ladder::up_and_down, ladder::by_changed_controls] {
            let deep = deepest(kind, 0..50).into_iter().filter(|depth| *depth >= 5);
            assert!(deep.count() > 40);
        }
        let mut writer = Writer::new(1);
        ladder::up_and_down(&mut writer);
        assert!(writer.console.pair.service.is_empty());
    }

    #[test]
    fn most_malformed_lines_are_no_calls() {
        let mut random = Random::new(3);
        let lines = (0..1_000).map(|_| malformed_line(&mut random));
        let calls = lines.filter(|line| crate::console::call(line).is_some());
        assert!((100..500).contains(&calls.count()));
    }

    #[test]
    fn neither_changes_the_other() {
        let mut random = Random::new(8);
        let mut console = Console::new();
        for line in (0..100).flat_map(|_| random_script(&mut random)) {
            let (bench, pair) = (console.bench.clone(), console.pair.clone());
            let memory = console.memory.clone();
            match crate::console::call(&line) {
                Some(Call::New { .. }) => {
                    console.take(&line);
                }
                Some(Call::Interrupts(_)) => {
                    console.take(&line);
                    assert_eq!(console.bench, bench);
                    assert!(console.memory == memory);
                }
                _ => {
                    console.take(&line);
                    assert_eq!(console.pair, pair);
                }
            }
        }
    }

    #[test]
    fn a_seed_gives_one_script() {
        let script = |seed| random_script(&mut Random::new(seed));
        assert_eq!(script(5), script(5));
        assert_ne!(script(5), script(6));
    }
}
