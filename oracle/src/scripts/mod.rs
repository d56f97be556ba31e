//! Console scripts for the comparison: made by hand, and random ones that know the bench's state.

mod bursting;
mod bursts;
mod calls;
mod chaos;
mod damage;
pub mod days;
mod filters;
pub mod hand_made;
pub mod interrupts;
mod layout;
mod malformed;
mod malformed_bursts;
mod polling;
mod readings;
mod reasons;
mod receiving;
mod register_access;
mod sending;
pub mod ticks;
mod windows;
mod writer;

use crate::compare::Script;
use crate::device::Bench;
use crate::random::Random;
use layout::POLLING;
pub use malformed::line as malformed_line;
use writer::Writer;

/// The kinds of random script.
const KINDS: [fn(&mut Writer); 20] = [
    receiving::on_a_sound_ring,
    receiving::on_a_sound_ring,
    receiving::on_a_sound_ring,
    sending::along_a_chain,
    sending::along_a_chain,
    sending::along_a_chain,
    bursting::on_a_ring,
    bursting::on_a_ring,
    bursting::along_a_chain,
    bursting::along_a_chain,
    polling::on_both_engines,
    polling::on_both_engines,
    polling::on_both_engines,
    reasons::on_a_short_ring,
    reasons::on_a_short_ring,
    damage::of_a_ring,
    chaos::in_a_small_window,
    readings::at_the_limits,
    register_access::of_all_kinds,
    windows::at_the_limits,
];

/// One random script, a new bench at its start.
pub fn random_script(random: &mut Random) -> Script {
    let mut writer = Writer::new(random.draw());
    let kind = random.pick(&KINDS);
    if random.once_in(10) {
        malformed::lines(&mut writer);
    } else {
        kind(&mut writer);
    }
    writer.lines
}

/// A bench with a sound ring, its memory, and the ring's descriptors in order; the filter registers
/// are random, receiving is started at the first descriptor with polling.
pub fn started_ring(random: &mut Random, count: usize) -> (Bench, Vec<u8>, Vec<u32>) {
    let mut writer = Writer::new(random.draw());
    let ring = layout::sound_ring(&mut writer, count);
    writer.set_filter();
    let low_bits = POLLING | writer.low_bits();
    receiving::start_by(&mut writer, ring[0].address | low_bits);
    let mut memory = writer.console.memory;
    memory.truncate(writer.console.bench.window.length as usize);
    let addresses = ring.iter().map(|place| place.address).collect();
    (writer.console.bench, memory, addresses)
}

#[cfg(test)]
mod tests {
    use super::*;
    use crate::console::Console;
    use crate::side::Side;
    use crate::ungranted::Ungranted;

    #[test]
    fn rings_of_every_size_are_sound() {
        let mut random = Random::new(3);
        for count in 1..=32 {
            let (bench, memory, ring) = started_ring(&mut random, count);
            assert!(bench.ring(&memory, count as u32, ring[0]));
            assert_eq!(bench.receiver.place, ring[0]);
            assert!(bench.receiver.polling);
        }
    }

    #[test]
    fn rings_of_mixed_bits_are_sound_but_for_them() {
        let mut writer = Writer::new(4);
        let mut without = 0;
        for count in 1..=32 {
            let mut ring = layout::sound_ring(&mut writer, count);
            let asked = format!("ring {count} {:x}", ring[0].address);
            assert_eq!(writer.say(&asked), "ring yes");
            polling::mix(&mut writer, &mut ring);
            let all = ring.iter().all(|place| place.next & POLLING != 0);
            assert_eq!(writer.say(&asked) == "ring yes", all);
            without += usize::from(!all);
            for place in &mut ring {
                place.next |= POLLING;
                place.write(&mut writer);
            }
            assert_eq!(writer.say(&asked), "ring yes");
        }
        assert!(without > 20, "{without}");
    }

    #[test]
    fn single_frames_and_sends_meet_every_kind_of_8() {
        let mut random = Random::new(9);
        let mut met = Vec::new();
        for _ in 0..300 {
            let mut console = Console::new();
            for line in random_script(&mut random) {
                match console.take(&line).as_deref() {
                    Some("frame 8") => met.push(Ungranted::of(Side::Receiving, &console.bench)),
                    Some("send 8 -") => met.push(Ungranted::of(Side::Sending, &console.bench)),
                    _ => {}
                }
            }
        }
        for kind in Ungranted::all() {
            let count = met.iter().filter(|other| **other == kind).count();
            assert!(count > 50, "{kind}: {count}");
        }
    }

    #[test]
    fn a_seed_gives_one_script() {
        let script = |seed| random_script(&mut Random::new(seed));
        assert_eq!(script(5), script(5));
        assert_ne!(script(5), script(6));
    }
}
