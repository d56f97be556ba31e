use super::Trial;

/// A returned descriptor at 0 with this status word and start address, in a window of 0x800.
fn shown(status: u32, start: u32) -> (u32, usize) {
    let mut trial = Trial::new(0x800);
    trial.descriptor(0, 0, start, 0, status);
    let (number, part) = trial.bench.show(&trial.memory, 0);
    (number, part.len())
}

#[test]
fn the_frame_without_its_check_sequence() {
    let mut trial = Trial::new(0x100);
    trial.descriptor(0, 0, 0x20, 0, 64);
    trial.memory[0x20..0x5C].copy_from_slice(&[7; 60]);
    assert_eq!(trial.bench.show(&trial.memory, 0), (0, &[7; 60][..]));
}

#[test]
fn which_lengths_are_shown() {
    assert_eq!(shown(63, 0x100), (13, 0));
    assert_eq!(shown(64, 0x100), (0, 60));
    assert_eq!(shown(1_518, 0x100), (0, 1_514));
    assert_eq!(shown(1_519, 0x100), (13, 0));
    assert_eq!(shown(0, 0x100), (13, 0));
    // Only the length and VALID are looked at.
    assert_eq!(shown(0xFFFE_F840, 0x100), (0, 60));
    assert_eq!(shown(0x0001_0040, 0x100), (13, 0));
}

#[test]
fn where_the_frame_may_lie() {
    assert_eq!(shown(64, 0x7C0), (0, 60));
    assert_eq!(shown(64, 0x7C4), (13, 0));
    assert_eq!(shown(64, 0x101), (13, 0));
    assert_eq!(shown(64, 0x102), (13, 0));
    // Over its own descriptor is no matter here.
    assert_eq!(shown(64, 0), (0, 60));
}

#[test]
fn the_descriptor_and_the_lent_memory() {
    let mut trial = Trial::new(0x100);
    trial.descriptor(0xF0, 0, 0, 0, 64);
    let number = |address| trial.bench.show(&trial.memory, address).0;
    assert_eq!(number(0xF0), 0);
    assert_eq!(number(0xF4), 13);
    assert_eq!(number(0xF1), 13);
    assert_eq!(trial.bench.show(&trial.memory[..0xFC], 0xF1), (11, &[][..]));
}
