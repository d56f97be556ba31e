use super::{Trial, GRANTED};

#[test]
fn a_grant_writes_the_status_word_alone() {
    let mut trial = Trial::new(64);
    trial.put(0x1C, 0xFFFE_FFFF);
    let mut expected = trial.memory.clone();
    expected[0x1C..0x20].copy_from_slice(&[0, 0, 1, 0]);
    let before = trial.bench.clone();
    assert_eq!(trial.bench.grant(&mut trial.memory, 0x10), 0);
    assert_eq!(trial.memory, expected);
    assert_eq!(trial.get(0x1C), GRANTED);
    assert_eq!(trial.bench, before);
}

#[test]
fn refused_grants_change_nothing() {
    let mut trial = Trial::new(64);
    trial.put(0x0C, 0x0001_0040);
    let before = trial.memory.clone();
    let mut grant = |address| trial.bench.grant(&mut trial.memory, address);
    assert_eq!(grant(0), 14);
    assert_eq!(grant(2), 13);
    assert_eq!(grant(0x34), 13);
    assert_eq!(grant(0xFFFF_FFFC), 13);
    assert_eq!(trial.memory, before);
    assert_eq!(trial.bench.grant(&mut trial.memory[..60], 2), 11);
}
