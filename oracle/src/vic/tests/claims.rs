//! What must hold of all calls, tried on random ones.

use super::*;
use crate::random::Random;
use crate::vic::Rank;

/// Random accesses, most of them to what matters for service, each at levels of its own.
fn random_call(trial: &mut Trial, random: &mut Random) {
    let controller = random.below(2);
    let slot = 4 * random.below(16) as u32;
    trial.levels = [random.word(), random.word()].map(|word| word as u16);
    if random.once_in(2) {
        trial.levels[0] = 0;
    }
    match random.below(8) {
        0 | 1 => {
            trial.take();
        }
        2 => trial.write(controller, VAR, random.word()),
        3 => trial.write(controller, VC0R + slot, random.word()),
        4 => trial.write(controller, random.pick(&[INTER, INTECR]), random.word()),
        5 => trial.write(controller, INTSR, random.word() & random.word()),
        6 => trial.write(controller, random.pick(&[SWINTR, SWINTCR]), random.word()),
        _ => trial.write(controller, VA0R + slot, random.word()),
    }
}

/// The rank of a request by its definition, if it is raised, enabled and not for FIQ.
fn rank(trial: &mut Trial, controller: usize, input: u32) -> Option<usize> {
    if trial.read(controller, ISR) >> input & 1 == 0 {
        return None;
    }
    let named = (0..16).find(|slot| trial.read(controller, VC0R + 4 * slot) == E | input);
    let within = named.unwrap_or(16 + input);
    Some(32 * controller + within as usize)
}

#[test]
fn the_answer_is_the_highest_above_all_in_service_and_none_if_there_is_none() {
    let mut random = Random::new(41);
    let mut trial = Trial::new();
    let mut none = 0;
    for _ in 0..20_000 {
        random_call(&mut trial, &mut random);
        let end = trial.ranks().into_iter().min().unwrap_or(64);
        let inputs = (0..2).flat_map(|controller| (0..16).map(move |input| (controller, input)));
        let ranks = inputs.filter_map(|(controller, input)| rank(&mut trial, controller, input));
        let wanted = ranks.filter(|rank| *rank < end).min();
        let answer = trial.pair.answer(trial.levels);
        assert_eq!(answer.map(|request| request.rank.0), wanted);
        none += usize::from(answer.is_none());
    }
    assert!((2_000..18_000).contains(&none), "{none}");
}

#[test]
fn ranks_in_service_fall_strictly() {
    let mut random = Random::new(42);
    let mut trial = Trial::new();
    let mut deepest = 0;
    for _ in 0..50_000 {
        random_call(&mut trial, &mut random);
        let ranks = &trial.pair.service;
        assert!(ranks.is_sorted_by(|before, after| before > after));
        deepest = deepest.max(ranks.len());
    }
    assert!(deepest >= 5, "{deepest}");
}

#[test]
fn taking_and_ending_gives_back_the_state() {
    let mut random = Random::new(43);
    let mut trial = Trial::new();
    let mut taken = 0;
    for _ in 0..20_000 {
        random_call(&mut trial, &mut random);
        let before = trial.clone();
        let Some(request) = trial.pair.answer(trial.levels) else {
            trial.take();
            assert_eq!(trial, before);
            continue;
        };
        let vector = trial.pair.vector(request.rank);
        assert_eq!(trial.take(), vector);
        assert_eq!(trial.pair.service.last(), Some(&request.rank));
        trial.write(request.rank.controller(), VAR, random.word());
        assert_eq!(trial, before);
        taken += 1;
    }
    assert!(taken > 2_000, "{taken}");
}

#[test]
fn one_in_service_masks_its_rank_and_all_below_and_none_above() {
    // One request at each rank in turn, over one in service at each.
    let at = |rank: Rank| {
        let mut trial = Trial::new();
        let controller = rank.controller();
        let place = (rank.0 % 32) as u32;
        if place < 16 {
            trial.slot(controller, place, place);
        }
        trial.levels[controller] = 1 << (place % 16);
        trial
    };
    for rank in Rank::all() {
        for served in Rank::all() {
            let mut trial = at(rank);
            trial.pair.service = vec![served];
            let found = trial.pair.answer(trial.levels);
            let found = found.map(|request| request.rank);
            assert_eq!(found, (rank < served).then_some(rank));
        }
    }
}
