//! Wrong readings of the packet status bits, each by the word that it would have left: a model that
//! makes one of them is told by the deliveries, or grants, whose word is another then.

use super::deliveries::Delivery;
use crate::address::BROADCAST;
use crate::device::VALID;
use crate::taken::Taken;
use crate::tally::Tally;

const BIT_27: u32 = 0x0800_0000;
const BIT_28: u32 = 0x1000_0000;

type Reading = (&'static str, fn(&Delivery) -> u32);

/// What each would have written at a delivery.
const AT_A_DELIVERY: [Reading; 9] = [
    ("no bit at all", |delivery| delivery.length),
    ("bits 27 and 28 exchanged", |delivery| {
        match delivery.taken {
            Taken::Broadcast => delivery.length | BIT_27,
            Taken::AllMulticast | Taken::Hash => delivery.length | BIT_28,
            Taken::Own | Taken::ReceiveAll => delivery.length,
        }
    }),
    ("both bits for broadcast", |delivery| match delivery.taken {
        Taken::Broadcast => delivery.length | BIT_27 | BIT_28,
        _ => delivery.word,
    }),
    ("bit 28 by the address under receive-all", |delivery| {
        let by_address = delivery.destination == BROADCAST;
        by_receive_all(delivery, by_address, BIT_28)
    }),
    ("bit 27 by the address under receive-all", |delivery| {
        let group = delivery.destination[0] & 1 == 1;
        let by_address = group && delivery.destination != BROADCAST;
        by_receive_all(delivery, by_address, BIT_27)
    }),
    ("no bit for a group by hash", |delivery| {
        match delivery.taken {
            Taken::Hash => delivery.length,
            _ => delivery.word,
        }
    }),
    ("bit 27 for the own address", |delivery| {
        match delivery.taken {
            Taken::Own => delivery.length | BIT_27,
            _ => delivery.word,
        }
    }),
    ("own before broadcast and group", |delivery| {
        match delivery.destination == delivery.station {
            true => delivery.length,
            false => delivery.word,
        }
    }),
    ("bits kept that stood beside VALID", |delivery| {
        let kept = delivery.before & (BIT_27 | BIT_28);
        delivery.word | kept
    }),
];

/// What each would have left at a grant behind a delivery, in place of VALID alone.
const AT_A_GRANT: [Reading; 3] = [
    ("the old word kept by a grant", |delivery| {
        delivery.word | VALID
    }),
    ("bit 27 kept by a grant", |delivery| {
        delivery.word & BIT_27 | VALID
    }),
    ("bit 28 kept by a grant", |delivery| {
        delivery.word & BIT_28 | VALID
    }),
];

fn by_receive_all(delivery: &Delivery, by_address: bool, bit: u32) -> u32 {
    match delivery.taken == Taken::ReceiveAll && by_address {
        true => delivery.length | bit,
        false => delivery.word,
    }
}

fn name(reading: &str) -> String {
    format!("status word seen that tells: {reading}")
}

pub fn expect(tally: &mut Tally) {
    for (reading, _) in AT_A_DELIVERY.iter().chain(&AT_A_GRANT) {
        tally.expect(name(reading));
    }
}

/// Counts the readings that a delivery tells from the right one, its word having been seen.
pub fn delivery_seen(tally: &mut Tally, delivery: &Delivery) {
    differing(tally, &AT_A_DELIVERY, delivery, delivery.word);
}

/// The same for a grant behind that delivery.
pub fn grant_seen(tally: &mut Tally, delivery: &Delivery) {
    differing(tally, &AT_A_GRANT, delivery, VALID);
}

fn differing(tally: &mut Tally, readings: &[Reading], delivery: &Delivery, right: u32) {
    for (reading, left) in readings {
        if left(delivery) != right {
            tally.met(name(reading));
        }
    }
}
