//! A second model of the counters and of the tick that can make one slip. Without one it is right: it
//! goes by what the lines were answered, and is held against the oracle's own at every line that shows
//! something of it.

use super::slip::Slip;
use crate::compare::counters::happened::{Found, Happened};
use crate::console::{Call, Console};
use crate::device::registers::{DMA_ENABLE, START_FETCH, TX_TO};
use crate::numbers::{
    BURST_OR_PAIR, CHAIN_FAULT, DONE, FRAME_ADDRESS, LENT_LENGTH, NOT_GRANTED, NOT_RUNNING,
    REGISTER_NOT_MODELLED, SEND_LENGTH,
};

const RX_TO: u32 = 1 << 3;
const TX_FULL: u32 = 1 << 17;
const TX_NEXT: u32 = 1 << 22;

const STATUS: u32 = 0x08;
const SEND_START: u32 = 0x30;
const TIME_OUT: u32 = 0x48;

#[derive(Clone, Default)]
pub struct Model {
    pub slip: Option<Slip>,
    delivered: usize,
    lost: usize,
    sent: usize,
    count: u64,
    value: u32,
    /// The status bits that ticks have set.
    raised: u32,
    /// A slip has stopped sending.
    stopped: bool,
}

impl Model {
    pub fn with(slip: Option<Slip>) -> Model {
        Model {
            slip,
            ..Model::default()
        }
    }

    fn makes(&self, slip: Slip) -> bool {
        self.slip == Some(slip)
    }

    /// Goes on from where the right model stands, to make its slip anew.
    pub fn follow(&mut self, right: &Model) {
        let slip = self.slip;
        *self = right.clone();
        self.slip = slip;
    }

    /// Takes a line; gives its answer if it shows something of the model.
    pub fn take(&mut self, call: &Call, happened: &Happened, console: &Console) -> Option<String> {
        match happened {
            Happened::New { number } => self.renew(*number),
            Happened::Write {
                offset,
                value,
                number,
            } => self.write(*offset, *value, *number),
            Happened::Received { numbers, burst } => self.received(numbers, *burst),
            Happened::Sent { numbers, run } => self.sends(numbers, *run),
            Happened::Tick { found } => return Some(format!("tick {}", self.tick(*found))),
            Happened::Other => {}
        }
        self.answer(call, console)
    }

    fn answer(&mut self, call: &Call, console: &Console) -> Option<String> {
        let status = console.bench.read(STATUS).1 & !TX_TO | self.raised;
        Some(match call {
            Call::Counters => {
                let Model {
                    delivered,
                    lost,
                    sent,
                    count,
                    ..
                } = *self;
                if self.makes(Slip::ReadingClears) {
                    (self.delivered, self.lost, self.sent) = (0, 0, 0);
                }
                if self.makes(Slip::ReadingClearsTheCount) {
                    self.count = 0;
                }
                format!("counters {delivered} {lost} {sent} {count}")
            }
            Call::Read { offset: TIME_OUT } => match self.slip {
                Some(Slip::NotModelled) => format!("read {REGISTER_NOT_MODELLED} 00000000"),
                Some(Slip::CountRead) => format!("read 0 {:08x}", self.count),
                _ => format!("read 0 {:08x}", self.value),
            },
            Call::Read { offset: STATUS } => format!("read 0 {status:08x}"),
            Call::Write {
                offset: TIME_OUT, ..
            } => match self.slip {
                Some(Slip::NotModelled) => format!("write {REGISTER_NOT_MODELLED}"),
                _ => "write 0".to_string(),
            },
            Call::Line => {
                let enabled = console.bench.read(0x04).1;
                format!("line {}", u32::from(status & enabled != 0))
            }
            Call::State => {
                let (receiver, sender) = (console.bench.receiver, console.bench.sender);
                let running = sender.running && !self.stopped;
                format!(
                    "state {} {:08x} {} {:08x}",
                    u32::from(receiver.running),
                    receiver.place,
                    u32::from(running),
                    sender.place
                )
            }
            _ => return None,
        })
    }

    fn renew(&mut self, number: u32) {
        let new = Model::with(self.slip);
        let old = std::mem::replace(self, new);
        let keeps = match self.slip {
            Some(Slip::NewKeeps) => true,
            Some(Slip::RefusedNewKeeps) => number != DONE,
            _ => false,
        };
        if keeps {
            (self.delivered, self.lost, self.sent) = (old.delivered, old.lost, old.sent);
        }
        match self.slip {
            Some(Slip::NewKeepsTheCount) => self.count = old.count,
            Some(Slip::NewKeepsTheValue) => self.value = old.value,
            _ => {}
        }
    }

    fn write(&mut self, offset: u32, value: u32, number: u32) {
        if number != DONE {
            return;
        }
        match offset {
            STATUS => self.raised &= !value,
            SEND_START => {
                let (enable, fetch) = (value & DMA_ENABLE != 0, value & START_FETCH != 0);
                if !enable && self.makes(Slip::StopClears)
                    || enable && fetch && self.makes(Slip::StartClears)
                {
                    self.count = 0;
                }
                self.stopped = false;
            }
            TIME_OUT => self.write_time_out(value),
            _ => {}
        }
    }

    fn write_time_out(&mut self, value: u32) {
        let kept = match self.slip {
            Some(Slip::NotModelled | Slip::ReadOnly) => return,
            Some(Slip::SeventeenBits) => value & 0x1_FFFF,
            Some(Slip::AllBits) => value,
            Some(Slip::EightBits) => value & 0xFF,
            _ => value & 0xFFFF,
        };
        self.value = kept;
        let zero = match self.slip {
            Some(Slip::ZeroBeforeTheMask) => value == 0,
            Some(Slip::ZeroWriteWaits) => false,
            Some(Slip::AnyWriteClears) => true,
            _ => kept == 0,
        };
        if zero {
            self.count = 0;
        } else if self.makes(Slip::SmallerWriteFires) && self.count > u64::from(kept) {
            self.fire();
        }
    }

    fn received(&mut self, numbers: &[u32], burst: bool) {
        let of = |number: u32| numbers.iter().filter(|other| **other == number).count();
        let (mut delivered, mut lost) = (of(DONE), of(NOT_GRANTED));
        match self.slip {
            Some(Slip::FilteredLost) => lost += of(FRAME_ADDRESS),
            Some(Slip::FaultLost) => lost += of(CHAIN_FAULT),
            Some(Slip::StoppedLost) => lost += of(NOT_RUNNING),
            Some(Slip::OutsidePairLost) => lost += of(BURST_OR_PAIR),
            Some(Slip::FilteredDelivered) => delivered += of(FRAME_ADDRESS),
            Some(Slip::FaultDelivered) => delivered += of(CHAIN_FAULT),
            Some(Slip::LostDelivered) => delivered += lost,
            Some(Slip::BurstOnce) if burst => {
                (delivered, lost) = (delivered.min(1), lost.min(1));
            }
            Some(Slip::BurstNotCounted) if burst => (delivered, lost) = (0, 0),
            Some(Slip::DeliveryClears) if delivered > 0 => self.count = 0,
            _ => {}
        }
        self.delivered += delivered;
        self.lost += lost;
    }

    fn sends(&mut self, numbers: &[u32], run: bool) {
        let of = |number: u32| numbers.iter().filter(|other| **other == number).count();
        let done = of(DONE);
        self.sent += match self.slip {
            Some(Slip::RunOnce) if run => done.min(1),
            Some(Slip::RunNotCounted) if run => 0,
            Some(Slip::RunSteps) if run => numbers.len(),
            Some(Slip::RefusedSent) => done + of(NOT_GRANTED),
            _ => done,
        };
        if self.makes(Slip::SendLossCounts) {
            self.lost += of(NOT_GRANTED);
        }
        let clears = match self.slip {
            Some(Slip::SendLeaves) => done > 0 && run,
            Some(Slip::RunLeaves) => done > 0 && !run,
            Some(Slip::RefusedBy3Clears) => done + of(NOT_RUNNING) > 0,
            Some(Slip::RefusedBy7Clears) => done + of(CHAIN_FAULT) > 0,
            Some(Slip::RefusedBy8Clears) => done + of(NOT_GRANTED) > 0,
            Some(Slip::RefusedBy12Clears) => done + of(SEND_LENGTH) > 0,
            _ => done > 0,
        };
        if clears {
            self.count = 0;
        }
    }

    /// A tick that finds this, or is lent another length; gives its number.
    fn tick(&mut self, found: Option<[Found; 2]>) -> u32 {
        let Some([receiving, mut sending]) = found else {
            match self.slip {
                Some(Slip::RefusedClears) => self.count = 0,
                Some(Slip::RefusedCounts) => self.count += 1,
                Some(Slip::LentNotAsked) => return DONE,
                _ => {}
            }
            return LENT_LENGTH;
        };
        sending.running &= !self.stopped;
        let at = |running, inside, granted| {
            (sending.running, sending.inside, sending.granted) == (running, inside, granted)
        };
        let stopped = !sending.running;
        let outside = sending.running && !sending.inside;
        let returned = at(true, true, false);
        match self.slip {
            Some(Slip::RefusedWhileStopped) if stopped => return NOT_RUNNING,
            Some(Slip::RefusedReturned) if returned => return NOT_GRANTED,
            Some(Slip::RefusedOutside) if outside => return CHAIN_FAULT,
            _ => {}
        }
        let waits = match self.slip {
            Some(Slip::StoppedCounts) => sending.waits() || stopped,
            Some(Slip::ReturnedCounts) => sending.waits() || returned,
            Some(Slip::OutsideCounts) => sending.waits() || outside,
            Some(Slip::BufferAsked) => sending.waits() && sending.sendable,
            Some(Slip::PollingAsked) => sending.waits() && sending.polling,
            Some(Slip::ReceivingAsked) => receiving.waits(),
            Some(Slip::NeverCounts) => false,
            _ => sending.waits(),
        };
        let keeps = match self.slip {
            Some(Slip::StoppedKeeps) => stopped,
            Some(Slip::ReturnedKeeps) => returned,
            Some(Slip::OutsideKeeps) => outside,
            _ => false,
        };
        if self.value == 0 {
            self.zero(waits);
        } else if waits {
            self.one_more();
        } else if !keeps {
            self.count = 0;
        }
        DONE
    }

    /// A tick while the value is 0.
    fn zero(&mut self, waits: bool) {
        match self.slip {
            Some(Slip::ZeroFires) if waits => self.fire(),
            Some(Slip::ZeroCounts) if waits => self.count += 1,
            _ => self.count = 0,
        }
    }

    fn one_more(&mut self) {
        self.count += 1;
        let most = match self.slip {
            Some(Slip::FiresAtTheValue) => u64::from(self.value) - 1,
            Some(Slip::FiresOneLater) => u64::from(self.value) + 1,
            Some(Slip::FiresOnce) if self.raised != 0 => u64::MAX,
            _ => self.value.into(),
        };
        if self.count > most {
            self.fire();
        }
    }

    fn fire(&mut self) {
        self.raised |= match self.slip {
            Some(Slip::RaisesRxTo) => RX_TO,
            Some(Slip::RaisesTxFull) => TX_FULL,
            Some(Slip::RaisesTxNext) => TX_NEXT,
            Some(Slip::RaisesBoth) => RX_TO | TX_TO,
            Some(Slip::RaisesNothing) => 0,
            _ => TX_TO,
        };
        self.count = match self.slip {
            Some(Slip::FireKeepsTheCount) => self.count,
            Some(Slip::FireLeavesOne) => 1,
            _ => 0,
        };
        self.stopped |= self.makes(Slip::FireStopsSending);
    }
}
