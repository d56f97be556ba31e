//! A second model of the controllers that can make one slip. Without one it is right: another way
//! than that of the oracle's own, from request to rank, held against it at every call.

use super::slip::Slip;
use crate::console::Interrupts;
use crate::numbers::{DONE, REGISTER_NOT_MODELLED};
use crate::vic::registers::Register;

/// What a call is answered with.
#[derive(Clone, Copy, Debug, PartialEq, Eq)]
pub enum Answer {
    Read(u32, u32),
    Written(u32),
    InputsSet,
    Irq(Option<(usize, usize, u32)>),
    Fiq(bool),
}

impl Answer {
    /// As the console writes it.
    pub fn line(self) -> String {
        match self {
            Answer::Read(number, value) => format!("vread {number} {value:08x}"),
            Answer::Written(number) => format!("vwrite {number}"),
            Answer::InputsSet => "inputs".to_string(),
            Answer::Irq(None) => "irq none".to_string(),
            Answer::Irq(Some((controller, input, vector))) => {
                format!("irq {controller} {input} {vector:08x}")
            }
            Answer::Fiq(high) => format!("fiq {}", u32::from(high)),
        }
    }
}

/// What one controller holds, with room for more bits than it should.
#[derive(Clone, Default)]
pub struct Held {
    pub software: u32,
    pub enable: u32,
    pub selection: u32,
    pub protection: u32,
    pub default: u32,
    pub vectors: [u32; 16],
    pub controls: [u32; 16],
}

/// Where a request stands: its controller, its input and its slot.
#[derive(Clone, Copy, PartialEq, Eq)]
pub struct Stand {
    pub controller: usize,
    pub input: usize,
    pub slot: Option<usize>,
}

/// One in service, with its vector when it was taken.
#[derive(Clone, Copy)]
pub struct Served {
    pub stand: Stand,
    pub vector: u32,
}

#[derive(Clone, Default)]
pub struct Model {
    pub slip: Option<Slip>,
    pub held: [Held; 2],
    pub inputs: [u32; 2],
    /// What a slip keeps beside: inputs seen, and the data of VIC0_VAR.
    pub latched: [u32; 2],
    pub written: u32,
    pub service: Vec<Served>,
    /// The bench's line at this call.
    line: bool,
}

const ALL_INPUTS: u32 = 0xFFFF;
const ETHERNET: u32 = 1 << 11;

impl Model {
    pub fn with(slip: Option<Slip>) -> Model {
        Model {
            slip,
            ..Model::default()
        }
    }

    pub fn makes(&self, slip: Slip) -> bool {
        self.slip == Some(slip)
    }

    /// Goes on from where the right model stands, to make its slip anew.
    pub fn follow(&mut self, right: &Model) {
        let slip = self.slip;
        *self = right.clone();
        self.slip = slip;
    }

    /// A new bench was asked for, and answered so.
    pub fn renew(&mut self, number: u32) {
        let refused = number != DONE;
        let new = Model::with(self.slip);
        match self.slip {
            Some(Slip::NewKeeps) => self.inputs = [0; 2],
            Some(Slip::RefusedNewKeeps) if refused => self.inputs = [0; 2],
            Some(Slip::NewKeepsInputs) => {
                *self = Model {
                    inputs: self.inputs,
                    ..new
                }
            }
            Some(Slip::NewKeepsService) => {
                *self = Model {
                    service: std::mem::take(&mut self.service),
                    ..new
                }
            }
            _ => *self = new,
        }
    }

    /// Makes a call while the bench's line stands so.
    pub fn make(&mut self, call: Interrupts, line: bool) -> Answer {
        self.line = line;
        let answer = match call {
            Interrupts::Read { controller, offset } => match self.register(offset) {
                Some(register) => Answer::Read(DONE, self.read(controller, register)),
                None => Answer::Read(REGISTER_NOT_MODELLED, 0),
            },
            Interrupts::Write {
                controller,
                offset,
                value,
            } => match self.register(offset) {
                Some(register) => {
                    self.write(controller, register, value);
                    Answer::Written(DONE)
                }
                None => Answer::Written(REGISTER_NOT_MODELLED),
            },
            Interrupts::Inputs { controller, levels } => {
                self.inputs[controller] = levels.into();
                Answer::InputsSet
            }
            Interrupts::Irq => {
                let found = self.highest();
                if self.makes(Slip::TakenByAsking) {
                    self.take();
                }
                Answer::Irq(found.map(|stand| (stand.controller, stand.input, self.vector(stand))))
            }
            Interrupts::Fiq => {
                let of = |controller| self.fiq_status(controller) != 0;
                Answer::Fiq(of(0) || of(1) && !self.makes(Slip::FiqOfVic0Alone))
            }
        };
        if self.makes(Slip::InputsLatched) {
            let levels = [0, 1].map(|controller| self.levels(controller));
            self.latched = levels;
        }
        answer
    }

    fn register(&self, offset: u32) -> Option<Register> {
        match self.makes(Slip::LowBitsIgnored) {
            true => Register::at(offset & !3),
            false => Register::at(offset),
        }
    }

    /// The inputs of a controller at this call.
    pub fn levels(&self, controller: usize) -> u32 {
        let inputs = self.inputs[controller];
        let line = |bit: u32| inputs & !bit | if self.line { bit } else { 0 };
        let levels = match (self.slip, controller) {
            (Some(Slip::EthernetAt12), 0) => line(1 << 12),
            (Some(Slip::EthernetAtVic1), 1) => line(ETHERNET),
            (Some(Slip::EthernetAtVic1 | Slip::EthernetLeftOut), 0) => inputs,
            (Some(Slip::EthernetBeside), 0) => inputs | line(ETHERNET),
            (_, 0) => line(ETHERNET),
            _ => inputs,
        };
        levels | self.latched[controller]
    }

    pub fn raw(&self, controller: usize) -> u32 {
        match self.makes(Slip::SoftwareNotRaw) {
            true => self.levels(controller),
            false => self.levels(controller) | self.held[controller].software & ALL_INPUTS,
        }
    }

    pub fn irq_status(&self, controller: usize) -> u32 {
        let held = &self.held[controller];
        self.raw(controller) & held.enable & !held.selection
    }

    pub fn fiq_status(&self, controller: usize) -> u32 {
        let held = &self.held[controller];
        let enable = match self.makes(Slip::DisabledFiq) {
            true => ALL_INPUTS,
            false => held.enable,
        };
        self.raw(controller) & enable & held.selection
    }
}
