//! The lines for the interrupt controllers: `vread`, `vwrite`, `inputs`, `irq` and `fiq`.

use super::parse::hexadecimal;
use crate::vic::{Levels, Pair};

#[derive(Clone, Copy, Debug, PartialEq, Eq)]
pub enum Interrupts {
    Read {
        controller: usize,
        offset: u32,
    },
    Write {
        controller: usize,
        offset: u32,
        value: u32,
    },
    Inputs {
        controller: usize,
        levels: u16,
    },
    Irq,
    Fiq,
}

impl Interrupts {
    /// The call that a line's words name.
    pub fn parse(words: &[&[u8]]) -> Option<Interrupts> {
        Some(match *words {
            [b"vread", which, offset] => Interrupts::Read {
                controller: controller(which)?,
                offset: hexadecimal(offset)?,
            },
            [b"vwrite", which, offset, value] => Interrupts::Write {
                controller: controller(which)?,
                offset: hexadecimal(offset)?,
                value: hexadecimal(value)?,
            },
            [b"inputs", which, value] => Interrupts::Inputs {
                controller: controller(which)?,
                // There are sixteen; what stands above them is not looked at.
                levels: hexadecimal(value)? as u16,
            },
            [b"irq"] => Interrupts::Irq,
            [b"fiq"] => Interrupts::Fiq,
            _ => return None,
        })
    }

    /// Makes the call; gives the line written for it. `inputs` is what was set, `levels` what stands
    /// at the controllers with the bench's line.
    pub fn make(self, pair: &mut Pair, inputs: &mut Levels, levels: Levels) -> String {
        match self {
            Interrupts::Read { controller, offset } => {
                let (number, value) = pair.read(controller, offset, levels);
                format!("vread {number} {value:08x}")
            }
            Interrupts::Write {
                controller,
                offset,
                value,
            } => format!("vwrite {}", pair.write(controller, offset, value)),
            Interrupts::Inputs { controller, levels } => {
                inputs[controller] = levels;
                "inputs".to_string()
            }
            Interrupts::Irq => match pair.answer(levels) {
                Some(request) => {
                    let controller = request.rank.controller();
                    let vector = pair.vector(request.rank);
                    format!("irq {controller} {} {vector:08x}", request.input)
                }
                None => "irq none".to_string(),
            },
            Interrupts::Fiq => format!("fiq {}", u32::from(pair.fiq(levels))),
        }
    }
}

/// A controller by its one digit; it is no number with zeros in front.
fn controller(word: &[u8]) -> Option<usize> {
    match word {
        b"0" => Some(0),
        b"1" => Some(1),
        _ => None,
    }
}
