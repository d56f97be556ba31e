//! Register accesses: every offset, bit by bit, and registers that set and clear others.

use crate::scripts::writer::Writer;
use crate::vic::registers::Register;

pub fn of_all_kinds(writer: &mut Writer) {
    writer.say("new 0 64");
    match writer.random.below(6) {
        0 => each_bit(writer),
        1 | 2 => each_register(writer),
        3 => set_and_clear(writer),
        4 => between_registers(writer),
        _ => {
            for _ in 0..100 {
                writer.any_access();
            }
        }
    }
    writer.look_at_interrupts();
}

/// One register, each bit written alone and left out alone.
fn each_bit(writer: &mut Writer) {
    let registers: Vec<Register> = Register::all().collect();
    let register = writer.random.pick(&registers);
    let controller = writer.controller();
    for bit in 0..32 {
        for value in [1 << bit, !(1 << bit)] {
            writer.vwrite(controller, register, value);
            writer.vread(controller, register);
        }
    }
}

/// Every register of both controllers written, and then all of them read.
fn each_register(writer: &mut Writer) {
    for controller in 0..2 {
        for register in Register::all() {
            let value = writer.register_value();
            writer.vwrite(controller, register, value);
        }
    }
    for controller in 0..2 {
        for register in Register::all() {
            writer.vread(controller, register);
        }
    }
}

/// Every offset behind a register and before the next, and some past the last one.
fn between_registers(writer: &mut Writer) {
    let there = |offset: &u32| Register::at(*offset).is_some();
    let controller = writer.controller();
    for offset in (0x20..0x140).step_by(4).filter(|offset| !there(offset)) {
        if writer.random.once_in(2) {
            writer.say(format!("vread {controller} {offset:x}"));
        } else {
            writer.say(format!("vwrite {controller} {offset:x} ffffffff"));
        }
    }
    for _ in 0..20 {
        let offset = 0x240 + writer.random.below(0x100);
        writer.say(format!("vread {controller} {offset:x}"));
        writer.say(format!("vwrite {controller} {offset:x} ffffffff"));
    }
    for register in Register::all() {
        writer.vread(controller, register);
    }
}

/// The registers of sixteen bits among each other.
fn set_and_clear(writer: &mut Writer) {
    let registers = [
        Register::Selection,
        Register::Enable,
        Register::EnableClear,
        Register::Software,
        Register::SoftwareClear,
        Register::Protection,
        Register::IrqStatus,
    ];
    for _ in 0..30 {
        let controller = writer.controller();
        let register = writer.random.pick(&registers);
        let value = writer.register_value();
        writer.vwrite(controller, register, value);
        let looked_at = writer.random.pick(&registers);
        writer.vread(controller, looked_at);
        if writer.random.once_in(4) {
            let levels = writer.random.word() as u16;
            writer.set_inputs(controller, levels);
            writer.look_at_interrupts();
        }
    }
}
