//! The interrupt controllers: every register, every rank, nesting and its end, and the bench's line.

/// What both controllers make of their inputs.
const LOOK: &str = "irq\nfiq\nvread 0 0\nvread 0 4\nvread 0 8\nvread 1 0\nvread 1 4\nvread 1 8\n";

/// All inputs enabled, and vectors that tell all slots and both defaults apart.
fn set_up() -> String {
    let mut text = String::from("new 0 64\n");
    for controller in 0..2 {
        text += &format!("vwrite {controller} 10 ffff\nvwrite {controller} 34 d{controller}00\n");
        for slot in 0..16 {
            let offset = 0x100 + 4 * slot;
            text += &format!("vwrite {controller} {offset:x} a{controller}{slot:x}0\n");
        }
    }
    text
}

fn slot(controller: usize, slot: usize, input: usize) -> String {
    let (offset, control) = (0x200 + 4 * slot, 0x20 | input);
    format!("vwrite {controller} {offset:x} {control:x}\n")
}

pub fn before_any_new() -> String {
    format!(
        "{LOOK}vread 0 30\nvread 1 30\nvwrite 0 30 1\nvwrite 1 30 1\ninputs 0 ffff\ninputs 1 ffff\n\
         vwrite 0 10 8000\nvwrite 0 34 77\n{LOOK}vread 0 30\n{LOOK}vwrite 0 30 0\n{LOOK}new 0 0\n\
         {LOOK}vread 0 10\nvread 0 34\n"
    )
}

/// Every offset up to past the last register, read, written with all bits and none, and read again.
pub fn registers() -> String {
    let mut text = String::from("new 0 64\ninputs 0 5555\ninputs 1 aaaa\n");
    for controller in 0..2 {
        for offset in (0..0x280_u32).chain([0x1000, 0x1030, 0x8000_0010, 0xFFFF_F030, 0xFFFF_FFFF])
        {
            for value in ["ffffffff", "0"] {
                text += &format!(
                    "vread {controller} {offset:x}\nvwrite {controller} {offset:x} {value}\n\
                     vread {controller} {offset:x}\n"
                );
            }
        }
        text += LOOK;
    }
    text
}

/// All inputs are high and fall one by one as they are answered: without slots, and with a few.
pub fn ranks() -> String {
    let few = [(0, 3, 15), (0, 12, 0), (1, 0, 7), (1, 15, 1)];
    let few: String = few.map(|(c, i, n)| slot(c, i, n)).concat();
    let turned: String = (0..16)
        .map(|i| slot(0, i, 15 - i) + &slot(1, i, 15 - i))
        .collect();
    let mut text = String::new();
    for slots in [String::new(), few, turned] {
        text += &format!("{}{slots}write 4 1\n", set_up());
        for controller in 0..2 {
            for down in [false, true] {
                for place in 0..=16 {
                    // The lower inputs gone, or the higher ones.
                    let levels = match down {
                        true => 0xFFFF >> place,
                        false => 0xFFFF << place & 0xFFFF,
                    };
                    text += &format!("inputs {controller} {levels:x}\nirq\n");
                }
            }
            text += "inputs 0 0\nwrite 4 0\nirq\ninputs 1 ffff\n";
        }
    }
    text
}

/// Two slots for one input, and slots that are not enabled.
pub fn slots() -> String {
    let mut text = set_up();
    for controller in [1, 0] {
        text += &format!("inputs {controller} 40\nirq\n");
        for (place, control) in [
            (9, 0x26),
            (4, 0x06),
            (12, 0x26),
            (4, 0x26),
            (9, 0),
            (4, 0x36),
        ] {
            let offset = 0x200 + 4 * place;
            text += &format!("vwrite {controller} {offset:x} {control:x}\nirq\n");
            text += &format!("vread {controller} {offset:x}\n");
        }
    }
    text
}

/// From the lowest rank up to the highest, all 64 in service, and back; a write of the other VAR
/// before each.
pub fn all_ranks() -> String {
    let mut text = set_up();
    for controller in [1, 0] {
        for input in (0..16).rev() {
            let line = match (controller, input) {
                (0, 11) => "write 4 1\n",
                _ => "write 4 0\n",
            };
            let levels = 1 << input;
            text += &format!(
                "{line}inputs {controller} {levels:x}\nirq\nvread 0 30\nirq\nvread 1 30\n"
            );
        }
        for place in (0..16).rev() {
            text += &slot(controller, place, 0);
            text += "irq\nvread 0 30\nirq\nvread 1 30\n";
        }
    }
    text += "inputs 0 ffff\ninputs 1 ffff\n";
    for controller in [0, 1] {
        for _ in 0..32 {
            text += &format!("vwrite {} 30 0\nirq\n", 1 - controller);
            text += &format!("vwrite {controller} 30 0\nirq\nvread 1 30\n");
        }
    }
    text
}

/// The reads and writes that 4.3 and 4.10.10 ask for, over one of VIC1 and over one of VIC0.
pub fn ends() -> String {
    let mut text = String::new();
    for (below, above) in [(1, 1), (1, 0), (0, 0)] {
        for writes in [&[0][..], &[1], &[0, 1], &[1, 0], &[0, 0], &[1, 1]] {
            text += &set_up();
            text += &slot(above, 2, 3);
            text += &format!("inputs {below} 100\nirq\nvread 0 30\nvread 1 30\n");
            text += &format!("inputs {above} 108\nirq\nvread 0 30\nvread 1 30\nirq\n");
            for controller in writes {
                text += &format!("vwrite {controller} 30 12345678\nirq\nvread 1 30\n");
            }
            text += "inputs 0 0\ninputs 1 0\nvread 0 30\nvread 1 30\n";
            text += "vwrite 1 30 0\nvwrite 0 30 0\nvwrite 1 30 0\ninputs 1 1\nirq\n";
        }
    }
    text
}

/// What is written while one is in service: its control, its vector, its enable bit.
pub fn changed_while_served() -> String {
    let mut text = String::new();
    for controller in [0, 1] {
        text += &set_up();
        text += &slot(controller, 8, 3);
        text += &format!("inputs {controller} 8\nvread 0 30\nirq\nvread 1 30\n");
        text += &slot(controller, 4, 3);
        text += &format!("irq\nvread 1 30\nvwrite {controller} 220 0\nirq\nvread 1 30\n");
        text += &format!("vwrite {controller} 120 1234\nvread 1 30\nvread 0 30\nvread 1 30\n");
        text += &format!("vwrite {controller} 14 8\nirq\nvwrite {controller} c 8\nirq\nfiq\n");
        text += &format!("vwrite {controller} 10 8\nirq\nfiq\nvwrite {controller} c 0\nirq\nfiq\n");
        text += &format!("vwrite {controller} 30 0\nirq\nvwrite {controller} 30 0\nirq\n{LOOK}");
    }
    text
}

/// Software interrupts, FIQ and disabled requests on every input of both controllers.
pub fn statuses() -> String {
    let mut text = set_up();
    for controller in 0..2 {
        for input in 0..16 {
            let bit = 1 << input;
            text += &format!("vwrite {controller} 18 {bit:x}\n{LOOK}");
            text += &format!("vwrite {controller} c {bit:x}\n{LOOK}");
            text += &format!("vwrite {controller} 14 {bit:x}\n{LOOK}");
            text += &format!("vwrite {controller} c 0\n{LOOK}");
            text +=
                &format!("vwrite {controller} 10 {bit:x}\nvwrite {controller} 1c {bit:x}\n{LOOK}");
        }
    }
    text
}

/// The bench's line: raised, taken, served and ended, whatever the caller says of input 11.
pub fn ethernet() -> String {
    let mut text = String::new();
    for levels in ["0", "800", "1000", "f7ff", "ffff"] {
        text += &set_up();
        text += &slot(0, 0, 11);
        text += &format!(
            "inputs 0 {levels}\ninputs 1 {levels}\n{LOOK}write 4 1\nline\n{LOOK}vread 0 30\n{LOOK}\
             vwrite 0 30 0\n{LOOK}vread 0 30\nwrite 8 1\nline\n{LOOK}vwrite 0 30 0\n{LOOK}\
             vwrite 0 c 800\nwrite 4 10000\n{LOOK}write 4 0\n{LOOK}new 0 64\n{LOOK}"
        );
    }
    text
}

/// Words at the limits of their form, and past them.
pub fn forms() -> String {
    let lines = [
        "vread 0 00000030",
        "vread 0 000000030",
        "vread 00 30",
        "vread 2 30",
        "vread 1 FfC",
        "vread 0x0 30",
        "vread 30",
        "vwrite 1 00000034 FFFFffff",
        "vwrite 1 34 100000000",
        "vwrite 01 34 0",
        "vwrite 1 34",
        "vwrite 1 34 0 0",
        "vread 1 34",
        "inputs 1 FFFFffff",
        "inputs 1 100000000",
        "inputs 3 0",
        "inputs 1",
        "inputs ffff",
        "vread 1 8",
        "irq",
        "irq 0",
        "IRQ",
        "irq ",
        "fiq",
        "fiq 1",
        " fiq",
        "vread",
        "vwrite",
        "inputs",
    ];
    lines.map(|line| format!("{line}\n{LOOK}")).concat()
}
