//! The lines for the interrupt controllers; what the calls do is tested with the controllers.

use super::written;

#[test]
fn each_form() {
    assert_eq!(
        written(
            "irq\nfiq\ninputs 1 20\nvwrite 1 10 FFFFffff\nvwrite 1 34 aBc\nirq\nvread 1 0\n\
             vwrite 1 0000000c 00000020\nirq\nfiq\nvread 1 00000004\nvread 0 24\nvwrite 1 31 1\n"
        ),
        [
            "irq none",
            "fiq 0",
            "inputs",
            "vwrite 0",
            "vwrite 0",
            "irq 1 5 00000abc",
            "vread 0 00000020",
            "vwrite 0",
            "irq none",
            "fiq 1",
            "vread 0 00000020",
            "vread 2 00000000",
            "vwrite 2"
        ]
    );
}

#[test]
fn inputs_hold_until_the_next_of_that_controller() {
    assert_eq!(
        written(
            "inputs 0 ffff8001\nvread 0 8\ninputs 1 2\nvread 0 8\nvread 1 8\ninputs 0 0\n\
             vread 0 8\nvread 1 8\n"
        ),
        [
            "inputs",
            "vread 0 00008001",
            "inputs",
            "vread 0 00008001",
            "vread 0 00000002",
            "inputs",
            "vread 0 00000000",
            "vread 0 00000002"
        ]
    );
}

#[test]
fn the_line_of_the_bench_is_input_11() {
    // Status bits 0, 16 and 18 are set after reset.
    assert_eq!(
        written(
            "new 0 64\ninputs 0 ffff\ninputs 1 ffff\nvread 0 8\nwrite 4 1\nvread 0 8\nline\n\
             inputs 0 0\ninputs 1 0\nvread 0 8\nvread 1 8\nwrite 8 1\nvread 0 8\n"
        ),
        [
            "new 0",
            "inputs",
            "inputs",
            "vread 0 0000f7ff",
            "write 0",
            "vread 0 0000ffff",
            "line 1",
            "inputs",
            "inputs",
            "vread 0 00000800",
            "vread 0 00000000",
            "write 0",
            "vread 0 00000000"
        ]
    );
}

#[test]
fn the_interrupt_of_the_bench_is_taken_served_and_ended() {
    assert_eq!(
        written(
            "new 0 64\nvwrite 0 10 800\nvwrite 0 200 2b\nvwrite 0 100 1000\nvwrite 0 34 2000\n\
             irq\nwrite 4 10000\nirq\nvread 0 30\nirq\nwrite 8 10000\nvwrite 0 30 0\nirq\n\
             vread 0 30\n"
        ),
        [
            "new 0",
            "vwrite 0",
            "vwrite 0",
            "vwrite 0",
            "vwrite 0",
            "irq none",
            "write 0",
            "irq 0 11 00001000",
            "vread 0 00001000",
            "irq none",
            "write 0",
            "vwrite 0",
            "irq none",
            "vread 0 00002000"
        ]
    );
}

#[test]
fn every_new_makes_new_controllers_with_all_inputs_low() {
    for (new, answer) in [("new 0 64", "new 0"), ("new 0 60", "new 1")] {
        let set = "vwrite 0 10 1\nvwrite 1 34 7\ninputs 0 1\ninputs 1 1\nvread 0 30\nvread 1 8\n";
        let look = "vread 0 10\nvread 1 34\nvread 0 8\nvread 1 8\nvwrite 1 10 1\n\
                    vwrite 1 18 1\nirq\n";
        assert_eq!(
            written(&format!("{set}{new}\n{look}"))[6..],
            [
                answer,
                "vread 0 00000000",
                "vread 0 00000000",
                "vread 0 00000000",
                "vread 0 00000000",
                "vwrite 0",
                "vwrite 0",
                "irq 1 0 00000000"
            ]
        );
    }
}

#[test]
fn malformed_lines_change_nothing() {
    let lines = [
        "vread 0",
        "vread 30",
        "vread 2 30",
        "vread 00 30",
        "vread 01 30",
        "vread - 30",
        "vread a 30",
        "vread  30",
        "vread 0 0x30",
        "vread 0 000000030",
        "vread 0 30 0",
        "vread 0  30",
        "vread 0 30 ",
        " vread 0 30",
        "Vread 0 30",
        "vread 0 3g",
        "vread\t0 30",
        "vwrite 0 10",
        "vwrite 0 10 1 1",
        "vwrite 2 10 1",
        "vwrite 10 1",
        "vwrite 0 10 -1",
        "vwrite 0 10 000000001",
        "vwrite 0 10 ",
        "vwrite 0 000000010 1",
        "inputs",
        "inputs 0",
        "inputs 1",
        "inputs 2 1",
        "inputs 00 1",
        "inputs 0 1 1",
        "inputs 0 10000000f",
        "inputs 0 -",
        "irq 0",
        "irq ",
        "IRQ",
        "irqs",
        "fiq 1",
        "fiq\r",
    ];
    let set = "vwrite 0 10 2\nvwrite 0 34 77\ninputs 0 2\ninputs 1 2\n";
    let look = "irq\nvread 0 10\nvread 0 8\nvread 1 8\nfiq\n";
    let before = &written(&format!("{set}{look}"))[4..];
    for line in lines {
        let after = &written(&format!("{set}{line}\n{look}"))[4..];
        assert_eq!(after[0], "error 5", "{line}");
        assert_eq!(after[1..], *before, "{line}");
    }
}
