//! The numbers that a call finds, in the order of the C interface, and their names.

pub const RUN: [&str; 9] = [
    "the run's number",
    "its steps",
    "its bytes",
    "the tick's number",
    "frames delivered",
    "frames lost",
    "frames sent",
    "count of ticks",
    "ISR",
];

pub const BURST: [&str; 6] = [
    "the burst's number",
    "frames delivered",
    "frames lost",
    "frames sent",
    "count of ticks",
    "ISR",
];
