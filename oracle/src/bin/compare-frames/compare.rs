//! One comparison of each kind; a difference is told with all that is needed to see it again.

use crate::host;
use oracle::address::Filter;
use oracle::tally::Tally;
use oracle::{hex, program, verdict};
use std::path::PathBuf;
use std::time::Duration;

pub struct Comparison {
    pub program: PathBuf,
    pub tally: Tally,
}

impl Comparison {
    /// The C frame check against the number it must give.
    pub fn frame_check(&mut self, frame: &[u8], wanted: u32) -> Result<(), String> {
        self.tally.met(format!("C frame check {wanted}"));
        let got = host::frame_check(frame);
        if got == wanted {
            return Ok(());
        }
        Err(format!(
            "tockfeather_frame_check gives {got}, not {wanted}\nframe of {}: {}",
            frame.len(),
            hex::write(frame)
        ))
    }

    /// The C address rule against the number it must give.
    pub fn address_rule(
        &mut self,
        frame: &[u8],
        filter: &Filter,
        wanted: u32,
    ) -> Result<(), String> {
        let got = host::address_rule(frame, filter);
        if got == wanted {
            return Ok(());
        }
        let Filter {
            control,
            high,
            low,
            hash_high,
            hash_low,
        } = filter;
        Err(format!(
            "tockfeather_address_rule gives {got}, not {wanted}\n\
             control {control:08x} high {high:08x} low {low:08x} \
             hash high {hash_high:08x} hash low {hash_low:08x}\nframe of {}: {}",
            frame.len(),
            hex::write(frame)
        ))
    }

    /// The verdict program's whole output. With `cut` the input arrives in two pieces.
    pub fn verdict(&mut self, input: &[u8], cut: Option<usize>) -> Result<(), String> {
        let wanted = verdict::output(input);
        let (_, number) = verdict::verdict(input);
        self.tally.met(format!("program verdict {number}"));
        let pieces = match cut {
            None => vec![input],
            Some(place) => {
                self.tally.met("program input in two pieces");
                vec![&input[..place], &input[place..]]
            }
        };
        let run = program::run(&self.program, &pieces, Duration::from_millis(3));
        if run.fault.is_none() && run.output == wanted.as_bytes() {
            return Ok(());
        }
        Err(format!(
            "the verdict program writes\n{}\nnot\n{wanted}{}\ninput of {}: {}",
            String::from_utf8_lossy(&run.output),
            run.fault.unwrap_or_default(),
            input.len(),
            hex::write(input)
        ))
    }
}
