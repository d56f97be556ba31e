//! One comparison of each kind: the numbers found, and every byte of every lent buffer.

use crate::found::{self, FOUND};
use crate::{expected, library, there_and_back};
use oracle::capture::{self, Exported, Imported};
use oracle::difference::{self, BEFORE};
use oracle::films::{self, ExportSlip, Film, FrameList, ImportSlip, Rooms};
use oracle::hex::shown;
use oracle::numbers;
use oracle::tally::Tally;

pub struct Comparison {
    pub tally: Tally,
    /// How long the list of the numbers found is.
    pub found: usize,
}

impl Default for Comparison {
    fn default() -> Comparison {
        Comparison {
            tally: Tally::default(),
            found: FOUND.len(),
        }
    }
}

impl Comparison {
    /// Exports a list into its room.
    pub fn export(&mut self, list: &FrameList) -> Result<(), String> {
        let FrameList { bytes, room, .. } = list;
        let (mut wanted_room, mut got_room) = (room.clone(), room.clone());
        let wanted = capture::export(bytes, &mut wanted_room);
        let mut got = vec![BEFORE; self.found];
        library::export(bytes, &mut got_room, &mut got);
        self.count_export(list, &wanted);
        let numbers = [wanted.number.into(), wanted.bytes, wanted.frames];
        difference::found(&FOUND, &found::list(numbers, self.found), &got)
            .and_then(|()| difference::buffer("room", room, &wanted_room, &got_room))
            .and_then(|()| match wanted.number {
                numbers::DONE => {
                    let file = &got_room[..wanted.bytes as usize];
                    there_and_back::imported(&mut self.tally, bytes, file)
                }
                _ => Ok(()),
            })
            .map_err(|text| {
                format!(
                    "exporting {} (damage: {}), {} bytes, lent a room of {}\n{text}\nthe list: {}",
                    list.filling,
                    list.damage,
                    bytes.len(),
                    room.len(),
                    shown(bytes)
                )
            })
    }

    /// Imports a capture into its rooms.
    pub fn import(&mut self, film: &Film, rooms: &Rooms) -> Result<(), String> {
        let (mut left, mut lefts) = (rooms.clone(), rooms.clone());
        let wanted = capture::import(&film.bytes, &mut left.events, &mut left.times);
        let mut got = vec![BEFORE; self.found];
        library::import(&film.bytes, &mut lefts.events, &mut lefts.times, &mut got);
        self.count_import(film, rooms, &wanted);
        let numbers = [wanted.number.into(), wanted.bytes, wanted.frames];
        difference::found(&FOUND, &found::list(numbers, self.found), &got)
            .and_then(|()| {
                difference::buffer(
                    "the room for events",
                    &rooms.events,
                    &left.events,
                    &lefts.events,
                )
            })
            .and_then(|()| {
                difference::buffer(
                    "the room for times",
                    &rooms.times,
                    &left.times,
                    &lefts.times,
                )
            })
            .and_then(|()| match wanted.number {
                numbers::DONE => {
                    let events = &lefts.events[..wanted.bytes as usize];
                    let times = &lefts.times[..8 * wanted.frames as usize];
                    there_and_back::exported(&mut self.tally, &film.bytes, events, times)
                }
                _ => Ok(()),
            })
            .map_err(|text| {
                format!(
                    "importing {}, {} bytes, lent rooms of {} and {}\n{text}\nthe capture: {}",
                    film.kind,
                    film.bytes.len(),
                    rooms.events.len(),
                    rooms.times.len(),
                    shown(&film.bytes)
                )
            })
    }

    fn count_export(&mut self, list: &FrameList, wanted: &Exported) {
        let tally = &mut self.tally;
        let room = list.room.len();
        tally.met("lists");
        tally.met(expected::call_name("export", wanted.number));
        tally.met(expected::filling_name(list.filling));
        tally.met(expected::damage_name(list.damage));
        expected::count_orders(tally, "export", &films::of_export(&list.bytes, room));
        for slip in ExportSlip::caught(&list.bytes, room) {
            tally.met(expected::export_slip_name(slip));
        }
        if wanted.number == numbers::DONE && room as u64 > wanted.bytes {
            tally.met(expected::EXPORT_REST);
        }
        self.count_found("export");
    }

    fn count_import(&mut self, film: &Film, rooms: &Rooms, wanted: &Imported) {
        let tally = &mut self.tally;
        let Rooms { events, times } = rooms;
        let (events, times) = (events.len(), times.len());
        tally.met("captures");
        tally.met(expected::call_name("import", wanted.number));
        tally.met(expected::kind_name(&film.kind));
        let refusals = films::of_import(&film.bytes, events, times);
        expected::count_orders(tally, "import", &refusals);
        for slip in ImportSlip::caught(&film.bytes, events, times) {
            tally.met(expected::import_slip_name(slip));
        }
        match wanted.number {
            numbers::DONE if events as u64 > wanted.bytes => tally.met(expected::EVENTS_REST),
            numbers::IMPORT_ROOM => {
                if let Some(name) = expected::short_name(&film.bytes, events, times) {
                    tally.met(name);
                }
            }
            _ => {}
        }
        if wanted.number == numbers::DONE && times as u64 > 8 * wanted.frames {
            tally.met(expected::TIMES_REST);
        }
        self.count_found("import");
    }

    fn count_found(&mut self, call: &str) {
        if self.found != FOUND.len() {
            self.tally.met(expected::other_found_name(call));
        }
    }
}
