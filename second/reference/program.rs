//! The route program and the program that writes normal files, as functions from their inputs to what they write.

use super::lines::{fields, lines, number, write_line};
use super::network::FILE_LIMIT;
use super::{Enquiry, Reference, Rooms, STEP_LIMIT};

/// Bytes of standard input that are read; one more is too long.
pub const INPUT_LIMIT: usize = 65_536;
/// The places that the program lends room for.
const ROOM_PLACES: usize = 64;
const TEXT_ROOM: usize = 65_536;

impl Reference {
    /// What the route program writes for this network file and the given standard input.
    pub fn route_program(&self, input: &[u8]) -> Vec<u8> {
        if let Some(badnet) = self.badnet() {
            return badnet;
        }
        let mut written = String::new();
        if input.len() > INPUT_LIMIT {
            write_line(&mut written, &[&"badask", &1, &0]);
            return written.into_bytes();
        }
        for (line, bytes) in lines(input) {
            match self.answer(bytes) {
                Ok(trace) => written += &trace,
                Err(refusal) => write_line(&mut written, &[&"refused", &refusal, &line]),
            }
        }
        written.into_bytes()
    }

    /// What the writer of normal files writes for this network file.
    pub fn normalise_program(&self) -> Vec<u8> {
        self.badnet().unwrap_or_else(|| {
            let mut text = vec![0; FILE_LIMIT];
            let outcome = self.normal(&mut text);
            text.truncate(outcome.length);
            text
        })
    }

    fn badnet(&self) -> Option<Vec<u8>> {
        let refusal = self.network().err()?;
        let mut written = String::new();
        write_line(&mut written, &[&"badnet", &refusal.number, &refusal.line]);
        Some(written.into_bytes())
    }

    /// The trace for one input line, or the number the enquiry is refused with.
    fn answer(&self, line: &[u8]) -> Result<String, u32> {
        let enquiry = ask(line).ok_or(2u32)?;
        let mut text = vec![0; TEXT_ROOM];
        let pairs = ROOM_PLACES * ROOM_PLACES;
        let rooms = Rooms {
            weight: &mut vec![0; pairs],
            count: &mut vec![0; pairs],
            choice: &mut vec![0; 8 * pairs],
            step: &mut vec![0; 4 * STEP_LIMIT as usize],
            text: &mut text,
        };
        let outcome = self.route(enquiry, rooms);
        if outcome.number != 0 {
            return Err(outcome.number);
        }
        text.truncate(outcome.length);
        Ok(String::from_utf8(text).expect("a trace is ASCII"))
    }
}

/// The enquiry that a well-shaped input line spells; what 32 bits cannot hold is out of range as their greatest value.
fn ask(line: &[u8]) -> Option<Enquiry> {
    let value = |field| number(field).map(|value| value.min(u64::from(u32::MAX)) as u32);
    match fields(line)?[..] {
        [b"ask", s, a, d, b] => Some(Enquiry { s: value(s)?, a: value(a)?, d: value(d)?, b: value(b)? }),
        _ => None,
    }
}
