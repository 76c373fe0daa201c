//! The input file of the printing program, as docs/LAYOUT.md sets it down.

use data::file::{HEADER_BYTES, MOST_BYTES};

/// A file's three parts.
#[derive(Clone, Debug, PartialEq, Eq)]
pub struct Parts {
    pub program: Vec<u16>,
    pub schedule: Vec<u8>,
    pub outcomes: Vec<u8>,
}

impl Parts {
    /// The parts of a well-built file; the error says what is built otherwise.
    pub fn read(file: &[u8]) -> Result<Parts, String> {
        if file.len() > MOST_BYTES {
            return Err(format!("its length is {}, at most 65536 bytes are read", file.len()));
        }
        if file.len() < HEADER_BYTES {
            return Err(format!("its length is {}, the header alone has 24 bytes", file.len()));
        }
        let (program, end) = read_part(file, 0, HEADER_BYTES)?;
        let (schedule, end) = read_part(file, 1, end)?;
        let (outcomes, end) = read_part(file, 2, end)?;
        if end != file.len() {
            return Err(format!("its parts end at byte {end} of {}", file.len()));
        }
        if program.len() % 2 != 0 {
            return Err(format!("its program has an odd length, {}", program.len()));
        }
        let words = program.chunks_exact(2);
        Ok(Parts {
            program: words.map(|two| u16::from_le_bytes([two[0], two[1]])).collect(),
            schedule: schedule.to_vec(),
            outcomes: outcomes.to_vec(),
        })
    }
}

/// One part, which starts where the one before ended, and where it ends.
fn read_part(file: &[u8], part: usize, start: usize) -> Result<(&[u8], usize), String> {
    let name = ["program", "schedule", "outcomes"][part];
    let offset = read_number(file, 8 * part);
    let length = read_number(file, 8 * part + 4);
    if offset != start {
        return Err(format!("its {name} is said to start at byte {offset}, not {start}"));
    }
    let end = start.saturating_add(length);
    let bytes = file.get(start..end);
    let bytes = bytes.ok_or(format!("its {name} passes the end, with {length} bytes"))?;
    Ok((bytes, end))
}

/// A number of the header, which the caller has found to be there.
fn read_number(file: &[u8], place: usize) -> usize {
    let four = [file[place], file[place + 1], file[place + 2], file[place + 3]];
    usize::try_from(u32::from_le_bytes(four)).unwrap_or(usize::MAX)
}
