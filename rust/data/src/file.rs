//! The input file of the printing program, as docs/LAYOUT.md sets it down.

/// The longest file.
pub const MOST_BYTES: usize = 65_536;
/// "three pairs (offset, length) of 32-bit numbers"
pub const HEADER_BYTES: usize = 24;

/// The file of a program, a schedule and outcomes.
///
/// # Panics
/// At parts whose lengths do not fit 32 bits.
pub fn file(program: &[u16], schedule: &[u8], outcomes: &[u8]) -> Vec<u8> {
    let program: Vec<u8> = program.iter().flat_map(|word| word.to_le_bytes()).collect();
    let mut header = Vec::new();
    let mut body: Vec<u8> = Vec::new();
    for part in [&program, schedule, outcomes] {
        let offset = u32::try_from(HEADER_BYTES + body.len()).expect("a part's offset fits");
        let length = u32::try_from(part.len()).expect("a part's length fits");
        header.extend(offset.to_le_bytes());
        header.extend(length.to_le_bytes());
        body.extend(part);
    }
    header.extend(body);
    header
}
