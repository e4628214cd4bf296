//! Call and answer records: "Numbers are little-endian; each record has its two-byte mark first."

use super::board::{Answer, Call, OK, RECORD};

/// "**Call**, 10 bytes"
pub const CALL_BYTES: usize = 10;
/// "**Answer**, 8 bytes"
pub const ANSWER_BYTES: usize = 8;

/// An answer with its place byte. The place may be any number here; above 255 it has no record.
#[derive(Clone, Copy, Debug, PartialEq, Eq)]
pub struct Reply {
    pub place: u32,
    pub answer: Answer,
}

/// The bytes of a record "at a given offset in lent bytes", if there are so many.
fn part<const N: usize>(bytes: &[u8], at: usize) -> Option<[u8; N]> {
    let rest = bytes.get(at..)?;
    rest.get(..N)?.try_into().ok()
}

/// "Writing puts it from a given offset and changes no other byte; on RECORD no byte changes."
fn put<const N: usize>(bytes: &mut [u8], at: usize, record: Option<[u8; N]>) -> u32 {
    let Some(record) = record else { return RECORD };
    let Some(rest) = bytes.get_mut(at..) else { return RECORD };
    let Some(room) = rest.get_mut(..N) else { return RECORD };
    room.copy_from_slice(&record);
    OK
}

/// "43 4C, kind (1 start, 2 read, 3 update, 4 prepare, 5 commit, 6 rollback), place byte, key in two bytes, value in
/// four." None for "a call .. that has no record": its place or its key does not fit.
pub fn call_record(call: Call) -> Option<[u8; CALL_BYTES]> {
    // "Key is zero except in kinds 2 and 3, value zero except in kind 3."
    let (kind, place, key, value) = match call {
        Call::Start { place } => (1, place, 0, 0),
        Call::Read { place, key } => (2, place, key, 0),
        Call::Update { place, key, value } => (3, place, key, value),
        Call::Prepare { place } => (4, place, 0, 0),
        Call::Commit { place } => (5, place, 0, 0),
        Call::Rollback { place } => (6, place, 0, 0),
    };
    let place = u8::try_from(place).ok()?;
    let key = u16::try_from(key).ok()?.to_le_bytes();
    let value = value.to_le_bytes();
    Some([0x43, 0x4C, kind, place, key[0], key[1], value[0], value[1], value[2], value[3]])
}

/// The call in ten bytes, or None for "bytes that are no call .. record".
pub fn call_of(bytes: [u8; CALL_BYTES]) -> Option<Call> {
    let [mark0, mark1, kind, place, k0, k1, v0, v1, v2, v3] = bytes;
    if [mark0, mark1] != [0x43, 0x4C] {
        return None;
    }
    // "Places and keys out of range are well-formed here; the step refuses them."
    let place = u32::from(place);
    let key = u32::from(u16::from_le_bytes([k0, k1]));
    let value = u32::from_le_bytes([v0, v1, v2, v3]);
    match (kind, key, value) {
        (1, 0, 0) => Some(Call::Start { place }),
        (2, key, 0) => Some(Call::Read { place, key }),
        (3, key, value) => Some(Call::Update { place, key, value }),
        (4, 0, 0) => Some(Call::Prepare { place }),
        (5, 0, 0) => Some(Call::Commit { place }),
        (6, 0, 0) => Some(Call::Rollback { place }),
        _ => None,
    }
}

/// "Reading takes the record at a given offset in lent bytes; an offset past the end is RECORD."
pub fn read_call(bytes: &[u8], at: usize) -> Option<Call> {
    call_of(part(bytes, at)?)
}

/// Writes the call's record from the offset. Gives OK, or RECORD with no byte changed.
pub fn write_call(bytes: &mut [u8], at: usize, call: Call) -> u32 {
    put(bytes, at, call_record(call))
}

/// "41 4E, refusal number 0 to 12, place byte, value in four. With a number from 1 to 12 the value is zero."
/// None for an "answer that has no record".
pub fn answer_record(reply: Reply) -> Option<[u8; ANSWER_BYTES]> {
    let Answer { number, value } = reply.answer;
    if number > 12 || number != OK && value != 0 {
        return None;
    }
    let place = u8::try_from(reply.place).ok()?;
    let v = value.to_le_bytes();
    Some([0x41, 0x4E, number as u8, place, v[0], v[1], v[2], v[3]])
}

/// The answer in eight bytes, or None for bytes that are no answer record.
pub fn answer_of(bytes: [u8; ANSWER_BYTES]) -> Option<Reply> {
    let [mark0, mark1, number, place, v0, v1, v2, v3] = bytes;
    let value = u32::from_le_bytes([v0, v1, v2, v3]);
    if [mark0, mark1] != [0x41, 0x4E] || number > 12 || number != 0 && value != 0 {
        return None;
    }
    Some(Reply { place: u32::from(place), answer: Answer { number: u32::from(number), value } })
}

/// As [`read_call`], for an answer.
pub fn read_answer(bytes: &[u8], at: usize) -> Option<Reply> {
    answer_of(part(bytes, at)?)
}

/// As [`write_call`], for an answer.
pub fn write_answer(bytes: &mut [u8], at: usize, reply: Reply) -> u32 {
    put(bytes, at, answer_record(reply))
}
