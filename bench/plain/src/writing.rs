//! Writing a workload file.

use crate::reading::RECORD_LENGTH;
use crate::workload::{State, Workload};
use crate::MAX_NOTE;

/// The refusal of a note of more than 1,000 bytes.
const NOTE_TOO_LONG: u8 = 7;
/// The refusal of a buffer that is shorter than the file.
const BUFFER_TOO_SHORT: u8 = 9;

/// Writes the file of a workload and a note to the front of a buffer, and
/// answers its length. The later bytes of the buffer stay as they are.
///
/// # Errors
///
/// 7 for a note that is too long, else 9 for a buffer that is too short; the
/// buffer is then as it was.
pub fn write(workload: &Workload, note: &[u8], buffer: &mut [u8]) -> Result<usize, u8> {
    if note.len() > MAX_NOTE {
        return Err(NOTE_TOO_LONG);
    }
    let length = file_length(workload, note);
    let file = buffer.get_mut(..length).ok_or(BUFFER_TOO_SHORT)?;
    let mut writer = Writer { rest: file };
    write_head(&mut writer, workload);
    for job_type in &workload.types {
        let first = usize::from(job_type.first);
        writer.put(&[job_type.state_count]);
        for state in &workload.states[first..][..usize::from(job_type.state_count)] {
            writer.put(&record(state));
        }
    }
    writer.put(&(note.len() as u16).to_be_bytes());
    writer.put(note);
    Ok(length)
}

/// The length of the file of a workload and a note.
fn file_length(workload: &Workload, note: &[u8]) -> usize {
    10 + usize::from(workload.item_count)
        + workload.types.len()
        + RECORD_LENGTH * workload.states.len()
        + note.len()
}

/// Writes the fields in front of the types.
fn write_head(writer: &mut Writer, workload: &Workload) {
    writer.put(b"TLW\x00\x01");
    writer.put(&[
        workload.item_count,
        workload.type_count(),
        workload.code_count,
    ]);
    writer.put(&workload.parents[..usize::from(workload.item_count)]);
}

/// The record of a state.
fn record(state: &State) -> [u8; RECORD_LENGTH] {
    let mut record = [0; RECORD_LENGTH];
    record[0] = state.item;
    record[1] = state.code;
    record[2..6].copy_from_slice(&state.operand.to_be_bytes());
    record[6] = state.arc_count;
    record[7..].copy_from_slice(&state.arcs);
    record
}

/// The part of a buffer that is not yet written.
struct Writer<'a> {
    rest: &'a mut [u8],
}

impl Writer<'_> {
    /// Writes these bytes; the length was tested before.
    #[inline]
    fn put(&mut self, bytes: &[u8]) {
        let (front, rest) = std::mem::take(&mut self.rest).split_at_mut(bytes.len());
        front.copy_from_slice(bytes);
        self.rest = rest;
    }
}

#[cfg(test)]
mod tests {
    use super::*;
    use crate::read;

    /// The smallest file: one item, one type of one state, no note.
    const SMALLEST: &[u8; 23] =
        b"TLW\x00\x01\x01\x01\x01\xff\x01\x00\x00\x00\x00\x00\x00\x00\x00\x00\x00\x00\x00\x00";

    #[test]
    fn the_smallest_file() {
        let (workload, note) = read(SMALLEST).unwrap();
        assert_eq!((note.place, note.length), (23, 0));
        let mut buffer = [9; 25];
        assert_eq!(write(&workload, &[], &mut buffer), Ok(23));
        assert_eq!(buffer[..23], SMALLEST[..]);
        assert_eq!(buffer[23..], [9, 9]);
    }

    #[test]
    fn refusals_leave_the_buffer() {
        let (workload, _) = read(SMALLEST).unwrap();
        let mut buffer = [9; 1022];
        assert_eq!(write(&workload, &[1; 1000], &mut buffer), Err(9));
        assert_eq!(write(&workload, &[1; 1001], &mut buffer), Err(7));
        assert_eq!(write(&workload, &[1; 1001], &mut []), Err(7));
        assert_eq!(buffer, [9; 1022]);
        assert_eq!(write(&workload, &[1; 999], &mut buffer), Ok(1022));
    }

    #[test]
    fn the_largest_file() {
        let mut file = b"TLW\x00\x01\x40\x08\xff".to_vec();
        file.extend((0..64).map(|item: u8| if item == 63 { 255 } else { item + 1 }));
        for _ in 0..8 {
            file.extend([32]);
            for s in 0..32u8 {
                file.extend([s * 2, 254, 1, 2, 3, 4]);
                let arcs = [4, s + 1, s + 1, 0, s];
                file.extend(if s < 31 { arcs } else { [0; 5] });
            }
        }
        file.extend([3, 0xe8]);
        file.extend([7; 1000]);
        assert_eq!(file.len(), 3_898);
        let (workload, note) = read(&file).unwrap();
        let mut buffer = [0; 3_898];
        let note = &file[note.place..][..note.length];
        assert_eq!(write(&workload, note, &mut buffer), Ok(3_898));
        assert_eq!(buffer[..], file[..]);
    }
}
