//! Reading a workload file, in one pass.

use crate::bits::bit;
use crate::sets::{fill_sets, plan, Tree, Ways};
use crate::workload::{State, Workload, ROOT};
use crate::{MAX_ARCS, MAX_ITEMS, MAX_NOTE, MAX_STATES, MAX_TYPES};

/// What is wrong with a file: the number of the refusal and the place of a
/// byte, counted from 0.
#[derive(Clone, Copy, PartialEq, Eq, Debug)]
pub struct Fault {
    /// 1 missing, 2 mark, 3 count, 4 tree, 5 record, 6 stray, 7 tail.
    pub number: u8,
    /// The place in the file.
    pub place: usize,
}

/// Where the note stands in a file.
#[derive(Clone, Copy, PartialEq, Eq, Debug)]
pub struct NoteSpan {
    /// The place of its first byte.
    pub place: usize,
    /// How many bytes it has.
    pub length: usize,
}

const MISSING: u8 = 1;
const MARK: u8 = 2;
const COUNT: u8 = 3;
const TREE: u8 = 4;
const RECORD: u8 = 5;
const STRAY: u8 = 6;
const TAIL: u8 = 7;

/// The bytes of a state's record.
pub(crate) const RECORD_LENGTH: usize = 11;

/// Reads the file of a workload and a note.
///
/// # Errors
///
/// The first fault, in the order in which the fields stand; of each field its
/// absence is told before its content.
pub fn read(file: &[u8]) -> Result<(Workload, NoteSpan), Fault> {
    let mut cursor = Cursor { file, at: 0 };
    cursor.constant(b"TLW")?;
    cursor.constant(&[0, 1])?;
    let item_count = cursor.count(MAX_ITEMS)?;
    let type_count = cursor.count(MAX_TYPES)?;
    let code_count = cursor.count(255)?;
    let tree = read_tree(&mut cursor, item_count)?;
    let most = (file.len() - cursor.at) / RECORD_LENGTH;
    let mut workload = Workload {
        item_count,
        code_count,
        parents: tree.parents,
        children: tree.children,
        types: Vec::with_capacity(type_count.into()),
        states: Vec::with_capacity(most.min(MAX_TYPES * MAX_STATES)),
    };
    for _ in 0..type_count {
        read_type(&mut cursor, &mut workload, &tree)?;
    }
    let note = read_note(&mut cursor)?;
    Ok((workload, note))
}

/// A file and how much of it has been read.
struct Cursor<'a> {
    file: &'a [u8],
    at: usize,
}

impl<'a> Cursor<'a> {
    /// The next field, which has this many bytes.
    #[inline]
    fn field(&mut self, length: usize) -> Result<&'a [u8], Fault> {
        match self.file[self.at..].get(..length) {
            Some(field) => {
                self.at += length;
                Ok(field)
            }
            None => Err(Fault {
                number: MISSING,
                place: self.file.len(),
            }),
        }
    }

    /// The next field, as an array.
    #[inline]
    fn array<const N: usize>(&mut self) -> Result<[u8; N], Fault> {
        let mut array = [0; N];
        array.copy_from_slice(self.field(N)?);
        Ok(array)
    }

    /// A field that is the same in every file.
    fn constant(&mut self, bytes: &[u8]) -> Result<(), Fault> {
        let place = self.at;
        if self.field(bytes.len())? == bytes {
            Ok(())
        } else {
            Err(Fault {
                number: MARK,
                place,
            })
        }
    }

    /// A count byte, from 1 to `most`.
    fn count(&mut self, most: usize) -> Result<u8, Fault> {
        let place = self.at;
        let [count] = self.array()?;
        if (1..=most).contains(&usize::from(count)) {
            Ok(count)
        } else {
            Err(Fault {
                number: COUNT,
                place,
            })
        }
    }
}

/// Reads the row of parents.
fn read_tree(cursor: &mut Cursor, item_count: u8) -> Result<Tree, Fault> {
    let start = cursor.at;
    let row = cursor.field(item_count.into())?;
    let mut tree = Tree {
        parents: [0; MAX_ITEMS],
        children: [0; MAX_ITEMS],
        above: [0; MAX_ITEMS],
    };
    tree.parents[..row.len()].copy_from_slice(row);
    match wrong_item(&mut tree, row) {
        Some(item) => Err(Fault {
            number: TREE,
            place: start + item,
        }),
        None => Ok(tree),
    }
}

/// Fills in the tree from the row of parents, or answers the lowest item that
/// is wrong.
fn wrong_item(tree: &mut Tree, row: &[u8]) -> Option<usize> {
    let mut has_root = false;
    for (item, &parent) in row.iter().enumerate() {
        if parent == ROOT {
            if has_root {
                return Some(item);
            }
            has_root = true;
        }
        if !ground(tree, row, item) {
            return Some(item);
        }
        if parent != ROOT {
            tree.children[usize::from(parent)] |= bit(item as u8);
        }
    }
    None
}

/// Walks up from an item to a root mark, or to an item from which that was
/// done before, and fills in what lies above each item on the way. Answers
/// whether the way up comes there.
fn ground(tree: &mut Tree, row: &[u8], item: usize) -> bool {
    let mut way = [0u8; MAX_ITEMS];
    let mut length = 0;
    let mut seen = 0u64;
    let mut at = item as u8;
    while tree.above[usize::from(at)] == 0 {
        if seen & bit(at) != 0 {
            return false;
        }
        seen |= bit(at);
        way[length] = at;
        length += 1;
        match row[usize::from(at)] {
            ROOT => break,
            parent if usize::from(parent) < row.len() => at = parent,
            _ => return false,
        }
    }
    let mut above = tree.above[usize::from(at)];
    for &item in way[..length].iter().rev() {
        above |= bit(item);
        tree.above[usize::from(item)] = above;
    }
    true
}

/// Reads a type: its count byte and its records.
fn read_type(cursor: &mut Cursor, workload: &mut Workload, tree: &Tree) -> Result<(), Fault> {
    let count = cursor.count(MAX_STATES)?;
    let records = cursor.at;
    let first = workload.states.len();
    for _ in 0..count {
        let place = cursor.at;
        let record = cursor.array()?;
        let state = read_state(&record, workload.item_count, workload.code_count, count);
        workload.states.push(state.map_err(|byte| Fault {
            number: RECORD,
            place: place + byte,
        })?);
    }
    let states = &mut workload.states[first..];
    let ways = Ways::of(states);
    if let Some(stray) = ways.stray(count) {
        return Err(Fault {
            number: STRAY,
            place: records + RECORD_LENGTH * stray,
        });
    }
    fill_sets(states, &ways, u64::MAX >> (64 - workload.item_count));
    workload.types.push(plan(states, tree, first));
    Ok(())
}

/// Reads a state's record, or answers its first wrong byte. The state's sets
/// are still empty.
fn read_state(
    record: &[u8; RECORD_LENGTH],
    items: u8,
    codes: u8,
    states: u8,
) -> Result<State, usize> {
    let [item, code, a, b, c, d, arc_count, arcs @ ..] = *record;
    if item >= items {
        return Err(0);
    }
    if code >= codes {
        return Err(1);
    }
    if usize::from(arc_count) > MAX_ARCS {
        return Err(6);
    }
    let (used, unused) = arcs.split_at(arc_count.into());
    if let Some(wrong) = used.iter().position(|&arc| arc >= states) {
        return Err(7 + wrong);
    }
    if let Some(wrong) = unused.iter().position(|&arc| arc != 0) {
        return Err(7 + used.len() + wrong);
    }
    Ok(State {
        way: 0,
        unlockable: 0,
        unreachable: 0,
        operand: i32::from_be_bytes([a, b, c, d]),
        item,
        code,
        arc_count,
        arcs,
    })
}

/// Reads the note, which ends the file.
fn read_note(cursor: &mut Cursor) -> Result<NoteSpan, Fault> {
    let tail = |place| Fault {
        number: TAIL,
        place,
    };
    let start = cursor.at;
    let length = usize::from(u16::from_be_bytes(cursor.array()?));
    if length > MAX_NOTE {
        return Err(tail(start));
    }
    let place = cursor.at;
    cursor.field(length)?;
    if cursor.at < cursor.file.len() {
        return Err(tail(cursor.at));
    }
    Ok(NoteSpan { place, length })
}

#[cfg(test)]
mod tests {
    use super::*;

    /// Three items, two codes; a type of three states and one of one state.
    fn example() -> Vec<u8> {
        let mut file = b"TLW\x00\x01\x03\x02\x02\x01\xff\x01".to_vec();
        file.extend([3]);
        file.extend([0, 1, 0xff, 0xff, 0xff, 0xfe, 2, 1, 2, 0, 0]);
        file.extend([2, 0, 0, 0, 1, 2, 1, 2, 0, 0, 0]);
        file.extend([1, 0, 0, 0, 0, 0, 0, 0, 0, 0, 0]);
        file.extend([1]);
        file.extend([2, 1, 0x7f, 0xff, 0xff, 0xff, 0, 0, 0, 0, 0]);
        file.extend([0, 2, b'h', b'i']);
        file
    }

    fn fault(file: &[u8]) -> (u8, usize) {
        let fault = read(file).expect_err("the file is wrong");
        (fault.number, fault.place)
    }

    fn with(changes: &[(usize, u8)]) -> Vec<u8> {
        let mut file = example();
        for &(place, byte) in changes {
            file[place] = byte;
        }
        file
    }

    #[test]
    fn what_a_file_holds() {
        let file = example();
        let (workload, note) = read(&file).unwrap();
        assert_eq!((note.place, note.length), (file.len() - 2, 2));
        assert_eq!(workload.item_count(), 3);
        assert_eq!(workload.code_count(), 2);
        assert_eq!(workload.type_count(), 2);
        assert_eq!(workload.state_count(0), Some(3));
        assert_eq!(workload.state_count(1), Some(1));
        assert_eq!(workload.state_count(2), None);
        assert_eq!(workload.parent(0), Some(Some(1)));
        assert_eq!(workload.parent(1), Some(None));
        assert_eq!(workload.parent(3), None);
        let state = workload.state(0, 0).unwrap();
        assert_eq!((state.item(), state.code(), state.operand()), (0, 1, -2));
        assert_eq!(state.arcs(), [1, 2]);
        assert_eq!(workload.state(1, 0).unwrap().operand(), i32::MAX);
        assert!(workload.state(1, 1).is_none());
    }

    #[test]
    fn the_sets_of_the_example() {
        let (workload, _) = read(&example()).unwrap();
        assert_eq!(workload.unreachable(0, 0), Some(0b000));
        assert_eq!(workload.unreachable(0, 1), Some(0b001));
        assert_eq!(workload.unreachable(0, 2), Some(0b101));
        assert_eq!(workload.unlockable(0, 0), Some(0b000));
        assert_eq!(workload.unlockable(0, 1), Some(0b001));
        // Item 0 is outside state 2's: it is unreachable in state 1 already.
        assert_eq!(workload.unlockable(0, 2), Some(0b100));
        assert_eq!(workload.unlockable(0, 3), None);
        assert_eq!(workload.local_root(0), Some(1));
        assert_eq!(workload.local_items(0), Some(0b111));
        assert_eq!(workload.local_root(1), Some(2));
        assert_eq!(workload.local_items(1), Some(0b100));
        assert_eq!(workload.local_items(2), None);
    }

    #[test]
    fn every_front_is_missing_something() {
        let file = example();
        for length in 0..file.len() {
            assert_eq!(fault(&file[..length]), (MISSING, length));
        }
    }

    #[test]
    fn marks_and_counts() {
        assert_eq!(fault(b"XY"), (MISSING, 2));
        assert_eq!(fault(b"XYZ"), (MARK, 0));
        assert_eq!(fault(b"TLW\x01"), (MISSING, 4));
        assert_eq!(fault(&with(&[(3, 1)])), (MARK, 3));
        assert_eq!(fault(&with(&[(4, 2)])), (MARK, 3));
        for (place, most) in [(5, 64), (6, 8), (11, 32)] {
            assert_eq!(fault(&with(&[(place, 0)])), (COUNT, place));
            assert_eq!(fault(&with(&[(place, most + 1)])), (COUNT, place));
        }
        assert_eq!(fault(&with(&[(7, 0)])), (COUNT, 7));
        assert!(read(&with(&[(7, 255)])).is_ok());
    }

    #[test]
    fn trees() {
        let parents = |row: [u8; 3]| with(&[(8, row[0]), (9, row[1]), (10, row[2])]);
        assert_eq!(fault(&parents([255, 255, 1])), (TREE, 9));
        // The way up of item 0 meets the second mark, which alone is wrong.
        assert_eq!(fault(&parents([2, 255, 255])), (TREE, 10));
        assert_eq!(fault(&parents([2, 255, 3])), (TREE, 8));
        assert_eq!(fault(&parents([1, 255, 254])), (TREE, 10));
        assert_eq!(fault(&parents([1, 0, 255])), (TREE, 8));
        assert_eq!(fault(&parents([255, 2, 1])), (TREE, 9));
        assert_eq!(fault(&parents([255, 0, 2])), (TREE, 10));
        assert_eq!(fault(&parents([0, 0, 0])), (TREE, 8));
    }

    #[test]
    fn records() {
        assert_eq!(fault(&with(&[(12, 3)])), (RECORD, 12));
        assert_eq!(fault(&with(&[(13, 2)])), (RECORD, 13));
        assert_eq!(fault(&with(&[(18, 5)])), (RECORD, 18));
        assert_eq!(fault(&with(&[(19, 3)])), (RECORD, 19));
        assert_eq!(fault(&with(&[(22, 1)])), (RECORD, 22));
        // Two arcs are used, the third byte is not 0.
        assert_eq!(fault(&with(&[(21, 1)])), (RECORD, 21));
        assert_eq!(fault(&with(&[(12, 9), (13, 9)])), (RECORD, 12));
        // A record that is not all there is missing even if it is wrong, and
        // a wrong record is told before the next one's absence.
        let wrong = with(&[(12, 9)]);
        assert_eq!(fault(&wrong[..22]), (MISSING, 22));
        assert_eq!(fault(&wrong[..23]), (RECORD, 12));
    }

    #[test]
    fn strays() {
        // State 0 leads to state 2 alone, so state 1 is not reached.
        assert_eq!(fault(&with(&[(19, 2)])), (STRAY, 23));
        // State 2 leads to itself, so no state reaches a terminal one.
        assert_eq!(fault(&with(&[(40, 1), (41, 2)])), (STRAY, 12));
        // The strays of a type are told before the next type's count.
        assert_eq!(fault(&with(&[(19, 2)])[..45]), (STRAY, 23));
    }

    #[test]
    fn tails() {
        let file = example();
        let length = file.len();
        assert_eq!(
            fault(&with(&[(length - 4, 3), (length - 3, 0xe9)])),
            (TAIL, length - 4)
        );
        assert_eq!(
            fault(&with(&[(length - 4, 3), (length - 3, 0xe8)])),
            (MISSING, length)
        );
        assert_eq!(fault(&with(&[(length - 3, 1)])), (TAIL, length - 1));
        assert_eq!(fault(&[&file[..], b"x"].concat()), (TAIL, length));
    }
}
