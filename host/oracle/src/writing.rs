//! The writer of a record file, from document 02, order 1, over the reader of document 01.

use crate::reader::{kind, Tables, LARGEST_FILE, RECORD};
use crate::{Answer, Refusal};

/// The records in the order of the file, or nothing where the rows end within one.
///
/// "kinds 1 to 7 in ascending order, then clauses in their order, then kind 8 by variable"; a row of a kind that does not exist
/// stands among the clauses. A row's number is its place among those of its kind, and field a of kinds 1, 2, 3, 4, 6 and 7 gets it.
pub fn arranged(rows: &[u8]) -> Option<Vec<[u8; RECORD]>> {
    if rows.len() % RECORD != 0 {
        return None;
    }
    let row = |bytes: &[u8]| <[u8; RECORD]>::try_from(bytes).expect("a whole row");
    let all: Vec<[u8; RECORD]> = rows.chunks_exact(RECORD).map(row).collect();
    let mut file = Vec::with_capacity(all.len());
    for table in kind::NAME..=kind::VARIABLE {
        for (number, row) in all.iter().filter(|row| row[0] == table).enumerate() {
            let mut record = *row;
            if table != kind::CANDIDATE {
                // A table is full long before a number passes 16 bits.
                record[2..4].copy_from_slice(&(number as u16).to_le_bytes());
            }
            file.push(record);
        }
    }
    let listed = kind::NAME..=kind::ASSIGNED_BY;
    file.extend(all.iter().filter(|row| !listed.contains(&row[0])));
    let mut assigned: Vec<[u8; RECORD]> = all
        .into_iter()
        .filter(|row| row[0] == kind::ASSIGNED_BY)
        .collect();
    // Stable: "equal variables in their order".
    assigned.sort_by_key(|row| u16::from_le_bytes([row[2], row[3]]));
    file.extend(assigned);
    Some(file)
}

/// The file, or the first refusal: "Tables whose file would get 3 to 6 get that refusal, its place in that file", and 2 likewise;
/// "1 when the file would pass 65,536 bytes". Rows that end within one are 1 before all others.
pub fn file(rows: &[u8]) -> Result<Vec<u8>, Refusal> {
    let long = Refusal {
        number: 1,
        place: 0,
    };
    let records = arranged(rows).ok_or(long)?;
    let mut tables = Tables::default();
    for (place, record) in records.iter().enumerate() {
        tables.take(record).map_err(|number| Refusal {
            number,
            place: place as u64,
        })?;
    }
    let file = records.concat();
    if file.len() > LARGEST_FILE {
        return Err(long);
    }
    Ok(file)
}

/// The file into the room; "10 when it doesn't fit", place 0; "nothing written" on any refusal, and what lies behind it stays.
pub fn write(rows: &[u8], room: &mut [u8]) -> Answer {
    let file = match file(rows) {
        Ok(file) => file,
        Err(refusal) => return refusal.into(),
    };
    let Some(room) = room.get_mut(..file.len()) else {
        return Answer {
            number: 10,
            ..Answer::default()
        };
    };
    room.copy_from_slice(&file);
    Answer {
        number: 0,
        place: 0,
        bytes: file.len() as u64,
        units: (file.len() / RECORD) as u64,
        depth: 0,
    }
}
