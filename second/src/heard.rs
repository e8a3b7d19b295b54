//! The heard record of a recording: length, kind, counter, bus identifier, DLC and payload, little-endian.

use crate::recording_faults::Wrong;

/// The kind of a heard record.
pub const KIND: u16 = 32;
/// What follows the length field of a record without payload: kind, counter, identifier and DLC.
const LEAST: usize = 2 + 2 + 4 + 1;
/// The longest payload of a record.
pub const PAYLOAD_MOST: usize = 8;
/// The most bytes that have to be at hand to read the record at their front: the length field and all that it can count.
pub const LOOKED_AT_MOST: usize = 2 + u16::MAX as usize;

/// A frame as it was heard; whether a node takes it is not judged here.
#[derive(Clone, Debug, PartialEq, Eq)]
pub struct Record {
    pub counter: u16,
    pub id: u32,
    pub dlc: u8,
    pub payload: Vec<u8>,
}

/// Why a record is not read, or not written.
#[derive(Clone, Copy, Debug, PartialEq, Eq)]
pub enum Refusal {
    ShortOutput = 11,
    CutRecord = 15,
    UnknownKind = 16,
    BadRecordLength = 17,
}

impl Refusal {
    pub fn number(self) -> usize {
        self as usize
    }
}

/// The record at the front of bytes that are not none, and how many bytes it takes.
pub fn read(bytes: &[u8]) -> Result<(Record, usize), Refusal> {
    read_by(Wrong::Nothing, bytes)
}

pub(crate) fn read_by(wrong: Wrong, bytes: &[u8]) -> Result<(Record, usize), Refusal> {
    let needed = match wrong {
        Wrong::FiveLeft => 5,
        Wrong::ThreeLeft => 3,
        _ => 4,
    };
    if bytes.len() < needed {
        return Err(Refusal::CutRecord);
    }
    // Only a mutant looks past the end.
    let byte = |at: usize| bytes.get(at).copied().unwrap_or(0);
    let pair = |at: usize| [byte(at), byte(at + 1)];
    let four = [byte(6), byte(7), byte(8), byte(9)];
    let length = usize::from(match wrong {
        Wrong::LengthBigEndian => u16::from_be_bytes(pair(0)),
        _ => u16::from_le_bytes(pair(0)),
    });
    if let Some(refusal) = refusal(wrong, length, u16::from_le_bytes(pair(2)), bytes.len()) {
        return Err(refusal);
    }
    let mut payload: Vec<u8> = (2 + LEAST..2 + length).map(byte).collect();
    let mut dlc = byte(10);
    match wrong {
        Wrong::DlcFromLength => dlc = payload.len() as u8,
        Wrong::PayloadByDlc => payload.truncate(usize::from(dlc)),
        _ => {}
    }
    let counter = match wrong {
        Wrong::CounterBigEndian => u16::from_be_bytes(pair(4)),
        _ => u16::from_le_bytes(pair(4)),
    };
    let id = if wrong == Wrong::IdentBigEndian { u32::from_be_bytes(four) } else { u32::from_le_bytes(four) };
    Ok((Record { counter, id, dlc, payload }, 2 + length))
}

/// The refusal of a record with this length and kind, of which so many bytes are left.
fn refusal(wrong: Wrong, length: usize, kind: u16, left: usize) -> Option<Refusal> {
    let follow = match wrong {
        Wrong::WholeFollows => left,
        Wrong::OneMoreFollows => left - 3,
        _ => left - 2,
    };
    let known = match wrong {
        Wrong::KindThirtyOne if kind == 31 => true,
        Wrong::KindThirtyThree if kind == 33 => true,
        Wrong::KindLowByte => kind % 256 == KIND,
        _ => kind == KIND,
    };
    let least = match wrong {
        Wrong::LeastEight => LEAST - 1,
        Wrong::LeastTen => LEAST + 1,
        _ => LEAST,
    };
    let most = match wrong {
        Wrong::MostEighteen => LEAST + PAYLOAD_MOST + 1,
        Wrong::MostSixteen => LEAST + PAYLOAD_MOST - 1,
        _ => LEAST + PAYLOAD_MOST,
    };
    let cut = (follow < length).then_some(Refusal::CutRecord);
    let unknown = (!known).then_some(Refusal::UnknownKind);
    let bad = (!(least..=most).contains(&length)).then_some(Refusal::BadRecordLength);
    match wrong {
        Wrong::KindAfterLength => cut.or(bad).or(unknown),
        Wrong::KindFirst => unknown.or(cut).or(bad),
        Wrong::LengthBeforeCut => bad.or(cut).or(unknown),
        Wrong::CutLast => unknown.or(bad).or(cut),
        _ => cut.or(unknown).or(bad),
    }
}

/// The bytes of a record; 17 for a payload above 8 bytes.
pub fn bytes(record: &Record) -> Result<Vec<u8>, Refusal> {
    bytes_by(Wrong::Nothing, record)
}

fn bytes_by(wrong: Wrong, record: &Record) -> Result<Vec<u8>, Refusal> {
    let most = match wrong {
        Wrong::NineBytes => PAYLOAD_MOST + 1,
        Wrong::SevenBytes => PAYLOAD_MOST - 1,
        _ => PAYLOAD_MOST,
    };
    if record.payload.len() > most {
        return Err(Refusal::BadRecordLength);
    }
    let length = match wrong {
        Wrong::LengthCountsItself => 2 + LEAST + record.payload.len(),
        Wrong::LengthOfPayload => record.payload.len(),
        _ => LEAST + record.payload.len(),
    };
    let id = if wrong == Wrong::WritesLegalIdents { record.id % (1 << 29) } else { record.id };
    let dlc = match wrong {
        Wrong::DlcOfPayload => record.payload.len() as u8,
        Wrong::WritesDlcOfEight => record.dlc.min(8),
        _ => record.dlc,
    };
    let mut bytes = Vec::with_capacity(2 + length);
    bytes.extend((length as u16).to_le_bytes());
    bytes.extend(KIND.to_le_bytes());
    bytes.extend(record.counter.to_le_bytes());
    bytes.extend(id.to_le_bytes());
    bytes.push(dlc);
    bytes.extend(&record.payload);
    Ok(bytes)
}

/// Puts a record at the front of the output and says how many bytes that took; a refusal writes nothing.
pub fn write(record: &Record, output: &mut [u8]) -> Result<usize, Refusal> {
    write_by(Wrong::Nothing, record, output)
}

pub(crate) fn write_by(wrong: Wrong, record: &Record, output: &mut [u8]) -> Result<usize, Refusal> {
    let room = output.len();
    let short = room < 2 + LEAST + record.payload.len();
    if short && wrong == Wrong::ShortFirst {
        return Err(Refusal::ShortOutput);
    }
    let bytes = bytes_by(wrong, record)?;
    let needed = bytes.len() + usize::from(wrong == Wrong::RoomForMore);
    if room < needed {
        if wrong == Wrong::RefusalWrites {
            output.copy_from_slice(&bytes[..room]);
        }
        return Err(Refusal::ShortOutput);
    }
    output[..bytes.len()].copy_from_slice(&bytes);
    if wrong == Wrong::PastRecord {
        output[bytes.len()..].fill(0);
    }
    Ok(if wrong == Wrong::WrittenFollows { bytes.len() - 2 } else { bytes.len() })
}

#[cfg(test)]
mod tests {
    use super::*;

    fn record(payload: &[u8]) -> Record {
        Record { counter: 10, id: 20, dlc: payload.len() as u8, payload: payload.to_vec() }
    }

    const DATA: [u8; 13] = [11, 0, 32, 0, 10, 0, 20, 0, 0, 0, 2, 0x0a, 0x0b];

    #[test]
    fn the_bytes_of_a_record() {
        assert_eq!(bytes(&record(&[0x0a, 0x0b])).as_deref(), Ok(&DATA[..]));
        assert_eq!(read(&DATA), Ok((record(&[0x0a, 0x0b]), 13)));
    }

    #[test]
    fn there_and_back() {
        for length in 0..=8 {
            for (counter, id, dlc) in [(0, 0, 0), (65_535, u32::MAX, 255), (0x1234, 0x89ab_cdef, 15)] {
                let payload: Vec<u8> = (0..length).map(|at| 0xf0 | at).collect();
                let record = Record { counter, id, dlc, payload };
                let mut lent = [0xee; 40];
                let written = write(&record, &mut lent).expect("a record that fits");
                assert_eq!(written, 11 + usize::from(length));
                assert!(lent[written..].iter().all(|byte| *byte == 0xee));
                assert_eq!(read(&lent[..written]), Ok((record.clone(), written)));
                assert_eq!(read(&lent), Ok((record, written)));
            }
        }
    }

    #[test]
    fn refusals_of_the_reader() {
        use Refusal::*;
        for (bytes, refusal) in [
            (&[0x00, 0x00, 0x1f, 0x00][..], UnknownKind),
            (&[0x00, 0x00, 0x20, 0x00], BadRecordLength),
            (&[0x00, 0x00, 0x20], CutRecord),
            (&[0x03, 0x00, 0x20, 0x00], CutRecord),
            (&[0x03, 0x00, 0x21, 0x00, 0x00], UnknownKind),
            (&[0x02, 0x00, 0x20, 0x01, 0x00], UnknownKind),
            (&DATA[..12], CutRecord),
        ] {
            assert_eq!(read(bytes), Err(refusal), "{bytes:?}");
        }
        for (length, follows, due) in
            [(8, 8, Err(BadRecordLength)), (9, 9, Ok(11)), (17, 17, Ok(19)), (17, 16, Err(CutRecord))]
        {
            let mut bytes = vec![0; 2 + follows];
            (bytes[0], bytes[2]) = (length, 32);
            assert_eq!(read(&bytes).map(|read| read.1), due);
        }
    }

    #[test]
    fn refusals_of_the_writer() {
        let mut lent = [0xee; 24];
        assert_eq!(write(&record(&[7; 9]), &mut lent[..0]), Err(Refusal::BadRecordLength));
        assert_eq!(write(&record(&[7; 9]), &mut lent), Err(Refusal::BadRecordLength));
        assert_eq!(write(&record(&[7; 8]), &mut lent[..18]), Err(Refusal::ShortOutput));
        assert_eq!(lent, [0xee; 24]);
        assert_eq!(write(&record(&[7; 8]), &mut lent[..19]), Ok(19));
    }
}
