//! The delivered record: length, kind, stream and payload, little-endian.

use crate::fault::Fault;
use crate::ident::Stream;
use crate::reply::Reply;

/// The kind of a delivered record.
pub const KIND: u16 = 1;

/// How long the record of a payload is; 10 for a payload above 8 bytes.
pub fn length(payload: usize) -> Result<usize, Reply> {
    if payload > 8 {
        return Err(Reply::BadLength);
    }
    Ok(8 + payload)
}

/// The bytes of a record.
pub fn bytes(stream: Stream, payload: &[u8]) -> Vec<u8> {
    bytes_by(Fault::None, stream, payload)
}

fn bytes_by(fault: Fault, stream: Stream, payload: &[u8]) -> Vec<u8> {
    let counted = if fault == Fault::RecordLengthWhole { 8 } else { 6 };
    let following = u16::try_from(counted + payload.len()).unwrap_or(u16::MAX);
    let mut record = Vec::with_capacity(8 + payload.len());
    record.extend(following.to_le_bytes());
    record.extend(KIND.to_le_bytes());
    record.extend(match fault {
        Fault::RecordStreamBigEndian => stream.0.to_be_bytes(),
        _ => stream.0.to_le_bytes(),
    });
    record.extend(payload);
    record
}

/// Puts a record at the front of what is free and returns its length.
/// The outputs that a faultless node accepts always have room; a mutant's record is cut off.
pub(crate) fn put(fault: Fault, stream: Stream, payload: &[u8], free: &mut [u8]) -> usize {
    let record = bytes_by(fault, stream, payload);
    let length = record.len().min(free.len());
    free[..length].copy_from_slice(&record[..length]);
    if fault == Fault::PastRecord {
        free[length..].fill(0);
    }
    length
}

#[cfg(test)]
mod tests {
    use super::*;

    #[test]
    fn the_papers_record() {
        let record = bytes(Stream(5), &[0x0a, 0x0b]);
        assert_eq!(record, [0x08, 0, 0x01, 0, 0x05, 0, 0, 0, 0x0a, 0x0b]);
        assert_eq!(length(2), Ok(record.len()));
        assert_eq!(length(9), Err(Reply::BadLength));
    }
}
