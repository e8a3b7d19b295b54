//! Stream numbers, bus identifiers, and the codes that the two lowest bits of an identifier carry.

use crate::fault::Fault;
use crate::limits::Limit;
use crate::reply::Reply;

/// The number of a stream, 27 bits where it is legal.
#[derive(Clone, Copy, Debug, PartialEq, Eq, PartialOrd, Ord, Hash)]
pub struct Stream(pub u32);

/// What stands on the bus: stream × 4 + code, 29 bits where it is legal.
#[derive(Clone, Copy, Debug, PartialEq, Eq, PartialOrd, Ord, Hash)]
pub struct BusId(pub u32);

/// What a frame is to its message.
#[derive(Clone, Copy, Debug, PartialEq, Eq, PartialOrd, Ord, Hash)]
pub enum Code {
    Data = 0,
    Confirmation = 1,
    Abort = 2,
    Plain = 3,
}

impl Code {
    pub const ALL: [Code; 4] = [Code::Data, Code::Confirmation, Code::Abort, Code::Plain];
}

/// The bus identifier of a stream's frame; 1 for a stream or a code outside the rules.
pub fn join(stream: Stream, code: u32) -> Result<BusId, Reply> {
    if i64::from(stream.0) > Limit::StreamMost.value() || code > 3 {
        return Err(Reply::BadSettings);
    }
    Ok(BusId(stream.0 * 4 + code))
}

/// The stream and the code of a bus identifier; 4 for one above the most.
pub fn split(id: BusId) -> Result<(Stream, Code), Reply> {
    split_by(Fault::None, id)
}

pub(crate) fn split_by(fault: Fault, id: BusId) -> Result<(Stream, Code), Reply> {
    if i64::from(id.0) > Limit::IdentMost.of(fault) {
        return Err(Reply::BadFrame);
    }
    Ok((Stream(id.0 / 4), code_of(id.0)))
}

/// The code in the two lowest bits, whether or not the rest is a stream.
pub(crate) fn code_of(id: u32) -> Code {
    Code::ALL[(id % 4) as usize]
}

/// The identifier under which a node gives out a frame of one of its own streams.
pub fn own(stream: Stream, code: Code) -> BusId {
    BusId(stream.0.wrapping_mul(4).wrapping_add(code as u32))
}

#[cfg(test)]
mod tests {
    use super::*;

    #[test]
    fn the_papers_examples() {
        for code in 0..4 {
            assert_eq!(join(Stream(5), code), Ok(BusId(20 + code)));
        }
        assert_eq!(join(Stream(134_217_727), 3), Ok(BusId(536_870_911)));
        assert_eq!(join(Stream(134_217_728), 0), Err(Reply::BadSettings));
        assert_eq!(join(Stream(5), 4), Err(Reply::BadSettings));
        assert_eq!(split(BusId(536_870_912)), Err(Reply::BadFrame));
    }
}
