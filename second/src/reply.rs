//! The numbered replies, and the tally that counts them.

/// What a call answers, in the paper's numbering.
#[derive(Clone, Copy, Debug, PartialEq, Eq, PartialOrd, Ord, Hash)]
pub enum Reply {
    Done = 0,
    BadSettings = 1,
    TableFull = 2,
    Taken = 3,
    BadFrame = 4,
    NotMine = 5,
    Misfit = 6,
    Clash = 7,
    Busy = 8,
    NotSender = 9,
    BadLength = 10,
    ShortOutput = 11,
    Nothing = 12,
    IdentifierTooBig = 18,
    DlcTooBig = 19,
    PayloadLength = 20,
    UnwantedPayload = 21,
}

/// How many replies there are. Their numbers have a gap: 13 to 17 are not a node's.
pub const REPLIES: usize = 17;

impl Reply {
    /// Every reply, by ascending number: the order of the tally.
    pub const ALL: [Reply; REPLIES] = [
        Reply::Done,
        Reply::BadSettings,
        Reply::TableFull,
        Reply::Taken,
        Reply::BadFrame,
        Reply::NotMine,
        Reply::Misfit,
        Reply::Clash,
        Reply::Busy,
        Reply::NotSender,
        Reply::BadLength,
        Reply::ShortOutput,
        Reply::Nothing,
        Reply::IdentifierTooBig,
        Reply::DlcTooBig,
        Reply::PayloadLength,
        Reply::UnwantedPayload,
    ];

    pub fn number(self) -> usize {
        self as usize
    }

    /// Where the reply stands among all, and its count in the tally.
    pub fn place(self) -> usize {
        Reply::ALL.partition_point(|other| *other < self)
    }

    pub fn from_number(number: u64) -> Option<Reply> {
        Reply::ALL.into_iter().find(|reply| reply.number() as u64 == number)
    }
}

/// A count per reply since the start, by place; a count stays at its most once there.
#[derive(Clone, Debug, Default, PartialEq, Eq)]
pub struct Tally {
    counts: [u32; REPLIES],
}

impl Tally {
    pub fn count(&mut self, reply: Reply) {
        let count = &mut self.counts[reply.place()];
        *count = count.saturating_add(1);
    }

    pub fn counts(&self) -> &[u32; REPLIES] {
        &self.counts
    }
}

#[cfg(test)]
mod tests {
    use super::*;

    #[test]
    fn a_count_stays_at_its_most() {
        let mut tally = Tally::default();
        tally.counts[3] = u32::MAX - 1;
        tally.count(Reply::Taken);
        tally.count(Reply::Taken);
        assert_eq!(tally.counts()[3], 4_294_967_295);
    }

    #[test]
    fn numbers_and_replies_agree() {
        let numbers: Vec<usize> = (0..=12).chain(18..=21).collect();
        assert_eq!(Reply::ALL.map(Reply::number).to_vec(), numbers);
        for (place, reply) in Reply::ALL.into_iter().enumerate() {
            assert_eq!(reply.place(), place);
            assert_eq!(Reply::from_number(reply.number() as u64), Some(reply));
        }
        assert!((13..=17).chain([22]).all(|number| Reply::from_number(number).is_none()));
    }
}
