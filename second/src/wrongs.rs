//! What can be wrong on purpose with a part that has its own comparison: a list of faults, each with its name.

macro_rules! wrongs {
    ($($name:ident, $word:literal, $says:literal;)*) => {
        /// What is wrong on purpose; `Nothing` in the faultless one.
        #[derive(Clone, Copy, Debug, PartialEq, Eq)]
        pub enum Wrong {
            Nothing,
            $($name,)*
        }

        /// Each with its name and what it does.
        pub const WRONGS: &[(Wrong, &str, &str)] = &[$((Wrong::$name, $word, $says),)*];

        impl Wrong {
            pub fn from_name(name: &str) -> Option<Wrong> {
                WRONGS.iter().find(|named| named.1 == name).map(|named| named.0)
            }
        }
    };
}

pub(crate) use wrongs;
