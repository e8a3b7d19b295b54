//! What modules hold, as far as the answers tell it: so that a drop can be named by its message.

use std::collections::BTreeMap;

use second::bench::{Delivery, Drops, Hearing};
use second::receiver::Did;

use crate::tag::Tag;

/// A message that a module told as new, and has neither dropped nor delivered since.
struct Held {
    tag: Tag,
    confirmed: bool,
}

/// What was dropped by one module at one time.
#[derive(Clone, Debug, PartialEq, Eq)]
pub struct Dropped {
    pub module: usize,
    pub number: usize,
    /// The messages among which those are that were dropped. If they are as many, they are the ones.
    pub among: Vec<Tag>,
}

impl Dropped {
    pub fn is_named(&self) -> bool {
        self.among.len() == self.number
    }
}

/// What is held, by module and stream.
#[derive(Default)]
pub struct Holdings {
    held: BTreeMap<(usize, u32), Held>,
}

impl Holdings {
    /// Takes in what a frame did to a module; gives what it dropped.
    pub fn hear(&mut self, frame: &Tag, hearing: &Hearing) -> Option<Dropped> {
        let key = (hearing.module, frame.stream);
        match hearing.did? {
            Did::New => {
                self.held.insert(key, Held { tag: frame.clone(), confirmed: false });
            }
            Did::Confirmed => {
                if let Some(held) = self.held.get_mut(&key) {
                    held.confirmed = true;
                }
            }
            Did::Dropped => {
                let tag = self.held.remove(&key).map_or_else(|| frame.clone(), |held| held.tag);
                return Some(Dropped { module: hearing.module, number: 1, among: vec![tag] });
            }
            _ => {}
        }
        None
    }

    /// Takes in a tick's drops of a module: what it drops is unconfirmed, and of a class that confirms.
    pub fn drop(&mut self, drops: &Drops, confirms: impl Fn(u32) -> bool) -> Dropped {
        let unconfirmed = |(key, held): &(&(usize, u32), &Held)| {
            key.0 == drops.module && !held.confirmed && confirms(held.tag.stream)
        };
        let among: Vec<Tag> = self.held.iter().filter(unconfirmed).map(|(_, held)| held.tag.clone()).collect();
        let dropped = Dropped { module: drops.module, number: drops.number, among };
        if dropped.is_named() {
            dropped.among.iter().for_each(|tag| self.take(drops.module, tag.stream));
        }
        dropped
    }

    pub fn deliver(&mut self, delivery: &Delivery) {
        self.take(delivery.module, delivery.stream.0);
    }

    fn take(&mut self, module: usize, stream: u32) {
        self.held.remove(&(module, stream));
    }
}
