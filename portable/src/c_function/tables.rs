//! Tables: a local array of literals that is only read is a constant of the file. A chip then has it in its flash, and it is
//! not written anew wherever the program comes by.

use std::collections::{BTreeMap, BTreeSet};

use super::CFunction;
use crate::mir::{all, Does, Function, Op, Operand, Place, Statement, Ty, Value};
use crate::unknown::Answer;

/// What is known of the locals that hold literals.
#[derive(Default)]
pub(super) struct Tables<'a> {
    /// The parts of each table, and of each array that is only a part of one.
    parts: BTreeMap<usize, &'a [Operand]>,
    /// The tables themselves: their addresses are taken.
    whole: BTreeSet<usize>,
}

/// The local that an operand copies whole.
fn copied(operand: &Operand) -> Option<usize> {
    operand.place().filter(|place| place.steps.is_empty()).map(|place| place.local)
}

/// The arrays that are written once, by an aggregate.
fn written_once<'a>(function: &'a Function, statements: &[&'a Statement]) -> BTreeMap<usize, &'a [Operand]> {
    let mut found = BTreeMap::new();
    for statement in statements {
        let Some(Place { local, steps }) = statement.target() else { continue };
        let times = statements.iter().filter_map(|one| one.target()).filter(|place| place.local == *local).count();
        let array = *local > function.params && matches!(function.locals.get(*local), Some(Ty::Array(..)));
        if let (Does::Assign(_, Value::Aggregate(parts)), true) =
            (&statement.does, array && times == 1 && steps.is_empty())
        {
            found.insert(*local, &parts[..]);
        }
    }
    found
}

/// Whether nothing is done with an address of this local, or with one that was reckoned from it, but to read there.
fn only_read(statements: &[&Statement], local: usize) -> bool {
    let mut addresses = BTreeSet::new();
    loop {
        let known = addresses.len();
        for statement in statements {
            let Does::Assign(to, value) = &statement.does else { continue };
            let holds = |operand: &Operand| copied(operand).is_some_and(|from| addresses.contains(&from));
            let reckoned = match value {
                Value::AddrOf(place) => place.local == local || addresses.contains(&place.local),
                Value::Two(Op::Offset, from, _) | Value::Use(from) => holds(from),
                _ => false,
            };
            if reckoned && !to.steps.is_empty() {
                return false;
            }
            if reckoned {
                addresses.insert(to.local);
            }
        }
        if addresses.len() == known {
            break;
        }
    }
    statements.iter().all(|statement| {
        let stored = statement.target().is_some_and(|to| addresses.contains(&to.local) && to.derefs());
        let handed_on = match &statement.does {
            Does::Assign(_, Value::AddrOf(_) | Value::Use(_) | Value::Two(Op::Offset, ..)) => false,
            _ => statement.operands().into_iter().filter_map(copied).any(|from| addresses.contains(&from)),
        };
        !stored && !handed_on
    })
}

impl<'a> Tables<'a> {
    pub(super) fn of(function: &'a Function, taken: &BTreeSet<usize>) -> Tables<'a> {
        let statements = all(&function.body);
        let once = written_once(function, &statements);
        let mut tables = Tables::default();
        for local in once.keys().filter(|local| taken.contains(local) && only_read(&statements, **local)) {
            let mut parts = BTreeMap::new();
            let mut open = vec![*local];
            while let Some(next) = open.pop() {
                let Some(of) = once.get(&next) else { break };
                parts.insert(next, *of);
                open.extend(of.iter().filter_map(Operand::place).map(|place| place.local));
            }
            // Each part is a literal, or an array that stands nowhere else.
            let own = parts.keys().filter(|part| *part != local).all(|part| {
                let reads = statements.iter().flat_map(|one| one.operands()).filter_map(Operand::place);
                !taken.contains(part) && reads.filter(|place| place.local == *part).count() == 1
            });
            let whole = parts.values().flat_map(|of| of.iter()).all(|part| match part {
                Operand::Copy(place) => place.steps.is_empty() && parts.contains_key(&place.local),
                Operand::Int(..) | Operand::Bool(_) => true,
                Operand::Unit => false,
            });
            if own && whole {
                tables.parts.extend(parts);
                tables.whole.insert(*local);
            }
        }
        tables
    }

    /// Whether what is stored into this local stands in a table.
    pub(super) fn hold(&self, local: usize) -> bool {
        self.parts.contains_key(&local)
    }

    pub(super) fn is_one(&self, local: usize) -> bool {
        self.whole.contains(&local)
    }
}

impl CFunction<'_, '_> {
    /// The parts of a table as C's initial value of it: a struct that holds an array.
    pub(super) fn initial(&mut self, local: usize) -> Answer<String> {
        let parts: Vec<Operand> = self.tables.parts.get(&local).map_or(Vec::new(), |parts| parts.to_vec());
        let mut texts = Vec::new();
        for part in &parts {
            texts.push(match copied(part) {
                Some(inner) => self.initial(inner)?,
                None => self.operand(part)?.whole(),
            });
        }
        Ok(format!("{{{{{}}}}}", texts.join(", ")))
    }
}
