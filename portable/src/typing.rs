//! The types of places, and that an address is used only at the type of what it points to: C knows no other use.

use std::collections::BTreeSet;
use std::rc::Rc;

use crate::mir::{all, Declared, Does, Function, Op, Operand, Place, Program, Statement, Step, Ty, Value};
use crate::unknown::{unknown, Answer};

impl Program {
    /// The type of a place before its first step, and after each. After `variant` it is still the enum's.
    pub fn types_along(&self, function: &Function, place: &Place, at: usize) -> Answer<Vec<Ty>> {
        let Some(mut ty) = function.locals.get(place.local).cloned() else {
            return unknown(at, format!("the local {}", place.local));
        };
        let mut types = vec![ty.clone()];
        let mut in_variant: Option<usize> = None;
        for (place, step) in place.steps.iter().enumerate() {
            let before = in_variant.take();
            ty = match (step, &ty) {
                (Step::Deref(to), _) if matches!(self.shape(&ty, at)?, Ty::Ptr | Ty::Ref(..)) => to.clone(),
                (Step::Deref(to), Ty::Ref(..)) if self.shape(to, at)? == Ty::Unit => to.clone(),
                (Step::Field(0), Ty::Slice(mutable, of)) => Ty::Ref(*mutable, of.clone()),
                (Step::Field(1), Ty::Slice(..)) => Ty::Int(64),
                (Step::Field(0), Ty::Named(_)) if before.is_some() => Ty::Int(8),
                (Step::Field(number), Ty::Named(name)) => match (self.declared(name, at)?, before) {
                    (Declared::Struct(fields), None) if *number < fields.len() => fields[*number].clone(),
                    (Declared::Tagged(variants), Some(variant)) if *number <= variants[variant].len() => {
                        variants[variant][*number - 1].clone()
                    }
                    _ => return unknown(at, format!("field {number} of {name}")),
                },
                (Step::Variant(number), Ty::Named(name)) => {
                    if before.is_some() || *number >= self.declared(name, at)?.variants() {
                        return unknown(at, format!("variant {number} of {name}"));
                    }
                    in_variant = Some(*number);
                    ty.clone()
                }
                _ => return unknown(at, format!("step {place}, {step:?}, of {ty:?}")),
            };
            types.push(ty.clone());
        }
        if in_variant.is_some() {
            return unknown(at, "a variant as a value");
        }
        Ok(types)
    }

    /// The type of a place with the names that it is declared with.
    pub fn type_at(&self, function: &Function, place: &Place, at: usize) -> Answer<Ty> {
        Ok(self.types_along(function, place, at)?.pop().expect("a place has a type"))
    }

    /// That every use of an address in this function is at the type that it points to, or at that of an array's element.
    pub fn addresses_are_typed(&self, function: &Function) -> Answer<()> {
        let typing = Typing::of(self, function)?;
        all(&function.body).into_iter().try_for_each(|statement| typing.check(statement))
    }
}

/// What each local that is a bare address may point to.
struct Typing<'a> {
    program: &'a Program,
    function: &'a Function,
    targets: Vec<BTreeSet<Ty>>,
}

/// What an array is of in the end, or the type itself.
fn element(ty: &Ty) -> &Ty {
    match ty {
        Ty::Array(of, _) => element(of),
        _ => ty,
    }
}

/// Whether an address of the type `whole` may be used as one of the type `part`: both are of one type, or of arrays of it. C reads and
/// writes an array behind an address by its elements, so as many of them may be taken for an array as the program does.
fn holds(whole: &Ty, part: &Ty) -> bool {
    element(whole) == element(part)
}

impl<'a> Typing<'a> {
    fn of(program: &'a Program, function: &'a Function) -> Answer<Typing<'a>> {
        if let Some(local) = function.locals[..=function.params].iter().position(|ty| *ty == Ty::Ptr) {
            return unknown(function.at, format!("a bare address as parameter {local}, or as the answer"));
        }
        let mut typing = Typing { program, function, targets: vec![BTreeSet::new(); function.locals.len()] };
        loop {
            let mut grown = false;
            for statement in all(&function.body) {
                let Does::Assign(to, value) = &statement.does else { continue };
                if to.steps.is_empty() && function.locals.get(to.local) == Some(&Ty::Ptr) {
                    let more = typing.pointed_by(value, statement.at)?;
                    let known = typing.targets[to.local].len();
                    typing.targets[to.local].extend(more);
                    grown |= typing.targets[to.local].len() > known;
                }
            }
            if !grown {
                return Ok(typing);
            }
        }
    }

    fn type_at(&self, place: &Place, at: usize) -> Answer<Ty> {
        self.program.shape(&self.program.type_at(self.function, place, at)?, at)
    }

    /// What an address that stands in a place may point to.
    fn pointed_from(&self, place: &Place, at: usize) -> Answer<BTreeSet<Ty>> {
        match self.type_at(place, at)? {
            Ty::Ref(_, to) => Ok(BTreeSet::from([(*to).clone()])),
            Ty::Ptr if place.steps.is_empty() => Ok(self.targets[place.local].clone()),
            other => unknown(at, format!("{other:?} where an address is due")),
        }
    }

    /// What the address that a value is may point to.
    fn pointed_by(&self, value: &Value, at: usize) -> Answer<BTreeSet<Ty>> {
        match value {
            Value::AddrOf(place) => Ok(BTreeSet::from([self.type_at(place, at)?])),
            Value::Use(Operand::Copy(place)) | Value::Two(Op::Offset, Operand::Copy(place), _) => {
                self.pointed_from(place, at)
            }
            // the one field of a struct
            Value::Aggregate(parts) => match &parts[..] {
                [Operand::Copy(place)] => self.pointed_from(place, at),
                _ => unknown(at, format!("the address {value:?}")),
            },
            other => unknown(at, format!("the address {other:?}")),
        }
    }

    fn check(&self, statement: &Statement) -> Answer<()> {
        let at = statement.at;
        let read = statement.operands().into_iter().filter_map(Operand::place);
        for place in read.chain(statement.target()).chain(statement.address_of()) {
            for (number, step) in place.steps.iter().enumerate() {
                // nothing is read where nothing is held
                if let Some(to) = step.deref().filter(|to| self.program.shape(to, at) != Ok(Ty::Unit)) {
                    let address = Place { local: place.local, steps: place.steps[..number].to_vec() };
                    self.all_hold(&self.pointed_from(&address, at)?, to, at)?;
                }
            }
        }
        match &statement.does {
            Does::Assign(to, value) => self.assigned(to, value, at),
            Does::Call(name, arguments, to) => {
                let Some(callee) = self.program.functions.get(name) else { return Ok(()) };
                for (argument, ty) in arguments.iter().zip(&callee.locals[1..]) {
                    self.fits(ty, argument, at)?;
                }
                match (self.type_at(to, at)?, self.program.shape(&callee.locals[0], at)?) {
                    (Ty::Ref(_, part), Ty::Ref(_, whole)) => {
                        self.all_hold(&BTreeSet::from([(*whole).clone()]), &part, at)
                    }
                    _ => Ok(()),
                }
            }
            Does::CopyBits(_, ty, [from, to, _]) => {
                self.counted(&self.program.shape(ty, at)?, at)?;
                let address = Ty::Ref(false, Rc::new(ty.clone()));
                self.fits(&address, from, at)?;
                self.fits(&address, to, at)
            }
            _ => Ok(()),
        }
    }

    /// That what is put where an address to this is due is one.
    fn fits(&self, ty: &Ty, operand: &Operand, at: usize) -> Answer<()> {
        match (self.program.shape(ty, at)?, operand) {
            (Ty::Ref(_, part), Operand::Copy(place)) => self.all_hold(&self.pointed_from(place, at)?, &part, at),
            (Ty::Ref(..), other) => unknown(at, format!("{other:?} where an address is due")),
            _ => Ok(()),
        }
    }

    fn assigned(&self, to: &Place, value: &Value, at: usize) -> Answer<()> {
        if let Value::Two(Op::Offset, Operand::Copy(from), by) = value {
            if *by != Operand::Int(64, 0) {
                self.pointed_from(from, at)?.iter().try_for_each(|target| self.counted(target, at))?;
            }
        }
        match (self.type_at(to, at)?, value) {
            (Ty::Ref(_, part), value) => self.all_hold(&self.pointed_by(value, at)?, &part, at),
            (Ty::Slice(_, part), Value::Aggregate(parts)) => match &parts[..] {
                [Operand::Copy(address), _] => self.all_hold(&self.pointed_from(address, at)?, &part, at),
                // the one field of a struct
                [Operand::Copy(_)] => Ok(()),
                _ => unknown(at, "a slice of other parts than an address and a count"),
            },
            (ty @ Ty::Named(_), Value::Aggregate(parts)) => {
                let fields = match (self.program.variants(&ty), parts.first()) {
                    (Some(variants), Some(Operand::Int(8, tag))) => {
                        variants.get(*tag as usize).map(|fields| &fields[..])
                    }
                    _ => self.program.fields(&ty, at)?,
                };
                let skipped = usize::from(self.program.variants(&ty).is_some());
                let mut pairs = fields.unwrap_or_default().iter().zip(parts.iter().skip(skipped));
                pairs.try_for_each(|(field, part)| self.fits(field, part, at))
            }
            _ => Ok(()),
        }
    }

    /// An offset counts the machine's bytes, so what lies there must be laid out in C as in the machine.
    fn counted(&self, target: &Ty, at: usize) -> Answer<()> {
        match target {
            Ty::Array(of, _) => self.counted(of, at),
            Ty::Int(64) => Ok(()),
            _ if self.program.layout(target, at)?.is_some() => Ok(()),
            _ => unknown(at, format!("an offset among values whose layout is not the same everywhere: {target:?}")),
        }
    }

    fn all_hold(&self, wholes: &BTreeSet<Ty>, part: &Ty, at: usize) -> Answer<()> {
        let part = self.program.shape(part, at)?;
        match wholes.iter().find(|whole| !holds(whole, &part)) {
            Some(whole) => unknown(at, format!("an address of {whole:?}, used as one of {part:?}")),
            None if wholes.is_empty() => unknown(at, "an address that is used before it is made"),
            None => Ok(()),
        }
    }
}
