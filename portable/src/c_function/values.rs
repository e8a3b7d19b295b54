//! Places, operands, values and calls, and how each is stored.

use super::CFunction;
use crate::c_types::CTypes;
use crate::mir::{Declared, Op, Operand, Place, Step, Ty, Value};
use crate::unknown::Answer;

/// How a place is written in C.
#[derive(Clone)]
pub(super) struct Spot {
    text: Text,
    /// Its shape.
    pub(super) ty: Ty,
    form: Form,
}

#[derive(Clone)]
pub(super) enum Text {
    /// An object.
    Of(String),
    /// What this address points to.
    Through(String),
}

#[derive(Clone, Copy, PartialEq, Eq)]
pub(super) enum Form {
    Value,
    /// A `size_t`, in a slice or in the header, for a 64-bit number.
    Size,
    /// A C array: its first element is what the text is.
    Elements,
}

impl Spot {
    pub(super) fn new(text: impl Into<String>, ty: Ty) -> Spot {
        Spot { text: Text::Of(text.into()), ty, form: Form::Value }
    }

    pub(super) fn whole(&self) -> String {
        match &self.text {
            Text::Of(text) => text.clone(),
            Text::Through(address) => format!("*{address}"),
        }
    }

    fn dot(&self, field: &str) -> String {
        match &self.text {
            Text::Of(text) => format!("{text}.{field}"),
            Text::Through(address) if address.starts_with('(') => format!("({address})->{field}"),
            Text::Through(address) => format!("{address}->{field}"),
        }
    }

    /// An expression for the address of an array's first element.
    fn elements(&self) -> String {
        match (&self.form, &self.text) {
            (Form::Elements, Text::Of(text) | Text::Through(text)) => text.clone(),
            _ => self.dot("at"),
        }
    }
}

impl CFunction<'_, '_> {
    /// The C name of a local.
    pub(super) fn root(&self, local: usize) -> String {
        match self.names {
            Some(names) if (1..=self.function.params).contains(&local) => {
                // What is lent has a local of its own; a slice takes two names.
                if matches!(self.function.locals[local], Ty::Slice(..) | Ty::Ref(..)) {
                    return format!("v{local}");
                }
                let slices = |ty: &&Ty| matches!(ty, Ty::Slice(..));
                let before = self.function.locals[1..local].iter().filter(slices).count();
                names.get(local - 1 + before).cloned().unwrap_or_else(|| format!("v{local}"))
            }
            _ => format!("v{local}"),
        }
    }

    fn spot(&mut self, place: &Place) -> Answer<Spot> {
        let types = self.types.program.types_along(self.function, place, self.at)?;
        self.used.insert(place.local);
        let mut spot = Spot::new(self.root(place.local), self.shape(&types[0])?);
        let mut variant = None;
        for (step, (before, after)) in place.steps.iter().zip(types.iter().zip(&types[1..])) {
            let ty = self.shape(after)?;
            let in_variant = variant.take();
            spot = match (step, before) {
                _ if ty == Ty::Unit => Spot::new("", ty),
                (Step::Deref(_), _) => self.deref(&spot, ty)?,
                (Step::Field(0), Ty::Slice(..)) => Spot::new(spot.dot("at"), ty),
                (Step::Field(_), Ty::Slice(..)) => Spot { form: Form::Size, ..Spot::new(spot.dot("length"), ty) },
                (Step::Field(_), Ty::Named(name)) if self.types.program.is_enum(name) => Spot { ty, ..spot },
                (Step::Field(0), Ty::Named(_)) if in_variant.is_some() => Spot::new(spot.dot("tag"), ty),
                (Step::Field(number), Ty::Named(_)) if in_variant.is_some() => {
                    let member = CTypes::of_variant(in_variant.unwrap_or_default(), number - 1);
                    Spot::new(spot.dot(&member), ty)
                }
                (Step::Field(number), Ty::Named(name)) => match self.types.program.fields(before, self.at)? {
                    Some(_) => self.field(&spot, name, *number, ty)?,
                    None => Spot { ty, ..spot },
                },
                (Step::Variant(number), _) => {
                    variant = Some(*number);
                    spot
                }
                _ => return self.unknown(format!("{step:?} of {before:?}")),
            };
        }
        Ok(spot)
    }

    fn field(&self, of: &Spot, name: &str, number: usize, ty: Ty) -> Answer<Spot> {
        let field = self.types.field(name, number, self.at)?;
        let form = match (field.in_header, &ty) {
            (Some(_), Ty::Array(..)) => Form::Elements,
            (Some("size_t"), Ty::Int(64)) => Form::Size,
            _ => Form::Value,
        };
        Ok(Spot { text: Text::Of(of.dot(&field.name)), ty, form })
    }

    fn deref(&mut self, address: &Spot, ty: Ty) -> Answer<Spot> {
        // What is named is read and written whole, or by the names of its fields, wherever they lie in C.
        let named = matches!(ty, Ty::Int(64) | Ty::Named(_) | Ty::Slice(..) | Ty::Ref(..));
        if self.types.program.layout(&ty, self.at)?.is_none() && !named {
            return self.unknown(format!("a value behind an address whose layout is not the same everywhere: {ty:?}"));
        }
        let (element, form) = match &ty {
            Ty::Array(of, _) => ((**of).clone(), Form::Elements),
            _ => (ty.clone(), Form::Value),
        };
        let c = self.types.of(&element, self.at)?;
        self.types.rely_on(&ty);
        let address = address.whole();
        let gap = if c.ends_with('*') { "" } else { " " };
        let address = match c.as_str() {
            "uint8_t" => address,
            _ => format!("({c}{gap}*)(void *){address}"),
        };
        Ok(match form {
            Form::Elements => Spot { text: Text::Of(address), ty, form },
            _ => Spot { text: Text::Through(address), ty, form },
        })
    }

    /// A byte pointer to a place.
    fn address(&mut self, place: &Place) -> Answer<String> {
        let types = self.types.program.types_along(self.function, place, self.at)?;
        let mut steps = &place.steps[..];
        // the one field of a struct lies where the struct does
        while let [before @ .., Step::Field(0)] = steps {
            let one = matches!(&types[before.len()], Ty::Named(name) if matches!(
                self.types.program.declared(name, self.at)?, Declared::Struct(fields) if fields.len() == 1));
            if !one {
                break;
            }
            steps = before;
        }
        if let [before @ .., Step::Deref(to)] = steps {
            self.shape(to)?;
            return Ok(self.spot(&Place { local: place.local, steps: before.to_vec() })?.whole());
        }
        let spot = self.spot(place)?;
        if spot.form == Form::Size {
            return self.unknown("the address of a size_t");
        }
        Ok(match spot.text {
            Text::Of(text) => format!("(uint8_t *)&{text}"),
            Text::Through(address) => format!("(uint8_t *){address}"),
        })
    }

    pub(super) fn operand(&mut self, operand: &Operand) -> Answer<Spot> {
        Ok(match operand {
            Operand::Copy(place) => {
                let spot = self.spot(place)?;
                match spot.form {
                    Form::Size => Spot::new(format!("(uint64_t){}", spot.whole()), spot.ty),
                    _ => spot,
                }
            }
            Operand::Int(bits @ (8 | 16), number) => Spot::new(format!("{number}u"), Ty::Int(*bits)),
            Operand::Int(bits, number) => Spot::new(format!("UINT{bits}_C({number})"), Ty::Int(*bits)),
            Operand::Bool(is) => Spot::new(is.to_string(), Ty::Bool),
            Operand::Unit => Spot::new("", Ty::Unit),
        })
    }

    /// That a value of one type may be stored at the other: the same shape, but that an address is an address.
    pub(super) fn same(&self, to: &Ty, from: &Ty) -> Answer<()> {
        let alike = match (to, from) {
            (Ty::Ptr | Ty::Ref(..), Ty::Ptr | Ty::Ref(..)) => true,
            (Ty::Slice(_, to), Ty::Slice(_, from)) => to == from,
            _ => to == from,
        };
        if alike {
            return Ok(());
        }
        self.unknown(format!("{from:?} where {to:?} is due"))
    }

    fn store(&mut self, to: &Spot, value: &Spot) -> Answer<()> {
        self.same(&to.ty, &value.ty)?;
        let line = match (&to.ty, to.form, value.form) {
            (Ty::Unit, ..) => return Ok(()),
            (Ty::Array(..), to_form, from_form) if to_form == Form::Elements || from_form == Form::Elements => {
                let c = self.types.of(&to.ty, self.at)?;
                format!("memcpy({}, {}, sizeof({c}));", to.elements(), value.elements())
            }
            (_, Form::Size, _) => format!("{} = (size_t){};", to.whole(), value.whole()),
            _ => format!("{} = {};", to.whole(), value.whole()),
        };
        self.say(line);
        Ok(())
    }

    fn is_born(&self, place: &Place) -> bool {
        place.steps.is_empty() && self.born.get(&place.local) == Some(&self.at)
    }

    /// The place that a value is stored into, declared first where it is born here.
    fn target(&mut self, place: &Place) -> Answer<Spot> {
        let spot = self.spot(place)?;
        if self.is_born(place) && spot.ty != Ty::Unit {
            let line = format!("{};", self.types.declare(&spot.ty, &spot.whole(), self.at)?);
            self.say(line);
        }
        Ok(spot)
    }

    /// Stores a value into a place, and declares it with that value where it is born here.
    fn store_at(&mut self, place: &Place, value: &Spot) -> Answer<()> {
        let spot = self.spot(place)?;
        if self.is_born(place) && value.form == Form::Value && spot.ty != Ty::Unit {
            self.same(&spot.ty, &value.ty)?;
            let line = format!("{} = {};", self.types.declare(&spot.ty, &spot.whole(), self.at)?, value.whole());
            self.say(line);
            return Ok(());
        }
        let spot = self.target(place)?;
        self.store(&spot, value)
    }

    /// Whether what is read at one place may be written at the other.
    fn may_meet(&self, read: &Place, written: &Place) -> bool {
        let exposed = |place: &Place| place.derefs() || self.taken.contains(&place.local);
        read.local == written.local || exposed(read) && exposed(written)
    }

    /// Whether a local is written and never read.
    fn unread(&self, place: &Place) -> bool {
        !self.read.contains(&place.local)
    }

    /// A store into what is never read is made, so that all of it is known, and then left out: C compilers warn of it. So
    /// is one that makes a table.
    pub(super) fn assign(&mut self, to: &Place, value: &Value) -> Answer<()> {
        let unit = self.shape(&self.types.program.type_at(self.function, to, self.at)?)? == Ty::Unit;
        if unit && *value != Value::Use(Operand::Unit) {
            return self.assign_unit(value);
        }
        let (lines, used) = (self.lines.len(), self.used.clone());
        self.assign_read(to, value)?;
        if self.unread(to) || self.tables.hold(to.local) {
            self.lines.truncate(lines);
            self.used = used;
        }
        if self.unread(to) {
            self.say(format!("/* v{} is not read */", to.local));
        }
        Ok(())
    }

    /// What holds nothing is put together of what holds nothing, and is not stored.
    fn assign_unit(&mut self, value: &Value) -> Answer<()> {
        let (lines, used) = (self.lines.len(), self.used.clone());
        match value {
            Value::AddrOf(place) => {
                let to = self.types.program.type_at(self.function, place, self.at)?;
                self.same(&Ty::Unit, &self.shape(&to)?)?;
            }
            Value::Use(part) => self.put(&Spot::new("", Ty::Unit), part)?,
            Value::Aggregate(parts) => {
                parts.iter().try_for_each(|part| self.put(&Spot::new("", Ty::Unit), part))?;
            }
            other => return self.unknown(format!("{other:?} where the unit is due")),
        }
        self.lines.truncate(lines);
        self.used = used;
        Ok(())
    }

    fn assign_read(&mut self, to: &Place, value: &Value) -> Answer<()> {
        match value {
            Value::Aggregate(parts) => return self.aggregate(to, parts),
            Value::Repeat(of, count) => return self.repeat(to, of, *count),
            Value::Use(Operand::Unit) => {
                return match self.shape(&self.types.program.type_at(self.function, to, self.at)?)? {
                    Ty::Unit => Ok(()),
                    other => self.unknown(format!("the unit where {other:?} is due")),
                }
            }
            _ => {}
        }
        let from = match value {
            Value::Use(operand) => {
                let from = self.operand(operand)?;
                let several = self.types.program.fields(&from.ty, self.at)?.is_some();
                let wide =
                    matches!(from.ty, Ty::Array(..)) || several || self.types.program.variants(&from.ty).is_some();
                match operand {
                    Operand::Copy(read) if wide && self.may_meet(read, to) => {
                        let between = self.temporary(&from.ty)?;
                        self.store(&between, &from)?;
                        between
                    }
                    _ => from,
                }
            }
            Value::Two(op, a, b) => self.two(*op, a, b)?,
            Value::Not(a) => {
                let a = self.operand(a)?;
                match a.ty {
                    Ty::Bool => Spot::new(format!("!{}", a.whole()), Ty::Bool),
                    Ty::Int(bits) => Spot::new(format!("(uint{bits}_t)~{}", a.whole()), Ty::Int(bits)),
                    other => return self.unknown(format!("not of {other:?}")),
                }
            }
            Value::Cast(bits, a) => {
                let a = self.operand(a)?;
                match a.ty {
                    Ty::Int(_) | Ty::Bool => Spot::new(format!("(uint{bits}_t){}", a.whole()), Ty::Int(*bits)),
                    other => return self.unknown(format!("a cast of {other:?}")),
                }
            }
            Value::AddrOf(place) => Spot::new(self.address(place)?, Ty::Ptr),
            Value::Aggregate(_) | Value::Repeat(..) => unreachable!("written above"),
        };
        self.store_at(to, &from)
    }

    fn two(&mut self, op: Op, a: &Operand, b: &Operand) -> Answer<Spot> {
        let (a, b) = (self.operand(a)?, self.operand(b)?);
        let (x, y) = (a.whole(), b.whole());
        if op == Op::Offset {
            return match (&a.ty, &b.ty) {
                (Ty::Ptr | Ty::Ref(..), Ty::Int(64)) => Ok(Spot::new(format!("{x} + (size_t){y}"), Ty::Ptr)),
                _ => self.unknown(format!("the offset of {:?} by {:?}", a.ty, b.ty)),
            };
        }
        self.same(&a.ty, &b.ty)?;
        let sign = match op {
            // C's unsigned numbers wrap, and those of 8 and 16 bits are cut back below.
            Op::Add | Op::WrapAdd => "+",
            Op::Sub | Op::WrapSub => "-",
            Op::Mul | Op::WrapMul => "*",
            Op::Div => "/",
            Op::Rem => "%",
            Op::And => "&",
            Op::Or => "|",
            Op::Xor => "^",
            Op::Shl => "<<",
            Op::Shr => ">>",
            Op::Eq => "==",
            Op::Ne => "!=",
            Op::Lt => "<",
            Op::Le => "<=",
            Op::Offset => unreachable!("written above"),
        };
        let plain = format!("{x} {sign} {y}");
        match (op, &a.ty) {
            (Op::Eq | Op::Ne, Ty::Int(_) | Ty::Bool) | (Op::Lt | Op::Le, Ty::Int(_)) => Ok(Spot::new(plain, Ty::Bool)),
            (Op::And | Op::Or | Op::Xor, Ty::Bool) => Ok(Spot::new(plain, Ty::Bool)),
            (Op::Eq | Op::Ne | Op::Lt | Op::Le, _) => self.unknown(format!("{op:?} of {:?}", a.ty)),
            // C would make an int of them, which could overflow.
            (_, Ty::Int(bits @ (8 | 16))) => {
                Ok(Spot::new(format!("(uint{bits}_t)((uint32_t){x} {sign} {y})"), a.ty.clone()))
            }
            (_, Ty::Int(_)) => Ok(Spot::new(plain, a.ty.clone())),
            _ => self.unknown(format!("{op:?} of {:?}", a.ty)),
        }
    }

    fn aggregate(&mut self, to: &Place, parts: &[Operand]) -> Answer<()> {
        let named = self.types.program.type_at(self.function, to, self.at)?;
        if let (Ty::Named(name), [part], None) = (&named, parts, self.types.program.variants(&named)) {
            return match (self.types.program.declared(name, self.at)?, part) {
                (Declared::Enum(count), Operand::Int(8, tag)) if (*tag as usize) < *count => {
                    self.store_at(to, &Spot::new(format!("{tag}u"), named.clone()))
                }
                (Declared::Struct(fields), part) if fields.len() == 1 => {
                    let part = self.operand(part)?;
                    self.store_at(to, &part)
                }
                _ => self.unknown(format!("an aggregate of {name}")),
            };
        }
        let spot = self.target(to)?;
        let meets = parts.iter().filter_map(Operand::place).any(|read| self.may_meet(read, to));
        let into = if meets { self.temporary(&spot.ty)? } else { spot.clone() };
        match (&named, &spot.ty) {
            (_, Ty::Slice(mutable, of)) if parts.len() == 2 => {
                let address = Spot::new(into.dot("at"), Ty::Ref(*mutable, of.clone()));
                let length = Spot { form: Form::Size, ..Spot::new(into.dot("length"), Ty::Int(64)) };
                self.put(&address, &parts[0])?;
                self.put(&length, &parts[1])?;
            }
            (_, Ty::Array(of, count)) if parts.len() as u64 == *count => {
                for (number, part) in parts.iter().enumerate() {
                    let element = Spot::new(format!("{}[{number}]", into.elements()), (**of).clone());
                    self.put(&element, part)?;
                }
            }
            (Ty::Named(name), ty) if self.types.program.variants(ty).is_some() => {
                let variants = self.types.program.variants(ty).unwrap_or_default();
                let (tag, fields) = match parts.first() {
                    Some(Operand::Int(8, tag)) => (*tag as usize, variants.get(*tag as usize)),
                    _ => (0, None),
                };
                let Some(fields) = fields.filter(|fields| fields.len() + 1 == parts.len()) else {
                    return self.unknown(format!("an aggregate of {} parts for {name}", parts.len()));
                };
                self.put(&Spot::new(into.dot("tag"), Ty::Int(8)), &parts[0])?;
                for (number, (field, part)) in fields.iter().zip(&parts[1..]).enumerate() {
                    let member = Spot::new(into.dot(&CTypes::of_variant(tag, number)), self.shape(field)?);
                    self.put(&member, part)?;
                }
            }
            (Ty::Named(name), ty) => {
                let fields = self.types.program.fields(ty, self.at)?.unwrap_or_default();
                if fields.len() != parts.len() {
                    return self.unknown(format!("an aggregate of {} parts for {name}", parts.len()));
                }
                for (number, (field, part)) in fields.iter().zip(parts).enumerate() {
                    let ty = self.shape(field)?;
                    let field = match ty {
                        Ty::Unit => Spot::new("", ty),
                        _ => self.field(&into, name, number, ty)?,
                    };
                    self.put(&field, part)?;
                }
            }
            (_, ty) => return self.unknown(format!("an aggregate of {} parts for {ty:?}", parts.len())),
        }
        if meets {
            self.store(&spot, &into)?;
        }
        Ok(())
    }

    fn put(&mut self, to: &Spot, part: &Operand) -> Answer<()> {
        let part = self.operand(part)?;
        self.store(to, &part)
    }

    fn repeat(&mut self, to: &Place, of: &Operand, count: u64) -> Answer<()> {
        let spot = self.target(to)?;
        let mut value = self.operand(of)?;
        let element = match &spot.ty {
            Ty::Array(element, length) if *length == count => (**element).clone(),
            other => return self.unknown(format!("a value repeated {count} times for {other:?}")),
        };
        if of.place().is_some_and(|read| self.may_meet(read, to)) {
            let between = self.temporary(&value.ty)?;
            self.store(&between, &value)?;
            value = between;
        }
        self.temporaries += 1;
        let index = format!("t{}", self.temporaries);
        self.say(format!("for (size_t {index} = 0; {index} < {count}; {index}++) {{"));
        self.depth += 1;
        self.store(&Spot::new(format!("{}[{index}]", spot.elements()), element), &value)?;
        self.depth -= 1;
        self.say("}");
        Ok(())
    }

    pub(super) fn copy_bits(&mut self, within: bool, ty: &Ty, arguments: &[Operand; 3]) -> Answer<()> {
        let [from, to, count] = arguments;
        let (from, to, count) = (self.operand(from)?, self.operand(to)?, self.operand(count)?);
        self.same(&Ty::Int(64), &count.ty)?;
        let ty = self.shape(ty)?;
        let size = match self.types.program.layout(&ty, self.at)? {
            Some((1, _)) => String::new(),
            Some((size, _)) => format!(" * {size}"),
            None => format!(" * sizeof({})", self.types.of(&ty, self.at)?),
        };
        self.types.rely_on(&ty);
        let word = if within { "memmove" } else { "memcpy" };
        self.say(format!("{word}({}, {}, (size_t){}{size});", to.whole(), from.whole(), count.whole()));
        Ok(())
    }

    pub(super) fn call(&mut self, name: &str, arguments: &[Operand], to: &Place) -> Answer<()> {
        let Some(callee) = self.types.program.functions.get(name) else {
            return self.unknown(format!("the function {name}, which is not there"));
        };
        if self.types.exports.functions.contains(&name) {
            return self.unknown(format!("a call of {name}, which is for C alone"));
        }
        if arguments.len() != callee.params {
            return self.unknown(format!("{} arguments for {name}, which takes {}", arguments.len(), callee.params));
        }
        let mut texts = Vec::new();
        for (argument, ty) in arguments.iter().zip(&callee.locals[1..]) {
            let mut value = self.operand(argument)?;
            self.same(&self.shape(ty)?, &value.ty)?;
            if value.ty == Ty::Unit {
                continue;
            }
            if value.form == Form::Elements {
                let between = self.temporary(&value.ty)?;
                self.store(&between, &value)?;
                value = between;
            }
            texts.push(value.whole());
        }
        let answer = self.shape(&callee.locals[0])?;
        let call = Spot::new(format!("{}({})", self.types.c_name(name), texts.join(", ")), answer.clone());
        self.same(&self.shape(&self.types.program.type_at(self.function, to, self.at)?)?, &answer)?;
        if answer == Ty::Unit {
            self.say(format!("{};", call.whole()));
            return Ok(());
        }
        if self.unread(to) {
            self.say(format!("(void){};", call.whole()));
            return Ok(());
        }
        // The place is found after the call.
        let call = if to.derefs() || self.spot(to)?.form == Form::Elements {
            let between = self.temporary(&answer)?;
            self.store(&between, &call)?;
            between
        } else {
            call
        };
        self.store_at(to, &call)
    }
}
