//! Types with their names resolved, and how a value lies in the machine's memory (the kit's `logic/Prog/Memory.antt`).

use std::rc::Rc;

use crate::mir::{Declared, Program, Ty};
use crate::unknown::{unknown, Answer};

impl Program {
    pub fn declared(&self, name: &str, at: usize) -> Answer<&Declared> {
        match self.declared.get(name) {
            Some(declared) => Ok(declared),
            None => unknown(at, format!("the type {name}, which is not declared")),
        }
    }

    /// The fields of a struct of several fields.
    pub fn fields(&self, ty: &Ty, at: usize) -> Answer<Option<&[Ty]>> {
        match ty {
            Ty::Named(name) => match self.declared(name, at)? {
                Declared::Struct(fields) if fields.len() > 1 => Ok(Some(fields)),
                _ => Ok(None),
            },
            _ => Ok(None),
        }
    }

    /// An enum of which no variant has fields: its tag.
    pub fn is_enum(&self, name: &str) -> bool {
        matches!(self.declared.get(name), Some(Declared::Enum(_)))
    }

    /// The variants of an enum with fields.
    pub fn variants(&self, ty: &Ty) -> Option<&[Vec<Ty>]> {
        match ty {
            Ty::Named(name) => match self.declared.get(name) {
                Some(Declared::Tagged(variants)) => Some(variants),
                _ => None,
            },
            _ => None,
        }
    }

    /// A struct of one field is that field, here and within arrays and behind references. What holds nothing is the unit, and so is
    /// a reference to it: nothing is read there.
    pub fn shape(&self, ty: &Ty, at: usize) -> Answer<Ty> {
        let inner = |ty: &Rc<Ty>| self.shape(ty, at).map(Rc::new);
        Ok(match ty {
            Ty::Named(name) => match self.declared(name, at)? {
                Declared::Struct(fields) if fields.len() == 1 => self.shape(&fields[0], at)?,
                Declared::Struct(fields) => {
                    for field in fields {
                        if self.shape(field, at)? != Ty::Unit {
                            return Ok(ty.clone());
                        }
                    }
                    Ty::Unit
                }
                _ => ty.clone(),
            },
            Ty::Array(of, count) => match self.shape(of, at)? {
                Ty::Unit => return unknown(at, "an array of the unit"),
                of => Ty::Array(Rc::new(of), *count),
            },
            Ty::Ref(mutable, to) => match self.shape(to, at)? {
                Ty::Unit => Ty::Unit,
                to => Ty::Ref(*mutable, Rc::new(to)),
            },
            Ty::Slice(mutable, of) => Ty::Slice(*mutable, inner(of)?),
            _ => ty.clone(),
        })
    }

    /// Size and alignment; none where they are not the same on every chip: a 64-bit number, an address, or what holds one.
    pub fn layout(&self, ty: &Ty, at: usize) -> Answer<Option<(u64, u64)>> {
        Ok(match ty {
            Ty::Int(64) | Ty::Ptr | Ty::Ref(..) | Ty::Slice(..) => None,
            Ty::Unit => Some((0, 1)),
            Ty::Int(bits) => Some((u64::from(bits / 8), u64::from(bits / 8))),
            Ty::Bool => Some((1, 1)),
            Ty::Array(of, count) => self.layout(of, at)?.map(|(size, align)| (size * count, align)),
            Ty::Named(name) => match self.declared(name, at)? {
                Declared::Enum(_) => Some((1, 1)),
                _ => self.offsets(name, at)?.map(|(_, size, align)| (size, align)),
            },
        })
    }

    /// Where each field of a struct begins, or of the one variant with fields of an enum, and its size and alignment. Several variants
    /// with fields lie over one another in the machine, and do not in C.
    pub fn offsets(&self, name: &str, at: usize) -> Answer<Option<(Vec<u64>, u64, u64)>> {
        let (fields, mut end) = match self.declared(name, at)? {
            Declared::Struct(fields) => (fields, 0_u64),
            Declared::Tagged(variants) => {
                let mut with: Vec<&Vec<Ty>> = variants.iter().filter(|fields| !fields.is_empty()).collect();
                match (with.pop(), with.pop()) {
                    (Some(fields), None) => (fields, 1),
                    _ => return Ok(None),
                }
            }
            Declared::Enum(_) => return Ok(None),
        };
        let (mut offsets, mut most) = (Vec::new(), 1);
        for field in fields {
            let Some((size, align)) = self.layout(field, at)? else {
                return Ok(None);
            };
            end = end.next_multiple_of(align);
            offsets.push(end);
            end += size;
            most = most.max(align);
        }
        Ok(Some((offsets, end.next_multiple_of(most), most)))
    }
}
