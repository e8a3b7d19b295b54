//! C's types for the program's: numbers are `uintN_t`, an enum is its tag, a struct of one field is that field, and an array
//! is a struct that holds it, so that it can be passed and answered. In a struct of the header an array is a C array. An enum with
//! fields is a struct: the tag, and beside it the fields of each variant. What holds nothing is left out.

use std::collections::{BTreeMap, BTreeSet};
use std::fmt::Write;

use crate::exports::Exports;
use crate::header::Header;
use crate::mir::{Program, Ty};
use crate::names::{names, PREFIX};
use crate::unknown::{unknown, Answer};

pub struct CTypes<'a> {
    pub program: &'a Program,
    pub header: &'a Header,
    pub exports: Exports<'a>,
    names: BTreeMap<String, String>,
    /// The structs and arrays that are used, each after what it holds.
    used: Vec<Ty>,
    /// Those that stand behind an address.
    behind: BTreeSet<Ty>,
    slices: bool,
}

/// A field of a struct in C.
pub struct CField<'a> {
    pub name: String,
    /// Where the header declares it: its C type there.
    pub in_header: Option<&'a str>,
}

impl<'a> CTypes<'a> {
    pub fn new(program: &'a Program, header: &'a Header, exports: Exports<'a>) -> CTypes<'a> {
        let names = names(program);
        CTypes { program, header, exports, names, used: Vec::new(), behind: BTreeSet::new(), slices: false }
    }

    /// Without the prefix.
    fn bare_name(&self, name: &str) -> String {
        self.names.get(name).cloned().unwrap_or_else(|| name.replace("::", "_"))
    }

    pub fn c_name(&self, name: &str) -> String {
        format!("{PREFIX}{}", self.bare_name(name))
    }

    fn header_name(&self, name: &str) -> Option<&'a str> {
        self.exports.structs.iter().find(|(mir, _)| *mir == name).map(|(_, c)| *c)
    }

    pub fn struct_name(&self, name: &str) -> String {
        self.header_name(name).map_or_else(|| self.c_name(name), str::to_string)
    }

    pub fn field(&self, name: &str, number: usize, at: usize) -> Answer<CField<'a>> {
        let Some(c) = self.header_name(name) else {
            return Ok(CField { name: format!("f{number}"), in_header: None });
        };
        let fields = self.program.fields(&Ty::Named(name.into()), at)?.map_or(0, <[Ty]>::len);
        match self.header.structs.get(c) {
            Some(in_header) if in_header.len() == fields => {
                let field = &in_header[number];
                Ok(CField { name: field.name.clone(), in_header: Some(&field.ty) })
            }
            _ => unknown(at, format!("struct {c} of the header, which has other fields than {name}")),
        }
    }

    /// That the structs of the list are there, and have fields of the same types in the header; sizes are asserted in C.
    pub fn structs_agree(&mut self) -> Answer<()> {
        for (name, c) in self.exports.structs {
            let ty = Ty::Named((*name).into());
            let Some(fields) = self.program.fields(&ty, 0)?.map(<[Ty]>::to_vec) else {
                return unknown(0, format!("{name}, which is no struct of several fields"));
            };
            for (number, field) in fields.iter().enumerate() {
                let (field, in_header) = (self.program.shape(field, 0)?, self.field(name, number, 0)?);
                if field.is_address() || field == Ty::Unit || self.program.variants(&field).is_some() {
                    return unknown(0, format!("{field:?} in struct {c} of the header"));
                }
                let element = if let Ty::Array(of, _) = &field { (**of).clone() } else { field };
                let says = in_header.in_header.unwrap_or_default();
                if self.of(&element, 0)? != says && (element, says) != (Ty::Int(64), "size_t") {
                    return unknown(0, format!("the field {} of struct {c} of the header as {says}", in_header.name));
                }
            }
        }
        Ok(())
    }

    /// The name of an array's type by its element's and its length.
    fn part_name(&self, ty: &Ty, at: usize) -> Answer<String> {
        Ok(match ty {
            Ty::Int(bits) => format!("u{bits}"),
            Ty::Bool => "bool".to_string(),
            Ty::Array(of, count) => format!("{}_{count}", self.part_name(of, at)?),
            Ty::Named(name) => self.bare_name(name),
            _ => return unknown(at, format!("an array of {ty:?}")),
        })
    }

    /// The C type of a shape.
    pub fn of(&mut self, ty: &Ty, at: usize) -> Answer<String> {
        Ok(match ty {
            Ty::Int(bits) => format!("uint{bits}_t"),
            Ty::Bool => "bool".to_string(),
            Ty::Unit => "void".to_string(),
            Ty::Ptr | Ty::Ref(..) => "uint8_t *".to_string(),
            Ty::Slice(..) => {
                self.slices = true;
                format!("struct {PREFIX}slice")
            }
            Ty::Array(..) => {
                self.need(ty, at)?;
                format!("struct {PREFIX}{}", self.part_name(ty, at)?)
            }
            Ty::Named(name) if self.program.is_enum(name) => "uint8_t".to_string(),
            Ty::Named(name) => {
                self.need(ty, at)?;
                format!("struct {}", self.struct_name(name))
            }
        })
    }

    /// A value of this shape stands behind an address, so its layout counts.
    pub fn rely_on(&mut self, ty: &Ty) {
        self.behind.insert(ty.clone());
    }

    /// Whether the layout of a struct or an array counts: it is the header's, or stands behind an address.
    fn counts(&self, ty: &Ty) -> bool {
        matches!(ty, Ty::Named(name) if self.header_name(name).is_some()) || self.behind.contains(ty)
    }

    fn need(&mut self, ty: &Ty, at: usize) -> Answer<()> {
        if self.used.contains(ty) {
            return Ok(());
        }
        let holds = match ty {
            Ty::Array(of, _) => vec![(**of).clone()],
            _ => self.members(ty, at)?.into_iter().map(|(_, field)| field).collect(),
        };
        for held in holds {
            let held = self.program.shape(&held, at)?;
            self.of(&held, at)?;
        }
        self.used.push(ty.clone());
        Ok(())
    }

    /// What stands in the struct for a type of several fields, or for an enum with fields, in C: names and shapes.
    fn members(&self, ty: &Ty, at: usize) -> Answer<Vec<(String, Ty)>> {
        let mut members = Vec::new();
        if let Some(variants) = self.program.variants(ty) {
            members.push(("tag".to_string(), Ty::Int(8)));
            for (variant, fields) in variants.iter().enumerate() {
                for (number, field) in fields.iter().enumerate() {
                    members.push((CTypes::of_variant(variant, number), self.program.shape(field, at)?));
                }
            }
        } else {
            for (number, field) in self.program.fields(ty, at)?.unwrap_or_default().iter().enumerate() {
                members.push((format!("f{number}"), self.program.shape(field, at)?));
            }
        }
        members.retain(|(_, field)| *field != Ty::Unit);
        Ok(members)
    }

    /// The name in C of a variant's field.
    pub fn of_variant(variant: usize, number: usize) -> String {
        match number {
            0 => format!("of{variant}"),
            _ => format!("of{variant}_{number}"),
        }
    }

    /// `T name`, of a shape.
    pub fn declare(&mut self, ty: &Ty, name: &str, at: usize) -> Answer<String> {
        let c = self.of(ty, at)?;
        let gap = if c.ends_with('*') { "" } else { " " };
        Ok(format!("{c}{gap}{name}"))
    }

    /// Whether an enum with fields is used.
    pub fn holds_variants(&self) -> bool {
        self.used.iter().any(|ty| self.program.variants(ty).is_some())
    }

    /// The declarations of all that is used.
    pub fn declarations(&mut self) -> Answer<String> {
        let mut out = String::new();
        if self.slices {
            out += "/* A lent slice: the address of its first element, and how many there are. */\n";
            out += &format!("struct {PREFIX}slice {{\n    uint8_t *at;\n    size_t length;\n}};\n\n");
        }
        for ty in self.used.clone() {
            let c = self.of(&ty, 0)?;
            match &ty {
                Ty::Array(of, count) => {
                    let element = self.declare(of, "at", 0)?;
                    write!(out, "{c} {{\n    {element}[{count}];\n}};\n\n").expect("a string");
                }
                Ty::Named(name) if self.header_name(name).is_none() => {
                    write!(out, "/* {name} */\n{c} {{\n").expect("a string");
                    for (field, ty) in self.members(&ty, 0)? {
                        writeln!(out, "    {};", self.declare(&ty, &field, 0)?).expect("a string");
                    }
                    out += "};\n\n";
                }
                _ => {}
            }
        }
        Ok(out)
    }

    /// The layout that the program counts on, asserted, of what is the same on every chip.
    pub fn assertions(&mut self) -> Answer<String> {
        let macros = "#define KD_ASSERT(name, holds) typedef char kd_assert_##name[(holds) ? 1 : -1]
#define KD_SIZE(type, size) KD_ASSERT(size_of_##type, sizeof(struct type) == (size))
#define KD_FIELD(type, field, at, size) \\
    KD_ASSERT(type##_at_##field, offsetof(struct type, field) == (at) && sizeof(((struct type *)0)->field) == (size))
KD_ASSERT(byte, CHAR_BIT == 8);
KD_ASSERT(bool, sizeof(bool) == 1);
KD_ASSERT(size_t, sizeof(size_t) <= sizeof(uint64_t));
";
        let says = "/* The layout that the program counts on. Where one of these does not hold, the file is not compiled. */\n";
        let mut out = format!("{says}{}", macros.replace("kd_", PREFIX).replace("KD_", &PREFIX.to_uppercase()));
        let shout = PREFIX.to_uppercase();
        for ty in self.used.clone() {
            let Some((size, _)) = self.program.layout(&ty, 0)?.filter(|_| self.counts(&ty)) else { continue };
            let c = self.of(&ty, 0)?.trim_start_matches("struct ").to_string();
            writeln!(out, "{shout}SIZE({c}, {size});").expect("a string");
            let Ty::Named(name) = &ty else { continue };
            let (offsets, ..) = self.program.offsets(name, 0)?.expect("it has a layout");
            let (fields, in_variant) = match self.program.variants(&ty) {
                Some(variants) => {
                    let with = variants.iter().position(|fields| !fields.is_empty());
                    (with.map_or(&[][..], |variant| &variants[variant][..]), with)
                }
                None => (self.program.fields(&ty, 0)?.unwrap_or_default(), None),
            };
            for (number, (offset, field)) in offsets.iter().zip(fields).enumerate() {
                let (size, _) = self.program.layout(field, 0)?.expect("it has a layout");
                let name = match in_variant {
                    Some(variant) => CTypes::of_variant(variant, number),
                    None => self.field(name, number, 0)?.name,
                };
                if size > 0 {
                    writeln!(out, "{shout}FIELD({c}, {name}, {offset}, {size});").expect("a string");
                }
            }
        }
        Ok(out)
    }
}
