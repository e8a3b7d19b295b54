//! A function in C. A local is a C local of its number (`v3`), not written until the program writes it; a statement is a
//! statement, in the same order. A value is whole before it is stored: where the parts of an aggregate, or the answer of
//! a call, could be read while they are written, a local of the file's own (`t1`) stands between.

use std::collections::{BTreeMap, BTreeSet};

use crate::c_types::CTypes;
use crate::exports::last;
use crate::mir::{all, Function, Operand, Place, Statement, Ty};
use crate::unknown::{unknown, Answer};

mod flow;
mod tables;
mod values;

use flow::exits_are_within;
pub use flow::{goes_on, leaves};
use tables::Tables;
use values::Spot;

/// How long a line of parameters may be.
const WIDTH: usize = 120;

/// How often each local is named in these statements and within them.
fn named(body: &[Statement], locals: usize) -> Vec<usize> {
    let mut count = vec![0; locals];
    for statement in body.iter().flat_map(|one| [one].into_iter().chain(one.inner().into_iter().flat_map(all))) {
        let read = statement.operands().into_iter().filter_map(Operand::place);
        for place in read.chain(statement.target()).chain(statement.address_of()) {
            if let Some(count) = count.get_mut(place.local) {
                *count += 1;
            }
        }
    }
    count
}

/// The locals that are first named where they are written whole, and then only in what follows in the same body, each with
/// the place of that statement. Their address is not taken, so nothing of them is left when the body ends.
fn born(function: &Function, taken: &BTreeSet<usize>) -> BTreeMap<usize, usize> {
    let count = named(&function.body, function.locals.len());
    let mut found = BTreeMap::new();
    let mut bodies = vec![&function.body];
    while let Some(body) = bodies.pop() {
        for (number, statement) in body.iter().enumerate() {
            bodies.extend(statement.inner());
            let Some(Place { local, steps }) = statement.target() else { continue };
            let own = *local > function.params && steps.is_empty() && !taken.contains(local);
            let after = named(&body[number + 1..], function.locals.len());
            if own && count.get(*local).is_some_and(|count| after[*local] + 1 == *count) {
                found.insert(*local, statement.at);
            }
        }
    }
    found
}

/// What is written of a function so far.
#[derive(Clone)]
struct Written {
    used: BTreeSet<usize>,
    lines: Vec<String>,
    depth: usize,
    temporaries: usize,
    labels: usize,
    labelled: BTreeSet<usize>,
}

impl Written {
    fn gotos(&self) -> usize {
        self.lines.iter().filter(|line| line.trim_start().starts_with("goto ")).count()
    }
}

pub struct CFunction<'a, 'b> {
    types: &'a mut CTypes<'b>,
    function: &'a Function,
    /// The names of the parameters, for a function that the file offers.
    names: Option<&'b [String]>,
    /// The locals that are read, or whose address is taken.
    read: BTreeSet<usize>,
    /// The locals whose address is taken.
    taken: BTreeSet<usize>,
    /// The locals that are declared where they are first written, and where that is.
    born: BTreeMap<usize, usize>,
    /// The locals that hold literals and are only read.
    tables: Tables<'a>,
    /// The locals that the text names.
    used: BTreeSet<usize>,
    lines: Vec<String>,
    depth: usize,
    temporaries: usize,
    labels: usize,
    labelled: BTreeSet<usize>,
    /// Of the statement that is being written.
    at: usize,
}

impl<'a, 'b> CFunction<'a, 'b> {
    pub fn new(types: &'a mut CTypes<'b>, function: &'a Function) -> CFunction<'a, 'b> {
        let exported = types.exports.functions.contains(&&*function.name);
        let header = types.header;
        let names = exported.then(|| header.functions.get(last(&function.name)).map_or(&[][..], |names| names));
        let statements = all(&function.body);
        let addresses = statements.iter().filter_map(|statement| statement.address_of());
        let taken: BTreeSet<usize> =
            addresses.clone().filter(|place| !place.derefs()).map(|place| place.local).collect();
        // what holds nothing is not read where it stands in something else
        let holds = |place: &&Place| {
            let ty = types
                .program
                .type_at(function, place, function.at)
                .and_then(|ty| types.program.shape(&ty, function.at));
            place.steps.is_empty() || ty != Ok(Ty::Unit)
        };
        let operands =
            statements.iter().flat_map(|statement| statement.operands()).filter_map(Operand::place).filter(holds);
        let through = statements.iter().filter_map(|statement| statement.target()).filter(|place| place.derefs());
        let read = addresses.chain(operands).chain(through).map(|place| place.local).chain([0]).collect();
        CFunction {
            types,
            function,
            names,
            born: born(function, &taken),
            tables: Tables::of(function, &taken),
            read,
            taken,
            used: BTreeSet::new(),
            lines: Vec::new(),
            depth: 1,
            temporaries: 0,
            labels: 0,
            labelled: BTreeSet::new(),
            at: function.at,
        }
    }

    fn written(&self) -> Written {
        Written {
            used: self.used.clone(),
            lines: self.lines.clone(),
            depth: self.depth,
            temporaries: self.temporaries,
            labels: self.labels,
            labelled: self.labelled.clone(),
        }
    }

    fn back_to(&mut self, before: Written) {
        Written {
            used: self.used,
            lines: self.lines,
            depth: self.depth,
            temporaries: self.temporaries,
            labels: self.labels,
            labelled: self.labelled,
        } = before;
    }

    fn unknown<T>(&self, what: impl Into<String>) -> Answer<T> {
        unknown(self.at, what)
    }

    fn say(&mut self, line: impl AsRef<str>) {
        self.lines.push(format!("{}{}", "    ".repeat(self.depth), line.as_ref()));
    }

    fn shape(&self, ty: &Ty) -> Answer<Ty> {
        self.types.program.shape(ty, self.at)
    }

    /// A new local of the file's own, declared here.
    fn temporary(&mut self, ty: &Ty) -> Answer<Spot> {
        self.temporaries += 1;
        let name = format!("t{}", self.temporaries);
        let line = format!("{};", self.types.declare(ty, &name, self.at)?);
        self.say(line);
        Ok(Spot::new(name, ty.clone()))
    }

    fn signature(&mut self) -> Answer<(String, Vec<String>)> {
        let at = self.function.at;
        let answer = self.shape(&self.function.locals[0])?;
        let (mut params, mut head) = (Vec::new(), Vec::new());
        let mut names = self.names.unwrap_or_default().iter();
        for local in 1..=self.function.params {
            let ty = self.shape(&self.function.locals[local])?;
            let mut named = || match names.next() {
                Some(name) => Ok(name.clone()),
                None => unknown(at, "more parameters than the header declares"),
            };
            match (&ty, self.names) {
                (Ty::Unit, None) => continue,
                (Ty::Unit, _) => return unknown(at, "the unit as a parameter"),
                (_, None) => params.push(self.types.declare(&ty, &format!("v{local}"), at)?),
                (Ty::Slice(mutable, of), _) => {
                    let (address, length) = (named()?, named()?);
                    let c = self.types.of(of, at)?;
                    params.push(format!("{}{c} *{address}", if *mutable { "" } else { "const " }));
                    params.push(format!("size_t {length}"));
                    let slice = self.types.of(&ty, at)?;
                    let cast = if *mutable && c == "uint8_t" { "" } else { "(uint8_t *)" };
                    if self.used.contains(&local) {
                        head.push(format!("{slice} v{local} = {{{cast}{address}, {length}}};"));
                    } else {
                        head.push(format!("(void){address};"));
                        head.push(format!("(void){length};"));
                    }
                    continue;
                }
                (Ty::Ref(mutable, to), _) => {
                    let address = named()?;
                    let of = if let Ty::Array(of, _) = &**to { of } else { to };
                    let c = self.types.of(of, at)?;
                    params.push(format!("{}{c} *{address}", if *mutable { "" } else { "const " }));
                    if self.used.contains(&local) {
                        head.push(format!("uint8_t *v{local} = (uint8_t *){address};"));
                    } else {
                        head.push(format!("(void){address};"));
                    }
                    continue;
                }
                (Ty::Ptr | Ty::Array(..) | Ty::Int(64), _) => {
                    return unknown(at, format!("{ty:?} as a parameter from C"))
                }
                _ => {
                    let name = named()?;
                    params.push(self.types.declare(&ty, &name, at)?);
                }
            }
            if !self.used.contains(&local) {
                head.push(format!("(void){};", self.root(local)));
            }
        }
        if names.next().is_some() {
            return unknown(at, "fewer parameters than the header declares");
        }
        let held = self.types.program.variants(&answer).is_some();
        if self.names.is_some() && (answer.is_address() || held || matches!(answer, Ty::Array(..) | Ty::Int(64))) {
            return unknown(at, format!("{answer:?} as an answer to C"));
        }
        let (kind, name) = match self.names {
            Some(_) => ("", last(&self.function.name).to_string()),
            None => ("KD_STATIC ", self.types.c_name(&self.function.name)),
        };
        let mut line = format!("{kind}{}", self.types.declare(&answer, &format!("{name}("), at)?);
        let mut signature = String::new();
        if params.is_empty() {
            line += "void";
        }
        let count = params.len();
        for (number, param) in params.into_iter().enumerate() {
            let end = if number + 1 < count { "," } else { "" };
            if line.len() + param.len() + 3 > WIDTH {
                signature += line.trim_end();
                signature += "\n";
                line = " ".repeat(4);
            }
            line += &format!("{param}{end} ");
        }
        Ok((format!("{signature}{})", line.trim_end()), head))
    }

    pub fn text(mut self) -> Answer<String> {
        for ty in &self.function.locals {
            self.shape(ty)?;
        }
        self.types.program.addresses_are_typed(self.function)?;
        if goes_on(&self.function.body) {
            return unknown(self.function.at, "a function that ends without a return");
        }
        if self.names.is_some() && !self.types.header.functions.contains_key(last(&self.function.name)) {
            return unknown(self.function.at, "a function for C that the header does not declare");
        }
        exits_are_within(&self.function.body, 0)?;
        self.body(&self.function.body, &[])?;
        self.at = self.function.at;
        let (signature, mut head) = self.signature()?;
        for local in self.used.clone() {
            let ty = self.shape(&self.function.locals[local])?;
            let declared = (1..=self.function.params).contains(&local) || self.born.contains_key(&local);
            let declare = self.types.declare(&ty, &format!("v{local}"), self.at);
            if self.tables.is_one(local) {
                let (declare, initial) = (declare?, self.initial(local)?);
                head.push(format!("static const {declare} = {initial};"));
            } else if !declared && ty != Ty::Unit {
                head.push(format!("{};", declare?));
            }
        }
        let head: Vec<String> = head.into_iter().map(|line| format!("    {line}")).collect();
        let gap = if head.is_empty() { "" } else { "\n\n" };
        Ok(format!(
            "/* {} */\n{signature}\n{{\n{}{gap}{}\n}}\n",
            self.function.name,
            head.join("\n"),
            self.lines.join("\n")
        ))
    }
}
