//! The program, read from its term. The forms are those of the kit's `logic/Mir/Syntax.antt`, as far as they are known here.

use std::collections::BTreeMap;
use std::rc::Rc;

use crate::term::{self, Form, Term};
use crate::unknown::{unknown, Answer};

#[derive(Clone, Debug, PartialEq, Eq, PartialOrd, Ord)]
pub enum Ty {
    /// An unsigned number of 8, 16, 32 or 64 bits.
    Int(u32),
    Bool,
    Unit,
    /// An address that does not say of what.
    Ptr,
    /// `&T`, or `&mut T` where true.
    Ref(bool, Rc<Ty>),
    /// `&[T]`, or `&mut [T]` where true: an address and a 64-bit count.
    Slice(bool, Rc<Ty>),
    Array(Rc<Ty>, u64),
    /// A declared struct or enum.
    Named(Rc<str>),
}

impl Ty {
    /// An address by itself; a declared type that holds one is not.
    pub fn is_address(&self) -> bool {
        matches!(self, Ty::Ptr | Ty::Ref(..) | Ty::Slice(..))
    }
}

#[derive(Clone, Debug, PartialEq, Eq)]
pub enum Step {
    Deref(Ty),
    Field(usize),
    Variant(usize),
}

impl Step {
    pub fn deref(&self) -> Option<&Ty> {
        match self {
            Step::Deref(to) => Some(to),
            _ => None,
        }
    }
}

#[derive(Clone, Debug, PartialEq, Eq)]
pub struct Place {
    pub local: usize,
    pub steps: Vec<Step>,
}

impl Place {
    pub fn derefs(&self) -> bool {
        self.steps.iter().any(|step| matches!(step, Step::Deref(_)))
    }
}

#[derive(Clone, Debug, PartialEq, Eq)]
pub enum Operand {
    Copy(Place),
    Int(u32, u64),
    Bool(bool),
    Unit,
}

impl Operand {
    pub fn place(&self) -> Option<&Place> {
        match self {
            Operand::Copy(place) => Some(place),
            _ => None,
        }
    }
}

#[derive(Clone, Copy, Debug, PartialEq, Eq)]
pub enum Op {
    Add,
    Sub,
    Mul,
    Div,
    Rem,
    And,
    Or,
    Xor,
    Shl,
    Shr,
    Eq,
    Ne,
    Lt,
    Le,
    Offset,
    /// Modulo 2 to the width.
    WrapAdd,
    WrapSub,
    WrapMul,
}

#[derive(Clone, Debug, PartialEq, Eq)]
pub enum Value {
    Use(Operand),
    Two(Op, Operand, Operand),
    Not(Operand),
    Cast(u32, Operand),
    AddrOf(Place),
    Aggregate(Vec<Operand>),
    Repeat(Operand, u64),
}

impl Value {
    pub fn operands(&self) -> Vec<&Operand> {
        match self {
            Value::Use(a) | Value::Not(a) | Value::Cast(_, a) | Value::Repeat(a, _) => vec![a],
            Value::Two(_, a, b) => vec![a, b],
            Value::Aggregate(parts) => parts.iter().collect(),
            Value::AddrOf(_) => Vec::new(),
        }
    }
}

pub type Body = Vec<Statement>;

#[derive(Clone, Debug)]
pub struct Statement {
    pub at: usize,
    pub does: Does,
}

#[derive(Clone, Debug)]
pub enum Does {
    Assign(Place, Value),
    Call(Rc<str>, Vec<Operand>, Place),
    /// As many values of a type as the third says, from the first address to the second: they may overlap where true.
    CopyBits(bool, Ty, [Operand; 3]),
    If(Operand, Body, Body),
    Switch(Operand, Vec<(Vec<u64>, Body)>, Option<Body>),
    Block(Body),
    Loop(Body),
    Exit(usize),
    Return,
    /// No call comes here: the machine would be stuck.
    Never,
}

impl Statement {
    /// The bodies that stand within it.
    pub fn inner(&self) -> Vec<&Body> {
        match &self.does {
            Does::If(_, a, b) => vec![a, b],
            Does::Switch(_, arms, default) => arms.iter().map(|(_, arm)| arm).chain(default).collect(),
            Does::Block(body) | Does::Loop(body) => vec![body],
            _ => Vec::new(),
        }
    }

    pub fn operands(&self) -> Vec<&Operand> {
        match &self.does {
            Does::Assign(_, value) => value.operands(),
            Does::Call(_, arguments, _) => arguments.iter().collect(),
            Does::CopyBits(_, _, arguments) => arguments.iter().collect(),
            Does::If(on, ..) | Does::Switch(on, ..) => vec![on],
            _ => Vec::new(),
        }
    }

    /// The place that it stores into.
    pub fn target(&self) -> Option<&Place> {
        match &self.does {
            Does::Assign(place, _) | Does::Call(_, _, place) => Some(place),
            _ => None,
        }
    }

    /// The place whose address it takes.
    pub fn address_of(&self) -> Option<&Place> {
        match &self.does {
            Does::Assign(_, Value::AddrOf(place)) => Some(place),
            _ => None,
        }
    }
}

/// Every statement of a body, those within others too.
pub fn all(body: &Body) -> Vec<&Statement> {
    let mut found = Vec::new();
    for statement in body {
        found.push(statement);
        statement.inner().into_iter().for_each(|body| found.extend(all(body)));
    }
    found
}

#[derive(Clone, Debug)]
pub struct Function {
    pub name: Rc<str>,
    pub at: usize,
    pub params: usize,
    /// The answer, then the parameters, then the others.
    pub locals: Vec<Ty>,
    pub body: Body,
}

#[derive(Debug, PartialEq, Eq)]
pub enum Declared {
    Struct(Vec<Ty>),
    /// How many variants, of which none has fields.
    Enum(usize),
    /// Of each variant its fields.
    Tagged(Vec<Vec<Ty>>),
}

impl Declared {
    pub fn variants(&self) -> usize {
        match self {
            Declared::Struct(_) => 0,
            Declared::Enum(count) => *count,
            Declared::Tagged(variants) => variants.len(),
        }
    }
}

#[derive(Debug)]
pub struct Program {
    pub functions: BTreeMap<Rc<str>, Function>,
    pub declared: BTreeMap<Rc<str>, Declared>,
}

pub fn read(text: &str) -> Answer<Program> {
    let terms = term::read(text)?;
    let [Term { form: Form::Word(word), .. }, functions, main] = &terms[..] else {
        return unknown(0, "a text that is not `program`, its functions and its first function");
    };
    if word != "program" {
        return unknown(0, format!("{word} where program is due"));
    }
    main.parts::<1>("fnRef")?[0].name()?;
    let mut program = Program { functions: BTreeMap::new(), declared: BTreeMap::new() };
    for definition in functions.list()? {
        let ("fn-def", [name, item, declarations @ ..]) = definition.headed()? else {
            return unknown(definition.at, format!("{} where fn-def is due", definition.named()));
        };
        let name: Rc<str> = name.name()?.into();
        program.define(&name, definition.at, item, declarations).map_err(|error| error.within(&name))?;
    }
    Ok(program)
}

impl Program {
    fn define(&mut self, name: &Rc<str>, at: usize, item: &Term, declarations: &[Term]) -> Answer<()> {
        let [lifetimes, outlives, params, locals, body] = item.parts("fnItem")?;
        lifetimes.number()?;
        if !outlives.list()?.is_empty() {
            return unknown(outlives.at, "lifetimes that outlive others");
        }
        let params = params.count()?;
        let locals: Vec<Ty> = locals.list()?.into_iter().map(local).collect::<Answer<_>>()?;
        if params >= locals.len() {
            return unknown(at, format!("{params} parameters and {} locals", locals.len()));
        }
        let body = body_of(body)?;
        let function = Function { name: name.clone(), at, params, locals, body };
        if self.functions.insert(name.clone(), function).is_some() {
            return unknown(at, "a second function of this name");
        }
        match declarations {
            [] => Ok(()),
            [one] => one.list()?.into_iter().try_for_each(|declaration| self.declare(declaration)),
            [_, more, ..] => unknown(more.at, format!("{} after the declarations", more.named())),
        }
    }

    fn declare(&mut self, declaration: &Term) -> Answer<()> {
        let [name, what] = declaration.parts("pair")?;
        let name: Rc<str> = name.name()?.into();
        let declared = match what.headed()? {
            ("fields", [fields]) => {
                let fields = types(fields)?;
                if fields.contains(&Ty::Ptr) {
                    return unknown(what.at, format!("the struct {name} with a bare address in it"));
                }
                Declared::Struct(fields)
            }
            ("variants", [variants]) => {
                let listed = variants.items("ttcons", "ttnil")?;
                let variants: Vec<Vec<Ty>> = listed.into_iter().map(types).collect::<Answer<_>>()?;
                if variants.is_empty() || variants.len() > 256 {
                    return unknown(what.at, format!("the enum {name} of {} variants", variants.len()));
                }
                if variants.iter().flatten().any(|field| *field == Ty::Ptr) {
                    return unknown(what.at, format!("the enum {name} with a bare address in it"));
                }
                match variants.iter().all(Vec::is_empty) {
                    true => Declared::Enum(variants.len()),
                    false => Declared::Tagged(variants),
                }
            }
            _ => return unknown(what.at, format!("the declaration {}", what.named())),
        };
        match self.declared.get(&name) {
            Some(before) if *before != declared => unknown(declaration.at, format!("a second declaration of {name}")),
            _ => {
                self.declared.insert(name, declared);
                Ok(())
            }
        }
    }
}

fn local(term: &Term) -> Answer<Ty> {
    let [ty, home] = term.parts("local")?;
    match home.word()? {
        "valueLocal" | "memorySlot" => type_of(ty),
        other => unknown(home.at, format!("the home {other} of a local")),
    }
}

fn types(term: &Term) -> Answer<Vec<Ty>> {
    term.items("tcons", "tnil")?.into_iter().map(type_of).collect()
}

fn width(term: &Term) -> Answer<u32> {
    match term.number()? {
        number @ (8 | 16 | 32 | 64) => Ok(number as u32),
        other => unknown(term.at, format!("a number of {other} bits")),
    }
}

fn type_of(term: &Term) -> Answer<Ty> {
    match term.headed()? {
        ("tyBool", []) => Ok(Ty::Bool),
        ("tyPtr", []) => Ok(Ty::Ptr),
        ("tyUnit", []) => Ok(Ty::Unit),
        ("tyInt", [bits]) => Ok(Ty::Int(width(bits)?)),
        ("tyRef", [lifetime, mutability, to]) => {
            match lifetime.headed()? {
                ("erased", []) => {}
                ("named", [number]) => drop(number.number()?),
                _ => return unknown(lifetime.at, format!("the lifetime {}", lifetime.named())),
            }
            let mutable = match mutability.word()? {
                "imm" => false,
                "mut" => true,
                other => return unknown(mutability.at, format!("the mutability {other}")),
            };
            Ok(Ty::Ref(mutable, Rc::new(type_of(to)?)))
        }
        ("tyArray", [of, length]) => {
            let [length] = length.parts("lenLit")?;
            match length.number()? {
                0 => unknown(length.at, "an array of no elements"),
                number => match type_of(of)? {
                    element if element.is_address() => unknown(term.at, "an array of addresses"),
                    element => Ok(Ty::Array(Rc::new(element), number)),
                },
            }
        }
        ("tyNamed", [head]) => {
            let [name, lifetimes] = head.parts("pair")?;
            if !lifetimes.list()?.is_empty() {
                return unknown(lifetimes.at, format!("{} with lifetimes", name.named()));
            }
            Ok(Ty::Named(name.name()?.into()))
        }
        ("tyStruct", [name, fields]) => match (name.name()?, &types(fields)?[..]) {
            ("&[]", [Ty::Ref(mutable, to), Ty::Int(64)]) => Ok(Ty::Slice(*mutable, to.clone())),
            (name, _) => unknown(term.at, format!("the struct {name}, spelled out")),
        },
        _ => unknown(term.at, format!("the type {}", term.named())),
    }
}

fn place(term: &Term) -> Answer<Place> {
    let [local, steps] = term.parts("place")?;
    let steps = steps.list()?.into_iter().map(|step| match step.headed()? {
        ("deref", [ty]) => Ok(Step::Deref(type_of(ty)?)),
        ("field", [number]) => Ok(Step::Field(number.count()?)),
        ("variant", [number]) => Ok(Step::Variant(number.count()?)),
        _ => unknown(step.at, format!("the step {}", step.named())),
    });
    Ok(Place { local: local.count()?, steps: steps.collect::<Answer<_>>()? })
}

fn operand(term: &Term) -> Answer<Operand> {
    match term.headed()? {
        ("true", []) => Ok(Operand::Bool(true)),
        ("false", []) => Ok(Operand::Bool(false)),
        ("unit", []) => Ok(Operand::Unit),
        ("copy", [from]) => Ok(Operand::Copy(place(from)?)),
        ("int", [bits, number]) => {
            let (bits, number) = (width(bits)?, number.number()?);
            if bits < 64 && number >> bits != 0 {
                return unknown(term.at, format!("the number {number} in {bits} bits"));
            }
            Ok(Operand::Int(bits, number))
        }
        _ => unknown(term.at, format!("the operand {}", term.named())),
    }
}

fn operands(term: &Term) -> Answer<Vec<Operand>> {
    term.list()?.into_iter().map(operand).collect()
}

fn operation(term: &Term) -> Answer<Op> {
    let unsigned = |sign: &Term| match sign.word()? {
        "unsigned" => Ok(()),
        other => unknown(term.at, format!("the operation {}, {other}", term.named())),
    };
    let (op, sign) = match term.headed()? {
        ("add", [sign]) => (Op::Add, Some(sign)),
        ("sub", [sign]) => (Op::Sub, Some(sign)),
        ("mul", [sign]) => (Op::Mul, Some(sign)),
        ("div", [sign]) => (Op::Div, Some(sign)),
        ("rem", [sign]) => (Op::Rem, Some(sign)),
        ("shr", [sign]) => (Op::Shr, Some(sign)),
        ("lt", [sign]) => (Op::Lt, Some(sign)),
        ("le", [sign]) => (Op::Le, Some(sign)),
        ("and", []) => (Op::And, None),
        ("or", []) => (Op::Or, None),
        ("xor", []) => (Op::Xor, None),
        ("shl", []) => (Op::Shl, None),
        ("eq", []) => (Op::Eq, None),
        ("ne", []) => (Op::Ne, None),
        ("offset", []) => (Op::Offset, None),
        ("wrapAdd", []) => (Op::WrapAdd, None),
        ("wrapSub", []) => (Op::WrapSub, None),
        ("wrapMul", []) => (Op::WrapMul, None),
        _ => return unknown(term.at, format!("the operation {}", term.named())),
    };
    sign.map_or(Ok(()), unsigned)?;
    Ok(op)
}

fn value(term: &Term) -> Answer<Value> {
    match term.headed()? {
        ("rvOpd", [a]) => Ok(Value::Use(operand(a)?)),
        ("op2", [op, a, b]) => Ok(Value::Two(operation(op)?, operand(a)?, operand(b)?)),
        ("op1", [op, a]) => match op.headed()? {
            ("not", []) => Ok(Value::Not(operand(a)?)),
            ("cast", [from, to, bits]) => match (from.word()?, to.word()?) {
                ("unsigned", "unsigned") => Ok(Value::Cast(width(bits)?, operand(a)?)),
                (from, to) => unknown(op.at, format!("the cast from {from} to {to}")),
            },
            _ => unknown(op.at, format!("the operation {}", op.named())),
        },
        ("addrOf", [of]) => Ok(Value::AddrOf(place(of)?)),
        ("aggregate", [parts]) => Ok(Value::Aggregate(operands(parts)?)),
        ("repeat", [a, count]) => Ok(Value::Repeat(operand(a)?, count.number()?)),
        _ => unknown(term.at, format!("the value {}", term.named())),
    }
}

fn body_of(term: &Term) -> Answer<Body> {
    let mut body = Vec::new();
    read_body(term, &mut body)?;
    Ok(body)
}

/// Whether a body comes to where no call comes, whatever it does before.
fn is_dead(body: &Body) -> bool {
    let straight =
        |statement: &Statement| matches!(statement.does, Does::Assign(..) | Does::Call(..) | Does::CopyBits(..));
    match body.split_last() {
        Some((Statement { does: Does::Never, .. }, before)) => before.iter().all(straight),
        _ => false,
    }
}

fn read_body(term: &Term, body: &mut Body) -> Answer<()> {
    let does = match term.headed()? {
        ("skip", []) => return Ok(()),
        ("seq", [a, b]) => {
            read_body(a, body)?;
            return read_body(b, body);
        }
        ("return", []) => Does::Return,
        ("unreachable", []) => Does::Never,
        ("assign", [to, what]) => Does::Assign(place(to)?, value(what)?),
        ("if", [on, a, b]) => {
            let (on, a, b) = (operand(on)?, body_of(a)?, body_of(b)?);
            match (is_dead(&a), is_dead(&b)) {
                (true, true) => Does::Never,
                (true, false) => return body_goes_on(body, b),
                (false, true) => return body_goes_on(body, a),
                (false, false) => Does::If(on, a, b),
            }
        }
        ("block", [inner]) => Does::Block(body_of(inner)?),
        ("loop", [inner]) => Does::Loop(body_of(inner)?),
        ("exit", [count]) => Does::Exit(count.count()?),
        ("switch", [on, arms]) => {
            let (on, (all, other)) = (operand(on)?, arms_of(arms)?);
            let count = all.len();
            let mut arms: Vec<_> = all.into_iter().filter(|(_, arm)| !is_dead(arm)).collect();
            match (arms.len() < count, arms.len(), other.filter(|other| !is_dead(other))) {
                (true, 0, None) => Does::Never,
                (true, 0, Some(other)) => return body_goes_on(body, other),
                // of one number alone, and no other comes here
                (true, 1, None) => return body_goes_on(body, arms.remove(0).1),
                (_, _, other) => Does::Switch(on, arms, other),
            }
        }
        ("call", [callee, arguments, to]) => match callee.headed()? {
            ("copyBits", [how, ty]) => {
                let within = match how.word()? {
                    "apart" => false,
                    "within" => true,
                    other => return unknown(how.at, format!("a copy {other}")),
                };
                place(to)?;
                match operands(arguments)?.try_into() {
                    Ok(arguments) => Does::CopyBits(within, type_of(ty)?, arguments),
                    Err(_) => return unknown(arguments.at, "a copy without two addresses and a count"),
                }
            }
            _ => {
                let [function] = callee.parts("direct")?;
                let [name] = function.parts("fnRef")?;
                Does::Call(name.name()?.into(), operands(arguments)?, place(to)?)
            }
        },
        _ => return unknown(term.at, format!("the statement {}", term.named())),
    };
    body.push(Statement { at: term.at, does });
    Ok(())
}

/// The body of the one arm that is not dead stands in the place of the whole.
fn body_goes_on(body: &mut Body, arm: Body) -> Answer<()> {
    body.extend(arm);
    Ok(())
}

type Arms = (Vec<(Vec<u64>, Body)>, Option<Body>);

fn arms_of(mut term: &Term) -> Answer<Arms> {
    let mut arms = Vec::new();
    loop {
        match term.headed()? {
            ("arm", [keys, body, rest]) => {
                let keys = keys.list()?.into_iter().map(Term::number).collect::<Answer<_>>()?;
                arms.push((keys, body_of(body)?));
                term = rest;
            }
            ("default", [body]) => return Ok((arms, Some(body_of(body)?))),
            ("noDefault", []) => return Ok((arms, None)),
            _ => return unknown(term.at, format!("the arm {}", term.named())),
        }
    }
}
