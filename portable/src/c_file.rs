//! The C file: the offered functions, and before them what they reach, with the types that all of it uses.

use std::collections::BTreeMap;

use crate::c_function::CFunction;
use crate::c_types::CTypes;
use crate::exports::{last, Exports};
use crate::header::Header;
use crate::mir::{all, Does, Function, Program};
use crate::nested::nested;
use crate::unknown::{unknown, Answer};

/// Every function that is reached, each after those that it calls.
struct Order<'a> {
    program: &'a Program,
    /// Whether what a function calls is all in the list already.
    seen: BTreeMap<&'a str, bool>,
    list: Vec<&'a str>,
}

impl<'a> Order<'a> {
    fn reach(&mut self, name: &str, at: usize) -> Answer<()> {
        let Some((name, function)) = self.program.functions.get_key_value(name) else {
            return unknown(at, format!("the function {name}, which is not there"));
        };
        match self.seen.get(&**name) {
            Some(true) => return Ok(()),
            Some(false) => return unknown(at, format!("the function {name}, which calls itself")),
            None => {}
        }
        self.seen.insert(name, false);
        for statement in all(&function.body) {
            if let Does::Call(callee, ..) = &statement.does {
                self.reach(callee, statement.at).map_err(|error| error.within(name))?;
            }
        }
        self.seen.insert(name, true);
        self.list.push(name);
        Ok(())
    }
}

/// Most functions are a few lines. For speed each stands in its caller, which saves the copies between them; for size only the
/// small ones do, whose call is longer than they are; where a compiler does not know the word, that is left to it.
const STATIC: &str =
    "/* Where speed is asked for, each function stands in its caller: that saves the copies between them. Where size is, a small one does,
   of which gcc has to be told and clang has not. */
#if defined __GNUC__ && defined __OPTIMIZE__ && !defined __OPTIMIZE_SIZE__
#define KD_STATIC static inline __attribute__((always_inline))
#else
#define KD_STATIC static
#endif
#if defined __GNUC__ && defined __OPTIMIZE__ && !defined __clang__
#define KD_SMALL static inline __attribute__((always_inline))
#else
#define KD_SMALL KD_STATIC
#endif
";

/// So many lines, with what closes it, has the body of a small function at most.
const SMALL: usize = 20;

/// Where the program has enums with fields.
const WHOLE: &str = "/* A value is copied whole, also the fields of a variant that it is not: gcc can't tell that these are not looked at. */
#if defined __GNUC__ && !defined __clang__
#pragma GCC diagnostic ignored \"-Wmaybe-uninitialized\"
#endif

";

/// A function in C, nested otherwise where that saves a `goto`.
fn text(types: &mut CTypes, function: &Function) -> Answer<String> {
    let gotos = |text: &str| text.matches("goto l").count();
    let plain = CFunction::new(types, function).text()?;
    if gotos(&plain) == 0 {
        return Ok(plain);
    }
    let other = Function { body: nested(function.body.clone()), ..function.clone() };
    let other = CFunction::new(types, &other).text()?;
    Ok(if gotos(&other) < gotos(&plain) { other } else { plain })
}

/// A small function is one that is not offered and has few lines.
fn sized(text: String) -> String {
    match text.split_once("\n{\n") {
        Some((_, body)) if body.lines().count() <= SMALL => text.replacen("\nKD_STATIC ", "\nKD_SMALL ", 1),
        _ => text,
    }
}

pub fn file(program: &Program, header: &Header, exports: Exports, head: &str, include: &str) -> Answer<String> {
    let mut order = Order { program, seen: BTreeMap::new(), list: Vec::new() };
    exports.functions.iter().try_for_each(|name| order.reach(name, 0))?;
    let mut types = CTypes::new(program, header, exports);
    let mut names: BTreeMap<String, &str> = BTreeMap::new();
    let offered = |name: &str| exports.functions.contains(&name);
    let structs = program.declared.keys().map(|name| &**name).filter(|name| !program.is_enum(name));
    for name in order.list.iter().copied().chain(structs) {
        let c = if offered(name) { last(name).to_string() } else { types.c_name(name) };
        if let Some(other) = names.insert(c, name) {
            return unknown(0, format!("{other} and {name}, which have one name in C"));
        }
    }
    types.structs_agree()?;
    let mut functions = Vec::new();
    for name in &order.list {
        functions.push(sized(text(&mut types, &program.functions[*name]).map_err(|error| error.within(name))?));
    }
    let declarations = types.declarations()?;
    let assertions = types.assertions()?;
    let whole = if types.holds_variants() { WHOLE } else { "" };
    Ok(format!(
        "{head}\n#include <limits.h>\n#include <stdbool.h>\n#include <stddef.h>\n#include <stdint.h>\n\
         #include <string.h>\n\n#include \"{include}\"\n\n{declarations}{assertions}\n{whole}{STATIC}\n{}",
        functions.join("\n")
    ))
}
