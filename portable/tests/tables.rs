//! A local array of literals is a constant of the C file where it is only read, and a local otherwise.

use portable::exports::Exports;
use portable::{c_file, header, mir};

const ONE: Exports = Exports { functions: &["firmware::kosmydore_one"], structs: &[] };

const HEADER: &str = "#include <stdint.h>\n\nuint32_t kosmydore_one(uint32_t x);\n";

/// Locals 0 and 1 of 32 bits, 2 of 64, 3 an array of two, 4 and 5 addresses, and 6 the unit; `other` takes an address.
fn c(body: &str) -> String {
    let locals = "(lcons (local (tyInt 32) valueLocal) (lcons (local (tyInt 32) valueLocal) (lcons (local (tyInt 64) valueLocal) \
                  (lcons (local (tyArray (tyInt 32) (lenLit 2)) memorySlot) (lcons (local tyPtr valueLocal) \
                  (lcons (local tyPtr valueLocal) (lcons (local tyUnit valueLocal) lnil)))))))";
    let other = "(fn-def \"other\" (fnItem 0 lnil 1 (lcons (local tyUnit valueLocal) (lcons (local (tyRef erased imm (tyInt 32)) valueLocal) lnil)) return))";
    let text = format!(
        "program (lcons (fn-def \"firmware::kosmydore_one\" (fnItem 0 lnil 1 {locals} {body})) (lcons {other} lnil)) (fnRef \"main\")"
    );
    let header = header::read(HEADER).expect("the header");
    mir::read(&text)
        .and_then(|program| c_file::file(&program, &header, ONE, "", "one.h"))
        .map_err(|error| error.said("one.mir", &text))
        .expect("C")
}

const FILL: &str = "(assign (place 3 lnil) (aggregate (lcons (int 32 7) (lcons (int 32 8) lnil))))";
const ADDRESS: &str = "(assign (place 4 lnil) (addrOf (place 3 lnil)))";
const SECOND: &str = "(assign (place 5 lnil) (op2 offset (copy (place 4 lnil)) (int 64 4)))";
const READ: &str = "(assign (place 0 lnil) (rvOpd (copy (place 5 (lcons (deref (tyInt 32)) lnil)))))";

fn body(statements: &[&str]) -> String {
    statements.iter().rev().fold("return".to_string(), |rest, one| format!("(seq {one} {rest})"))
}

const TABLE: &str = "static const struct kd_u32_2 v3 = {{UINT32_C(7), UINT32_C(8)}};";
const LOCAL: &str = "v3.at[1] = UINT32_C(8);";

#[test]
fn only_read() {
    let c = c(&body(&[FILL, ADDRESS, SECOND, READ]));
    assert!(c.contains(TABLE) && !c.contains(LOCAL), "{c}");
}

fn stays(statements: &[&str]) {
    let c = c(&body(statements));
    assert!(!c.contains("static const") && c.contains(LOCAL), "{c}");
}

#[test]
fn written_through_an_address() {
    let store = "(assign (place 5 (lcons (deref (tyInt 32)) lnil)) (rvOpd (copy (place 1 lnil))))";
    stays(&[FILL, ADDRESS, SECOND, store, READ]);
}

#[test]
fn written_twice() {
    stays(&[FILL, FILL, ADDRESS, SECOND, READ]);
}

#[test]
fn of_more_than_literals() {
    let fill = "(assign (place 3 lnil) (aggregate (lcons (copy (place 1 lnil)) (lcons (int 32 8) lnil))))";
    stays(&[fill, ADDRESS, SECOND, READ]);
}

#[test]
fn handed_on() {
    let call = "(call (direct (fnRef \"other\")) (lcons (copy (place 5 lnil)) lnil) (place 6 lnil))";
    stays(&[FILL, ADDRESS, SECOND, call, READ]);
}
