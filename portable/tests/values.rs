//! Enums with fields, addresses in structs, what holds nothing, copies of bytes, and places where no call comes: what is written, and
//! what is refused.

use portable::exports::Exports;
use portable::{c_file, header, mir};

const ONE: Exports = Exports { functions: &["firmware::kosmydore_one"], structs: &[] };

const HEADER: &str = "#include <stdint.h>\n\nuint32_t kosmydore_one(uint32_t x);\n";

const DECLARED: &str = "(lcons (pair \"a::Maybe<u32>\" (variants (ttcons tnil (ttcons (tcons (tyInt 32) tnil) ttnil)))) \
                        (lcons (pair \"a::Two\" (variants (ttcons (tcons (tyInt 64) tnil) (ttcons (tcons tyBool (tcons tyUnit tnil)) ttnil)))) \
                        (lcons (pair \"a::Lent\" (fields (tcons (tyRef erased imm (tyInt 32)) (tcons (tyInt 64) tnil)))) \
                        (lcons (pair \"a::None\" (fields tnil)) lnil))))";

fn named(name: &str) -> String {
    format!("(tyNamed (pair \"{name}\" lnil))")
}

/// Locals 0 and 1 of 32 bits, 2 and 3 the enums, 4 the struct, 5 nothing, 6 to 8 bare addresses, 9 of 16 bits, 10 of 8 and 11 a unit; `other`
/// takes an address of 32 bits and nothing.
fn said(body: &str) -> Result<String, String> {
    let types = [
        "(tyInt 32)",
        "(tyInt 32)",
        &named("a::Maybe<u32>"),
        &named("a::Two"),
        &named("a::Lent"),
        &named("a::None"),
        "tyPtr",
        "tyPtr",
        "tyPtr",
        "(tyInt 16)",
        "(tyInt 8)",
        "tyUnit",
    ];
    let locals =
        types.iter().rev().fold("lnil".to_string(), |rest, ty| format!("(lcons (local {ty} memorySlot) {rest})"));
    let params = format!(
        "(lcons (local (tyRef erased imm (tyInt 32)) valueLocal) (lcons (local {} valueLocal) lnil))",
        named("a::None")
    );
    let other =
        format!("(fn-def \"b::other<u32>\" (fnItem 0 lnil 2 (lcons (local tyUnit valueLocal) {params}) return) lnil)");
    let text = format!(
        "program (lcons (fn-def \"firmware::kosmydore_one\" (fnItem 0 lnil 1 {locals} {body}) {DECLARED}) (lcons {other} lnil)) (fnRef \"main\")"
    );
    let header = header::read(HEADER).expect("the header");
    mir::read(&text)
        .and_then(|program| c_file::file(&program, &header, ONE, "", "one.h"))
        .map_err(|error| error.said("one.mir", &text))
}

const BACK: &str = "(assign (place 0 lnil) (rvOpd (int 32 0)))";

fn body(statements: &[&str]) -> String {
    statements.iter().chain([&BACK]).rev().fold("return".to_string(), |rest, one| format!("(seq {one} {rest})"))
}

fn written(statements: &[&str], lines: &[&str]) {
    let c = said(&body(statements)).expect("C");
    lines.iter().for_each(|line| assert!(c.contains(line), "{c} has no {line}"));
}

fn refused(statements: &[&str], what: &str) {
    let said = said(&body(statements)).expect_err(what);
    assert!(said.contains(what), "{said} says nothing of {what}");
}

const SOME: &str = "(assign (place 2 lnil) (aggregate (lcons (int 8 1) (lcons (copy (place 1 lnil)) lnil))))";
const INNER: &str = "(assign (place 1 lnil) (rvOpd (copy (place 2 (lcons (variant 1) (lcons (field 1) lnil))))))";
const ADDRESS: &str = "(assign (place 6 lnil) (addrOf (place 1 lnil)))";
const SHORT: &str = "(seq (assign (place 9 lnil) (rvOpd (int 16 1))) (assign (place 6 lnil) (addrOf (place 9 lnil))))";
const LENT: &str = "(assign (place 4 lnil) (aggregate (lcons (copy (place 6 lnil)) (lcons (int 64 1) lnil))))";
const EMPTY: &str = "(assign (place 5 lnil) (aggregate lnil))";
const CALL: &str =
    "(call (direct (fnRef \"b::other<u32>\")) (lcons (copy (place 6 lnil)) (lcons (copy (place 5 lnil)) lnil)) (place 11 lnil))";

#[test]
fn enums_with_fields() {
    written(
        &[SOME, INNER],
        &[
            "struct kd_Maybe_u32 {\n    uint8_t tag;\n    uint32_t of1;\n};",
            "v2.tag = 1u;",
            "v2.of1 = x;",
            "x = v2.of1;",
        ],
    );
    refused(
        &["(assign (place 2 lnil) (aggregate (lcons (int 8 1) lnil)))"],
        "an aggregate of 1 parts for a::Maybe<u32>",
    );
    refused(
        &["(assign (place 2 lnil) (aggregate (lcons (int 8 9) lnil)))"],
        "an aggregate of 1 parts for a::Maybe<u32>",
    );
    refused(&[SOME, &INNER.replace("(variant 1)", "(variant 0)")], "field 1 of a::Maybe<u32>");
    refused(&[SOME, &INNER.replace("(variant 1)", "(variant 2)")], "variant 2 of a::Maybe<u32>");
    refused(
        &[SOME, &INNER.replace("(lcons (variant 1) (lcons (field 1) lnil))", "(lcons (field 1) lnil)")],
        "field 1 of a::Maybe<u32>",
    );
}

#[test]
fn addresses_in_structs() {
    let read = "(assign (place 1 lnil) (rvOpd (copy (place 4 (lcons (field 0) (lcons (deref (tyInt 32)) lnil))))))";
    written(&[ADDRESS, LENT, read], &["v4.f0 = v6;", "x = *(uint32_t *)(void *)v4.f0;"]);
    refused(&[SHORT, LENT], "an address of Int(16), used as one of Int(32)");
    refused(
        &[ADDRESS, LENT, &read.replace("(deref (tyInt 32))", "(deref (tyInt 16))")],
        "an address of Int(32), used as one of Int(16)",
    );
}

#[test]
fn what_is_handed_on() {
    written(&[ADDRESS, EMPTY, CALL], &["KD_SMALL void kd_b_other_u32(uint8_t *v1)", "kd_b_other_u32(v6);"]);
    refused(&[SHORT, EMPTY, CALL], "an address of Int(16), used as one of Int(32)");
}

/// Of a struct with a 64-bit number, and of an enum of two variants with fields, C knows neither size nor order.
#[test]
fn offsets() {
    let offset = "(assign (place 7 lnil) (op2 offset (copy (place 8 lnil)) (int 64 16)))";
    let whole = "(assign (place 3 lnil) (rvOpd (copy (place 8 (lcons (deref NAMED) lnil)))))";
    for (local, name) in [(4, "a::Lent"), (3, "a::Two")] {
        let address = format!("(assign (place 8 lnil) (addrOf (place {local} lnil)))");
        let fill = "(assign (place 3 lnil) (aggregate (lcons (int 8 1) (lcons false (lcons unit lnil)))))";
        refused(
            &[ADDRESS, LENT, fill, &address, offset],
            &format!("layout is not the same everywhere: Named(\"{name}\")"),
        );
        if local == 3 {
            written(
                &[fill, &address, &whole.replace("NAMED", &named(name))],
                &["v3.of1 = false;", "(struct kd_a_Two *)(void *)v8;"],
            );
        }
    }
    written(&["(assign (place 8 lnil) (addrOf (place 1 lnil)))", offset], &["/* v7 is not read */"]);
}

#[test]
fn copies_of_bytes() {
    let copy = |how: &str, ty: &str| {
        format!("(call (copyBits {how} {ty}) (lcons (copy (place 6 lnil)) (lcons (copy (place 7 lnil)) (lcons (int 64 3) lnil))) (place 11 lnil))")
    };
    let to = "(assign (place 7 lnil) (rvOpd (copy (place 6 lnil))))";
    written(&[ADDRESS, to, &copy("apart", "(tyInt 32)")], &["memcpy(v7, v6, (size_t)UINT64_C(3) * 4);"]);
    written(&[ADDRESS, to, &copy("within", "(tyInt 32)")], &["memmove(v7, v6, (size_t)UINT64_C(3) * 4);"]);
    refused(&[ADDRESS, to, &copy("apart", "(tyInt 16)")], "an address of Int(32), used as one of Int(16)");
    refused(&[ADDRESS, to, &copy("apart", &named("a::Two"))], "layout is not the same everywhere");
    refused(&[ADDRESS, to, &copy("backwards", "(tyInt 32)")], "a copy backwards");
}

#[test]
fn where_no_call_comes() {
    let arms =
        "(arm (lcons 0 lnil) (assign (place 1 lnil) (rvOpd (int 32 5))) (arm (lcons 1 lnil) unreachable noDefault))";
    let switch = format!("(switch (copy (place 2 (lcons (variant 0) (lcons (field 0) lnil)))) {arms})");
    let c = said(&body(&[SOME, &switch])).expect("C");
    assert!(c.contains("    x = UINT32_C(5);\n    v0 ") && !c.contains("switch"), "{c}");
    let c = said("unreachable").expect("C");
    assert!(c.contains("for (;;) { /* no call comes here */ }"), "{c}");
}
