//! What is not known is refused, and named: the function, the line and column, and the construct.

use portable::exports::Exports;
use portable::{c_file, header, mir};

const ONE: Exports = Exports { functions: &["firmware::kosmydore_one"], structs: &[] };

const HEADER: &str = "#include <stdint.h>\n\nuint32_t kosmydore_one(uint32_t x);\n";

const HOMES: &str = "(lcons (local (tyInt 32) valueLocal) (lcons (local (tyInt 32) valueLocal) \
                     (lcons (local (tyInt 16) valueLocal) (lcons (local tyBool valueLocal) \
                     (lcons (local tyPtr valueLocal) (lcons (local (tyInt 32) memorySlot) lnil))))))";

/// One function, on a second line: locals 0 and 1 of 32 bits, 2 of 16, 3 a bool, 4 an address and 5 of 32 bits in memory.
fn program(body: &str) -> String {
    format!(
        "program (lcons\n(fn-def \"firmware::kosmydore_one\" (fnItem 0 lnil 1 {HOMES} {body})) lnil) (fnRef \"main\")"
    )
}

fn said(text: &str) -> Result<String, String> {
    let header = header::read(HEADER).expect("the header");
    mir::read(text)
        .and_then(|program| c_file::file(&program, &header, ONE, "", "one.h"))
        .map_err(|error| error.said("one.mir", text))
}

/// That the body is refused, and with what words.
fn refused(body: &str, what: &str) {
    let text = program(body);
    let said = said(&text).expect_err(body);
    assert!(said.starts_with("one.mir:2:"), "{said}");
    assert!(said.contains("function firmware::kosmydore_one: not known: "), "{said}");
    assert!(said.contains(what), "{said} says nothing of {what}");
}

const BACK: &str = "(seq (assign (place 0 lnil) (rvOpd (copy (place 1 lnil)))) return)";

fn assigning(local: usize, value: &str) -> String {
    format!("(seq (assign (place {local} lnil) {value}) {BACK})")
}

#[test]
fn what_is_known_is_translated() {
    let c = said(&program(BACK)).expect("C");
    assert!(
        c.contains("uint32_t kosmydore_one(uint32_t x)\n{\n    uint32_t v0;\n\n    v0 = x;\n    return v0;\n}\n"),
        "{c}"
    );
}

#[test]
fn what_wraps_is_cut_back() {
    for (op, sign) in [("wrapAdd", "+"), ("wrapSub", "-"), ("wrapMul", "*")] {
        let narrow = format!("(op2 {op} (copy (place 2 lnil)) (int 16 3))");
        let wide = format!("(op2 {op} (copy (place 1 lnil)) (int 32 3))");
        let body = format!("(seq (assign (place 2 lnil) (rvOpd (int 16 9))) (seq (assign (place 2 lnil) {narrow}) (seq (assign (place 0 lnil) {wide}) return)))");
        let c = said(&program(&body)).expect("C");
        assert!(c.contains(&format!("v2 = (uint16_t)((uint32_t)v2 {sign} 3u);")), "{c}");
        assert!(c.contains(&format!("v0 = x {sign} UINT32_C(3);")), "{c}");
    }
}

#[test]
fn the_place_is_named() {
    let text = program("(seq (forever skip) return)");
    let column = text.lines().nth(1).and_then(|line| line.find("(forever")).expect("it is there") + 1;
    let line = format!(
        "one.mir:2:{column}: function firmware::kosmydore_one: not known: the statement (forever ..) with 1 parts"
    );
    assert_eq!(said(&text), Err(line));
}

#[test]
fn statements() {
    refused("(seq (forever skip) return)", "the statement (forever ..)");
    refused("(seq panic return)", "the statement panic");
    refused("(seq (loop skip skip) return)", "the statement (loop ..) with 2 parts");
    refused("(seq (block (exit 1)) return)", "exit 1 within 1 statements");
    refused("(seq return (exit 0))", "exit 0 within 0 statements");
    refused("skip", "a function that ends without a return");
    refused("(if (copy (place 3 lnil)) return skip)", "a function that ends without a return");
    refused("(seq (call (direct (fnRef \"far\")) lnil (place 0 lnil)) return)", "the function far, which is not there");
    refused("(seq (call (virtual 1) lnil (place 0 lnil)) return)", "(virtual ..)");
    refused(
        "(seq (call (direct (fnRef \"firmware::kosmydore_one\")) (lcons (copy (place 1 lnil)) lnil) (place 0 lnil)) return)",
        "calls itself",
    );
    refused("(if (copy (place 1 lnil)) return return)", "an if on Int(32)");
    refused("(switch (copy (place 3 lnil)) (arm (lcons 0 lnil) return noDefault))", "a switch on Bool");
    refused("(switch (copy (place 2 lnil)) (arm (lcons 65536 lnil) return noDefault))", "the key 65536");
    refused(
        "(switch (copy (place 1 lnil)) (arm (lcons 1 lnil) return (arm (lcons 1 lnil) return noDefault)))",
        "the key 1",
    );
    refused("(switch (copy (place 1 lnil)) (arm (lcons 0 lnil) return (guard return)))", "the arm (guard ..)");
    refused("(switch (copy (place 1 lnil)) (default return))", "a switch without arms");
}

#[test]
fn values() {
    refused(&assigning(0, "(rvOpd (float 32 0))"), "the operand (float ..)");
    refused(&assigning(0, "(rvOpd (int 128 0))"), "a number of 128 bits");
    refused(&assigning(0, "(rvOpd (int 8 256))"), "the number 256 in 8 bits");
    refused(&assigning(0, "(rvOpd (int 32 -1))"), "-1 where a number");
    refused(&assigning(0, "(rvOpd (int 16 1))"), "Int(16) where Int(32) is due");
    refused(&assigning(0, "(rvOpd unit)"), "the unit where Int(32) is due");
    refused(&assigning(0, "(op2 (add signed) (int 32 1) (int 32 1))"), "(add ..)");
    refused(&assigning(0, "(op2 ptrEq (int 32 1) (int 32 1))"), "the operation ptrEq");
    refused(&assigning(0, "(op2 add (int 32 1) (int 32 1))"), "the operation add");
    refused(&assigning(0, "(op2 (add unsigned) (int 32 1) (int 16 1))"), "Int(16) where Int(32) is due");
    refused(&assigning(3, "(seq)"), "the value (seq ..)");
    refused(&assigning(5, "(op2 (add unsigned) true false)"), "Add of Bool");
    refused(
        &format!(
            "(seq (assign (place 3 lnil) (op2 (lt unsigned) true false)) (if (copy (place 3 lnil)) {BACK} {BACK}))"
        ),
        "Lt of Bool",
    );
    refused(&assigning(0, "(op1 leadingZeros (int 32 1))"), "the operation leadingZeros");
    refused(&assigning(0, "(op1 (cast signed unsigned 32) (int 32 1))"), "the cast from signed to unsigned");
    refused(&assigning(0, "(aggregate (lcons (int 32 1) lnil))"), "an aggregate of 1 parts for Int(32)");
    refused(&assigning(0, "(repeat (int 32 1) 4)"), "repeated 4 times");
    refused(&assigning(0, "(rvOpd (copy (place 9 lnil)))"), "the local 9");
    refused(&assigning(0, "(rvOpd (copy (place 1 (lcons (field 0) lnil))))"), "Field(0)");
    refused(&assigning(0, "(rvOpd (copy (place 1 (lcons (index 0) lnil))))"), "the step (index ..)");
    refused(
        &assigning(0, "(rvOpd (copy (place 1 (lcons (deref (tyInt 32)) lnil))))"),
        "Int(32) where an address is due",
    );
}

#[test]
fn addresses() {
    let through = |ty: &str, to: &str| {
        let read = format!("(assign (place 0 lnil) (rvOpd (copy (place 4 (lcons (deref {ty}) lnil)))))");
        format!(
            "(seq (assign (place 5 lnil) (rvOpd (int 32 7))) (seq (assign (place 4 lnil) {to}) (seq {read} return)))"
        )
    };
    let whole = "(addrOf (place 5 lnil))";
    assert!(said(&program(&through("(tyInt 32)", whole))).is_ok());
    refused(&through("(tyInt 8)", whole), "an address of Int(32), used as one of Int(8)");
    refused(&through("(tyInt 32)", "(rvOpd (copy (place 1 lnil)))"), "Int(32) where an address is due");
    refused(&through("(tyInt 32)", "(rvOpd (copy (place 4 lnil)))"), "an address that is used before it is made");
    refused(&through("(tyInt 32)", "(op2 offset (copy (place 4 lnil)) (int 32 4))"), "used before it is made");
}

#[test]
fn the_text_around() {
    let good = program(BACK);
    for (old, new, what) in [
        ("program", "library", "library where program is due"),
        ("(fn-def", "(const-def", "(const-def ..)"),
        ("memorySlot", "heap", "the home heap"),
        ("(tyInt 16)", "(tyFloat 32)", "the type (tyFloat ..)"),
        ("(tyInt 16)", "(tyNamed (pair \"a::B\" lnil))", "the type a::B, which is not declared"),
        ("(fnItem 0 lnil 1", "(fnItem 0 lnil 9", "9 parameters and 6 locals"),
        ("(fnItem 0 lnil", "(fnItem 2 (lcons (pair 0 1) lnil)", "lifetimes that outlive others"),
        ("tyPtr", "(tyArray tyPtr (lenLit 2))", "an array of addresses"),
        ("tyPtr", "(tyStruct \"&[]\" (tcons (tyInt 64) tnil))", "the struct &[], spelled out"),
        ("(fnRef \"main\")", "(fnRef \"main\"", "a ( without its )"),
        ("(fnRef \"main\")", "(fnRef \"main\"))", "a ) without its ("),
        ("\"main\"", "\"main", "a \" without its end"),
    ] {
        let text = good.replacen(old, new, 1);
        assert_ne!(text, good, "{old} is not there");
        let said = said(&text).expect_err(new);
        assert!(said.contains(what), "{said} says nothing of {what}");
    }
    let declared = |what: &str| {
        let text = good.replacen(" return)))", &format!(" return)) (lcons (pair \"a::B\" {what}) lnil))"), 1);
        assert_ne!(text, good);
        said(&text)
    };
    assert!(declared("(fields (tcons tyBool tnil))").is_ok());
    assert!(declared("(variants (ttcons (tcons tyBool tnil) ttnil))").is_ok());
    assert!(declared("(fields (tcons (tyRef erased imm tyBool) tnil))").is_ok());
    for (what, title) in [
        ("(fields (tcons tyPtr tnil))", "the struct a::B with a bare address in it"),
        ("(variants (ttcons (tcons tyPtr tnil) ttnil))", "the enum a::B with a bare address in it"),
        ("(fields (tcons (tyFloat 32) tnil))", "the type (tyFloat ..)"),
        ("(variants ttnil)", "the enum a::B of 0 variants"),
    ] {
        let said = declared(what).expect_err(title);
        assert!(said.contains(title), "{said} says nothing of {title}");
    }
    assert!(declared("(opaque)").expect_err("an unknown declaration").contains("the declaration (opaque ..)"));
}

#[test]
fn the_header() {
    for (text, what) in [
        ("typedef int number;", "the declaration typedef int number"),
        ("int f(int);", "the parameter int of f"),
        ("int f(int v3);", "the parameter int v3 of f"),
        ("struct a { int *; };", "the field int * ;"),
        ("struct a { int b;", "struct a without an end"),
        ("int f(int b)", "a declaration without an end"),
    ] {
        let said = header::read(text).expect_err(text).said("a.h", text);
        assert!(said.starts_with("a.h:1:1: not known: "), "{said}");
        assert!(said.contains(what), "{said} says nothing of {what}");
    }
    let said = |header_text: &str| {
        let header = header::read(header_text).expect("a header");
        let text = program(BACK);
        let read = mir::read(&text).expect("a program");
        c_file::file(&read, &header, ONE, "", "one.h").expect_err(header_text).what
    };
    assert_eq!(said("int other(int a);"), "a function for C that the header does not declare");
    assert_eq!(said("int kosmydore_one(void);"), "more parameters than the header declares");
    assert_eq!(said("int kosmydore_one(int a, int b);"), "fewer parameters than the header declares");
}

#[test]
fn structs_agree_with_the_header() {
    let text = program(BACK).replacen(
        " return)))",
        " return)) (lcons (pair \"a::B\" (fields (tcons (tyInt 16) (tcons (tyInt 64) (tcons (tyArray tyBool (lenLit 3)) tnil))))) lnil))",
        1,
    );
    let exports = Exports { structs: &[("a::B", "b")], ..ONE };
    let said = |fields: &str| {
        let header = header::read(&format!("{HEADER}struct b {{ {fields} }};")).expect("a header");
        let program = mir::read(&text).expect("a program");
        c_file::file(&program, &header, exports, "", "one.h").map_err(|error| error.what)
    };
    assert!(said("uint16_t x; size_t y; bool z[3];").is_ok());
    assert!(said("uint16_t x; uint64_t y; bool z[3];").is_ok());
    assert_eq!(
        said("int16_t x; size_t y; bool z[3];"),
        Err("the field x of struct b of the header as int16_t".to_string())
    );
    assert_eq!(said("uint16_t x; int y; bool z[3];"), Err("the field y of struct b of the header as int".to_string()));
    assert_eq!(
        said("uint16_t x; size_t y; char z[3];"),
        Err("the field z of struct b of the header as char".to_string())
    );
    assert!(said("uint16_t x; size_t y;").expect_err("too few").contains("which has other fields than a::B"));
}

#[test]
fn the_header_is_narrowed() {
    let text = "/* Head. */\n\n/* Keeps. */\nint kept(int a);\n\n/* Goes. */\nint left(int a,\n         int b);\n\nstruct s {\n    int a;\n};\n";
    let narrowed = header::narrowed(text, &["kept"]).expect("a header");
    assert_eq!(narrowed, "/* Head. */\n\n/* Keeps. */\nint kept(int a);\n\nstruct s {\n    int a;\n};\n");
    assert!(header::narrowed(text, &["kept", "more"])
        .expect_err("no declaration")
        .what
        .contains("no declaration of more"));
}
