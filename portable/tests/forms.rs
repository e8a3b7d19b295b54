//! Forms that the crate firmware need not use, translated: `forms/` has their source, and a test of the C.

use std::fs;
use std::path::Path;

use portable::exports::Exports;
use portable::{c_file, header, mir};

fn read(name: &str) -> String {
    fs::read_to_string(Path::new(env!("CARGO_MANIFEST_DIR")).join("forms").join(name)).expect(name)
}

/// The functions that `forms/NAME.h` declares, translated. Where `FORMS_OUT` names a folder, the C goes there, and
/// `portable/run` compiles it.
fn translated(name: &str, structs: &[(&str, &str)]) -> String {
    let (text, header_text) = (read(&format!("{name}.mir")), read(&format!("{name}.h")));
    let program = mir::read(&text).expect("a program");
    let header = header::read(&header_text).expect("a header");
    let functions: Vec<String> = header.functions.keys().map(|function| format!("{name}::{function}")).collect();
    let functions: Vec<&str> = functions.iter().map(String::as_str).collect();
    let exports = Exports { functions: &functions, structs };
    let c = c_file::file(&program, &header, exports, "", &format!("{name}.h"))
        .map_err(|error| error.said(name, &text))
        .expect("C");
    if let Ok(folder) = std::env::var("FORMS_OUT") {
        fs::write(Path::new(&folder).join(format!("{name}.c")), &c).expect("a file");
    }
    c
}

fn has(c: &str, form: &str, times: usize) {
    assert!(c.matches(form).count() >= times, "{form} stands {} times", c.matches(form).count());
}

#[test]
fn forms_are_translated() {
    let c = translated("forms", &[("forms::Pair", "forms_pair"), ("forms::Sums", "forms_sums")]);
    for (form, times) in [("goto l", 2), ("continue;", 1), ("switch (", 3), ("for (;;)", 6)] {
        has(&c, form, times);
    }
}

/// Functions and types at arguments, enums with fields, addresses in structs, and what holds nothing.
#[test]
fn results_are_translated() {
    let c = translated("results", &[("results::Slot", "results_slot"), ("results::Node", "results_node")]);
    for form in [
        "struct kd_Option_u64 {\n    uint8_t tag;\n    uint64_t of1;\n};",
        "struct kd_Result_unit_Refusal {\n    uint8_t tag;\n    uint8_t of1;\n};",
        "KD_STATIC struct kd_Result_u64_Refusal kd_Option_ok_or_u64_Refusal(struct kd_Option_u64 v1, uint8_t v2)",
        "struct kd_Zip_Iter_u8_Iter_u8 {\n    struct kd_slice f0;\n    struct kd_slice f1;\n};",
        "memcpy(",
        "memmove(",
        "#pragma GCC diagnostic ignored \"-Wmaybe-uninitialized\"",
    ] {
        has(&c, form, 1);
    }
    assert!(!c.contains("(*)"), "a pointer to a function");
    assert!(!c.contains("goto "), "{c}");
    // C99 tells names apart by their first 63 signs.
    let long = c.split(|sign: char| !sign.is_ascii_alphanumeric() && sign != '_').find(|word| word.len() > 63);
    assert_eq!(long, None);
}

/// C has no word for leaving two loops at once, nor for the next turn of the outer one; else nothing needs a `goto`.
#[test]
fn flows_are_translated() {
    let c = translated("flows", &[]);
    assert_eq!(c.matches("goto l").count(), 2);
    let function = c.split("uint32_t flows_nested(").nth(1).expect("it is there");
    assert_eq!(function.split("\n}\n").next().unwrap_or("").matches("goto l").count(), 2);
}
