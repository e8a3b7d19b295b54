//! `portable MIR HEADER DIR VERSION SUM KIT`: writes `kosmydore.c` and `kosmydore.h` into the folder.

use std::fs;
use std::path::Path;
use std::process::ExitCode;

use portable::exports::{last, KOSMYDORE};
use portable::head::{head, Made};
use portable::{c_file, header, mir};

const USAGE: &str = "usage: portable MIR HEADER DIR VERSION SUM KIT";

fn read(name: &str) -> Result<String, String> {
    fs::read_to_string(name).map_err(|error| format!("{name} can't be read: {error}"))
}

fn write(dir: &str, name: &str, text: &str) -> Result<(), String> {
    let path = Path::new(dir).join(name);
    fs::write(&path, text).map_err(|error| format!("{} can't be written: {error}", path.display()))
}

fn run(words: &[String]) -> Result<(), String> {
    let [program, header_file, dir, version, sum, kit] = words else {
        return Err(USAGE.to_string());
    };
    let (text, header_text) = (read(program)?, read(header_file)?);
    let made = Made { version, sum, kit };
    let offered: Vec<&str> = KOSMYDORE.functions.iter().map(|name| last(name)).collect();
    let in_header = |error: portable::unknown::Unknown| error.said(header_file, &header_text);
    let declared = header::read(&header_text).map_err(in_header)?;
    let narrowed = header::narrowed(&header_text, &offered).map_err(in_header)?;
    let c = mir::read(&text)
        .and_then(|mir| c_file::file(&mir, &declared, KOSMYDORE, &head(&made, "the node in C99"), "kosmydore.h"))
        .map_err(|error| error.said(program, &text))?;
    write(dir, "kosmydore.c", &c)?;
    write(dir, "kosmydore.h", &format!("{}{narrowed}", head(&made, "the header of kosmydore.c")))
}

fn main() -> ExitCode {
    let words: Vec<String> = std::env::args().skip(1).collect();
    match run(&words) {
        Ok(()) => ExitCode::SUCCESS,
        Err(what) => {
            eprintln!("portable: {what}");
            ExitCode::from(if what == USAGE { 2 } else { 1 })
        }
    }
}
