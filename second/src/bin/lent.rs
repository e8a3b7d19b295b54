//! Compares calls on nodes in lent bytes, the lines of `tests/lent/hostile.c` on standard input, with this
//! implementation; then each mutant of its decode has to differ somewhere.

use std::io::{self, Read};
use std::process::ExitCode;

use second::lent::{LAYOUT, MUTANTS};
use second::lent_lines::compare;
use second::reply::Reply;

fn main() -> ExitCode {
    let mut text = String::new();
    if let Err(error) = io::stdin().lock().read_to_string(&mut text) {
        eprintln!("lent: {error}");
        return ExitCode::from(2);
    }
    let (mut passed, mut failed) = (0, 0);
    let mut part = |holds: bool| if holds { passed += 1 } else { failed += 1 };
    match compare(&LAYOUT, text.lines()) {
        Ok(seen) => {
            println!(
                "{} calls on hostile bytes: {} said whole, {} in part; by reply {:?}",
                seen.lines, seen.whole, seen.in_part, seen.replies
            );
            part(seen.lines > 0 && seen.whole > seen.in_part);
            // BadFrame is split's alone.
            let given = |reply: &Reply| seen.replies[reply.place()] > 0;
            part(Reply::ALL.iter().all(|reply| given(reply) == (*reply != Reply::BadFrame)));
            println!("{}  ticks that dropped {}, and that delivered {}", seen.deeds, seen.dropping, seen.delivering);
            let missing = seen.deeds.missing();
            missing.iter().for_each(|deed| println!("{deed}"));
            part(missing.is_empty());
            part(seen.dropping > 0 && seen.delivering > 0);
        }
        Err(differs) => {
            println!("{differs}");
            part(false);
        }
    }
    for (name, layout) in MUTANTS {
        let found = compare(&layout, text.lines()).err();
        let line = found.as_deref().and_then(|said| said.lines().next());
        println!("{name}: {}", line.unwrap_or("not found"));
        part(found.is_some());
    }
    println!("hostile: {passed} passed, {failed} failed");
    ExitCode::from(u8::from(failed > 0))
}
