//! The same statements nested otherwise, for a function that C would need a `goto` for: what follows an `if` of which one branch
//! leaves stands in the other branch, a few statements that follow a block in the place of each exit to its end, an exit at the end of a
//! block goes, and so does a block that no exit leaves.

use crate::c_function::{goes_on, leaves};
use crate::mir::{Body, Does, Statement};

/// The branches of an `if` or a `switch`.
fn branches(does: &mut Does) -> Vec<&mut Body> {
    match does {
        Does::If(_, a, b) => vec![a, b],
        Does::Switch(_, arms, default) => arms.iter_mut().map(|(_, arm)| arm).chain(default).collect(),
        _ => Vec::new(),
    }
}

/// Without the exits that only lead to the end of the block so many blocks out, where they stand at its end.
fn ended(body: &mut Body, depth: usize) {
    let Some(last) = body.last_mut() else { return };
    match &mut last.does {
        Does::Exit(count) if *count == depth => drop(body.pop()),
        Does::Block(inner) => ended(inner, depth + 1),
        does => branches(does).into_iter().for_each(|branch| ended(branch, depth)),
    }
}

/// The exits of a body that has one block less around it.
fn lowered(body: &mut Body, depth: usize) {
    for statement in body {
        match &mut statement.does {
            Does::Exit(count) if *count > depth => *count -= 1,
            Does::Block(inner) | Does::Loop(inner) => lowered(inner, depth + 1),
            does => branches(does).into_iter().for_each(|branch| lowered(branch, depth)),
        }
    }
}

/// So many exits lead to the end of the block so many blocks out.
fn exits(body: &Body, depth: usize) -> usize {
    let each = body.iter().map(|statement| match &statement.does {
        Does::Exit(count) => usize::from(*count == depth),
        Does::Block(inner) | Does::Loop(inner) => exits(inner, depth + 1),
        _ => statement.inner().into_iter().map(|inner| exits(inner, depth)).sum(),
    });
    each.sum()
}

/// These statements, within so many blocks more.
fn raised(body: &Body, by: usize) -> Body {
    let mut body = body.clone();
    for statement in &mut body {
        if let Does::Exit(count) = &mut statement.does {
            *count += by;
        }
    }
    body
}

/// What follows a block, in the place of each exit to its end.
fn followed(body: &mut Body, after: &Body, depth: usize) {
    let Some(last) = body.last_mut() else { return };
    match &mut last.does {
        Does::Exit(count) if *count == depth => {
            body.pop();
            body.extend(raised(after, depth + 1));
        }
        _ => {}
    }
    for statement in body {
        match &mut statement.does {
            Does::Block(inner) | Does::Loop(inner) => followed(inner, after, depth + 1),
            does => branches(does).into_iter().for_each(|branch| followed(branch, after, depth)),
        }
    }
}

/// A few statements without others in them, of which the last may leave.
fn is_short(body: &Body) -> bool {
    let straight = |does: &Does| matches!(does, Does::Assign(..) | Does::Call(..) | Does::CopyBits(..));
    let leaves = |does: &Does| matches!(does, Does::Exit(_) | Does::Return);
    match body.split_last() {
        Some((last, first)) => {
            first.len() < 3
                && first.iter().all(|one| straight(&one.does))
                && (straight(&last.does) || leaves(&last.does))
        }
        None => true,
    }
}

/// As many times what follows a block may be written.
const TIMES: usize = 6;

pub fn nested(body: Body) -> Body {
    nest(body, false)
}

/// Of a body whose end is that of a block or a turn of a loop, where `ends`.
fn nest(body: Body, ends: bool) -> Body {
    let mut rest: Body = Vec::new();
    for Statement { at, mut does } in body.into_iter().rev() {
        if let Does::Block(inner) = does {
            let mut inner = nest(inner, true);
            ended(&mut inner, 0);
            // what leaves a loop has its own word
            let is_loop = matches!(&inner[..], [Statement { does: Does::Loop(_), .. }]);
            if ends && !is_loop && is_short(&rest) && (1..=TIMES).contains(&exits(&inner, 0)) {
                if goes_on(&rest) {
                    rest.push(Statement { at, does: Does::Exit(0) });
                }
                let goes_on = goes_on(&inner);
                followed(&mut inner, &rest, 0);
                if goes_on {
                    inner.extend(raised(&rest, 1));
                }
                rest.clear();
            }
            if leaves(&inner, 0) {
                rest.insert(0, Statement { at, does: Does::Block(inner) });
            } else {
                lowered(&mut inner, 0);
                inner.append(&mut rest);
                rest = nest(inner, ends);
            }
            continue;
        }
        if let Does::Loop(inner) = does {
            let mut inner = nest(inner, true);
            ended(&mut inner, 0);
            does = Does::Loop(inner);
        }
        for branch in branches(&mut does) {
            *branch = nest(std::mem::take(branch), false);
        }
        if !does.goes_on() {
            rest.clear();
        }
        // a switch without a default has no other way through it
        let mut on = branches(&mut does).into_iter().filter(|branch| goes_on(branch));
        if let (Some(branch), None) = (on.next(), on.next()) {
            branch.append(&mut rest);
            *branch = nest(std::mem::take(branch), false);
        }
        rest.insert(0, Statement { at, does });
    }
    rest
}
