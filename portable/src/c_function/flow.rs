//! Statements: structured as the program has them. A `goto` stands only where C has no word for an exit.

use std::collections::BTreeSet;

use super::CFunction;
use crate::mir::{Body, Does, Operand, Statement, Ty};
use crate::unknown::{unknown, Answer};

/// An enclosing statement that an exit can leave, or that C's `break` or `continue` stop at.
#[derive(Clone, Copy, PartialEq, Eq, Debug)]
pub(super) enum Around {
    Block(usize),
    Loop(usize),
    /// A block whose one statement is the loop that follows: leaving it is leaving the loop.
    BlockOfLoop(usize),
    /// A block that is not left by any exit.
    Bare,
    Switch,
}

/// Whether an exit in this body leaves so many statements around it.
pub fn leaves(body: &Body, depth: usize) -> bool {
    body.iter().any(|statement| match &statement.does {
        Does::Exit(count) => *count == depth,
        Does::Block(inner) | Does::Loop(inner) => leaves(inner, depth + 1),
        _ => statement.inner().into_iter().any(|inner| leaves(inner, depth)),
    })
}

/// That no exit in this body leaves more than the statements around it, not even one that is not reached.
pub(super) fn exits_are_within(body: &Body, around: usize) -> Answer<()> {
    for statement in body {
        let within = match &statement.does {
            Does::Exit(count) if *count >= around => {
                return unknown(statement.at, format!("exit {count} within {around} statements"));
            }
            Does::Block(_) | Does::Loop(_) => around + 1,
            _ => around,
        };
        statement.inner().into_iter().try_for_each(|inner| exits_are_within(inner, within))?;
    }
    Ok(())
}

/// Whether what follows the body can be reached from it.
pub fn goes_on(body: &Body) -> bool {
    body.last().is_none_or(|statement| statement.does.goes_on())
}

impl Does {
    /// Whether what follows it can be reached from it.
    pub fn goes_on(&self) -> bool {
        match self {
            Does::Assign(..) | Does::Call(..) | Does::CopyBits(..) => true,
            Does::Exit(_) | Does::Return | Does::Never | Does::Loop(_) => false,
            Does::Block(inner) => goes_on(inner) || leaves(inner, 0),
            Does::If(_, a, b) => goes_on(a) || goes_on(b),
            Does::Switch(_, arms, default) => {
                arms.iter().any(|(_, arm)| goes_on(arm)) || default.as_ref().is_some_and(goes_on)
            }
        }
    }
}

impl CFunction<'_, '_> {
    pub(super) fn body(&mut self, body: &Body, around: &[Around]) -> Answer<()> {
        for statement in body {
            self.at = statement.at;
            self.statement(statement, around)?;
            // what stands after it is not reached
            if !statement.does.goes_on() {
                break;
            }
        }
        Ok(())
    }

    fn inner(&mut self, body: &Body, around: &[Around], more: &[Around]) -> Answer<()> {
        self.depth += 1;
        self.body(body, &[around, more].concat())?;
        self.depth -= 1;
        Ok(())
    }

    fn statement(&mut self, statement: &Statement, around: &[Around]) -> Answer<()> {
        match &statement.does {
            Does::Assign(to, value) => self.assign(to, value),
            Does::Call(name, arguments, to) => self.call(name, arguments, to),
            Does::CopyBits(within, ty, arguments) => self.copy_bits(*within, ty, arguments),
            Does::If(on, a, b) => self.branch(on, a, b, around),
            Does::Switch(on, arms, default) => self.switch(on, arms, default.as_ref(), around),
            Does::Block(body) => self.block(body, around),
            Does::Loop(body) => self.turns(body, around, None),
            Does::Exit(count) => self.exit(*count, around),
            Does::Never => {
                self.say("for (;;) { /* no call comes here */ }");
                Ok(())
            }
            Does::Return => {
                if self.shape(&self.function.locals[0])? == Ty::Unit {
                    self.say("return;");
                } else {
                    self.used.insert(0);
                    self.say("return v0;");
                }
                Ok(())
            }
        }
    }

    fn branch(&mut self, on: &Operand, a: &Body, b: &Body, around: &[Around]) -> Answer<()> {
        let on = self.operand(on)?;
        if on.ty != Ty::Bool {
            return self.unknown(format!("an if on {:?}", on.ty));
        }
        match (a.is_empty(), b.is_empty()) {
            (true, true) => return Ok(()),
            (true, false) => {
                self.say(format!("if (!{}) {{", on.whole()));
                self.inner(b, around, &[])?;
            }
            (false, _) => {
                self.say(format!("if ({}) {{", on.whole()));
                self.inner(a, around, &[])?;
                if !b.is_empty() {
                    self.say("} else {");
                    self.inner(b, around, &[])?;
                }
            }
        }
        self.say("}");
        Ok(())
    }

    fn switch(
        &mut self,
        on: &Operand,
        arms: &[(Vec<u64>, Body)],
        default: Option<&Body>,
        around: &[Around],
    ) -> Answer<()> {
        let on = self.operand(on)?;
        let Ty::Int(bits) = on.ty else {
            return self.unknown(format!("a switch on {:?}", on.ty));
        };
        if arms.is_empty() {
            return self.unknown("a switch without arms");
        }
        let mut seen = BTreeSet::new();
        for key in arms.iter().flat_map(|(keys, _)| keys) {
            if !seen.insert(key) || bits < 64 && key >> bits != 0 {
                return self.unknown(format!("the key {key} of a switch on {bits} bits"));
            }
        }
        // An arm that leaves a loop has no word for it in a switch, which C's `break` would leave.
        let before = self.written();
        self.as_switch(&on.whole(), arms, default, around)?;
        let as_switch = self.written();
        if as_switch.gotos() > before.gotos() {
            self.back_to(before);
            self.as_ifs(&on.whole(), arms, default, around)?;
            if self.written().gotos() >= as_switch.gotos() {
                self.back_to(as_switch);
            }
        }
        Ok(())
    }

    fn as_ifs(&mut self, on: &str, arms: &[(Vec<u64>, Body)], default: Option<&Body>, around: &[Around]) -> Answer<()> {
        let mut begins = "if";
        for (number, (keys, body)) in arms.iter().enumerate() {
            let tests: Vec<String> = keys.iter().map(|key| format!("{on} == {key}u")).collect();
            match (tests.is_empty(), default.is_none() && number + 1 == arms.len()) {
                (true, _) => return self.unknown("an arm without keys"),
                (_, true) if number > 0 => self.say("} else { /* no other number is reached */"),
                _ => self.say(format!("{begins} ({}) {{", tests.join(" || "))),
            }
            self.inner(body, around, &[])?;
            begins = "} else if";
        }
        if let Some(body) = default.filter(|body| !body.is_empty()) {
            self.say("} else {");
            self.inner(body, around, &[])?;
        }
        self.say("}");
        Ok(())
    }

    fn as_switch(
        &mut self,
        on: &str,
        arms: &[(Vec<u64>, Body)],
        default: Option<&Body>,
        around: &[Around],
    ) -> Answer<()> {
        self.say(format!("switch ({on}) {{"));
        for (number, (keys, body)) in arms.iter().enumerate() {
            let labels: Vec<String> = keys.iter().map(|key| format!("case {key}:")).collect();
            // Without a default the machine is stuck at any other number, so none is reached.
            let other = default.is_none() && number + 1 == arms.len();
            match (labels.is_empty(), other) {
                (true, false) => return self.unknown("an arm without keys"),
                (_, true) => self.say("default: /* no other number is reached */"),
                _ => {}
            }
            self.arm(&labels.join(" "), body, around)?;
        }
        if let Some(body) = default {
            self.arm("default:", body, around)?;
        }
        self.say("}");
        Ok(())
    }

    fn arm(&mut self, labels: &str, body: &Body, around: &[Around]) -> Answer<()> {
        self.say(format!("{labels} {{"));
        self.inner(body, around, &[Around::Switch])?;
        if goes_on(body) {
            self.say("    break;");
        }
        self.say("}");
        Ok(())
    }

    fn block(&mut self, body: &Body, around: &[Around]) -> Answer<()> {
        self.labels += 1;
        let label = self.labels;
        match &body[..] {
            [Statement { at, does: Does::Loop(turns) }] => {
                self.at = *at;
                self.turns(turns, around, Some(label))?;
            }
            _ if leaves(body, 0) => {
                self.say("do {");
                self.inner(body, around, &[Around::Block(label)])?;
                self.say("} while (0);");
            }
            _ => self.body(body, &[around, &[Around::Bare]].concat())?,
        }
        self.label(label);
        Ok(())
    }

    fn turns(&mut self, body: &Body, around: &[Around], block: Option<usize>) -> Answer<()> {
        self.labels += 1;
        let label = self.labels;
        self.say("for (;;) {");
        let block = block.map(Around::BlockOfLoop);
        self.inner(body, around, &block.into_iter().chain([Around::Loop(label)]).collect::<Vec<_>>())?;
        self.depth += 1;
        self.label(label);
        self.depth -= 1;
        self.say("}");
        Ok(())
    }

    /// A label where a goto goes, at the end of the statement that it leaves.
    fn label(&mut self, label: usize) {
        if self.labelled.remove(&label) {
            self.lines.push(format!("l{label}:;"));
        }
    }

    fn exit(&mut self, count: usize, around: &[Around]) -> Answer<()> {
        let left: Vec<&Around> = around.iter().rev().filter(|around| **around != Around::Switch).collect();
        let Some(to) = left.get(count) else {
            return self.unknown(format!("exit {count} within {} statements", left.len()));
        };
        // What C's words would stop at: BlockOfLoop always stands just before its loop.
        let stops = |around: &&Around| matches!(around, Around::Block(_) | Around::Loop(_) | Around::Switch);
        let goes = |around: &&Around| matches!(around, Around::Block(_) | Around::Loop(_));
        let breaks = around.iter().rposition(|around| stops(&around));
        let continues = around.iter().rposition(|around| goes(&around));
        let position = around.iter().rposition(|around| around == *to).expect("it was found");
        let label = match to {
            Around::Loop(_) if continues == Some(position) => {
                self.say("continue;");
                return Ok(());
            }
            Around::Block(_) if breaks == Some(position) => {
                self.say("break;");
                return Ok(());
            }
            Around::BlockOfLoop(_)
                if breaks == Some(position + 1) && matches!(around[position + 1], Around::Loop(_)) =>
            {
                self.say("break;");
                return Ok(());
            }
            Around::Loop(label) | Around::Block(label) | Around::BlockOfLoop(label) => *label,
            Around::Bare | Around::Switch => return self.unknown("an exit of a statement that none leaves"),
        };
        self.labelled.insert(label);
        self.say(format!("goto l{label};"));
        Ok(())
    }
}
