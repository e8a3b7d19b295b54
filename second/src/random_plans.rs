//! The streams of a random history: who sends and receives them, with which settings, and their set ups.

use crate::fault::Fault;
use crate::limits::Limit;
use crate::random::Random;
use crate::rules::Break;
use crate::settings::Asked;

/// A stream of a history.
pub struct Plan {
    /// As a receiver has it.
    pub asked: Asked,
    pub sender: usize,
    pub receivers: Vec<usize>,
}

/// Up to five streams. Their numbers are small ones times `scale`, and mostly the least that the fault allows.
pub fn plans(random: &mut Random, modules: usize, scale: u64, fault: Fault) -> Vec<Plan> {
    let mut plans: Vec<Plan> = Vec::new();
    for _ in 0..random.pick(&[1, 1, 2, 2, 3, 4, 5]) {
        let stream = match random.below(10) {
            0 => random.pick(&[134_217_727, 134_217_726, 0]),
            1..=2 => random.below(1 << 27) as u32,
            _ => random.below(12) as u32,
        };
        if plans.iter().any(|plan| plan.asked.stream == stream) {
            continue;
        }
        let asked = numbers(random, stream, scale, fault);
        let sender = random.index(modules);
        let cases = random.pick(&[100, 100, 100, 60]);
        let mut receivers = Vec::new();
        for module in 0..modules {
            if module != sender && random.percent(cases) {
                receivers.push(module);
            }
        }
        plans.push(Plan { asked, sender, receivers });
    }
    plans
}

fn numbers(random: &mut Random, stream: u32, scale: u64, fault: Fault) -> Asked {
    let class = random.pick(&[2, 2, 2, 2, 2, 2, 1, 0]);
    let (mut rd, mut dc, mut ra, mut dd) = (0, 0, 0, 0);
    if class > 0 {
        rd = random.from(1, 3) * scale;
        dd = rd.saturating_add_signed(Limit::ImdDdOverRd.of(fault)) + random.below(4) * scale;
    }
    if class == 2 {
        dc = rd + random.pick(&[0, 0, 1, 2, 3]) * scale;
        ra = random.from(1, 3) * scale;
        let more = random.pick(&[0, 0, 0, 0, 1, 2, 5]) * scale;
        dd = (dc + ra).saturating_add_signed(Limit::TwoDdOver.of(fault)) + more;
    }
    let fit = |number: u64| u16::try_from(number).unwrap_or(u16::MAX);
    Asked {
        stream,
        role: 0,
        class,
        data_reach: fit(rd),
        confirm_delay: fit(dc),
        abort_reach: fit(ra),
        deliver_delay: fit(dd),
    }
}

/// The set ups of all streams in any order, now and then with one that is refused; `sins` may spoil the settings.
pub fn set_ups(random: &mut Random, plans: &[Plan], sins: &[Break]) -> Vec<(usize, Asked)> {
    let mut all = Vec::new();
    for plan in plans {
        all.push((plan.sender, Asked { role: 1, ..plan.asked }));
        all.extend(plan.receivers.iter().map(|module| (*module, plan.asked)));
    }
    if sins.contains(&Break::NotOneSender) {
        // Here the first is the sender of the first stream, and the second its first receiver, if it has one.
        if all.len() > 1 && random.percent(60) {
            all[1].1.role = 1;
        } else {
            all.remove(0);
        }
    }
    if sins.contains(&Break::UnequalSettings) && !all.is_empty() {
        let at = random.index(all.len());
        let asked = &mut all[at].1;
        match asked.class {
            0 => *asked = Asked { class: 1, data_reach: 1, deliver_delay: 2, ..*asked },
            _ => asked.deliver_delay = asked.deliver_delay.saturating_add(random.from(1, 3) as u16),
        }
    }
    random.shuffle(&mut all);
    let mut lines = Vec::new();
    for (module, asked) in all {
        if random.percent(2) {
            lines.push((module, Asked { deliver_delay: 16_001, ..asked }));
        }
        lines.push((module, asked));
        if random.percent(1) {
            lines.push((module, asked));
        }
    }
    lines
}
