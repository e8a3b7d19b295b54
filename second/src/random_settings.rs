//! Random settings: good ones, ones at their limits, and ones just outside.

use crate::random::Random;
use crate::settings::Asked;

/// Numbers at a limit and beside it, or near the least one; `bold` prefers the limits.
fn near(random: &mut Random, least: i64, most: i64, bold: bool) -> i64 {
    let cases = if bold { 60 } else { 6 };
    if random.percent(cases) {
        let at = if random.percent(50) { least } else { most };
        let step = if random.percent(60) { 0 } else { random.pick(&[-1, 1]) };
        return at + step;
    }
    if bold && random.percent(30) {
        return random.from(least.max(0) as u64, most.max(0) as u64) as i64;
    }
    least + random.below(4) as i64
}

fn fit(number: i64) -> u16 {
    u16::try_from(number.max(0)).unwrap_or(u16::MAX)
}

/// The seven numbers of a set up, at or beside the limits of their class.
pub fn asked(random: &mut Random, stream: u32) -> Asked {
    let bold = random.percent(25);
    let role = if random.percent(4) { random.pick(&[2, 3, 255]) } else { u8::from(random.percent(40)) };
    let class = match random.below(100) {
        0..=3 => random.pick(&[3, 4, 255]),
        4..=21 => 0,
        22..=44 => 1,
        _ => 2,
    };
    let (mut rd, mut dc, mut ra, mut dd) = (0, 0, 0, 0);
    match class {
        0 => {}
        1 => {
            rd = near(random, 1, 8_000, bold);
            dd = near(random, rd, 16_000, bold);
        }
        _ => {
            rd = near(random, 1, 8_000, bold);
            dc = near(random, rd, 8_000, bold);
            ra = near(random, 1, 4_000, bold);
            dd = near(random, dc + ra + 1, 16_000, bold);
        }
    }
    if random.percent(10) {
        let number = [&mut rd, &mut dc, &mut ra, &mut dd].into_iter().nth(random.index(4));
        if let Some(number) = number {
            *number = random.pick(&[0, 1, 2, *number - 1, *number + 1, 65_535]);
        }
    }
    Asked {
        stream,
        role,
        class,
        data_reach: fit(rd),
        confirm_delay: fit(dc),
        abort_reach: fit(ra),
        deliver_delay: fit(dd),
    }
}
