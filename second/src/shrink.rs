//! Making a failing script short: lines are left out, and what is left is made simpler, as long as it still fails.

use std::time::{Duration, Instant};

/// A short script that still fails. `repaired` makes a selection of lines whole again (frame numbers, say);
/// `simpler` gives simpler forms of a line. The first line always stays.
pub fn shrink<T: Clone + PartialEq>(
    script: Vec<T>,
    limit: Duration,
    repaired: impl Fn(&[T], &[bool]) -> Vec<T>,
    simpler: impl Fn(&T) -> Vec<T>,
    mut fails: impl FnMut(&[T]) -> bool,
) -> Vec<T> {
    let start = Instant::now();
    let mut best = script;
    loop {
        let before = best.clone();
        let mut size = best.len().div_ceil(2).max(1);
        loop {
            let mut at = 1;
            while at < best.len() {
                if start.elapsed() > limit {
                    return best;
                }
                let kept: Vec<bool> = (0..best.len()).map(|line| line < at || line >= at + size).collect();
                let shorter = repaired(&best, &kept);
                if shorter.len() < best.len() && fails(&shorter) {
                    best = shorter;
                } else {
                    at += size;
                }
            }
            if size == 1 {
                break;
            }
            size = size.div_ceil(2);
        }
        for at in 1..best.len() {
            while let Some(form) = simpler(&best[at]).into_iter().find(|form| {
                let mut tried = best.clone();
                tried[at] = form.clone();
                start.elapsed() <= limit && fails(&tried)
            }) {
                best[at] = form;
            }
        }
        if best == before {
            return best;
        }
    }
}

/// Leaves out the lines that are not kept, and nothing else.
pub fn leave_out<T: Clone>(script: &[T], kept: &[bool]) -> Vec<T> {
    script.iter().zip(kept).filter(|(_, kept)| **kept).map(|(line, _)| line.clone()).collect()
}

#[cfg(test)]
mod tests {
    use super::*;

    #[test]
    fn finds_the_two_lines_that_matter() {
        let script: Vec<u32> = (0..200).collect();
        let fails = |lines: &[u32]| lines.contains(&77) && lines.contains(&150);
        let short = shrink(script, Duration::from_secs(5), leave_out, |_| Vec::new(), fails);
        assert_eq!(short, [0, 77, 150]);
    }

    #[test]
    fn makes_lines_simpler() {
        let fails = |lines: &[u32]| lines.iter().any(|line| *line >= 10);
        let simpler = |line: &u32| vec![line / 2, line.saturating_sub(1)];
        let short = shrink(vec![0, 3, 5_000], Duration::from_secs(5), leave_out, simpler, fails);
        assert_eq!(short, [0, 10]);
    }
}
