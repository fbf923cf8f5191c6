//! What the cases met.

use std::collections::{BTreeMap, BTreeSet};
use std::fmt;

use library::checks::Verdict;

use super::fixed::{apart, shown, Fixed, Part, LAST};
use super::{border, Case};

#[derive(Default)]
pub struct Counts {
    /// By number, drawn cases and fixed ones: ours, the original's, and cases in which both have the very same answer.
    answers: BTreeMap<u32, [[u64; 3]; 2]>,
    edited_masters: u64,
    dst: u64,
    /// What the original does not see or look at: cases, by what the original answers.
    beyond: BTreeMap<&'static str, Beside>,
    fixed: BTreeMap<&'static str, u64>,
    /// Pairs with a case as it was made for, and with one that was not.
    met: BTreeSet<(u32, u32)>,
    missed: BTreeSet<(u32, u32)>,
    pub beside: border::Counts,
}

#[derive(Default)]
struct Beside {
    accepted: u64,
    other: u64,
    same: u64,
}

impl Counts {
    pub fn count(&mut self, case: &Case, ours: Verdict, original: Verdict, as_wanted: bool) {
        let kind = usize::from(case.fixed.is_some());
        self.answers.entry(ours.number).or_default()[kind][0] += 1;
        self.answers.entry(original.number).or_default()[kind][1] += 1;
        if ours == original {
            self.answers.entry(ours.number).or_default()[kind][2] += 1;
        }
        self.edited_masters += u64::from(case.edited_master);
        self.dst += u64::from(case.of.properties.dst);

        let over = case.over().map(|(name, _)| name);
        for name in case.beyond.iter().map(|beyond| beyond.name()).chain(over) {
            let beside = self.beyond.entry(name).or_default();
            match original.number {
                _ if ours == original => beside.same += 1,
                0 => beside.accepted += 1,
                _ => beside.other += 1,
            }
        }

        let Some(Fixed { part, .. }) = case.fixed else {
            return;
        };
        let name = match part {
            Part::Pair(..) => "pairs of refusals",
            Part::Left(..) => "  the lower put right",
            Part::Turned(..) => "  the higher in an earlier element",
            Part::Same(..) => "  both in one element",
            Part::AtOnce(_) => "all at once, put right from the lowest on",
            Part::Limit => "limits of 1",
            Part::Border { .. } => "the border of the words",
            Part::Named(_) => "other",
        };
        *self.fixed.entry(name).or_default() += 1;
        if let Part::Pair(a, b) | Part::Left(a, b) | Part::Turned(a, b) | Part::Same(a, b) = part {
            let set = if as_wanted { &mut self.met } else { &mut self.missed };
            set.insert((a, b));
        }
    }
}

fn listed(pairs: &[(u32, u32)]) -> String {
    pairs.iter().map(|(a, b)| format!("{a}/{b}")).collect::<Vec<_>>().join(" ")
}

impl Counts {
    /// The pairs of these refusals: met, not as wanted, and why the others cannot be met.
    fn pairs(&self, f: &mut fmt::Formatter<'_>, name: &str, of: impl Fn(u32, u32) -> bool) -> fmt::Result {
        let pairs = (1..LAST).flat_map(|a| (a + 1..=LAST).map(move |b| (a, b)));
        let all: Vec<(u32, u32)> = pairs.filter(|&(a, b)| of(a, b)).collect();
        let met = all.iter().filter(|pair| self.met.contains(pair) && !self.missed.contains(pair)).count();
        let missed: Vec<(u32, u32)> = all.iter().copied().filter(|pair| self.missed.contains(pair)).collect();
        let mut reasons = BTreeMap::<&str, Vec<(u32, u32)>>::new();
        for &(a, b) in &all {
            if let Some(reason) = apart(a, b) {
                reasons.entry(reason).or_default().push((a, b));
            }
        }
        let apart = reasons.values().map(Vec::len).sum::<usize>();
        writeln!(f, "{name}: {}, of them {met} met, {apart} that cannot be met together", all.len())?;
        for (reason, pairs) in reasons {
            writeln!(f, "  {}: {reason}", listed(&pairs))?;
        }
        if !missed.is_empty() {
            writeln!(f, "  not as they were made for: {}", listed(&missed))?;
        }
        if met + apart + missed.len() != all.len() {
            writeln!(f, "  {} without a case", all.len() - met - apart - missed.len())?;
        }
        Ok(())
    }
}

impl fmt::Display for Counts {
    fn fmt(&self, f: &mut fmt::Formatter<'_>) -> fmt::Result {
        writeln!(f, "{:38}{:>9}", "edited masters", self.edited_masters)?;
        writeln!(f, "{:38}{:>9}", "DST", self.dst)?;
        writeln!(f, "{:14}{:^36}{:^36}", "", "drawn cases", "fixed cases")?;
        let columns = format!("{:>8}{:>15}{:>13}", "ours", "the original", "both");
        writeln!(f, "{:14}{columns}{columns}", "answers")?;
        for number in (0..=LAST).chain(self.answers.keys().copied().filter(|&number| number > LAST)) {
            let [drawn, fixed] = self.answers.get(&number).copied().unwrap_or_default();
            let name = if number == 0 { "accepted".into() } else { format!("refused {number}") };
            let columns = |[ours, original, both]: [u64; 3]| format!("{ours:>8}{original:>15}{both:>13}");
            writeln!(f, "  {name:12}{}{}", columns(drawn), columns(fixed))?;
        }
        let title = "not looked at or not seen by one side";
        writeln!(f, "{title:44}{:>36}", "the original's answer")?;
        writeln!(f, "{:44}{:>10}{:>14}{:>12}", "", "accepted", "not as ours", "as ours")?;
        for (name, Beside { accepted, other, same }) in &self.beyond {
            writeln!(f, "  {name:42}{accepted:>10}{other:>14}{same:>12}")?;
        }
        write!(f, "{}", self.beside)?;
        writeln!(f, "fixed cases")?;
        for name in [
            "pairs of refusals",
            "  the lower put right",
            "  the higher in an earlier element",
            "  both in one element",
            "all at once, put right from the lowest on",
            "limits of 1",
            "the border of the words",
            "other",
        ] {
            let count = self.fixed.get(name).copied().unwrap_or_default();
            if count > 0 {
                writeln!(f, "  {name:42}{count:>10}")?;
            }
        }
        self.pairs(f, "pairs of refusals that the original shows", |a, b| shown(a) && shown(b))?;
        self.pairs(f, "pairs with 1, 2, 3, 6 or 8, which it does not", |a, b| !(shown(a) && shown(b)))
    }
}
