//! The words `name=value` after a command.

use crate::core::fill_rule::FillRule;
use crate::core::overlay_rule::OverlayRule;
use crate::core::solver::{Precision, Solver, Strategy};

/// What a run is set to.
pub(crate) struct Settings {
    pub(crate) is_wide: bool,
    pub(crate) solver: Solver,
    pub(crate) fill: FillRule,
    /// The overlay rule, where not all links are wanted.
    pub(crate) rule: Option<OverlayRule>,
    /// The squared radius of `cross`.
    pub(crate) radius: u64,
    /// The runs of `bench`.
    pub(crate) runs: usize,
}

impl Settings {
    fn new() -> Self {
        Self { is_wide: true, solver: Solver::AUTO, fill: FillRule::NonZero, rule: None, radius: 1, runs: 3 }
    }

    /// Sets what one word names, or returns nothing where there is no such name or value.
    fn set(&mut self, name: &str, value: &str) -> Option<()> {
        match name {
            "engine" => self.is_wide = choice(value, &[("i16", false), ("i32", true)])?,
            "strategy" => self.solver.strategy = strategy(value)?,
            "precision" => self.solver.precision = precision(value)?,
            "fill" => self.fill = fill(value)?,
            "rule" => self.rule = rule(value)?,
            // upstream has no snap limit
            "limit" => number(value).filter(|&it| it <= u64::from(u32::MAX)).map(drop)?,
            "radius" => self.radius = number(value).filter(|it| (1..=1 << 56).contains(it))?,
            "runs" => self.runs = number(value).filter(|it| (1..=1000).contains(it))? as usize,
            _ => return None,
        }
        Some(())
    }
}

/// The settings of words, each of which has another name.
pub(crate) fn settings(words: &[String]) -> Option<Settings> {
    let mut settings = Settings::new();
    let mut seen = Vec::new();
    for word in words {
        let (name, value) = word.split_once('=')?;
        if seen.contains(&name) {
            return None;
        }
        seen.push(name);
        settings.set(name, value)?;
    }
    Some(settings)
}

fn choice<T: Copy>(word: &str, of: &[(&str, T)]) -> Option<T> {
    of.iter().find(|(name, _)| *name == word).map(|(_, value)| *value)
}

fn number(text: &str) -> Option<u64> {
    let is_number = !text.is_empty() && text.bytes().all(|byte| byte.is_ascii_digit());
    is_number.then(|| text.parse().ok()).flatten()
}

pub(crate) fn strategy(text: &str) -> Option<Strategy> {
    Some(match text {
        "list" => Strategy::List,
        "tree" => Strategy::Tree,
        "frag" => Strategy::Frag,
        "auto" => Strategy::Auto,
        _ => return None,
    })
}

fn precision(text: &str) -> Option<Precision> {
    Some(match text {
        "absolute" => Precision::ABSOLUTE,
        "high" => Precision::HIGH,
        "medium-high" => Precision::MEDIUM_HIGH,
        "medium" => Precision::MEDIUM,
        "medium-low" => Precision::MEDIUM_LOW,
        "low" => Precision::LOW,
        _ => {
            let (start, step) = text.split_once(',')?;
            let exponent = |text| number(text).filter(|&it| it < 1_000_000_000).map(|it| it as usize);
            Precision { start: exponent(start)?, progression: exponent(step)? }
        }
    })
}

fn fill(text: &str) -> Option<FillRule> {
    Some(match text {
        "evenodd" => FillRule::EvenOdd,
        "nonzero" => FillRule::NonZero,
        "positive" => FillRule::Positive,
        "negative" => FillRule::Negative,
        _ => return None,
    })
}

fn rule(text: &str) -> Option<Option<OverlayRule>> {
    Some(match text {
        "all" => None,
        "subject" => Some(OverlayRule::Subject),
        "clip" => Some(OverlayRule::Clip),
        "intersect" => Some(OverlayRule::Intersect),
        "union" => Some(OverlayRule::Union),
        "difference" => Some(OverlayRule::Difference),
        "inverse-difference" => Some(OverlayRule::InverseDifference),
        "xor" => Some(OverlayRule::Xor),
        _ => return None,
    })
}
