//! The names of rules and settings, as the programs of the repository read them.

use crate::{Engine, FillRule, OverlayRule, Precision, Rounding, RuleTable, ShapeType, Strategy};
use std::fmt;
use std::str::FromStr;

/// A word that is no name of what was wanted. Its text has the names, and the word, if there was memory for it; `Clone` aborts
/// where there is none.
///
/// ```
/// use fadrinzo::{FillRule, OverlayRule};
///
/// let unknown = "odd".parse::<FillRule>().unwrap_err();
/// assert_eq!(unknown.to_string(), "`odd` is no fill rule; write evenodd, nonzero, positive, negative");
/// assert_eq!("inverse-difference".parse(), Ok(OverlayRule::InverseDifference));
/// ```
#[derive(Clone, Debug, PartialEq, Eq)]
pub struct UnknownName {
    word: String,
    kind: &'static str,
    names: &'static str,
}

impl UnknownName {
    fn new(word: &str, kind: &'static str, names: &'static str) -> UnknownName {
        let mut kept = String::new();
        if kept.try_reserve_exact(word.len()).is_ok() {
            kept.push_str(word);
        }
        UnknownName { word: kept, kind, names }
    }
}

impl fmt::Display for UnknownName {
    fn fmt(&self, f: &mut fmt::Formatter<'_>) -> fmt::Result {
        write!(f, "`{}` is no {}; write {}", self.word, self.kind, self.names)
    }
}

impl std::error::Error for UnknownName {}

/// Writes and reads the values of a type by their names.
macro_rules! named {
    ($kind:ident, $words:literal, $names:literal, $($value:ident: $name:literal $(| $other:literal)?),+) => {
        impl fmt::Display for $kind {
            fn fmt(&self, f: &mut fmt::Formatter<'_>) -> fmt::Result {
                f.pad(match self {
                    $($kind::$value => $name,)+
                })
            }
        }

        impl FromStr for $kind {
            type Err = UnknownName;

            fn from_str(word: &str) -> Result<$kind, UnknownName> {
                match word {
                    $($name $(| $other)? => Ok($kind::$value),)+
                    _ => Err(UnknownName::new(word, $words, $names)),
                }
            }
        }
    };
}

named!(FillRule, "fill rule", "evenodd, nonzero, positive, negative",
    EvenOdd: "evenodd", NonZero: "nonzero", Positive: "positive", Negative: "negative");

named!(Strategy, "strategy", "list, tree, frag, auto",
    List: "list", Tree: "tree", Frag: "frag", Auto: "auto");

named!(Engine, "engine", "i32, i16",
    I32: "i32", I16: "i16");

// the program `polygons` has the word `pairwise`, and without it rounds by hot pixels
named!(Rounding, "rounding", "hot-pixels, pairwise",
    HotPixels: "hot-pixels", Pairwise: "pairwise");

// a line that a program reads begins with a letter
named!(ShapeType, "shape", "subject, clip, S, C",
    Subject: "subject" | "S", Clip: "clip" | "C");

const OVERLAY_RULES: [(&str, OverlayRule); 7] = [
    ("subject", OverlayRule::Subject),
    ("clip", OverlayRule::Clip),
    ("intersect", OverlayRule::Intersect),
    ("union", OverlayRule::Union),
    ("difference", OverlayRule::Difference),
    ("inverse-difference", OverlayRule::InverseDifference),
    ("xor", OverlayRule::Xor),
];

impl fmt::Display for OverlayRule {
    fn fmt(&self, f: &mut fmt::Formatter<'_>) -> fmt::Result {
        match (self, OVERLAY_RULES.iter().find(|(_, rule)| rule == self)) {
            (OverlayRule::Table(table), _) => f.pad(ShortText::of(format_args!("table:{}", table.bits())).as_str()),
            (_, named) => f.pad(named.expect("each other rule has a name").0),
        }
    }
}

impl FromStr for OverlayRule {
    type Err = UnknownName;

    fn from_str(word: &str) -> Result<OverlayRule, UnknownName> {
        let rule = match word.strip_prefix("table:") {
            Some(digits) => table(digits).map(OverlayRule::Table),
            None => OVERLAY_RULES.iter().find(|(name, _)| *name == word).map(|&(_, rule)| rule),
        };
        let names = "subject, clip, intersect, union, difference, inverse-difference, xor, table:N (N from 0 to 15)";
        rule.ok_or_else(|| UnknownName::new(word, "overlay rule", names))
    }
}

/// The table whose bits the digits write, without leading zeros.
fn table(digits: &str) -> Option<RuleTable> {
    let table = RuleTable::new(digits.parse().ok()?)?;
    (ShortText::of(format_args!("{}", table.bits())).as_str() == digits).then_some(table)
}

const PRECISIONS: [(&str, Precision); 6] = [
    ("absolute", Precision::ABSOLUTE),
    ("high", Precision::HIGH),
    ("medium-high", Precision::MEDIUM_HIGH),
    ("medium", Precision::MEDIUM),
    ("medium-low", Precision::MEDIUM_LOW),
    ("low", Precision::LOW),
];

impl fmt::Display for Precision {
    fn fmt(&self, f: &mut fmt::Formatter<'_>) -> fmt::Result {
        match PRECISIONS.iter().find(|(_, precision)| precision == self) {
            Some((name, _)) => f.pad(name),
            None => f.pad(ShortText::of(format_args!("{},{}", self.start, self.progression)).as_str()),
        }
    }
}

impl FromStr for Precision {
    type Err = UnknownName;

    fn from_str(word: &str) -> Result<Precision, UnknownName> {
        let precision = match word.split_once(',') {
            Some((start, step)) => numbered_precision(start, step),
            None => PRECISIONS.iter().find(|(name, _)| *name == word).map(|&(_, precision)| precision),
        };
        let names = "absolute, high, medium-high, medium, medium-low, low, START,STEP (two whole numbers)";
        precision.ok_or_else(|| UnknownName::new(word, "precision", names))
    }
}

/// The precision of two numbers. The programs read up to 9 digits of each, with which a pass snaps as far as it can.
fn numbered_precision(start: &str, step: &str) -> Option<Precision> {
    let number = |digits: &str| {
        let is_whole = !digits.is_empty() && digits.bytes().all(|digit| digit.is_ascii_digit());
        is_whole.then(|| digits.parse().ok())?
    };
    Some(Precision { start: number(start)?, progression: number(step)? })
}

/// A text of two numbers at most, which takes no memory of the system.
struct ShortText {
    bytes: [u8; 48],
    len: usize,
}

impl ShortText {
    fn of(arguments: fmt::Arguments<'_>) -> ShortText {
        let mut text = ShortText { bytes: [0; 48], len: 0 };
        fmt::Write::write_fmt(&mut text, arguments).expect("two numbers of 20 digits fit");
        text
    }

    fn as_str(&self) -> &str {
        std::str::from_utf8(&self.bytes[..self.len]).expect("whole texts were written")
    }
}

impl fmt::Write for ShortText {
    fn write_str(&mut self, text: &str) -> fmt::Result {
        let end = self.len + text.len();
        self.bytes.get_mut(self.len..end).ok_or(fmt::Error)?.copy_from_slice(text.as_bytes());
        self.len = end;
        Ok(())
    }
}
