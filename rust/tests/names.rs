//! The names of rules and settings: what is written is read again, and nothing else is read but the letters of shapes.

use fadrinzo::{Engine, FillRule, OverlayRule, Precision, Rounding, RuleTable, ShapeType, Strategy, UnknownName};
use std::fmt::{Debug, Display};
use std::str::FromStr;

/// Asserts that these are the names of these values, and returns the text of the error for a word that is none.
fn named<T: Copy + Debug + Display + PartialEq + FromStr<Err = UnknownName>>(names: &[(&str, T)]) -> String {
    for &(name, value) in names {
        assert_eq!(value.to_string(), name);
        assert_eq!(name.parse(), Ok(value));
        assert_eq!(format!("{value:>20}|{value:<20}"), format!("{name:>20}|{name:<20}"));
        for word in [name.to_uppercase(), format!("{name} "), format!(" {name}"), name[1..].to_string()] {
            assert!(word.parse::<T>().is_err(), "{word}");
        }
    }
    assert!("".parse::<T>().is_err());
    "what".parse::<T>().unwrap_err().to_string()
}

#[test]
fn settings() {
    let strategies =
        [("list", Strategy::List), ("tree", Strategy::Tree), ("frag", Strategy::Frag), ("auto", Strategy::Auto)];
    assert_eq!(named(&strategies), "`what` is no strategy; write list, tree, frag, auto");
    let engines = [("i32", Engine::I32), ("i16", Engine::I16)];
    assert_eq!(named(&engines), "`what` is no engine; write i32, i16");
    let roundings = [("hot-pixels", Rounding::HotPixels), ("pairwise", Rounding::Pairwise)];
    assert_eq!(named(&roundings), "`what` is no rounding; write hot-pixels, pairwise");
    let shapes = [("subject", ShapeType::Subject), ("clip", ShapeType::Clip)];
    assert_eq!(named(&shapes), "`what` is no shape; write subject, clip, S, C");
    assert_eq!(["S", "C"].map(str::parse), [Ok(ShapeType::Subject), Ok(ShapeType::Clip)]);
    assert!("s".parse::<ShapeType>().is_err());
}

#[test]
fn precisions() {
    let precisions = [
        ("absolute", Precision::ABSOLUTE),
        ("high", Precision::HIGH),
        ("medium-high", Precision::MEDIUM_HIGH),
        ("medium", Precision::MEDIUM),
        ("medium-low", Precision::MEDIUM_LOW),
        ("low", Precision::LOW),
        ("3,1", Precision { start: 3, progression: 1 }),
        ("999999999,0", Precision { start: 999_999_999, progression: 0 }),
    ];
    let names = "absolute, high, medium-high, medium, medium-low, low, START,STEP (two whole numbers)";
    for (name, precision) in precisions {
        assert_eq!(precision.to_string(), name);
        assert_eq!(name.parse(), Ok(precision));
        assert_eq!(format!("{precision:>20}"), format!("{name:>20}"));
    }
    assert_eq!("0,1".parse(), Ok(Precision::HIGH));
    for precision in [1_000_000_000, usize::MAX].map(|start| Precision { start, progression: usize::MAX }) {
        assert_eq!(precision.to_string().parse(), Ok(precision));
        assert_eq!(format!("{precision:>50}"), format!("{:>50}", precision.to_string()));
    }
    assert_eq!("000000003,01".parse(), Ok(Precision { start: 3, progression: 1 }));
    for word in
        ["", "what", "High", "high ", "3", "3,", ",1", "3,1,1", "+3,1", "3,-1", "3, 1", "18446744073709551616,1"]
    {
        let refused = word.parse::<Precision>().unwrap_err();
        assert_eq!(refused.to_string(), format!("`{word}` is no precision; write {names}"));
    }
}

#[test]
fn fill_rules() {
    let fill_rules = [
        ("evenodd", FillRule::EvenOdd),
        ("nonzero", FillRule::NonZero),
        ("positive", FillRule::Positive),
        ("negative", FillRule::Negative),
    ];
    assert_eq!(named(&fill_rules), "`what` is no fill rule; write evenodd, nonzero, positive, negative");
}

#[test]
fn overlay_rules() {
    let rules = [
        ("subject", OverlayRule::Subject),
        ("clip", OverlayRule::Clip),
        ("intersect", OverlayRule::Intersect),
        ("union", OverlayRule::Union),
        ("difference", OverlayRule::Difference),
        ("inverse-difference", OverlayRule::InverseDifference),
        ("xor", OverlayRule::Xor),
    ];
    let names = "subject, clip, intersect, union, difference, inverse-difference, xor, table:N (N from 0 to 15)";
    assert_eq!(named(&rules), format!("`what` is no overlay rule; write {names}"));
    for bits in 0..16 {
        let rule = OverlayRule::Table(RuleTable::new(bits).unwrap());
        assert_eq!(rule.to_string(), format!("table:{bits}"));
        assert_eq!(rule.to_string().parse(), Ok(rule));
        assert_eq!(format!("{rule:>9}|"), format!("{:>9}|", format!("table:{bits}")));
    }
    for word in ["table:", "table:16", "table:00", "table:06", "table:+6", "table: 6", "table:-1", "table:256", "all"] {
        assert!(word.parse::<OverlayRule>().is_err(), "{word}");
    }
}
