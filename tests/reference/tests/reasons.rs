//! What decided a shift: on the bench table by hand, and over random formulas
//! that every quantity comes often.

mod bench;

use bench::*;
use reference::compose::*;
use reference::generate::{case_of, Kind, Random};
use reference::{item_places, printed_reasons, why, Explanation, Quantity};
use std::collections::BTreeMap;

fn told(style: u8, formula: &[u8], place: usize) -> String {
    printed_reasons(&why(style, &bench_table(), &[], formula, place))
}

const NO_ITEM: &str = "refused 9 at 0\n";

#[test]
fn worked_by_hand() {
    let pair = atom(0, 0, [&F, &A, &A]);
    assert_eq!(told(TEXT, &pair, 0), "up sigma 370\ndown sigma 250\n");
    assert_eq!(told(CRAMPED_TEXT, &pair, 0), "up psi 344\ndown psi 246\n");
    let over = fraction(0, &A, &A);
    assert_eq!(told(TEXT, &over, 0), "up sigma 400\ndown sigma 350\n");
    // The bar's top is at 270, and one rule is to be free above it.
    let low = fraction(0, &F, &A);
    assert_eq!(told(TEXT, &low, 0), "up clearance 510\ndown sigma 350\n");
    // A list of height 430 is no plain symbol: 430 - 380 is less than σ14.
    let boxed = atom(0, 0, [&list(&atom(0, 0, [&A, EMPTY, EMPTY])), &A, EMPTY]);
    assert_eq!(told(TEXT, &boxed, 0), "up sigma 370\n");
    // Its depth 0 and the drop 50 are less than σ16; so is 430 - 344.
    let sub = atom(0, 0, [&A, EMPTY, &A]);
    assert_eq!(told(TEXT, &sub, 0), "down sigma 150\n");
    // 700 - 344.
    let tall = atom(0, 0, [&A, EMPTY, &F]);
    assert_eq!(told(TEXT, &tall, 0), "down xheight 356\n");
}

#[test]
fn only_what_is_set_by_these_rules() {
    let plain = atom(0, 0, [&A, EMPTY, EMPTY]);
    let raised = atom(0, 0, [&A, &A, EMPTY]);
    assert_eq!(told(TEXT, &plain, 0), NO_ITEM);
    assert_eq!(told(TEXT, &raised, 1), NO_ITEM);
    assert_eq!(told(TEXT, &raised, raised.len()), NO_ITEM);
    let limits = atom(1, 1, [&SUM, &A, &A]);
    assert_eq!(told(TEXT, &limits, 0), NO_ITEM);
    let beside = atom(1, 2, [&SUM, &A, &A]);
    assert_ne!(told(TEXT, &beside, 0), NO_ITEM);
    let empty_script = atom(0, 0, [&A, &list(&[]), EMPTY]);
    assert_eq!(told(TEXT, &empty_script, 0), "up sigma 370\n");
    // ST holds behind it, and of a C4 one list is taken.
    let styled = [style(CRAMPED_TEXT), raised.clone()].concat();
    assert_eq!(told(TEXT, &styled, 0), NO_ITEM);
    assert_eq!(told(TEXT, &styled, 3), "up sigma 290\n");
    let (given, none) = (list(&raised), list(&[]));
    let chosen = choice([&given, &given, &none, &none]);
    let (display, text) = (5, 5 + raised.len() + 3);
    assert_eq!(told(TEXT, &chosen, display), NO_ITEM);
    assert_eq!(told(TEXT, &chosen, text), "up sigma 370\n");
    assert_eq!(told(DISPLAY, &chosen, display), "up sigma 420\n");
}

#[test]
fn every_quantity_comes_often() {
    let mut random = Random::new(7);
    let mut met: BTreeMap<&str, usize> = BTreeMap::new();
    for kind in [
        Kind::Plain,
        Kind::Choice,
        Kind::Root,
        Kind::Fence,
        Kind::Client,
    ] {
        for _ in 0..300 {
            let case = case_of(kind, &mut random);
            for place in item_places(&case.formula).into_iter().take(12) {
                let Explanation {
                    number, up, down, ..
                } = why(case.style, &case.table, &case.client, &case.formula, place);
                let names = [("up", up), ("down", down)]
                    .into_iter()
                    .filter_map(|(way, by)| {
                        let by = by?.by;
                        Some(if way == "up" {
                            up_name(by)
                        } else {
                            down_name(by)
                        })
                    });
                names.for_each(|name| *met.entry(name).or_default() += 1);
                if number == 9 {
                    *met.entry("none").or_default() += 1;
                }
            }
        }
    }
    for name in UP.iter().chain(&DOWN).filter(|name| !name.is_empty()) {
        assert!(
            met.get(name).is_some_and(|times| *times > 10),
            "{name}: {met:?}"
        );
    }
    assert!(met["none"] > 100, "{met:?}");
}

/// By the quantity's number; a superscript's shift has no gap.
const UP: [&str; 6] = [
    "up drop",
    "up sigma",
    "up xheight",
    "",
    "up psi",
    "up clearance",
];
const DOWN: [&str; 6] = [
    "down drop",
    "down sigma",
    "down xheight",
    "down gap",
    "down psi",
    "down clearance",
];

fn up_name(by: Quantity) -> &'static str {
    UP[by as usize - 1]
}

fn down_name(by: Quantity) -> &'static str {
    DOWN[by as usize - 1]
}
