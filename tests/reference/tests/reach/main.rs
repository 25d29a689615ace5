//! What the generated formulas hold, looked at on those that are accepted.

mod clients;
mod look;

use clients::SeenClients;
use reference::generate::{case, Random};
use reference::measure;

const CASES: usize = 20_000;

fn seen_in_cases(seed: u64) -> Seen {
    let mut seen = Seen::default();
    let mut random = Random::new(seed);
    for _ in 0..CASES {
        let case = case(&mut random);
        if measure(case.style, &case.table, &case.client, &case.formula).number == 0 {
            seen.look_at(&case);
        }
    }
    seen
}

#[test]
fn all_forms_are_set() {
    let seen = seen_in_cases(11);
    let often = seen.taken.iter().chain(&seen.nested).chain([
        &seen.first_binary,
        &seen.last_binary,
        &seen.style_within,
        &seen.absent_aside,
    ]);
    assert!(often.min() > Some(&(CASES / 100)), "{seen:?}");
    let deepest = seen.deepest.min(seen.deepest_grown);
    assert!(deepest > CASES / 2000, "{seen:?}");
}

#[test]
fn fences_of_all_forms_are_set() {
    let seen = seen_in_cases(13).fences;
    let often = seen.styles.iter().chain(seen.blanks.as_flattened()).chain([
        &seen.absent_sides,
        &seen.first_binary,
        &seen.last_binary,
        &seen.without_atoms,
    ]);
    let often = often
        .chain(seen.scripts.as_flattened())
        .chain(seen.last_punct.as_flattened());
    assert!(often.min() > Some(&(CASES / 100)), "{seen:?}");
}

#[test]
fn clients_symbols_of_all_forms_are_set() {
    let seen = seen_in_cases(15).clients;
    let fields = seen.fields.as_flattened().iter();
    let often = fields.chain(&seen.signs).chain(&seen.sides);
    assert!(often.min() > Some(&(CASES / 100)), "{seen:?}");
    let enlarged = [seen.leads_to_ours, seen.after_ours, seen.after_clients];
    let at_times = enlarged.as_flattened().iter();
    let at_times = at_times.chain(&seen.crossings).chain([&seen.leads_nowhere]);
    assert!(at_times.min() > Some(&(CASES / 1000)), "{seen:?}");
}

/// How often each came.
#[derive(Debug, Default)]
struct Seen {
    /// A list taken for D, T, S, SS that is not empty.
    taken: [usize; 4],
    /// The same in a list that is taken itself.
    nested: [usize; 4],
    /// A taken list at the greatest depth.
    deepest: usize,
    /// A list at the greatest depth with nothing but fences and roots around,
    /// each the first field of the next.
    deepest_grown: usize,
    /// A Bin with which a taken list begins.
    first_binary: usize,
    /// A Bin with which a taken list ends, something behind it.
    last_binary: usize,
    /// A style in a taken list, something behind it.
    style_within: usize,
    /// A symbol at no size of the table, in a list that is not taken.
    absent_aside: usize,
    fences: SeenFences,
    clients: SeenClients,
}

/// The same of fences.
#[derive(Debug, Default)]
struct SeenFences {
    /// By the style in which the list starts.
    styles: [usize; 8],
    /// By whether the left side is blank, and whether the right one is.
    blanks: [[usize; 2]; 2],
    /// A blank side with a symbol that the table lacks.
    absent_sides: usize,
    /// By whether there is a superscript, and whether there is a subscript.
    scripts: [[usize; 2]; 2],
    /// A list whose first atom is a Bin.
    first_binary: usize,
    /// A list whose last atom is one.
    last_binary: usize,
    /// A list that ends with a Punct, by whether it starts in a script style,
    /// and whether the Punct is in one.
    last_punct: [[usize; 2]; 2],
    without_atoms: usize,
}
