//! Typed formulas, sentence by sentence of request 10.

use reference::compose::*;
use reference::eqn::{read, write};
use reference::Converted;

const ORD: u8 = 0;
const OP: u8 = 1;
const BIN: u8 = 2;
const FILLING: u8 = 0xA5;

/// A few words; x, i, j and 2 are Ord. `plus` is a second name for the symbol
/// of `+`, and `sum` a second name for that of `Sum`, which is of another class.
const NAMES: [(&str, u8, u8, u8); 10] = [
    ("x", 1, b'x', ORD),
    ("i", 1, b'i', ORD),
    ("j", 1, b'j', ORD),
    ("2", 0, b'2', ORD),
    ("+", 0, b'+', BIN),
    ("plus", 0, b'+', BIN),
    ("Sum", 3, 80, ORD),
    ("sum", 3, 80, OP),
    ("subs", 2, 7, ORD),
    ("n", 1, b'n', ORD),
];

fn name(word: &str, family: u8, code: u8, class: u8) -> NameParts {
    NameParts {
        word: word.as_bytes().to_vec(),
        family,
        code,
        class,
    }
}

fn names() -> Vec<u8> {
    name_table(&NAMES.map(|(word, family, code, class)| name(word, family, code, class)))
}

/// What a text gives, or number and place of its refusal.
fn typed(text: impl AsRef<[u8]>) -> Result<Vec<u8>, (u8, u64)> {
    typed_with(&names(), text.as_ref())
}

fn typed_with(names: &[u8], text: &[u8]) -> Result<Vec<u8>, (u8, u64)> {
    result(9 * text.len(), |room| read(names, text, room))
}

fn written(formula: &[u8]) -> Result<String, (u8, u64)> {
    written_with(&names(), formula)
}

fn written_with(names: &[u8], formula: &[u8]) -> Result<String, (u8, u64)> {
    let text = result(9 * formula.len(), |room| write(names, formula, room));
    text.map(|text| String::from_utf8(text).unwrap())
}

/// The bytes past the result, and on a refusal all, stay.
fn result(room: usize, call: impl FnOnce(&mut [u8]) -> Converted) -> Result<Vec<u8>, (u8, u64)> {
    let mut bytes = vec![FILLING; room];
    let answer = call(&mut bytes);
    let rest = bytes.split_off(answer.bytes as usize);
    assert!(rest.iter().all(|byte| *byte == FILLING));
    match answer.number {
        0 => Ok(bytes),
        number => Err((number, answer.place)),
    }
}

const X: [u8; 3] = [1, 1, b'x'];
const I: [u8; 3] = [1, 1, b'i'];
const J: [u8; 3] = [1, 1, b'j'];
const TWO: [u8; 3] = [1, 0, b'2'];
const PLUS: [u8; 3] = [1, 0, b'+'];
const SUM: [u8; 3] = [1, 3, 80];

fn ord(nucleus: &[u8]) -> Vec<u8> {
    atom(ORD, 0, [nucleus, EMPTY, EMPTY])
}

#[test]
fn both_scripts_go_to_one_atom() {
    let formula = b"AT\0\0\x01\x01x\x01\x002\x01\x01i";
    assert_eq!(typed("x sub i sup 2").unwrap(), formula);
    assert_eq!(written(formula).unwrap(), "x sub i sup 2");
}

#[test]
fn blanks_only_separate() {
    let formula = typed("x sub { i j }").unwrap();
    for text in ["x sub{i j}", "\n\t x\tsub\n\n{i\tj} ", "x sub {i j\n}"] {
        assert_eq!(typed(text).unwrap(), formula);
    }
    assert_eq!(typed("xsub i"), Err((10, 0)));
    for other in [0, 8, 11, 13, 31, 127, 128, 160, 255] {
        assert_eq!(typed([b'x', other, b'i']), Err((11, 1)));
    }
}

#[test]
fn scripts_bind_to_one_word_or_group() {
    let scripted = atom(ORD, 0, [&X, EMPTY, &I]);
    assert_eq!(
        typed("x sub i j").unwrap(),
        [scripted.clone(), ord(&J)].concat()
    );
    let group = list(&[ord(&I), ord(&J)].concat());
    assert_eq!(
        typed("x sup {i j}").unwrap(),
        atom(ORD, 0, [&X, &group, EMPTY])
    );
    assert_eq!(
        typed("{i j} sub x").unwrap(),
        atom(ORD, 0, [&group, EMPTY, &X])
    );
}

#[test]
fn scripts_bind_before_over() {
    let scripted = list(&atom(ORD, 0, [&X, EMPTY, &I]));
    assert_eq!(
        typed("x sub i over 2").unwrap(),
        fraction(0, &scripted, &TWO)
    );
    assert_eq!(
        typed("2 over x sub i").unwrap(),
        fraction(0, &TWO, &scripted)
    );
}

#[test]
fn over_groups_to_the_left() {
    let left = fraction(0, &X, &I);
    assert_eq!(
        typed("x over i over j").unwrap(),
        fraction(0, &list(&left), &J)
    );
    assert_eq!(
        typed("x over {i over j}").unwrap(),
        fraction(0, &X, &list(&fraction(0, &I, &J)))
    );
}

#[test]
fn over_binds_before_from_and_to() {
    let quotients = [
        list(&fraction(0, &X, &TWO)),
        list(&fraction(0, &J, &TWO)),
        list(&fraction(0, &I, &TWO)),
    ];
    let [nucleus, superscript, subscript] = &quotients;
    assert_eq!(
        typed("x over 2 from i over 2 to j over 2").unwrap(),
        atom(OP, 1, [nucleus, superscript, subscript])
    );
}

#[test]
fn side_by_side_comes_last() {
    let formula = [ord(&X), fraction(0, &I, &J), ord(&TWO)].concat();
    assert_eq!(typed("x i over j 2").unwrap(), formula);
    let limited = atom(OP, 1, [&X, &J, &I]);
    assert_eq!(
        typed("x from i to j 2").unwrap(),
        [limited, ord(&TWO)].concat()
    );
}

#[test]
fn each_comes_once_and_in_order() {
    for (text, place) in [
        ("x sup i sub j", 8),
        ("x sub i sub j", 8),
        ("x sup i sup j", 8),
        ("x to i from j", 7),
        ("x from i from j", 9),
        ("x to i to j", 7),
        ("x from i to j to 2", 14),
        ("x from i to j from 2", 14),
        ("x sub i sup j sub 2", 14),
    ] {
        assert_eq!(typed(text), Err((11, place)), "{text}");
    }
    // Behind `over`, `from` and `to` the scripts begin anew.
    assert!(typed("x sub i sup j over x sub i sup j from x sub i to x sub i").is_ok());
}

#[test]
fn from_and_to_make_an_operator_with_limits() {
    assert_eq!(
        typed("sum from i to 2").unwrap(),
        atom(OP, 1, [&SUM, &TWO, &I])
    );
    assert_eq!(typed("+ from i").unwrap(), atom(OP, 1, [&PLUS, EMPTY, &I]));
    assert_eq!(
        typed("{ } to i").unwrap(),
        atom(OP, 1, [&list(&[]), &I, EMPTY])
    );
    let scripted = list(&atom(ORD, 0, [&X, EMPTY, &I]));
    assert_eq!(
        typed("x sub i from x sub i").unwrap(),
        atom(OP, 1, [&scripted, EMPTY, &scripted])
    );
}

#[test]
fn another_class_is_the_words_or_ord() {
    assert_eq!(typed("+").unwrap(), atom(BIN, 0, [&PLUS, EMPTY, EMPTY]));
    assert_eq!(typed("sum sub i").unwrap(), atom(OP, 0, [&SUM, EMPTY, &I]));
    let group = list(&atom(BIN, 0, [&PLUS, EMPTY, EMPTY]));
    assert_eq!(typed("{ + }").unwrap(), ord(&group));
}

#[test]
fn an_operand_is_a_symbol_or_a_list() {
    assert_eq!(typed("+ over x").unwrap(), fraction(0, &PLUS, &X));
    assert_eq!(
        typed("{ x } over { { x } }").unwrap(),
        fraction(0, &list(&ord(&X)), &list(&ord(&list(&ord(&X)))))
    );
    // A group's items are those inside, whatever they are.
    let quotient = list(&fraction(0, &X, &I));
    assert_eq!(
        typed("{x over i} sub j").unwrap(),
        atom(ORD, 0, [&quotient, EMPTY, &J])
    );
    assert_eq!(typed("{x over i} over j"), typed("x over i over j"));
}

#[test]
fn text_and_braces_may_be_empty() {
    assert_eq!(typed("").unwrap(), []);
    assert_eq!(typed(" \n\t").unwrap(), []);
    assert_eq!(typed("{}").unwrap(), ord(&list(&[])));
    assert_eq!(
        typed("x sub {} sup {}").unwrap(),
        atom(ORD, 0, [&X, &list(&[]), &list(&[])])
    );
    assert_eq!(
        typed("{} over {}").unwrap(),
        fraction(0, &list(&[]), &list(&[]))
    );
    assert_eq!(written(&[]).unwrap(), "");
    assert_eq!(typed_with(&[], b"{ }").unwrap(), ord(&list(&[])));
}

#[test]
fn a_word_is_a_longest_run() {
    assert_eq!(
        typed("subs").unwrap(),
        atom(ORD, 0, [&[1, 2, 7], EMPTY, EMPTY])
    );
    assert_eq!(typed("Sub"), Err((10, 0)));
    assert_eq!(typed("x subx i"), Err((10, 2)));
    assert_eq!(typed("xi"), Err((10, 0)));
    assert_eq!(typed("x{i}x").unwrap(), typed("x {i} x").unwrap());
    let edges = name_table(&[name("!|~z", 0, 1, 0)]);
    assert_eq!(typed_with(&edges, b"!|~z").unwrap(), ord(&[1, 0, 1]));
}

#[test]
fn names_have_1_to_32_bytes() {
    let long = "n".repeat(32);
    let good = name_table(&[name(&long, 15, 255, 7)]);
    assert_eq!(
        typed_with(&good, long.as_bytes()).unwrap(),
        atom(7, 0, [&[1, 15, 255], EMPTY, EMPTY])
    );
    assert_eq!(typed_with(&good, &[b'n'; 33]), Err((10, 0)));
    let table = |word: &str| [good.clone(), name(word, 0, 0, 0).bytes()].concat();
    for word in ["", &"m".repeat(33), &"m".repeat(255)] {
        assert_eq!(typed_with(&table(word), b""), Err((20, 36)));
    }
}

#[test]
fn names_have_bytes_of_words() {
    for byte in 0..=255 {
        let word = [b'a', byte, b'b'];
        let record = [&[3], &word[..], &[0, 0, 0]].concat();
        let is_good = (33..=126).contains(&byte) && !b"{}".contains(&byte);
        let expected = if is_good {
            Ok(Vec::new())
        } else {
            Err((20, 0))
        };
        assert_eq!(typed_with(&record, b""), expected, "{byte}");
    }
}

#[test]
fn families_codes_and_classes_are_those_of_a_formula() {
    for (family, class, is_good) in [(15, 7, true), (16, 7, false), (15, 8, false)] {
        let record = name("a", family, 255, class).bytes();
        assert_eq!(typed_with(&record, b"").is_ok(), is_good);
    }
}

#[test]
fn a_table_is_refused_at_its_first_bad_record() {
    let good = [name("x", 1, 2, 3), name("yy", 1, 2, 3)];
    let with = |bad: NameParts| [&name_table(&good)[..], &bad.bytes(), &[0]].concat();
    for keyword in ["sub", "sup", "over", "from", "to"] {
        assert_eq!(
            typed_with(&with(name(keyword, 0, 0, 0)), b"?"),
            Err((20, 11))
        );
    }
    // Of a pair the later.
    assert_eq!(typed_with(&with(name("x", 9, 9, 0)), b"?"), Err((20, 11)));
    assert_eq!(typed_with(&with(name("z", 0, 0, 0)), b"?"), Err((20, 16)));
    let table = name_table(&good);
    for end in 0..table.len() {
        let place = if end < 5 { 0 } else { 5 };
        let expected = match end {
            0 | 5 => Ok(Vec::new()),
            _ => Err((20, place)),
        };
        assert_eq!(typed_with(&table[..end], b""), expected, "{end}");
    }
}

#[test]
fn the_first_name_is_written() {
    assert_eq!(
        written(&typed("plus over plus").unwrap()).unwrap(),
        "+ over +"
    );
    assert_eq!(written(&typed("x plus").unwrap()).unwrap(), "x +");
    // With the class where the atom takes it from the word, and else without.
    assert_eq!(
        written(&typed("sum sub sum from sum").unwrap()).unwrap(),
        "{ sum sub Sum } from Sum"
    );
    assert_eq!(written(&typed("Sum sum").unwrap()).unwrap(), "Sum sum");
    assert_eq!(
        written(&typed("sum from i").unwrap()).unwrap(),
        "Sum from i"
    );
}

#[test]
fn each_list_is_in_braces() {
    for (text, again) in [
        ("x over i over j", "{ x over i } over j"),
        ("x sub i over{}", "{ x sub i } over { }"),
        ("{x}to{{}}", "{ x } to { { } }"),
        (
            "x over 2 from i to j over 2",
            "{ x over 2 } from i to { j over 2 }",
        ),
        ("{x}{i}{}j", "{ x } { i } { } j"),
    ] {
        let formula = typed(text).unwrap();
        assert_eq!(written(&formula).unwrap(), again);
        assert_eq!(typed(again).unwrap(), formula);
    }
}

#[test]
fn a_formula_of_no_text_is_refused() {
    let not_made = [
        underline([&X, EMPTY, EMPTY]),
        kern(0),
        style(0),
        choice([&list(&[]); 4]),
        fraction(1, &X, &X),
        fraction(0, EMPTY, &X),
        fraction(0, &X, EMPTY),
        ord(EMPTY),
        atom(ORD, 0, [EMPTY, &X, EMPTY]),
        atom(BIN, 0, [&list(&[]), EMPTY, EMPTY]),
        atom(OP, 0, [&list(&[]), EMPTY, &X]),
        atom(OP, 2, [&SUM, &X, &X]),
        atom(OP, 1, [&SUM, EMPTY, EMPTY]),
        atom(OP, 1, [EMPTY, &X, &X]),
        atom(ORD, 1, [&X, &X, &X]),
        // A nucleus of another class than the word's.
        atom(BIN, 0, [&X, EMPTY, EMPTY]),
        // Symbols without a name.
        ord(&[1, 1, b'y']),
        atom(ORD, 0, [&X, &[1, 1, b'y'], EMPTY]),
        fraction(0, &X, &[1, 0, b'x']),
        atom(OP, 1, [&X, &[1, 1, b'y'], EMPTY]),
        // What can't be read.
        b"A".to_vec(),
        ord(&X)[..8].to_vec(),
        ord(&long_list(9, &ord(&X))),
        ord(&[2, 1, 0]),
    ];
    for formula in not_made {
        assert_eq!(written(&formula), Err((21, 0)), "{formula:?}");
        assert_eq!(written(&ord(&list(&formula))), Err((21, 0)), "{formula:?}");
    }
}

#[test]
fn an_unknown_word_comes_before_the_grammar() {
    assert_eq!(typed("sub sub } \x01 { y"), Err((10, 14)));
    assert_eq!(typed("sub sub } \x01 {"), Err((11, 0)));
    assert_eq!(typed("x y z"), Err((10, 2)));
    assert_eq!(typed(b"x \xffy\xff"), Err((10, 3)));
}

#[test]
fn the_grammar_fails_at_the_first_token_that_goes_nowhere() {
    for (text, place) in [
        ("sub", 0),
        (" over x", 1),
        ("x }", 2),
        ("{ x } }", 6),
        ("{ sub x }", 2),
        ("x sub }", 6),
        ("{ x sub }", 8),
        ("x sub sup i", 6),
        ("x over over i", 7),
        ("x over", 6),
        ("x over  ", 8),
        ("{", 1),
        ("{ { x }", 7),
        ("x from", 6),
    ] {
        assert_eq!(typed(text), Err((11, place)), "{text}");
    }
}

#[test]
fn lists_go_down_to_depth_32() {
    let braces = |count| ["{".repeat(count), "}".repeat(count)].concat();
    let overs = |count| format!("x{}", " over x".repeat(count));
    assert!(typed(braces(31)).is_ok());
    assert_eq!(typed(braces(32)), Err((12, 0)));
    assert!(typed(overs(32)).is_ok());
    assert_eq!(typed(overs(33)), Err((12, 0)));
    // Scripts and limits each make a list more.
    assert!(typed(format!("x sub i{}", " over x".repeat(31))).is_ok());
    assert_eq!(
        typed(format!("x sub i{}", " over x".repeat(32))),
        Err((12, 0))
    );
    assert!(typed(format!("{} from x", overs(31))).is_ok());
    assert_eq!(typed(format!("{} from x", overs(32))), Err((12, 0)));
    let deepest = typed(braces(31)).unwrap();
    assert_eq!(
        written(&deepest).unwrap(),
        braces(31).replace("{", "{ ").replace("}", "} ").trim()
    );
    assert_eq!(written(&ord(&list(&deepest))), Err((21, 0)));
}

#[test]
fn far_deeper_texts_are_refused_too() {
    let open = "{".repeat(100_000);
    let close = "}".repeat(100_000);
    assert_eq!(typed([&open[..], &close].concat()), Err((12, 0)));
    assert_eq!(typed([&open[1..], &close].concat()), Err((11, 199_998)));
    assert_eq!(typed([&open[..], &close[1..]].concat()), Err((11, 199_999)));
    assert_eq!(
        typed(format!("x{}", " over x".repeat(100_000))),
        Err((12, 0))
    );
}

#[test]
fn a_result_has_up_to_131_072_bytes() {
    // 9 bytes for each x, 11 for one with a script.
    let row = |scripted: usize, plain: usize| "x sub i ".repeat(scripted) + &"x ".repeat(plain);
    let longest = typed(row(1, 14_562)).unwrap();
    assert_eq!(longest.len(), 131_069);
    let exact = typed(row(7, 14_555)).unwrap();
    assert_eq!(exact.len(), 131_072);
    assert_eq!(typed(row(3, 14_560)), Err((12, 0)));
    assert_eq!(written(&exact).unwrap(), row(7, 14_555).trim());
    let past = [&exact[..], &ord(&X)].concat();
    assert_eq!(written(&past), Err((21, 0)));
}

#[test]
fn lists_of_more_than_65_535_bytes_have_kind_3() {
    // 65,535 and 65,538 bytes of items.
    let row = |scripted: usize, plain: usize| "x sub i ".repeat(scripted) + &"x ".repeat(plain);
    let [short, long] = [row(3, 7_278), row(0, 7_282)];
    assert_eq!(typed(&short).unwrap().len(), 65_535);
    let in_braces = |row: &str| typed(format!("{{ {row}}}")).unwrap();
    assert_eq!(in_braces(&short)[4..7], [2, 255, 255]);
    assert_eq!(in_braces(&long)[4..9], [3, 2, 0, 1, 0]);
    for formula in [in_braces(&short), in_braces(&long)] {
        assert_eq!(typed(written(&formula).unwrap()).unwrap(), formula);
    }
}

#[test]
fn refusals_come_in_order() {
    let read = |names: &[u8], text: &[u8], room| {
        let answer = read(names, text, &mut vec![0; room]);
        (answer.number, answer.place)
    };
    let deep = "{".repeat(40) + &"}".repeat(40);
    assert_eq!(read(&[0], b"y sub", 0), (20, 0));
    assert_eq!(read(&names(), b"x sub sub y", 0), (10, 10));
    assert_eq!(read(&names(), (deep.clone() + "}").as_bytes(), 0), (11, 80));
    assert_eq!(read(&names(), deep.as_bytes(), 0), (12, 0));
    assert_eq!(read(&names(), b"x", 8), (13, 0));
    assert_eq!(read(&names(), b"x", 9), (0, 0));

    let write = |names: &[u8], formula: &[u8], room| {
        let answer = write(names, formula, &mut vec![0; room]);
        (answer.number, answer.place)
    };
    assert_eq!(write(&[0], b"?", 0), (20, 0));
    assert_eq!(write(&names(), b"?", 0), (21, 0));
    assert_eq!(write(&names(), &fraction(0, &X, &X), 7), (13, 0));
    assert_eq!(write(&names(), &fraction(0, &X, &X), 8), (0, 0));
}
