//! Calls through the safe functions, over the bench table.

use torfianka::{dvi, eqn, measure, nodes, set, Font, Measured, Refusal, NODE_BYTES};

const TABLE: &[u8] = include_bytes!("../../../data/bench.tab");
/// The a of the bench table at text size, wider.
const WIDE_A: &[u8] = b"CH\x00\x01a\x00\x00\xbc\x02\0\0\xae\x01\0\0\0\0\0\0\0\0\0\0";
const DISPLAY: u8 = 0;
const TEXT: u8 = 2;
const UNDERLINED: &[u8] = b"UN\x01\x01a\x00\x00";
const FILLING: u8 = 0xA5;

fn font() -> Font<'static> {
    Font::new(TABLE)
}

#[test]
fn an_empty_formula_has_no_nodes() {
    let nothing = Measured {
        width: 0,
        height: 0,
        depth: 0,
        count: 0,
    };
    assert_eq!(measure(TEXT, &mut font(), &[]), Ok(nothing));
    assert_eq!(set(TEXT, &mut font(), &[], &mut []), Ok(nothing));
}

#[test]
fn an_underlined_letter_has_the_bytes_of_the_papers() {
    let mut buffer = [FILLING; 2 * NODE_BYTES + 1];
    let measured = set(TEXT, &mut font(), UNDERLINED, &mut buffer);
    assert_eq!(measured, measure(TEXT, &mut font(), UNDERLINED));
    assert_eq!(
        buffer,
        *b"GL\0\0\0\0\0\0\0\0\0\x01a\0\0\0\0\0\
           RU\0\0\0\0\x60\xff\xff\xff\xf4\x01\0\0\x28\0\0\0\xa5"
    );
}

#[test]
fn a_sum_takes_its_successor_and_limits_in_display_style() {
    let formula = b"AT\x01\x00\x01\x03\x50\x00\x01\x01a";
    let mut buffer = [0; 2 * NODE_BYTES];
    let measured = set(DISPLAY, &mut font(), formula, &mut buffer).unwrap();
    let sizes = (measured.width, measured.height, measured.depth);
    assert_eq!(sizes, (1400, 950, 1150));
    let lines: Vec<String> = nodes(&buffer).map(|node| node.to_string()).collect();
    assert_eq!(lines, ["glyph 0 950 0 3 88", "glyph 450 -1050 1 1 97"]);
}

#[test]
fn a_clients_symbol_goes_before_ours() {
    let width = |client| measure(TEXT, &mut Font::with_client(TABLE, client), UNDERLINED);
    assert_eq!(width(WIDE_A).unwrap().width, 700);
    assert_eq!(width(&[]), measure(TEXT, &mut font(), UNDERLINED));
    let cut = width(&WIDE_A[1..]).unwrap_err();
    assert_eq!((cut.number, cut.place), (8, 0));
}

#[test]
fn a_font_serves_many_calls() {
    let mut font = Font::with_client(TABLE, WIDE_A);
    let twice = [UNDERLINED, UNDERLINED].concat();
    let absent = b"UN\x01\x01b\x00\x00";
    for _ in 0..2 {
        assert_eq!(measure(TEXT, &mut font, UNDERLINED).unwrap().width, 700);
        assert_eq!(measure(8, &mut font, UNDERLINED).unwrap_err().number, 1);
        assert_eq!(measure(TEXT, &mut font, absent).unwrap_err().number, 5);
        let mut buffer = [0; 4 * NODE_BYTES];
        let measured = set(TEXT, &mut font, &twice, &mut buffer).unwrap();
        assert_eq!((measured.width, measured.count), (1400, 4));
    }
    let mut copy = font.clone();
    let [first, second] = [&mut font, &mut copy].map(|font| measure(TEXT, font, &twice));
    assert_eq!(first, second);
}

#[test]
fn refusals_have_number_and_place() {
    let refused = |number, place| Err(Refusal { number, place });
    let absent = b"UN\x01\x01b\x00\x00";
    assert_eq!(measure(8, &mut font(), UNDERLINED), refused(1, 0));
    assert_eq!(
        measure(TEXT, &mut Font::new(&TABLE[1..]), UNDERLINED),
        refused(2, 0)
    );
    assert_eq!(measure(TEXT, &mut font(), &UNDERLINED[..6]), refused(3, 0));
    assert_eq!(measure(TEXT, &mut font(), absent), refused(5, 2));
    assert_eq!(refused(5, 2).unwrap_err().to_string(), "refused 5 at 2");
}

#[test]
fn a_short_buffer_stays_as_it_is() {
    let mut buffer = [FILLING; 2 * NODE_BYTES - 1];
    let answer = set(TEXT, &mut font(), UNDERLINED, &mut buffer);
    assert_eq!(answer.unwrap_err().number, 7);
    assert_eq!(buffer, [FILLING; 2 * NODE_BYTES - 1]);
}

#[test]
fn an_underlined_letter_is_the_body_of_a_page() {
    let mut nodes = [0; 2 * NODE_BYTES];
    set(TEXT, &mut font(), UNDERLINED, &mut nodes).unwrap();
    let mut body = [FILLING; 37];
    assert_eq!(dvi::write(&nodes, &mut body), Ok(36));
    assert_eq!(
        body,
        *b"\xac\x8d\x92\0\0\0\0\xa0\0\0\0\0\x80a\x8e\
           \x8d\x92\0\0\0\0\xa0\0\0\0\xa0\x84\0\0\0\x28\0\0\x01\xf4\x8e\xa5"
    );
    let mut back = [FILLING; 2 * NODE_BYTES + 1];
    assert_eq!(dvi::read(&body[..36], &mut back), Ok(36));
    assert_eq!(back[..36], nodes);
    assert_eq!(back[36], FILLING);
}

#[test]
fn refusals_of_a_body_change_nothing() {
    let refused = |number| Err(Refusal { number, place: 0 });
    let mut nodes = [0; NODE_BYTES];
    set(TEXT, &mut font(), b"AT\0\0\x01\x01a\0\0", &mut nodes).unwrap();
    let mut body = [FILLING; 15];
    assert_eq!(dvi::write(&nodes[..17], &mut body), refused(16));
    assert_eq!(dvi::write(&nodes, &mut body[..14]), refused(18));
    assert_eq!(body, [FILLING; 15]);
    assert_eq!(dvi::write(&nodes, &mut body), Ok(15));
    let mut back = [FILLING; NODE_BYTES];
    assert_eq!(dvi::read(&body[..14], &mut back), refused(17));
    assert_eq!(dvi::read(&body, &mut back[..17]), refused(18));
    assert_eq!(back, [FILLING; NODE_BYTES]);
}

/// x and i of family 1, 2 of family 0, all Ord; and a sum, Op.
const NAMES: &[u8] = b"\x01x\x01x\0\x01i\x01i\0\x012\x002\0\x03sum\x03P\x01";

#[test]
fn a_typed_formula_is_read_and_written() {
    let text = b"x sub i sup 2";
    let mut formula = [FILLING; 14];
    assert_eq!(eqn::read(NAMES, text, &mut formula), Ok(13));
    assert_eq!(formula, *b"AT\0\0\x01\x01x\x01\x002\x01\x01i\xa5");
    let mut back = [FILLING; 14];
    assert_eq!(eqn::write(NAMES, &formula[..13], &mut back), Ok(13));
    assert_eq!(back[..13], *text);
    assert_eq!(back[13], FILLING);
    assert_eq!(eqn::read(NAMES, b"", &mut []), Ok(0));
    assert_eq!(eqn::write(NAMES, b"", &mut []), Ok(0));
}

#[test]
fn a_typed_sum_has_limits() {
    let mut formula = [0; 64];
    let read = eqn::read(NAMES, b"sum from {i} to 2", &mut formula).unwrap();
    let expected = b"AT\x01\x01\x01\x03P\x01\x002\x02\x09\0AT\0\0\x01\x01i\0\0";
    assert_eq!(formula[..read], *expected);
    let mut text = [0; 64];
    let written = eqn::write(NAMES, expected, &mut text).unwrap();
    assert_eq!(text[..written], *b"sum from { i } to 2");
}

#[test]
fn refusals_of_typed_text_change_nothing() {
    let refused = |number, place| Err(Refusal { number, place });
    let mut formula = [FILLING; 12];
    let mut read = |names: &[u8], text: &[u8]| eqn::read(names, text, &mut formula);
    let twice = [NAMES, NAMES].concat();
    assert_eq!(read(&twice, b"y sub"), refused(20, NAMES.len()));
    assert_eq!(read(NAMES, b"x sub sub y"), refused(10, 10));
    assert_eq!(read(NAMES, b"x sup i sub 2"), refused(11, 8));
    assert_eq!(read(NAMES, b"x over "), refused(11, 7));
    let deep = [[b'{'; 32], [b'}'; 32]].concat();
    assert_eq!(read(NAMES, &deep), refused(12, 0));
    assert_eq!(read(NAMES, b"x sub i sup 2"), refused(13, 0));
    assert_eq!(formula, [FILLING; 12]);

    let mut text = [FILLING; 7];
    let mut write = |names: &[u8], formula: &[u8]| eqn::write(names, formula, &mut text);
    assert_eq!(write(&twice, UNDERLINED), refused(20, NAMES.len()));
    assert_eq!(write(NAMES, UNDERLINED), refused(21, 0));
    assert_eq!(write(NAMES, b"FR\0\x01\x01x\x01\x01i"), refused(13, 0));
    assert_eq!(text, [FILLING; 7]);
}
