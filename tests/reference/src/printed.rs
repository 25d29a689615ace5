//! An answer as lines of text.

use crate::{Answer, Decided, Explanation, NODE_BYTES};
use std::fmt::Write;

/// The lines of an answer and its nodes, as the thin program writes them.
pub fn printed(answer: &Answer, nodes: &[u8]) -> String {
    if answer.number != 0 {
        return format!("refused {} at {}\n", answer.number, answer.place);
    }
    let mut text = format!(
        "w {} h {} d {} n {}\n",
        answer.width, answer.height, answer.depth, answer.count
    );
    for node in nodes.as_chunks().0.iter().take(answer.count as usize) {
        print_node(&mut text, node);
    }
    text
}

/// A line for each shift of an item, with what decided it.
pub fn printed_reasons(explanation: &Explanation) -> String {
    let Explanation {
        number,
        place,
        up,
        down,
    } = explanation;
    if *number != 0 {
        return format!("refused {number} at {place}\n");
    }
    let line = |way: &str, shift: &Option<Decided>| {
        shift.map_or(String::new(), |Decided { by, shift }| {
            format!("{way} {} {shift}\n", by.name())
        })
    };
    line("up", up) + &line("down", down)
}

fn print_node(text: &mut String, node: &[u8; NODE_BYTES]) {
    let (x, y) = (number(node, 2), number(node, 6));
    let written = match &node[..2] {
        b"GL" => writeln!(text, "glyph {x} {y} {} {} {}", node[10], node[11], node[12]),
        _ => writeln!(
            text,
            "rule {x} {y} {} {}",
            number(node, 10),
            number(node, 14)
        ),
    };
    written.expect("a string takes all that is written to it");
}

fn number(node: &[u8; NODE_BYTES], at: usize) -> i32 {
    i32::from_le_bytes([node[at], node[at + 1], node[at + 2], node[at + 3]])
}
