//! A DVI file of one page: what a caller puts around the body that the library
//! writes. The formula's upper left corner is at the page's origin.

use crate::fonts::{Font, Fonts};
use std::collections::BTreeSet;
use torfianka::{dvi, nodes, Measured, Node, NODE_BYTES};

const BOP: u8 = 139;
const EOP: u8 = 140;
const DOWN4: u8 = 160;
const FNT_DEF1: u8 = 243;
const PRE: u8 = 247;
const POST: u8 = 248;
const POST_POST: u8 = 249;
/// Closes the file, four times at least.
const TRAILER: u8 = 223;

const FORMAT: u8 = 2;
/// A unit is so many parts of 10^-7 metres: a scaled point.
const UNIT: [u32; 2] = [25_400_000, 473_628_672];
const MAGNIFICATION: u32 = 1_000;
const COMMENT: &[u8] = b"Torfianka";
const SP_PER_POINT: u32 = 65_536;
const FAMILIES: u8 = 16;

/// The nodes are bytes as the library set them.
pub fn file(measured: &Measured, nodes: &[u8], fonts: &Fonts) -> Result<Vec<u8>, String> {
    let definitions = definitions(nodes, fonts)?;
    let mut file = File::default();
    file.preamble();
    let page = file.place();
    file.page(measured, &definitions, &body(nodes)?);
    let postamble = file.place();
    file.postamble(page, measured, &definitions);
    file.end(postamble);
    Ok(file.0)
}

fn body(nodes: &[u8]) -> Result<Vec<u8>, String> {
    let mut body = vec![0; nodes.len() / NODE_BYTES * dvi::MOST_BYTES];
    let written = dvi::write(nodes, &mut body).map_err(|refusal| refusal.to_string())?;
    body.truncate(written);
    Ok(body)
}

/// The definitions of all fonts that the nodes use.
fn definitions(buffer: &[u8], fonts: &Fonts) -> Result<Vec<u8>, String> {
    let used: BTreeSet<(u8, u8)> = nodes(buffer)
        .filter_map(|node| match node {
            Node::Glyph { size, family, .. } => Some((size, family)),
            Node::Rule { .. } => None,
        })
        .collect();
    let mut definitions = File::default();
    for (size, family) in used {
        let font = fonts.find(size, family);
        let font = font.ok_or(format!("no font of size {size}, family {family}"))?;
        definitions.font(FAMILIES * size + family, font);
    }
    Ok(definitions.0)
}

/// What is written so far.
#[derive(Default)]
struct File(Vec<u8>);

impl File {
    fn place(&self) -> u32 {
        self.0.len() as u32
    }

    fn numbers(&mut self, numbers: &[u32]) {
        self.0
            .extend(numbers.iter().flat_map(|number| number.to_be_bytes()));
    }

    fn preamble(&mut self) {
        self.0.extend([PRE, FORMAT]);
        self.numbers(&UNIT);
        self.numbers(&[MAGNIFICATION]);
        self.0.push(COMMENT.len() as u8);
        self.0.extend(COMMENT);
    }

    /// Page 1, behind which no other page points back.
    fn page(&mut self, measured: &Measured, definitions: &[u8], body: &[u8]) {
        self.0.push(BOP);
        self.numbers(&[1, 0, 0, 0, 0, 0, 0, 0, 0, 0, u32::MAX]);
        self.0.extend(definitions);
        self.0.push(DOWN4);
        self.numbers(&[measured.height as u32]);
        self.0.extend(body);
        self.0.push(EOP);
    }

    fn font(&mut self, number: u8, font: &Font) {
        let size = SP_PER_POINT * font.points;
        self.0.extend([FNT_DEF1, number]);
        self.numbers(&[font.checksum, size, size]);
        self.0.extend([0, font.name.len() as u8]);
        self.0.extend(font.name.as_bytes());
    }

    /// With the page's extent; one place is kept at a time, and there is one
    /// page.
    fn postamble(&mut self, page: u32, measured: &Measured, definitions: &[u8]) {
        let down = measured.height + measured.depth;
        self.0.push(POST);
        self.numbers(&[page]);
        self.numbers(&UNIT);
        self.numbers(&[MAGNIFICATION, down as u32, measured.width.max(0) as u32]);
        self.0.extend([0, 1, 0, 1]);
        self.0.extend(definitions);
    }

    /// The length becomes a multiple of four.
    fn end(&mut self, postamble: u32) {
        self.0.push(POST_POST);
        self.numbers(&[postamble]);
        self.0.push(FORMAT);
        let length = (self.0.len() + 4).next_multiple_of(4);
        self.0.resize(length, TRAILER);
    }
}
