//! A picture of a set formula: its glyphs' boxes, its rules and its baseline.

use crate::bands::Band;
use crate::fonts::Fonts;
use crate::letters::{client_letter, letter, Letter};
use crate::shapes::{Shape, STROKE};
use crate::tables::{Metrics, Tables};
use std::fmt;
use torfianka::{Measured, Node};

const SP_PER_POINT: f64 = 65_536.0;
const PIXELS_PER_POINT: f64 = 10.0;
const MARGIN: f64 = 3.0;
/// The x-height of usual text fonts in parts of their size.
const X_HEIGHT_SHARE: f64 = 0.48;
/// How far a tall character reaches below its baseline in usual text fonts, in
/// parts of its size.
const DEPTH_SHARE: f64 = 0.2;

/// A glyph of which nothing is known but its box. A picture without it would say
/// something else than the formula.
pub struct NoLetter {
    size: u8,
    family: u8,
    code: u8,
}

impl fmt::Display for NoLetter {
    fn fmt(&self, f: &mut fmt::Formatter) -> fmt::Result {
        let NoLetter { size, family, code } = self;
        write!(
            f,
            "no letter is known for the glyph of size {size}, family {family}, code {code}"
        )
    }
}

/// Lengths in the picture are points, and y goes down. Bands lie under the rest.
pub fn svg(
    measured: &Measured,
    nodes: &[Node],
    bands: &[Band],
    tables: &Tables,
    fonts: &Fonts,
) -> Result<String, NoLetter> {
    let (width, height, depth) = (
        points(measured.width),
        points(measured.height),
        points(measured.depth),
    );
    let (left, top) = (-MARGIN, -height - MARGIN);
    let (across, down) = (width + 2.0 * MARGIN, height + depth + 2.0 * MARGIN);
    let (pixels_across, pixels_down) = (across * PIXELS_PER_POINT, down * PIXELS_PER_POINT);
    let drawn = nodes.iter().map(|node| draw(node, tables, fonts));
    let drawn: String = drawn.collect::<Result<_, _>>()?;
    let free: String = bands.iter().map(draw_band).collect();
    Ok(format!(
        r##"<svg xmlns="http://www.w3.org/2000/svg" width="{pixels_across:.0}" height="{pixels_down:.0}" viewBox="{left:.3} {top:.3} {across:.3} {down:.3}">
<rect x="{left:.3}" y="{top:.3}" width="{across:.3}" height="{down:.3}" fill="white"/>
{free}<path d="M{left:.3} 0h{across:.3}" stroke="#c33" stroke-width="0.1" stroke-dasharray="0.6 0.4"/>
<g font-family="Latin Modern Roman, CMU Serif, Times New Roman, serif" text-anchor="middle">
{drawn}</g>
</svg>
"##
    ))
}

fn draw_band(band: &Band) -> String {
    let top = -points(band.y + band.height);
    let (x, width, height) = (points(band.x), points(band.width), points(band.height));
    format!(
        "<rect x=\"{x:.3}\" y=\"{top:.3}\" width=\"{width:.3}\" height=\"{height:.3}\" \
         fill=\"#8d8\"/>\n"
    )
}

fn points(sp: impl Into<i64>) -> f64 {
    sp.into() as f64 / SP_PER_POINT
}

fn draw(node: &Node, tables: &Tables, fonts: &Fonts) -> Result<String, NoLetter> {
    match *node {
        Node::Glyph {
            x,
            y,
            size,
            family,
            code,
        } => {
            let metrics = tables.metrics(size, family, code);
            let found = metrics.and_then(|metrics| {
                let letter = match metrics.is_client {
                    true => client_letter(family, code),
                    false => letter(&fonts.find(size, family)?.name, code),
                };
                Some((metrics, letter?))
            });
            let (metrics, letter) = found.ok_or(NoLetter { size, family, code })?;
            let em = points(tables.x_height(size)) / X_HEIGHT_SHARE;
            let (x, y) = (points(x), -points(y));
            Ok(outline(x, y, &metrics) + &glyph(&letter, x, y, em, &metrics))
        }
        Node::Rule {
            x,
            y,
            width,
            thickness,
        } => Ok(rule(
            points(x),
            -points(y),
            points(width),
            points(thickness),
        )),
    }
}

fn rule(x: f64, y: f64, width: f64, thickness: f64) -> String {
    let top = y - thickness;
    format!("<rect x=\"{x:.3}\" y=\"{top:.3}\" width=\"{width:.3}\" height=\"{thickness:.3}\"/>\n")
}

/// Of another colour if the character is the client's.
fn outline(x: f64, y: f64, metrics: &Metrics) -> String {
    let top = y - points(metrics.height);
    let (width, height) = (
        points(metrics.width),
        points(metrics.height + metrics.depth),
    );
    let colour = if metrics.is_client { "#e80" } else { "#69c" };
    format!(
        "<rect x=\"{x:.3}\" y=\"{top:.3}\" width=\"{width:.3}\" height=\"{height:.3}\" \
         fill=\"none\" stroke=\"{colour}\" stroke-width=\"0.08\"/>\n"
    )
}

fn glyph(letter: &Letter, x: f64, y: f64, em: f64, metrics: &Metrics) -> String {
    let reach = points(metrics.height + metrics.depth);
    let (top, width) = (y - points(metrics.height), points(metrics.width));
    let middle = x + width / 2.0;
    let strokes = |shape: &Shape, title: &str| {
        let path = shape.path(x, top, width, reach);
        format!("<path d=\"{path}\" fill=\"none\" stroke=\"black\" stroke-width=\"0.4\">{title}</path>\n")
    };
    match letter {
        Letter::Upright(letter) => text(*letter, "normal", middle, y, em),
        Letter::Italic(letter) => text(*letter, "italic", middle, y, em),
        Letter::Struck(letter) => text(*letter, "normal", middle, y, em) + &strokes(&STROKE, ""),
        Letter::Fitted(letter) => {
            let baseline = top + reach - DEPTH_SHARE * reach;
            text(*letter, "normal", middle, baseline, reach)
        }
        Letter::Shaped(letter, shape) => {
            strokes(shape, &format!("<title>{}</title>", escaped(*letter)))
        }
    }
}

fn text(letter: char, slope: &str, middle: f64, y: f64, em: f64) -> String {
    format!(
        "<text x=\"{middle:.3}\" y=\"{y:.3}\" font-size=\"{em:.3}\" \
         font-style=\"{slope}\">{}</text>\n",
        escaped(letter)
    )
}

/// As a picture's file has it.
fn escaped(letter: char) -> String {
    match letter {
        '&' => "&amp;".to_string(),
        '<' => "&lt;".to_string(),
        '>' => "&gt;".to_string(),
        _ => letter.to_string(),
    }
}
