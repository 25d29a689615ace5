//! Sets a formula over a font table and prints its sizes and nodes.
//!
//! `set_formula TABLE FORMULA [--typed NAMES STYLE] [--client CLIENT]
//! [--svg FONTS SVG] [--free BANDS] [--dvi FONTS DVI]`; a formula is a stored
//! record, a style byte and the formula's bytes; or typed text with the words of a
//! name table, to be set in a style from 0 to 7. A client's table has symbols that
//! go before the font table's. A picture is written to SVG, with the letters of the
//! fonts that FONTS names, and under them the bands of BANDS, a line each: x, y,
//! width and height in scaled points; a page with the formula in the fonts is
//! written to DVI. An empty record is
//! refused as style, a font table that can't be read as table. The status is 1
//! for a refusal, 2 if another file can't be read or written, a font has no name,
//! or a glyph no letter to be drawn as; then nothing is printed or written.

mod bands;
mod fonts;
mod letters;
mod page;
mod picture;
mod shapes;
mod tables;

use bands::Band;
use fonts::Fonts;
use std::fs;
use std::process::ExitCode;
use tables::Tables;
use torfianka::{eqn, measure, nodes, set, Font, Measured, Node, Refusal, NODE_BYTES};

const USAGE: &str = "usage: set_formula TABLE FORMULA [--typed NAMES STYLE] [--client CLIENT] \
                     [--svg FONTS SVG] [--free BANDS] [--dvi FONTS DVI]";
const STYLES: u8 = 8;

/// Why nothing is printed.
enum Failure {
    Refused(Refusal),
    /// No answer of the library's.
    Other(String),
}

impl From<Refusal> for Failure {
    fn from(refusal: Refusal) -> Failure {
        Failure::Refused(refusal)
    }
}

impl From<String> for Failure {
    fn from(message: String) -> Failure {
        Failure::Other(message)
    }
}

fn main() -> ExitCode {
    let words: Vec<String> = std::env::args().skip(1).collect();
    let words: Vec<&str> = words.iter().map(String::as_str).collect();
    let arguments = Arguments::read(&words).ok_or(Failure::Other(USAGE.to_string()));
    match arguments.and_then(|arguments| run(&arguments)) {
        Ok(()) => ExitCode::SUCCESS,
        Err(Failure::Refused(refusal)) => {
            println!("{refusal}");
            ExitCode::from(1)
        }
        Err(Failure::Other(message)) => {
            eprintln!("{message}");
            ExitCode::from(2)
        }
    }
}

struct Arguments<'a> {
    table: &'a str,
    formula: &'a str,
    typed: Option<Typed<'a>>,
    client: Option<&'a str>,
    svg: Option<[&'a str; 2]>,
    free: Option<&'a str>,
    dvi: Option<[&'a str; 2]>,
}

/// What typed text does not say itself.
struct Typed<'a> {
    names: &'a str,
    style: u8,
}

impl<'a> Arguments<'a> {
    /// None if the words are not as in the usage.
    fn read(words: &[&'a str]) -> Option<Arguments<'a>> {
        let [table, formula, options @ ..] = words else {
            return None;
        };
        let mut arguments = Arguments {
            table,
            formula,
            typed: None,
            client: None,
            svg: None,
            free: None,
            dvi: None,
        };
        let mut rest = options;
        loop {
            rest = match rest {
                [] => return Some(arguments),
                ["--typed", names, style, rest @ ..] => {
                    let style = style.parse().ok().filter(|style| *style < STYLES)?;
                    arguments.typed = Some(Typed { names, style });
                    rest
                }
                ["--client", client, rest @ ..] => {
                    arguments.client = Some(client);
                    rest
                }
                ["--svg", fonts, svg, rest @ ..] => {
                    arguments.svg = Some([fonts, svg]);
                    rest
                }
                ["--free", bands, rest @ ..] => {
                    arguments.free = Some(bands);
                    rest
                }
                ["--dvi", fonts, dvi, rest @ ..] => {
                    arguments.dvi = Some([fonts, dvi]);
                    rest
                }
                _ => return None,
            };
        }
    }
}

fn run(arguments: &Arguments) -> Result<(), Failure> {
    let client = arguments.client.map(|path| named(path, fs::read(path)));
    let tables = Tables {
        table: fs::read(arguments.table).unwrap_or_default(),
        client: client.transpose()?.unwrap_or_default(),
    };
    let (style, formula) = match &arguments.typed {
        None => stored(arguments.formula),
        Some(Typed { names, style }) => (*style, typed(arguments.formula, names)?),
    };
    let (measured, buffer) = set_formula(style, &mut tables.font(), &formula)?;
    let nodes: Vec<Node> = nodes(&buffer).collect();
    let mut files = Vec::new();
    if let Some([fonts, path]) = arguments.svg {
        let bands = arguments.free.map_or(Ok(Vec::new()), read_bands)?;
        let picture = picture::svg(&measured, &nodes, &bands, &tables, &read_fonts(fonts)?);
        let picture = picture.map_err(|glyph| format!("{path}: {glyph}"))?;
        files.push((path, picture.into_bytes()));
    }
    if let Some([fonts, path]) = arguments.dvi {
        let page = page::file(&measured, &buffer, &read_fonts(fonts)?)?;
        files.push((path, page));
    }
    for (path, bytes) in files {
        named(path, fs::write(path, bytes))?;
    }
    print(&measured, &nodes);
    Ok(())
}

/// The style and the formula of a record.
fn stored(path: &str) -> (u8, Vec<u8>) {
    let record = fs::read(path).unwrap_or_default();
    let (&style, formula) = record.split_first().unwrap_or((&u8::MAX, &[]));
    (style, formula.to_vec())
}

/// The formula that a text means.
fn typed(path: &str, names: &str) -> Result<Vec<u8>, Failure> {
    let text = named(path, fs::read(path))?;
    let names = named(names, fs::read(names))?;
    let mut formula = vec![0; eqn::MOST_BYTES * text.len()];
    let length = eqn::read(&names, &text, &mut formula)?;
    formula.truncate(length);
    Ok(formula)
}

fn named<T>(path: &str, outcome: std::io::Result<T>) -> Result<T, String> {
    outcome.map_err(|error| format!("{path}: {error}"))
}

fn read_fonts(path: &str) -> Result<Fonts, String> {
    let text = named(path, fs::read_to_string(path))?;
    Fonts::read(&text).ok_or(format!("{path}: not a table of fonts"))
}

fn read_bands(path: &str) -> Result<Vec<Band>, String> {
    let text = named(path, fs::read_to_string(path))?;
    bands::read(&text).ok_or(format!("{path}: not a list of bands"))
}

fn set_formula(style: u8, font: &mut Font, formula: &[u8]) -> Result<(Measured, Vec<u8>), Refusal> {
    let count = measure(style, font, formula)?.count;
    let mut buffer = vec![0; NODE_BYTES * count];
    let measured = set(style, font, formula, &mut buffer)?;
    Ok((measured, buffer))
}

fn print(measured: &Measured, nodes: &[Node]) {
    let Measured {
        width,
        height,
        depth,
        count,
    } = measured;
    println!("w {width} h {height} d {depth} n {count}");
    for node in nodes {
        println!("{node}");
    }
}
