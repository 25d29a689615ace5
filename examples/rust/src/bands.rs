//! Parts of a page that are to be shown as free of ink.

/// In scaled points; x, y is the lower left corner, and y goes up.
pub struct Band {
    pub x: i64,
    pub y: i64,
    pub width: i64,
    pub height: i64,
}

/// Four numbers a line; none if a line has others.
pub fn read(text: &str) -> Option<Vec<Band>> {
    text.lines().map(band).collect()
}

fn band(line: &str) -> Option<Band> {
    let numbers: Result<Vec<i64>, _> = line.split(' ').map(str::parse).collect();
    let [x, y, width, height] = numbers.ok()?[..] else {
        return None;
    };
    Some(Band {
        x,
        y,
        width,
        height,
    })
}
