//! A hierarchy drawn as lines and names.

use crate::hierarchy::children;

/// What stands beside a category.
pub struct Label {
    /// Its name.
    pub name: String,
    /// A note after it, in grey.
    pub note: String,
}

/// A category's place: its row from the top, and how deep it is.
struct Place {
    category: usize,
    depth: usize,
}

const ROW: usize = 24;
const STEP: usize = 26;
const LETTER: usize = 9;

/// A figure of a hierarchy, given by the parents of all.
pub fn drawing(title: &str, parents: &[u8], label: impl Fn(usize) -> Label) -> String {
    let mut places = Vec::new();
    place(parents, 0, 0, &mut places);
    let row = |category: usize| places.iter().position(|of| of.category == category);
    let mut shapes = String::new();
    let mut width = 0;
    for (y, of) in places.iter().enumerate() {
        let Label { name, note } = label(of.category);
        let letters = name.chars().count() + note.chars().count() + 3;
        width = width.max(of.depth * STEP + 24 + letters * LETTER);
        if of.depth > 0 {
            let upper = row(usize::from(parents[of.category])).unwrap_or(0);
            shapes += &branch(of.depth, upper, y);
        }
        let leaf = children(parents, of.category as u8).is_empty();
        shapes += &node(of.depth, y, leaf, &name, &note);
    }
    let height = ROW * places.len() + 8;
    format!(
        "<figure>\n<figcaption><b>{title}</b></figcaption>\n\
         <svg width=\"{width}\" height=\"{height}\" viewBox=\"0 0 {width} {height}\" \
         role=\"img\" aria-label=\"{title}\">\n{shapes}</svg>\n</figure>\n"
    )
}

/// A category and all below it, each below its parent.
fn place(parents: &[u8], category: u8, depth: usize, places: &mut Vec<Place>) {
    places.push(Place {
        category: usize::from(category),
        depth,
    });
    for child in children(parents, category) {
        place(parents, child, depth + 1, places);
    }
}

fn middle(row: usize) -> usize {
    row * ROW + ROW / 2
}

/// From the parent down, then right to the category.
fn branch(depth: usize, upper: usize, row: usize) -> String {
    let left = (depth - 1) * STEP + 8;
    format!(
        "<path d=\"M{left} {} V{} H{}\" fill=\"none\" stroke=\"#888\"/>\n",
        middle(upper) + 5,
        middle(row),
        left + STEP - 5
    )
}

/// A full dot for a leaf, an open one for what has others below it.
fn node(depth: usize, row: usize, leaf: bool, name: &str, note: &str) -> String {
    let (x, y) = (depth * STEP + 8, middle(row));
    let fill = if leaf { "#111" } else { "#fff" };
    let note = match note {
        "" => String::new(),
        note => format!(" <tspan class=\"note\">{}</tspan>", escaped(note)),
    };
    format!(
        "<circle cx=\"{x}\" cy=\"{y}\" r=\"5\" fill=\"{fill}\" stroke=\"#111\"/>\
         <text x=\"{}\" y=\"{}\">{}{note}</text>\n",
        x + 12,
        y + 5,
        escaped(name)
    )
}

/// A text with its marks of HTML made harmless.
pub fn escaped(text: &str) -> String {
    let mark = |c: char| match c {
        '&' => "&amp;".to_string(),
        '<' => "&lt;".to_string(),
        '>' => "&gt;".to_string(),
        '"' => "&quot;".to_string(),
        _ => c.to_string(),
    };
    text.chars().map(mark).collect()
}
