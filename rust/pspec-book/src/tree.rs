//! A tree by indentation.

use crate::mistake::{mistake, Mistake};
use crate::phrases::shown;
use crate::text::Line;

/// The categories from the root to the last line's, each with its indentation.
#[derive(Default)]
pub struct Tree {
    count: u8,
    first: usize,
    path: Vec<(usize, u8)>,
}

impl Tree {
    /// The parent of the next category. With a mistake too the line has its place in the tree, so
    /// that those below it are read as they are meant.
    pub fn parent(&mut self, line: Line, upper: Option<u8>) -> Result<u8, Mistake> {
        let number = self.count;
        self.count += 1;
        if number == 0 {
            self.first = line.indent;
        }
        let closed = self.close(line);
        let parent = match (upper, self.path.last()) {
            (Some(_), _) if line.indent != self.first => Err(self.too_deep(line)),
            (Some(upper), _) => Ok(upper),
            (None, Some(&(_, category))) => Ok(category),
            (None, None) if number == 0 => Ok(0),
            (None, None) => Err(second_root(line)),
        };
        self.path.push((line.indent, number));
        closed.and(parent)
    }

    /// Leaves the categories that this line is not below.
    fn close(&mut self, line: Line) -> Result<(), Mistake> {
        let mut beside = None;
        while let Some(&(indent, _)) = self.path.last() {
            if indent < line.indent {
                break;
            }
            beside = Some(indent);
            self.path.pop();
        }
        if beside.is_none_or(|indent| indent == line.indent) {
            return Ok(());
        }
        let what = format!(
            "found '{}' after {} spaces; expected as many as a category above it has",
            shown(line.text),
            line.indent
        );
        Err(mistake(line.number, what))
    }

    fn too_deep(&self, line: Line) -> Mistake {
        let what = format!(
            "found 'under' after {} spaces; expected {}, as for the root",
            line.indent, self.first
        );
        mistake(line.number, what)
    }
}

fn second_root(line: Line) -> Mistake {
    let what = format!(
        "found '{}' beside the root; expected it indented below another, or 'under' and a category",
        shown(line.text)
    );
    mistake(line.number, what)
}
