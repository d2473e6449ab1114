//! Headings, fenced blocks and tables of a page, with the lines where they begin.

/// A part of a page that is not prose.
#[derive(Clone, Debug, PartialEq, Eq)]
pub enum Part {
    Heading(String),
    /// What stands behind the opening fence, and the lines up to the closing one.
    Fence {
        tag: String,
        body: Vec<String>,
    },
    Table(Table),
}

#[derive(Clone, Debug, PartialEq, Eq)]
pub struct Table {
    pub header: Vec<String>,
    pub rows: Vec<Vec<String>>,
}

/// A part and its first line, counted from 1.
pub type Placed = (usize, Part);

const FENCE: &str = "```";

/// The parts of a page, in order. A fence that is indented, of another form or not
/// closed is an error: its block would be passed over.
pub fn parts(page: &str) -> Result<Vec<Placed>, String> {
    let lines: Vec<&str> = page.lines().collect();
    let mut parts = Vec::new();
    let mut at = 0;
    while at < lines.len() {
        let (line, first) = (lines[at], at + 1);
        at += 1;
        if let Some(tag) = line.strip_prefix(FENCE) {
            let length = lines[at..].iter().position(|line| *line == FENCE);
            let length = length.ok_or(format!("line {first}: a fence is not closed"))?;
            let body = owned(&lines[at..at + length]);
            let tag = tag.to_string();
            parts.push((first, Part::Fence { tag, body }));
            at += length + 1;
        } else if [FENCE, "~~~"]
            .iter()
            .any(|fence| line.trim_start().starts_with(fence))
        {
            return Err(format!("line {first}: a fence of another form"));
        } else if line.starts_with('#') {
            let heading = line.trim_start_matches('#').trim();
            parts.push((first, Part::Heading(heading.to_string())));
        } else if line.starts_with('|') {
            let length = lines[at..]
                .iter()
                .take_while(|line| line.starts_with('|'))
                .count();
            let mut rows = lines[at..at + length].iter().map(|row| cells(row));
            if !rows.next().is_some_and(|rule| is_rule(&rule)) {
                return Err(format!("line {first}: a table without a rule"));
            }
            let table = Table {
                header: cells(line),
                rows: rows.collect(),
            };
            parts.push((first, Part::Table(table)));
            at += length;
        }
    }
    Ok(parts)
}

fn owned(lines: &[&str]) -> Vec<String> {
    lines.iter().map(|line| line.to_string()).collect()
}

fn is_rule(cells: &[String]) -> bool {
    cells
        .iter()
        .all(|cell| !cell.is_empty() && cell.bytes().all(|byte| byte == b'-'))
}

/// The cells of a row; `\|` is a bar inside a cell.
fn cells(row: &str) -> Vec<String> {
    let row = row.trim_end();
    let row = row.strip_prefix('|').unwrap_or(row);
    let row = row.strip_suffix('|').unwrap_or(row);
    let mut cells = vec![String::new()];
    let mut bytes = row.chars().peekable();
    while let Some(c) = bytes.next() {
        let cell = cells.last_mut().expect("there is a first cell");
        match c {
            '\\' if bytes.peek() == Some(&'|') => {
                bytes.next();
                cell.push('|');
            }
            '|' => cells.push(String::new()),
            _ => cell.push(c),
        }
    }
    cells.iter().map(|cell| cell.trim().to_string()).collect()
}

/// What stands in backticks and nothing else.
pub fn quoted(cell: &str) -> Option<&str> {
    let inside = cell.strip_prefix('`')?.strip_suffix('`')?;
    (!inside.contains('`')).then_some(inside)
}

#[cfg(test)]
mod tests {
    use super::*;

    #[test]
    fn parts_have_their_lines() {
        let page =
            "# One\n\nprose\n```model x\na\n\nb\n```\n\n| h | i |\n|---|---|\n| `a\\|b` | |\n";
        let heading = Part::Heading("One".into());
        let fence = Part::Fence {
            tag: "model x".into(),
            body: vec!["a".into(), "".into(), "b".into()],
        };
        let table = Part::Table(Table {
            header: vec!["h".into(), "i".into()],
            rows: vec![vec!["`a|b`".into(), "".into()]],
        });
        assert_eq!(parts(page), Ok(vec![(1, heading), (4, fence), (10, table)]));
    }

    #[test]
    fn no_block_is_passed_over() {
        for page in [
            "```x\n",
            "  ```x\n  ```\n",
            "~~~\n~~~\n",
            "````x\n```\n````\n",
            "| h |\n",
            "| h |\n| a |\n",
        ] {
            assert!(parts(page).is_err(), "{page:?}");
        }
    }
}
