//! The inputs of docs/DIFFERENCES.md, each with what the file says that it gives.

/// One input of the file: where it stands, the input, the claims after its arrow.
pub struct Line {
    pub name: String,
    pub input: String,
    pub claims: String,
}

/// The inputs of all rows `| D-.. | .. | .. | inputs |`, whose numbers must go up from 1 without a gap.
pub fn lines_of(markdown: &str) -> Result<Vec<Line>, String> {
    let mut lines = Vec::new();
    let mut rows = 0;
    for row in markdown.lines().filter(|row| row.starts_with("| D-")) {
        rows += 1;
        let cells: Vec<&str> = row.split('|').collect();
        let [_, id, _, _, inputs, _] = cells[..] else {
            return Err(format!("a row of {} cells: {row}", cells.len() - 2));
        };
        let id = id.split_whitespace().next().unwrap_or("");
        if id != format!("D-{rows}") {
            return Err(format!("{id} stands where D-{rows} should"));
        }
        for (k, part) in inputs.split("<br>").enumerate() {
            lines.push(line_of(id, k + 1, part)?);
        }
    }
    if lines.is_empty() {
        return Err("no row".to_string());
    }
    Ok(lines)
}

/// `` `input` → claims ``
fn line_of(id: &str, k: usize, part: &str) -> Result<Line, String> {
    let read = || {
        let (input, claims) = part.trim().strip_prefix('`')?.split_once("` → ")?;
        if input.contains('`') {
            return None;
        }
        Some(Line { name: format!("{id}.{k}"), input: input.to_string(), claims: claims.to_string() })
    };
    read().ok_or(format!("{id}: can't read \"{part}\""))
}
