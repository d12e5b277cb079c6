//! The committed table `trial-lines.txt`: frames with their answers.

const TABLE: &str = include_str!("../../trial-lines.txt");

/// A row of the table.
pub struct Row {
    /// The line above, which says what the row shows.
    pub words: &'static str,
    /// The frame.
    pub frame: &'static str,
    /// Its answer.
    pub answer: &'static str,
    /// The nesting limit, if the row has one.
    pub limit: Option<usize>,
}

/// The rows of the table.
pub fn rows() -> Vec<Row> {
    let lines: Vec<&str> = TABLE.lines().collect();
    let pairs = lines.windows(2).filter(|pair| !pair[1].starts_with('#'));
    pairs.map(|pair| row(pair[0], pair[1])).collect()
}

fn row(above: &'static str, text: &'static str) -> Row {
    let mut columns = text.split(' ');
    let mut column = || columns.next().expect("a frame and an answer");
    let (frame, answer) = (column(), column());
    let limit = columns.next().map(|text| text.parse().expect("a limit"));
    assert_eq!(columns.next(), None, "{above}");
    Row {
        words: above.trim_start_matches("# "),
        frame,
        answer,
        limit,
    }
}
