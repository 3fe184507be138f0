//! How far the sessions of a list are.

use crate::shared::line::Line;

pub struct Progress {
    size: Option<u64>,
    line: Line,
}

impl Progress {
    /// Of a list of so many bytes, where that is known.
    pub fn new(size: Option<u64>) -> Progress {
        Progress { size, line: Line::new() }
    }

    /// So many sessions were taken, which are so many bytes of the list; so many bytes of traces were replayed.
    pub fn tell(&mut self, sessions: u64, list: u64, bytes: u64) {
        self.line.tell(|| line(sessions, list, self.size, bytes));
    }

    /// Takes the line away before something else is written.
    pub fn clear(&mut self) {
        self.line.clear();
    }
}

fn line(sessions: u64, list: u64, size: Option<u64>, bytes: u64) -> String {
    let megabytes = bytes as f64 / 1e6;
    let share = match size.filter(|size| *size >= list && list > 0) {
        None => String::new(),
        Some(size) => format!(", {:.0} % of the list", 100.0 * list as f64 / size as f64),
    };
    let plural = if sessions == 1 { "" } else { "s" };
    format!("replayed {megabytes:.1} MB, {sessions} session{plural}{share}")
}

#[cfg(test)]
mod tests {
    use super::line;

    #[test]
    fn a_line_tells_the_share_where_the_size_is_known() {
        assert_eq!(line(7, 30, None, 1_500_000), "replayed 1.5 MB, 7 sessions");
        assert_eq!(line(7, 30, Some(120), 1_500_000), "replayed 1.5 MB, 7 sessions, 25 % of the list");
        // A list that grows while it is read.
        assert_eq!(line(7, 30, Some(20), 1_500_000), "replayed 1.5 MB, 7 sessions");
        assert_eq!(line(0, 0, Some(0), 0), "replayed 0.0 MB, 0 sessions");
        assert_eq!(line(1, 30, None, 0), "replayed 0.0 MB, 1 session");
    }
}
