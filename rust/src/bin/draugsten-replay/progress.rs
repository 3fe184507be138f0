//! How far a replay is.

use crate::shared::line::Line;

pub struct Progress {
    size: Option<u64>,
    bytes: u64,
    line: Line,
}

impl Progress {
    /// Of a trace of so many bytes, where that is known.
    pub fn new(size: Option<u64>) -> Progress {
        Progress { size, bytes: 0, line: Line::new() }
    }

    /// So many bytes were replayed, and so many records are taken in all.
    pub fn pass(&mut self, bytes: u64, records: u64) {
        self.bytes += bytes;
        self.line.tell(|| line(self.bytes, self.size, records));
    }

    /// The bytes that were replayed.
    pub fn bytes(&self) -> u64 {
        self.bytes
    }
}

fn line(bytes: u64, size: Option<u64>, records: u64) -> String {
    let megabytes = bytes as f64 / 1e6;
    match size.filter(|size| *size >= bytes && bytes > 0) {
        None => format!("replayed {megabytes:.1} MB, {records} records"),
        Some(size) => {
            let (all, share) = (size as f64 / 1e6, bytes as f64 / size as f64);
            format!("replayed {megabytes:.1} of {all:.1} MB, {:.0} %, {records} records", 100.0 * share)
        }
    }
}

#[cfg(test)]
mod tests {
    use super::line;

    #[test]
    fn a_line_tells_the_share_where_the_size_is_known() {
        assert_eq!(line(1_500_000, None, 7), "replayed 1.5 MB, 7 records");
        assert_eq!(line(1_500_000, Some(6_000_000), 7), "replayed 1.5 of 6.0 MB, 25 %, 7 records");
        // A file that grows while it is read.
        assert_eq!(line(1_500_000, Some(1_000_000), 7), "replayed 1.5 MB, 7 records");
        assert_eq!(line(0, Some(0), 0), "replayed 0.0 MB, 0 records");
    }
}
