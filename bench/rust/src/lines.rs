//! The lines of a file, of which some are written: what all three programs have in common.
use std::error::Error;
use std::fs::File;
use std::io::{self, BufRead, BufReader, BufWriter, Write};

/// Writes each line of a file that is kept.
pub fn write_kept(
    path: &str,
    mut is_kept: impl FnMut(&[u8]) -> serde_json::Result<bool>,
) -> Result<(), Box<dyn Error>> {
    let mut rows = BufReader::with_capacity(1 << 16, File::open(path)?);
    let mut out = BufWriter::with_capacity(1 << 16, io::stdout().lock());
    let mut line = Vec::new();
    while rows.read_until(b'\n', &mut line)? > 0 {
        if is_kept(&line)? {
            out.write_all(&line)?;
        }
        line.clear();
    }
    out.flush()?;
    Ok(())
}
