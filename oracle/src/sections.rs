//! The recorded files' form: sections of a header line `NAME SP LENGTH LF` and LENGTH bytes.

use std::io::{self, Write};

pub fn write(out: &mut impl Write, name: &str, bytes: impl AsRef<[u8]>) -> io::Result<()> {
    let bytes = bytes.as_ref();
    writeln!(out, "{name} {}", bytes.len())?;
    out.write_all(bytes)
}

/// Reads all sections, for holding a recorded file against another program; none if the form is broken.
pub fn read(mut bytes: &[u8]) -> Option<Vec<(String, Vec<u8>)>> {
    let mut sections = Vec::new();
    while !bytes.is_empty() {
        let end = bytes.iter().position(|b| *b == b'\n')?;
        let (name, length) = std::str::from_utf8(&bytes[..end]).ok()?.split_once(' ')?;
        let length: usize = length.parse().ok()?;
        let body = bytes.get(end + 1..end + 1 + length)?;
        sections.push((name.to_string(), body.to_vec()));
        bytes = &bytes[end + 1 + length..];
    }
    Some(sections)
}
