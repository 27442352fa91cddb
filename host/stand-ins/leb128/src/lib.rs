//! Stand-in for the crate leb128: the one writer that the published files call.
//! Reading is the crate's own (storage/parse/leb128.rs). The bytes of a written
//! number therefore rest on document 01 ("unsigned LEB128, shortest form") and
//! on the crate's own reader, which takes them back.

pub mod write {
    use std::io::{Result, Write};

    /// Writes `value`, seven bits a byte, low bits first; returns the byte count.
    pub fn unsigned<W: Write + ?Sized>(out: &mut W, mut value: u64) -> Result<usize> {
        let mut count = 0;
        loop {
            let low = (value & 0x7f) as u8;
            value >>= 7;
            let more = if value == 0 { 0 } else { 0x80 };
            out.write_all(&[low | more])?;
            count += 1;
            if value == 0 {
                return Ok(count);
            }
        }
    }
}

#[cfg(test)]
mod tests {
    fn written(value: u64) -> Vec<u8> {
        let mut out = Vec::new();
        let count = super::write::unsigned(&mut out, value).unwrap();
        assert_eq!(count, out.len());
        out
    }

    #[test]
    fn shortest_form() {
        assert_eq!(written(0), [0]);
        assert_eq!(written(127), [0x7f]);
        assert_eq!(written(128), [0x80, 1]);
        assert_eq!(written(1024), [0x80, 8]);
        assert_eq!(written(u64::MAX).len(), 10);
        assert_eq!(written(u64::MAX)[9], 1);
    }
}
