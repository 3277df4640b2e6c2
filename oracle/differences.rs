// What the Rust does on the inputs of docs/DIFFERENCES.md, one line each: a value, or that it panics.
use bitter::{BigEndianReader, BigEndianWriter, BitReader, BitWriter, LittleEndianReader};
use std::io::{Error, ErrorKind, Result, Write};

// Takes bytes, but for the first call, which fails: a card that was full for a moment.
struct Card {
    failed: bool,
    held: Vec<u8>,
}

impl Write for Card {
    fn write(&mut self, buf: &[u8]) -> Result<usize> {
        if !self.failed {
            self.failed = true;
            return Err(Error::new(ErrorKind::Other, "full"));
        }
        self.held.extend_from_slice(buf);
        Ok(buf.len())
    }

    fn flush(&mut self) -> Result<()> {
        Ok(())
    }
}

fn shown(name: &str, f: impl FnOnce() -> String + std::panic::UnwindSafe) {
    std::panic::set_hook(Box::new(|_| {}));
    let told = std::panic::catch_unwind(f).unwrap_or_else(|_| "panics".to_string());
    println!("{name}: {told}");
}

fn main() {
    shown("sign_extend(0, 65)", || bitter::sign_extend(0, 65).to_string());
    shown("sign_extend(16, 4)", || bitter::sign_extend(16, 4).to_string());
    shown("sign_extend(2^63, 64)", || bitter::sign_extend(1 << 63, 64).to_string());
    shown("read_bits(1) of an empty slice", || format!("{:?}", LittleEndianReader::new(&[]).read_bits(1)));
    shown("read_bits(65) of nine bytes", || format!("{:?}", LittleEndianReader::new(&[0xff; 9]).read_bits(65)));
    shown("peek(1) of a fresh reader", || format!("{}", LittleEndianReader::new(&[0xff]).peek(1)));
    shown("consume(1) of a fresh reader, then its lookahead", || {
        let mut r = LittleEndianReader::new(&[0xff]);
        r.consume(1);
        r.lookahead_bits().to_string()
    });
    shown("17 bytes after one bit of 17", || {
        let mut r = BigEndianReader::new(&[0x5a; 17]);
        r.read_bit();
        r.read_bytes(&mut [0; 17]).to_string()
    });
    shown("8, 3 and 1 bits of FF 04, big endian, which can't be told to stop at bit 11", || {
        let mut r = BigEndianReader::new(&[0xff, 0x04]);
        format!("{:?} {:?} {:?}", r.read_bits(8), r.read_bits(3), r.read_bits(1))
    });
    shown("write_bits(3, 0), write_bits(3, 8), flush, big endian", || {
        let mut out = Vec::new();
        let mut w = BigEndianWriter::new(&mut out);
        w.write_bits(3, 0).unwrap();
        w.write_bits(3, 8).unwrap();
        BitWriter::flush(&mut w).unwrap();
        drop(w);
        format!("{out:02x?}")
    });
    shown("three bits written, then the writer is dropped", || {
        let mut out = Vec::new();
        BigEndianWriter::new(&mut out).write_bits(3, 5).unwrap();
        format!("{out:02x?}")
    });
    shown("write_u8(0xa5) whose Write fails, then flush, then what the Write has", || {
        let mut w = BigEndianWriter::new(Card { failed: false, held: Vec::new() });
        let wrote = w.write_u8(0xa5).is_ok();
        let flushed = BitWriter::flush(&mut w).is_ok();
        format!("write done: {wrote}, flush done: {flushed}, {:02x?}", w.get_ref().held)
    });
    shown("write_f32(1.0), big endian", || {
        let mut out = Vec::new();
        let mut w = BigEndianWriter::new(&mut out);
        w.write_f32(1.0).unwrap();
        drop(w);
        format!("{out:02x?}")
    });
    shown("f64::from of the NaN patterns 7f800001 and ffc01234", || {
        let wide = |b| f64::from(f32::from_bits(b)).to_bits();
        format!("{:x} {:x}", wide(0x7f80_0001), wide(0xffc0_1234))
    });
    shown("the NaN pattern 7fc01234 read as a single", || format!("{:x}", LittleEndianReader::new(&[0x34, 0x12, 0xc0, 0x7f]).read_f32().unwrap().to_bits()));
    shown("bits_remaining of one byte", || format!("{:?}", LittleEndianReader::new(&[0xff]).bits_remaining()));
}
