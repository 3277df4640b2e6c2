// Answers scripts of calls (docs/REPLAY.md) with the Rust library bitter, built unchanged, and makes such scripts. A script has to stay
// inside the library's domain: most of what we refuse has no counterpart here, and no more has an end but the slice's. A read that runs
// short answers 9 with the counts that the Rust is left with.
//
//   driver answer < script            writes the answers
//   driver make DIR KIND SEED COUNT   writes scripts DIR/KIND-SEED-0000 .., COUNT of them, or all of an exhaustive kind
use bitter::{BigEndianReader, BigEndianWriter, BitReader, BitWriter, LittleEndianReader, LittleEndianWriter};
use std::cell::RefCell;
use std::fmt::Write as _;
use std::io::{Read, Write};
use std::rc::Rc;

// ---- the Rust behind one face for both orders

enum Reader {
    Little(LittleEndianReader<'static>),
    Big(BigEndianReader<'static>),
}

macro_rules! reader {
    ($r:expr, $x:ident, $e:expr) => {
        match $r {
            Some(Reader::Little($x)) => $e,
            Some(Reader::Big($x)) => $e,
            None => panic!("a call on a cursor that is not set"),
        }
    };
}

enum Writer {
    Little(LittleEndianWriter<Shared>),
    Big(BigEndianWriter<Shared>),
}

macro_rules! writer {
    ($w:expr, $x:ident, $e:expr) => {
        match $w {
            Writer::Little($x) => $e,
            Writer::Big($x) => $e,
        }
    };
}

// The bytes that a writer has written, to be looked at between calls.
#[derive(Clone)]
struct Shared(Rc<RefCell<Vec<u8>>>);

impl Write for Shared {
    fn write(&mut self, buf: &[u8]) -> std::io::Result<usize> {
        self.0.borrow_mut().extend_from_slice(buf);
        Ok(buf.len())
    }
    fn flush(&mut self) -> std::io::Result<()> {
        Ok(())
    }
}

// Bytes put before the source, so that a reader can be brought to any legal cursor.
const BEFORE: usize = 8;

struct Machine {
    little: bool,
    source: &'static [u8],
    // none from a new order or source on until a cursor is set
    reader: Option<Reader>,
    output: Vec<u8>,
    shared: Shared,
    writer: Writer,
}

impl Machine {
    fn new() -> Self {
        let shared = Shared(Rc::new(RefCell::new(Vec::new())));
        Machine {
            little: true,
            source: Box::leak(vec![0x55; BEFORE].into_boxed_slice()),
            reader: Some(Reader::Little(LittleEndianReader::new(&[]))),
            output: Vec::new(),
            writer: Writer::Little(LittleEndianWriter::new(shared.clone())),
            shared,
        }
    }

    fn set_source(&mut self, bytes: &[u8]) {
        let mut all = vec![0x55; BEFORE];
        all.extend_from_slice(bytes);
        self.source = Box::leak(all.into_boxed_slice());
        self.reader = None;
    }

    fn set_order(&mut self, little: bool) {
        self.little = little;
        self.reader = None;
    }

    fn len(&self) -> usize {
        self.source.len() - BEFORE
    }

    fn read_from(&mut self, start: usize) {
        self.reader = Some(if self.little {
            Reader::Little(LittleEndianReader::new(&self.source[start..]))
        } else {
            Reader::Big(BigEndianReader::new(&self.source[start..]))
        });
    }

    // A reader with these counts: fresh some bytes before, filled, and drained.
    fn set_cursor(&mut self, offset: usize, lookahead: u32) {
        if lookahead <= 56 {
            self.read_from(BEFORE + offset - 7);
            reader!(&mut self.reader, r, {
                r.refill_lookahead();
                r.consume(56 - lookahead);
            });
        } else {
            self.read_from(BEFORE + offset - 8);
            reader!(&mut self.reader, r, {
                r.refill_lookahead();
                r.consume(64 - lookahead);
                r.refill_lookahead();
            });
        }
        assert_eq!((self.offset(), self.lookahead()), (offset, lookahead));
    }

    fn set_fresh(&mut self) {
        self.read_from(BEFORE);
    }

    fn offset(&self) -> usize {
        self.len() - reader!(&self.reader, r, r.unbuffered_bytes_remaining())
    }

    fn lookahead(&self) -> u32 {
        reader!(&self.reader, r, r.lookahead_bits())
    }

    fn set_writer(&mut self, written: usize, held: u32, number: u64) {
        let shared = Shared(Rc::new(RefCell::new(self.output[..written].to_vec())));
        self.writer = if self.little {
            Writer::Little(LittleEndianWriter::new(shared.clone()))
        } else {
            Writer::Big(BigEndianWriter::new(shared.clone()))
        };
        // the old writer flushes into its own bytes when it goes
        self.shared = shared;
        writer!(&mut self.writer, w, w.write_bits(held, number).unwrap());
    }

    // The output as a caller sees it: what is written in front of what was there.
    fn seen(&mut self) -> Vec<u8> {
        let written = self.shared.0.borrow();
        self.output[..written.len()].copy_from_slice(&written);
        self.output.clone()
    }
}

// ---- scripts

fn hex(word: Option<&str>) -> u64 {
    u64::from_str_radix(word.unwrap_or("0"), 16).unwrap()
}

fn unhex(word: &str) -> Vec<u8> {
    (0..word.len() / 2).map(|i| u8::from_str_radix(&word[2 * i..2 * i + 2], 16).unwrap()).collect()
}

fn spelled(bytes: &[u8]) -> String {
    let mut s = String::new();
    for b in bytes {
        write!(s, "{b:02x}").unwrap();
    }
    s
}

fn answer(m: &mut Machine, line: &str, out: &mut String) {
    let mut words = line.split(' ');
    let letter = words.next().unwrap_or("");
    let a = words.next();
    let b = words.next();
    let c = words.next();
    let told = |m: &Machine, v: Option<u64>, out: &mut String| {
        let (refusal, value) = match v {
            Some(v) => (0, v),
            None => (9, 0),
        };
        write!(out, "{:x} {:x} {:x} {:x}", refusal, value, m.offset(), m.lookahead()).unwrap();
    };
    let wrote = |m: &Machine, out: &mut String| {
        let held = writer!(&m.writer, w, w.unaligned_bits());
        write!(out, "0 {:x} {:x}", m.shared.0.borrow().len(), held).unwrap();
    };
    match letter {
        "L" => m.set_order(true),
        "B" => m.set_order(false),
        "S" => m.set_source(&unhex(a.unwrap_or(""))),
        "O" => m.output = vec![hex(b) as u8; hex(a) as usize],
        "C" => {
            let (offset, lookahead) = (hex(a) as usize, hex(b) as u32);
            if offset == 0 && lookahead == 0 {
                m.set_fresh()
            } else {
                m.set_cursor(offset, lookahead)
            }
        }
        "D" => m.set_writer(hex(a) as usize, hex(b) as u32, hex(c)),
        "n" => {
            m.set_fresh();
            told(m, Some(0), out)
        }
        "b" => {
            let v = reader!(&mut m.reader, r, r.read_bits(hex(a) as u32));
            told(m, v, out)
        }
        "s" => {
            let v = reader!(&mut m.reader, r, r.read_signed_bits(hex(a) as u32));
            told(m, v.map(|x| x as u64), out)
        }
        "f" => {
            let v = reader!(
                &mut m.reader,
                r,
                match hex(a) {
                    0 => r.read_bit().map(|x| x as u64),
                    1 => r.read_u8().map(|x| x as u64),
                    2 => r.read_i8().map(|x| x as i64 as u64),
                    3 => r.read_u16().map(|x| x as u64),
                    4 => r.read_i16().map(|x| x as i64 as u64),
                    5 => r.read_u32().map(|x| x as u64),
                    6 => r.read_i32().map(|x| x as i64 as u64),
                    7 => r.read_f32().map(|x| x.to_bits() as u64),
                    8 => r.read_u64(),
                    9 => r.read_i64().map(|x| x as u64),
                    _ => r.read_f64().map(|x| x.to_bits()),
                }
            );
            told(m, v, out)
        }
        "q" => {
            let v = reader!(
                &m.reader,
                r,
                match hex(a) {
                    0 => r.bytes_remaining() as u64,
                    1 => r.unbuffered_bytes_remaining() as u64,
                    2 => r.bits_remaining().unwrap() as u64,
                    3 => r.is_empty() as u64,
                    4 => r.byte_aligned() as u64,
                    _ => r.lookahead_bits() as u64,
                }
            );
            told(m, Some(v), out)
        }
        "h" => {
            let v = reader!(&m.reader, r, r.has_bits_remaining(hex(a) as usize));
            told(m, Some(v as u64), out)
        }
        "p" => {
            let v = reader!(&m.reader, r, r.peek(hex(a) as u32));
            told(m, Some(v), out)
        }
        "c" => {
            reader!(&mut m.reader, r, r.consume(hex(a) as u32));
            told(m, Some(0), out)
        }
        "r" => {
            reader!(&mut m.reader, r, r.refill_lookahead());
            told(m, Some(0), out)
        }
        "y" => {
            let n = hex(a) as usize;
            let mut buf = vec![0xee; n];
            let done = reader!(&mut m.reader, r, r.read_bytes(&mut buf));
            let (refusal, value) = if done { (0, n) } else { (9, 0) };
            write!(out, "{:x} {:x} {:x} {:x} {}", refusal, value, m.offset(), m.lookahead(), spelled(&buf)).unwrap();
        }
        "m" => {
            let (bits, byte, rest) = reader!(&m.reader, r, {
                let rest = r.remainder();
                (rest.partial_bits(), rest.partial_byte(), rest.data().to_vec())
            });
            told(m, Some(16 * byte as u64 + bits as u64), out);
            write!(out, " {}", spelled(&rest)).unwrap();
        }
        "N" => {
            m.set_writer(0, 0, 0);
            wrote(m, out)
        }
        "w" => {
            writer!(&mut m.writer, w, w.write_bits(hex(a) as u32, hex(b)).unwrap());
            wrote(m, out)
        }
        "x" => {
            writer!(&mut m.writer, w, w.write_signed_bits(hex(a) as u32, hex(b) as i64).unwrap());
            wrote(m, out)
        }
        "F" => {
            let v = hex(b);
            writer!(
                &mut m.writer,
                w,
                match hex(a) {
                    0 => w.write_bit(v == 1),
                    1 => w.write_u8(v as u8),
                    2 => w.write_i8(v as i8),
                    3 => w.write_u16(v as u16),
                    4 => w.write_i16(v as i16),
                    5 => w.write_u32(v as u32),
                    6 => w.write_i32(v as i32),
                    7 => panic!("write_f32 is outside the domain"),
                    8 => w.write_u64(v),
                    9 => w.write_i64(v as i64),
                    _ => w.write_f64(f64::from_bits(v)),
                }
                .unwrap()
            );
            wrote(m, out)
        }
        "Y" => {
            let bytes = unhex(a.unwrap_or(""));
            writer!(&mut m.writer, w, w.write_bytes(&bytes).unwrap());
            wrote(m, out)
        }
        "u" => {
            let v = writer!(&m.writer, w, w.unaligned_bits());
            write!(out, "0 {v:x}").unwrap()
        }
        "z" => {
            writer!(&mut m.writer, w, BitWriter::flush(w).unwrap());
            wrote(m, out)
        }
        "o" => {
            let bytes = m.seen();
            write!(out, "={}", spelled(&bytes)).unwrap()
        }
        "e" => {
            let v = bitter::sign_extend(hex(a), hex(b) as u32);
            write!(out, "0 {:x}", v as u64).unwrap()
        }
        // NaNs apart, which all become one
        "d" => {
            let x = f32::from_bits(hex(a) as u32);
            let v = if x.is_nan() { 0x7ff8_0000_0000_0000 } else { f64::from(x).to_bits() };
            write!(out, "0 {v:x}").unwrap()
        }
        "E" | "l" | "g" | "k" | "K" => panic!("outside the domain: {line}"),
        _ => (),
    }
}

fn answers(script: &str) -> String {
    let mut m = Machine::new();
    let mut all = String::new();
    let mut line_out = String::new();
    for line in script.lines() {
        line_out.clear();
        answer(&mut m, line, &mut line_out);
        if asks(line) {
            all.push_str(&line_out);
            all.push('\n');
        }
    }
    all
}

fn asks(line: &str) -> bool {
    line.starts_with(|c| "nbsfqhpcrymNwxFYuzoed".contains(c))
}

// ---- making scripts

struct Random(u64);

impl Random {
    fn next(&mut self) -> u64 {
        self.0 ^= self.0 << 13;
        self.0 ^= self.0 >> 7;
        self.0 ^= self.0 << 17;
        self.0.wrapping_mul(0x2545_F491_4F6C_DD1D)
    }
    fn below(&mut self, n: u64) -> u64 {
        self.next() % n
    }
    fn pick(&mut self, from: &[u64]) -> u64 {
        from[self.below(from.len() as u64) as usize]
    }
    fn bytes(&mut self, n: usize) -> Vec<u8> {
        (0..n).map(|_| self.next() as u8).collect()
    }
    // a value of w bits, with the ends of the range more often than chance has them
    fn value(&mut self, w: u32) -> u64 {
        let all = if w == 0 { 0 } else { u64::MAX >> (64 - w) };
        match self.below(8) {
            0 => 0,
            1 => all,
            2 => (all >> 1) + (w > 0) as u64,
            3 => all >> 1,
            _ => self.next() & all,
        }
    }
    fn width(&mut self) -> u64 {
        match self.below(3) {
            0 => self.pick(&[0, 1, 7, 8, 9, 31, 32, 33, 38, 55, 56, 57, 58, 63, 64]),
            1 => self.below(17),
            _ => self.below(65),
        }
    }
    // a NaN's pattern now and then
    fn float(&mut self, k: u64) -> u64 {
        let (top, digits) = if k == 7 { (0x7f80_0000u64, 0x7f_ffffu64) } else { (0x7ff0_0000_0000_0000, 0xf_ffff_ffff_ffff) };
        let all = if k == 7 { 0xffff_ffff } else { u64::MAX };
        let v = self.next() & all;
        match self.below(3) {
            0 => v | top,
            1 => (v & !digits) | top | 1,
            _ => v,
        }
    }
}

// Writes lines to files of at most a script's size, each with the lines that set it up.
struct Files {
    dir: String,
    name: String,
    count: usize,
    text: String,
}

const MOST: usize = 262_144;

impl Files {
    // starts a new script unless n bytes more fit
    fn room(&mut self, n: usize) -> bool {
        if self.text.len() + n <= MOST {
            return false;
        }
        self.end();
        true
    }
    fn end(&mut self) {
        if self.text.is_empty() {
            return;
        }
        let path = format!("{}/{}-{:04}", self.dir, self.name, self.count);
        std::fs::write(path, &self.text).unwrap();
        self.text.clear();
        self.count += 1;
    }
}

// The register of a legal cursor: the bits before the offset, at the low end (little) or the high end (big), the others zero.
fn register(little: bool, bytes: &[u8], offset: usize, lookahead: u32) -> u64 {
    let place = 8 * offset - lookahead as usize;
    let mut r = 0u64;
    for i in 0..lookahead as usize {
        let k = place + i;
        let bit = if little { bytes[k / 8] >> (k % 8) & 1 } else { bytes[k / 8] >> (7 - k % 8) & 1 } as u64;
        r |= if little { bit << i } else { bit << (63 - i) };
    }
    r
}

// Every legal cursor of every slice of `from` to `to` bytes, reached by calls or not, with every width, count and number of bytes.
fn make_cursors(f: &mut Files, rng: &mut Random, from: usize, to: usize) {
    for len in from..=to {
        for little in [true, false] {
            let bytes = rng.bytes(len);
            let setup = format!("{}\nS {}\n", if little { "L" } else { "B" }, spelled(&bytes));
            f.room(4096);
            f.text.push_str(&setup);
            for offset in 0..=len {
                for lookahead in 0..=63.min(8 * offset as u32) {
                    let at = format!("C {:x} {:x} {:x}\n", offset, lookahead, register(little, &bytes, offset, lookahead));
                    let mut calls: Vec<String> = Vec::new();
                    for w in 0..=64 {
                        calls.push(format!("b {w:x}"));
                    }
                    for w in [0, 1, 2, 8, 56, 57, 63, 64] {
                        calls.push(format!("s {w:x}"));
                    }
                    for k in 0..=10 {
                        calls.push(format!("f {k:x}"));
                    }
                    for n in 0..=(len - offset + lookahead as usize / 8 + 1) {
                        calls.push(format!("y {n:x}"));
                    }
                    for n in [0, 1.min(lookahead), lookahead / 2, lookahead] {
                        calls.push(format!("p {n:x}"));
                        calls.push(format!("c {n:x}"));
                    }
                    calls.push("r".into());
                    calls.push("m".into());
                    let left = 8 * (len - offset) + lookahead as usize;
                    for n in [0, left.saturating_sub(1), left, left + 1, usize::MAX] {
                        calls.push(format!("h {n:x}"));
                    }
                    for k in 0..=5 {
                        calls.push(format!("q {k:x}"));
                    }
                    for call in calls {
                        if f.room(at.len() + call.len() + 1) {
                            f.text.push_str(&setup);
                        }
                        f.text.push_str(&at);
                        f.text.push_str(&call);
                        f.text.push('\n');
                    }
                }
            }
        }
    }
    f.end();
}

// Random calls one after the other from a fresh cursor, on slices of lengths around every boundary.
fn make_reads(f: &mut Files, rng: &mut Random, count: usize) {
    while f.count < count {
        let little = rng.below(2) == 0;
        let len = match rng.below(4) {
            0 => rng.below(10),
            1 => rng.pick(&[7, 8, 9, 15, 16, 17, 23, 24, 25, 31, 32, 33]),
            2 => rng.below(64),
            _ => rng.below(300),
        } as usize;
        let bytes = rng.bytes(len);
        let mut m = Machine::new();
        let mut lines = vec![if little { "L".to_string() } else { "B".to_string() }, format!("S {}", spelled(&bytes)), "n".to_string()];
        let mut out = String::new();
        for l in &lines {
            answer(&mut m, l, &mut out);
        }
        for _ in 0..rng.below(60) {
            let ahead = m.lookahead() as u64;
            let line = match rng.below(16) {
                0..=5 => format!("b {:x}", rng.width()),
                6 => format!("s {:x}", rng.width()),
                7 | 8 => format!("f {:x}", rng.below(11)),
                9 => format!("q {:x}", rng.below(6)),
                10 => format!("h {:x}", rng.below(8 * len as u64 + 3)),
                11 => format!("p {:x}", rng.below(ahead + 1)),
                12 => format!("c {:x}", rng.below(ahead + 1)),
                13 => "r".to_string(),
                14 => {
                    let n = if rng.below(2) == 0 { rng.below(6) } else { rng.pick(&[15, 16, 17, 18, 31, 32, 33, 34, 48, 64]) };
                    format!("y {n:x}")
                }
                _ => "m".to_string(),
            };
            answer(&mut m, &line, &mut out);
            lines.push(line);
        }
        put_lines(f, &lines);
    }
    f.text.clear();
}

fn put_lines(f: &mut Files, lines: &[String]) {
    f.room(lines.iter().map(|l| l.len() + 1).sum());
    for l in lines {
        f.text.push_str(l);
        f.text.push('\n');
    }
}

// Random writes into an output that is exactly full at the end, or has some bytes more.
fn make_writes(f: &mut Files, rng: &mut Random, count: usize) {
    while f.count < count {
        let little = rng.below(2) == 0;
        let mut lines: Vec<String> = Vec::new();
        let mut bits = 0u64;
        for _ in 0..rng.below(40) {
            let (line, n) = match rng.below(12) {
                0..=4 => {
                    let w = rng.width();
                    let v = if w == 0 { rng.next() } else { rng.value(w as u32) };
                    (format!("w {w:x} {v:x}"), w)
                }
                5 => {
                    let w = rng.width();
                    (format!("x {:x} {:x}", w, rng.next()), w)
                }
                6 | 7 => {
                    // all but write_f32
                    let k = rng.pick(&[0, 1, 2, 3, 4, 5, 6, 8, 9, 10]);
                    let w = [1, 8, 8, 16, 16, 32, 32, 32, 64, 64, 64][k as usize];
                    let v = if k == 10 { rng.float(k) } else { rng.value(w as u32) };
                    (format!("F {k:x} {v:x}"), w)
                }
                8 | 9 => {
                    let n = if rng.below(2) == 0 { rng.below(5) } else { rng.pick(&[7, 8, 9, 15, 16, 17, 24, 33]) };
                    (format!("Y {}", spelled(&rng.bytes(n as usize))), 8 * n)
                }
                10 => ("z".to_string(), (8 - bits % 8) % 8),
                _ => ("u".to_string(), 0),
            };
            bits += n;
            lines.push(line);
            if rng.below(4) == 0 {
                lines.push("o".to_string());
            }
        }
        let size = bits.div_ceil(8) + if rng.below(2) == 0 { 0 } else { rng.below(4) };
        let mut all = vec![if little { "L".to_string() } else { "B".to_string() }, format!("O {:x} {:x}", size, rng.below(256)), "N".to_string()];
        all.append(&mut lines);
        all.extend(["o".to_string(), "z".to_string(), "o".to_string()]);
        put_lines(f, &all);
    }
    f.text.clear();
}

// Every number of held bits with every width and both orders, unsigned, signed and bytes, each into an output that it fills.
fn make_held(f: &mut Files, rng: &mut Random) {
    for little in [true, false] {
        for held in 0..8u64 {
            for w in 0..=64u64 {
                for _ in 0..6 {
                    let number = rng.value(held as u32);
                    let written = rng.below(4);
                    let size = written + (held + w).div_ceil(8);
                    let start = format!("{}\nO {:x} {:x}\nD {:x} {:x} {:x}\n", if little { "L" } else { "B" }, size, rng.below(256), written, held, number);
                    let call = if rng.below(2) == 0 {
                        format!("w {:x} {:x}", w, rng.value(w as u32))
                    } else {
                        format!("x {:x} {:x}", w, rng.next())
                    };
                    f.room(start.len() + call.len() + 7);
                    write!(f.text, "{start}{call}\no\nz\no\n").unwrap();
                }
            }
            for n in 0..40u64 {
                let bytes = rng.bytes(n as usize);
                let number = rng.value(held as u32);
                let start = format!("{}\nO {:x} {:x}\nD 1 {:x} {:x}\n", if little { "L" } else { "B" }, 1 + n + (held > 0) as u64, rng.below(256), held, number);
                f.room(start.len() + 2 * n as usize + 12);
                write!(f.text, "{start}Y {}\no\nz\no\n", spelled(&bytes)).unwrap();
            }
        }
    }
    f.end();
}

// sign_extend at every width, at the ends of its ranges and between.
fn make_signs(f: &mut Files, rng: &mut Random) {
    for w in 0..=64u32 {
        let all = if w == 0 { 0 } else { u64::MAX >> (64 - w) };
        for v in [0, 1 & all, all, all >> 1, (all >> 1) + (w > 0) as u64] {
            writeln!(f.text, "e {v:x} {w:x}").unwrap();
        }
        for _ in 0..100 {
            writeln!(f.text, "e {:x} {w:x}", rng.value(w)).unwrap();
        }
    }
    f.end();
}

// Singles as doubles: both signs of every exponent with the ends of its digits, so zeros, subnormals, normal numbers, infinities and NaNs,
// quiet and signalling; then at random, subnormals and NaNs more often than chance has them.
fn make_singles(f: &mut Files, rng: &mut Random, count: usize) {
    for sign in [0u64, 0x8000_0000] {
        for exponent in 0..256u64 {
            for digits in [0, 1, 0x3f_ffff, 0x40_0000, 0x7f_ffff] {
                writeln!(f.text, "d {:x}", sign | exponent << 23 | digits).unwrap();
            }
        }
    }
    while f.count < count {
        let v = match rng.below(8) {
            0 => rng.next() & 0x807f_ffff,
            1 => rng.float(7),
            _ => rng.next() & 0xffff_ffff,
        };
        f.room(11);
        writeln!(f.text, "d {v:x}").unwrap();
    }
    f.text.clear();
}

fn make(args: &[String]) {
    let (dir, kind, seed, count) = (&args[0], &args[1], args[2].parse::<u64>().unwrap(), args[3].parse::<usize>().unwrap());
    let mut rng = Random(seed.wrapping_mul(0x9E37_79B9_7F4A_7C15) | 1);
    let mut f = Files { dir: dir.clone(), name: format!("{kind}-{seed}"), count: 0, text: String::new() };
    match kind.as_str() {
        "cursors" => make_cursors(&mut f, &mut rng, 0, count),
        "reads" => make_reads(&mut f, &mut rng, count),
        "writes" => make_writes(&mut f, &mut rng, count),
        "held" => make_held(&mut f, &mut rng),
        "signs" => make_signs(&mut f, &mut rng),
        "singles" => make_singles(&mut f, &mut rng, count),
        _ => panic!("no such kind: {kind}"),
    }
}

fn main() {
    let args: Vec<String> = std::env::args().skip(1).collect();
    match args.first().map(|s| s.as_str()) {
        Some("make") => make(&args[1..]),
        Some("answer") => {
            let mut script = String::new();
            std::io::stdin().read_to_string(&mut script).unwrap();
            std::io::stdout().write_all(answers(&script).as_bytes()).unwrap();
        }
        _ => eprintln!("usage: driver answer < script | driver make DIR KIND SEED COUNT"),
    }
}
