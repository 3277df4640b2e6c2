// The library and the Rust in one process on the same input: rounds take turns, and what counts is the ratio of the least times.
//   driver               times every case, a line each: case|aim|ns of ours|ns of the Rust's|ratio|items|item; the ns of one item, aim 0 for none
//   driver once          runs both sides of every case once, for the counting of instructions
//   driver alone         times our sides alone, a line each: case|ns|items|item
//   driver once alone    runs our sides once, for the counting of instructions
//   driver list, pack    the Rust's own striplist and strippack, from standard input to standard output
//   driver strip, text   writes the strip and the text that those two are counted on
// ROUNDS is how many rounds are timed (25), SIZE how many bytes the input has (1 MiB), ONLY what the names of the cases contain, with '|'
// between the words. docs/SPEED.md tells how each case is made.
#![no_main] // the emulator that counts on Arm need not stand the set-up that comes before a main of Rust's own
use bitter::{BigEndianReader, BigEndianWriter, BitReader, BitWriter, LittleEndianReader, LittleEndianWriter};
use std::hint::black_box;
use std::io::{Read, Write};
use std::time::Instant;

extern "C" {
    fn bench_read_38_big(s: *const u8, l: usize, n: usize) -> u64;
    fn bench_read_38_little(s: *const u8, l: usize, n: usize) -> u64;
    fn bench_read_big(s: *const u8, l: usize, w: u32, n: usize) -> u64;
    fn bench_read_little(s: *const u8, l: usize, w: u32, n: usize) -> u64;
    fn bench_place_38_big(s: *const u8, l: usize) -> u64;
    fn bench_place_38_little(s: *const u8, l: usize) -> u64;
    fn bench_write_38_big(o: *mut u8, l: usize, v: *const u64, n: usize) -> u64;
    fn bench_write_38_little(o: *mut u8, l: usize, v: *const u64, n: usize) -> u64;
    fn bench_write_big(o: *mut u8, l: usize, w: u32, v: *const u64, n: usize) -> u64;
    fn bench_write_little(o: *mut u8, l: usize, w: u32, v: *const u64, n: usize) -> u64;
    fn bench_write_record(o: *mut u8, l: usize, v: *const u64, n: usize) -> u64;
    fn bench_fields_big(s: *const u8, l: usize, p: *const u8, pl: usize, r: *mut u64, rl: usize) -> u64;
    fn bench_fields_little(s: *const u8, l: usize, p: *const u8, pl: usize, r: *mut u64, rl: usize) -> u64;
    fn bench_run_big(s: *const u8, l: usize, p: *const u8, pl: usize, n: usize, r: *mut u64, rl: usize) -> u64;
    fn bench_run_little(s: *const u8, l: usize, p: *const u8, pl: usize, n: usize, r: *mut u64, rl: usize) -> u64;
    fn bench_compile(l: *const u8, n: usize, p: *mut u8, pl: usize) -> usize;
    fn bench_check(p: *const u8, l: usize) -> u32;
    fn bench_list_text(s: *const u8, l: usize, o: *mut u8, ol: usize) -> u64;
    fn bench_pack_text(t: *const u8, l: usize, o: *mut u8, ol: usize) -> u64;
    fn bench_strip_to_rows(s: *const u8, l: usize, o: *mut u8, ol: usize) -> u64;
    fn bench_rows_to_strip(r: *const u8, l: usize, o: *mut u8, ol: usize) -> u64;
    fn bench_read_strip(s: *const u8, l: usize, v: *mut u64, n: usize) -> usize;
    fn bench_pack_strip(v: *const u64, l: usize, n: usize, o: *mut u8, ol: usize) -> usize;
    fn bench_vet_strip(s: *const u8, l: usize) -> u64;
    fn bench_read_bytes_big(s: *const u8, l: usize, skip: u32, b: *mut u8, bl: usize, times: usize) -> u64;
    fn bench_read_bytes_little(s: *const u8, l: usize, skip: u32, b: *mut u8, bl: usize, times: usize) -> u64;
    fn bench_write_bytes_big(o: *mut u8, l: usize, skip: u32, b: *const u8, bl: usize, times: usize) -> u64;
    fn bench_write_bytes_little(o: *mut u8, l: usize, skip: u32, b: *const u8, bl: usize, times: usize) -> u64;
    fn syscall(number: i64, ...) -> i64;
}

const MIB: usize = 1 << 20;
const LIMIT: usize = 1 << 24;
const AGAIN: usize = 64; // a layout compiled, a plan checked this often

// The widths of the record, its magnitude signed.
const RECORD: [(u8, u8); 6] = [(0, 20), (0, 38), (0, 1), (1, 16), (0, 10), (0, 4)];
// Wide and signed fields among short ones.
const MIXED: [(u8, u8); 8] = [(0, 64), (1, 13), (0, 1), (1, 57), (0, 20), (1, 64), (0, 7), (1, 33)];

// Fields of 1 to 41 bits, every fifth signed.
fn many(fields: u8) -> Vec<(u8, u8)> {
    (0..fields).map(|k| (k % 5 / 4, 1 + (k as u32 * 29 % 41) as u8)).collect()
}

// What both sides work on, and where they put what they make.
struct Bench {
    size: usize,
    src: Vec<u8>,
    values: Vec<u64>,  // of 38 bits, as many as the size has
    numbers: Vec<u64>, // six a record, as many as the size has
    chunk: Vec<u8>,
    strip: Vec<u8>,
    text: Vec<u8>,
    camera: Vec<u8>, // a text with eight date decimals, as cameras give them
    whole: Vec<u8>, // the strip of the numbers whose rows are within the limit
    rows: Vec<u8>,  // those rows
    kept: Vec<u8>,  // a strip of as many records as the size has, which keeps the rules
    layout: Vec<(u8, u8)>,
    bytes: Vec<u8>, // the layout's
    plan: Vec<u8>,
    out: Vec<u8>,
    page: Vec<u8>,
    table: Vec<u8>, // room for the rows
    buffer: Vec<u8>,
    list: Vec<u64>, // room for six a record
    results: Vec<u64>,
}

fn random(seed: u64) -> impl FnMut() -> u64 {
    let mut x = seed;
    move || {
        x ^= x << 13;
        x ^= x >> 7;
        x ^= x << 17;
        x
    }
}

// The sizes of the strip that is listed and of the text that is packed. Where the size is 1 MiB they are 64 KiB, the most that the
// programs take; a strip of 16 MiB would have a text past the limit.
fn text_sizes(size: usize) -> (usize, usize) {
    match size {
        MIB => (65536, 65536),
        LIMIT => (LIMIT / 4, LIMIT),
        _ => (size, size),
    }
}

// How many bytes are read or written at once, and how often: 15 times 64 KiB of 1 MiB, and else 15 of 16 bytes by one call.
fn chunks(size: usize) -> (usize, usize) {
    match size {
        MIB => (65536, 15),
        _ => (size / 16 * 15, 1),
    }
}

impl Bench {
    fn new(size: usize) -> Bench {
        let mut next = random(0x9E37_79B9_7F4A_7C15);
        let src: Vec<u8> = (0..size).map(|_| (next() >> 32) as u8).collect();
        let mut numbers = Vec::new();
        for _ in 0..8 * size / 89 {
            numbers.extend([next() % (1 << 20), next() % (1 << 38), next() % 2, next() as i16 as i64 as u64, next() % 1024, next() % 16]);
        }
        let mut b = Bench {
            size,
            src,
            values: (0..8 * size / 38).map(|_| next() % (1 << 38)).collect(),
            chunk: (0..chunks(size).0).map(|_| (next() >> 32) as u8).collect(),
            strip: Vec::new(),
            text: Vec::new(),
            camera: Vec::new(),
            whole: Vec::new(),
            rows: Vec::new(),
            kept: Vec::new(),
            layout: Vec::new(),
            bytes: Vec::new(),
            plan: Vec::new(),
            out: Vec::new(),
            page: Vec::new(),
            table: Vec::new(),
            buffer: Vec::new(),
            list: Vec::new(),
            results: Vec::new(),
            numbers,
        };
        let (strip_size, text_size) = text_sizes(size);
        let records = |bytes: usize| (8 * bytes / 89).min(b.numbers.len() / 6);
        rust_write_records(&mut b.strip, &b.numbers[..6 * records(strip_size)]);
        // a record takes more bytes as text than as bits, so these have text enough
        let mut all = Vec::new();
        rust_write_records(&mut all, &b.numbers[..6 * records(text_size / 2)]);
        texts::write(&all, &mut b.text);
        b.camera = texts::longer(&b.text, next);
        for text in [&mut b.text, &mut b.camera] {
            text.truncate(text_size);
            let end = text.iter().rposition(|&c| c == b'\n').expect("a line");
            text.truncate(end + 1);
        }
        let most = b.numbers.len().min(LIMIT / tables::ROW * 6);
        rust_write_records(&mut b.whole, &b.numbers[..most]);
        b.rows = b.numbers[..most].chunks_exact(6).flat_map(tables::row).collect();
        // the records with their dates in order, filters up to 9, and error 0 only with limit 1
        let mut dates: Vec<u64> = b.numbers.chunks_exact(6).map(|six| six[1]).collect();
        dates.sort_unstable();
        let keep = |(six, date): (&[u64], u64)| [six[0], date, if six[4] == 0 { 1 } else { six[2] }, six[3], six[4], six[5] % 10];
        let numbers: Vec<u64> = b.numbers.chunks_exact(6).zip(dates).flat_map(keep).collect();
        rust_write_records(&mut b.kept, &numbers);
        b
    }

    fn set_layout(&mut self, layout: &[(u8, u8)]) {
        self.bytes = layout.iter().flat_map(|f| [f.0, f.1]).collect();
        self.plan = vec![0; 256];
        let n = unsafe { bench_compile(self.bytes.as_ptr(), self.bytes.len(), self.plan.as_mut_ptr(), self.plan.len()) };
        self.plan.truncate(n);
        self.layout = layout.to_vec();
    }

    fn page_size(&self) -> usize {
        // the longest line has 41 bytes; the header and a bad tail have 40
        (40 + 41 * (8 * self.strip.len() / 89)).min(LIMIT)
    }

    // The Rust's writers shorten what they write to; ours want all of it.
    fn full(&mut self) {
        self.out.resize(self.size, 0);
        self.page.resize(self.page_size(), 0);
        self.table.resize(self.rows.len(), 0);
        self.buffer.resize(self.chunk.len(), 0);
        self.list.resize(self.numbers.len(), 0);
        self.results.resize(self.layout.len(), 0);
    }

    fn clear(&mut self) {
        self.out.clear();
        self.page.clear();
        self.table.clear();
        self.buffer.clear();
        self.list.clear();
        self.results.clear();
        self.full();
    }
}

// ---- the Rust's loops; a width that is constant is spelled out

macro_rules! rust_reads {
    ($fixed:ident, $given:ident, $fields:ident, $bytes:ident, $reader:ident) => {
        #[inline(never)]
        fn $fixed(s: &[u8]) -> u64 {
            let mut r = $reader::new(s);
            let mut sum = 0;
            while let Some(v) = r.read_bits(38) {
                sum ^= v;
            }
            sum
        }
        #[inline(never)]
        fn $given(s: &[u8], w: u32) -> u64 {
            let mut r = $reader::new(s);
            let mut sum = 0;
            while let Some(v) = r.read_bits(w) {
                sum ^= v;
            }
            sum
        }
        #[inline(never)]
        fn $fields(s: &[u8], layout: &[(u8, u8)], results: &mut [u64], times: usize) -> u64 {
            let mut r = $reader::new(s);
            let mut sum = 0;
            for _ in 0..times {
                for (f, out) in layout.iter().zip(results.iter_mut()) {
                    let w = f.1 as u32;
                    let v = if f.0 == 1 { r.read_signed_bits(w).map(|v| v as u64) } else { r.read_bits(w) };
                    match v {
                        Some(v) => *out = v,
                        None => return sum,
                    }
                }
                for v in results.iter() {
                    sum ^= v;
                }
            }
            sum
        }
        #[inline(never)]
        fn $bytes(s: &[u8], skip: u32, buf: &mut [u8], times: usize) -> u64 {
            let mut r = $reader::new(s);
            r.read_bits(skip);
            let mut sum = 0;
            for _ in 0..times {
                if !r.read_bytes(buf) {
                    return sum;
                }
                sum ^= buf[0] as u64;
            }
            sum
        }
    };
}
rust_reads!(rust_read_38_big, rust_read_big, rust_fields_big, rust_read_bytes_big, BigEndianReader);
rust_reads!(rust_read_38_little, rust_read_little, rust_fields_little, rust_read_bytes_little, LittleEndianReader);

macro_rules! rust_writes {
    ($fixed:ident, $given:ident, $bytes:ident, $writer:ident) => {
        #[inline(never)]
        fn $fixed(out: &mut Vec<u8>, values: &[u64]) -> u64 {
            out.clear();
            let mut w = $writer::new(std::mem::take(out));
            for &v in values {
                w.write_bits(38, v).unwrap();
            }
            *out = w.into_inner().unwrap();
            out.len() as u64
        }
        #[inline(never)]
        fn $given(out: &mut Vec<u8>, width: u32, values: &[u64]) -> u64 {
            out.clear();
            let mut w = $writer::new(std::mem::take(out));
            for &v in values {
                w.write_bits(width, v).unwrap();
            }
            *out = w.into_inner().unwrap();
            out.len() as u64
        }
        #[inline(never)]
        fn $bytes(out: &mut Vec<u8>, skip: u32, buf: &[u8], times: usize) -> u64 {
            out.clear();
            let mut w = $writer::new(std::mem::take(out));
            w.write_bits(skip, 0).unwrap();
            for _ in 0..times {
                w.write_bytes(buf).unwrap();
            }
            *out = w.into_inner().unwrap();
            out.len() as u64
        }
    };
}
rust_writes!(rust_write_38_big, rust_write_big, rust_write_bytes_big, BigEndianWriter);
rust_writes!(rust_write_38_little, rust_write_little, rust_write_bytes_little, LittleEndianWriter);

// Six numbers a record, into a list.
#[inline(never)]
fn rust_read_strip(s: &[u8], list: &mut [u64]) -> usize {
    let mut r = BigEndianReader::new(s);
    let mut count = 0;
    for six in list.chunks_exact_mut(6) {
        let mut fill = || {
            six[0] = r.read_bits(20)?;
            six[1] = r.read_bits(38)?;
            six[2] = r.read_bits(1)?;
            six[3] = r.read_signed_bits(16)? as u64;
            six[4] = r.read_bits(10)?;
            six[5] = r.read_bits(4)?;
            Some(())
        };
        if fill().is_none() {
            return count;
        }
        count += 1;
    }
    count
}

#[inline(never)]
fn rust_write_records(out: &mut Vec<u8>, numbers: &[u64]) -> u64 {
    out.clear();
    let mut w = BigEndianWriter::new(std::mem::take(out));
    for six in numbers.chunks_exact(6) {
        w.write_bits(20, six[0]).unwrap();
        w.write_bits(38, six[1]).unwrap();
        w.write_bits(1, six[2]).unwrap();
        w.write_bits(16, six[3] % 0x1_0000).unwrap();
        w.write_bits(10, six[4]).unwrap();
        w.write_bits(4, six[5]).unwrap();
    }
    *out = w.into_inner().unwrap();
    out.len() as u64
}

// ---- the Rust's texts: integers only, safe, one pass, and what was written is taken back where the text or the room is refused

mod texts {
    use bitter::{BigEndianReader, BigEndianWriter, BitReader, BitWriter};

    const HEADER: &[u8] = b"star,date,limit,mag,err,filter\n";
    const TOO_LONG: u32 = 1;
    const BAD_LINE: u32 = 7;
    const NO_ROOM: u32 = 8;

    // A line, spelled from its end.
    struct Line {
        bytes: [u8; 48],
        at: usize,
    }

    impl Line {
        fn byte(&mut self, b: u8) {
            self.at -= 1;
            self.bytes[self.at] = b;
        }
        fn whole(&mut self, mut n: u32) {
            loop {
                self.byte(b'0' + (n % 10) as u8);
                n /= 10;
                if n == 0 {
                    return;
                }
            }
        }
        fn fixed(&mut self, whole: u32, mut decimals: u32, places: u32) {
            for _ in 0..places {
                self.byte(b'0' + (decimals % 10) as u8);
                decimals /= 10;
            }
            self.byte(b'.');
            self.whole(whole);
        }
    }

    // A text with three more decimals behind each date.
    pub fn longer(text: &[u8], mut next: impl FnMut() -> u64) -> Vec<u8> {
        let mut commas = 0;
        let mut out = Vec::new();
        for &c in text {
            commas = if c == b'\n' { 0 } else { commas + (c == b',') as u32 };
            if c == b',' && commas == 2 && out.len() > HEADER.len() {
                out.extend(format!("{:03}", next() % 1000).bytes());
            }
            out.push(c);
        }
        out
    }

    // The text of a strip.
    pub fn write(strip: &[u8], out: &mut Vec<u8>) -> Option<()> {
        out.extend_from_slice(HEADER);
        let mut r = BigEndianReader::new(strip);
        for _ in 0..8 * strip.len() / 89 {
            let star = r.read_bits(20)? as u32;
            let date = r.read_bits(38)?;
            let limit = r.read_bits(1)? as u32;
            let magnitude = r.read_signed_bits(16)? as i32;
            let error = r.read_bits(10)? as u32;
            let filter = r.read_bits(4)? as u32;
            let mut line = Line { bytes: [0; 48], at: 48 };
            line.byte(b'\n');
            line.whole(filter);
            line.byte(b',');
            line.fixed(error / 1000, error % 1000, 3);
            line.byte(b',');
            let size = magnitude.unsigned_abs();
            line.fixed(size / 1000, size % 1000, 3);
            if magnitude < 0 {
                line.byte(b'-');
            }
            line.byte(b',');
            line.whole(limit);
            line.byte(b',');
            line.fixed((date / 100_000) as u32, (date % 100_000) as u32, 5);
            line.byte(b',');
            line.whole(star);
            out.extend_from_slice(&line.bytes[line.at..]);
        }
        let left = (8 * strip.len() % 89) as u32;
        if left >= 8 || r.read_bits(left)? != 0 {
            out.extend_from_slice(b"bad tail\n");
        }
        Some(())
    }

    // The same with its refusals.
    #[inline(never)]
    pub fn list(strip: &[u8], room: usize, out: &mut Vec<u8>) -> Result<usize, u32> {
        out.clear();
        if strip.len() > super::LIMIT || room > super::LIMIT {
            return Err(TOO_LONG);
        }
        if write(strip, out).is_none() || out.len() > room {
            out.clear();
            return Err(NO_ROOM);
        }
        Ok(out.len())
    }

    // The digits at the front: their value, if they are few, and how many there are.
    fn digits(s: &[u8]) -> (u64, usize) {
        let mut value = 0u64;
        let mut n = 0;
        while n < s.len() {
            let d = s[n].wrapping_sub(b'0');
            if d > 9 {
                break;
            }
            value = value.wrapping_mul(10).wrapping_add(d as u64);
            n += 1;
        }
        (value, n)
    }

    // A whole part, and what stands behind the byte that ends it.
    fn whole(s: &[u8], end: u8) -> Option<(u64, &[u8])> {
        let (value, n) = digits(s);
        // of twelve digits at most: more fit no field
        if n == 0 || n > 12 || (n > 1 && s[0] == b'0') || s.get(n) != Some(&end) {
            return None;
        }
        Some((value, &s[n + 1..]))
    }

    // A number with three decimals and a comma, in thousandths.
    fn thousandths(s: &[u8]) -> Option<(u64, &[u8])> {
        let (days, s) = whole(s, b'.')?;
        let (value, n) = digits(s);
        if n != 3 || s.get(3) != Some(&b',') {
            return None;
        }
        Some((1000 * days + value, &s[4..]))
    }

    // A date and its comma, in units of 0.00001 day.
    fn date(s: &[u8]) -> Option<(u64, &[u8])> {
        let (days, s) = whole(s, b'.')?;
        let (value, n) = digits(s);
        if !(5..=12).contains(&n) || s.get(n) != Some(&b',') {
            return None;
        }
        // to the nearest unit, halves upward
        let nearest = |unit: u64| (value + unit / 2) / unit;
        let units = if n == 5 { value } else { nearest(10u64.pow(n as u32 - 5)) };
        Some((100_000 * days + units, &s[n + 1..]))
    }

    // A magnitude and its comma, as 16 bits.
    fn magnitude(s: &[u8]) -> Option<(u64, &[u8])> {
        if let Some(s) = s.strip_prefix(b"-") {
            let (n, s) = thousandths(s)?;
            return if (1..=0x8000).contains(&n) { Some((0x1_0000 - n, s)) } else { None };
        }
        let (n, s) = thousandths(s)?;
        if n < 0x8000 { Some((n, s)) } else { None }
    }

    // Packs the line at the front; the answer is what stands behind it.
    fn line<'a>(s: &'a [u8], w: &mut BigEndianWriter<Vec<u8>>) -> Option<&'a [u8]> {
        let (star, s) = whole(s, b',')?;
        let (date, s) = date(s)?;
        let (limit, s) = whole(s, b',')?;
        let (magnitude, s) = magnitude(s)?;
        let (error, s) = thousandths(s)?;
        let (filter, s) = whole(s, b'\n')?;
        if star >= 1 << 20 || date >= 1 << 38 || limit >= 2 || error >= 1 << 10 || filter >= 1 << 4 {
            return None;
        }
        w.write_bits(20, star).ok()?;
        w.write_bits(38, date).ok()?;
        w.write_bits(1, limit).ok()?;
        w.write_bits(16, magnitude).ok()?;
        w.write_bits(10, error).ok()?;
        w.write_bits(4, filter).ok()?;
        Some(s)
    }

    // Packs the lines behind the header: a refusal, and the number of a bad line.
    fn lines(text: &[u8], room: usize, w: &mut BigEndianWriter<Vec<u8>>) -> Result<(), (u32, usize)> {
        let mut rest = text.strip_prefix(HEADER).ok_or((BAD_LINE, 1))?;
        let mut count = 0;
        while !rest.is_empty() {
            rest = line(rest, w).ok_or((BAD_LINE, count + 2))?;
            count += 1;
        }
        if 8 * room / 89 < count {
            return Err((NO_ROOM, 0));
        }
        Ok(())
    }

    // The strip of a text.
    #[inline(never)]
    pub fn pack(text: &[u8], room: usize, out: &mut Vec<u8>) -> Result<usize, (u32, usize)> {
        out.clear();
        if text.len() > super::LIMIT || room > super::LIMIT {
            return Err((TOO_LONG, 0));
        }
        let mut w = BigEndianWriter::new(std::mem::take(out));
        let packed = lines(text, room, &mut w);
        *out = w.into_inner().expect("a Vec takes every byte");
        if packed.is_err() {
            out.clear();
        }
        packed.map(|()| out.len())
    }
}

fn rust_list_text(strip: &[u8], room: usize, out: &mut Vec<u8>) -> u64 {
    match texts::list(strip, room, out) {
        Ok(n) => (n as u64) << 32,
        Err(refusal) => refusal as u64,
    }
}

fn rust_pack_text(text: &[u8], room: usize, out: &mut Vec<u8>) -> u64 {
    match texts::pack(text, room, out) {
        Ok(n) => (n as u64) << 32,
        Err((refusal, line)) => refusal as u64 | (line as u64) << 4,
    }
}

// Texts and strips that are refused, and some that are just not, have to get the same answer and output from both.
fn texts_agree() {
    let header = "star,date,limit,mag,err,filter\n";
    let good = "5,2460523.64817,0,-1.440,0.012,3\n";
    let bad = [
        "05,1.00000,0,1.000,0.000,0\n", ",1.00000,0,1.000,0.000,0\n", "1048576,1.00000,0,1.000,0.000,0\n", "1,1.0000,0,1.000,0.000,0\n",
        "1,1.0000000000000,0,1.000,0.000,0\n", "1,2748779.06944,0,1.000,0.000,0\n", "1,1.00000,2,1.000,0.000,0\n", "1,1.00000,0,-0.000,0.000,0\n",
        "1,1.00000,0,32.768,0.000,0\n", "1,1.00000,0,-32.769,0.000,0\n", "1,1.00000,0,1.00,0.000,0\n", "1,1.00000,0,1.000,1.024,0\n",
        "1,1.00000,0,1.000,-0.001,0\n", "1,1.00000,0,1.000,0.000,16\n", "1,1.00000,0,1.000,0.000,0", "1,1.00000,0,1.000,0.000,0\r\n",
        "+1,1.00000,0,1.000,0.000,0\n", "1,1.00000,0,1.000,0.000,0,\n", "\n", "100000000000000000000000001,1.00000,0,1.000,0.000,0\n",
        "1,100000000000000000000.00000,0,1.000,0.000,0\n", "18446744073709551617,1.00000,0,1.000,0.000,0\n",
        "1,2748779.069435,0,1.000,0.000,0\n", "1,2748779.069439999999,0,1.000,0.000,0\n", "1,100000000000000000000.999999,0,1.000,0.000,0\n",
    ];
    let fine = [
        "1048575,2748779.069434999999,1,-32.768,1.023,15\n", "0,0.00000,0,32.767,0.000,0\n", "1,1.000009,0,0.000,0.000,0\n",
        "1,0.123456789012,0,-0.001,0.001,1\n", "1,0.999995,0,0.000,0.000,0\n", "1,2460523.999994999999,0,0.000,0.000,0\n", "",
    ];
    // dates of 6 to 12 decimals on both sides of a half
    let halves = (6..=12).flat_map(|n| [("4", "9"), ("5", "0"), ("0", "0"), ("9", "9")].map(|(six, more)| format!("1,9.99999{six}{},0,0.000,0.000,0\n", more.repeat(n - 6))));
    let mut all: Vec<String> = vec![String::new(), header[..30].to_string(), header.to_uppercase()];
    for line in bad.iter().chain(&fine).map(|line| line.to_string()).chain(halves) {
        all.push(format!("{header}{line}"));
        all.push(format!("{header}{good}{line}"));
        all.push(format!("{header}{good}{line}{good}"));
    }
    for room in [0, 11, 12, 23, 64] {
        for text in &all {
            let (mut ours, mut theirs) = (vec![0; room], Vec::new());
            let a = unsafe { bench_pack_text(text.as_ptr(), text.len(), ours.as_mut_ptr(), room) };
            let b = rust_pack_text(text.as_bytes(), room, &mut theirs);
            theirs.resize(room, 0);
            assert_eq!((a, &ours), (b, &theirs), "packing into {room} bytes: {text}");
        }
    }
    let mut next = random(7);
    for room in [0, 30, 31, 39, 40, 100, 1 << 10, LIMIT, LIMIT + 1] {
        for n in 0..40 {
            for zeros in [false, true] {
                let strip: Vec<u8> = (0..n).map(|_| if zeros { 0 } else { (next() >> 32) as u8 }).collect();
                let (mut ours, mut theirs) = (vec![0; room], Vec::new());
                let a = unsafe { bench_list_text(strip.as_ptr(), n, ours.as_mut_ptr(), room) };
                let b = rust_list_text(&strip, room, &mut theirs);
                assert!(a == b && ours.starts_with(&theirs), "listing {strip:?} into {room} bytes");
            }
        }
    }
}

// ---- the Rust's rows of a FITS table: safe, one pass, the lengths and the strip's tail tested first, as ours does

mod tables {
    use bitter::{BigEndianReader, BigEndianWriter, BitReader, BitWriter};

    pub const ROW: usize = 18;
    const TOO_LONG: u32 = 1;
    const NO_ROOM: u32 = 8;
    const BAD_ROW: u32 = 11;

    // The row of six numbers.
    pub fn row(six: &[u64]) -> [u8; ROW] {
        let mut row = [0; ROW];
        row[..4].copy_from_slice(&(six[0] as i32).to_be_bytes());
        row[4..12].copy_from_slice(&(six[1] as i64).to_be_bytes());
        row[12] = if six[2] == 1 { b'T' } else { b'F' };
        row[13..15].copy_from_slice(&(six[3] as i16).to_be_bytes());
        row[15..17].copy_from_slice(&(six[4] as i16).to_be_bytes());
        row[17] = six[5] as u8;
        row
    }

    // The rows of a strip: their length, nothing where the tail is bad, or a refusal.
    #[inline(never)]
    pub fn write(strip: &[u8], out: &mut [u8]) -> Result<Option<usize>, u32> {
        if strip.len() > super::LIMIT || out.len() > super::LIMIT {
            return Err(TOO_LONG);
        }
        let records = 8 * strip.len() / 89;
        if out.len() < ROW * records {
            return Err(NO_ROOM);
        }
        let left = 8 * strip.len() % 89;
        if left >= 8 || (left > 0 && strip[strip.len() - 1] % (1 << left) != 0) {
            return Ok(None);
        }
        let mut r = BigEndianReader::new(strip);
        for row in out.chunks_exact_mut(ROW).take(records) {
            let mut fill = || {
                row[..4].copy_from_slice(&(r.read_bits(20)? as i32).to_be_bytes());
                row[4..12].copy_from_slice(&(r.read_bits(38)? as i64).to_be_bytes());
                row[12] = if r.read_bits(1)? == 1 { b'T' } else { b'F' };
                row[13..15].copy_from_slice(&(r.read_bits(16)? as u16).to_be_bytes());
                row[15..17].copy_from_slice(&(r.read_bits(10)? as i16).to_be_bytes());
                row[17] = r.read_bits(4)? as u8;
                Some(())
            };
            if fill().is_none() {
                return Ok(None);
            }
        }
        Ok(Some(ROW * records))
    }

    // Packs a row that says a record.
    #[inline(always)]
    fn put(row: &[u8], w: &mut BigEndianWriter<Vec<u8>>) -> Option<()> {
        let star = i32::from_be_bytes(row[..4].try_into().ok()?);
        let date = i64::from_be_bytes(row[4..12].try_into().ok()?);
        let magnitude = i16::from_be_bytes(row[13..15].try_into().ok()?);
        let error = i16::from_be_bytes(row[15..17].try_into().ok()?);
        let filter = row[17];
        let limit = match row[12] {
            b'T' => 1,
            b'F' => 0,
            _ => return None,
        };
        if !(0..1 << 20).contains(&star) || !(0..1 << 38).contains(&date) || !(0..1 << 10).contains(&error) || filter >= 1 << 4 {
            return None;
        }
        w.write_bits(20, star as u64).ok()?;
        w.write_bits(38, date as u64).ok()?;
        w.write_bits(1, limit).ok()?;
        w.write_bits(16, magnitude as u16 as u64).ok()?;
        w.write_bits(10, error as u64).ok()?;
        w.write_bits(4, filter as u64).ok()
    }

    // The strip of rows: its length, nothing where the last row is cut, or a refusal and the number of a bad row.
    #[inline(never)]
    pub fn pack(rows: &[u8], room: usize, out: &mut Vec<u8>) -> Result<Option<usize>, (u32, usize)> {
        out.clear();
        if rows.len() > super::LIMIT || room > super::LIMIT {
            return Err((TOO_LONG, 0));
        }
        if 8 * room / 89 < rows.len() / ROW {
            return Err((NO_ROOM, 0));
        }
        let mut w = BigEndianWriter::new(std::mem::take(out));
        let bad = rows.chunks_exact(ROW).position(|row| put(row, &mut w).is_none());
        *out = w.into_inner().expect("a Vec takes every byte");
        if let Some(k) = bad {
            out.clear();
            return Err((BAD_ROW, k + 1));
        }
        if rows.len() % ROW != 0 {
            out.clear();
            return Ok(None);
        }
        Ok(Some(out.len()))
    }
}

// A length, or that there is none since the tail is bad, as our loops answer it.
fn told(made: Option<usize>) -> u64 {
    made.map_or(0, |n| (n as u64) << 32 | 1 << 31)
}

fn rust_strip_to_rows(strip: &[u8], out: &mut [u8]) -> u64 {
    tables::write(strip, out).map_or_else(|refusal| refusal as u64, told)
}

fn rust_rows_to_strip(rows: &[u8], room: usize, out: &mut Vec<u8>) -> u64 {
    tables::pack(rows, room, out).map_or_else(|(refusal, row)| refusal as u64 | (row as u64) << 4, told)
}

// The same for rows: each number at the edges of its field and past them, other letters, cut rows, short strips and too little room.
fn rows_agree() {
    let good = tables::row(&[5, 246_052_364_817, 0, -1440i64 as u64, 12, 3]);
    let mut all: Vec<Vec<u8>> = vec![Vec::new()];
    // where a number stands, how many bytes it has, and those that are tried
    let tried: [(usize, usize, &[i64]); 6] = [
        (0, 4, &[0, 1, 0xF_FFFF, 0x10_0000, 0x100_0000, 0x7FFF_FFFF, -0x8000_0000, -1]),
        (4, 8, &[0, 1, 0x3F_FFFF_FFFF, 0x40_0000_0000, 0x1_0000_0000_0000, i64::MAX, i64::MIN, -1]),
        (12, 1, &[0, 1, 0x46, 0x54, 0x45, 0x47, 0x53, 0x55, 0x66, 0x74, 0x20, 0x30, 0x31, 0xFF]),
        (13, 2, &[0, 1, 0x7FFF, -0x8000, -1]),
        (15, 2, &[0, 1, 0x3FF, 0x400, 0x7FFF, -0x8000, -1]),
        (17, 1, &[0, 1, 15, 16, 0x7F, 0x80, 0xFF]),
    ];
    for (at, n, numbers) in tried {
        for number in numbers {
            let mut row = good;
            row[at..at + n].copy_from_slice(&number.to_be_bytes()[8 - n..]);
            for text in [vec![row], vec![good, row], vec![good, row, good], vec![row, row, good]] {
                let bytes = text.concat();
                all.extend([0, 1, 17].map(|cut| bytes[..bytes.len() - cut].to_vec()));
            }
        }
    }
    for room in [0, 11, 12, 22, 23, 33, 34, 64] {
        for rows in &all {
            let (mut ours, mut theirs) = (vec![0; room], Vec::new());
            let a = unsafe { bench_rows_to_strip(rows.as_ptr(), rows.len(), ours.as_mut_ptr(), room) };
            let b = rust_rows_to_strip(rows, room, &mut theirs);
            theirs.resize(room, 0);
            assert!(a == b && ours == theirs, "packing rows into {room} bytes: {rows:?}");
        }
    }
    let mut next = random(7);
    for room in [0, 17, 18, 35, 36, 54, 72, LIMIT, LIMIT + 1] {
        for n in 0..40 {
            for bits in [0, 1, 8] {
                // the last byte has so many bits that may not be zero
                let mut strip: Vec<u8> = (0..n).map(|_| (next() >> 32) as u8).collect();
                if let Some(last) = strip.last_mut() {
                    *last &= ((1u32 << bits) - 1) as u8;
                }
                let (mut ours, mut theirs) = (vec![0; room], vec![0; room]);
                let a = unsafe { bench_strip_to_rows(strip.as_ptr(), n, ours.as_mut_ptr(), room) };
                let b = rust_strip_to_rows(&strip, &mut theirs);
                assert!(a == b && ours == theirs, "rows of {strip:?} into {room} bytes");
            }
        }
    }
}

// ---- the Rust's verdict on a strip: safe, one pass, the tail behind the records

mod rules {
    use bitter::{BigEndianReader, BitReader};

    const TOO_LONG: u32 = 1;

    pub enum Verdict {
        Fine,
        Broken(usize, u32),
        BadTail,
        Refused(u32),
    }

    // The first record at fault and the first rule that it breaks, else what the tail is.
    #[inline(never)]
    pub fn vet(strip: &[u8]) -> Verdict {
        if strip.len() > super::LIMIT {
            return Verdict::Refused(TOO_LONG);
        }
        let mut r = BigEndianReader::new(strip);
        let mut six = || Some([r.read_bits(20)?, r.read_bits(38)?, r.read_bits(1)?, r.read_bits(16)?, r.read_bits(10)?, r.read_bits(4)?]);
        let mut number = 1;
        let mut above = 0;
        while let Some([_, date, limit, _, error, filter]) = six() {
            if date < above {
                return Verdict::Broken(number, 1);
            }
            if filter > 9 {
                return Verdict::Broken(number, 2);
            }
            if error == 0 && limit != 1 {
                return Verdict::Broken(number, 3);
            }
            number += 1;
            above = date;
        }
        let left = 8 * strip.len() % 89;
        if left >= 8 || (left > 0 && strip[strip.len() - 1] % (1 << left) != 0) {
            return Verdict::BadTail;
        }
        Verdict::Fine
    }
}

// The verdict as a number, as our loop answers it.
fn rust_vet_strip(strip: &[u8]) -> u64 {
    match rules::vet(strip) {
        rules::Verdict::Fine => 0,
        rules::Verdict::Broken(number, rule) => rule as u64 | (number as u64) << 3,
        rules::Verdict::BadTail => 4,
        rules::Verdict::Refused(refusal) => (refusal as u64) << 32,
    }
}

// The same for verdicts: strips that break a rule at any record, that just don't, that break several; all with good and bad tails; short
// strips, and the longest. The strip that is timed has to keep the rules.
fn verdicts_agree(timed: &[u8]) {
    assert_eq!(rust_vet_strip(timed), 0, "the strip that is timed breaks a rule");
    let agree = |strip: &[u8]| {
        let ours = unsafe { bench_vet_strip(strip.as_ptr(), strip.len()) };
        assert!(ours == rust_vet_strip(strip), "vetting {} bytes: {:?}", strip.len(), &strip[..strip.len().min(128)]);
    };
    let good = [5, 246_052_364_817, 0, -1440i64 as u64, 12, 3];
    let (before, after) = (good[1] - 1, good[1] + 1);
    // where numbers of a record stand, and what they become
    let tried: &[&[(usize, u64)]] = &[
        &[], &[(1, 0)], &[(1, before)], &[(1, after)], &[(1, (1 << 38) - 1)], &[(5, 0)], &[(5, 9)], &[(5, 10)], &[(5, 15)],
        &[(4, 0)], &[(4, 0), (2, 1)], &[(4, 1)], &[(4, 1), (2, 1)], &[(0, 0xF_FFFF), (3, -1i64 as u64), (4, 0)],
        &[(1, before), (5, 10)], &[(1, before), (4, 0)], &[(5, 10), (4, 0)], &[(1, before), (5, 10), (4, 0)],
    ];
    for n in 1..10 {
        for (k, one, other) in (0..n).flat_map(|k| tried.iter().flat_map(move |one| tried.iter().map(move |other| (k, one, other)))) {
            // one at record k, the other at the last
            let mut numbers = good.repeat(n);
            for (record, changed) in [(k, one), (n - 1, other)] {
                for (at, number) in *changed {
                    numbers[6 * record + at] = *number;
                }
            }
            let mut strip = Vec::new();
            rust_write_records(&mut strip, &numbers);
            agree(&strip);
            agree(&strip[..strip.len() - 1]);
            agree(&[&strip[..], &[0]].concat());
            *strip.last_mut().expect("a byte") |= 1;
            agree(&strip);
        }
    }
    let mut next = random(7);
    for n in 0..40 {
        agree(&vec![0; n]);
        agree(&(0..n).map(|_| (next() >> 32) as u8).collect::<Vec<u8>>());
    }
    agree(&vec![0; LIMIT]);
    agree(&vec![0; LIMIT + 1]);
}

// The Rust's programs.
fn program(list: bool) -> std::io::Result<()> {
    const MOST: usize = 65536;
    let mut input = Vec::with_capacity(MOST + 1);
    std::io::stdin().lock().take(MOST as u64 + 1).read_to_end(&mut input)?;
    let mut stdout = std::io::stdout().lock();
    if input.len() > MOST {
        return stdout.write_all(b"too long\n");
    }
    let mut out = Vec::new();
    if list {
        out.reserve(4 * MOST);
        let _ = texts::list(&input, 4 * MOST, &mut out);
    } else {
        out.reserve(MOST);
        if let Err((_, line)) = texts::pack(&input, MOST, &mut out) {
            return writeln!(stdout, "bad line {line}");
        }
    }
    stdout.write_all(&out)?;
    stdout.flush()
}

// ---- the cases

// One side of a case; it answers a sum of what it read, or a length.
type Side = Box<dyn Fn(&mut Bench) -> u64>;

struct Case {
    name: &'static str,
    // the ratio to be reached, 0 where there is none
    aim: f64,
    // how many items a side goes through, and what they are
    items: f64,
    item: &'static str,
    layout: Vec<(u8, u8)>,
    // a sum of what the side put into its buffers, given its answer (not timed)
    made: fn(&Bench, u64) -> u64,
    ours: Side,
    rust: Option<Side>,
}

fn hash<T: Copy + Into<u64>>(v: &[T]) -> u64 {
    v.iter().fold(14695981039346656037, |h: u64, &x| (h ^ x.into()).wrapping_mul(1099511628211))
}

fn nothing(_: &Bench, _: u64) -> u64 {
    0
}

fn results(b: &Bench, _: u64) -> u64 {
    hash(&b.results)
}

// The answer is how many bytes were written.
fn output(b: &Bench, n: u64) -> u64 {
    hash(&b.out[..n as usize])
}

fn cases(b: &Bench) -> Vec<Case> {
    let size = b.size;
    let records = 8 * size / 89;
    let fields = 8 * size / 38;
    let times = chunks(size).1;
    let kib = (times * b.chunk.len()) as f64 / 1024.0;
    let all_fields = many(64);
    let bits = |l: &[(u8, u8)]| l.iter().map(|f| f.1 as usize).sum::<usize>();
    let mut all = Vec::new();
    let mut add = |name, aim, (items, item), layout: &[(u8, u8)], made: fn(&Bench, u64) -> u64, ours: Side, rust: Option<Side>| {
        all.push(Case { name, aim, items, item, layout: layout.to_vec(), made, ours, rust })
    };
    add("read a strip (bulk)", 0.75, (records as f64, "record"), &[], |b, _| hash(&b.list),
        Box::new(|b| unsafe { bench_read_strip(b.src.as_ptr(), b.src.len(), b.list.as_mut_ptr(), b.list.len()) as u64 }),
        Some(Box::new(|b| rust_read_strip(&b.src, &mut b.list) as u64)));
    add("vet a strip", 0.75, (records as f64, "record"), &[], nothing,
        Box::new(|b| unsafe { bench_vet_strip(b.kept.as_ptr(), b.kept.len()) }),
        Some(Box::new(|b| rust_vet_strip(&b.kept))));
    for (big, little, layout) in [
        ("inner runner, record, big", "inner runner, record, little", &RECORD[..]),
        ("inner runner, mixed, big", "inner runner, mixed, little", &MIXED[..]),
    ] {
        let n = 8 * size / bits(layout);
        add(big, 1.2, (n as f64, "layout"), layout, results,
            Box::new(|b| unsafe { bench_fields_big(b.src.as_ptr(), b.src.len(), b.plan.as_ptr(), b.plan.len(), b.results.as_mut_ptr(), b.results.len()) }),
            Some(Box::new(move |b| rust_fields_big(&b.src, &b.layout, &mut b.results, n))));
        add(little, 1.2, (n as f64, "layout"), layout, results,
            Box::new(|b| unsafe { bench_fields_little(b.src.as_ptr(), b.src.len(), b.plan.as_ptr(), b.plan.len(), b.results.as_mut_ptr(), b.results.len()) }),
            Some(Box::new(move |b| rust_fields_little(&b.src, &b.layout, &mut b.results, n))));
    }
    for (big, little, aim, layout) in [
        ("run of 64 fields, big", "run of 64 fields, little", 1.5, &all_fields[..]),
        ("run once a record, big", "run once a record, little", 0.0, &RECORD[..]),
    ] {
        let n = 8 * size / bits(layout);
        add(big, aim, (n as f64, "run"), layout, results,
            Box::new(move |b| unsafe { bench_run_big(b.src.as_ptr(), b.src.len(), b.plan.as_ptr(), b.plan.len(), n, b.results.as_mut_ptr(), b.results.len()) }),
            Some(Box::new(move |b| rust_fields_big(&b.src, &b.layout, &mut b.results, n))));
        add(little, aim, (n as f64, "run"), layout, results,
            Box::new(move |b| unsafe { bench_run_little(b.src.as_ptr(), b.src.len(), b.plan.as_ptr(), b.plan.len(), n, b.results.as_mut_ptr(), b.results.len()) }),
            Some(Box::new(move |b| rust_fields_little(&b.src, &b.layout, &mut b.results, n))));
    }
    add("read_bits 38, big", 2.0, (fields as f64, "field"), &[], nothing,
        Box::new(move |b| unsafe { bench_read_38_big(b.src.as_ptr(), b.src.len(), fields) }),
        Some(Box::new(|b| rust_read_38_big(&b.src))));
    add("read_bits 38, little", 2.0, (fields as f64, "field"), &[], nothing,
        Box::new(move |b| unsafe { bench_read_38_little(b.src.as_ptr(), b.src.len(), fields) }),
        Some(Box::new(|b| rust_read_38_little(&b.src))));
    add("read_bits w, big", 2.0, (fields as f64, "field"), &[], nothing,
        Box::new(move |b| unsafe { bench_read_big(b.src.as_ptr(), b.src.len(), black_box(38), fields) }),
        Some(Box::new(|b| rust_read_big(&b.src, black_box(38)))));
    add("read_bits w, little", 2.0, (fields as f64, "field"), &[], nothing,
        Box::new(move |b| unsafe { bench_read_little(b.src.as_ptr(), b.src.len(), black_box(38), fields) }),
        Some(Box::new(|b| rust_read_little(&b.src, black_box(38)))));
    add("field_at 38, big", 0.75, (fields as f64, "field"), &[], nothing,
        Box::new(|b| unsafe { bench_place_38_big(b.src.as_ptr(), b.src.len()) }),
        Some(Box::new(|b| rust_read_38_big(&b.src))));
    add("field_at 38, little", 0.75, (fields as f64, "field"), &[], nothing,
        Box::new(|b| unsafe { bench_place_38_little(b.src.as_ptr(), b.src.len()) }),
        Some(Box::new(|b| rust_read_38_little(&b.src))));
    add("write_bits 38, big", 1.2, (fields as f64, "field"), &[], output,
        Box::new(|b| unsafe { bench_write_38_big(b.out.as_mut_ptr(), b.out.len(), b.values.as_ptr(), b.values.len()) }),
        Some(Box::new(|b| rust_write_38_big(&mut b.out, &b.values))));
    add("write_bits 38, little", 1.2, (fields as f64, "field"), &[], output,
        Box::new(|b| unsafe { bench_write_38_little(b.out.as_mut_ptr(), b.out.len(), b.values.as_ptr(), b.values.len()) }),
        Some(Box::new(|b| rust_write_38_little(&mut b.out, &b.values))));
    add("write_bits w, big", 1.2, (fields as f64, "field"), &[], output,
        Box::new(|b| unsafe { bench_write_big(b.out.as_mut_ptr(), b.out.len(), black_box(38), b.values.as_ptr(), b.values.len()) }),
        Some(Box::new(|b| rust_write_big(&mut b.out, black_box(38), &b.values))));
    add("write_bits w, little", 1.2, (fields as f64, "field"), &[], output,
        Box::new(|b| unsafe { bench_write_little(b.out.as_mut_ptr(), b.out.len(), black_box(38), b.values.as_ptr(), b.values.len()) }),
        Some(Box::new(|b| rust_write_little(&mut b.out, black_box(38), &b.values))));
    add("write_bits, record", 1.2, (records as f64, "record"), &[], output,
        Box::new(|b| unsafe { bench_write_record(b.out.as_mut_ptr(), b.out.len(), b.numbers.as_ptr(), b.numbers.len()) }),
        Some(Box::new(|b| rust_write_records(&mut b.out, &b.numbers))));
    add("pack a strip (list)", 0.75, (records as f64, "record"), &[], output,
        Box::new(move |b| unsafe { bench_pack_strip(b.numbers.as_ptr(), b.numbers.len(), records, b.out.as_mut_ptr(), b.out.len()) as u64 }),
        Some(Box::new(|b| rust_write_records(&mut b.out, &b.numbers))));
    for skip in [0, 3] {
        let names = if skip == 0 {
            ["read_bytes, aligned, big", "read_bytes, aligned, little", "write_bytes, aligned, big", "write_bytes, aligned, little"]
        } else {
            ["read_bytes, 3 bits on, big", "read_bytes, 3 bits on, little", "write_bytes, 3 bits on, big", "write_bytes, 3 bits on, little"]
        };
        add(names[0], 1.1, (kib, "KiB"), &[], |b, _| hash(&b.buffer),
            Box::new(move |b| unsafe { bench_read_bytes_big(b.src.as_ptr(), b.src.len(), skip, b.buffer.as_mut_ptr(), b.buffer.len(), times) }),
            Some(Box::new(move |b| rust_read_bytes_big(&b.src, skip, &mut b.buffer, times))));
        add(names[1], 1.1, (kib, "KiB"), &[], |b, _| hash(&b.buffer),
            Box::new(move |b| unsafe { bench_read_bytes_little(b.src.as_ptr(), b.src.len(), skip, b.buffer.as_mut_ptr(), b.buffer.len(), times) }),
            Some(Box::new(move |b| rust_read_bytes_little(&b.src, skip, &mut b.buffer, times))));
        add(names[2], 1.1, (kib, "KiB"), &[], output,
            Box::new(move |b| unsafe { bench_write_bytes_big(b.out.as_mut_ptr(), b.out.len(), skip, b.chunk.as_ptr(), b.chunk.len(), times) }),
            Some(Box::new(move |b| rust_write_bytes_big(&mut b.out, skip, &b.chunk, times))));
        add(names[3], 1.1, (kib, "KiB"), &[], output,
            Box::new(move |b| unsafe { bench_write_bytes_little(b.out.as_mut_ptr(), b.out.len(), skip, b.chunk.as_ptr(), b.chunk.len(), times) }),
            Some(Box::new(move |b| rust_write_bytes_little(&mut b.out, skip, &b.chunk, times))));
    }
    // a layout has at most 64 fields, so 4, 16 and 64 stand for the sizes
    let some = many(if size <= 1 << 10 { 4 } else if size <= 1 << 16 { 16 } else { 64 });
    add("compile a layout", 0.0, ((AGAIN * some.len()) as f64, "field"), &some, |b, _| hash(&b.plan),
        Box::new(|b| (0..AGAIN).map(|_| unsafe { bench_compile(b.bytes.as_ptr(), b.bytes.len(), b.plan.as_mut_ptr(), b.plan.len()) as u64 }).sum()),
        None);
    add("check a plan", 0.0, ((AGAIN * some.len()) as f64, "field"), &some, nothing,
        Box::new(|b| (0..AGAIN).map(|_| unsafe { bench_check(b.plan.as_ptr(), b.plan.len()) as u64 }).sum()),
        None);
    let listed = 8 * b.strip.len() / 89;
    let packed = b.text.iter().filter(|&&c| c == b'\n').count() - 1;
    add("list a text", 0.9, (listed as f64, "record"), &[], |b, n| hash(&b.page[..(n >> 32) as usize]),
        Box::new(|b| unsafe { bench_list_text(b.strip.as_ptr(), b.strip.len(), b.page.as_mut_ptr(), b.page.len()) }),
        Some(Box::new(|b| { let room = b.page_size(); rust_list_text(&b.strip, room, &mut b.page) })));
    add("pack a text", 0.9, (packed as f64, "record"), &[], |b, n| hash(&b.out[..(n >> 32) as usize]),
        Box::new(|b| unsafe { bench_pack_text(b.text.as_ptr(), b.text.len(), b.out.as_mut_ptr(), b.out.len()) }),
        Some(Box::new(|b| { let room = b.size; rust_pack_text(&b.text, room, &mut b.out) })));
    let longer = b.camera.iter().filter(|&&c| c == b'\n').count() - 1;
    add("pack a text, 8 decimals", 0.9, (longer as f64, "record"), &[], |b, n| hash(&b.out[..(n >> 32) as usize]),
        Box::new(|b| unsafe { bench_pack_text(b.camera.as_ptr(), b.camera.len(), b.out.as_mut_ptr(), b.out.len()) }),
        Some(Box::new(|b| { let room = b.size; rust_pack_text(&b.camera, room, &mut b.out) })));
    let rows = b.rows.len() / tables::ROW;
    add("strip to rows", 0.75, (rows as f64, "record"), &[], |b, n| hash(&b.table[..(n >> 32) as usize]),
        Box::new(|b| unsafe { bench_strip_to_rows(b.whole.as_ptr(), b.whole.len(), b.table.as_mut_ptr(), b.table.len()) }),
        Some(Box::new(|b| rust_strip_to_rows(&b.whole, &mut b.table))));
    add("rows to strip", 0.75, (rows as f64, "record"), &[], |b, n| hash(&b.out[..(n >> 32) as usize]),
        Box::new(|b| unsafe { bench_rows_to_strip(b.rows.as_ptr(), b.rows.len(), b.out.as_mut_ptr(), b.out.len()) }),
        Some(Box::new(|b| { let room = b.size; rust_rows_to_strip(&b.rows, room, &mut b.out) })));
    all
}

// ---- the rounds

fn number(name: &str, default: usize) -> usize {
    std::env::var(name).ok().and_then(|v| v.parse().ok()).unwrap_or(default)
}

#[no_mangle]
pub extern "C" fn main(_: i32, _: *const *const u8) -> i32 {
    let words: Vec<String> = std::env::args().skip(1).collect();
    let alone = words.last().is_some_and(|w| w == "alone");
    match words.first().map(|w| w.as_str()) {
        Some("list") => return program(true).is_err() as i32,
        Some("pack") => return program(false).is_err() as i32,
        Some("strip") => return std::io::stdout().write_all(&Bench::new(MIB).strip).is_err() as i32,
        Some("text") => return std::io::stdout().write_all(&Bench::new(MIB).text).is_err() as i32,
        _ => (),
    }
    let mut b = Bench::new(number("SIZE", MIB));
    let only = std::env::var("ONLY").unwrap_or_default();
    let all: Vec<Case> = cases(&b).into_iter().filter(|c| only.split('|').any(|w| c.name.contains(w))).collect();
    if words.first().is_some_and(|w| w == "once") {
        // each side by a call of its own that a counter of instructions can tell apart
        for (k, c) in all.iter().enumerate() {
            b.set_layout(&c.layout);
            b.full();
            counted(2 * k, &mut b, &c.ours);
            if let (Some(rust), false) = (&c.rust, alone) {
                b.full();
                counted(2 * k + 1, &mut b, rust);
            }
        }
        return 0;
    }
    texts_agree();
    rows_agree();
    verdicts_agree(&b.kept);
    for c in &all {
        b.set_layout(&c.layout);
        let unit = 1e9 / c.items;
        let least = timed(c, &mut b, alone);
        if alone {
            println!("{}|{:.2}|{}|{}", c.name, least[0] * unit, c.items, c.item);
        } else if c.rust.is_none() {
            println!("{}|{}|{:.2}|0|0|{}|{}", c.name, c.aim, least[0] * unit, c.items, c.item);
        } else {
            println!("{}|{}|{:.2}|{:.2}|{:.3}|{}|{}", c.name, c.aim, least[0] * unit, least[1] * unit, least[0] / least[1], c.items, c.item);
        }
    }
    0
}

// The least times of the two sides. In the first round, which is not timed, all that a side makes is cleared before it.
fn timed(c: &Case, b: &mut Bench, alone: bool) -> [f64; 2] {
    // a call on a small input is too short for the clock
    let repeat = (1 << 18 >> b.size.ilog2()).max(1);
    let mut least = [f64::MAX; 2];
    for round in 0..number("ROUNDS", 25) + 1 {
        let mut sums = Vec::new();
        for (k, side) in [Some(&c.ours), c.rust.as_ref()].into_iter().enumerate() {
            let Some(side) = side else { continue };
            if round == 0 {
                b.clear();
            } else if k == 1 && alone {
                continue;
            }
            b.full();
            black_box(&mut *b);
            let mut sum = 0;
            let start = Instant::now();
            for _ in 0..repeat {
                sum = side(b);
            }
            let spent = start.elapsed().as_secs_f64() / repeat as f64;
            if round > 0 {
                least[k] = least[k].min(spent);
            }
            sums.push((sum, (c.made)(b, sum)));
        }
        assert!(sums.iter().all(|s| s == &sums[0]), "{}: the sums differ", c.name);
    }
    least
}

// Tells the plugin that counts under the emulator where the K-th side starts and ends, by a call of getpriority that fails.
fn mark(k: usize) {
    unsafe { syscall(if cfg!(target_arch = "x86_64") { 140 } else { 141 }, 0x5255_5454i64, k as i64) };
}

// A name for each counted call: `side_at::<K>` is the K-th.
fn counted(k: usize, b: &mut Bench, side: &Side) {
    macro_rules! each {
        ($($n:literal)*) => { match k { $($n => side_at::<$n>(b, side),)* _ => panic!("too many cases") } };
    }
    mark(k);
    each!(0 1 2 3 4 5 6 7 8 9 10 11 12 13 14 15 16 17 18 19 20 21 22 23 24 25 26 27 28 29 30 31 32 33 34 35 36 37 38 39 40 41 42 43 44 45 46 47 48 49 50 51 52 53 54 55 56 57 58 59 60 61 62 63 64 65 66 67 68 69 70 71 72 73 74 75 76 77 78 79);
    mark(k);
}

#[inline(never)]
fn side_at<const K: usize>(b: &mut Bench, side: &Side) {
    black_box(side(b));
    black_box(K);
}
