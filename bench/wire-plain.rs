//! What bench/wire compares with: a plain program that reads and writes two of the messages in the layout of
//! docs/FORMATS.md, Pass and Push in version 3, with the same rules of their fields.
//!
//!     rustc -O -o plain bench/wire-plain.rs
//!
//! A line of standard input spells a frame in hexadecimal; the words are `decode 10` or `encode 10`.
use std::io::BufRead;

const LIMIT: u64 = 1 << 62;

enum Fault {
    Short,
    Malformed(u64),
}

struct Row {
    db: u32,
    key: Vec<u8>,
    rsn: u64,
    value: Vec<u8>,
    master: u32,
}

struct Pair {
    key: Vec<u8>,
    value: Vec<u8>,
}

struct PTable {
    db: u32,
    seq: u64,
    pairs: Vec<Pair>,
}

#[derive(PartialEq, Eq, PartialOrd, Ord, Clone, Copy)]
enum Address {
    V4(u32),
    V6(u128),
}

enum Msg {
    Pass { db: u32, key: Vec<u8>, request: u64, rsn: u64, value: Vec<u8> },
    Push { members: Vec<u32>, table: Vec<Row>, ptables: Vec<PTable>, assigned: Vec<(Address, u32)> },
}

struct Frame {
    generation: u64,
    sender: u32,
    receiver: u32,
    msg: Msg,
}

struct Input<'a> {
    bytes: &'a [u8],
    at: usize,
    length: usize,
}

impl<'a> Input<'a> {
    fn field(&mut self, width: usize) -> Result<&'a [u8], Fault> {
        let end = self.at + width;
        if end > self.length {
            return Err(Fault::Malformed(self.at as u64));
        }
        if end > self.bytes.len() {
            return Err(Fault::Short);
        }
        let field = &self.bytes[self.at..end];
        self.at = end;
        Ok(field)
    }

    fn number(&mut self, width: usize, keeps: impl Fn(u64) -> bool) -> Result<u64, Fault> {
        let at = self.at as u64;
        let number = self.field(width)?.iter().fold(0, |n, byte| n << 8 | u64::from(*byte));
        if keeps(number) { Ok(number) } else { Err(Fault::Malformed(at)) }
    }

    fn text(&mut self, width: usize, least: u64, most: u64) -> Result<Vec<u8>, Fault> {
        let length = self.number(width, |n| least <= n && n <= most)?;
        if length == 0 {
            return Ok(Vec::new());
        }
        Ok(self.field(length as usize)?.to_vec())
    }

    fn key(&mut self) -> Result<Vec<u8>, Fault> {
        self.text(1, 1, 255)
    }

    fn address(&mut self, last: Option<Address>) -> Result<Address, Fault> {
        let at = self.at as u64;
        let family = self.number(1, |n| n == 4 || n == 6)?;
        let address = if family == 4 {
            if matches!(last, Some(Address::V6(_))) {
                return Err(Fault::Malformed(at));
            }
            Address::V4(self.number(4, |_| true)? as u32)
        } else {
            Address::V6(self.field(16)?.iter().fold(0, |n, byte| n << 8 | u128::from(*byte)))
        };
        if last.is_some_and(|last| last >= address) {
            return Err(Fault::Malformed(at));
        }
        Ok(address)
    }
}

fn decode_push(input: &mut Input) -> Result<Msg, Fault> {
    let mut members: Vec<u32> = Vec::new();
    for _ in 0..input.number(4, |n| 1 <= n && n <= 16)? {
        let last = members.last().copied();
        members.push(input.number(4, |n| n < 16 && last.is_none_or(|last| u64::from(last) < n))? as u32);
    }
    let mut table: Vec<Row> = Vec::new();
    for _ in 0..input.number(4, |_| true)? {
        let start = input.at as u64;
        let db = input.number(4, |n| n < 16 && table.last().is_none_or(|last| u64::from(last.db) <= n))? as u32;
        let key = input.key()?;
        if table.last().is_some_and(|last| last.db == db && last.key >= key) {
            return Err(Fault::Malformed(start));
        }
        let rsn = input.number(8, |n| n < LIMIT)?;
        let value = input.text(2, 0, 1024)?;
        let master = input.number(4, |n| members.iter().any(|member| u64::from(*member) == n))? as u32;
        table.push(Row { db, key, rsn, value, master });
    }
    let mut ptables: Vec<PTable> = Vec::new();
    for _ in 0..input.number(4, |_| true)? {
        let db = input.number(4, |n| n < 16 && ptables.last().is_none_or(|last| u64::from(last.db) < n))? as u32;
        let seq = input.number(8, |n| n < LIMIT)?;
        let mut pairs: Vec<Pair> = Vec::new();
        for _ in 0..input.number(4, |_| true)? {
            let start = input.at as u64;
            let key = input.key()?;
            if pairs.last().is_some_and(|last| last.key >= key) {
                return Err(Fault::Malformed(start));
            }
            let value = input.text(2, 1, 1024)?;
            pairs.push(Pair { key, value });
        }
        ptables.push(PTable { db, seq, pairs });
    }
    let mut assigned: Vec<(Address, u32)> = Vec::new();
    for _ in 0..input.number(4, |_| true)? {
        let address = input.address(assigned.last().map(|(last, _)| *last))?;
        assigned.push((address, input.number(4, |n| n < 16)? as u32));
    }
    Ok(Msg::Push { members, table, ptables, assigned })
}

fn decode(bytes: &[u8]) -> Result<(Frame, usize), Fault> {
    let mut input = Input { bytes, at: 0, length: usize::MAX };
    let length = input.number(4, |n| 40 <= n && n <= 268_435_456)? as usize;
    input.length = length;
    input.number(4, |n| n == 0x4354_4442)?;
    input.number(4, |n| n == 3)?;
    let generation = input.number(8, |n| 0 < n && n < LIMIT)?;
    let operation = input.number(4, |n| n == 4 || n == 18)?;
    let receiver = input.number(4, |n| n < 16)? as u32;
    let sender = input.number(4, |n| n < 16)? as u32;
    let request = input.number(8, |n| if operation == 4 { 0 < n && n < LIMIT } else { n == 0 })?;
    let msg = if operation == 4 {
        let db = input.number(4, |n| n < 16)? as u32;
        let key = input.key()?;
        let rsn = input.number(8, |n| n < LIMIT)?;
        let value = input.text(2, 0, 1024)?;
        Msg::Pass { db, key, request, rsn, value }
    } else {
        decode_push(&mut input)?
    };
    if input.at != length {
        return Err(Fault::Malformed(input.at as u64));
    }
    Ok((Frame { generation, sender, receiver, msg }, length))
}

fn put_u32(out: &mut Vec<u8>, number: u32) {
    out.extend_from_slice(&number.to_be_bytes());
}

fn put_u64(out: &mut Vec<u8>, number: u64) {
    out.extend_from_slice(&number.to_be_bytes());
}

fn put_key(out: &mut Vec<u8>, key: &[u8]) {
    out.push(key.len() as u8);
    out.extend_from_slice(key);
}

fn put_value(out: &mut Vec<u8>, value: &[u8]) {
    out.extend_from_slice(&(value.len() as u16).to_be_bytes());
    out.extend_from_slice(value);
}

fn encode(frame: &Frame) -> Vec<u8> {
    let mut out = Vec::new();
    put_u32(&mut out, 0);
    put_u32(&mut out, 0x4354_4442);
    put_u32(&mut out, 3);
    put_u64(&mut out, frame.generation);
    let (operation, request) = match &frame.msg {
        Msg::Pass { request, .. } => (4, *request),
        Msg::Push { .. } => (18, 0),
    };
    put_u32(&mut out, operation);
    put_u32(&mut out, frame.receiver);
    put_u32(&mut out, frame.sender);
    put_u64(&mut out, request);
    match &frame.msg {
        Msg::Pass { db, key, rsn, value, .. } => {
            put_u32(&mut out, *db);
            put_key(&mut out, key);
            put_u64(&mut out, *rsn);
            put_value(&mut out, value);
        }
        Msg::Push { members, table, ptables, assigned } => {
            put_u32(&mut out, members.len() as u32);
            for member in members {
                put_u32(&mut out, *member);
            }
            put_u32(&mut out, table.len() as u32);
            for row in table {
                put_u32(&mut out, row.db);
                put_key(&mut out, &row.key);
                put_u64(&mut out, row.rsn);
                put_value(&mut out, &row.value);
                put_u32(&mut out, row.master);
            }
            put_u32(&mut out, ptables.len() as u32);
            for ptable in ptables {
                put_u32(&mut out, ptable.db);
                put_u64(&mut out, ptable.seq);
                put_u32(&mut out, ptable.pairs.len() as u32);
                for pair in &ptable.pairs {
                    put_key(&mut out, &pair.key);
                    put_value(&mut out, &pair.value);
                }
            }
            put_u32(&mut out, assigned.len() as u32);
            for (address, node) in assigned {
                match address {
                    Address::V4(number) => {
                        out.push(4);
                        put_u32(&mut out, *number);
                    }
                    Address::V6(number) => {
                        out.push(6);
                        out.extend_from_slice(&number.to_be_bytes());
                    }
                }
                put_u32(&mut out, *node);
            }
        }
    }
    let length = out.len() as u32;
    out[..4].copy_from_slice(&length.to_be_bytes());
    out
}

fn told(fault: Fault) -> String {
    match fault {
        Fault::Short => "short".to_string(),
        Fault::Malformed(offset) => format!("malformed at {offset}"),
    }
}

fn main() -> Result<(), String> {
    let words: Vec<String> = std::env::args().skip(1).collect();
    let times: u32 = words.get(1).ok_or("no number")?.parse().map_err(|_| "no number")?;
    let line = std::io::stdin().lock().lines().next().ok_or("no line")?.map_err(|e| e.to_string())?;
    let digits = |place: usize| u8::from_str_radix(&line[place..place + 2], 16).map_err(|e| e.to_string());
    let bytes: Vec<u8> = (0..line.len()).step_by(2).map(digits).collect::<Result<_, _>>()?;
    let (frame, _) = decode(&bytes).map_err(told)?;
    let mut sum = 0;
    for _ in 0..times {
        let length = match words[0].as_str() {
            "decode" => std::hint::black_box(decode(std::hint::black_box(&bytes)).map_err(told)?).1,
            _ => std::hint::black_box(encode(std::hint::black_box(&frame))).len(),
        };
        sum += length as u64;
    }
    println!("{sum}");
    Ok(())
}
