//! What bench/ratio compares with: a plain program, without threads and without proofs, that has the rules of docs/PROTOCOL.md
//! and the texts of docs/FORMATS.md.
//!
//!     rustc --edition 2021 -C opt-level=3 -C codegen-units=1 -o plain bench/plain.rs
//!
//! It has five of the program's words. What `play`, `lcp2` and `soak SEED STEPS` print, their standard error and their status
//! are those of the proved program, byte for byte. `cluster NODES CALLS SEED` and `chains NODES CHAINS CALLS SEED` play the
//! same plans, but on one thread with the nodes in turn, so what they print is one of the texts that the proved program may
//! print. Since one thread sees the order of all steps, no message is spelled in bytes, no journal is kept, and none is joined.
//!
//! Left out are the limit of 2^62 on numbers, want of memory, and the tests of fields that a message from outside could break,
//! since all messages are its own. Output is written in large pieces, and not line by line.
use std::borrow::Cow;
use std::collections::{BTreeMap, HashMap, VecDeque};
use std::env;
use std::fmt;
use std::hash::{BuildHasherDefault, Hash, Hasher};
use std::io::{self, BufRead, Write};
use std::net::Ipv6Addr;
use std::ops::Deref;
use std::process::ExitCode;
use std::rc::Rc;

// ---- values

const MOST_KEYS: usize = 1024;
const MOST_PAIRS: usize = 1024;
const MOST_BYTES: usize = 1024;
const MOST_ADDRESSES: usize = 64;
const LONGEST_LINE: usize = 65_535;

/// A key with its hash, which picks the location master.
#[derive(Clone)]
struct Key {
    hash: u32,
    bytes: Rc<[u8]>,
}

impl Key {
    fn new(bytes: &[u8]) -> Key {
        let mut sum = 0x238F_13AFu32.wrapping_mul(bytes.len() as u32);
        for (place, byte) in bytes.iter().enumerate() {
            sum = sum.wrapping_add(u32::from(*byte) << (place * 5 % 24));
        }
        Key { hash: sum.wrapping_mul(1_103_515_243).wrapping_add(12_345), bytes: bytes.into() }
    }
}

impl PartialEq for Key {
    fn eq(&self, other: &Key) -> bool {
        self.hash == other.hash && (Rc::ptr_eq(&self.bytes, &other.bytes) || self.bytes == other.bytes)
    }
}

impl Eq for Key {}

impl Hash for Key {
    fn hash<H: Hasher>(&self, state: &mut H) {
        state.write_u32(self.hash);
    }
}

/// Spreads the hash that a key has already.
#[derive(Default)]
struct Spread(u64);

impl Hasher for Spread {
    fn write(&mut self, bytes: &[u8]) {
        for byte in bytes {
            self.write_u32(u32::from(*byte));
        }
    }

    fn write_u32(&mut self, number: u32) {
        let product = (self.0 ^ u64::from(number)).wrapping_mul(0x9E37_79B9_7F4A_7C15);
        self.0 = product ^ product >> 32;
    }

    fn finish(&self) -> u64 {
        self.0
    }
}

type ByKey<V> = HashMap<Key, V, BuildHasherDefault<Spread>>;

/// The bytes of a value; none for the empty one.
#[derive(Clone, Default)]
struct Value(Option<Rc<[u8]>>);

impl Value {
    fn new(bytes: &[u8]) -> Value {
        Value(if bytes.is_empty() { None } else { Some(bytes.into()) })
    }
}

impl Deref for Value {
    type Target = [u8];

    fn deref(&self) -> &[u8] {
        self.0.as_deref().unwrap_or_default()
    }
}

/// Nodes, in ascending order.
#[derive(Clone, Copy, PartialEq, Default)]
struct Nodes(u16);

impl Nodes {
    fn first(count: u8) -> Nodes {
        Nodes(((1u32 << count) - 1) as u16)
    }

    fn has(self, node: u8) -> bool {
        self.0 >> node & 1 == 1
    }

    fn with(self, node: u8) -> Nodes {
        Nodes(self.0 | 1 << node)
    }

    fn without(self, node: u8) -> Nodes {
        Nodes(self.0 & !(1 << node))
    }

    fn is_empty(self) -> bool {
        self.0 == 0
    }

    fn len(self) -> u32 {
        self.0.count_ones()
    }

    fn nth(self, place: u32) -> u8 {
        let mut rest = self.0;
        for _ in 0..place {
            rest &= rest - 1;
        }
        rest.trailing_zeros() as u8
    }
}

impl Iterator for Nodes {
    type Item = u8;

    fn next(&mut self) -> Option<u8> {
        if self.0 == 0 {
            return None;
        }
        let node = self.0.trailing_zeros() as u8;
        self.0 &= self.0 - 1;
        Some(node)
    }
}

/// Addresses of the configuration, by their places there.
#[derive(Clone, Copy, Default)]
struct Places(u64);

impl Iterator for Places {
    type Item = usize;

    fn next(&mut self) -> Option<usize> {
        if self.0 == 0 {
            return None;
        }
        let place = self.0.trailing_zeros() as usize;
        self.0 &= self.0 - 1;
        Some(place)
    }
}

#[derive(Clone, Copy, PartialEq, Eq, PartialOrd, Ord)]
enum Address {
    V4(u32),
    V6(u128),
}

/// The node of each address of the configuration.
type Placement = Rc<[Option<u8>]>;

fn places_of(node: u8, placement: &[Option<u8>]) -> Places {
    Places(placement.iter().enumerate().filter(|(_, at)| **at == Some(node)).fold(0, |set, (place, _)| set | 1 << place))
}

#[derive(Clone, Copy, PartialEq)]
enum Kind {
    Volatile,
    ReadOnly,
    Persistent,
}

struct Db {
    name: Key,
    kind: Kind,
}

struct Config {
    nodes: u8,
    dbs: Vec<Db>,
    /// In ascending order.
    addresses: Vec<Address>,
}

/// The number of a database that is not declared.
const NO_DB: usize = u32::MAX as usize;

impl Config {
    fn number_of(&self, name: &[u8]) -> usize {
        self.dbs.iter().position(|db| *db.name.bytes == *name).unwrap_or(NO_DB)
    }

    fn is_persistent(&self, db: usize) -> bool {
        self.dbs[db].kind == Kind::Persistent
    }
}

// ---- what clients ask and nodes answer

/// A call that wants a record.
enum Ask {
    Lock,
    Read,
    Write(Value),
    Apply(u32, Value),
}

enum Op {
    Want(Ask),
    Store(Value),
    Unlock,
}

type Writes = Rc<[(Key, Value)]>;

enum Why {
    NoSuchDb,
    WrongKind,
    NotServing,
    CallPending(u64),
    CommitPending,
    AlreadyLocked,
    NotLocked,
    NoSuchCall,
    Full,
    TooLong(usize),
}

enum Answer<'a> {
    Locked(&'a [u8]),
    Read(&'a [u8]),
    Written,
    Applied(&'a [u8]),
    Stored,
    Unlocked,
    Committed(u64),
    Unsure(u64, Nodes),
    Refused(Why),
}

enum Note<'a> {
    Vacuumed(usize, &'a Key),
    Ended(&'a Key),
    Round(u64, Nodes, u64, u64),
    Installed(u64),
    Thawed(u64),
    Released(usize),
    Took(usize),
}

// ---- messages

#[derive(Clone, Copy, PartialEq)]
enum CallKind {
    Lock,
    Read,
}

enum OfRecord {
    Call { request: u64, kind: CallKind },
    Recall(Recall),
    Give { rsn: u64, value: Value },
    Pass { request: u64, rsn: u64, value: Value },
    Refuse { request: u64, rsn: u64 },
    Grant { request: u64, rsn: u64, value: Value },
    Done { node: u8, request: u64 },
    Revoke { rsn: u64 },
    RevokeAck { rsn: u64 },
    VStore { rsn: u64 },
    VStored { rsn: u64 },
    VDelete { rsn: u64 },
    VDeleted { rsn: u64 },
}

struct Row {
    db: usize,
    key: Key,
    rsn: u64,
    value: Value,
    master: Option<u8>,
}

type Pairs = Rc<BTreeMap<Rc<[u8]>, Value>>;

#[derive(Clone)]
struct Table {
    db: usize,
    seq: u64,
    pairs: Pairs,
}

struct PullReply {
    vbase: u64,
    pbase: u64,
    rows: Vec<Row>,
    tables: Vec<Table>,
    addresses: Places,
}

struct Push {
    members: Nodes,
    rows: Vec<Row>,
    tables: Vec<Table>,
    placement: Placement,
}

enum Msg {
    OfRecord(u8, Key, OfRecord),
    Freeze(Nodes),
    FreezeAck,
    Pull,
    PullReply(Rc<PullReply>),
    Push(Rc<Push>),
    PushAck,
    Thaw,
    PUpdate { db: u8, seq: u64, writes: Writes },
    PAck { db: u8, seq: u64 },
    Release { run: u64, keep: Places },
    ReleaseAck { run: u64 },
    Take { run: u64, placement: Placement },
}

#[derive(Clone, Copy, PartialEq)]
enum Fate {
    Waiting,
    Delivered,
    Dropped,
}

struct Frame {
    generation: u64,
    msg: Msg,
    sender: u8,
    receiver: u8,
    fate: Fate,
}

// ---- what is told

enum Told<'a> {
    Sent(u64, &'a Frame),
    Answered(u64, Answer<'a>),
    Noted(u8, Note<'a>),
    Ticket(u64, u8),
    Yielded(u8),
    Stopped(u8),
    Started(u8),
    Gone(u64),
    Lost(u64),
}

trait Tell {
    fn told(&mut self, line: Told);
}

struct Silent;

impl Tell for Silent {
    fn told(&mut self, _: Told) {}
}

/// What nodes do, in order.
struct Outs<T> {
    tell: T,
    /// The number of the last message.
    sent: u64,
    answered: u64,
    frames: Vec<Frame>,
}

impl<T: Tell> Outs<T> {
    fn new(tell: T) -> Outs<T> {
        Outs { tell, sent: 0, answered: 0, frames: Vec::new() }
    }

    fn send(&mut self, generation: u64, sender: u8, receiver: u8, msg: Msg) {
        let frame = Frame { generation, msg, sender, receiver, fate: Fate::Waiting };
        self.sent += 1;
        self.tell.told(Told::Sent(self.sent, &frame));
        self.frames.push(frame);
    }

    fn send_all(&mut self, generation: u64, sender: u8, receivers: Nodes, msg: impl Fn() -> Msg) {
        for receiver in receivers {
            self.send(generation, sender, receiver, msg());
        }
    }

    fn answer(&mut self, call: u64, answer: Answer) {
        self.answered += 1;
        self.tell.told(Told::Answered(call, answer));
    }

    fn note(&mut self, node: u8, note: Note) {
        self.tell.told(Told::Noted(node, note));
    }
}

// ---- the state of a record

const COPIES_OUT: u8 = 1;
const FOR_READING: u8 = 2;
const CALLED_IN: u8 = 4;

struct LocalCopy {
    rsn: u64,
    /// None once it was given away.
    master: Option<u8>,
    flags: u8,
    value: Value,
}

struct Entry {
    holder: u8,
    least: u64,
    request: u64,
    value: Value,
}

struct Waiter {
    node: u8,
    request: u64,
    kind: CallKind,
}

#[derive(Clone, PartialEq)]
struct Recall {
    least: u64,
    node: u8,
    request: u64,
    kind: CallKind,
}

struct Wish {
    call: u64,
    /// 0 where it waits for the end of a revocation.
    request: u64,
    ask: Ask,
}

struct Vacuum {
    rsn: u64,
    storing: bool,
    missing: Nodes,
}

#[derive(Default)]
struct Record {
    copy: Option<LocalCopy>,
    entry: Option<Entry>,
    queue: VecDeque<Waiter>,
    waiting: VecDeque<Recall>,
    tracked: Nodes,
    revoking: Option<u64>,
    unrevoked: Nodes,
    vacuum: Option<Vacuum>,
    locked: Option<u64>,
    wish: Option<Wish>,
}

impl Record {
    fn is_blank(&self) -> bool {
        self.copy.is_none()
            && self.entry.is_none()
            && self.wish.is_none()
            && self.locked.is_none()
            && self.vacuum.is_none()
            && self.queue.is_empty()
            && self.waiting.is_empty()
    }

    fn untrack(&mut self) {
        self.tracked = Nodes(0);
        self.revoking = None;
        self.unrevoked = Nodes(0);
    }
}

fn kind_of(readonly: bool, ask: &Ask) -> CallKind {
    if readonly && matches!(ask, Ask::Read) {
        CallKind::Read
    } else {
        CallKind::Lock
    }
}

// ---- the rules of one record

/// A record at a node, during one event.
struct At<'a, T> {
    me: u8,
    /// The location master of the key.
    master: u8,
    generation: u64,
    members: Nodes,
    db: usize,
    readonly: bool,
    key: &'a Key,
    rec: &'a mut Record,
    next_request: &'a mut u64,
    floor: &'a mut u64,
    out: &'a mut Outs<T>,
}

impl<T: Tell> At<'_, T> {
    fn is_holder(&self) -> bool {
        matches!(&self.rec.copy, Some(copy) if copy.master == Some(self.me))
    }

    fn is_free(&self) -> bool {
        self.is_holder() && self.rec.locked.is_none() && self.rec.revoking.is_none()
    }

    fn has_wish(&self, request: u64, kind: CallKind) -> bool {
        matches!(&self.rec.wish, Some(wish) if wish.request == request && kind_of(self.readonly, &wish.ask) == kind)
    }

    fn others(&self) -> Nodes {
        self.members.without(self.me)
    }

    fn send(&mut self, receiver: u8, msg: OfRecord) {
        self.out.send(self.generation, self.me, receiver, Msg::OfRecord(self.db as u8, self.key.clone(), msg));
    }

    fn draw_request(&mut self) -> u64 {
        let request = *self.next_request;
        *self.next_request += 1;
        request
    }

    fn open(&mut self) {
        if self.rec.entry.is_none() {
            let least = *self.floor;
            self.rec.entry = Some(Entry { holder: self.master, least, request: 0, value: Value::default() });
            self.rec.copy = Some(LocalCopy { rsn: least, master: Some(self.master), flags: 0, value: Value::default() });
        }
    }

    fn satisfy(&mut self, call: u64, ask: Ask) {
        let Some(copy) = &mut self.rec.copy else { return };
        match ask {
            Ask::Lock => {
                self.rec.locked = Some(call);
                self.out.answer(call, Answer::Locked(&copy.value));
            }
            Ask::Read => self.out.answer(call, Answer::Read(&copy.value)),
            Ask::Write(value) => {
                copy.value = value;
                self.out.answer(call, Answer::Written);
            }
            Ask::Apply(function, argument) => {
                let value = match function {
                    1 if copy.value.len() + argument.len() > MOST_BYTES => {
                        let length = copy.value.len() + argument.len();
                        return self.out.answer(call, Answer::Refused(Why::TooLong(length)));
                    }
                    1 => Value::new(&[&*copy.value, &*argument].concat()),
                    2 => argument,
                    _ => copy.value.clone(),
                };
                copy.value = value;
                self.out.answer(call, Answer::Applied(&copy.value));
            }
        }
    }

    fn want(&mut self, call: u64, ask: Ask) {
        if self.me == self.master && self.rec.locked.is_none() {
            self.open();
            self.rec.vacuum = None;
        }
        let is_holder = self.is_holder();
        match &self.rec.copy {
            Some(copy) if matches!(ask, Ask::Read) && (is_holder || copy.flags == FOR_READING) => {
                self.out.answer(call, Answer::Read(&copy.value));
            }
            _ if is_holder => {
                if self.rec.tracked.is_empty() {
                    return self.satisfy(call, ask);
                }
                self.rec.wish = Some(Wish { call, request: 0, ask });
                if self.rec.revoking.is_none() {
                    self.revoke();
                }
            }
            _ => {
                let (request, kind) = (self.draw_request(), kind_of(self.readonly, &ask));
                self.rec.wish = Some(Wish { call, request, ask });
                self.send(self.master, OfRecord::Call { request, kind });
            }
        }
    }

    fn want_again(&mut self) {
        if let Some(wish) = self.rec.wish.take() {
            self.want(wish.call, wish.ask);
        }
    }

    fn revoke(&mut self) {
        let Some(copy) = &mut self.rec.copy else { return };
        let rsn = copy.rsn;
        copy.flags = COPIES_OUT | CALLED_IN;
        self.rec.revoking = Some(rsn);
        self.rec.unrevoked = self.rec.tracked;
        for node in self.rec.tracked {
            self.send(node, OfRecord::Revoke { rsn });
        }
    }

    fn end_revocation(&mut self) {
        if let Some(copy) = &mut self.rec.copy {
            copy.rsn += 1;
            copy.flags = 0;
        }
        self.rec.untrack();
        if let Some(wish) = self.rec.wish.take_if(|wish| wish.request == 0) {
            self.satisfy(wish.call, wish.ask);
        }
        self.drain();
    }

    fn drain(&mut self) {
        while !self.rec.waiting.is_empty() && self.is_free() {
            if let Some(recall) = self.rec.waiting.pop_front() {
                self.handle(recall);
            }
        }
    }

    fn handle(&mut self, recall: Recall) {
        self.rec.vacuum = None;
        if recall.kind == CallKind::Lock {
            if self.rec.tracked.is_empty() {
                self.give();
            } else {
                self.rec.waiting.push_front(recall);
                self.revoke();
            }
            return;
        }
        let (node, request) = (recall.node, recall.request);
        if node != self.me {
            self.rec.tracked = self.rec.tracked.with(node);
            if let Some(copy) = &mut self.rec.copy {
                copy.flags = COPIES_OUT;
                let (rsn, value) = (copy.rsn, copy.value.clone());
                self.send(node, OfRecord::Grant { request, rsn, value });
            }
        } else if self.has_wish(request, CallKind::Read) {
            if let (Some(wish), Some(copy)) = (self.rec.wish.take(), &self.rec.copy) {
                self.out.answer(wish.call, Answer::Read(&copy.value));
            }
        }
        self.send(self.master, OfRecord::Done { node, request });
    }

    fn give(&mut self) {
        self.rec.waiting.clear();
        let Some(copy) = &mut self.rec.copy else { return };
        copy.master = None;
        copy.flags = 0;
        let (rsn, value) = (copy.rsn, copy.value.clone());
        self.send(self.master, OfRecord::Give { rsn, value });
    }

    fn keep(&mut self, rsn: u64, value: Value) {
        self.rec.entry = Some(Entry { holder: self.master, least: rsn, request: 0, value: value.clone() });
        self.rec.copy = Some(LocalCopy { rsn, master: Some(self.master), flags: 0, value });
        self.next();
    }

    fn next(&mut self) {
        if let (Some(entry), Some(head)) = (&self.rec.entry, self.rec.queue.front()) {
            let recall = Recall { least: entry.least, node: head.node, request: head.request, kind: head.kind };
            self.send(entry.holder, OfRecord::Recall(recall));
        }
    }

    fn pass_again(&mut self) {
        if let Some(entry) = &self.rec.entry {
            let (holder, request, rsn) = (entry.holder, entry.request, entry.least.saturating_sub(1));
            let value = entry.value.clone();
            self.send(holder, OfRecord::Pass { request, rsn, value });
        }
    }

    fn arrive(&mut self, sender: u8, msg: &OfRecord) {
        match msg {
            OfRecord::Call { request, kind } => self.on_call(sender, *request, *kind),
            OfRecord::Recall(recall) => self.on_recall(recall),
            OfRecord::Give { rsn, value } => self.on_give(sender, *rsn, value),
            OfRecord::Pass { request, rsn, value } => self.on_pass(*request, *rsn, value),
            OfRecord::Refuse { request, rsn } => self.on_refuse(sender, *request, *rsn),
            OfRecord::Grant { request, rsn, value } => self.on_grant(sender, *request, *rsn, value),
            OfRecord::Done { node, request } => self.on_done(*node, *request),
            OfRecord::Revoke { rsn } => self.on_revoke(sender, *rsn),
            OfRecord::RevokeAck { rsn } => self.on_revokeack(sender, *rsn),
            OfRecord::VStore { rsn } => self.on_vstore(sender, *rsn),
            OfRecord::VStored { rsn } => self.on_vstored(sender, *rsn),
            OfRecord::VDelete { rsn } => self.on_vdelete(sender, *rsn),
            OfRecord::VDeleted { rsn } => self.on_vdeleted(sender, *rsn),
        }
    }

    fn on_call(&mut self, node: u8, request: u64, kind: CallKind) {
        if kind == CallKind::Read && !self.readonly {
            return;
        }
        self.open();
        self.rec.vacuum = None;
        let (is_passed, is_requested) = match &self.rec.entry {
            Some(entry) => (entry.holder == node && entry.request == request, entry.request != 0),
            None => return,
        };
        if is_passed {
            self.pass_again();
        } else if self.rec.queue.iter().any(|waiter| waiter.node == node && waiter.request == request) {
            if is_requested {
                self.pass_again();
            }
            self.next();
        } else {
            self.rec.queue.push_back(Waiter { node, request, kind });
            if self.rec.queue.len() == 1 {
                self.next();
            }
        }
    }

    fn on_recall(&mut self, recall: &Recall) {
        if recall.kind == CallKind::Read && !self.readonly || self.me == self.master && self.rec.entry.is_none() {
            return;
        }
        match &self.rec.copy {
            Some(copy) if copy.rsn >= recall.least => {
                if copy.master.is_none() {
                    let (rsn, value) = (copy.rsn, copy.value.clone());
                    return self.send(self.master, OfRecord::Give { rsn, value });
                }
                if copy.master != Some(self.me) {
                    return;
                }
                if self.is_free() {
                    return self.handle(recall.clone());
                }
            }
            _ => {}
        }
        if !self.rec.waiting.contains(recall) {
            self.rec.waiting.push_back(recall.clone());
        }
    }

    fn on_give(&mut self, sender: u8, rsn: u64, value: &Value) {
        if !matches!(&self.rec.entry, Some(entry) if entry.holder == sender && rsn >= entry.least) {
            return;
        }
        if !matches!(self.rec.queue.front(), Some(head) if head.kind == CallKind::Lock) {
            return self.keep(rsn + 1, value.clone());
        }
        if let Some(head) = self.rec.queue.pop_front() {
            self.rec.entry = Some(Entry { holder: head.node, least: rsn + 1, request: head.request, value: value.clone() });
            self.send(head.node, OfRecord::Pass { request: head.request, rsn, value: value.clone() });
            self.next();
        }
    }

    fn on_pass(&mut self, request: u64, rsn: u64, value: &Value) {
        if matches!(&self.rec.copy, Some(copy) if copy.rsn > rsn) {
            return;
        }
        if self.has_wish(request, CallKind::Lock) {
            self.rec.copy = Some(LocalCopy { rsn: rsn + 1, master: Some(self.me), flags: 0, value: value.clone() });
            self.rec.untrack();
            if let Some(wish) = self.rec.wish.take() {
                self.satisfy(wish.call, wish.ask);
            }
            self.drain();
        } else {
            self.rec.waiting.clear();
            self.send(self.master, OfRecord::Refuse { request, rsn });
        }
    }

    fn on_refuse(&mut self, node: u8, request: u64, rsn: u64) {
        if let Some(entry) = &self.rec.entry {
            if request != 0 && entry.holder == node && entry.least == rsn + 1 && entry.request == request {
                let value = entry.value.clone();
                self.keep(rsn + 2, value);
            }
        }
    }

    fn on_grant(&mut self, holder: u8, request: u64, rsn: u64, value: &Value) {
        let is_newer = matches!(&self.rec.copy, Some(copy) if copy.rsn > rsn);
        if self.has_wish(request, CallKind::Read) && !self.is_holder() && !is_newer {
            self.rec.copy = Some(LocalCopy { rsn, master: Some(holder), flags: FOR_READING, value: value.clone() });
            if let Some(wish) = self.rec.wish.take() {
                self.out.answer(wish.call, Answer::Read(value));
            }
        }
    }

    fn on_done(&mut self, node: u8, request: u64) {
        if matches!(self.rec.queue.front(), Some(head) if head.node == node && head.request == request) {
            self.rec.queue.pop_front();
            self.next();
        }
    }

    fn on_revoke(&mut self, holder: u8, rsn: u64) {
        if let Some(copy) = &mut self.rec.copy {
            if copy.flags == FOR_READING && copy.rsn <= rsn {
                copy.flags = 0;
            }
        }
        let is_read = matches!(&self.rec.wish, Some(wish) if kind_of(self.readonly, &wish.ask) == CallKind::Read);
        let renewed = if is_read { Some(self.draw_request()) } else { None };
        self.send(holder, OfRecord::RevokeAck { rsn });
        if let (Some(request), Some(wish)) = (renewed, &mut self.rec.wish) {
            wish.request = request;
            self.send(self.master, OfRecord::Call { request, kind: CallKind::Read });
        }
    }

    fn on_revokeack(&mut self, node: u8, rsn: u64) {
        if self.rec.revoking == Some(rsn) && self.rec.unrevoked.has(node) {
            self.rec.unrevoked = self.rec.unrevoked.without(node);
            if self.rec.unrevoked.is_empty() {
                self.end_revocation();
            }
        }
    }

    fn on_vstore(&mut self, sender: u8, rsn: u64) {
        let me = self.me;
        if let (Some(copy), None) = (&mut self.rec.copy, self.rec.locked) {
            if copy.rsn < rsn && copy.master != Some(me) {
                *copy = LocalCopy { rsn, master: Some(sender), flags: 0, value: Value::default() };
            }
        }
        self.send(sender, OfRecord::VStored { rsn });
    }

    fn on_vdelete(&mut self, sender: u8, rsn: u64) {
        let me = self.me;
        if self.rec.locked.is_none() {
            self.rec.copy.take_if(|copy| copy.rsn <= rsn && copy.master != Some(me));
        }
        self.send(sender, OfRecord::VDeleted { rsn });
    }

    /// Whether the answer is the last one of the phase that runs.
    fn ends_phase(&mut self, node: u8, rsn: u64, storing: bool) -> bool {
        match &mut self.rec.vacuum {
            Some(vacuum) if vacuum.rsn == rsn && vacuum.storing == storing && vacuum.missing.has(node) => {
                vacuum.missing = vacuum.missing.without(node);
                vacuum.missing.is_empty()
            }
            _ => false,
        }
    }

    fn on_vstored(&mut self, node: u8, rsn: u64) {
        if self.ends_phase(node, rsn, true) {
            let missing = self.others();
            self.rec.vacuum = Some(Vacuum { rsn, storing: false, missing });
            for node in missing {
                self.send(node, OfRecord::VDelete { rsn });
            }
        }
    }

    fn on_vdeleted(&mut self, node: u8, rsn: u64) {
        if self.ends_phase(node, rsn, false) {
            self.finish(rsn);
        }
    }

    fn finish(&mut self, rsn: u64) {
        self.rec.copy = None;
        self.rec.entry = None;
        self.rec.vacuum = None;
        *self.floor = (*self.floor).max(rsn + 2);
        self.out.note(self.me, Note::Vacuumed(self.db, self.key));
    }

    fn vacuum(&mut self) {
        let is_used = !self.rec.tracked.is_empty()
            || !self.rec.waiting.is_empty()
            || !self.rec.queue.is_empty()
            || self.rec.wish.is_some();
        if is_used || !self.is_free() {
            return;
        }
        let missing = self.others();
        let Some(copy) = &mut self.rec.copy else { return };
        if !copy.value.is_empty() {
            return;
        }
        if self.me != self.master {
            self.give();
        } else if let Some(vacuum) = &self.rec.vacuum {
            let (rsn, storing) = (vacuum.rsn, vacuum.storing);
            for node in vacuum.missing {
                self.send(node, if storing { OfRecord::VStore { rsn } } else { OfRecord::VDelete { rsn } });
            }
        } else {
            let rsn = copy.rsn;
            if missing.is_empty() {
                return self.finish(rsn);
            }
            copy.rsn += 1;
            self.rec.vacuum = Some(Vacuum { rsn, storing: true, missing });
            for node in missing {
                self.send(node, OfRecord::VStore { rsn });
            }
        }
    }
}

// ---- the state of a node

#[derive(Clone, Copy, PartialEq)]
enum Phase {
    Idle,
    Serving,
    Installed,
    Freezing(u64, u8),
    Frozen(u64),
}

#[derive(Default)]
struct Store {
    seq: u64,
    pairs: Pairs,
}

impl Store {
    /// Whether so many pairs at most are left after the writes.
    fn has_room(&self, writes: &[(Key, Value)]) -> bool {
        if self.pairs.len() + writes.len() <= MOST_PAIRS {
            return true;
        }
        let mut left = self.pairs.len();
        for (place, (key, value)) in writes.iter().enumerate() {
            if writes[place + 1..].iter().any(|(later, _)| later == key) {
                continue;
            }
            match (self.pairs.contains_key(&key.bytes), value.is_empty()) {
                (false, false) => left += 1,
                (true, true) => left -= 1,
                _ => {}
            }
        }
        left <= MOST_PAIRS
    }

    fn update(&mut self, seq: u64, writes: &[(Key, Value)]) {
        if seq != self.seq + 1 || !self.has_room(writes) {
            return;
        }
        self.seq = seq;
        let pairs = Rc::make_mut(&mut self.pairs);
        for (key, value) in writes {
            if value.is_empty() {
                pairs.remove(&key.bytes);
            } else {
                pairs.insert(key.bytes.clone(), value.clone());
            }
        }
    }
}

struct Committing {
    call: u64,
    seq: u64,
    writes: Writes,
    missing: Nodes,
}

#[derive(Default)]
struct Database {
    records: ByKey<Record>,
    floor: u64,
    store: Store,
    commit: Option<Committing>,
}

enum Run {
    NoRun,
    Releasing(Placement, Nodes),
    Taking(Placement),
}

enum Stage {
    Freezes(Nodes),
    Pulls(Nodes, Vec<(u8, Rc<PullReply>)>),
    Installs(Nodes, Rc<Push>),
    /// The last placement that was made, the number of the last run, and where that is.
    Completed(Placement, u64, Run),
}

struct Lead {
    generation: u64,
    members: Nodes,
    stage: Stage,
}

struct Node {
    me: u8,
    promise: u64,
    pbase: u64,
    phase: Phase,
    generation: u64,
    members: Nodes,
    /// Who pushed what was installed last.
    leader: Option<u8>,
    dbs: Vec<Database>,
    placement: Placement,
    held: Places,
    last_run: u64,
    next_request: u64,
    lead: Option<Lead>,
}

/// A call that waits, by its number: its database, and the record's key or the number of the commit.
enum Pending<'a> {
    OfRecord(&'a Key, &'a Ask),
    OfCommit(u64),
}

impl Node {
    fn opening(me: u8, config: &Config) -> Node {
        Node {
            me,
            promise: 1,
            pbase: 1,
            phase: Phase::Serving,
            generation: 1,
            members: Nodes::first(config.nodes),
            leader: None,
            dbs: config.dbs.iter().map(|_| Database::default()).collect(),
            placement: vec![None; config.addresses.len()].into(),
            held: Places(0),
            last_run: 0,
            next_request: 1,
            lead: None,
        }
    }

    /// What a stop leaves.
    fn stop(&mut self, config: &Config) {
        let opened = Node::opening(self.me, config);
        let left = std::mem::replace(self, opened);
        self.promise = left.promise;
        self.pbase = left.pbase;
        for (db, old) in self.dbs.iter_mut().zip(left.dbs) {
            db.store = old.store;
        }
        self.phase = Phase::Idle;
        self.generation = 0;
        self.members = Nodes(0);
    }

    fn is_present(&self) -> bool {
        matches!(self.phase, Phase::Serving | Phase::Installed)
    }

    fn is_present_in(&self, generation: u64) -> bool {
        self.generation == generation && self.is_present()
    }

    fn master_of(&self, key: &Key) -> u8 {
        match self.members.len() {
            0 => u8::MAX,
            count => self.members.nth(key.hash % count),
        }
    }

    fn is_locked(&self, db: usize, key: &Key) -> bool {
        matches!(self.dbs[db].records.get(key), Some(rec) if rec.locked.is_some())
    }

    fn any_locked(&self) -> bool {
        self.dbs.iter().any(|db| db.records.values().any(|rec| rec.locked.is_some()))
    }

    /// A part of the rules of one record, at this record. A blank one is not kept.
    fn at<T: Tell>(&mut self, config: &Config, db: usize, key: &Key, out: &mut Outs<T>, part: impl FnOnce(&mut At<T>)) {
        let master = self.master_of(key);
        let database = &mut self.dbs[db];
        let (me, generation, members) = (self.me, self.generation, self.members);
        let readonly = config.dbs[db].kind == Kind::ReadOnly;
        let (next_request, floor) = (&mut self.next_request, &mut database.floor);
        if let Some(rec) = database.records.get_mut(key) {
            let mut at = At { me, master, generation, members, db, readonly, key, rec, next_request, floor, out };
            part(&mut at);
            if rec.is_blank() {
                database.records.remove(key);
            }
        } else {
            let rec = &mut Record::default();
            let mut at = At { me, master, generation, members, db, readonly, key, rec, next_request, floor, out };
            part(&mut at);
            if !rec.is_blank() {
                database.records.insert(key.clone(), std::mem::take(rec));
            }
        }
    }

    /// The keys of a database in ascending order.
    fn keys(&self, db: usize) -> Vec<Key> {
        let mut keys: Vec<Key> = self.dbs[db].records.keys().cloned().collect();
        keys.sort_unstable_by(|a, b| a.bytes.cmp(&b.bytes));
        keys
    }

    /// The records with a wish, by the number of its call.
    fn wishes(&self) -> Vec<(u64, usize, Key)> {
        let mut wishes = Vec::new();
        for (db, database) in self.dbs.iter().enumerate() {
            for (key, rec) in &database.records {
                if let Some(wish) = &rec.wish {
                    wishes.push((wish.call, db, key.clone()));
                }
            }
        }
        wishes.sort_unstable_by_key(|(call, ..)| *call);
        wishes
    }

    fn pending(&self) -> Vec<(u64, usize, Pending<'_>)> {
        let mut pending = Vec::new();
        for (db, database) in self.dbs.iter().enumerate() {
            for (key, rec) in &database.records {
                if let Some(wish) = &rec.wish {
                    pending.push((wish.call, db, Pending::OfRecord(key, &wish.ask)));
                }
            }
            if let Some(commit) = &database.commit {
                pending.push((commit.call, db, Pending::OfCommit(commit.seq)));
            }
        }
        pending.sort_unstable_by_key(|(call, ..)| *call);
        pending
    }
}

// ---- calls of clients

impl Node {
    fn refusal(&self, config: &Config, db: usize, key: &Key, op: &Op) -> Option<Why> {
        let Some(declared) = config.dbs.get(db) else { return Some(Why::NoSuchDb) };
        let is_persistent = declared.kind == Kind::Persistent;
        let is_read = matches!(op, Op::Want(Ask::Read));
        if is_persistent && !is_read {
            return Some(Why::WrongKind);
        }
        let rec = self.dbs[db].records.get(key);
        let is_locked = matches!(rec, Some(rec) if rec.locked.is_some());
        if self.phase != Phase::Serving {
            let may_finish = matches!(self.phase, Phase::Freezing(..)) && is_locked;
            if !may_finish || !matches!(op, Op::Want(Ask::Read) | Op::Store(_) | Op::Unlock) {
                return Some(Why::NotServing);
            }
        }
        match op {
            Op::Want(ask) => {
                if let Some(wish) = rec.and_then(|rec| rec.wish.as_ref()) {
                    return Some(Why::CallPending(wish.call));
                }
                if is_locked && !is_read {
                    return Some(Why::AlreadyLocked);
                }
                if matches!(ask, Ask::Apply(function, _) if *function == 0 || *function > 3) {
                    return Some(Why::NoSuchCall);
                }
                if !is_persistent && rec.is_none() && self.dbs[db].records.len() >= MOST_KEYS {
                    return Some(Why::Full);
                }
            }
            Op::Unlock
                if db == 0 && self.dbs.iter().zip(&config.dbs).any(|(db, it)| db.commit.is_some() && it.name == *key) =>
            {
                return Some(Why::CommitPending);
            }
            _ => {
                if !is_locked {
                    return Some(Why::NotLocked);
                }
            }
        }
        None
    }

    fn client<T: Tell>(&mut self, config: &Config, call: u64, db: usize, key: &Key, op: Op, out: &mut Outs<T>) {
        if let Some(why) = self.refusal(config, db, key, &op) {
            return out.answer(call, Answer::Refused(why));
        }
        if config.is_persistent(db) {
            let value = self.dbs[db].store.pairs.get(&key.bytes);
            return out.answer(call, Answer::Read(value.map_or(&[], |value| value)));
        }
        match op {
            Op::Want(ask) => self.at(config, db, key, out, |at| at.want(call, ask)),
            Op::Store(value) => self.at(config, db, key, out, |at| {
                if let Some(copy) = &mut at.rec.copy {
                    copy.value = value;
                }
                at.out.answer(call, Answer::Stored);
            }),
            Op::Unlock => {
                let phase = self.phase;
                self.at(config, db, key, out, |at| {
                    at.rec.locked = None;
                    at.out.answer(call, Answer::Unlocked);
                    if phase == Phase::Serving {
                        at.drain();
                    }
                });
                if let Phase::Freezing(generation, leader) = phase {
                    self.freeze_if_unlocked(generation, leader, out);
                }
            }
        }
    }

    fn commit_refusal(&self, config: &Config, db: usize, writes: &[(Key, Value)]) -> Option<Why> {
        let Some(declared) = config.dbs.get(db) else { return Some(Why::NoSuchDb) };
        if declared.kind != Kind::Persistent {
            Some(Why::WrongKind)
        } else if self.phase != Phase::Serving {
            Some(Why::NotServing)
        } else if self.dbs[db].commit.is_some() {
            Some(Why::CommitPending)
        } else if !self.is_locked(0, &declared.name) {
            Some(Why::NotLocked)
        } else if !self.dbs[db].store.has_room(writes) {
            Some(Why::Full)
        } else {
            None
        }
    }

    fn commit<T: Tell>(&mut self, config: &Config, call: u64, db: usize, writes: Writes, out: &mut Outs<T>) {
        if let Some(why) = self.commit_refusal(config, db, &writes) {
            return out.answer(call, Answer::Refused(why));
        }
        let others = self.members.without(self.me);
        let database = &mut self.dbs[db];
        let seq = database.store.seq + 1;
        database.store.update(seq, &writes);
        if others.is_empty() {
            return out.answer(call, Answer::Committed(seq));
        }
        out.send_all(self.generation, self.me, others, || Msg::PUpdate { db: db as u8, seq, writes: writes.clone() });
        database.commit = Some(Committing { call, seq, writes, missing: others });
    }

    fn on_pupdate<T: Tell>(&mut self, sender: u8, db: u8, seq: u64, writes: &[(Key, Value)], out: &mut Outs<T>) {
        let store = &mut self.dbs[usize::from(db)].store;
        store.update(seq, writes);
        if store.seq >= seq {
            out.send(self.generation, self.me, sender, Msg::PAck { db, seq });
        }
    }

    fn on_pack<T: Tell>(&mut self, sender: u8, db: u8, seq: u64, out: &mut Outs<T>) {
        let pending = &mut self.dbs[usize::from(db)].commit;
        let Some(commit) = pending else { return };
        if commit.seq == seq && commit.missing.has(sender) {
            commit.missing = commit.missing.without(sender);
            if commit.missing.is_empty() {
                out.answer(commit.call, Answer::Committed(seq));
                *pending = None;
            }
        }
    }
}

// ---- rounds

impl Node {
    fn begin_round<T: Tell>(&mut self, ticket: u64, members: Nodes, out: &mut Outs<T>) {
        if ticket > self.promise {
            self.lead = Some(Lead { generation: ticket, members, stage: Stage::Freezes(members) });
            out.send_all(ticket, self.me, members, || Msg::Freeze(members));
        }
    }

    fn freeze_if_unlocked<T: Tell>(&mut self, generation: u64, leader: u8, out: &mut Outs<T>) {
        if !self.any_locked() {
            self.phase = Phase::Frozen(generation);
            out.send(generation, self.me, leader, Msg::FreezeAck);
        }
    }

    fn on_freeze<T: Tell>(&mut self, config: &Config, leader: u8, generation: u64, out: &mut Outs<T>) {
        if generation <= self.promise {
            if self.phase == Phase::Frozen(generation) {
                out.send(generation, self.me, leader, Msg::FreezeAck);
            }
            return;
        }
        self.promise = generation;
        self.lead.take_if(|lead| lead.generation < generation);
        self.phase = Phase::Freezing(generation, leader);
        for db in &mut self.dbs {
            db.records.retain(|_, rec| {
                rec.entry = None;
                rec.vacuum = None;
                rec.queue.clear();
                rec.waiting.clear();
                rec.untrack();
                !rec.is_blank()
            });
        }
        for (db, declared) in config.dbs.iter().enumerate() {
            if let Some(commit) = self.dbs[db].commit.take() {
                out.answer(commit.call, Answer::Unsure(commit.seq, commit.missing));
                self.at(config, 0, &declared.name, out, |at| {
                    at.rec.locked = None;
                    at.out.note(at.me, Note::Ended(at.key));
                });
            }
        }
        self.freeze_if_unlocked(generation, leader, out);
    }

    fn on_freezeack<T: Tell>(&mut self, sender: u8, generation: u64, out: &mut Outs<T>) {
        let Some(lead) = self.lead.as_mut().filter(|lead| lead.generation == generation) else { return };
        let Stage::Freezes(missing) = &mut lead.stage else { return };
        if missing.has(sender) {
            *missing = missing.without(sender);
            if missing.is_empty() {
                lead.stage = Stage::Pulls(lead.members, Vec::new());
                out.send_all(generation, self.me, lead.members, || Msg::Pull);
            }
        }
    }

    /// A row for each copy of a database, by key.
    fn rows(&self, db: usize) -> impl Iterator<Item = Row> + '_ {
        let mut held: Vec<(&Key, &LocalCopy)> =
            self.dbs[db].records.iter().filter_map(|(key, rec)| Some((key, rec.copy.as_ref()?))).collect();
        held.sort_unstable_by(|a, b| a.0.bytes.cmp(&b.0.bytes));
        held.into_iter().map(move |(key, copy)| Row {
            db,
            key: key.clone(),
            rsn: copy.rsn,
            value: copy.value.clone(),
            master: copy.master.filter(|master| *master == self.me),
        })
    }

    fn on_pull<T: Tell>(&self, config: &Config, leader: u8, generation: u64, out: &mut Outs<T>) {
        if self.phase != Phase::Frozen(generation) {
            return;
        }
        let reply = PullReply {
            vbase: self.generation,
            pbase: self.pbase,
            rows: (0..self.dbs.len()).flat_map(|db| self.rows(db)).collect(),
            tables: (0..self.dbs.len())
                .filter(|db| config.is_persistent(*db))
                .map(|db| Table { db, seq: self.dbs[db].store.seq, pairs: self.dbs[db].store.pairs.clone() })
                .collect(),
            addresses: self.held,
        };
        out.send(generation, self.me, leader, Msg::PullReply(Rc::new(reply)));
    }

    fn on_pullreply<T: Tell>(
        &mut self,
        config: &Config,
        sender: u8,
        generation: u64,
        reply: &Rc<PullReply>,
        out: &mut Outs<T>,
    ) {
        let Some(lead) = self.lead.as_mut().filter(|lead| lead.generation == generation) else { return };
        let Stage::Pulls(missing, pulls) = &mut lead.stage else { return };
        if !missing.has(sender) {
            return;
        }
        *missing = missing.without(sender);
        pulls.push((sender, reply.clone()));
        if !missing.is_empty() {
            return;
        }
        pulls.sort_unstable_by_key(|(node, _)| *node);
        let (vparent, rows) = merged_rows(pulls, self.me);
        let (pparent, tables) = merged_tables(pulls);
        let mut placement = vec![None; config.addresses.len()];
        for (node, reply) in pulls.iter().rev() {
            for place in reply.addresses {
                placement[place] = Some(*node);
            }
        }
        let members = lead.members;
        let push = Rc::new(Push { members, rows, tables, placement: placement.into() });
        lead.stage = Stage::Installs(members, push.clone());
        out.note(self.me, Note::Round(generation, members, vparent, pparent));
        out.send_all(generation, self.me, members, || Msg::Push(push.clone()));
    }

    fn on_push<T: Tell>(&mut self, leader: u8, generation: u64, push: &Push, out: &mut Outs<T>) {
        if self.phase == Phase::Frozen(generation) {
            self.install(leader, generation, push, out);
        } else if !self.is_present_in(generation) {
            return;
        }
        out.send(generation, self.me, leader, Msg::PushAck);
    }

    fn install<T: Tell>(&mut self, leader: u8, generation: u64, push: &Push, out: &mut Outs<T>) {
        self.pbase = generation;
        self.generation = generation;
        self.members = push.members;
        self.phase = Phase::Installed;
        self.leader = Some(leader);
        for table in &push.tables {
            self.dbs[table.db].store = Store { seq: table.seq, pairs: table.pairs.clone() };
        }
        for db in &mut self.dbs {
            db.floor = 0;
            db.records.retain(|_, rec| {
                rec.copy = None;
                rec.entry = None;
                !rec.is_blank()
            });
        }
        for row in &push.rows {
            let is_home = self.master_of(&row.key) == self.me;
            let rsn = if row.master == Some(self.me) { row.rsn + 1 } else { row.rsn };
            let rec = self.dbs[row.db].records.entry(row.key.clone()).or_default();
            rec.copy = Some(LocalCopy { rsn, master: row.master, flags: 0, value: row.value.clone() });
            if let (true, Some(holder)) = (is_home, row.master) {
                rec.entry = Some(Entry { holder, least: row.rsn + 1, request: 0, value: row.value.clone() });
            }
        }
        let own = places_of(self.me, &push.placement).0;
        let given_up = Places(self.held.0 & !own);
        self.placement = push.placement.clone();
        self.held = Places(self.held.0 & own);
        self.last_run = 0;
        out.note(self.me, Note::Installed(generation));
        for place in given_up {
            out.note(self.me, Note::Released(place));
        }
    }

    fn on_pushack<T: Tell>(&mut self, sender: u8, generation: u64, out: &mut Outs<T>) {
        let Some(lead) = self.lead.as_mut().filter(|lead| lead.generation == generation) else { return };
        let Stage::Installs(missing, push) = &mut lead.stage else { return };
        if missing.has(sender) {
            *missing = missing.without(sender);
            if missing.is_empty() {
                lead.stage = Stage::Completed(push.placement.clone(), 0, Run::NoRun);
                out.send_all(generation, self.me, lead.members, || Msg::Thaw);
            }
        }
    }

    fn on_thaw<T: Tell>(&mut self, config: &Config, generation: u64, out: &mut Outs<T>) {
        if self.phase != Phase::Installed || self.generation != generation {
            return;
        }
        self.phase = Phase::Serving;
        out.note(self.me, Note::Thawed(generation));
        for (_, db, key) in self.wishes() {
            self.at(config, db, &key, out, |at| at.want_again());
        }
    }
}

/// Of the members with the greatest base the greatest RSN of each key; of equal ones the data master's, then the lowest node's.
fn merged_rows(pulls: &[(u8, Rc<PullReply>)], leader: u8) -> (u64, Vec<Row>) {
    let parent = pulls.iter().map(|(_, reply)| reply.vbase).max().unwrap_or(0);
    if parent == 0 {
        return (0, Vec::new());
    }
    // Each reply has its rows in order: this sort finds them so.
    let mut rows: Vec<&Row> =
        pulls.iter().filter(|(_, reply)| reply.vbase == parent).flat_map(|(_, reply)| &reply.rows).collect();
    rows.sort_by(|a, b| (a.db, &a.key.bytes, b.rsn, b.master.is_some()).cmp(&(b.db, &b.key.bytes, a.rsn, a.master.is_some())));
    rows.dedup_by(|a, b| a.db == b.db && a.key == b.key);
    let merged = rows.into_iter().map(|row| Row {
        db: row.db,
        key: row.key.clone(),
        rsn: row.rsn,
        value: row.value.clone(),
        master: row.master.or(Some(leader)),
    });
    (parent, merged.collect())
}

/// Of the members with the greatest base the greatest sequence number of each database; of equal ones the lowest node's.
fn merged_tables(pulls: &[(u8, Rc<PullReply>)]) -> (u64, Vec<Table>) {
    let parent = pulls.iter().map(|(_, reply)| reply.pbase).max().unwrap_or(0);
    let mut merged: Vec<Table> = Vec::new();
    for (_, reply) in pulls.iter().filter(|(_, reply)| reply.pbase == parent) {
        if merged.is_empty() {
            merged.clone_from(&reply.tables);
        }
        for (best, table) in merged.iter_mut().zip(&reply.tables) {
            if table.seq > best.seq {
                best.clone_from(table);
            }
        }
    }
    (parent, merged)
}

// ---- public addresses

impl Node {
    /// The last placement and the number of the last run, where the node leads its generation with the round completed.
    fn completed(&self) -> Option<(&Lead, &Placement, u64)> {
        match &self.lead {
            Some(lead) if lead.generation == self.generation => match &lead.stage {
                Stage::Completed(placement, run, _) => Some((lead, placement, *run)),
                _ => None,
            },
            _ => None,
        }
    }

    fn begin_takeover<T: Tell>(&mut self, config: &Config, able: Nodes, out: &mut Outs<T>) {
        let (Phase::Serving, Some((lead, placement, last))) = (self.phase, self.completed()) else { return };
        let (members, run, made) = (lead.members, last + 1, placement.clone());
        let given: Vec<(Address, Option<u8>)> = config.addresses.iter().copied().zip(made.iter().copied()).collect();
        let planned: Placement = placed(&given, Nodes(able.0 & members.0)).into();
        for node in members {
            out.send(self.generation, self.me, node, Msg::Release { run, keep: places_of(node, &planned) });
        }
        if let Some(lead) = &mut self.lead {
            lead.stage = Stage::Completed(made, run, Run::Releasing(planned, members));
        }
    }

    fn on_release<T: Tell>(&mut self, leader: u8, run: u64, keep: Places, out: &mut Outs<T>) {
        if run < self.last_run {
            return;
        }
        self.last_run = run;
        let given_up = Places(self.held.0 & !keep.0);
        self.held = Places(self.held.0 & keep.0);
        for place in given_up {
            out.note(self.me, Note::Released(place));
        }
        out.send(self.generation, self.me, leader, Msg::ReleaseAck { run });
    }

    fn on_releaseack<T: Tell>(&mut self, sender: u8, generation: u64, number: u64, out: &mut Outs<T>) {
        let Some(lead) = self.lead.as_mut().filter(|lead| lead.generation == generation) else { return };
        let Stage::Completed(made, last, run) = &mut lead.stage else { return };
        let Run::Releasing(planned, missing) = run else { return };
        if *last != number || !missing.has(sender) {
            return;
        }
        *missing = missing.without(sender);
        if missing.is_empty() {
            let placement = planned.clone();
            *made = placement.clone();
            out.send_all(generation, self.me, lead.members, || Msg::Take { run: number, placement: placement.clone() });
            *run = Run::Taking(placement);
        }
    }

    fn on_take<T: Tell>(&mut self, run: u64, placement: &Placement, out: &mut Outs<T>) {
        if run != self.last_run {
            return;
        }
        let new = Places(places_of(self.me, placement).0 & !self.held.0);
        self.placement = placement.clone();
        self.held = Places(self.held.0 | new.0);
        for place in new {
            out.note(self.me, Note::Took(place));
        }
    }
}

// ---- retries, vacuums and arrivals

impl Node {
    fn retry<T: Tell>(&mut self, config: &Config, out: &mut Outs<T>) {
        if self.is_present() {
            self.retry_records(config, out);
        }
        let Some(lead) = &self.lead else { return };
        match &lead.stage {
            Stage::Freezes(missing) => out.send_all(lead.generation, self.me, *missing, || Msg::Freeze(lead.members)),
            Stage::Pulls(missing, _) => out.send_all(lead.generation, self.me, *missing, || Msg::Pull),
            Stage::Installs(missing, push) => out.send_all(lead.generation, self.me, *missing, || Msg::Push(push.clone())),
            Stage::Completed(_, number, run) => {
                out.send_all(lead.generation, self.me, lead.members, || Msg::Thaw);
                if !self.is_present_in(lead.generation) {
                    return;
                }
                match run {
                    Run::NoRun => {}
                    Run::Releasing(planned, missing) => {
                        for node in *missing {
                            let keep = places_of(node, planned);
                            out.send(lead.generation, self.me, node, Msg::Release { run: *number, keep });
                        }
                    }
                    Run::Taking(placement) => {
                        out.send_all(lead.generation, self.me, lead.members, || Msg::Take {
                            run: *number,
                            placement: placement.clone(),
                        });
                    }
                }
            }
        }
    }

    fn retry_records<T: Tell>(&mut self, config: &Config, out: &mut Outs<T>) {
        for (_, db, key) in self.wishes() {
            self.at(config, db, &key, out, |at| match &at.rec.wish {
                Some(wish) if wish.request != 0 => {
                    let (request, kind) = (wish.request, kind_of(at.readonly, &wish.ask));
                    at.send(at.master, OfRecord::Call { request, kind });
                }
                _ => {}
            });
        }
        for (number, db) in self.dbs.iter().enumerate() {
            let mut running: Vec<(&Key, u64, Nodes)> =
                db.records.iter().filter_map(|(key, rec)| Some((key, rec.revoking?, rec.unrevoked))).collect();
            running.sort_unstable_by(|a, b| a.0.bytes.cmp(&b.0.bytes));
            for (key, rsn, missing) in running {
                out.send_all(self.generation, self.me, missing, || {
                    Msg::OfRecord(number as u8, key.clone(), OfRecord::Revoke { rsn })
                });
            }
        }
        for (number, db) in self.dbs.iter().enumerate() {
            if let Some(commit) = &db.commit {
                let (db, seq) = (number as u8, commit.seq);
                out.send_all(self.generation, self.me, commit.missing, || Msg::PUpdate {
                    db,
                    seq,
                    writes: commit.writes.clone(),
                });
            }
        }
    }

    fn vacuum<T: Tell>(&mut self, config: &Config, db: usize, out: &mut Outs<T>) {
        for key in self.keys(db) {
            self.at(config, db, &key, out, |at| at.vacuum());
        }
    }

    /// Whether the message is of the generation in which the node is present, and of members of it.
    fn is_current(&self, frame: &Frame) -> bool {
        self.is_present_in(frame.generation) && self.members.has(frame.sender)
    }

    fn arrive<T: Tell>(&mut self, config: &Config, frame: &Frame, out: &mut Outs<T>) {
        let (sender, generation) = (frame.sender, frame.generation);
        match &frame.msg {
            Msg::OfRecord(db, key, msg) => {
                if !self.is_current(frame) {
                    return;
                }
                let master = self.master_of(key);
                let may_come = match msg {
                    OfRecord::Done { node, .. } => self.me == master && self.members.has(*node),
                    OfRecord::Recall(recall) => sender == master && self.members.has(recall.node),
                    OfRecord::Call { .. } | OfRecord::Give { .. } | OfRecord::Refuse { .. } => self.me == master,
                    OfRecord::VStored { .. } | OfRecord::VDeleted { .. } => self.me == master,
                    OfRecord::Pass { .. } | OfRecord::VStore { .. } | OfRecord::VDelete { .. } => sender == master,
                    _ => true,
                };
                if may_come {
                    self.at(config, usize::from(*db), key, out, |at| at.arrive(sender, msg));
                }
            }
            Msg::Freeze(_) => self.on_freeze(config, sender, generation, out),
            Msg::FreezeAck => self.on_freezeack(sender, generation, out),
            Msg::Pull => self.on_pull(config, sender, generation, out),
            Msg::PullReply(reply) => self.on_pullreply(config, sender, generation, reply, out),
            Msg::Push(push) => self.on_push(sender, generation, push, out),
            Msg::PushAck => self.on_pushack(sender, generation, out),
            Msg::Thaw => self.on_thaw(config, generation, out),
            _ if !self.is_current(frame) => {}
            Msg::PUpdate { db, seq, writes } => self.on_pupdate(sender, *db, *seq, writes, out),
            Msg::PAck { db, seq } => self.on_pack(sender, *db, *seq, out),
            Msg::Release { run, keep } => self.on_release(sender, *run, *keep, out),
            Msg::ReleaseAck { run } => self.on_releaseack(sender, generation, *run, out),
            Msg::Take { run, placement } => {
                if placement.iter().flatten().all(|node| self.members.has(*node)) {
                    self.on_take(*run, placement, out);
                }
            }
        }
    }
}

// ---- where addresses go

fn distance(a: Address, b: Address) -> u32 {
    match (a, b) {
        (Address::V4(a), Address::V4(b)) => (a ^ b).leading_zeros(),
        (Address::V6(a), Address::V6(b)) => (a ^ b).leading_zeros(),
        _ => 0,
    }
}

/// Sums of squared distances, kept as addresses move.
struct Sums {
    squares: Vec<u32>,
    count: usize,
    /// Of each node: the sum of each address to those at the node, itself left out.
    to: Vec<Vec<u32>>,
    imbalance: Vec<u64>,
}

impl Sums {
    fn new(given: &[(Address, Option<u8>)]) -> Sums {
        let count = given.len();
        let mut squares = vec![0; count * count];
        for a in 0..count {
            for b in 0..a {
                let near = distance(given[a].0, given[b].0);
                squares[a * count + b] = near * near;
                squares[b * count + a] = near * near;
            }
        }
        let mut sums = Sums { squares, count, to: vec![vec![0; count]; 16], imbalance: vec![0; 16] };
        for (place, (_, at)) in given.iter().enumerate() {
            if let Some(node) = at {
                sums.add(place, *node);
            }
        }
        sums
    }

    fn to(&self, place: usize, node: u8) -> u64 {
        u64::from(self.to[usize::from(node)][place])
    }

    fn add(&mut self, place: usize, node: u8) {
        self.imbalance[usize::from(node)] += self.to(place, node);
        let row = &self.squares[place * self.count..][..self.count];
        for (sum, square) in self.to[usize::from(node)].iter_mut().zip(row) {
            *sum += square;
        }
    }

    fn remove(&mut self, place: usize, node: u8) {
        self.imbalance[usize::from(node)] -= self.to(place, node);
        let row = &self.squares[place * self.count..][..self.count];
        for (sum, square) in self.to[usize::from(node)].iter_mut().zip(row) {
            *sum -= square;
        }
    }
}

/// Where LCP2 places ascending addresses over the able nodes.
fn placed(given: &[(Address, Option<u8>)], able: Nodes) -> Vec<Option<u8>> {
    let mut at: Vec<Option<u8>> = given.iter().map(|(_, at)| *at).collect();
    let targets: Vec<u8> = able.filter(|node| !at.contains(&Some(*node))).collect();
    let mut sums = Sums::new(given);
    for node in &mut at {
        node.take_if(|node| !able.has(*node));
    }
    if able.is_empty() {
        return at;
    }
    let mut homeless: Vec<usize> = (0..at.len()).filter(|place| at[*place].is_none()).collect();
    while let Some((_, place, node)) =
        homeless.iter().flat_map(|place| able.map(|node| (sums.to(*place, node), *place, node))).min()
    {
        at[place] = Some(node);
        homeless.retain(|it| *it != place);
        sums.add(place, node);
    }
    while let Some((place, source, target)) = next_failback(&at, &sums, able, &targets) {
        at[place] = Some(target);
        sums.remove(place, source);
        sums.add(place, target);
    }
    at
}

/// The best move of the first source that has one.
fn next_failback(at: &[Option<u8>], sums: &Sums, able: Nodes, targets: &[u8]) -> Option<(usize, u8, u8)> {
    let mut sources: Vec<u8> = able.collect();
    sources.sort_by_key(|node| std::cmp::Reverse(sums.imbalance[usize::from(*node)]));
    for source in sources {
        let old = sums.imbalance[usize::from(source)];
        let mut best: Option<(u64, usize, u8)> = None;
        for place in (0..at.len()).filter(|place| at[*place] == Some(source)) {
            let here = sums.to(place, source);
            for target in targets.iter().filter(|target| **target != source) {
                let there = sums.to(place, *target);
                let new = sums.imbalance[usize::from(*target)] + there;
                if there < here && new < old {
                    let choice = (old - here + new, place, *target);
                    if best.is_none_or(|best| choice < best) {
                        best = Some(choice);
                    }
                }
            }
        }
        if let Some((_, place, target)) = best {
            return Some((place, source, target));
        }
    }
    None
}

// ---- the cluster

/// Why a line is refused.
enum What {
    Long,
    Unended,
    Words,
    Order,
    Repeat,
    Limit,
    NoSuchNode(u32),
    NodeDown(u8),
    NodeUp(u8),
    NoSuchDb,
    WrongKind,
    NotServing(u8),
    NotLeader(u8),
    NoSuchFrame(u64),
    NoSuchTframe(u64),
    NotMember(u8),
    LockHeld(u8),
    NotHolder,
}

impl fmt::Display for What {
    fn fmt(&self, f: &mut fmt::Formatter) -> fmt::Result {
        match self {
            What::Long => f.write_str("long"),
            What::Unended => f.write_str("unended"),
            What::Words => f.write_str("words"),
            What::Order => f.write_str("order"),
            What::Repeat => f.write_str("repeat"),
            What::Limit => f.write_str("limit"),
            What::NoSuchNode(n) => write!(f, "no-such-node {n}"),
            What::NodeDown(n) => write!(f, "node-down {n}"),
            What::NodeUp(n) => write!(f, "node-up {n}"),
            What::NoSuchDb => f.write_str("no-such-db"),
            What::WrongKind => f.write_str("wrong-kind"),
            What::NotServing(n) => write!(f, "not-serving {n}"),
            What::NotLeader(n) => write!(f, "not-leader {n}"),
            What::NoSuchFrame(k) => write!(f, "no-such-frame {k}"),
            What::NoSuchTframe(k) => write!(f, "no-such-tframe {k}"),
            What::NotMember(n) => write!(f, "not-member {n}"),
            What::LockHeld(n) => write!(f, "lock-held {n}"),
            What::NotHolder => f.write_str("not-holder"),
        }
    }
}

struct Cluster<T> {
    config: Rc<Config>,
    nodes: Vec<Node>,
    running: Nodes,
    able: Nodes,
    /// Message K stands at place K - 1.
    frames: Vec<Frame>,
    /// No message before this place waits.
    first: usize,
    holder: Option<u8>,
    ticket: u64,
    calls: u64,
    out: Outs<T>,
}

impl<T: Tell> Cluster<T> {
    fn opening(config: Rc<Config>, tell: T) -> Cluster<T> {
        let all = Nodes::first(config.nodes);
        Cluster {
            nodes: all.map(|node| Node::opening(node, &config)).collect(),
            config,
            running: all,
            able: all,
            frames: Vec::new(),
            first: 0,
            holder: None,
            ticket: 1,
            calls: 0,
            out: Outs::new(tell),
        }
    }

    fn node(&self, node: u32) -> Result<u8, What> {
        if node < u32::from(self.config.nodes) {
            Ok(node as u8)
        } else {
            Err(What::NoSuchNode(node))
        }
    }

    fn up(&self, node: u32) -> Result<u8, What> {
        let node = self.node(node)?;
        if self.running.has(node) {
            Ok(node)
        } else {
            Err(What::NodeDown(node))
        }
    }

    /// An event comes to a node, and the messages that it sends wait.
    fn feed(&mut self, node: u8, event: impl FnOnce(&mut Node, &Config, &mut Outs<T>)) {
        event(&mut self.nodes[usize::from(node)], &self.config, &mut self.out);
        self.frames.append(&mut self.out.frames);
    }

    fn client(&mut self, node: u32, db: usize, key: &Key, op: Op) -> Result<(), What> {
        let node = self.up(node)?;
        self.calls += 1;
        let call = self.calls;
        self.feed(node, |it, config, out| it.client(config, call, db, key, op, out));
        Ok(())
    }

    fn commit(&mut self, node: u32, db: usize, writes: Writes) -> Result<(), What> {
        let node = self.up(node)?;
        self.calls += 1;
        let call = self.calls;
        self.feed(node, |it, config, out| it.commit(config, call, db, writes, out));
        Ok(())
    }

    /// The place of a message of this fate.
    fn place_of(&self, number: u64, fate: Fate) -> Result<usize, What> {
        let place = number.wrapping_sub(1) as usize;
        match self.frames.get(place) {
            Some(frame) if frame.fate == fate => Ok(place),
            _ => Err(What::NoSuchFrame(number)),
        }
    }

    fn arrive(&mut self, place: usize) {
        let frame = &self.frames[place];
        self.nodes[usize::from(frame.receiver)].arrive(&self.config, frame, &mut self.out);
        self.frames.append(&mut self.out.frames);
    }

    fn deliver(&mut self, number: u64) -> Result<(), What> {
        let place = self.place_of(number, Fate::Waiting)?;
        let frame = &mut self.frames[place];
        if self.running.has(frame.receiver) {
            frame.fate = Fate::Delivered;
            self.arrive(place);
        } else {
            frame.fate = Fate::Dropped;
            self.out.tell.told(Told::Lost(number));
        }
        Ok(())
    }

    fn repeat(&mut self, number: u64) -> Result<(), What> {
        let place = self.place_of(number, Fate::Delivered)?;
        if self.running.has(self.frames[place].receiver) {
            self.arrive(place);
        } else {
            self.out.tell.told(Told::Lost(number));
        }
        Ok(())
    }

    fn drop_frame(&mut self, number: u64) -> Result<(), What> {
        let place = self.place_of(number, Fate::Waiting)?;
        self.frames[place].fate = Fate::Dropped;
        Ok(())
    }

    /// The least number of a message that waits.
    fn next_waiting(&mut self) -> Option<u64> {
        while self.frames.get(self.first)?.fate != Fate::Waiting {
            self.first += 1;
        }
        Some(self.first as u64 + 1)
    }

    fn retry(&mut self, node: u32) -> Result<(), What> {
        let node = self.up(node)?;
        self.feed(node, Node::retry);
        Ok(())
    }

    fn vacuum(&mut self, node: u32, db: usize) -> Result<(), What> {
        let node = self.up(node)?;
        match self.config.dbs.get(db) {
            None => Err(What::NoSuchDb),
            Some(db) if db.kind == Kind::Persistent => Err(What::WrongKind),
            Some(_) if self.nodes[usize::from(node)].phase != Phase::Serving => Err(What::NotServing(node)),
            Some(_) => {
                self.feed(node, |it, config, out| it.vacuum(config, db, out));
                Ok(())
            }
        }
    }

    fn recover(&mut self, node: u32, members: &[u32]) -> Result<(), What> {
        self.node(node)?;
        let mut set = Nodes(0);
        for member in members {
            set = set.with(self.node(*member)?);
        }
        let node = self.up(node)?;
        self.recover_nodes(node, set)
    }

    fn recover_nodes(&mut self, node: u8, members: Nodes) -> Result<(), What> {
        if !members.has(node) {
            return Err(What::NotMember(node));
        }
        if let Some(holder) = self.holder.filter(|holder| *holder != node) {
            return Err(What::LockHeld(holder));
        }
        self.holder = Some(node);
        self.ticket += 1;
        let ticket = self.ticket;
        self.out.tell.told(Told::Ticket(ticket, node));
        self.feed(node, |it, _, out| it.begin_round(ticket, members, out));
        Ok(())
    }

    fn give_lock_back(&mut self, node: u32) -> Result<(), What> {
        let node = self.up(node)?;
        if self.holder != Some(node) {
            return Err(What::NotHolder);
        }
        self.holder = None;
        self.out.tell.told(Told::Yielded(node));
        Ok(())
    }

    fn stop(&mut self, node: u32) -> Result<(), What> {
        let node = self.up(node)?;
        let it = &mut self.nodes[usize::from(node)];
        self.out.tell.told(Told::Stopped(node));
        for (call, ..) in it.pending() {
            self.out.tell.told(Told::Gone(call));
        }
        it.stop(&self.config);
        self.running = self.running.without(node);
        self.holder.take_if(|holder| *holder == node);
        Ok(())
    }

    fn start(&mut self, node: u32) -> Result<(), What> {
        let node = self.node(node)?;
        if self.running.has(node) {
            return Err(What::NodeUp(node));
        }
        self.running = self.running.with(node);
        self.out.tell.told(Told::Started(node));
        Ok(())
    }

    fn take_over(&mut self, node: u32) -> Result<(), What> {
        let node = self.up(node)?;
        let it = &self.nodes[usize::from(node)];
        if it.phase != Phase::Serving {
            return Err(What::NotServing(node));
        }
        if it.completed().is_none() {
            return Err(What::NotLeader(node));
        }
        let able = self.able;
        self.feed(node, |it, config, out| it.begin_takeover(config, able, out));
        Ok(())
    }

    fn mark(&mut self, node: u32, is_able: bool) -> Result<(), What> {
        let node = self.node(node)?;
        self.able = if is_able { self.able.with(node) } else { self.able.without(node) };
        Ok(())
    }

    fn is_there(&self, node: u8, generation: u64) -> bool {
        self.running.has(node) && self.nodes[usize::from(node)].is_present_in(generation)
    }
}

// ---- traverses

#[derive(Clone, Copy, PartialEq)]
enum Pass {
    Copies,
    Entries,
}

struct WalkRow {
    key: Key,
    rsn: u64,
    value: Value,
}

struct Post {
    generation: u64,
    traverse: u64,
    rows: Option<Rc<[WalkRow]>>,
    db: u8,
    sender: u8,
    receiver: u8,
    pass: Pass,
    fate: Fate,
}

struct Best {
    rsn: u64,
    value: Value,
    node: u8,
    of_entry: bool,
    has_entry: bool,
}

struct Traverse {
    number: u64,
    node: u8,
    generation: u64,
    db: u8,
    members: Nodes,
    pass: Pass,
    missing: Nodes,
    kept: ByKey<Best>,
}

#[derive(Default)]
struct Walker {
    begun: u64,
    running: Vec<Traverse>,
    posts: Vec<Post>,
    /// No message before this place waits.
    first: usize,
}

impl Traverse {
    fn gather(&mut self, node: u8, rows: &[WalkRow]) {
        let of_entry = self.pass == Pass::Entries;
        for row in rows {
            match self.kept.get_mut(&row.key) {
                Some(best) => {
                    best.has_entry |= of_entry;
                    if (row.rsn, !of_entry, best.node) > (best.rsn, !best.of_entry, node) {
                        *best = Best { rsn: row.rsn, value: row.value.clone(), node, of_entry, has_entry: best.has_entry };
                    }
                }
                None => {
                    let best = Best { rsn: row.rsn, value: row.value.clone(), node, of_entry, has_entry: of_entry };
                    self.kept.insert(row.key.clone(), best);
                }
            }
        }
    }
}

impl Walker {
    fn post(&mut self, post: Post, text: &mut Text) {
        self.posts.push(post);
        if let Some(post) = self.posts.last() {
            text.post(self.posts.len(), post);
        }
    }

    fn ask_all(&mut self, place: usize, text: &mut Text) {
        let it = &self.running[place];
        let (sender, generation, traverse, db, pass) = (it.node, it.generation, it.number, it.db, it.pass);
        for receiver in it.members {
            self.post(Post { generation, traverse, rows: None, db, sender, receiver, pass, fate: Fate::Waiting }, text);
        }
    }

    fn begin(&mut self, cluster: &mut Cluster<Text>, node: u32, db: usize) -> Result<(), What> {
        let node = cluster.up(node)?;
        if db >= cluster.config.dbs.len() {
            return Err(What::NoSuchDb);
        }
        let it = &cluster.nodes[usize::from(node)];
        if it.phase != Phase::Serving {
            return Err(What::NotServing(node));
        }
        self.begun += 1;
        self.running.push(Traverse {
            number: self.begun,
            node,
            generation: it.generation,
            db: db as u8,
            members: it.members,
            pass: Pass::Copies,
            missing: it.members,
            kept: ByKey::default(),
        });
        self.ask_all(self.running.len() - 1, &mut cluster.out.tell);
        Ok(())
    }

    /// Gives a message to who takes it, if anybody does.
    fn give(&mut self, cluster: &mut Cluster<Text>, place: usize) -> bool {
        let post = &self.posts[place];
        match post.rows.clone() {
            None => {
                if !cluster.is_there(post.receiver, post.generation) {
                    return false;
                }
                let records = &cluster.nodes[usize::from(post.receiver)].dbs[usize::from(post.db)].records;
                let rows: Vec<WalkRow> = match post.pass {
                    Pass::Copies => records.iter().filter_map(|(key, rec)| copy_row(key, rec)).collect(),
                    Pass::Entries => records.iter().filter_map(|(key, rec)| entry_row(key, rec)).collect(),
                };
                let reply = Post {
                    rows: Some(rows.into()),
                    sender: post.receiver,
                    receiver: post.sender,
                    fate: Fate::Waiting,
                    ..*post
                };
                self.post(reply, &mut cluster.out.tell);
            }
            Some(rows) => {
                let Some(place) = self.running.iter().position(|it| it.number == post.traverse) else { return false };
                let it = &mut self.running[place];
                if it.pass == post.pass && it.missing.has(post.sender) {
                    it.missing = it.missing.without(post.sender);
                    it.gather(post.sender, &rows);
                    if it.missing.is_empty() {
                        self.end_pass(place, &mut cluster.out.tell);
                    }
                }
            }
        }
        true
    }

    fn end_pass(&mut self, place: usize, text: &mut Text) {
        let it = &mut self.running[place];
        if it.pass == Pass::Copies {
            it.pass = Pass::Entries;
            it.missing = it.members;
            return self.ask_all(place, text);
        }
        let it = self.running.remove(place);
        let mut shown: Vec<(&[u8], &[u8])> = it
            .kept
            .iter()
            .filter(|(_, best)| best.has_entry && !best.value.is_empty())
            .map(|(key, best)| (&*key.bytes, &*best.value))
            .collect();
        shown.sort_unstable();
        text.pairs(&shown);
    }

    fn place_of(&self, number: u64, fate: Fate) -> Result<usize, What> {
        let place = number.wrapping_sub(1) as usize;
        match self.posts.get(place) {
            Some(post) if post.fate == fate => Ok(place),
            _ => Err(What::NoSuchTframe(number)),
        }
    }

    fn carry(&mut self, cluster: &mut Cluster<Text>, number: u64) -> Result<(), What> {
        let place = self.place_of(number, Fate::Waiting)?;
        if self.give(cluster, place) {
            self.posts[place].fate = Fate::Delivered;
        } else {
            self.posts[place].fate = Fate::Dropped;
            cluster.out.tell.numbered("tlost ", number);
        }
        Ok(())
    }

    fn again(&mut self, cluster: &mut Cluster<Text>, number: u64) -> Result<(), What> {
        let place = self.place_of(number, Fate::Delivered)?;
        if !self.give(cluster, place) {
            cluster.out.tell.numbered("tlost ", number);
        }
        Ok(())
    }

    fn lose(&mut self, number: u64) -> Result<(), What> {
        let place = self.place_of(number, Fate::Waiting)?;
        self.posts[place].fate = Fate::Dropped;
        Ok(())
    }

    fn next_waiting(&mut self) -> Option<u64> {
        while self.posts.get(self.first)?.fate != Fate::Waiting {
            self.first += 1;
        }
        Some(self.first as u64 + 1)
    }

    /// After a step of the cluster the traverses end whose node is present in their generation no more.
    fn end_absent(&mut self, cluster: &mut Cluster<Text>) {
        let mut ended = Vec::new();
        self.running.retain(|it| {
            let goes_on = cluster.is_there(it.node, it.generation);
            if !goes_on {
                ended.push(it.number);
            }
            goes_on
        });
        for number in ended {
            let text = &mut cluster.out.tell;
            text.word("traverse ");
            text.number(number);
            text.word(" ended\n");
        }
    }
}

fn copy_row(key: &Key, rec: &Record) -> Option<WalkRow> {
    let copy = rec.copy.as_ref()?;
    Some(WalkRow { key: key.clone(), rsn: copy.rsn, value: copy.value.clone() })
}

fn entry_row(key: &Key, rec: &Record) -> Option<WalkRow> {
    let entry = rec.entry.as_ref()?;
    Some(WalkRow { key: key.clone(), rsn: entry.least, value: entry.value.clone() })
}

// ---- texts

/// A text that is made, and written from time to time.
struct Text {
    config: Rc<Config>,
    made: Vec<u8>,
}

fn is_plain(byte: u8) -> bool {
    (0x21..=0x7E).contains(&byte) && byte != b'%' && byte != b'='
}

fn put_number(made: &mut Vec<u8>, mut number: u64) {
    let mut digits = [0; 20];
    let mut at = digits.len();
    loop {
        at -= 1;
        digits[at] = b'0' + (number % 10) as u8;
        number /= 10;
        if number == 0 {
            break;
        }
    }
    made.extend_from_slice(&digits[at..]);
}

fn put_address(made: &mut Vec<u8>, address: Address) {
    match address {
        Address::V4(number) => {
            for (place, byte) in number.to_be_bytes().iter().enumerate() {
                if place > 0 {
                    made.push(b'.');
                }
                put_number(made, u64::from(*byte));
            }
        }
        Address::V6(number) => {
            let groups = Ipv6Addr::from(number).segments();
            let (mut start, mut length, mut run) = (0, 1, 0);
            for (place, group) in groups.iter().enumerate() {
                run = if *group == 0 { run + 1 } else { 0 };
                if run > length {
                    (start, length) = (place + 1 - run, run);
                }
            }
            let mut place = 0;
            while place < 8 {
                if length > 1 && place == start {
                    made.extend_from_slice(b"::");
                    place += length;
                    continue;
                }
                if place > 0 && !(length > 1 && place == start + length) {
                    made.push(b':');
                }
                let group = groups[place];
                let digits = (16 - group.leading_zeros()).div_ceil(4).max(1);
                for digit in (0..digits).rev() {
                    made.push(b"0123456789abcdef"[usize::from(group >> (4 * digit) & 15)]);
                }
                place += 1;
            }
        }
    }
}

impl Text {
    fn new(config: Rc<Config>) -> Text {
        Text { config, made: Vec::new() }
    }

    fn word(&mut self, word: &str) {
        self.made.extend_from_slice(word.as_bytes());
    }

    fn number(&mut self, number: u64) {
        put_number(&mut self.made, number);
    }

    fn next(&mut self, number: u64) {
        self.made.push(b' ');
        self.number(number);
    }

    /// A line of a word and a number.
    fn numbered(&mut self, word: &str, number: u64) {
        self.word(word);
        self.number(number);
        self.made.push(b'\n');
    }

    fn spelled(&mut self, bytes: &[u8]) {
        match bytes {
            [] => self.made.push(b'-'),
            b"-" => self.made.extend_from_slice(b"%2d"),
            _ if bytes.iter().all(|byte| is_plain(*byte)) => self.made.extend_from_slice(bytes),
            _ => {
                for byte in bytes {
                    if is_plain(*byte) {
                        self.made.push(*byte);
                    } else {
                        let digits = b"0123456789abcdef";
                        self.made.extend_from_slice(&[b'%', digits[usize::from(byte >> 4)], digits[usize::from(byte & 15)]]);
                    }
                }
            }
        }
    }

    fn name(&mut self, db: usize) {
        self.made.extend_from_slice(&self.config.dbs[db].name.bytes);
    }

    fn record(&mut self, db: usize, key: &Key) {
        self.name(db);
        self.made.push(b' ');
        self.spelled(&key.bytes);
    }

    fn address(&mut self, place: usize) {
        put_address(&mut self.made, self.config.addresses[place]);
    }

    fn nodes(&mut self, nodes: Nodes) {
        for (place, node) in nodes.enumerate() {
            if place > 0 {
                self.made.push(b',');
            }
            self.number(u64::from(node));
        }
        if nodes.is_empty() {
            self.made.push(b'-');
        }
    }

    fn addresses(&mut self, places: Places, placement: Option<&Placement>) {
        for (count, place) in places.enumerate() {
            if count > 0 {
                self.made.push(b',');
            }
            self.address(place);
            if let Some(node) = placement.and_then(|placement| placement[place]) {
                self.made.push(b'=');
                self.number(u64::from(node));
            }
        }
        if places.0 == 0 {
            self.made.push(b'-');
        }
    }

    fn held_at(&mut self, node: Option<u8>) {
        match node {
            Some(node) => self.number(u64::from(node)),
            None => self.word("-1"),
        }
    }

    fn of_record(&mut self, db: usize, key: &Key, msg: &OfRecord) {
        let (word, first, second, value) = match msg {
            OfRecord::Call { request, .. } => ("call ", *request, None, None),
            OfRecord::Recall(recall) => ("recall ", recall.least, Some(u64::from(recall.node)), None),
            OfRecord::Give { rsn, value } => ("give ", *rsn, None, Some(value)),
            OfRecord::Pass { request, rsn, value } => ("pass ", *request, Some(*rsn), Some(value)),
            OfRecord::Refuse { request, rsn } => ("refuse ", *request, Some(*rsn), None),
            OfRecord::Grant { request, rsn, value } => ("grant ", *request, Some(*rsn), Some(value)),
            OfRecord::Done { node, request } => ("done ", u64::from(*node), Some(*request), None),
            OfRecord::Revoke { rsn } => ("revoke ", *rsn, None, None),
            OfRecord::RevokeAck { rsn } => ("revokeack ", *rsn, None, None),
            OfRecord::VStore { rsn } => ("vstore ", *rsn, None, None),
            OfRecord::VStored { rsn } => ("vstored ", *rsn, None, None),
            OfRecord::VDelete { rsn } => ("vdelete ", *rsn, None, None),
            OfRecord::VDeleted { rsn } => ("vdeleted ", *rsn, None, None),
        };
        self.word(word);
        self.record(db, key);
        self.next(first);
        if let Some(number) = second {
            self.next(number);
        }
        if let Some(value) = value {
            self.made.push(b' ');
            self.spelled(value);
        }
        let kind = match msg {
            OfRecord::Call { kind, .. } => kind,
            OfRecord::Recall(recall) => {
                self.next(recall.request);
                &recall.kind
            }
            _ => return,
        };
        self.word(if *kind == CallKind::Lock { " lock" } else { " read" });
    }

    fn counts(&mut self, rows: usize, tables: &[Table], addresses: u32) {
        self.next(rows as u64);
        self.next(tables.iter().map(|table| table.pairs.len() as u64).sum());
        self.next(u64::from(addresses));
    }

    fn msg(&mut self, msg: &Msg) {
        match msg {
            Msg::OfRecord(db, key, msg) => self.of_record(usize::from(*db), key, msg),
            Msg::Freeze(members) => {
                self.word("freeze ");
                self.nodes(*members);
            }
            Msg::FreezeAck => self.word("freezeack"),
            Msg::Pull => self.word("pull"),
            Msg::PullReply(reply) => {
                self.word("pullreply ");
                self.number(reply.vbase);
                self.next(reply.pbase);
                self.counts(reply.rows.len(), &reply.tables, reply.addresses.0.count_ones());
            }
            Msg::Push(push) => {
                self.word("push ");
                self.nodes(push.members);
                self.counts(push.rows.len(), &push.tables, push.placement.iter().flatten().count() as u32);
            }
            Msg::PushAck => self.word("pushack"),
            Msg::Thaw => self.word("thaw"),
            Msg::PUpdate { db, seq, writes } => {
                self.word("pupdate ");
                self.name(usize::from(*db));
                self.next(*seq);
                self.next(writes.len() as u64);
            }
            Msg::PAck { db, seq } => {
                self.word("pack ");
                self.name(usize::from(*db));
                self.next(*seq);
            }
            Msg::Release { run, keep } => {
                self.word("release ");
                self.number(*run);
                self.made.push(b' ');
                self.addresses(*keep, None);
            }
            Msg::ReleaseAck { run } => {
                self.word("releaseack ");
                self.number(*run);
            }
            Msg::Take { run, placement } => {
                self.word("take ");
                self.number(*run);
                self.made.push(b' ');
                let places = placement.iter().enumerate().filter(|(_, node)| node.is_some());
                self.addresses(Places(places.fold(0, |set, (place, _)| set | 1 << place)), Some(placement));
            }
        }
    }

    fn answer(&mut self, answer: Answer) {
        let value = match answer {
            Answer::Locked(value) => {
                self.word("locked ");
                value
            }
            Answer::Read(value) => {
                self.word("read ");
                value
            }
            Answer::Applied(value) => {
                self.word("applied ");
                value
            }
            Answer::Written => return self.word("written"),
            Answer::Stored => return self.word("stored"),
            Answer::Unlocked => return self.word("unlocked"),
            Answer::Committed(seq) => {
                self.word("committed");
                return self.next(seq);
            }
            Answer::Unsure(seq, missing) => {
                self.word("unsure");
                self.next(seq);
                self.made.push(b' ');
                return self.nodes(missing);
            }
            Answer::Refused(why) => {
                self.word("refused ");
                return self.why(why);
            }
        };
        self.spelled(value);
    }

    fn why(&mut self, why: Why) {
        match why {
            Why::NoSuchDb => self.word("no-such-db"),
            Why::WrongKind => self.word("wrong-kind"),
            Why::NotServing => self.word("not-serving"),
            Why::CallPending(call) => {
                self.word("call-pending");
                self.next(call);
            }
            Why::CommitPending => self.word("commit-pending"),
            Why::AlreadyLocked => self.word("already-locked"),
            Why::NotLocked => self.word("not-locked"),
            Why::NoSuchCall => self.word("no-such-call"),
            Why::Full => self.word("full"),
            Why::TooLong(length) => {
                self.word("too-long");
                self.next(length as u64);
            }
        }
    }

    fn note(&mut self, node: u8, note: Note) {
        let node = u64::from(node);
        match note {
            Note::Vacuumed(db, key) => {
                self.word("vacuumed");
                self.next(node);
                self.made.push(b' ');
                self.record(db, key);
            }
            Note::Ended(key) => {
                self.word("ended");
                self.next(node);
                self.made.push(b' ');
                self.record(0, key);
            }
            Note::Round(generation, members, vparent, pparent) => {
                self.word("round");
                self.next(generation);
                self.made.push(b' ');
                self.nodes(members);
                self.next(vparent);
                self.next(pparent);
            }
            Note::Installed(generation) => {
                self.word("installed");
                self.next(node);
                self.next(generation);
            }
            Note::Thawed(generation) => {
                self.word("thawed");
                self.next(node);
                self.next(generation);
            }
            Note::Released(place) => {
                self.word("released");
                self.next(node);
                self.made.push(b' ');
                self.address(place);
            }
            Note::Took(place) => {
                self.word("took");
                self.next(node);
                self.made.push(b' ');
                self.address(place);
            }
        }
    }

    fn post(&mut self, number: usize, post: &Post) {
        self.word("tframe");
        self.next(number as u64);
        self.next(u64::from(post.sender));
        self.next(u64::from(post.receiver));
        self.next(post.generation);
        self.word(if post.rows.is_some() { " rows" } else { " ask" });
        self.next(post.traverse);
        self.word(if post.pass == Pass::Copies { " copies" } else { " entries" });
        if let Some(rows) = &post.rows {
            self.next(rows.len() as u64);
        }
        self.made.push(b'\n');
    }

    fn pair(&mut self, key: &[u8], value: &[u8]) {
        self.word("key=");
        self.spelled(key);
        self.word(" data=");
        self.spelled(value);
        self.made.push(b'\n');
    }

    fn dumped(&mut self, count: usize) {
        self.word("Dumped ");
        self.number(count as u64);
        self.word(" records\n");
    }

    fn pairs(&mut self, pairs: &[(&[u8], &[u8])]) {
        for (key, value) in pairs {
            self.pair(key, value);
        }
        self.dumped(pairs.len());
    }

    /// The calls that wait at all nodes.
    fn pending(&mut self, nodes: &[Node]) {
        let mut pending: Vec<_> = nodes.iter().flat_map(|node| node.pending().into_iter().map(|it| (node.me, it))).collect();
        pending.sort_unstable_by_key(|(_, (call, ..))| *call);
        for (node, (call, db, asked)) in pending {
            self.word("pending");
            self.next(call);
            self.next(u64::from(node));
            match asked {
                Pending::OfRecord(key, ask) => {
                    self.word(match ask {
                        Ask::Lock => " lock ",
                        Ask::Read => " read ",
                        Ask::Write(_) => " write ",
                        Ask::Apply(..) => " apply ",
                    });
                    self.record(db, key);
                }
                Pending::OfCommit(seq) => {
                    self.word(" commit ");
                    self.name(db);
                    self.next(seq);
                }
            }
            self.made.push(b'\n');
        }
    }

    /// Writes what was made, once it is so long.
    fn write(&mut self, least: usize) -> Result<(), End> {
        if self.made.len() >= least {
            let mut output = io::stdout().lock();
            output.write_all(&self.made).and_then(|()| output.flush()).map_err(|_| End::WriteFault)?;
            self.made.clear();
        }
        Ok(())
    }
}

impl Tell for Text {
    fn told(&mut self, line: Told) {
        match line {
            Told::Sent(number, frame) => {
                self.word("frame ");
                self.number(number);
                self.next(u64::from(frame.sender));
                self.next(u64::from(frame.receiver));
                self.next(frame.generation);
                self.made.push(b' ');
                self.msg(&frame.msg);
            }
            Told::Answered(call, answer) => {
                self.word("answer ");
                self.number(call);
                self.made.push(b' ');
                self.answer(answer);
            }
            Told::Noted(node, note) => self.note(node, note),
            Told::Ticket(ticket, node) => {
                self.word("ticket");
                self.next(ticket);
                self.next(u64::from(node));
            }
            Told::Yielded(node) => {
                self.word("yielded");
                self.next(u64::from(node));
            }
            Told::Stopped(node) => {
                self.word("stopped");
                self.next(u64::from(node));
            }
            Told::Started(node) => {
                self.word("started");
                self.next(u64::from(node));
            }
            Told::Gone(call) => {
                self.word("answer ");
                self.number(call);
                self.word(" stopped");
            }
            Told::Lost(number) => {
                self.word("lost");
                self.next(number);
            }
        }
        self.made.push(b'\n');
    }
}

// ---- lines

enum Show<'a> {
    Pnn,
    ListNodes,
    Status,
    Ip,
    GetDbMap,
    CatTdb(&'a [u8]),
    GetDbSeqNum(&'a [u8]),
}

enum Line<'a> {
    Nodes(u8),
    Db(&'a [u8], Kind),
    Address(Address),
    Client(u32, &'a [u8], Key, Op),
    Commit(u32, &'a [u8], Writes),
    Vacuum(u32, &'a [u8]),
    Deliver(u64),
    Drop(u64),
    Repeat(u64),
    Retry(u32),
    Yield(u32),
    Stop(u32),
    Start(u32),
    TakeOver(u32),
    Recover(u32, Vec<u32>),
    Settle(u64),
    Walk(u64),
    Carry(u64),
    Lose(u64),
    Again(u64),
    Able(u32, bool),
    RecoverAll(u32),
    Show(u32, Show<'a>),
    CatDb(u32, &'a [u8]),
}

fn number(word: &[u8]) -> Option<u64> {
    if word.is_empty() || word[0] == b'0' && word.len() > 1 {
        return None;
    }
    let mut number = 0u64;
    for byte in word {
        let digit = byte.wrapping_sub(b'0');
        if digit > 9 {
            return None;
        }
        number = number.checked_mul(10)?.checked_add(u64::from(digit))?;
    }
    Some(number)
}

fn within(word: &[u8], least: u64, most: u64) -> Option<u64> {
    number(word).filter(|number| (least..=most).contains(number))
}

fn node_word(word: &[u8]) -> Option<u32> {
    number(word)?.try_into().ok()
}

fn message_word(word: &[u8]) -> Option<u64> {
    within(word, 1, (1 << 62) - 1)
}

fn count_word(word: &[u8]) -> Option<u64> {
    within(word, 1, 100_000)
}

fn nodes_word(word: &[u8]) -> Option<u8> {
    Some(within(word, 1, 16)? as u8)
}

fn name_word(word: &[u8]) -> Option<&[u8]> {
    let is_name = word.first()?.is_ascii_alphabetic()
        && word.len() <= 63
        && word.iter().all(|byte| byte.is_ascii_alphanumeric() || matches!(byte, b'_' | b'.' | b'-'));
    is_name.then_some(word)
}

fn kind_word(word: &[u8]) -> Option<Kind> {
    match word {
        b"volatile" => Some(Kind::Volatile),
        b"readonly" => Some(Kind::ReadOnly),
        b"persistent" => Some(Kind::Persistent),
        _ => None,
    }
}

fn hex(digit: u8) -> Option<u8> {
    match digit {
        b'0'..=b'9' => Some(digit - b'0'),
        b'a'..=b'f' => Some(digit - b'a' + 10),
        _ => None,
    }
}

/// The bytes that a word spells.
fn unspelled(word: &[u8]) -> Option<Cow<'_, [u8]>> {
    match word {
        [] => return None,
        b"-" => return Some(Cow::Borrowed(&[])),
        b"%2d" => return Some(Cow::Borrowed(b"-")),
        _ if word.iter().all(|byte| is_plain(*byte)) => return Some(Cow::Borrowed(word)),
        _ => {}
    }
    let mut bytes = Vec::with_capacity(word.len());
    let mut rest = word;
    while let Some((byte, after)) = rest.split_first() {
        rest = after;
        if is_plain(*byte) {
            bytes.push(*byte);
            continue;
        }
        let (b'%', [high, low, after @ ..]) = (byte, after) else { return None };
        let spelled = hex(*high)? << 4 | hex(*low)?;
        if is_plain(spelled) {
            return None;
        }
        bytes.push(spelled);
        rest = after;
    }
    Some(Cow::Owned(bytes))
}

fn key_word(word: &[u8]) -> Option<Key> {
    let bytes = unspelled(word)?;
    (1..=255).contains(&bytes.len()).then(|| Key::new(&bytes))
}

fn value_word(word: &[u8]) -> Option<Value> {
    let bytes = unspelled(word)?;
    (bytes.len() <= MOST_BYTES).then(|| Value::new(&bytes))
}

fn writes_of(words: &[&[u8]]) -> Option<Writes> {
    if !(1..=16).contains(&words.len()) {
        return None;
    }
    let pair = |word: &&[u8]| {
        let at = word.iter().position(|byte| *byte == b'=')?;
        Some((key_word(&word[..at])?, value_word(&word[at + 1..])?))
    };
    words.iter().map(pair).collect()
}

fn members_word(word: &[u8]) -> Option<Vec<u32>> {
    let members: Vec<u32> = word.split(|byte| *byte == b',').map(node_word).collect::<Option<_>>()?;
    (members.len() <= 16 && members.windows(2).all(|two| two[0] < two[1])).then_some(members)
}

fn address_word(word: &[u8]) -> Option<Address> {
    let text = std::str::from_utf8(word).ok()?;
    let address = if let Ok(address) = text.parse::<Ipv6Addr>() {
        Address::V6(u128::from(address))
    } else {
        Address::V4(u32::from(text.parse::<std::net::Ipv4Addr>().ok()?))
    };
    let mut spelled = Vec::new();
    put_address(&mut spelled, address);
    (spelled == word).then_some(address)
}

fn line_of(line: &[u8]) -> Option<Line<'_>> {
    let mut words = [&line[..0]; 20];
    let mut count = 0;
    for word in line.split(|byte| *byte == b' ') {
        *words.get_mut(count)? = word;
        count += 1;
    }
    let (first, rest) = words[..count].split_first()?;
    Some(match (*first, rest) {
        (b"settle", [m]) => Line::Settle(count_word(m)?),
        (b"deliver", [k]) => Line::Deliver(message_word(k)?),
        (b"drop", [k]) => Line::Drop(message_word(k)?),
        (b"repeat", [k]) => Line::Repeat(message_word(k)?),
        (b"retry", [n]) => Line::Retry(node_word(n)?),
        (b"yield", [n]) => Line::Yield(node_word(n)?),
        (b"stop", [n]) => Line::Stop(node_word(n)?),
        (b"start", [n]) => Line::Start(node_word(n)?),
        (b"takeover", [n]) => Line::TakeOver(node_word(n)?),
        (b"nodes", [n]) => Line::Nodes(nodes_word(n)?),
        (b"address", [a]) => Line::Address(address_word(a)?),
        (b"walk", [m]) => Line::Walk(count_word(m)?),
        (b"carry", [k]) => Line::Carry(message_word(k)?),
        (b"lose", [k]) => Line::Lose(message_word(k)?),
        (b"again", [k]) => Line::Again(message_word(k)?),
        (b"db", [name, kind]) => Line::Db(name_word(name)?, kind_word(kind)?),
        (b"vacuum", [n, db]) => Line::Vacuum(node_word(n)?, name_word(db)?),
        (b"recover", [n, members]) => Line::Recover(node_word(n)?, members_word(members)?),
        (b"lock", [n, db, key]) => Line::Client(node_word(n)?, name_word(db)?, key_word(key)?, Op::Want(Ask::Lock)),
        (b"read", [n, db, key]) => Line::Client(node_word(n)?, name_word(db)?, key_word(key)?, Op::Want(Ask::Read)),
        (b"unlock", [n, db, key]) => Line::Client(node_word(n)?, name_word(db)?, key_word(key)?, Op::Unlock),
        (b"store", [n, db, key, value]) => {
            Line::Client(node_word(n)?, name_word(db)?, key_word(key)?, Op::Store(value_word(value)?))
        }
        (b"apply", [n, db, key, function, argument]) => {
            let ask = Ask::Apply(node_word(function)?, value_word(argument)?);
            Line::Client(node_word(n)?, name_word(db)?, key_word(key)?, Op::Want(ask))
        }
        (b"commit", [n, db, pairs @ ..]) => Line::Commit(node_word(n)?, name_word(db)?, writes_of(pairs)?),
        (b"ctdb", [n, command, rest @ ..]) => command_of(node_word(n)?, command, rest)?,
        _ => return None,
    })
}

fn command_of<'a>(n: u32, command: &[u8], rest: &[&'a [u8]]) -> Option<Line<'a>> {
    Some(match (command, rest) {
        (b"writekey", [db, key, value]) => {
            Line::Client(n, name_word(db)?, key_word(key)?, Op::Want(Ask::Write(value_word(value)?)))
        }
        (b"readkey", [db, key]) => Line::Client(n, name_word(db)?, key_word(key)?, Op::Want(Ask::Read)),
        (b"deletekey", [db, key]) => Line::Client(n, name_word(db)?, key_word(key)?, Op::Want(Ask::Write(Value::default()))),
        (b"ptrans", [db, pairs @ ..]) => Line::Commit(n, name_word(db)?, writes_of(pairs)?),
        (b"catdb", [db]) => Line::CatDb(n, name_word(db)?),
        (b"cattdb", [db]) => Line::Show(n, Show::CatTdb(name_word(db)?)),
        (b"getdbseqnum", [db]) => Line::Show(n, Show::GetDbSeqNum(name_word(db)?)),
        (b"pnn", []) => Line::Show(n, Show::Pnn),
        (b"listnodes", []) => Line::Show(n, Show::ListNodes),
        (b"status", []) => Line::Show(n, Show::Status),
        (b"ip", []) => Line::Show(n, Show::Ip),
        (b"getdbmap", []) => Line::Show(n, Show::GetDbMap),
        (b"disable", []) => Line::Able(n, false),
        (b"enable", []) => Line::Able(n, true),
        (b"recover", []) => Line::RecoverAll(n),
        _ => return None,
    })
}

// ---- commands that show something

impl Cluster<Text> {
    fn show(&mut self, node: u32, command: Show) -> Result<(), What> {
        let node = self.up(node)?;
        let (it, text) = (&self.nodes[usize::from(node)], &mut self.out.tell);
        match command {
            Show::Pnn => text.numbered("PNN:", u64::from(node)),
            Show::ListNodes => {
                for node in 0..self.config.nodes {
                    text.numbered("node ", u64::from(node));
                }
            }
            Show::Status => {
                text.numbered("Number of nodes:", u64::from(self.config.nodes));
                for other in 0..self.config.nodes {
                    text.word("pnn:");
                    text.number(u64::from(other));
                    text.word(match (self.running.has(other), self.able.has(other)) {
                        (false, _) => " DISCONNECTED",
                        (true, false) => " DISABLED",
                        (true, true) => " OK",
                    });
                    text.word(if other == node { " (THIS NODE)\n" } else { "\n" });
                }
                if it.generation == 0 {
                    text.word("Generation:INVALID\nSize:0\n");
                } else {
                    text.numbered("Generation:", it.generation);
                    text.numbered("Size:", u64::from(it.members.len()));
                    for (place, member) in it.members.enumerate() {
                        text.word("hash:");
                        text.number(place as u64);
                        text.numbered(" lmaster:", u64::from(member));
                    }
                }
                let is_serving = it.phase == Phase::Serving;
                text.word(if is_serving { "Recovery mode:NORMAL (0)\n" } else { "Recovery mode:RECOVERY (1)\n" });
                match it.leader {
                    Some(leader) => text.numbered("Leader:", u64::from(leader)),
                    None => text.word("Leader:UNKNOWN\n"),
                }
            }
            Show::Ip => {
                text.numbered("Public IPs on node ", u64::from(node));
                for (place, at) in it.placement.iter().enumerate() {
                    text.address(place);
                    text.made.push(b' ');
                    text.held_at(*at);
                    text.made.push(b'\n');
                }
            }
            Show::GetDbMap => {
                for (number, db) in self.config.dbs.iter().enumerate() {
                    text.word("dbid:");
                    text.number(number as u64);
                    text.word(" name:");
                    text.name(number);
                    text.word(match db.kind {
                        Kind::Volatile => "\n",
                        Kind::ReadOnly => " READONLY\n",
                        Kind::Persistent => " PERSISTENT\n",
                    });
                }
            }
            Show::CatTdb(name) => {
                let number = self.config.number_of(name);
                let Some(db) = it.dbs.get(number) else { return Err(What::NoSuchDb) };
                if self.config.is_persistent(number) {
                    for (key, value) in db.store.pairs.iter() {
                        text.pair(key, value);
                    }
                    text.dumped(db.store.pairs.len());
                    return Ok(());
                }
                let mut held: Vec<_> =
                    db.records.iter().filter_map(|(key, rec)| Some((&key.bytes, rec.copy.as_ref()?))).collect();
                held.sort_unstable_by_key(|(key, _)| *key);
                for (key, copy) in &held {
                    text.word("key=");
                    text.spelled(key);
                    text.word(" dmaster=");
                    text.number(copy.master.map_or(u64::from(u32::MAX), u64::from));
                    text.word(" rsn=");
                    text.number(copy.rsn);
                    text.word(" flags=");
                    text.number(u64::from(copy.flags));
                    text.word(" data=");
                    text.spelled(&copy.value);
                    text.made.push(b'\n');
                }
                text.dumped(held.len());
            }
            Show::GetDbSeqNum(name) => {
                let number = self.config.number_of(name);
                let Some(db) = it.dbs.get(number) else { return Err(What::NoSuchDb) };
                if !self.config.is_persistent(number) {
                    return Err(What::WrongKind);
                }
                text.numbered("Sequence number:", db.store.seq);
            }
        }
        Ok(())
    }
}

// ---- play

/// How a program ends, where it does not end well.
enum End {
    Usage,
    Refused(u64, What),
    ReadFault,
    WriteFault,
}

/// The lines of the input, one after the other; the first one that `take` refuses ends it.
fn read_lines(mut take: impl FnMut(&[u8]) -> Result<Result<(), What>, End>) -> Result<(), End> {
    let mut input = io::stdin().lock();
    let mut line = Vec::new();
    let mut count = 0;
    loop {
        line.clear();
        count += 1;
        if input.read_until(b'\n', &mut line).map_err(|_| End::ReadFault)? == 0 {
            return Ok(());
        }
        let is_ended = line.pop_if(|byte| *byte == b'\n').is_some();
        let taken = if line.len() > LONGEST_LINE {
            Err(What::Long)
        } else if is_ended {
            take(&line)?
        } else {
            Err(What::Unended)
        };
        taken.map_err(|what| End::Refused(count, what))?;
    }
}

/// What the lines say of the cluster.
#[derive(Default)]
struct Accepted {
    nodes: Option<u8>,
    dbs: Vec<Db>,
    addresses: Vec<Address>,
}

#[derive(Default)]
struct Session {
    accepted: Accepted,
    cluster: Option<Cluster<Text>>,
    walker: Walker,
}

impl Session {
    fn play(&mut self, line: &[u8]) -> Result<(), What> {
        let line = line_of(line).ok_or(What::Words)?;
        let is_closed = self.accepted.nodes.is_none() || self.cluster.is_some();
        let accepted = &mut self.accepted;
        match line {
            Line::Nodes(nodes) => {
                if accepted.nodes.is_some() {
                    return Err(What::Order);
                }
                accepted.nodes = Some(nodes);
                return Ok(());
            }
            Line::Db(name, kind) => {
                if is_closed {
                    return Err(What::Order);
                }
                if name == b"g_lock" || accepted.dbs.iter().any(|db| *db.name.bytes == *name) {
                    return Err(What::Repeat);
                }
                if accepted.dbs.len() >= 15 {
                    return Err(What::Limit);
                }
                accepted.dbs.push(Db { name: Key::new(name), kind });
                return Ok(());
            }
            Line::Address(address) => {
                if is_closed {
                    return Err(What::Order);
                }
                if accepted.addresses.contains(&address) {
                    return Err(What::Repeat);
                }
                if accepted.addresses.len() >= MOST_ADDRESSES {
                    return Err(What::Limit);
                }
                accepted.addresses.push(address);
                return Ok(());
            }
            _ => {}
        }
        let nodes = accepted.nodes.ok_or(What::Order)?;
        let cluster = self.cluster.get_or_insert_with(|| open(nodes, std::mem::take(accepted)));
        self.accepted.nodes = Some(nodes);
        step(cluster, &mut self.walker, line)
    }
}

/// The cluster that was declared, at its opening.
fn open(nodes: u8, accepted: Accepted) -> Cluster<Text> {
    let mut dbs = vec![Db { name: Key::new(b"g_lock"), kind: Kind::Volatile }];
    dbs.extend(accepted.dbs);
    let mut addresses = accepted.addresses;
    addresses.sort_unstable();
    let config = Rc::new(Config { nodes, dbs, addresses });
    Cluster::opening(config.clone(), Text::new(config))
}

fn step(cluster: &mut Cluster<Text>, walker: &mut Walker, line: Line) -> Result<(), What> {
    match line {
        Line::Client(node, db, key, op) => cluster.client(node, cluster.config.number_of(db), &key, op)?,
        Line::Commit(node, db, writes) => cluster.commit(node, cluster.config.number_of(db), writes)?,
        Line::Vacuum(node, db) => cluster.vacuum(node, cluster.config.number_of(db))?,
        Line::Deliver(number) => cluster.deliver(number)?,
        Line::Drop(number) => cluster.drop_frame(number)?,
        Line::Repeat(number) => cluster.repeat(number)?,
        Line::Retry(node) => cluster.retry(node)?,
        Line::Yield(node) => cluster.give_lock_back(node)?,
        Line::Stop(node) => cluster.stop(node)?,
        Line::Start(node) => cluster.start(node)?,
        Line::TakeOver(node) => cluster.take_over(node)?,
        Line::Recover(node, members) => cluster.recover(node, &members)?,
        Line::RecoverAll(node) => {
            let node = cluster.up(node)?;
            cluster.recover_nodes(node, cluster.running)?;
        }
        Line::Able(node, is_able) => cluster.mark(node, is_able)?,
        Line::Settle(count) => {
            for _ in 0..count {
                let Some(number) = cluster.next_waiting() else { break };
                cluster.deliver(number)?;
                if !walker.running.is_empty() {
                    walker.end_absent(cluster);
                }
            }
            return Ok(());
        }
        Line::Walk(count) => {
            for _ in 0..count {
                let Some(number) = walker.next_waiting() else { break };
                walker.carry(cluster, number)?;
            }
            return Ok(());
        }
        Line::Carry(number) => return walker.carry(cluster, number),
        Line::Lose(number) => return walker.lose(number),
        Line::Again(number) => return walker.again(cluster, number),
        Line::Show(node, command) => return cluster.show(node, command),
        Line::CatDb(node, name) => {
            let db = cluster.config.number_of(name);
            if db < cluster.config.dbs.len() && cluster.config.is_persistent(db) {
                return cluster.show(node, Show::CatTdb(name));
            }
            return walker.begin(cluster, node, db);
        }
        Line::Nodes(_) | Line::Db(..) | Line::Address(_) => return Ok(()),
    }
    if !walker.running.is_empty() {
        walker.end_absent(cluster);
    }
    Ok(())
}

fn play() -> Result<(), End> {
    let mut session = Session::default();
    let ended = read_lines(|line| {
        let played = session.play(line);
        if let Some(cluster) = &mut session.cluster {
            cluster.out.tell.write(1 << 16)?;
        }
        Ok(played)
    });
    if let Some(cluster) = &mut session.cluster {
        let text = &mut cluster.out.tell;
        if ended.is_ok() {
            text.pending(&cluster.nodes);
            for it in &session.walker.running {
                text.word("pending-traverse");
                text.next(it.number);
                text.next(u64::from(it.node));
                text.made.push(b' ');
                text.name(usize::from(it.db));
                text.made.push(b'\n');
            }
        }
        text.write(1)?;
    }
    ended
}

// ---- lcp2

#[derive(Default)]
struct Given {
    nodes: Option<u8>,
    disabled: Nodes,
    at: BTreeMap<Address, Option<u8>>,
}

impl Given {
    fn take(&mut self, line: &[u8]) -> Result<(), What> {
        let words: Vec<&[u8]> = line.split(|byte| *byte == b' ').collect();
        match words[..] {
            [b"nodes", count] => {
                let count = nodes_word(count).ok_or(What::Words)?;
                if self.nodes.is_some() {
                    return Err(What::Order);
                }
                self.nodes = Some(count);
            }
            [b"disabled", node] => {
                let node = self.node(node)?;
                if self.nodes.is_none() || !self.at.is_empty() {
                    return Err(What::Order);
                }
                if self.disabled.has(node) {
                    return Err(What::Repeat);
                }
                self.disabled = self.disabled.with(node);
            }
            [b"address", address] => self.hold(address, None)?,
            [b"address", address, node] => self.hold(address, Some(node))?,
            _ => return Err(What::Words),
        }
        Ok(())
    }

    fn node(&self, word: &[u8]) -> Result<u8, What> {
        let node = node_word(word).ok_or(What::Words)?;
        match self.nodes {
            Some(nodes) if node >= u32::from(nodes) => Err(What::Words),
            Some(_) => Ok(node as u8),
            None => Err(What::Order),
        }
    }

    fn hold(&mut self, address: &[u8], node: Option<&[u8]>) -> Result<(), What> {
        let address = address_word(address).ok_or(What::Words)?;
        let node = node.map(|node| self.node(node)).transpose()?;
        if self.nodes.is_none() {
            return Err(What::Order);
        }
        if self.at.contains_key(&address) {
            return Err(What::Repeat);
        }
        if self.at.len() >= 256 {
            return Err(What::Limit);
        }
        self.at.insert(address, node);
        Ok(())
    }
}

fn lcp2() -> Result<(), End> {
    let mut given = Given::default();
    read_lines(|line| Ok(given.take(line)))?;
    let Some(nodes) = given.nodes else { return Ok(()) };
    let at: Vec<(Address, Option<u8>)> = given.at.into_iter().collect();
    let able = Nodes(Nodes::first(nodes).0 & !given.disabled.0);
    let placement = placed(&at, able);
    let mut made = Vec::new();
    for ((address, _), node) in at.iter().zip(&placement) {
        put_address(&mut made, *address);
        made.push(b' ');
        match node {
            Some(node) => put_number(&mut made, u64::from(*node)),
            None => made.extend_from_slice(b"-1"),
        }
        made.push(b'\n');
    }
    let held: Vec<(Address, Option<u8>)> = at.iter().zip(placement).map(|((address, _), node)| (*address, node)).collect();
    let sums = Sums::new(&held);
    for node in 0..nodes {
        made.extend_from_slice(b"imbalance ");
        put_number(&mut made, u64::from(node));
        made.push(b' ');
        put_number(&mut made, sums.imbalance[usize::from(node)]);
        made.push(b'\n');
    }
    write_all(&made)
}

fn write_all(bytes: &[u8]) -> Result<(), End> {
    let mut output = io::stdout().lock();
    output.write_all(bytes).and_then(|()| output.flush()).map_err(|_| End::WriteFault)
}

// ---- what words of a generator make

/// PCG32.
struct Generator {
    state: u64,
    increment: u64,
}

impl Generator {
    fn new(seed: u64, stream: u64) -> Generator {
        let increment = stream << 1 | 1;
        let mut it = Generator { state: seed.wrapping_add(increment), increment };
        it.step();
        it
    }

    fn step(&mut self) {
        self.state = self.state.wrapping_mul(6_364_136_223_846_793_005).wrapping_add(self.increment);
    }

    fn next(&mut self) -> u32 {
        let state = self.state;
        self.step();
        ((((state >> 18) ^ state) >> 27) as u32).rotate_right((state >> 59) as u32)
    }
}

fn generated_config(nodes: u8) -> Rc<Config> {
    let db = |name: &[u8], kind| Db { name: Key::new(name), kind };
    let dbs =
        vec![db(b"g_lock", Kind::Volatile), db(b"t", Kind::Volatile), db(b"r", Kind::ReadOnly), db(b"p", Kind::Persistent)];
    Rc::new(Config { nodes, dbs, addresses: Vec::new() })
}

fn letters(count: u8) -> Vec<Key> {
    (b'a'..b'a' + count).map(|letter| Key::new(&[letter])).collect()
}

fn decimal(number: u32) -> Value {
    let mut digits = Vec::with_capacity(3);
    put_number(&mut digits, u64::from(number));
    Value::new(&digits)
}

fn soak_step(cluster: &mut Cluster<Silent>, keys: &[Key], word: u32) -> Result<(), What> {
    let kind = word % 32;
    let node = word / 32 % 4;
    let key = &keys[(word / 128 % 8) as usize];
    let db = if word / 1024 % 2 == 0 { 1 } else { 2 };
    let count = word / 2048 % 1000;
    let message = |sent: usize| 1 + u64::from(word / 2048) % (sent as u64 + 1);
    match kind {
        0..=3 => cluster.client(node, db, key, Op::Want(Ask::Lock)),
        4..=6 => cluster.client(node, db, key, Op::Store(decimal(count))),
        7..=10 => cluster.client(node, db, key, Op::Unlock),
        11..=14 => cluster.client(node, db, key, Op::Want(Ask::Read)),
        15 => cluster.client(node, db, key, Op::Want(Ask::Write(decimal(count)))),
        16 => cluster.client(node, db, key, Op::Want(Ask::Apply(1, decimal(count)))),
        17..=24 => {
            for _ in 0..1 + count % 8 {
                let Some(number) = cluster.next_waiting() else { break };
                cluster.deliver(number)?;
            }
            Ok(())
        }
        25 => cluster.deliver(message(cluster.frames.len())),
        26 => cluster.drop_frame(message(cluster.frames.len())),
        27 => cluster.repeat(message(cluster.frames.len())),
        28 => cluster.retry(node),
        29 => cluster.vacuum(node, 1),
        30 if count % 8 == 0 => {
            let members = cluster.running.with(node as u8);
            let node = cluster.up(node)?;
            cluster.recover_nodes(node, members)
        }
        30 => {
            let name = cluster.config.dbs[3].name.clone();
            cluster.client(node, 0, &name, Op::Want(Ask::Lock))
        }
        _ if count % 16 == 0 => {
            if cluster.running.has(node as u8) {
                cluster.stop(node)
            } else {
                cluster.start(node)
            }
        }
        _ => cluster.commit(node, 3, [(key.clone(), decimal(count))].into()),
    }
}

fn soak(seed: u64, steps: u64) -> Result<(), End> {
    let mut generator = Generator::new(seed, 1);
    let mut cluster = Cluster::opening(generated_config(4), Silent);
    let keys = letters(8);
    let mut skipped = 0;
    for _ in 0..steps {
        if soak_step(&mut cluster, &keys, generator.next()).is_err() {
            skipped += 1;
        }
    }
    let pending: usize = cluster.nodes.iter().map(|node| node.pending().len()).sum();
    let (frames, calls, ticket) = (cluster.frames.len(), cluster.calls, cluster.ticket);
    let text = format!("soak {steps} skipped {skipped} frames {frames} calls {calls} pending {pending} ticket {ticket}\n");
    write_all(text.as_bytes())
}

/// What a node's client asks, or a round that the node leads.
enum Item {
    Call(usize, Key, Op),
    Commit(Writes),
    Round,
}

fn script(config: &Config, calls: u64, seed: u64, node: u8) -> Vec<Item> {
    let mut generator = Generator::new(seed, u64::from(node) + 1);
    let keys = letters(4);
    let lock = &config.dbs[3].name;
    let mut script = Vec::with_capacity(2 * calls as usize);
    for place in 0..calls {
        if node == 0 && place == calls / 2 {
            script.push(Item::Round);
        }
        let word = generator.next();
        let key = keys[(word / 8 % 4) as usize].clone();
        let db = if word / 32 % 2 == 0 { 1 } else { 2 };
        let value = || decimal(word / 64 % 1000);
        match word % 8 {
            0..=2 => script.push(Item::Call(db, key, Op::Want(Ask::Read))),
            3..=5 => script.push(Item::Call(db, key, Op::Want(Ask::Write(value())))),
            6 => script.push(Item::Call(db, key, Op::Want(Ask::Apply(1, value())))),
            _ => {
                script.push(Item::Call(0, lock.clone(), Op::Want(Ask::Lock)));
                script.push(Item::Commit([(key, value())].into()));
                script.push(Item::Call(0, lock.clone(), Op::Unlock));
            }
        }
    }
    script
}

/// The chain of an item, where it is in one alone.
fn chain_of(item: &Item, chains: u64) -> Option<usize> {
    match item {
        Item::Call(0, ..) | Item::Commit(_) => Some(0),
        Item::Call(_, key, _) => Some((u64::from(key.hash >> 16) % chains) as usize),
        Item::Round => None,
    }
}

/// Plays scripts with the nodes in turn: each takes the first message that waits for it, or else its next item. Answers how
/// many of these were taken, and how many messages were sent.
fn play_turns(config: &Rc<Config>, scripts: Vec<Vec<Item>>, text: Text) -> (u64, u64, Text) {
    let everyone = Nodes::first(config.nodes);
    let mut nodes: Vec<Node> = everyone.map(|node| Node::opening(node, config)).collect();
    let mut queues: Vec<VecDeque<Frame>> = everyone.map(|_| VecDeque::new()).collect();
    let mut scripts: Vec<std::vec::IntoIter<Item>> = scripts.into_iter().map(Vec::into_iter).collect();
    let mut waits = Nodes(0);
    let mut out = Outs::new(text);
    let (mut entries, mut calls, mut ticket) = (0, 0, 1);
    let mut some = true;
    while some {
        some = false;
        for me in everyone {
            let place = usize::from(me);
            let node = &mut nodes[place];
            let answered = out.answered;
            if let Some(frame) = queues[place].pop_front() {
                node.arrive(config, &frame, &mut out);
            } else if waits.has(me) {
                continue;
            } else {
                match scripts[place].next() {
                    None => continue,
                    Some(Item::Call(db, key, op)) => {
                        calls += 1;
                        waits = waits.with(me);
                        node.client(config, calls, db, &key, op, &mut out);
                    }
                    Some(Item::Commit(writes)) => {
                        calls += 1;
                        waits = waits.with(me);
                        node.commit(config, calls, 3, writes, &mut out);
                    }
                    Some(Item::Round) => {
                        ticket += 1;
                        out.tell.told(Told::Ticket(ticket, me));
                        node.begin_round(ticket, everyone, &mut out);
                    }
                }
            }
            if out.answered != answered {
                waits = waits.without(me);
            }
            for frame in out.frames.drain(..) {
                queues[usize::from(frame.receiver)].push_back(frame);
            }
            entries += 1;
            some = true;
        }
    }
    out.tell.pending(&nodes);
    (entries, out.sent, out.tell)
}

fn cluster(nodes: u8, calls: u64, seed: u64) -> Result<(), End> {
    let config = generated_config(nodes);
    let scripts = (0..nodes).map(|node| script(&config, calls, seed, node)).collect();
    let (entries, frames, mut text) = play_turns(&config, scripts, Text::new(config.clone()));
    text.made.extend_from_slice(format!("cluster {nodes} {calls} entries {entries} frames {frames}\n").as_bytes());
    text.write(1)
}

fn chains(nodes: u8, chains: u64, calls: u64, seed: u64) -> Result<(), End> {
    let config = generated_config(nodes);
    let mut columns: Vec<Vec<Vec<Item>>> = (0..chains).map(|_| (0..nodes).map(|_| Vec::new()).collect()).collect();
    for node in 0..nodes {
        for item in script(&config, calls, seed, node) {
            match chain_of(&item, chains) {
                Some(chain) => columns[chain][usize::from(node)].push(item),
                None => columns.iter_mut().for_each(|column| column[usize::from(node)].push(Item::Round)),
            }
        }
    }
    let mut text = Text::new(config.clone());
    let (mut entries, mut frames) = (0, 0);
    for (number, scripts) in columns.into_iter().enumerate() {
        text.numbered("column ", number as u64);
        let (taken, sent, after) = play_turns(&config, scripts, text);
        entries += taken;
        frames += sent;
        text = after;
        text.write(1)?;
    }
    text.made.extend_from_slice(format!("chains {nodes} {chains} {calls} entries {entries} frames {frames}\n").as_bytes());
    text.write(1)
}

// ---- the program

fn run() -> Result<(), End> {
    let mut words: Vec<Vec<u8>> = env::args_os().skip(1).map(|word| word.into_encoded_bytes()).collect();
    if words.is_empty() {
        return Err(End::Usage);
    }
    let name = words.remove(0);
    if let Some(place) = words.iter().position(|word| word == b"--") {
        words.remove(place);
    }
    let numbers: Vec<u64> = words.iter().map(|word| number(word)).collect::<Option<_>>().ok_or(End::Usage)?;
    match (&name[..], &numbers[..]) {
        (b"play", []) => play(),
        (b"lcp2", []) => lcp2(),
        (b"soak", [seed, steps @ 1..=100_000]) => soak(*seed, *steps),
        (b"cluster", [nodes @ 1..=8, calls @ 1..=1000, seed]) => cluster(*nodes as u8, *calls, *seed),
        (b"chains", [nodes @ 1..=8, count @ 1..=8, calls @ 1..=1000, seed]) => chains(*nodes as u8, *count, *calls, *seed),
        _ => Err(End::Usage),
    }
}

fn main() -> ExitCode {
    let (status, said) = match run() {
        Ok(()) => return ExitCode::SUCCESS,
        Err(End::Usage) => (1, "usage".to_string()),
        Err(End::Refused(line, what)) => (2, format!("line {line}: {what}")),
        Err(End::ReadFault) => (3, "read fault".to_string()),
        Err(End::WriteFault) => (4, "write fault".to_string()),
    };
    eprintln!("ctdbsim: {said}");
    ExitCode::from(status)
}
