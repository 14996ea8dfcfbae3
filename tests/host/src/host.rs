//! A host: it makes calls through the entries of a pool, and tests of each call what the interface promises of every
//! one: a refusal touches nothing, neither memory nor parameter, and an accepted call no byte that is not its own.

use std::marker::PhantomData;

use plain::calls::ANSWER_ROOM;
use plain::limits::LARGE_SIZE;
use plain::record::{extent_of, with_prefix};
use reference::call::{Accepted, Call, Figures, Kind, Lifetime};
use reference::frame::{decode, encode};

use crate::entries::Entries;
use crate::memory::Memory;
use crate::reading::of_record;
use crate::sites;

/// What a call answers: what it gives back, or the number of its refusal.
pub type Told<'a> = Result<Accepted<'a>, u8>;

pub struct Host<E> {
    pub memory: Memory,
    before: Memory,
    out: Out,
    entries: PhantomData<E>,
}

/// What is lent for answers.
#[derive(Clone, Debug, PartialEq, Eq)]
struct Out {
    advanced: u8,
    handle: u32,
    bytes: [u8; LARGE_SIZE],
    line: [u8; ANSWER_ROOM],
    count: usize,
    small: u8,
    large: u8,
    expirations: u16,
    given: u32,
    local: u8,
    global: u8,
}

/// What stands there before a call.
const UNTOLD: Out = Out {
    advanced: 0xA5,
    handle: 0xA5A5_A5A5,
    bytes: [0xA5; LARGE_SIZE],
    line: [0xA5; ANSWER_ROOM],
    count: 0xA5A5_A5A5,
    small: 0xA5,
    large: 0xA5,
    expirations: 0xA5A5,
    given: 0xA5A5_A5A5,
    local: 0xA5,
    global: 0xA5,
};

impl<E: Entries> Host<E> {
    pub fn new(memory: Memory) -> Host<E> {
        Host { before: memory.clone(), memory, out: UNTOLD, entries: PhantomData }
    }

    /// The number of the answer, by the entry and, on a copy, by a frame; both leave the same.
    pub fn told(&mut self, call: &Call) -> u8 {
        let mut line = Vec::new();
        encode(call, &mut line);
        line.pop();
        let mut framed = Host::<E>::new(self.memory.clone());
        let number = self.call(call).err().unwrap_or(0);
        assert_eq!(framed.line(&line, Some(call)).0, number, "{call:?}");
        assert_eq!(of_record(&framed.memory), of_record(&self.memory), "{call:?}");
        number
    }

    /// Each call is answered with the number beside it.
    pub fn check(&mut self, rows: &[(Call, u8)]) {
        for (row, (call, number)) in rows.iter().enumerate() {
            assert_eq!(self.told(call), *number, "row {row}: {call:?}");
        }
    }

    /// The answer line to this line. Where it holds a call, that is made by its entry, and answered alike.
    pub fn answer(&mut self, line: &str) -> String {
        let mut room = vec![0; line.len()];
        let call = decode(line.as_bytes(), &mut room).ok();
        let mut framed = Host::<E>::new(self.memory.clone());
        let (number, answer) = framed.line(line.as_bytes(), call.as_ref());
        if let Some(call) = call {
            assert_eq!(self.told(&call), number, "{line}");
        }
        String::from_utf8(answer.to_vec()).expect("digits")
    }

    /// Makes the call by its own entry.
    pub fn call(&mut self, call: &Call) -> Told<'_> {
        self.prepare();
        let number = self.enter(call);
        if number != 0 {
            assert!(self.memory == self.before, "refusal {number} of {call:?} changes memory");
            assert!(self.out == UNTOLD, "refusal {number} of {call:?} tells more");
            return Err(number);
        }
        self.check_memory(call);
        Ok(self.accepted(call))
    }

    /// Asks one line by the entry for frames: the number, and the answer line. `call` is the line's, if it is one.
    pub fn line(&mut self, line: &[u8], call: Option<&Call>) -> (u8, &[u8]) {
        self.prepare();
        let Host { memory: Memory { pool, small, large }, out, .. } = self;
        let number = E::frame(pool, small, large, line, &mut out.line, &mut out.count);
        match call {
            Some(call) if number == 0 => self.check_memory(call),
            _ => assert!(self.memory == self.before, "refusal {number} of {line:?} changes memory"),
        }
        let (answer, rest) = self.out.line.split_at(self.out.count);
        assert!(rest.iter().all(|&byte| byte == 0xA5), "the room behind the answer stays");
        (number, answer)
    }

    fn prepare(&mut self) {
        self.before.clone_from(&self.memory);
        self.out.clone_from(&UNTOLD);
    }

    fn enter(&mut self, call: &Call) -> u8 {
        let Host { memory: Memory { pool, small, large }, out, .. } = self;
        match *call {
            Call::Join { task, share } => E::join(pool, task, sites::share_of(share)),
            Call::Leave { task } => E::leave(pool, task, &mut out.advanced),
            Call::Block { task } => E::block(pool, task, &mut out.advanced),
            Call::Resume { task } => E::resume(pool, task),
            Call::Tick { task } => E::tick(pool, task, &mut out.advanced),
            Call::Make { task, kind, extension, length, prefix } => {
                E::make(pool, small, large, task, code(kind), extension, length, prefix, &mut out.handle)
            }
            Call::Refresh { task, kind, extension, handle } => E::refresh(pool, task, code(kind), extension, handle),
            Call::Read { task, handle } => E::read(pool, small, large, task, handle, &mut out.bytes, &mut out.count),
            Call::Write { task, handle, offset, bytes } => E::write(pool, small, large, task, handle, offset, bytes),
            Call::Report => E::report(pool, &mut out.small, &mut out.large, &mut out.expirations, &mut out.given),
            Call::Remaining { task, handle } => E::remaining(pool, task, handle, &mut out.local, &mut out.global),
            Call::Batch { task, kind, extension, handles } => {
                let handles: Vec<_> = handles.iter().collect();
                E::refresh_all(pool, task, code(kind), extension, &handles)
            }
            Call::Release { task, handle } => E::release(pool, task, handle),
            Call::View { task } => E::view(pool, task),
        }
    }

    /// An accepted call touches its own bytes alone: a make clears one block, a write replaces its bytes, and no
    /// other call touches a store. Of the record a write changes the sum of its block, read, report and remaining
    /// nothing, and no call the figures of the site. A new object has the sum of zeros, the task for its maker and the
    /// prefix that was asked for.
    fn check_memory(&mut self, call: &Call) {
        let Host { memory, before, .. } = self;
        assert_eq!(memory.pool.limits, before.pool.limits, "{call:?}");
        match *call {
            Call::Make { task, length, prefix, .. } => {
                let place = memory.place(memory.pool.given).expect("the new object has a block");
                assert_eq!(before.pool.handles[place], 0, "{call:?} takes a free block");
                assert_eq!(memory.pool.extents[place], with_prefix(extent_of(length, 0, task), prefix), "{call:?}");
                before.block_mut(place).fill(0);
            }
            Call::Write { handle, offset, bytes, .. } => {
                let place = memory.place(handle).expect("the object has a block");
                before.block_mut(place)[usize::from(offset)..][..bytes.len()].copy_from_slice(bytes);
                before.sum_up(place);
            }
            _ => {}
        }
        if matches!(call, Call::Read { .. } | Call::Write { .. } | Call::Report | Call::Remaining { .. }) {
            assert!(memory == before, "{call:?} changes more than is its own");
        } else {
            let stores = memory.small == before.small && memory.large == before.large;
            assert!(stores, "{call:?} changes bytes that are not its own");
        }
    }

    fn accepted(&self, call: &Call) -> Accepted<'_> {
        let out = &self.out;
        match call {
            Call::Join { .. } | Call::Resume { .. } | Call::Refresh { .. } => Accepted::Done,
            Call::Write { .. } | Call::Batch { .. } | Call::Release { .. } | Call::View { .. } => Accepted::Done,
            Call::Leave { .. } | Call::Block { .. } | Call::Tick { .. } => {
                assert!(out.advanced <= 1, "{call:?} tells 0 or 1");
                Accepted::Advanced(out.advanced == 1)
            }
            Call::Make { .. } => Accepted::Handle(out.handle),
            Call::Read { .. } => {
                let (bytes, rest) = out.bytes.split_at(out.count);
                assert!(rest.iter().all(|&byte| byte == 0xA5), "the room behind the bytes stays");
                Accepted::Bytes(bytes)
            }
            Call::Report => Accepted::Report(Figures {
                small: out.small,
                large: out.large,
                expirations: out.expirations,
                given: out.given,
            }),
            Call::Remaining { .. } => Accepted::Remaining(Lifetime { local: out.local, global: out.global }),
        }
    }
}

/// The number of a kind.
fn code(kind: Kind) -> u8 {
    match kind {
        Kind::Local => 0,
        Kind::Global => 1,
        Kind::Pinned => 2,
    }
}
