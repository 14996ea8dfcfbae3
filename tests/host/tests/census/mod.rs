//! How often the lists meet what.

use host_tests::reading::figures;
use plain::limits::EXPIRATIONS;
use plain::limits::TASKS;
use plain::record::{length_in, prefix_in, Pool, DEPARTED, FREE, GLOBAL, LOCAL, PINNED, VIEWING, WAITING};
use reference::call::{Accepted, Answer, Call, Operation, OPERATIONS};

/// The refusals by number, 0 to 28.
pub const NUMBERS: usize = 29;

#[derive(Default)]
pub struct Census {
    pub calls: usize,
    pub frames: usize,
    pub accepted: [usize; OPERATIONS],
    /// By operation and number, and by number, those of frames too.
    pub refused_by: [[usize; NUMBERS]; OPERATIONS],
    pub refused: [usize; NUMBERS],
    pub advances: usize,
    pub clock_wraps: usize,
    pub global_wraps: usize,
    /// Accepted calls of remaining, and batches, for an object whose expirations are due after a counter has gone round.
    pub remaining_across: usize,
    pub batches_across: usize,
    /// Advances that put an expiration off, and one that is due after global time has gone round; and the most that stood
    /// of departed setters.
    pub put_off: usize,
    pub put_off_across: usize,
    pub most_departed: usize,
    /// The most that stood pinned, and times that global time went round meanwhile.
    pub most_pinned: usize,
    pub pinned_wraps: usize,
    pub most: (u8, u8, u16),
    /// Accepted reads of a viewer: of no byte, of some and of all.
    pub viewed: [usize; 3],
}

impl Census {
    pub fn note(&mut self, call: &Call, answer: Answer) {
        self.note_refusal(answer);
        match answer {
            Ok(accepted) => {
                self.accepted[call.operation() as usize] += 1;
                self.advances += usize::from(accepted == Accepted::Advanced(true));
            }
            Err(refusal) => self.refused_by[call.operation() as usize][refusal as usize] += 1,
        }
    }

    pub fn note_refusal(&mut self, answer: Answer) {
        if let Err(refusal) = answer {
            self.refused[refusal as usize] += 1;
        }
    }

    pub fn note_state(&mut self, pool: &Pool) {
        let figures = figures(pool);
        let (small, large, expirations) = self.most;
        self.most = (small.max(figures.small), large.max(figures.large), expirations.max(figures.expirations));
        let count = |code: u8| pool.clocks.iter().filter(|&&clock| clock == code).count();
        self.most_departed = self.most_departed.max(count(DEPARTED));
        self.most_pinned = self.most_pinned.max(count(PINNED));
    }

    /// An accepted read, by the record.
    pub fn note_read(&mut self, pool: &Pool, task: u8, handle: u32) {
        let block = pool.handles.iter().position(|&other| other == handle).expect("the object has a block");
        let (length, prefix) = (length_in(pool.extents[block]), prefix_in(pool.extents[block]));
        if pool.tasks[usize::from(task)].state == VIEWING {
            self.viewed[usize::from(prefix > 0) + usize::from(prefix == length)] += 1;
        }
    }

    /// From the record after an advance.
    pub fn note_advance(&mut self, pool: &Pool) {
        let waits = |clock: u8| {
            let setter = usize::from(clock.wrapping_sub(GLOBAL));
            setter < TASKS && pool.tasks[setter].state == WAITING
        };
        let put_off = || pool.clocks.iter().zip(&pool.dues).filter(|(&clock, _)| waits(clock));
        self.put_off += usize::from(put_off().next().is_some());
        self.put_off_across += usize::from(put_off().any(|(_, &due)| due < pool.global));
    }

    pub fn add(&mut self, other: &Census) {
        self.calls += other.calls;
        self.frames += other.frames;
        self.accepted.iter_mut().zip(other.accepted).for_each(|(sum, count)| *sum += count);
        self.refused.iter_mut().zip(other.refused).for_each(|(sum, count)| *sum += count);
        let (sums, counts) = (self.refused_by.as_flattened_mut(), other.refused_by.as_flattened());
        sums.iter_mut().zip(counts).for_each(|(sum, count)| *sum += count);
        self.advances += other.advances;
        self.clock_wraps += other.clock_wraps;
        self.global_wraps += other.global_wraps;
        self.remaining_across += other.remaining_across;
        self.batches_across += other.batches_across;
        self.put_off += other.put_off;
        self.put_off_across += other.put_off_across;
        self.most_departed = self.most_departed.max(other.most_departed);
        self.most_pinned = self.most_pinned.max(other.most_pinned);
        self.pinned_wraps += other.pinned_wraps;
        self.viewed.iter_mut().zip(other.viewed).for_each(|(sum, count)| *sum += count);
        let (small, large, expirations) = self.most;
        self.most = (small.max(other.most.0), large.max(other.most.1), expirations.max(other.most.2));
    }

    pub fn print(&self) {
        println!("calls {}, frames {}, advances {}", self.calls, self.frames, self.advances);
        println!("accepted {:?}", self.accepted);
        println!("refused, by number, {:?}", self.refused);
        for operation in [Operation::Remaining, Operation::Batch, Operation::Release, Operation::View] {
            println!("of {operation:?} {:?}", self.refused_by[operation as usize]);
        }
        println!("viewers read no byte, some, all {:?}", self.viewed);
        println!("most pinned {}, wraps of global time meanwhile {}", self.most_pinned, self.pinned_wraps);
        println!("wraps of clocks {}, of global time {}", self.clock_wraps, self.global_wraps);
        println!("remaining asked across them {}, batches {}", self.remaining_across, self.batches_across);
        println!("advances that put off {}, across them {}", self.put_off, self.put_off_across);
        println!("most small, large, expirations {:?}, of departed setters {}", self.most, self.most_departed);
    }
}

/// Whether an expiration of this object is due after its counter has gone round.
pub fn is_due_across(pool: &Pool, handle: u32) -> bool {
    (0..EXPIRATIONS).any(|i| {
        let now = match pool.clocks[i] {
            FREE | PINNED => return false,
            GLOBAL.. => pool.global,
            clock => pool.tasks[usize::from(clock - LOCAL)].clock,
        };
        pool.handles[usize::from(pool.named[i])] == handle && pool.dues[i] < now
    })
}
