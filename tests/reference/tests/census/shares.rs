//! Order 9: what tasks join with, what is left for whom, limits that are reached, and objects of tasks that have left.

use std::collections::BTreeMap;

use reference::call::Call;
use reference::ledger::Ledger;
use reference::limits::{Store, STORES, TASKS};
use reference::share::{Maker, Quota, Room, Share};

/// Both stores and the tasks, as they are before a call.
pub struct Before {
    rooms: [Room; 2],
    /// Which tasks wait.
    waiting: [bool; TASKS],
    /// How many expirations more there is room for.
    expirations: usize,
    /// How many standing objects the former lives of each task have made, by store.
    former: [[usize; TASKS]; 2],
    /// Whether each task has had its reserve met once, by store.
    met: [[bool; TASKS]; 2],
    /// Of the objects that the call names: the makers and the stores of those that stand.
    named: Vec<(Maker, Store)>,
}

/// A call and its answer.
pub struct Seen<'a> {
    call: &'a Call<'a>,
    /// 0 if it was accepted.
    number: usize,
    before: Before,
    /// After the call: the objects of tasks that have left.
    departed: usize,
}

/// A make of a task and a length that there are.
struct Made<'a> {
    before: &'a Before,
    room: &'a Room,
    other: &'a Room,
    store: Store,
    task: u8,
}

impl Made<'_> {
    fn made(&self) -> usize {
        self.room.made(self.task)
    }

    fn free(&self) -> usize {
        self.room.blocks - self.room.makers.len()
    }

    fn is_below_reserve(&self) -> bool {
        self.room.unmet(self.task) > 0
    }

    fn is_at_limit(&self) -> bool {
        self.made() >= self.room.limit(self.task)
    }

    fn is_taken(&self) -> bool {
        self.room.taken(self.task) >= self.room.blocks
    }

    /// Some block is held back for another task.
    fn others_lack(&self) -> bool {
        self.room.taken(self.task) > self.room.makers.len()
    }

    fn former(&self) -> usize {
        self.before.former[self.store as usize][usize::from(self.task)]
    }

    fn others(&self) -> impl Iterator<Item = u8> + '_ {
        (0..TASKS as u8).filter(|&other| other != self.task)
    }
}

impl Seen<'_> {
    fn joins(&self, number: usize, holds: impl Fn(u8, Share) -> bool) -> bool {
        matches!(*self.call, Call::Join { task, share } if self.number == number && holds(task, share))
    }

    /// A join with this answer, of which this holds in some store: its room, the task and the reserve, which is some.
    fn joins_some(&self, number: usize, holds: impl Fn(&Room, u8, usize) -> bool) -> bool {
        STORES.iter().any(|&store| self.joins_in(store, number, &holds))
    }

    fn joins_in(&self, store: Store, number: usize, holds: impl Fn(&Room, u8, usize) -> bool) -> bool {
        let room = &self.before.rooms[store as usize];
        self.joins(number, |task, share| {
            let reserve = usize::from(share.of(store).reserve);
            reserve > 0 && holds(room, task, reserve)
        })
    }

    /// 24 and 25 in a store.
    fn is_above(share: Share, store: Store) -> bool {
        share.of(store).reserve > share.of(store).limit
    }

    fn is_short(&self, task: u8, share: Share, store: Store) -> bool {
        let room = &self.before.rooms[store as usize];
        room.taken(task) + usize::from(share.of(store).reserve) > room.blocks
    }

    /// A make with this answer, of which this holds.
    fn makes(&self, number: usize, holds: impl Fn(&Made) -> bool) -> bool {
        let Call::Make { task, length, .. } = *self.call else { return false };
        let Ok(store) = Store::holding(length) else { return false };
        let [small, large] = &self.before.rooms;
        let (room, other) = if store == Store::Small { (small, large) } else { (large, small) };
        let made = Made { before: &self.before, room, other, store, task };
        self.number == number && usize::from(task) < TASKS && holds(&made)
    }

    /// 9 with blocks that are free and held back, which this tells of.
    fn held_back(&self, holds: impl Fn(&Made) -> bool) -> bool {
        self.makes(9, |made| made.free() > 0 && holds(made))
    }

    fn leaves(&self, holds: impl Fn(u8, &[Room; 2]) -> bool) -> bool {
        matches!(*self.call, Call::Leave { task } if self.number == 0 && holds(task, &self.before.rooms))
    }

    /// What is held back for tasks that wait.
    fn waiting_lack(&self, room: &Room) -> usize {
        (0..TASKS as u8).filter(|&task| self.before.waiting[usize::from(task)]).map(|task| room.unmet(task)).sum()
    }
}

type Situation = (&'static str, fn(&Seen) -> bool);
pub type Met = super::Met<{ SITUATIONS.len() }>;

const SMALL: Store = Store::Small;
const LARGE: Store = Store::Large;

pub const SITUATIONS: [Situation; 46] = [
    ("joined with a small reserve", |seen| seen.joins_in(SMALL, 0, |_, _, _| true)),
    ("joined with a large reserve", |seen| seen.joins_in(LARGE, 0, |_, _, _| true)),
    ("joined with a limit of its reserve", |seen| {
        seen.joins(0, |_, share| share.small.reserve > 0 && share.small.reserve == share.small.limit)
    }),
    ("reserves fill the small store", |seen| {
        seen.joins_in(SMALL, 0, |room, task, reserve| room.taken(task) + reserve == room.blocks)
    }),
    ("reserves fill the large store", |seen| {
        seen.joins_in(LARGE, 0, |room, task, reserve| room.taken(task) + reserve == room.blocks)
    }),
    ("reserves fill a store, beside objects of nobody", |seen| {
        seen.joins_some(0, |room, task, reserve| {
            room.taken(task) + reserve == room.blocks && room.makers.contains(&Maker::Departed)
        })
    }),
    ("reserves fill a store, with others' unmet ones", |seen| {
        seen.joins_some(0, |room, task, reserve| {
            room.taken(task) + reserve == room.blocks && room.taken(task) > room.makers.len()
        })
    }),
    ("joined where whole reserves would be too much", |seen| {
        seen.joins_some(0, |room, task, reserve| {
            let whole: usize = (0..TASKS as u8).filter(|&other| other != task).map(|other| room.reserve(other)).sum();
            room.makers.len() + whole + reserve > room.blocks
        })
    }),
    ("joined where its number has objects of a former life", |seen| {
        seen.joins(0, |task, _| seen.before.former.iter().any(|store| store[usize::from(task)] > 0))
    }),
    ("24 in the small store", |seen| {
        seen.joins(24, |_, share| Seen::is_above(share, SMALL) && !Seen::is_above(share, LARGE))
    }),
    ("24 in the large store", |seen| {
        seen.joins(24, |_, share| !Seen::is_above(share, SMALL) && Seen::is_above(share, LARGE))
    }),
    ("24 by one", |seen| {
        let by_one = |quota: Quota| quota.limit.checked_add(1) == Some(quota.reserve);
        seen.joins(24, |_, share| by_one(share.small) || by_one(share.large))
    }),
    ("24 before 25", |seen| {
        seen.joins(24, |task, share| STORES.iter().any(|&store| seen.is_short(task, share, store)))
    }),
    ("24 in the large store before 25 in the small one", |seen| {
        seen.joins(24, |task, share| !Seen::is_above(share, SMALL) && seen.is_short(task, share, SMALL))
    }),
    ("1 before 24", |seen| seen.joins(1, |_, share| STORES.iter().any(|&store| Seen::is_above(share, store)))),
    ("2 before 24", |seen| seen.joins(2, |_, share| STORES.iter().any(|&store| Seen::is_above(share, store)))),
    ("2 before 25", |seen| {
        seen.joins(2, |task, share| {
            STORES.iter().all(|&store| !Seen::is_above(share, store))
                && STORES.iter().any(|&store| seen.is_short(task, share, store))
        })
    }),
    ("25 in the small store", |seen| {
        seen.joins(25, |task, share| seen.is_short(task, share, SMALL) && !seen.is_short(task, share, LARGE))
    }),
    ("25 in the large store", |seen| {
        seen.joins(25, |task, share| !seen.is_short(task, share, SMALL) && seen.is_short(task, share, LARGE))
    }),
    ("25 by one block", |seen| {
        seen.joins_some(25, |room, task, reserve| room.taken(task) + reserve == room.blocks + 1)
    }),
    ("25 by what others lack", |seen| {
        seen.joins_some(25, |room, task, reserve| {
            room.taken(task) + reserve > room.blocks && room.makers.len() + reserve <= room.blocks
        })
    }),
    ("25 by what a waiting task lacks", |seen| {
        seen.joins_some(25, |room, task, reserve| {
            let taken = room.taken(task) + reserve;
            taken > room.blocks && taken - seen.waiting_lack(room) <= room.blocks
        })
    }),
    ("25 by objects of nobody", |seen| {
        seen.joins_some(25, |room, task, reserve| {
            let nobody = room.makers.iter().filter(|&&maker| maker == Maker::Departed).count();
            let taken = room.taken(task) + reserve;
            taken > room.blocks && taken - nobody <= room.blocks
        })
    }),
    ("made up to its limit", |seen| seen.makes(0, |made| made.made() + 1 == made.room.limit(made.task))),
    ("made up to its limit, which is its reserve", |seen| {
        seen.makes(0, |made| {
            let (reserve, limit) = (made.room.reserve(made.task), made.room.limit(made.task));
            made.made() + 1 == limit && reserve == limit
        })
    }),
    ("made, with as many of both stores as its limit", |seen| {
        seen.makes(0, |made| made.made() + made.other.made(made.task) >= made.room.limit(made.task))
    }),
    ("made, with as many of all lives as its limit", |seen| {
        seen.makes(0, |made| made.made() + made.former() >= made.room.limit(made.task))
    }),
    ("26 with a block left", |seen| seen.makes(26, |made| !made.is_taken())),
    ("26 with a limit of 0", |seen| seen.makes(26, |made| made.room.limit(made.task) == 0)),
    ("26 before 9", |seen| seen.makes(26, |made| made.is_taken())),
    ("26 before 10", |seen| seen.makes(26, |made| !made.is_taken() && made.before.expirations == 0)),
    ("6 before 26", |seen| seen.makes(6, |made| made.is_at_limit())),
    ("7 before 26", |seen| {
        let Call::Make { task, .. } = *seen.call else { return false };
        let at_limit = |room: &Room| room.made(task) >= room.limit(task);
        seen.number == 7 && seen.before.rooms.iter().any(at_limit)
    }),
    ("9 with free blocks", |seen| seen.held_back(|_| true)),
    ("9 with no object in the store", |seen| seen.held_back(|made| made.room.makers.is_empty())),
    ("9 by what a waiting task lacks", |seen| {
        seen.held_back(|made| made.room.taken(made.task) - seen.waiting_lack(made.room) < made.room.blocks)
    }),
    ("9 by a reserve that was met before", |seen| {
        seen.held_back(|made| {
            let met = &made.before.met[made.store as usize];
            made.others().any(|other| made.room.unmet(other) > 0 && met[usize::from(other)])
        })
    }),
    ("9 with its own reserve met", |seen| seen.held_back(|made| made.room.reserve(made.task) > 0)),
    ("9 with a reserve of its own in the other store", |seen| seen.held_back(|made| made.other.unmet(made.task) > 0)),
    ("9 before 10, with free blocks", |seen| seen.held_back(|made| made.before.expirations == 0)),
    ("the last block that is not held back", |seen| {
        seen.makes(0, |made| {
            let last = made.room.taken(made.task) + 1 == made.room.blocks;
            !made.is_below_reserve() && made.others_lack() && last
        })
    }),
    ("a block of its own, where others would get 9", |seen| {
        seen.makes(0, |made| {
            let spoken = made.room.taken(made.task) + made.room.unmet(made.task);
            made.is_below_reserve() && spoken == made.room.blocks
        })
    }),
    ("10 below its reserve", |seen| seen.makes(10, |made| made.is_below_reserve())),
    ("refreshed by a task at its limit", |seen| {
        let Call::Refresh { task, .. } = *seen.call else { return false };
        let is_at_limit = |store: Store| {
            let room = &seen.before.rooms[store as usize];
            room.made(task) >= room.limit(task)
        };
        let others = |&(maker, store): &(Maker, Store)| maker != Maker::Task(task) && is_at_limit(store);
        seen.number == 0 && seen.before.named.iter().any(others)
    }),
    ("objects outlive their maker's leave", |seen| {
        let before = seen.before.rooms.iter().flat_map(|room| &room.makers);
        let departed = before.filter(|&&maker| maker == Maker::Departed).count();
        seen.leaves(|_, _| seen.departed > departed)
    }),
    ("a leave with a reserve unmet", |seen| seen.leaves(|task, rooms| rooms.iter().any(|room| room.unmet(task) > 0))),
];

/// Who made the standing objects of a script, from its start on, and who had a reserve met.
#[derive(Default)]
pub struct Makers {
    /// By handle: who made it, in which store, and whether in a former life.
    made: BTreeMap<u32, (u8, Store, bool)>,
    met: [[bool; TASKS]; 2],
}

impl Makers {
    /// The ledger is as before the call.
    pub fn before(&self, call: &Call, ledger: &Ledger) -> Before {
        let mut former = [[0; TASKS]; 2];
        for (handle, &(task, store, has_left)) in &self.made {
            if has_left && ledger.length(*handle).is_some() {
                former[store as usize][usize::from(task)] += 1;
            }
        }
        let standing = if matches!(call, Call::Refresh { .. }) { ledger.standing() } else { Vec::new() };
        let names = call.objects();
        let named = standing.iter().filter(|object| names.contains(&object.handle));
        Before {
            rooms: STORES.map(|store| ledger.room(store)),
            waiting: std::array::from_fn(|task| ledger.tasks().is_waiting(task as u8)),
            expirations: ledger.limits().expirations - usize::from(ledger.figures().expirations),
            former,
            met: self.met,
            named: named.map(|object| (object.maker, store_of(object.block.length))).collect(),
        }
    }

    /// Counts the call. The ledger is as after it.
    pub fn note(&mut self, met: &mut Met, call: &Call, number: usize, before: Before, ledger: &Ledger) {
        let rooms = STORES.map(|store| ledger.room(store));
        let departed = rooms.iter().flat_map(|room| &room.makers).filter(|&&maker| maker == Maker::Departed).count();
        let seen = Seen { call, number, before, departed };
        met.note(&SITUATIONS, &seen);
        if number == 0 {
            self.follow(call, ledger);
        }
        for (met, room) in self.met.iter_mut().zip(&rooms) {
            for (task, met) in (0..).zip(met) {
                *met = room.reserve(task) > 0 && (*met || room.unmet(task) == 0);
            }
        }
    }

    fn follow(&mut self, call: &Call, ledger: &Ledger) {
        self.made.retain(|&handle, _| ledger.length(handle).is_some());
        match *call {
            Call::Make { task, length, .. } => {
                self.made.insert(ledger.figures().given, (task, store_of(length), false));
            }
            Call::Leave { task } => {
                let of_leaver = self.made.values_mut().filter(|(maker, ..)| *maker == task);
                of_leaver.for_each(|(_, _, has_left)| *has_left = true);
            }
            _ => {}
        }
    }
}

fn store_of(length: u16) -> Store {
    Store::holding(length).expect("a length that was accepted")
}
