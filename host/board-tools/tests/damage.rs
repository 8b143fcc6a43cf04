//! The soundness test against a plain reading of its clauses, on tables that
//! generated tapes reach and on the same tables damaged at random.

use board_tools::generate::generate;
use board_tools::rng::Rng;
use ordinary::{Line, Link, State, Status, Tables, Thread, FOREVER};

/// The threads of a line from first to last; none if its links are broken.
fn members(tables: &Tables, line: &Line) -> Option<Vec<usize>> {
    let mut members: Vec<usize> = Vec::new();
    let mut at = line.first;
    while at != Link(0) {
        let thread = at.0 as usize - 1;
        if thread > 31 || members.contains(&thread) {
            return None;
        }
        members.push(thread);
        at = tables.threads[thread].next;
    }
    let back: Option<Vec<usize>> = members_backwards(tables, line);
    let last_is_right = line.last == members.last().map_or(Link(0), |&last| Link::to(last));
    (last_is_right && back.as_deref() == Some(&members)).then_some(members)
}

fn members_backwards(tables: &Tables, line: &Line) -> Option<Vec<usize>> {
    let mut members: Vec<usize> = Vec::new();
    let mut at = line.last;
    while at != Link(0) {
        let thread = at.0 as usize - 1;
        if thread > 31 || members.contains(&thread) {
            return None;
        }
        members.insert(0, thread);
        at = tables.threads[thread].prev;
    }
    Some(members)
}

/// A line with what belongs in it.
struct Place {
    state: State,
    /// The object's number, or the ready order's priority.
    number: usize,
    members: Vec<usize>,
}

fn places(tables: &Tables) -> Option<Vec<Place>> {
    let mut places = Vec::new();
    let mut add = |state, number, line: &Line| {
        let members = members(tables, line)?;
        places.push(Place { state, number, members });
        Some(())
    };
    for (number, line) in tables.ready.iter().enumerate() {
        add(State::Ready, number, line)?;
    }
    for (number, object) in tables.semaphores.iter().enumerate() {
        add(State::Semaphore, number, &object.line)?;
    }
    for (number, object) in tables.queues.iter().enumerate() {
        add(State::Queue, number, &object.line)?;
    }
    for (number, object) in tables.groups.iter().enumerate() {
        add(State::Flags, number, &object.line)?;
    }
    for (number, object) in tables.pools.iter().enumerate() {
        add(State::Block, number, &object.line)?;
    }
    Some(places)
}

/// Each ready or waiting thread stands once in exactly its own order, and no
/// other thread in any.
fn orders_are_right(tables: &Tables, places: &[Place]) -> bool {
    (0..32).all(|index| {
        let thread = &tables.threads[index];
        let stands: Vec<&Place> =
            places.iter().filter(|place| place.members.contains(&index)).collect();
        let in_an_order = thread.created
            && matches!(
                thread.state,
                State::Ready | State::Queue | State::Semaphore | State::Flags | State::Block
            );
        if !in_an_order {
            return stands.is_empty() && thread.next == Link(0) && thread.prev == Link(0);
        }
        let number =
            if thread.state == State::Ready { thread.priority } else { thread.object } as usize;
        matches!(stands[..], [place] if place.state == thread.state && place.number == number)
    })
}

fn met(flags: u32, thread: &Thread) -> bool {
    let request = thread.request;
    request != 0
        && match thread.option {
            0 | 1 => flags & request != 0,
            _ => flags & request == request,
        }
}

/// Waiters coexist only with count 0, an empty queue, a full one, no free
/// block, unmet flags.
fn waiters_are_right(tables: &Tables, places: &[Place]) -> bool {
    places.iter().all(|place| {
        place.members.iter().all(|&index| {
            let thread = &tables.threads[index];
            match place.state {
                State::Semaphore => tables.semaphores[place.number].count == 0,
                State::Queue => {
                    let queue = &tables.queues[place.number];
                    queue.stored == if thread.sender { queue.capacity } else { 0 }
                }
                State::Flags => !met(tables.groups[place.number].flags, thread),
                State::Block => tables.pools[place.number].free_count == 0,
                _ => true,
            }
        })
    })
}

fn zero(words: &[u32]) -> bool {
    words.iter().all(|&word| word == 0)
}

fn thread_is_right(tables: &Tables, index: usize) -> bool {
    let thread = &tables.threads[index];
    let bit = |set: u32| set & (1 << index) != 0;
    if !thread.created {
        return *thread == Thread::default() && !bit(tables.marked) && !bit(tables.timed);
    }
    let waits =
        matches!(thread.state, State::Queue | State::Semaphore | State::Flags | State::Block);
    let blocked = waits || thread.state == State::Asleep;
    let sends = thread.state == State::Queue && thread.sender;
    let flags = thread.state == State::Flags;
    let size = if sends { tables.queues[thread.object as usize % 8].size as usize } else { 0 };
    let limits = thread.priority <= 31 && thread.threshold <= thread.priority;
    let mark = !bit(tables.marked)
        || (thread.state == State::Ready
            && tables.running != Link::to(index)
            && thread.threshold < thread.priority);
    let ticks = if blocked { thread.wait > 0 } else { thread.wait == 0 }
        && bit(tables.timed) == (thread.wait > 0 && thread.wait < FOREVER);
    let held = (thread.held_status == Status(0x101)) == blocked
        && (blocked || !thread.held_suspension)
        && (!blocked || zero(&thread.held_words));
    let unused = (waits || thread.object == 0)
        && (sends || !thread.sender && !thread.front && zero(&thread.message))
        && zero(&thread.message[size.min(16)..])
        && (if flags { thread.option <= 3 } else { thread.request == 0 && thread.option == 0 });
    limits && mark && ticks && held && unused
}

fn runner_is_right(tables: &Tables) -> bool {
    let ready = |index: &usize| {
        tables.threads[*index].created && tables.threads[*index].state == State::Ready
    };
    let Link(running) = tables.running;
    if running == 0 {
        return !(0..32).any(|index| ready(&index));
    }
    let runner = running as usize - 1;
    runner < 32
        && ready(&runner)
        && (0..32)
            .filter(ready)
            .all(|index| tables.threads[index].priority >= tables.threads[runner].threshold)
}

fn objects_are_right(tables: &Tables) -> bool {
    let empty = Tables::new();
    let semaphores =
        tables.semaphores.iter().all(|object| object.created || *object == empty.semaphores[0]);
    let groups = tables.groups.iter().all(|object| object.created || *object == empty.groups[0]);
    let queues = tables.queues.iter().all(|queue| {
        if !queue.created {
            return *queue == empty.queues[0];
        }
        let (size, storage) = (queue.size as usize, queue.storage as usize);
        if !(1..=16).contains(&size) || !(1..=64).contains(&storage) || storage < size {
            return false;
        }
        let capacity = storage / size;
        let (first, stored) = (queue.first as usize, queue.stored as usize);
        if queue.capacity as usize != capacity || stored > capacity || first >= capacity {
            return false;
        }
        let used = |slot: usize| (0..stored).any(|message| (first + message) % capacity == slot);
        (stored > 0 || first == 0)
            && (0..64).all(|word| used(word / size) || queue.words[word] == 0)
    });
    let pools = tables.pools.iter().all(|pool| {
        if !pool.created {
            return *pool == empty.pools[0];
        }
        let (bytes, total) = (pool.block_bytes as u64, pool.total_bytes as u64);
        let blocks = total / (bytes + 4);
        if !(4..=256).contains(&bytes) || bytes % 4 != 0 || blocks != pool.blocks as u64 {
            return false;
        }
        if !(1..=64).contains(&blocks) || pool.free_count as u64 > blocks {
            return false;
        }
        let listed = &pool.free[..pool.free_count as usize];
        (0..256u64).all(|block| {
            let times = listed.iter().filter(|&&listed| listed as u64 == block).count();
            let free = block < blocks && pool.free_set & (1 << block) != 0;
            times == free as usize
        }) && pool.free_set.checked_shr(blocks as u32).unwrap_or(0) == 0
            && pool.free[pool.free_count as usize..].iter().all(|&slot| slot == 0)
    });
    semaphores && groups && queues && pools
}

/// Soundness, clause by clause, without regard to cost.
fn plainly_sound(tables: &Tables) -> bool {
    let Some(places) = places(tables) else { return false };
    let occupied = (0..32).all(|priority| {
        (tables.ready_set & (1 << priority) != 0) != places[priority].members.is_empty()
    });
    occupied
        && orders_are_right(tables, &places)
        && waiters_are_right(tables, &places)
        && (0..32).all(|index| thread_is_right(tables, index))
        && runner_is_right(tables)
        && objects_are_right(tables)
}

fn value(rng: &mut Rng) -> u32 {
    match rng.below(4) {
        0 => 0,
        1 => rng.below(40),
        2 => 0x101,
        _ => rng.word(),
    }
}

const STATES: [State; 9] = [
    State::Ready,
    State::Completed,
    State::Terminated,
    State::Suspended,
    State::Asleep,
    State::Queue,
    State::Semaphore,
    State::Flags,
    State::Block,
];

fn damage_thread(rng: &mut Rng, thread: &mut Thread) {
    let value = value(rng);
    match rng.below(16) {
        0 => thread.created = !thread.created,
        1 => thread.state = *rng.pick(&STATES).unwrap(),
        2 => thread.priority = value as u8,
        3 => thread.threshold = value as u8,
        4 => thread.held_suspension = !thread.held_suspension,
        5 => thread.sender = !thread.sender,
        6 => thread.front = !thread.front,
        7 => thread.option = value as u8 % 6,
        8 => thread.object = value as u8 % 18,
        9 => thread.next = Link(value as u8 % 36),
        10 => thread.prev = Link(value as u8 % 36),
        11 => thread.wait = value,
        12 => thread.request = value,
        13 => thread.held_status = Status(value),
        14 => thread.held_words[rng.below(16) as usize] = value,
        _ => thread.message[rng.below(16) as usize] = value,
    }
}

fn damage_line(rng: &mut Rng, line: &mut Line) {
    let link = Link(rng.below(36) as u8);
    if rng.percent(50) {
        line.first = link;
    } else {
        line.last = link;
    }
}

fn damage_queue(rng: &mut Rng, tables: &mut Tables) {
    let value = value(rng);
    let queue = &mut tables.queues[rng.below(8) as usize];
    match rng.below(8) {
        0 => queue.created = !queue.created,
        1 => queue.size = value as u8 % 20,
        2 => queue.storage = value as u8 % 70,
        3 => queue.capacity = value as u8 % 70,
        4 => queue.first = value as u8 % 8,
        5 => queue.stored = value as u8 % 8,
        6 => damage_line(rng, &mut queue.line),
        _ => queue.words[rng.below(64) as usize] = value,
    }
}

fn damage_pool(rng: &mut Rng, tables: &mut Tables) {
    let value = value(rng);
    let pool = &mut tables.pools[rng.below(4) as usize];
    match rng.below(8) {
        0 => pool.created = !pool.created,
        1 => pool.blocks = value as u8 % 70,
        2 => pool.free_count = value as u8 % 70,
        3 => pool.block_bytes = value,
        4 => pool.total_bytes = value,
        5 => damage_line(rng, &mut pool.line),
        6 => pool.free_set ^= 1 << rng.below(64),
        _ => pool.free[rng.below(64) as usize] = value as u8,
    }
}

fn damage(rng: &mut Rng, tables: &mut Tables) {
    let value = value(rng);
    let at = rng.below(32) as usize;
    match rng.below(14) {
        0..=5 => damage_thread(rng, &mut tables.threads[at]),
        6 => damage_queue(rng, tables),
        7 => damage_pool(rng, tables),
        8 => damage_line(rng, &mut tables.ready[at]),
        9 => tables.running = Link(value as u8 % 36),
        10 => tables.marked ^= 1 << rng.below(32),
        11 => {
            if rng.percent(50) {
                tables.ready_set ^= 1 << rng.below(32);
            } else {
                tables.timed ^= 1 << rng.below(32);
            }
        }
        12 => {
            let semaphore = &mut tables.semaphores[rng.below(16) as usize];
            match rng.below(3) {
                0 => semaphore.created = !semaphore.created,
                1 => semaphore.count = value,
                _ => damage_line(rng, &mut semaphore.line),
            }
        }
        _ => {
            let group = &mut tables.groups[rng.below(8) as usize];
            match rng.below(3) {
                0 => group.created = !group.created,
                1 => group.flags = value,
                _ => damage_line(rng, &mut group.line),
            }
        }
    }
}

#[test]
fn both_readings_agree_on_damaged_tables() {
    let mut rng = Rng::new(17);
    let (mut sound, mut unsound) = (0, 0);
    for seed in 0..150 {
        let tape = generate(seed, 200);
        let mut damaged = Vec::new();
        tape.run(&mut Tables::new(), u32::MAX, |index, _, _, tables| {
            if index % 20 == 0 {
                assert!(plainly_sound(tables));
                damaged.extend(std::iter::repeat_n(tables.clone(), 20));
            }
        });
        for mut tables in damaged {
            for _ in 0..rng.between(1, 3) {
                damage(&mut rng, &mut tables);
            }
            let plain = plainly_sound(&tables);
            assert_eq!(tables.soundness().is_ok(), plain, "{tables:?}");
            if plain {
                sound += 1;
            } else {
                unsound += 1;
            }
        }
    }
    // Both verdicts must occur often for the comparison to mean something.
    assert!(sound > 1000 && unsound > 1000, "{sound} sound, {unsound} unsound");
}
