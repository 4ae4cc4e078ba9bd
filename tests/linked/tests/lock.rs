//! The proved lock beside the second one: after every operation the same answer,
//! the same ends and the same arrays, in full.

use linked::lock::{self, Arrays, Ends, Front, Handed};
use second::lock::{Lock, Look};
use second::random::Rng;

fn words(rng: &mut Rng, length: usize) -> Vec<u64> {
    (0..length).map(|_| rng.word()).collect()
}

fn as_second(look: lock::Look) -> Look {
    match look {
        lock::Look::NotYet => Look::NotYet,
        lock::Look::Receives(task) => Look::Receives(task),
        lock::Look::Owns => Look::Owns,
    }
}

fn as_front(worker: Option<usize>) -> Front {
    match worker {
        Some(worker) => Front::Waiter(worker as u64),
        None => Front::Nobody,
    }
}

/// The second lock's hand-over, and what it tells.
fn second_hand_over(second: &mut Lock, owner: u64) -> Handed {
    let handed = second.hand_over(owner as usize);
    Handed {
        let_in: as_front(handed.let_in),
        by: handed.by as u64,
    }
}

fn same(ends: Ends, arrays: &Arrays, second: &Lock) {
    assert_eq!(ends.head, second.head);
    assert_eq!(ends.tail, second.tail);
    assert_eq!(arrays.wait, second.wait);
    assert_eq!(arrays.registrations, second.registration);
    let (tickets, tasks): (Vec<u64>, Vec<u64>) = second.cells.iter().copied().unzip();
    assert_eq!(arrays.cell_tickets, tickets);
    assert_eq!(arrays.cell_tasks, tasks);
}

mod histories {
    use super::*;

    #[derive(Clone, Copy, PartialEq, Eq)]
    enum Stand {
        Out,
        Taken(u64),
        Waiting(u64),
        Owning,
        Serving,
    }

    /// Both locks, and where each worker stands.
    struct History {
        slots: u64,
        ends: Ends,
        arrays: Arrays,
        second: Lock,
        stands: Vec<Stand>,
        told: Told,
    }

    /// How many hand-overs let in a waiter; nobody, as the ticket that was out was
    /// not registered; nobody, as it was not taken; and how many of those for nobody
    /// found a registration of an earlier lap in the slot.
    #[derive(Clone, Copy, Debug, Default)]
    struct Told {
        waiter: u64,
        unregistered: u64,
        untaken: u64,
        earlier_lap: u64,
    }

    impl Told {
        fn add(&mut self, other: Told) {
            self.waiter += other.waiter;
            self.unregistered += other.unregistered;
            self.untaken += other.untaken;
            self.earlier_lap += other.earlier_lap;
        }

        fn each_at_least(&self, count: u64) {
            let counts = [
                self.waiter,
                self.unregistered,
                self.untaken,
                self.earlier_lap,
            ];
            assert!(counts.iter().all(|&told| told >= count), "{self:?}");
        }
    }

    impl History {
        /// From stale arrays that may be longer than the ring; what lies past the
        /// ring and past the workers is stale again after the start.
        fn start(rng: &mut Rng, slots: usize, workers: usize) -> History {
            let ring = slots + rng.index(6);
            let cells = workers + rng.index(6);
            let mut arrays = Arrays {
                wait: words(rng, ring),
                registrations: words(rng, ring),
                cell_tickets: words(rng, cells),
                cell_tasks: words(rng, cells),
            };
            let ends = lock::start(slots as u64, &mut arrays).expect("a start");
            let mut second = Lock::new(slots, workers);
            second.wait.resize(ring, slots as u64);
            second.registration.resize(ring, 0);
            second.cells.resize(cells, (0, 0));
            same(ends, &arrays, &second);
            let mut history = History {
                slots: slots as u64,
                ends,
                arrays,
                second,
                stands: vec![Stand::Out; workers],
                told: Told::default(),
            };
            history.make_stale(rng);
            history
        }

        fn make_stale(&mut self, rng: &mut Rng) {
            for slot in self.slots as usize..self.arrays.wait.len() {
                self.arrays.wait[slot] = rng.word();
                self.second.wait[slot] = self.arrays.wait[slot];
                self.arrays.registrations[slot] = rng.word();
                self.second.registration[slot] = self.arrays.registrations[slot];
            }
            for worker in self.stands.len()..self.arrays.cell_tickets.len() {
                self.second.cells[worker] = (rng.word(), rng.word());
                self.arrays.cell_tickets[worker] = self.second.cells[worker].0;
                self.arrays.cell_tasks[worker] = self.second.cells[worker].1;
            }
        }

        fn take(&mut self) -> u64 {
            let ticket = lock::take_ticket(&mut self.ends).expect("a ticket");
            assert_eq!(ticket, self.second.take());
            ticket
        }

        fn register(&mut self, ticket: u64, worker: usize) {
            lock::register(self.slots, &mut self.arrays, ticket, worker as u64).expect("accepted");
            self.second.register(ticket, worker);
        }

        fn look(&mut self, ticket: u64, worker: usize) -> Look {
            let look = lock::look(self.slots, &self.arrays, ticket, worker as u64).expect("a look");
            assert_eq!(as_second(look), self.second.look(ticket, worker));
            as_second(look)
        }

        /// The answer is the second lock's, and it is who waits with the ticket.
        fn hand_over(&mut self, owner: usize) {
            let Ends { head, tail } = self.ends;
            let slot = self.arrays.registrations[(tail % self.slots) as usize];
            let (slots, arrays) = (self.slots, &mut self.arrays);
            let handed = lock::hand_over(slots, &mut self.ends, arrays, owner as u64);
            let handed = handed.expect("accepted");
            assert_eq!(handed, second_hand_over(&mut self.second, owner as u64));
            let waits = Stand::Waiting(tail);
            let waiter = self.stands.iter().position(|stand| *stand == waits);
            assert_eq!(handed.let_in, as_front(waiter));
            assert_eq!(handed.by, owner as u64);
            match handed.let_in {
                Front::Waiter(_) => self.told.waiter += 1,
                Front::Nobody if tail < head => self.told.unregistered += 1,
                Front::Nobody => self.told.untaken += 1,
            }
            self.told.earlier_lap += u64::from(waiter.is_none() && slot != 0);
        }

        fn front(&self) -> Front {
            let front = lock::front_waiter(self.slots, self.ends, &self.arrays).expect("an answer");
            assert_eq!(front, as_front(self.second.front()));
            front
        }

        fn free(&self) -> bool {
            assert_eq!(lock::is_free(self.ends), self.second.free());
            self.second.free()
        }

        fn fill(&mut self, worker: u64, task: u64) {
            lock::fill(self.ends, &mut self.arrays, worker, task).expect("accepted");
            self.second.fill(worker as usize, task);
        }

        /// What the worker may do where it stands.
        fn operation(&mut self, rng: &mut Rng, worker: usize) -> Stand {
            match self.stands[worker] {
                Stand::Out if self.free() && rng.one_in(2) => {
                    self.take();
                    Stand::Owning
                }
                Stand::Out => Stand::Taken(self.take()),
                Stand::Taken(ticket) => {
                    self.register(ticket, worker);
                    Stand::Waiting(ticket)
                }
                Stand::Waiting(ticket) => match self.look(ticket, worker) {
                    Look::NotYet => Stand::Waiting(ticket),
                    Look::Receives(_) => Stand::Out,
                    Look::Owns => Stand::Owning,
                },
                Stand::Owning => self.serve_or_leave(rng, worker),
                Stand::Serving => {
                    self.hand_over(worker);
                    Stand::Owning
                }
            }
        }

        fn serve_or_leave(&mut self, rng: &mut Rng, worker: usize) -> Stand {
            match self.front() {
                Front::Waiter(waiter) if !rng.one_in(4) => {
                    self.fill(waiter, rng.word());
                    Stand::Serving
                }
                _ => {
                    self.hand_over(worker);
                    Stand::Out
                }
            }
        }

        /// Half of the time a worker that owns or whose turn has come, else any.
        fn pick(&self, rng: &mut Rng) -> usize {
            let moves = |stand: &Stand| match *stand {
                Stand::Out => false,
                Stand::Taken(ticket) | Stand::Waiting(ticket) => ticket < self.ends.tail,
                Stand::Owning | Stand::Serving => true,
            };
            match self.stands.iter().position(moves) {
                Some(worker) if rng.one_in(2) => worker,
                _ => rng.index(self.stands.len()),
            }
        }

        fn play(&mut self, rng: &mut Rng, operations: usize) {
            for _ in 0..operations {
                let worker = self.pick(rng);
                self.stands[worker] = self.operation(rng, worker);
                self.front();
                self.free();
                same(self.ends, &self.arrays, &self.second);
                let owners = |stand: &&Stand| matches!(stand, Stand::Owning | Stand::Serving);
                assert!(self.stands.iter().filter(owners).count() <= 1);
            }
        }

        fn laps(&self) -> u64 {
            self.ends.tail / self.slots
        }
    }

    #[test]
    fn on_rings_of_1_to_64() {
        let mut rng = Rng::new(1);
        for slots in 1..=64 {
            for _ in 0..24 {
                let workers = rng.between(1, slots) as usize;
                let mut history = History::start(&mut rng, slots as usize, workers);
                let operations = rng.between(200, 600) as usize;
                history.play(&mut rng, operations);
            }
        }
    }

    #[test]
    fn with_as_many_workers_as_slots() {
        let mut rng = Rng::new(2);
        let mut told = Told::default();
        for slots in 1..=64 {
            let mut history = History::start(&mut rng, slots, slots);
            history.play(&mut rng, 2_000);
            assert!(history.laps() > 2, "{} laps", history.laps());
            told.add(history.told);
        }
        told.each_at_least(100);
    }

    #[test]
    fn over_many_laps() {
        let mut rng = Rng::new(3);
        let mut told = Told::default();
        for slots in 1..=16_usize {
            for workers in [1, slots.div_ceil(2), slots] {
                let mut history = History::start(&mut rng, slots, workers);
                history.play(&mut rng, 20_000);
                assert!(history.laps() > 200, "{} laps", history.laps());
                told.add(history.told);
            }
        }
        told.each_at_least(1_000);
    }
}

mod any_calls {
    use super::*;

    const MOST: u64 = u64::MAX;

    /// A number at an edge, near one of `near`, or anywhere.
    fn number(rng: &mut Rng, near: &[u64]) -> u64 {
        match rng.below(8) {
            0 => rng.below(4),
            1 => MOST - rng.below(4),
            2 => rng.word(),
            _ => (rng.choose(near).wrapping_sub(1)).wrapping_add(rng.below(3)),
        }
    }

    /// Arrays of any lengths and contents, and any ends.
    struct Calls {
        ends: Ends,
        arrays: Arrays,
        /// How often each of the seven operations that can be refused was
        /// accepted and was refused.
        counts: [[u64; 2]; 7],
        /// How often a hand-over let in nobody and a waiter.
        told: [u64; 2],
    }

    impl Calls {
        fn new(rng: &mut Rng, slots: u64) -> Calls {
            let near = [slots, 2 * slots, 1_000];
            let numbers = |rng: &mut Rng, most: u64| -> Vec<u64> {
                let length = rng.between(0, most);
                (0..length).map(|_| number(rng, &near)).collect()
            };
            Calls {
                ends: Ends {
                    head: number(rng, &near),
                    tail: number(rng, &near),
                },
                arrays: Arrays {
                    wait: numbers(rng, slots + 6),
                    registrations: numbers(rng, slots + 6),
                    cell_tickets: numbers(rng, slots + 2),
                    cell_tasks: numbers(rng, slots + 2),
                },
                counts: [[0; 2]; 7],
                told: [0; 2],
            }
        }

        fn slots(&self, rng: &mut Rng) -> u64 {
            let lengths = [self.arrays.wait.len(), self.arrays.registrations.len()];
            let length = rng.choose(&lengths) as u64;
            match rng.below(4) {
                0 => number(rng, &[length]),
                _ => rng.below(length + 2),
            }
        }

        fn ticket(&self, rng: &mut Rng) -> u64 {
            let arrays = [&self.arrays.wait, &self.arrays.cell_tickets];
            let array = rng.choose(&arrays);
            let near = array.get(rng.index(array.len() + 1)).copied();
            number(rng, &[near.unwrap_or(self.ends.tail), self.ends.head])
        }

        fn worker(&self, rng: &mut Rng) -> u64 {
            let lengths = [self.arrays.cell_tickets.len(), self.arrays.cell_tasks.len()];
            let length = rng.choose(&lengths) as u64;
            match rng.below(4) {
                0 => number(rng, &[length]),
                _ => rng.below(length + 2),
            }
        }

        fn in_cells(&self, worker: u64) -> bool {
            worker < self.arrays.cell_tickets.len() as u64
                && worker < self.arrays.cell_tasks.len() as u64
        }

        /// The second lock over the same arrays; of cells it has those that have
        /// both a ticket and a task.
        fn second(&self, slots: u64) -> Lock {
            let arrays = &self.arrays;
            let tickets = arrays.cell_tickets.iter().copied();
            Lock {
                n: slots,
                head: self.ends.head,
                tail: self.ends.tail,
                wait: arrays.wait.clone(),
                registration: arrays.registrations.clone(),
                cells: tickets.zip(arrays.cell_tasks.iter().copied()).collect(),
            }
        }

        /// What the arrays and ends are to be after the second lock's operation.
        fn expected(&self, second: Lock) -> (Ends, Arrays) {
            let mut arrays = self.arrays.clone();
            arrays.wait = second.wait;
            arrays.registrations = second.registration;
            for (worker, &(ticket, task)) in second.cells.iter().enumerate() {
                arrays.cell_tickets[worker] = ticket;
                arrays.cell_tasks[worker] = task;
            }
            let ends = Ends {
                head: second.head,
                tail: second.tail,
            };
            (ends, arrays)
        }

        /// Counts the call; an accepted one does what `change` does to the
        /// second lock and a refused one nothing.
        fn after<T>(
            &mut self,
            operation: usize,
            fits: bool,
            slots: u64,
            change: impl FnOnce(&mut Lock) -> T,
        ) -> (Option<T>, (Ends, Arrays)) {
            self.counts[operation][usize::from(!fits)] += 1;
            let mut second = self.second(slots);
            let answer = fits.then(|| change(&mut second));
            (answer, self.expected(second))
        }

        fn is(&self, (ends, arrays): (Ends, Arrays)) {
            assert_eq!(self.ends, ends);
            assert_eq!(self.arrays, arrays);
        }

        fn start(&mut self, slots: u64) {
            let (answer, expected) = self.after(0, slots != MOST, slots, |second| {
                second.head = slots;
                second.tail = slots + 1;
                second.wait.fill(slots);
                second.registration.fill(0);
            });
            let (ends, mut arrays) = expected;
            if answer.is_some() {
                arrays.cell_tickets.fill(0);
                arrays.cell_tasks.fill(0);
            }
            let started = lock::start(slots, &mut self.arrays);
            assert_eq!(started, answer.map(|()| ends));
            self.ends = started.unwrap_or(self.ends);
            self.is((ends, arrays));
        }

        fn take_ticket(&mut self) {
            let fits = self.ends.head != MOST;
            let (answer, expected) = self.after(1, fits, 1, Lock::take);
            assert_eq!(lock::take_ticket(&mut self.ends), answer);
            self.is(expected);
        }

        fn register(&mut self, slots: u64, ticket: u64, worker: u64) {
            let ring = self.arrays.registrations.len() as u64;
            let fits = (1..=ring).contains(&slots) && ticket.checked_add(worker).is_some();
            let change = |second: &mut Lock| second.register(ticket, worker as usize);
            let (answer, expected) = self.after(2, fits, slots, change);
            assert_eq!(
                lock::register(slots, &mut self.arrays, ticket, worker),
                answer
            );
            self.is(expected);
        }

        fn look(&mut self, slots: u64, ticket: u64, worker: u64) {
            let ring = self.arrays.wait.len() as u64;
            let fits = (1..=ring).contains(&slots) && self.in_cells(worker);
            let change = |second: &mut Lock| second.look(ticket, worker as usize);
            let (answer, expected) = self.after(3, fits, slots, change);
            let look = lock::look(slots, &self.arrays, ticket, worker);
            assert_eq!(look.map(as_second), answer);
            self.is(expected);
        }

        fn hand_over(&mut self, slots: u64, owner: u64) {
            let arrays = &self.arrays;
            let ring = arrays.wait.len().min(arrays.registrations.len()) as u64;
            let fits = (1..=ring).contains(&slots) && self.ends.tail != MOST;
            let change = |second: &mut Lock| second_hand_over(second, owner);
            let (answer, expected) = self.after(4, fits, slots, change);
            let handed = lock::hand_over(slots, &mut self.ends, &mut self.arrays, owner);
            assert_eq!(handed, answer);
            self.is(expected);
            if let Some(handed) = handed {
                self.told[usize::from(handed.let_in != Front::Nobody)] += 1;
            }
        }

        fn front_waiter(&mut self, slots: u64) {
            let ring = self.arrays.registrations.len() as u64;
            let fits = (1..=ring).contains(&slots);
            let change = |second: &mut Lock| as_front(second.front());
            let (answer, expected) = self.after(5, fits, slots, change);
            assert_eq!(lock::front_waiter(slots, self.ends, &self.arrays), answer);
            self.is(expected);
        }

        fn fill(&mut self, worker: u64, task: u64) {
            let fits = self.in_cells(worker);
            let change = |second: &mut Lock| second.fill(worker as usize, task);
            let (answer, expected) = self.after(6, fits, 1, change);
            assert_eq!(
                lock::fill(self.ends, &mut self.arrays, worker, task),
                answer
            );
            self.is(expected);
        }

        /// The second lock's head has to have a number after it.
        fn is_free(&self) {
            let free = self.ends.head != MOST && self.second(1).free();
            assert_eq!(lock::is_free(self.ends), free);
        }

        fn call(&mut self, rng: &mut Rng) {
            if rng.one_in(6) {
                self.ends.head = self.ticket(rng);
            }
            if rng.one_in(6) {
                self.ends.tail = number(rng, &[self.ends.head, self.ends.head.wrapping_add(1)]);
            }
            let (slots, ticket, worker) = (self.slots(rng), self.ticket(rng), self.worker(rng));
            match rng.below(24) {
                0 => self.start(slots),
                1..=3 => self.take_ticket(),
                4..=7 => self.register(slots, ticket, worker),
                8..=12 => self.look(slots, ticket, worker),
                13..=15 => self.hand_over(slots, worker),
                16..=19 => self.front_waiter(slots),
                20..=21 => self.fill(worker, rng.word()),
                _ => self.is_free(),
            }
        }
    }

    #[test]
    fn each_answer_is_the_second_ones_or_a_refusal() {
        let mut rng = Rng::new(4);
        let (mut counts, mut told) = ([[0; 2]; 7], [0; 2]);
        for slots in 1..=64 {
            for _ in 0..24 {
                let mut calls = Calls::new(&mut rng, slots);
                for _ in 0..400 {
                    calls.call(&mut rng);
                }
                for (sum, count) in counts.iter_mut().zip(calls.counts) {
                    sum[0] += count[0];
                    sum[1] += count[1];
                }
                told[0] += calls.told[0];
                told[1] += calls.told[1];
            }
        }
        for (operation, [accepted, refused]) in counts.iter().enumerate() {
            assert!(
                *accepted > 100 && *refused > 100,
                "operation {operation}: {accepted} {refused}"
            );
        }
        assert!(told[0] > 100 && told[1] > 100, "hand-overs: {told:?}");
    }

    /// Each reason for which a hand-over is refused, alone. Refused, it changes nothing.
    #[test]
    fn refused_hand_overs() {
        let handed = |slots: u64, wait: usize, registrations: usize, tail: u64| {
            let mut arrays = Arrays {
                wait: vec![4, 5, 6, 7][..wait].to_vec(),
                registrations: vec![10, 5, 6, 8][..registrations].to_vec(),
                cell_tickets: Vec::new(),
                cell_tasks: Vec::new(),
            };
            let mut ends = Ends { head: 9, tail };
            let before = (ends, arrays.clone());
            let handed = lock::hand_over(slots, &mut ends, &mut arrays, 3);
            assert_eq!(handed.is_none(), (ends, arrays) == before);
            handed
        };
        let lets_in = |let_in| Some(Handed { let_in, by: 3 });
        assert_eq!(handed(4, 4, 4, 8), lets_in(Front::Waiter(2)));
        assert_eq!(handed(0, 4, 4, 8), None);
        assert_eq!(handed(4, 3, 4, 8), None);
        assert_eq!(handed(4, 4, 3, 8), None);
        assert_eq!(handed(3, 3, 3, 8), lets_in(Front::Nobody));
        assert_eq!(handed(4, 4, 4, MOST), None);
        assert_eq!(handed(4, 4, 4, MOST - 1), lets_in(Front::Nobody));
    }
}
