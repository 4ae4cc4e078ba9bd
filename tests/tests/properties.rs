//! What the paper promises of whole runs, over random plans and random lists of
//! picks, with rings from the number of workers up and queues from 1.

use second::lock::{Handed, Lock, Look};
use second::machine::{Machine, Place, State};
use second::plan::{check, Form, Plan};
use second::random::{plan, with_masks, without_masks, Rng, Shape};
use second::report::lock_field;
use second::run;

/// A wait, from the registering pick on.
#[derive(Clone, Copy)]
struct Wait {
    ticket: u64,
    distance: u64,
    hand_overs: u64,
    picks: u64,
}

/// A hand-over that let a worker in with a task in its cell.
#[derive(Clone, Copy)]
struct Giving {
    by: usize,
    let_in: usize,
    pick: u64,
}

/// A ticket that is out, from the pick that takes it until its worker owns or receives.
#[derive(Clone, Copy)]
struct Ticket {
    number: u64,
    /// A task was put into its worker's cell for it.
    served: bool,
}

/// What is counted of the lock after each pick.
const MOMENTS: [&str; 8] = [
    "spoken for",
    "spoken for before registering",
    "spoken for, with that worker's cell filled for an earlier ticket",
    "spoken for beside a served worker that has not looked",
    "spoken for as before, after a pick of another",
    "spoken for as before, after registering",
    "owned by the look of the worker that was shown",
    "free beside a served worker that has not looked",
];

/// What an owner does at the serving place.
#[derive(Clone, Copy)]
enum Choice {
    Serves { waiter: usize, task: usize },
    Takes { task: usize },
    TakesNone,
}

/// A machine and what was seen of it from outside.
struct Watch<'p> {
    plan: &'p Plan,
    machine: Machine,
    waits: Vec<Option<Wait>>,
    tickets: Vec<Option<Ticket>>,
    /// Whom the L line shows with `>`.
    shown: Option<usize>,
    moments: [u64; MOMENTS.len()],
    receipts: Vec<Vec<usize>>,
    endings: Vec<Vec<usize>>,
    /// By task, as receipts and endings are.
    givings: Vec<Vec<Giving>>,
    /// By task, whether its receipt took it from the ready list.
    taken: Vec<bool>,
    /// Every so many picks in a row include each worker, where that is known.
    regular: Option<u64>,
    hand_overs: u64,
}

impl<'p> Watch<'p> {
    fn new(plan: &'p Plan, regular: Option<u64>) -> Watch<'p> {
        Watch {
            plan,
            machine: Machine::new(plan),
            waits: vec![None; plan.workers as usize],
            tickets: vec![None; plan.workers as usize],
            shown: None,
            moments: [0; MOMENTS.len()],
            receipts: vec![Vec::new(); plan.tasks.len()],
            endings: vec![Vec::new(); plan.tasks.len()],
            givings: vec![Vec::new(); plan.tasks.len()],
            taken: vec![false; plan.tasks.len()],
            regular,
            hand_overs: 0,
        }
    }

    fn states(&self) -> Vec<State> {
        self.machine.tasks.iter().map(|task| task.state).collect()
    }

    /// One pick, with every question about it.
    fn step(&mut self, worker: usize) {
        let place = self.machine.workers[worker].place;
        let (head, tail) = (self.machine.lock.head, self.machine.lock.tail);
        let states = self.states();
        self.no_flag_repeats(worker);
        let owner = self.machine.owner;
        let ready: Vec<usize> = self.machine.ready.iter().copied().collect();
        let choice = (place == Place::Serve).then(|| self.choice(worker, &ready));
        self.machine.step(worker);
        if let Some(choice) = choice {
            self.follow_choice(worker, choice, ready);
        }
        if self.machine.lock.tail > tail {
            assert_eq!(owner, Some(worker), "only an owner hands over");
            self.follow_hand_over(worker, tail);
        }
        self.follow_waits(worker, place, self.machine.lock.tail - tail);
        self.follow_tickets(worker, head, choice);
        self.follow_shown(worker, place);
        self.follow_tasks(worker, place, &states);
        self.turns();
        self.front_waiter();
        self.places();
        self.givers();
        self.owner_and_limits();
        self.end_is_counted_right();
    }

    /// A message to be delivered brings only flags that its access lacks.
    fn no_flag_repeats(&self, worker: usize) {
        let me = &self.machine.workers[worker];
        if let (Place::Free, None, Some(message)) = (me.place, me.notice, me.mailbox.front()) {
            assert_eq!(
                self.machine.accesses[message.access].flags & message.flags,
                0
            );
        }
    }

    /// Whether a worker may run a task: bit i of its mask is worker i.
    fn permits(&self, task: usize, worker: usize) -> bool {
        let mask = self.plan.tasks[task].mask;
        mask.is_none_or(|mask| (mask >> worker) % 2 == 1)
    }

    /// The first ready task that the front waiter may run, while fewer than W - 1 were
    /// served; else the first that the owner may run.
    fn choice(&self, owner: usize, ready: &[usize]) -> Choice {
        let first = |worker| ready.iter().find(|&&task| self.permits(task, worker));
        if self.machine.workers[owner].served as u64 + 1 < self.plan.workers {
            if let Some(waiter) = self.waits_with(self.machine.lock.tail) {
                if let Some(&task) = first(waiter) {
                    return Choice::Serves { waiter, task };
                }
            }
        }
        first(owner).map_or(Choice::TakesNone, |&task| Choice::Takes { task })
    }

    /// The pick did what was to be done, and the other ready tasks keep their order.
    fn follow_choice(&self, owner: usize, choice: Choice, mut ready: Vec<usize>) {
        let machine = &self.machine;
        let (place, chosen) = match choice {
            Choice::Serves { waiter, task } => {
                let cell = (machine.lock.tail, task as u64);
                assert_eq!(machine.lock.cells[waiter], cell);
                (Place::HandOver, Some((task, State::Held)))
            }
            Choice::Takes { task } => {
                assert_eq!(machine.workers[owner].task, Some(task));
                (Place::Leave, Some((task, State::Run)))
            }
            Choice::TakesNone => (Place::Leave, None),
        };
        assert_eq!(machine.workers[owner].place, place);
        if let Some((task, state)) = chosen {
            assert_eq!(machine.tasks[task].state, state);
            ready.retain(|&other| other != task);
        }
        assert_eq!(machine.ready, ready);
    }

    fn waits_with(&self, ticket: u64) -> Option<usize> {
        let with = |wait: &Option<Wait>| wait.is_some_and(|wait| wait.ticket == ticket);
        self.waits.iter().position(with)
    }

    /// The hand-over of `ticket`: who waits with it is let in, nobody where it isn't registered.
    fn follow_hand_over(&mut self, by: usize, ticket: u64) {
        if let Some(let_in) = self.waits_with(ticket) {
            let (filled_for, task) = self.machine.lock.cells[let_in];
            if filled_for == ticket {
                let pick = self.machine.picks;
                self.givings[task as usize].push(Giving { by, let_in, pick });
            }
        }
    }

    fn follow_waits(&mut self, worker: usize, before: Place, hand_overs: u64) {
        assert!(hand_overs <= 1);
        self.hand_overs += hand_overs;
        for wait in self.waits.iter_mut().flatten() {
            wait.hand_overs += hand_overs;
            wait.picks += 1;
        }
        if let Place::Register(ticket) = before {
            let distance = (ticket + 1).checked_sub(self.machine.lock.tail);
            let distance = distance.expect("a distance is never negative");
            self.waits[worker] = Some(Wait {
                ticket,
                distance,
                hand_overs: 0,
                picks: 0,
            });
        }
        self.waiting_figure();
        // The wait is over with a task received or the lock owned.
        let received = self.machine.workers[worker].task.is_some();
        if received || self.machine.owner == Some(worker) {
            let wait = self.waits[worker].take();
            assert!(wait.is_none_or(|wait| wait.hand_overs >= wait.distance));
        }
    }

    fn follow_tickets(&mut self, worker: usize, head: u64, choice: Option<Choice>) {
        let machine = &self.machine;
        if machine.lock.head > head {
            self.tickets[worker] = Some(Ticket {
                number: head,
                served: false,
            });
        }
        if let Some(Choice::Serves { waiter, .. }) = choice {
            let ticket = self.tickets[waiter].as_mut();
            ticket.expect("who waits has a ticket").served = true;
        }
        // A try that wins owns in the pick that takes its ticket.
        if machine.owner == Some(worker) || machine.workers[worker].task.is_some() {
            self.tickets[worker] = None;
        }
    }

    /// The workers with a ticket out whose turn has come: those that were served, or the others.
    fn let_in(&self, served: bool) -> Vec<usize> {
        let tail = self.machine.lock.tail;
        let let_in = |ticket: Ticket| ticket.number < tail && ticket.served == served;
        let workers = 0..self.tickets.len();
        workers
            .filter(|&worker| self.tickets[worker].is_some_and(let_in))
            .collect()
    }

    /// The lock is owned, spoken for or free, exactly one of these, and the report tells which.
    /// A worker that is shown with `>` stays so until its own look, and then it owns.
    fn follow_shown(&mut self, worker: usize, place: Place) {
        let machine = &self.machine;
        let (field, shown) = match (machine.owner, &self.let_in(false)[..]) {
            (Some(owner), []) => (owner.to_string(), None),
            (None, &[due]) => (format!(">{due}"), Some(due)),
            (None, []) => ("-".to_string(), None),
            (owner, due) => panic!("{owner:?} owns, {due:?} are due"),
        };
        assert_eq!(lock_field(machine), field);
        assert_eq!(field == "-", machine.lock.tail == machine.lock.head + 1);
        let before = self.shown;
        let looks = matches!(place, Place::Look(_)) && before == Some(worker);
        if looks {
            assert_eq!(machine.owner, before);
        } else if before.is_some() {
            assert_eq!(shown, before);
        }
        self.shown = shown;
        self.count_moments(worker, before, looks);
    }

    fn count_moments(&mut self, worker: usize, before: Option<usize>, owned: bool) {
        let served = !self.let_in(true).is_empty();
        let lock = &self.machine.lock;
        let shown = self.shown.is_some();
        let as_before = shown && before == self.shown;
        let own_pick = self.shown == Some(worker);
        let moments = [
            shown,
            self.shown.is_some_and(|due| self.waits[due].is_none()),
            self.shown.is_some_and(|due| lock.cells[due].0 > 0),
            shown && served,
            as_before && !own_pick,
            as_before && own_pick,
            owned,
            lock.free() && served,
        ];
        for (count, seen) in self.moments.iter_mut().zip(moments) {
            *count += u64::from(seen);
        }
    }

    fn waiting_figure(&self) {
        let workers = self.plan.workers;
        if let Some(regular) = self.regular {
            for wait in self.waits.iter().flatten() {
                assert!(wait.picks <= (wait.distance * (3 * workers + 2) + 1) * regular);
            }
        }
    }

    /// It is a waiter's turn exactly after as many hand-overs as its distance.
    fn turns(&self) {
        for (worker, wait) in self.waits.iter().enumerate() {
            let looks = matches!(self.machine.workers[worker].place, Place::Look(_));
            assert_eq!(wait.is_some(), looks);
            if let Some(wait) = wait {
                let turn = self.machine.lock.turn(wait.ticket);
                assert_eq!(turn, wait.hand_overs >= wait.distance);
            }
        }
    }

    /// Who waits with the tail is the front waiter: no registration of an earlier lap is.
    fn front_waiter(&self) {
        let lock = &self.machine.lock;
        assert_eq!(lock.front(), self.waits_with(lock.tail));
    }

    fn follow_tasks(&mut self, worker: usize, place: Place, before: &[State]) {
        for (task, &old) in before.iter().enumerate() {
            let new = self.machine.tasks[task].state;
            if old == new {
                continue;
            }
            let allowed = match new {
                State::New => false,
                State::Waiting => old == State::New,
                State::Ready => old == State::Waiting,
                State::Held => old == State::Ready,
                State::Run => old == State::Ready || old == State::Held,
                State::Over => old == State::Run,
            };
            assert!(allowed, "{old:?} to {new:?}");
            match new {
                State::Run => {
                    self.receipts[task].push(worker);
                    assert!(self.permits(task, worker), "{worker} runs {task}");
                    self.taken[task] = place == Place::Serve;
                    self.earlier_conflicts_over(task);
                }
                State::Over => self.endings[task].push(worker),
                _ => {}
            }
            self.one_receipt_one_ending(task);
        }
    }

    fn one_receipt_one_ending(&self, task: usize) {
        let (receipts, endings) = (&self.receipts[task], &self.endings[task]);
        assert!(receipts.len() <= 1 && endings.len() <= receipts.len());
        assert!(endings.is_empty() || endings == receipts);
        let record = &self.machine.tasks[task];
        assert_eq!(record.worker, receipts.first().copied());
        assert_eq!(
            (record.receipt.is_some(), record.ending.is_some()),
            (receipts.len() == 1, endings.len() == 1)
        );
    }

    fn earlier_conflicts_over(&self, task: usize) {
        for earlier in (0..task).filter(|&earlier| self.conflict(earlier, task)) {
            assert_eq!(
                self.machine.tasks[earlier].state,
                State::Over,
                "{earlier} before {task}"
            );
        }
    }

    fn conflict(&self, one: usize, other: usize) -> bool {
        self.plan.tasks[one].accesses.iter().any(|a| {
            let mut shared = self.plan.tasks[other].accesses.iter();
            shared.any(|b| a.address == b.address && (a.writes || b.writes))
        })
    }

    /// A task that is ready, held or run stands in exactly one place, others in none.
    fn places(&self) {
        let mut places = vec![0; self.plan.tasks.len()];
        let machine = &self.machine;
        machine.ready.iter().for_each(|&task| places[task] += 1);
        for (worker, state) in machine.workers.iter().enumerate() {
            let listed = state.to_add.iter().chain(&state.queue).chain(&state.task);
            listed.for_each(|&task| places[task] += 1);
            let (ticket, task) = machine.lock.cells[worker];
            if self.waits[worker].is_some_and(|wait| wait.ticket == ticket) {
                places[task as usize] += 1;
            }
        }
        for (task, record) in machine.tasks.iter().enumerate() {
            let placed = matches!(record.state, State::Ready | State::Held | State::Run);
            assert_eq!(places[task], usize::from(placed), "task {task}");
        }
    }

    /// The giver of each task is what receipts and hand-overs make it.
    fn givers(&self) {
        for (task, record) in self.machine.tasks.iter().enumerate() {
            let givings = &self.givings[task];
            match record.state {
                State::New | State::Waiting | State::Ready => {
                    assert!(record.giver.is_none() && givings.is_empty(), "task {task}");
                }
                State::Held => {
                    let handed_over = self.held_ticket(task) < self.machine.lock.tail;
                    assert_eq!(record.giver.is_some(), handed_over, "task {task}");
                    assert_eq!(record.giver, givings.first().map(|giving| giving.by));
                    assert_eq!(givings.len(), usize::from(handed_over));
                }
                State::Run | State::Over => {
                    let giver = record.giver.expect("a giver");
                    let itself = record.worker == Some(giver);
                    assert_eq!(itself, self.taken[task], "task {task}");
                    match givings[..] {
                        [] => assert!(itself, "no hand-over gave task {task}"),
                        [giving] => {
                            assert_eq!((giver, record.worker), (giving.by, Some(giving.let_in)));
                            assert!(!itself && Some(giving.pick) < record.receipt);
                        }
                        _ => panic!("task {task} was given twice"),
                    }
                }
            }
        }
    }

    /// The ticket of the waiting worker whose cell has a task that is held.
    fn held_ticket(&self, task: usize) -> u64 {
        let waits = self.waits.iter().zip(&self.machine.lock.cells);
        let mut tickets = waits.filter_map(|(wait, &cell)| {
            let ticket = (*wait)?.ticket;
            (cell == (ticket, task as u64)).then_some(ticket)
        });
        tickets.next().expect("a waiting worker has it in its cell")
    }

    fn owner_and_limits(&self) {
        let machine = &self.machine;
        for (worker, state) in machine.workers.iter().enumerate() {
            let owning = !matches!(
                state.place,
                Place::Free | Place::Register(_) | Place::Look(_) | Place::Work(_) | Place::TryLock
            );
            assert_eq!(owning, machine.owner == Some(worker));
            assert!(state.queue.len() <= machine.capacity);
            assert!(state.mailbox.len() <= 4);
        }
    }

    fn end_is_counted_right(&self) {
        let machine = &self.machine;
        let over = machine.tasks.iter().all(|task| task.state == State::Over);
        let silent = machine
            .workers
            .iter()
            .all(|w| w.mailbox.is_empty() && w.notice.is_none());
        assert_eq!(machine.finished(), over && silent);
    }

    /// What holds of every finished run.
    fn at_the_end(&self) {
        assert!(self.machine.finished());
        for task in 0..self.plan.tasks.len() {
            assert_eq!(self.receipts[task].len(), 1);
            assert_eq!(self.endings[task], self.receipts[task]);
        }
        for (number, access) in self.machine.accesses.iter().enumerate() {
            let later = &self.machine.accesses[number + 1..];
            let has_successor = later.iter().any(|other| other.address == access.address);
            assert_eq!(access.flags, if has_successor { 63 } else { 7 });
        }
    }
}

/// Lists of picks.
#[derive(Clone, Copy, Debug)]
enum List {
    RoundRobin,
    /// Each round a new permutation: every 2W - 1 in a row include each worker.
    Permutations,
    /// Anything in which every B in a row include each worker; where there is a
    /// choice, one that wastes picks is taken.
    Hostile(u64),
    /// Any worker at any time.
    Random,
    /// The same worker for a while.
    Bursts,
}

struct Picker {
    list: List,
    workers: usize,
    round: Vec<usize>,
    /// For a hostile list: the pick by which each worker must come again.
    deadlines: Vec<u64>,
    now: u64,
    burst: (usize, u64),
}

impl Picker {
    fn new(list: List, workers: usize) -> Picker {
        let first = if let List::Hostile(regular) = list {
            regular
        } else {
            0
        };
        Picker {
            list,
            workers,
            round: Vec::new(),
            deadlines: vec![first; workers],
            now: 0,
            burst: (0, 0),
        }
    }

    fn regular(&self) -> Option<u64> {
        let workers = self.workers as u64;
        match self.list {
            List::RoundRobin => Some(workers),
            List::Permutations => Some(2 * workers - 1),
            List::Hostile(regular) => Some(regular),
            List::Random | List::Bursts => None,
        }
    }

    fn next(&mut self, rng: &mut Rng, machine: &Machine) -> usize {
        self.now += 1;
        match self.list {
            List::Random => rng.index(self.workers),
            List::RoundRobin => (self.now as usize - 1) % self.workers,
            List::Permutations => {
                if self.round.is_empty() {
                    self.round = (0..self.workers).collect();
                    rng.shuffle(&mut self.round);
                }
                self.round.pop().unwrap_or(0)
            }
            List::Bursts => {
                if self.burst.1 == 0 {
                    self.burst = (rng.index(self.workers), rng.between(1, 40));
                }
                self.burst.1 -= 1;
                self.burst.0
            }
            List::Hostile(regular) => {
                let worker = self.hostile(rng, machine);
                self.deadlines[worker] = self.now + regular;
                worker
            }
        }
    }

    /// A worker whose look is in vain, or any, where all deadlines can still be
    /// met; else the one whose deadline is next.
    fn hostile(&self, rng: &mut Rng, machine: &Machine) -> usize {
        let wasteful = |worker: usize| match machine.workers[worker].place {
            Place::Look(ticket) => !machine.lock.turn(ticket),
            _ => false,
        };
        let mut order: Vec<usize> = (0..self.workers).collect();
        rng.shuffle(&mut order);
        order.sort_by_key(|&worker| !wasteful(worker));
        if rng.one_in(8) {
            rng.shuffle(&mut order);
        }
        let next = (0..self.workers)
            .min_by_key(|&worker| self.deadlines[worker])
            .unwrap_or(0);
        order
            .into_iter()
            .find(|&worker| self.can_wait(worker))
            .unwrap_or(next)
    }

    /// Whether all others can still come in time when `worker` is picked now.
    fn can_wait(&self, worker: usize) -> bool {
        let mut others: Vec<u64> = (0..self.workers)
            .filter(|&w| w != worker)
            .map(|w| self.deadlines[w])
            .collect();
        others.sort();
        others
            .iter()
            .zip(self.now + 1..)
            .all(|(&deadline, earliest)| earliest <= deadline)
    }
}

fn finishing_figure(plan: &Plan, regular: u64) -> u64 {
    let tasks = plan.tasks.len() as u64;
    let accesses: u64 = plan
        .tasks
        .iter()
        .map(|task| task.accesses.len() as u64)
        .sum();
    let cost: u64 = plan.tasks.iter().map(|task| task.cost).sum();
    regular * factor(plan) * (7 * tasks + 7 * accesses + cost)
}

/// With M lines a task may wait until one worker's turn has come.
fn factor(plan: &Plan) -> u64 {
    let workers = plan.workers;
    if plan.has_masks() {
        3 * workers * workers + 7 * workers + 8
    } else {
        4 * workers + 8
    }
}

/// The plan with this ring and these queues.
fn sized(plan: &Plan, slots: u64, capacity: u64) -> Plan {
    let mut plan = plan.clone();
    plan.form = Form::Second { slots, capacity };
    plan
}

/// Plays a plan with a list of picks; gives the state it ends with and what was seen of it.
fn play<'p>(rng: &mut Rng, plan: &'p Plan, list: List, most: u64) -> Watch<'p> {
    let mut picker = Picker::new(list, plan.workers as usize);
    let regular = picker.regular();
    let limit = regular.map_or(most, |regular| finishing_figure(plan, regular));
    let mut watch = Watch::new(plan, regular);
    while !watch.machine.finished() && watch.machine.picks < limit {
        let worker = picker.next(rng, &watch.machine);
        watch.step(worker);
    }
    if watch.machine.finished() {
        watch.at_the_end();
    }
    assert!(
        regular.is_none() || watch.machine.finished(),
        "the finishing figure"
    );
    assert!(watch.machine.lock.tail == plan.form.slots() + 1 + watch.hand_overs);
    watch
}

/// A random plan whose order lines are not used.
fn random_plan(rng: &mut Rng, shape: Shape) -> Plan {
    check(&plan(rng, shape)).unwrap()
}

/// A ring from the number of workers up, often the smallest.
fn ring(rng: &mut Rng, workers: u64) -> u64 {
    match rng.below(4) {
        0 | 1 => workers,
        2 => workers + rng.below(5),
        _ => 64,
    }
}

fn capacity(rng: &mut Rng) -> u64 {
    rng.choose(&[1, 1, 2, 3, 8, 16])
}

fn lists(rng: &mut Rng, workers: u64) -> [List; 5] {
    let regular = workers + rng.below(3 * workers);
    [
        List::RoundRobin,
        List::Permutations,
        List::Hostile(regular),
        List::Random,
        List::Bursts,
    ]
}

fn play_many(seed: u64, shape: Shape, plans: usize, most: u64) {
    let rng = &mut Rng::new(seed);
    let mut finished = 0;
    // Runs in which masks made a difference, by the ways in which they can.
    let mut tied = [0; 4];
    let mut moments = [0; MOMENTS.len()];
    for _ in 0..plans {
        let plan = random_plan(rng, shape);
        for list in lists(rng, plan.workers) {
            let plan = sized(&plan, ring(rng, plan.workers), capacity(rng));
            let watch = play(rng, &plan, list, most);
            finished += usize::from(watch.machine.finished());
            let times = differences(&watch.machine);
            assert!(times == [0; 4] || plan.has_masks());
            (0..4).for_each(|way| tied[way] += usize::from(times[way] > 0));
            (0..MOMENTS.len()).for_each(|at| moments[at] += watch.moments[at]);
        }
    }
    assert!(finished >= 4 * plans, "{finished} of {}", 5 * plans);
    assert!(tied.iter().all(|&runs| runs >= plans / 4), "{tied:?}");
    for (name, times) in MOMENTS.iter().zip(moments) {
        assert!(
            times >= 5 * plans as u64,
            "{name}: {times} in {plans}; {moments:?}"
        );
    }
}

/// How often a task was served or taken past the first ready one, a waiter was not
/// served, and an owner took none of the ready tasks.
fn differences(machine: &Machine) -> [u64; 4] {
    let counters = machine.counters;
    [
        counters.served_past,
        counters.taken_past,
        counters.stopped_serving,
        counters.left_ready,
    ]
}

#[test]
fn small_plans() {
    play_many(11, Shape::Small, 10_000, 3_000);
}

#[test]
fn medium_plans() {
    play_many(12, Shape::Medium, 200, 200_000);
}

/// 32 workers; fewer tasks than the shape has.
#[test]
fn large_plans() {
    let rng = &mut Rng::new(13);
    let large = |rng: &mut Rng| plan(rng, Shape::Large);
    let free = (without_masks(rng, large), 40);
    let tied = (with_masks(rng, large), 10);
    for (text, tasks) in [free, tied] {
        let mut plan = check(&text).unwrap();
        plan.tasks.truncate(tasks);
        assert_eq!(plan.has_masks(), tasks == 10);
        plan.tasks.iter_mut().for_each(|task| task.cost %= 20);
        for list in [List::RoundRobin, List::Hostile(50), List::Random] {
            for (slots, capacity) in [(64, 8), (32, 1), (33, 16)] {
                let plan = sized(&plan, slots, capacity);
                assert!(play(rng, &plan, list, 2_000_000).machine.finished());
            }
        }
    }
}

/// One task that one worker alone may run, in rounds, for every number of workers and
/// each of them: finished within the figure of plans with M lines.
#[test]
fn one_task_for_one_worker() {
    for workers in 1..=32 {
        for worker in 0..workers {
            let mask = 1u64 << worker;
            let text = format!("W\t{workers}\nT\ta\t0\nM\t{mask}\nR\t1000000\n");
            let plan = check(text.as_bytes()).unwrap();
            let machine = run::play(&plan, finishing_figure(&plan, workers));
            assert!(machine.finished(), "{workers} workers, {worker}");
            assert_eq!(machine.tasks[0].worker, Some(worker as usize));
        }
    }
}

/// The figure of plans without M lines would not do for them: with 29 workers and one
/// task that worker 0 alone may run, 872 rounds and one pick are needed, where that
/// figure says 868 rounds.
#[test]
fn picks_that_a_mask_needs() {
    let picks = |mask: &str| {
        let text = format!("W\t29\nT\ta\t0\n{mask}R\t1000000\n");
        let plan = check(text.as_bytes()).unwrap();
        let machine = run::play(&plan, u64::MAX);
        assert!(machine.finished());
        (machine.picks, finishing_figure(&plan, 29))
    };
    let rounds = |rounds: u64| 29 * rounds;
    let (needed, most) = picks("M\t1\n");
    assert_eq!(needed, rounds(872) + 1);
    assert_eq!(most, rounds(7 * (3 * 29 * 29 + 7 * 29 + 8)));
    let (free, figure) = picks("");
    assert_eq!(figure, rounds(868));
    assert!(free <= figure && figure < needed);
}

/// Rings of exactly as many slots as workers, over several laps.
#[test]
fn tight_rings() {
    let rng = &mut Rng::new(16);
    for workers in 1..=32 {
        let mut text = format!("W\t{workers}\t{workers}\t2\n");
        text.push_str(&"T\ta\t2\tw5\n".repeat(8 + 3 * workers));
        let plan = check(text.as_bytes()).unwrap();
        for list in [List::RoundRobin, List::Bursts, List::Random] {
            let machine = play(rng, &plan, list, 2_000_000).machine;
            assert!(machine.finished());
            let laps = machine.lock.tail / plan.form.slots();
            assert!(laps >= 4, "{workers} workers, {list:?}: {laps} laps");
        }
    }
}

/// Hostile lists are regular as they say.
#[test]
fn hostile_lists_keep_their_bound() {
    let rng = &mut Rng::new(14);
    for _ in 0..300 {
        let plan = random_plan(rng, Shape::Small);
        let workers = plan.workers as usize;
        let regular = workers as u64 + rng.below(8);
        let mut picker = Picker::new(List::Hostile(regular), workers);
        let plan = sized(&plan, plan.workers, 8);
        let mut machine = Machine::new(&plan);
        let mut picks = Vec::new();
        for _ in 0..200 {
            let worker = picker.next(rng, &machine);
            machine.step(worker);
            picks.push(worker);
        }
        for window in picks.windows(regular as usize) {
            assert!(
                (0..workers).all(|worker| window.contains(&worker)),
                "{window:?}"
            );
        }
    }
}

/// The lock alone, for every ring size and as many workers as slots, over some
/// laps: turns, front waiter, freedom and whom a hand-over lets in are those of
/// the tickets that are out.
#[test]
fn lock_alone() {
    let rng = &mut Rng::new(15);
    // By what is known of the ticket let in: not taken, not registered, registered.
    let mut told = [0; 3];
    for slots in 1..=64 {
        let mut lock = Lock::new(slots, slots);
        let start = slots as u64;
        assert_eq!((lock.head, lock.tail), (start, start + 1));
        let mut tickets: Vec<Option<(u64, bool)>> = vec![None; slots];
        while lock.tail < 8 * start {
            let worker = due_or_any(rng, &lock, &tickets);
            tickets[worker] = match tickets[worker] {
                None => Some((lock.take(), false)),
                Some((ticket, false)) => {
                    lock.register(ticket, worker);
                    Some((ticket, true))
                }
                Some((ticket, true)) if lock.look(ticket, worker) == Look::Owns => {
                    let let_in = registered(&tickets, lock.tail);
                    told[usize::from(lock.tail < lock.head) + usize::from(let_in.is_some())] += 1;
                    assert_eq!(lock.hand_over(worker), Handed { let_in, by: worker });
                    None
                }
                waiting => waiting,
            };
            compare_lock(&lock, &tickets);
        }
    }
    assert!(told.iter().all(|&count| count > 100), "{told:?}");
}

/// Half of the time the worker whose turn has come, else any.
fn due_or_any(rng: &mut Rng, lock: &Lock, tickets: &[Option<(u64, bool)>]) -> usize {
    let due = |held: &Option<(u64, bool)>| held.is_some_and(|(ticket, _)| ticket < lock.tail);
    match tickets.iter().position(due) {
        Some(worker) if rng.one_in(2) => worker,
        _ => rng.index(tickets.len()),
    }
}

/// Who has registered this ticket and has it still.
fn registered(tickets: &[Option<(u64, bool)>], ticket: u64) -> Option<usize> {
    tickets
        .iter()
        .position(|held| *held == Some((ticket, true)))
}

fn compare_lock(lock: &Lock, tickets: &[Option<(u64, bool)>]) {
    for &(ticket, _) in tickets.iter().flatten() {
        assert_eq!(lock.turn(ticket), ticket < lock.tail);
    }
    assert_eq!(lock.front(), registered(tickets, lock.tail));
    assert_eq!(lock.free(), tickets.iter().all(|held| held.is_none()));
}
