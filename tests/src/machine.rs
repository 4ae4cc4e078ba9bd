//! The step machine: one pick is one step of the picked worker.

use std::collections::VecDeque;

use crate::lock::{Lock, Look};
use crate::plan::Plan;

/// Access flags, with the paper's bit numbers.
pub mod flag {
    pub const READ: u8 = 1;
    pub const WRITE: u8 = 2;
    pub const DONE: u8 = 4;
    pub const NEXT: u8 = 8;
    pub const SENT_READ: u8 = 16;
    pub const SENT_WRITE: u8 = 32;
}
use flag::*;

#[derive(Clone, Copy, Debug, PartialEq, Eq)]
pub enum State {
    New,
    Waiting,
    Ready,
    Held,
    Run,
    Over,
}

#[derive(Clone, Debug)]
pub struct TaskRecord {
    pub state: State,
    /// Unsatisfied accesses, plus one until closed.
    pub count: usize,
    pub worker: Option<usize>,
    pub receipt: Option<u64>,
    pub ending: Option<u64>,
    /// Whose hand-over let its taker in, or who took it itself.
    pub giver: Option<usize>,
    /// Its accesses are `first..first + accesses` of the machine's.
    pub first: usize,
    pub accesses: usize,
    pub cost: u64,
    /// Who may run it; bit i is worker i.
    pub permitted: u64,
}

impl TaskRecord {
    pub fn permits(&self, worker: usize) -> bool {
        self.permitted >> worker & 1 == 1
    }
}

#[derive(Clone, Debug)]
pub struct AccessRecord {
    pub task: usize,
    pub writes: bool,
    pub address: u64,
    pub flags: u8,
    /// Known from the linking step of the successor on.
    pub successor: Option<usize>,
}

impl AccessRecord {
    fn satisfied(&self) -> bool {
        let needed = if self.writes { READ | WRITE } else { READ };
        self.flags & needed == needed
    }

    /// The flags that may pass to the successor under the present flags.
    fn passing(&self) -> u8 {
        let holds = |needed| self.flags & needed == needed;
        let read = holds(NEXT | READ) && (!self.writes || holds(DONE));
        let write = holds(NEXT | WRITE | DONE);
        (if read { READ } else { 0 }) | (if write { WRITE } else { 0 })
    }
}

#[derive(Clone, Copy, Debug, PartialEq, Eq)]
pub struct Message {
    pub access: usize,
    pub flags: u8,
    /// The access that passes flags on; the others need no notice.
    pub sender: Option<usize>,
}

/// What a sender is told after its pass message was delivered.
#[derive(Clone, Copy, Debug, PartialEq, Eq)]
pub struct Notice {
    pub sender: usize,
    pub flags: u8,
}

/// Where a worker stands, that is, what its next step is about.
#[derive(Clone, Copy, Debug, PartialEq, Eq)]
pub enum Place {
    /// Notice, mailbox, adding, creating or taking a ticket.
    Free,
    Register(u64),
    Look(u64),
    Drain(usize),
    Serve,
    HandOver,
    Leave,
    Work(u64),
    TryLock,
    AddDrain(usize),
    AddLeave,
}

#[derive(Clone, Debug)]
pub struct Worker {
    pub place: Place,
    /// The task received and not yet ended.
    pub task: Option<usize>,
    /// Waiters served in this session.
    pub served: usize,
    pub queue: VecDeque<usize>,
    pub mailbox: VecDeque<Message>,
    pub notice: Option<Notice>,
    pub to_add: VecDeque<usize>,
}

/// Worker 0's next creating step.
#[derive(Clone, Copy, Debug, PartialEq, Eq)]
pub enum Creating {
    Open(usize),
    Link(usize, usize),
    Close(usize),
}

/// What happened so far; nothing in the machine depends on it.
#[derive(Clone, Copy, Debug, Default, PartialEq, Eq)]
pub struct Counters {
    pub full_queue: u64,
    pub tries_won: u64,
    pub tries_failed: u64,
    pub passes: u64,
    pub notices: u64,
    pub served: u64,
    pub own_receipts: u64,
    pub cell_receipts: u64,
    /// Tasks that an owner served a waiter with, or took, past the first ready one.
    pub served_past: u64,
    pub taken_past: u64,
    /// An owner stopped serving at a waiter that may run no ready task; an owner took
    /// none, as it may run no ready task.
    pub stopped_serving: u64,
    pub left_ready: u64,
}

#[derive(Clone, Debug)]
pub struct Machine {
    pub lock: Lock,
    pub capacity: usize,
    pub owner: Option<usize>,
    pub workers: Vec<Worker>,
    pub ready: VecDeque<usize>,
    pub tasks: Vec<TaskRecord>,
    pub accesses: Vec<AccessRecord>,
    pub creating: Creating,
    pub picks: u64,
    /// Tasks over, and messages and notices pending: kept to ask for the end cheaply.
    pub over: usize,
    pub pending: usize,
    pub counters: Counters,
}

impl Machine {
    /// The state before any pick, with the plan's ring slots and queue capacity.
    pub fn new(plan: &Plan) -> Machine {
        let count = plan.workers as usize;
        let capacity = plan.form.capacity() as usize;
        let worker = Worker {
            place: Place::Free,
            task: None,
            served: 0,
            queue: VecDeque::with_capacity(capacity),
            mailbox: VecDeque::new(),
            notice: None,
            to_add: VecDeque::new(),
        };
        let mut machine = Machine {
            lock: Lock::new(plan.form.slots() as usize, count),
            capacity,
            owner: None,
            workers: vec![worker; count],
            ready: VecDeque::new(),
            tasks: Vec::new(),
            accesses: Vec::new(),
            creating: Creating::Open(0),
            picks: 0,
            over: 0,
            pending: 0,
            counters: Counters::default(),
        };
        machine.load(plan);
        machine
    }

    fn load(&mut self, plan: &Plan) {
        for (number, task) in plan.tasks.iter().enumerate() {
            self.tasks.push(TaskRecord {
                state: State::New,
                count: 0,
                worker: None,
                receipt: None,
                ending: None,
                giver: None,
                first: self.accesses.len(),
                accesses: task.accesses.len(),
                cost: task.cost,
                permitted: plan.permitted(task),
            });
            self.accesses
                .extend(task.accesses.iter().map(|access| AccessRecord {
                    task: number,
                    writes: access.writes,
                    address: access.address,
                    flags: 0,
                    successor: None,
                }));
        }
    }

    /// All tasks over, no message and no notice pending.
    pub fn finished(&self) -> bool {
        self.over == self.tasks.len() && self.pending == 0
    }

    /// One pick of `worker`.
    pub fn step(&mut self, worker: usize) {
        self.picks += 1;
        let next = match self.workers[worker].place {
            Place::Free => self.free_step(worker),
            Place::Register(ticket) => {
                self.lock.register(ticket, worker);
                Place::Look(ticket)
            }
            Place::Look(ticket) => self.look(worker, ticket),
            Place::Drain(queue) => self.drain(queue).map_or(Place::Serve, Place::Drain),
            Place::Serve => self.serve_or_take(worker),
            Place::HandOver => {
                self.hand_over(worker);
                self.workers[worker].served += 1;
                Place::Serve
            }
            Place::Leave => {
                self.leave(worker);
                self.workers[worker]
                    .task
                    .map_or(Place::Free, |task| self.start(task))
            }
            Place::Work(0) => self.end_task(worker),
            Place::Work(left) => Place::Work(left - 1),
            Place::TryLock => self.try_lock(worker),
            Place::AddDrain(queue) => self.drain(queue).map_or(Place::AddLeave, Place::AddDrain),
            Place::AddLeave => {
                self.leave(worker);
                Place::Free
            }
        };
        self.workers[worker].place = next;
    }

    /// Notice, mailbox, adding, creating, idling: the first that there is.
    fn free_step(&mut self, worker: usize) -> Place {
        let me = &mut self.workers[worker];
        if let Some(notice) = me.notice.take() {
            self.notify(notice);
            Place::Free
        } else if let Some(message) = me.mailbox.pop_front() {
            self.deliver(worker, message);
            Place::Free
        } else if !me.to_add.is_empty() {
            self.push(worker)
        } else if worker == 0 && self.creating != Creating::Open(self.tasks.len()) {
            self.create();
            Place::Free
        } else {
            Place::Register(self.lock.take())
        }
    }

    // The lock and the ready list.

    fn look(&mut self, worker: usize, ticket: u64) -> Place {
        match self.lock.look(ticket, worker) {
            Look::NotYet => Place::Look(ticket),
            Look::Receives(task) => {
                let task = task as usize;
                self.counters.cell_receipts += 1;
                self.receive(worker, task);
                self.start(task)
            }
            Look::Owns => {
                self.owner = Some(worker);
                self.workers[worker].served = 0;
                Place::Drain(0)
            }
        }
    }

    /// Moves one whole queue to the ready list; gives the next queue if any.
    fn drain(&mut self, queue: usize) -> Option<usize> {
        self.ready.extend(self.workers[queue].queue.drain(..));
        let next = queue + 1;
        (next < self.workers.len()).then_some(next)
    }

    /// Serves the front waiter with the first ready task that it may run; where there is
    /// none for it, and where nobody may be served, takes for itself in this same step.
    fn serve_or_take(&mut self, worker: usize) -> Place {
        let may_serve = self.workers[worker].served + 1 < self.workers.len();
        let waiter = if may_serve { self.lock.front() } else { None };
        if let Some(waiter) = waiter {
            if let Some(at) = self.first_for(waiter) {
                self.serve(waiter, at);
                return Place::HandOver;
            }
            self.counters.stopped_serving += u64::from(!self.ready.is_empty());
        }
        match self.first_for(worker) {
            Some(at) => self.take(worker, at),
            None => self.counters.left_ready += u64::from(!self.ready.is_empty()),
        }
        Place::Leave
    }

    /// Where in the ready list the first task stands that a worker may run.
    fn first_for(&self, worker: usize) -> Option<usize> {
        let mut ready = self.ready.iter();
        ready.position(|&task| self.tasks[task].permits(worker))
    }

    /// Puts a ready task into a waiter's cell.
    fn serve(&mut self, waiter: usize, at: usize) {
        let task = self.ready.remove(at).expect("a ready task");
        self.lock.fill(waiter, task as u64);
        self.tasks[task].state = State::Held;
        self.counters.served += 1;
        self.counters.served_past += u64::from(at > 0);
    }

    /// Takes a ready task for its owner.
    fn take(&mut self, owner: usize, at: usize) {
        let task = self.ready.remove(at).expect("a ready task");
        self.tasks[task].giver = Some(owner);
        self.receive(owner, task);
        self.counters.own_receipts += 1;
        self.counters.taken_past += u64::from(at > 0);
    }

    /// A task that waits in the cell of who is let in has its giver from here on, before the look.
    fn hand_over(&mut self, owner: usize) {
        let ticket = self.lock.tail;
        let handed = self.lock.hand_over(owner);
        if let Some(taker) = handed.let_in {
            if let Look::Receives(task) = self.lock.look(ticket, taker) {
                self.tasks[task as usize].giver = Some(handed.by);
            }
        }
    }

    fn leave(&mut self, owner: usize) {
        self.hand_over(owner);
        self.owner = None;
    }

    // Who would own, and who would receive.

    /// The worker for whom the lock is spoken for: its turn has come, registered or not, and
    /// its cell is not filled for its ticket, so it owns when it looks.
    pub fn due(&self) -> Option<usize> {
        let mut owning = self.would_find().filter(|(_, look)| *look == Look::Owns);
        owning.next().map(|(worker, _)| worker)
    }

    /// Whether a worker that was served and let in has yet to look.
    pub fn served_to_look(&self) -> bool {
        let mut found = self.would_find();
        found.any(|(_, look)| matches!(look, Look::Receives(_)))
    }

    /// What each worker with a ticket out would find by a look now.
    fn would_find(&self) -> impl Iterator<Item = (usize, Look)> + '_ {
        let workers = self.workers.iter().enumerate();
        workers.filter_map(|(worker, state)| match state.place {
            Place::Register(ticket) | Place::Look(ticket) => {
                Some((worker, self.lock.look(ticket, worker)))
            }
            _ => None,
        })
    }

    // Tasks in hand.

    fn receive(&mut self, worker: usize, task: usize) {
        self.workers[worker].task = Some(task);
        let record = &mut self.tasks[task];
        record.state = State::Run;
        record.worker = Some(worker);
        record.receipt = Some(self.picks);
    }

    fn start(&self, task: usize) -> Place {
        Place::Work(self.tasks[task].cost)
    }

    fn end_task(&mut self, worker: usize) -> Place {
        if let Some(task) = self.workers[worker].task.take() {
            let record = &mut self.tasks[task];
            record.state = State::Over;
            record.ending = Some(self.picks);
            self.over += 1;
            for access in record.first..record.first + record.accesses {
                self.post(
                    worker,
                    Message {
                        access,
                        flags: DONE,
                        sender: None,
                    },
                );
            }
        }
        Place::Free
    }

    // Messages.

    fn post(&mut self, worker: usize, message: Message) {
        self.workers[worker].mailbox.push_back(message);
        self.pending += 1;
    }

    fn deliver(&mut self, worker: usize, message: Message) {
        self.pending -= 1;
        let access = &mut self.accesses[message.access];
        let (passed, satisfied) = (access.passing(), access.satisfied());
        access.flags |= message.flags;
        let pass = access.passing() & !passed;
        let newly_satisfied = access.satisfied() && !satisfied;
        let (task, successor) = (access.task, access.successor);
        if let (true, Some(successor)) = (pass != 0, successor) {
            self.counters.passes += 1;
            let sender = Some(message.access);
            self.post(
                worker,
                Message {
                    access: successor,
                    flags: pass,
                    sender,
                },
            );
        }
        if newly_satisfied {
            self.lower_count(worker, task);
        }
        if let Some(sender) = message.sender {
            self.workers[worker].notice = Some(Notice {
                sender,
                flags: message.flags,
            });
            self.pending += 1;
        }
    }

    fn notify(&mut self, notice: Notice) {
        self.pending -= 1;
        self.counters.notices += 1;
        let sent = &mut self.accesses[notice.sender].flags;
        if notice.flags & READ != 0 {
            *sent |= SENT_READ;
        }
        if notice.flags & WRITE != 0 {
            *sent |= SENT_WRITE;
        }
    }

    /// Whoever brings the count to 0 has the task to add.
    fn lower_count(&mut self, worker: usize, task: usize) {
        let record = &mut self.tasks[task];
        record.count -= 1;
        if record.count == 0 {
            record.state = State::Ready;
            self.workers[worker].to_add.push_back(task);
        }
    }

    // Adding and creating.

    fn push(&mut self, worker: usize) -> Place {
        let me = &mut self.workers[worker];
        if me.queue.len() >= self.capacity {
            self.counters.full_queue += 1;
            return Place::TryLock;
        }
        me.queue.extend(me.to_add.pop_front());
        Place::Free
    }

    /// A won try takes a ticket that needs no registering: its turn has come.
    fn try_lock(&mut self, worker: usize) -> Place {
        if !self.lock.free() {
            self.counters.tries_failed += 1;
            return Place::Free;
        }
        self.lock.take();
        self.owner = Some(worker);
        self.counters.tries_won += 1;
        Place::AddDrain(0)
    }

    fn create(&mut self) {
        self.creating = match self.creating {
            Creating::Open(task) => {
                let record = &mut self.tasks[task];
                record.state = State::Waiting;
                record.count = 1 + record.accesses;
                self.after_links(task, 0)
            }
            Creating::Link(task, index) => {
                self.link(self.tasks[task].first + index);
                self.after_links(task, index + 1)
            }
            Creating::Close(task) => {
                self.lower_count(0, task);
                Creating::Open(task + 1)
            }
        };
    }

    fn after_links(&self, task: usize, linked: usize) -> Creating {
        if linked < self.tasks[task].accesses {
            Creating::Link(task, linked)
        } else {
            Creating::Close(task)
        }
    }

    /// The first access to an address gets both flags; a later one is made known
    /// to the last.
    fn link(&mut self, access: usize) {
        let address = self.accesses[access].address;
        let last = self.accesses[..access]
            .iter()
            .rposition(|other| other.address == address);
        let message = match last {
            None => Message {
                access,
                flags: READ | WRITE,
                sender: None,
            },
            Some(last) => {
                self.accesses[last].successor = Some(access);
                Message {
                    access: last,
                    flags: NEXT,
                    sender: None,
                }
            }
        };
        self.post(0, message);
    }
}
