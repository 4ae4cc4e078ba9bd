//! The delegation ticket lock over a ring of `n` slots.
//!
//! Sound for any ring with at least as many slots as workers.

/// What a waiting worker finds when it looks.
#[derive(Clone, Copy, Debug, PartialEq, Eq)]
pub enum Look {
    NotYet,
    Receives(u64),
    Owns,
}

/// What a hand-over tells.
#[derive(Clone, Copy, Debug, PartialEq, Eq)]
pub struct Handed {
    /// The worker registered with the ticket that was let in, if there is one.
    pub let_in: Option<usize>,
    /// Whose session it was.
    pub by: usize,
}

#[derive(Clone, Debug)]
pub struct Lock {
    pub n: u64,
    /// The next ticket to give.
    pub head: u64,
    /// The next ticket to let in.
    pub tail: u64,
    pub wait: Vec<u64>,
    pub registration: Vec<u64>,
    /// The result cell of each worker: ticket, task.
    pub cells: Vec<(u64, u64)>,
}

impl Lock {
    pub fn new(n: usize, workers: usize) -> Lock {
        let start = n as u64;
        Lock {
            n: start,
            head: start,
            tail: start + 1,
            wait: vec![start; n],
            registration: vec![0; n],
            cells: vec![(0, 0); workers],
        }
    }

    fn slot(&self, ticket: u64) -> usize {
        (ticket % self.n) as usize
    }

    pub fn take(&mut self) -> u64 {
        let ticket = self.head;
        self.head += 1;
        ticket
    }

    pub fn register(&mut self, ticket: u64, worker: usize) {
        let slot = self.slot(ticket);
        self.registration[slot] = ticket + worker as u64;
    }

    pub fn turn(&self, ticket: u64) -> bool {
        self.wait[self.slot(ticket)] >= ticket
    }

    pub fn look(&self, ticket: u64, worker: usize) -> Look {
        let (filled_for, task) = self.cells[worker];
        if !self.turn(ticket) {
            Look::NotYet
        } else if filled_for == ticket {
            Look::Receives(task)
        } else {
            Look::Owns
        }
    }

    /// Lets the ticket at the tail in, in the session of `owner`.
    pub fn hand_over(&mut self, owner: usize) -> Handed {
        let let_in = self.front();
        let slot = self.slot(self.tail);
        self.wait[slot] = self.tail;
        self.tail += 1;
        Handed { let_in, by: owner }
    }

    /// The worker that registered the ticket at the tail. A registration of an
    /// earlier lap is below the tail and so is no waiter.
    pub fn front(&self) -> Option<usize> {
        let registration = self.registration[self.slot(self.tail)];
        registration
            .checked_sub(self.tail)
            .map(|worker| worker as usize)
    }

    pub fn free(&self) -> bool {
        self.tail == self.head + 1
    }

    /// Puts a task into a worker's cell for the ticket at the tail.
    pub fn fill(&mut self, worker: usize, task: u64) {
        self.cells[worker] = (self.tail, task);
    }
}
