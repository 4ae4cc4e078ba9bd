//! The lock over lent arrays. Each function takes any arguments; `None` is a
//! refusal, which changes nothing.

use crate::declared::lock_c::*;

/// The ticket that is taken next, and the one that the next hand-over lets in.
#[derive(Clone, Copy, Debug, PartialEq, Eq)]
pub struct Ends {
    pub head: u64,
    pub tail: u64,
}

#[derive(Clone, Debug, PartialEq, Eq)]
pub struct Arrays {
    pub wait: Vec<u64>,
    pub registrations: Vec<u64>,
    pub cell_tickets: Vec<u64>,
    pub cell_tasks: Vec<u64>,
}

#[derive(Clone, Copy, Debug, PartialEq, Eq)]
pub enum Look {
    NotYet,
    Receives(u64),
    Owns,
}

#[derive(Clone, Copy, Debug, PartialEq, Eq)]
pub enum Front {
    Nobody,
    Waiter(u64),
}

/// Whom a hand-over let in, and whose session it was.
#[derive(Clone, Copy, Debug, PartialEq, Eq)]
pub struct Handed {
    pub let_in: Front,
    pub by: u64,
}

fn accepted(ok: u64) -> Option<()> {
    match ok {
        0 => None,
        1 => Some(()),
        _ => panic!("{ok} is neither a refusal nor an acceptance"),
    }
}

pub fn start(slots: u64, arrays: &mut Arrays) -> Option<Ends> {
    let wait = &mut arrays.wait;
    let registrations = &mut arrays.registrations;
    let tickets = &mut arrays.cell_tickets;
    let tasks = &mut arrays.cell_tasks;
    let answer = unsafe {
        salfunye_lock_start(
            slots,
            wait.as_mut_ptr(),
            wait.len(),
            registrations.as_mut_ptr(),
            registrations.len(),
            tickets.as_mut_ptr(),
            tickets.len(),
            tasks.as_mut_ptr(),
            tasks.len(),
        )
    };
    accepted(answer.ok).map(|()| Ends {
        head: answer.head,
        tail: answer.tail,
    })
}

pub fn take_ticket(ends: &mut Ends) -> Option<u64> {
    let answer = unsafe { salfunye_lock_take_ticket(ends.head, ends.tail) };
    ends.head = answer.head;
    ends.tail = answer.tail;
    accepted(answer.ok).map(|()| answer.ticket)
}

pub fn register(slots: u64, arrays: &mut Arrays, ticket: u64, worker: u64) -> Option<()> {
    let to = &mut arrays.registrations;
    let ok = unsafe { salfunye_lock_register(slots, to.as_mut_ptr(), to.len(), ticket, worker) };
    accepted(ok.into())
}

pub fn look(slots: u64, arrays: &Arrays, ticket: u64, worker: u64) -> Option<Look> {
    let wait = &arrays.wait;
    let tickets = &arrays.cell_tickets;
    let tasks = &arrays.cell_tasks;
    let answer = unsafe {
        salfunye_lock_look(
            slots,
            wait.as_ptr(),
            wait.len(),
            tickets.as_ptr(),
            tickets.len(),
            tasks.as_ptr(),
            tasks.len(),
            ticket,
            worker,
        )
    };
    match (answer.kind, answer.value) {
        (0, 0) => None,
        (1, 0) => Some(Look::NotYet),
        (2, task) => Some(Look::Receives(task)),
        (3, 0) => Some(Look::Owns),
        other => panic!("{other:?} is no look"),
    }
}

pub fn hand_over(slots: u64, ends: &mut Ends, arrays: &mut Arrays, owner: u64) -> Option<Handed> {
    let to = &mut arrays.wait;
    let from = &arrays.registrations;
    let answer = unsafe {
        salfunye_lock_hand_over(
            slots,
            ends.head,
            ends.tail,
            to.as_mut_ptr(),
            to.len(),
            from.as_ptr(),
            from.len(),
            owner,
        )
    };
    ends.head = answer.head;
    ends.tail = answer.tail;
    let let_in = match (answer.ok, answer.kind, answer.let_in) {
        (0, 0, 0) if answer.by == 0 => return None,
        (1, 1, 0) => Front::Nobody,
        (1, 2, worker) => Front::Waiter(worker),
        other => panic!("{other:?} is no hand-over"),
    };
    let by = answer.by;
    Some(Handed { let_in, by })
}

pub fn front_waiter(slots: u64, ends: Ends, arrays: &Arrays) -> Option<Front> {
    let from = &arrays.registrations;
    let (head, tail) = (ends.head, ends.tail);
    let answer =
        unsafe { salfunye_lock_front_waiter(slots, head, tail, from.as_ptr(), from.len()) };
    match (answer.kind, answer.value) {
        (0, 0) => None,
        (1, 0) => Some(Front::Nobody),
        (2, worker) => Some(Front::Waiter(worker)),
        other => panic!("{other:?} is no front waiter"),
    }
}

pub fn is_free(ends: Ends) -> bool {
    unsafe { salfunye_lock_is_free(ends.head, ends.tail) }
}

pub fn fill(ends: Ends, arrays: &mut Arrays, worker: u64, task: u64) -> Option<()> {
    let tickets = &mut arrays.cell_tickets;
    let tasks = &mut arrays.cell_tasks;
    let ok = unsafe {
        salfunye_lock_fill(
            ends.head,
            ends.tail,
            tickets.as_mut_ptr(),
            tickets.len(),
            tasks.as_mut_ptr(),
            tasks.len(),
            worker,
            task,
        )
    };
    accepted(ok.into())
}
