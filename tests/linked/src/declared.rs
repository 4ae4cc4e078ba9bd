//! What the static libraries export, as their sources declare it. A slice goes
//! as a pointer and a length. Nothing but the tests holds these to the sources.

/// `crates/lock_c/src/lib.rt`.
pub mod lock_c {
    #[repr(C)]
    pub struct Ends {
        pub ok: u64,
        pub head: u64,
        pub tail: u64,
    }

    #[repr(C)]
    pub struct Taken {
        pub ok: u64,
        pub ticket: u64,
        pub head: u64,
        pub tail: u64,
    }

    #[repr(C)]
    pub struct Answer {
        pub kind: u64,
        pub value: u64,
    }

    #[repr(C)]
    pub struct Handed {
        pub ok: u64,
        pub head: u64,
        pub tail: u64,
        pub kind: u64,
        pub let_in: u64,
        pub by: u64,
    }

    extern "C" {
        pub fn salfunye_lock_start(
            slots: u64,
            wait: *mut u64,
            wait_length: usize,
            registrations: *mut u64,
            registrations_length: usize,
            cell_tickets: *mut u64,
            cell_tickets_length: usize,
            cell_tasks: *mut u64,
            cell_tasks_length: usize,
        ) -> Ends;

        pub fn salfunye_lock_take_ticket(head: u64, tail: u64) -> Taken;

        pub fn salfunye_lock_register(
            slots: u64,
            registrations: *mut u64,
            registrations_length: usize,
            ticket: u64,
            worker: u64,
        ) -> bool;

        pub fn salfunye_lock_look(
            slots: u64,
            wait: *const u64,
            wait_length: usize,
            cell_tickets: *const u64,
            cell_tickets_length: usize,
            cell_tasks: *const u64,
            cell_tasks_length: usize,
            ticket: u64,
            worker: u64,
        ) -> Answer;

        pub fn salfunye_lock_hand_over(
            slots: u64,
            head: u64,
            tail: u64,
            wait: *mut u64,
            wait_length: usize,
            registrations: *const u64,
            registrations_length: usize,
            owner: u64,
        ) -> Handed;

        pub fn salfunye_lock_front_waiter(
            slots: u64,
            head: u64,
            tail: u64,
            registrations: *const u64,
            registrations_length: usize,
        ) -> Answer;

        pub fn salfunye_lock_is_free(head: u64, tail: u64) -> bool;

        pub fn salfunye_lock_fill(
            head: u64,
            tail: u64,
            cell_tickets: *mut u64,
            cell_tickets_length: usize,
            cell_tasks: *mut u64,
            cell_tasks_length: usize,
            worker: u64,
            task: u64,
        ) -> bool;
    }
}

/// `crates/bench_c/src/lib.rt`.
pub mod bench_c {
    #[repr(C)]
    pub struct CheckedC {
        pub number: u64,
        pub line: u64,
        pub looks: u64,
    }

    #[repr(C)]
    pub struct RanC {
        pub number: u64,
        pub line: u64,
        pub picks: u64,
        pub length: u64,
    }

    extern "C" {
        pub fn salfunye_check(text: *const u8, text_length: usize) -> CheckedC;

        pub fn salfunye_run(
            text: *const u8,
            text_length: usize,
            limit: u64,
            store: *mut u64,
            store_length: usize,
            output: *mut u8,
            output_length: usize,
        ) -> RanC;
    }
}

/// `crates/convert_c/src/lib.rt`, and the answer of `crates/tools/src/lib.rt`.
pub mod convert_c {
    #[repr(C)]
    pub struct AnswerC {
        pub number: u64,
        pub line: u64,
        pub length: u64,
    }

    extern "C" {
        pub fn salfunye_to_second(
            text: *const u8,
            text_length: usize,
            output: *mut u8,
            output_length: usize,
        ) -> AnswerC;

        pub fn salfunye_to_first(
            text: *const u8,
            text_length: usize,
            output: *mut u8,
            output_length: usize,
        ) -> AnswerC;
    }
}

/// `crates/chain_c/src/lib.rt`; its answer is that of the converters.
pub mod chain_c {
    use super::convert_c::AnswerC;

    extern "C" {
        pub fn salfunye_chain(
            text: *const u8,
            text_length: usize,
            output: *mut u8,
            output_length: usize,
        ) -> AnswerC;
    }
}
