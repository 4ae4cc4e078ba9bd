//! The reader of plan texts.
//!
//! One pass with a cursor gives the form of a line; the line is then judged in
//! the paper's order: form 1, place 3, range 2, amount 4, repeat 5; a W line
//! after its ranges for its slots, 9; an M line after its range for a mask of 0, 11.

/// The longest text that is read, in bytes.
pub const TEXT_LIMIT: usize = 65_536;
/// The most tasks of a plan and the most accesses of a task.
pub const TASK_LIMIT: usize = 128;
pub const ACCESS_LIMIT: usize = 4;
/// Ring slots and queue capacity of a plan whose W line names the workers alone.
pub const SLOTS: u64 = 64;
pub const CAPACITY: u64 = 8;

/// Refusal numbers, as the paper gives them.
pub mod refusal {
    pub const FORM: u8 = 1;
    pub const RANGE: u8 = 2;
    pub const PLACE: u8 = 3;
    pub const AMOUNT: u8 = 4;
    pub const REPEAT: u8 = 5;
    pub const TEXT_SIZE: u8 = 6;
    pub const STORE_SIZE: u8 = 7;
    pub const OUTPUT_SIZE: u8 = 8;
    pub const FEW_SLOTS: u8 = 9;
    pub const OTHER_SIZES: u8 = 10;
    pub const EMPTY_MASK: u8 = 11;
}

/// Lines count from 1; line 0 stands for the caller.
#[derive(Clone, Copy, Debug, PartialEq, Eq)]
pub struct Refusal {
    pub number: u8,
    pub line: u64,
}

/// A refusal that the caller causes.
pub fn callers(number: u8) -> Refusal {
    Refusal { number, line: 0 }
}

#[derive(Clone, Debug, PartialEq, Eq)]
pub struct Plan {
    pub workers: u64,
    pub form: Form,
    pub tasks: Vec<Task>,
    pub orders: Vec<Order>,
}

impl Plan {
    /// The mask of all workers; bit i is worker i.
    pub fn everybody(&self) -> u64 {
        (1 << self.workers) - 1
    }

    pub fn has_masks(&self) -> bool {
        self.tasks.iter().any(|task| task.mask.is_some())
    }

    /// The workers that may run a task, as a mask; all of them where no M line names them.
    pub fn permitted(&self, task: &Task) -> u64 {
        task.mask.unwrap_or(self.everybody())
    }

    /// The total of permitted workers over all tasks.
    pub fn permissions(&self) -> u32 {
        let tasks = self.tasks.iter();
        tasks.map(|task| self.permitted(task).count_ones()).sum()
    }
}

/// The form of a plan, by what its W line names beside the workers.
#[derive(Clone, Copy, Debug, PartialEq, Eq)]
pub enum Form {
    First,
    Second { slots: u64, capacity: u64 },
}

impl Form {
    pub fn slots(self) -> u64 {
        match self {
            Form::First => SLOTS,
            Form::Second { slots, .. } => slots,
        }
    }

    pub fn capacity(self) -> u64 {
        match self {
            Form::First => CAPACITY,
            Form::Second { capacity, .. } => capacity,
        }
    }
}

#[derive(Clone, Debug, PartialEq, Eq)]
pub struct Task {
    pub label: Label,
    pub cost: u64,
    pub accesses: Vec<Access>,
    /// What its M line says, if it has one.
    pub mask: Option<u64>,
}

/// Where the label stands in the plan text.
#[derive(Clone, Copy, Debug, PartialEq, Eq)]
pub struct Label {
    pub start: usize,
    pub len: usize,
}

impl Label {
    pub fn of<'t>(&self, text: &'t [u8]) -> &'t [u8] {
        &text[self.start..self.start + self.len]
    }
}

#[derive(Clone, Copy, Debug, PartialEq, Eq)]
pub struct Access {
    pub writes: bool,
    pub address: u64,
}

/// An order line: `P`, `R` or `S`.
#[derive(Clone, Copy, Debug, PartialEq, Eq)]
pub enum Order {
    Repeat { worker: u64, times: u64 },
    Rounds { rounds: u64 },
    Seeded { seed: u64, times: u64 },
}

/// Checks a text: 6 with line 0, or the first fault of the author.
pub fn check(text: &[u8]) -> Result<Plan, Refusal> {
    if text.len() > TEXT_LIMIT {
        return Err(callers(refusal::TEXT_SIZE));
    }
    if text.is_empty() {
        return Err(Refusal {
            number: refusal::PLACE,
            line: 1,
        });
    }
    let mut plan = Plan {
        workers: 0,
        form: Form::First,
        tasks: Vec::new(),
        orders: Vec::new(),
    };
    let mut cursor = Cursor { text, at: 0 };
    let mut line = 0;
    while cursor.at < text.len() {
        line += 1;
        let form = cursor.line().map_err(|Malformed| refusal::FORM);
        form.and_then(|form| plan.accept(form, line == 1))
            .map_err(|number| Refusal { number, line })?;
    }
    Ok(plan)
}

/// A well formed number; `None` where it is above 2^64 - 1.
#[derive(Clone, Copy)]
struct Number(Option<u64>);

impl Number {
    fn within(self, low: u64, high: u64) -> Result<u64, u8> {
        match self.0 {
            Some(value) if low <= value && value <= high => Ok(value),
            _ => Err(refusal::RANGE),
        }
    }
}

/// A well formed line, not yet judged further.
enum Line {
    Workers(WorkersLine),
    Task(TaskLine),
    Mask(Number),
    Repeat(Number, Number),
    Rounds(Number),
    Seeded(Number, Number),
}

struct WorkersLine {
    workers: Number,
    /// Slots and capacity, in the second form.
    sizes: Option<(Number, Number)>,
}

struct TaskLine {
    label: Label,
    cost: Number,
    accesses: Vec<(bool, Number)>,
}

impl Plan {
    fn accept(&mut self, line: Line, first: bool) -> Result<(), u8> {
        let is_workers = matches!(line, Line::Workers(_));
        if first != is_workers {
            return Err(refusal::PLACE);
        }
        match line {
            Line::Workers(line) => self.accept_workers(line)?,
            Line::Task(line) => self.accept_task(line)?,
            Line::Mask(mask) => self.accept_mask(mask)?,
            Line::Repeat(worker, times) => {
                let worker = worker.within(0, self.workers - 1)?;
                let times = times.within(1, 4_096)?;
                self.orders.push(Order::Repeat { worker, times });
            }
            Line::Rounds(rounds) => {
                let rounds = rounds.within(1, 1_000_000)?;
                self.orders.push(Order::Rounds { rounds });
            }
            Line::Seeded(seed, times) => {
                let seed = seed.within(0, u64::MAX)?;
                let times = times.within(1, 1_000_000)?;
                self.orders.push(Order::Seeded { seed, times });
            }
        }
        Ok(())
    }

    fn accept_workers(&mut self, line: WorkersLine) -> Result<(), u8> {
        self.workers = line.workers.within(1, 32)?;
        if let Some((slots, capacity)) = line.sizes {
            let slots = slots.within(1, 64)?;
            let capacity = capacity.within(1, 16)?;
            if slots < self.workers {
                return Err(refusal::FEW_SLOTS);
            }
            self.form = Form::Second { slots, capacity };
        }
        Ok(())
    }

    fn accept_task(&mut self, line: TaskLine) -> Result<(), u8> {
        if !self.orders.is_empty() {
            return Err(refusal::PLACE);
        }
        let cost = line.cost.within(0, 1_000)?;
        let mut accesses = Vec::with_capacity(line.accesses.len());
        for (writes, address) in line.accesses {
            accesses.push(Access {
                writes,
                address: address.within(0, 65_535)?,
            });
        }
        if self.tasks.len() == TASK_LIMIT || accesses.len() > ACCESS_LIMIT {
            return Err(refusal::AMOUNT);
        }
        if address_twice(&accesses) {
            return Err(refusal::REPEAT);
        }
        self.tasks.push(Task {
            label: line.label,
            cost,
            accesses,
            mask: None,
        });
        Ok(())
    }

    /// The line before is a T line where the last task has no mask yet and no order
    /// line has come.
    fn accept_mask(&mut self, mask: Number) -> Result<(), u8> {
        let everybody = self.everybody();
        let task = match self.tasks.last_mut() {
            Some(task) if task.mask.is_none() && self.orders.is_empty() => task,
            _ => return Err(refusal::PLACE),
        };
        let mask = mask.within(0, everybody)?;
        if mask == 0 {
            return Err(refusal::EMPTY_MASK);
        }
        task.mask = Some(mask);
        Ok(())
    }
}

fn address_twice(accesses: &[Access]) -> bool {
    (1..accesses.len()).any(|later| {
        accesses[..later]
            .iter()
            .any(|a| a.address == accesses[later].address)
    })
}

struct Malformed;

struct Cursor<'t> {
    text: &'t [u8],
    at: usize,
}

impl Cursor<'_> {
    fn peek(&self) -> Option<u8> {
        self.text.get(self.at).copied()
    }

    fn take(&mut self) -> Result<u8, Malformed> {
        let byte = self.peek().ok_or(Malformed)?;
        self.at += 1;
        Ok(byte)
    }

    fn expect(&mut self, byte: u8) -> Result<(), Malformed> {
        if self.take()? == byte {
            Ok(())
        } else {
            Err(Malformed)
        }
    }

    fn line(&mut self) -> Result<Line, Malformed> {
        let kind = self.take()?;
        self.expect(b'\t')?;
        let line = match kind {
            b'W' => Line::Workers(self.workers()?),
            b'T' => Line::Task(self.task()?),
            b'M' => Line::Mask(self.number()?),
            b'P' => {
                let worker = self.number()?;
                self.expect(b'\t')?;
                Line::Repeat(worker, self.number()?)
            }
            b'R' => Line::Rounds(self.number()?),
            b'S' => {
                let seed = self.number()?;
                self.expect(b'\t')?;
                Line::Seeded(seed, self.number()?)
            }
            _ => return Err(Malformed),
        };
        self.expect(b'\n')?;
        Ok(line)
    }

    /// One number or three.
    fn workers(&mut self) -> Result<WorkersLine, Malformed> {
        let workers = self.number()?;
        let mut sizes = None;
        if self.peek() == Some(b'\t') {
            self.at += 1;
            let slots = self.number()?;
            self.expect(b'\t')?;
            sizes = Some((slots, self.number()?));
        }
        Ok(WorkersLine { workers, sizes })
    }

    fn task(&mut self) -> Result<TaskLine, Malformed> {
        let label = self.label()?;
        self.expect(b'\t')?;
        let cost = self.number()?;
        let mut accesses = Vec::new();
        while self.peek() == Some(b'\t') {
            self.at += 1;
            accesses.push(self.access()?);
        }
        Ok(TaskLine {
            label,
            cost,
            accesses,
        })
    }

    fn label(&mut self) -> Result<Label, Malformed> {
        let start = self.at;
        while self
            .peek()
            .is_some_and(|byte| byte.is_ascii_alphanumeric() || byte == b'-')
        {
            self.at += 1;
        }
        let len = self.at - start;
        if (1..=16).contains(&len) {
            Ok(Label { start, len })
        } else {
            Err(Malformed)
        }
    }

    fn access(&mut self) -> Result<(bool, Number), Malformed> {
        match self.take()? {
            b'r' => Ok((false, self.number()?)),
            b'w' => Ok((true, self.number()?)),
            _ => Err(Malformed),
        }
    }

    /// Any number of digits is well formed; the value may be out of all ranges.
    fn number(&mut self) -> Result<Number, Malformed> {
        let start = self.at;
        while self.peek().is_some_and(|byte| byte.is_ascii_digit()) {
            self.at += 1;
        }
        match &self.text[start..self.at] {
            [] | [b'0', _, ..] => Err(Malformed),
            digits => Ok(Number(value(digits))),
        }
    }
}

/// The value of digits, where 64 bits can hold it.
fn value(digits: &[u8]) -> Option<u64> {
    let mut values = digits.iter().map(|digit| u64::from(digit - b'0'));
    if digits.len() < 20 {
        return Some(values.fold(0, |value, digit| value * 10 + digit));
    }
    values.try_fold(0u64, |value, digit| {
        value.checked_mul(10)?.checked_add(digit)
    })
}
