//! Order lines as the row of workers they pick.

use crate::plan::{Order, Plan};

impl Order {
    /// How many picks the line gives.
    pub fn picks(&self, workers: u64) -> u64 {
        match *self {
            Order::Repeat { times, .. } | Order::Seeded { times, .. } => times,
            Order::Rounds { rounds } => rounds * workers,
        }
    }
}

/// The worker numbers of all order lines, one by one.
pub struct Picks<'p> {
    workers: u64,
    orders: std::slice::Iter<'p, Order>,
    current: Option<Order>,
    /// Picks that the current line has still to give.
    left: u64,
    /// The next worker of a round, or the state of a seeded line.
    state: u64,
}

impl<'p> Picks<'p> {
    pub fn new(plan: &'p Plan) -> Picks<'p> {
        Picks {
            workers: plan.workers,
            orders: plan.orders.iter(),
            current: None,
            left: 0,
            state: 0,
        }
    }

    /// Goes to the next line; each starts afresh. Every line gives a pick.
    fn next_line(&mut self) -> Option<()> {
        let order = *self.orders.next()?;
        self.left = order.picks(self.workers);
        self.state = match order {
            Order::Seeded { seed, .. } => seed,
            _ => 0,
        };
        self.current = Some(order);
        Some(())
    }
}

impl Iterator for Picks<'_> {
    type Item = usize;

    fn next(&mut self) -> Option<usize> {
        if self.left == 0 {
            self.next_line()?;
        }
        self.left -= 1;
        let worker = match self.current? {
            Order::Repeat { worker, .. } => worker,
            Order::Rounds { .. } => {
                let worker = self.state;
                self.state = (worker + 1) % self.workers;
                worker
            }
            Order::Seeded { .. } => {
                self.state = seeded(self.state);
                (self.state >> 32) % self.workers
            }
        };
        Some(worker as usize)
    }
}

/// The next state of the paper's generator.
pub fn seeded(state: u64) -> u64 {
    state
        .wrapping_mul(6_364_136_223_846_793_005)
        .wrapping_add(1_442_695_040_888_963_407)
}
