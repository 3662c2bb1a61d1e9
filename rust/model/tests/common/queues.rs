//! The queues of a router, by short names.

use model::{Class, Queue};

/// `U[from]`.
pub const fn u(router: usize, from: usize) -> Queue {
    Queue::U { router, from }
}

/// `Q[from]`.
pub const fn q(router: usize, from: usize) -> Queue {
    Queue::Q { router, from }
}

/// The set-up `F[to]`.
pub const fn set_ups(router: usize, to: usize) -> Queue {
    Queue::F { router, class: Class::SetUps, to }
}

/// The answer `F[to]`.
pub const fn answers(router: usize, to: usize) -> Queue {
    Queue::F { router, class: Class::Answers, to }
}

/// `K[from,to]`.
pub const fn k(router: usize, from: usize, to: usize) -> Queue {
    Queue::K { router, from, to }
}
