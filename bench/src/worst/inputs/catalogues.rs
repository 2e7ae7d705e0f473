//! Banks to validate and to trust: the order of their ids, and what is found at their end.
use super::*;

fn catalogue(n: usize, ids: Ids, on: impl Fn(usize) -> bool) -> Case {
    let mut setting = alike(n, ids);
    setting.models.iter_mut().enumerate().for_each(|(at, m)| m.enabled = u8::from(on(at)));
    about_last(setting)
}

pub fn lowest_last_all_off(n: usize) -> Case {
    catalogue(n, Ids::LowestLast, |_| false)
}

pub fn lowest_last_only_on(n: usize) -> Case {
    catalogue(n, Ids::LowestLast, |at| at + 1 == n)
}

pub fn reversed(n: usize) -> Case {
    catalogue(n, Ids::Descending, |_| true)
}

pub fn reversed_all_off(n: usize) -> Case {
    catalogue(n, Ids::Descending, |_| false)
}

pub fn shuffled(n: usize) -> Case {
    catalogue(n, Ids::Shuffled, |_| false)
}

pub fn in_order_all_off(n: usize) -> Case {
    catalogue(n, Ids::Ascending, |_| false)
}

/// The last id is that of the record before it: in ascending order before them, or in descending order after them.
fn repeated(n: usize, ids: Ids, from: usize, to: usize) -> Case {
    let mut setting = alike(n, ids);
    setting.models[to].model_id = setting.models[from].model_id;
    about_last(setting)
}

pub fn in_order_last_repeats(n: usize) -> Case {
    repeated(n, Ids::Ascending, n - 2, n - 1)
}

pub fn last_repeats_first(n: usize) -> Case {
    repeated(n, Ids::Ascending, 0, n - 1)
}

pub fn reversed_highest_twice(n: usize) -> Case {
    repeated(n, Ids::Descending, 0, 1)
}

pub fn reversed_lowest_twice(n: usize) -> Case {
    repeated(n, Ids::Descending, n - 1, n - 2)
}
