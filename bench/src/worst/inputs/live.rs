//! Banks with free slots, decided over and edited.
use super::*;

/// The case with some of its slots free.
fn freed(case: Case, free: impl Fn(usize) -> bool) -> Case {
    let mut bank = case.bank;
    bank.chunks_exact_mut(RECORD_BYTES)
        .enumerate()
        .filter(|(at, _)| free(*at))
        .for_each(|(_, slot)| slot.copy_from_slice(&FREE));
    Case { bank, ..case }
}

pub fn first_free(n: usize) -> Case {
    freed(second_by_id(n), |at| at == 0)
}

pub fn every_second_free(n: usize) -> Case {
    freed(second_by_id(n), |at| at % 2 == 0 && at + 1 < n)
}

pub fn first_half_free(n: usize) -> Case {
    freed(second_by_id(n), |at| at < n / 2)
}

pub fn all_but_last_free(n: usize) -> Case {
    freed(second_by_id(n), |at| at + 1 < n)
}

pub fn last_free(n: usize) -> Case {
    freed(second_by_id(n), |at| at + 1 == n)
}

pub fn three_levers_first_free(n: usize) -> Case {
    freed(three_levers(n), |at| at == 0)
}

pub fn four_levers_first_free(n: usize) -> Case {
    freed(four_levers(n), |at| at == 0)
}

/// A record of this id is offered.
fn offered(case: Case, id: u32) -> Case {
    Case { record: bank_bytes(&[model(id)]), id, ..case }
}

fn new(case: Case) -> Case {
    offered(case, u32::MAX)
}

pub fn add_all_free(n: usize) -> Case {
    new(freed(second_by_id(n), |_| true))
}

pub fn add_last_free(n: usize) -> Case {
    new(last_free(n))
}

pub fn add_every_second_free(n: usize) -> Case {
    new(every_second_free(n))
}

pub fn add_no_room(n: usize) -> Case {
    new(second_by_id(n))
}

/// The id of the last slot, which every order above gives to the record there.
fn last_id(case: Case) -> Case {
    let id = case.id;
    offered(case, id)
}

pub fn edit_last_others_free(n: usize) -> Case {
    last_id(all_but_last_free(n))
}

pub fn edit_last_none_free(n: usize) -> Case {
    last_id(second_by_id(n))
}

pub fn edit_nowhere_all_free(n: usize) -> Case {
    new(freed(second_by_id(n), |_| true))
}

/// The catalogue epoch is at its largest, so that no edit is made.
pub fn epoch_spent_all_free(n: usize) -> Case {
    let mut case = edit_nowhere_all_free(n);
    case.policy[EPOCH_AT..][..8].fill(u8::MAX);
    case
}

pub fn all_free(n: usize) -> Case {
    freed(second_by_id(n), |_| true)
}

pub fn id_nowhere_all_free(n: usize) -> Case {
    Case { id: u32::MAX, ..all_free(n) }
}

/// The last slot has id 0 and another byte set, at its end.
pub fn last_not_clear(n: usize) -> Case {
    let mut case = all_free(n);
    *case.bank.last_mut().expect("there is a slot") = 1;
    case
}
