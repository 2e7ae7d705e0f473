//! The deepest stack of each call. It runs on a stack of its own that was painted before; the lowest byte that lost its paint shows how
//! deep it went.
use crate::lent::{address, call_at, Lent, ARGUMENTS, VERSION};
use crate::mixes::Mix;
use compare::calls::{Call, Handed};
use compare::generate::live::FREE;
use compare::generate::random::Random;
use compare::generate::Setting;
use compare::second::bytes::model_of;
use compare::second::rules::Rounding;
use std::arch::asm;
use std::collections::BTreeSet;
use std::hint::black_box;

/// The requests that are handed to a batch.
const REQUESTS: usize = 3;
const STACK_BYTES: usize = 1 << 18;
const PAINT: u8 = 0xa5;
/// The arguments that don't go over in registers.
const ON_STACK: usize = ARGUMENTS - 6;

/// Calls a function with the stack pointer at `top`, which is a multiple of 16.
unsafe fn call_on(top: *mut u8, function: usize, a: &[usize; ARGUMENTS]) -> u64 {
    let answer: u64;
    asm!(
        "mov r12, rsp",
        "mov rsp, r13",
        "push [r14 + 72]",
        "push [r14 + 64]",
        "push [r14 + 56]",
        "push [r14 + 48]",
        "call r15",
        "mov rsp, r12",
        out("r12") _,
        in("r13") top,
        in("r14") a.as_ptr(),
        in("r15") function,
        inlateout("rdi") a[0] => _,
        inlateout("rsi") a[1] => _,
        inlateout("rdx") a[2] => _,
        inlateout("rcx") a[3] => _,
        inlateout("r8") a[4] => _,
        inlateout("r9") a[5] => _,
        lateout("rax") answer,
        clobber_abi("C"),
    );
    answer
}

/// What one call handed back, and how many bytes below its arguments it touched.
fn depth(function: usize, arguments: &[usize; ARGUMENTS]) -> (u64, usize) {
    let mut stack = vec![PAINT; STACK_BYTES];
    let top = stack.as_mut_ptr().wrapping_add(STACK_BYTES).map_addr(|address| address & !15);
    let arguments_at = top as usize - 8 * ON_STACK - stack.as_ptr() as usize;
    let word = black_box(unsafe { call_on(top, function, arguments) });
    let touched = black_box(&stack).iter().position(|&byte| byte != PAINT).expect("a call leaves its return address");
    assert!(touched > STACK_BYTES / 2, "the stack is large enough");
    (word, arguments_at - touched)
}

/// Asks a call on a setting for the model with this id, which is also that of the record that an edit is offered.
fn asked(call: &Call, setting: &Setting, id: u32) -> (u64, usize) {
    let mut case = setting.case(id);
    case.record[..4].copy_from_slice(&id.to_le_bytes());
    if call.takes.contains(&Handed::Requests) {
        case.request = case.request.repeat(REQUESTS);
    }
    depth(address(call), &Lent::of(call, &case).arguments(call))
}

/// The deepest of a call on all settings, for each model and for none where it takes an id or a record. A refusal is shallow: one question at least is answered.
fn deepest(call: &Call, settings: &[Setting]) -> usize {
    let by_id = call.takes.contains(&Handed::Id) || call.takes.contains(&Handed::Record);
    let ids = |setting: &Setting| match by_id {
        true => setting.models.iter().map(|model| model.model_id).chain([u32::MAX]).collect(),
        false => vec![setting.models[0].model_id],
    };
    let all: Vec<(u64, usize)> =
        settings.iter().flat_map(|s| ids(s).into_iter().map(|id| asked(call, s, id))).collect();
    assert!(all.iter().any(|&(word, _)| word == 0), "{} answers no question", call.name);
    all.iter().map(|&(_, depth)| depth).max().expect("there are settings")
}

/// Every mix, so that the ways by two limbs are among them. Each as it is, in disorder, so that the ordering is among them, and then with the
/// highest latency for every model and no limit on it, which is the widest range of a search. Each of these once more with providers that
/// a bank may have, since one that doesn't validate prints nothing but its refusal. All of these with every third slot free, which calls on every
/// record take for a model that is off. All of them with a policy that rounds once. And all of these with an allowance.
fn settings() -> Vec<Setting> {
    let mut all: Vec<Setting> = Mix::ALL.iter().flat_map(|mix| mix.settings(22, 4)).collect();
    for mut setting in all.clone() {
        let models = setting.models.clone();
        setting.models = Random::new(3).order(models.len()).into_iter().map(|at| models[at]).collect();
        all.push(setting.clone());
        setting.models.iter_mut().for_each(|model| model.p95_latency_ms = u32::MAX);
        setting.request.max_p95_latency_ms = 0;
        all.push(setting);
    }
    for mut setting in all.clone() {
        setting.models.iter_mut().for_each(|model| model.provider_id %= 64);
        all.push(setting);
    }
    for mut setting in all.clone() {
        setting.models.iter_mut().step_by(3).for_each(|model| *model = model_of(&FREE));
        all.push(setting);
    }
    for mut setting in all.clone() {
        setting.policy.rounding = Rounding::Once;
        all.push(setting);
    }
    for mut setting in all.clone() {
        setting.policy.latency_allowance_ms = 200;
        all.push(setting);
    }
    all
}

/// The deepest of an exported call, by its place. A batch is asked over the unit's number of models too. The version is no refusal, and takes nothing.
fn deepest_at(place: usize, few: &[Setting]) -> usize {
    let call = call_at(place);
    if place == VERSION {
        return depth(address(call), &[0; ARGUMENTS]).1;
    }
    if call.takes.contains(&Handed::Requests) {
        let many: Vec<Setting> = Mix::ALL.iter().flat_map(|mix| mix.settings(900, 1)).collect();
        return deepest(call, few).max(deepest(call, &many));
    }
    deepest(call, few)
}

/// A line for each call that the header declares, the least first.
pub fn print() {
    let header = include_str!("../../include/volankizo.h");
    let declared = header.lines().filter_map(|line| line.strip_prefix("uint64_t volankizo_")?.split('(').next());
    let declared: BTreeSet<&str> = declared.collect();
    assert_eq!(
        declared,
        (0..=VERSION).map(|place| call_at(place).name).collect(),
        "the header has the comparison's calls and the version"
    );
    let settings = settings();
    let mut depths: Vec<(usize, &str)> =
        (0..=VERSION).map(|place| (deepest_at(place, &settings), call_at(place).name)).collect();
    depths.sort();
    println!("| Call | Deepest stack, bytes |");
    println!("|---|---|");
    depths.iter().for_each(|(bytes, name)| println!("| `volankizo_{name}` | {bytes} |"));
}
