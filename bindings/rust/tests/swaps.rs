//! Random rows of edits against a plain list of models, and the live calls over what they leave against the earlier calls over the live models alone.
mod common;
use common::{slots, Source, EACH, FIRST, REQUEST, SECOND};
use volankizo::{
    decision_margin, find, live, what_would_win, Bank, KernelDecision, KernelInput, KernelModel, PolicySnapshot,
    Refusal,
};

const ROUNDS: u64 = 300;
const EDITS: usize = 40;

#[derive(Clone, Copy, Debug)]
enum Edit {
    Add(KernelModel),
    Replace(KernelModel),
    Remove(u32),
    Compact,
}

/// A policy's epoch beside its models by their slots, the free ones as nothing.
#[derive(Clone)]
struct Listed {
    epoch: u64,
    slots: Vec<Option<KernelModel>>,
}

impl Listed {
    fn with(&self, id: u32) -> Result<usize, Refusal> {
        let slot = self.slots.iter().position(|slot| slot.is_some_and(|model| model.model_id == id));
        slot.ok_or(Refusal::UnknownModel)
    }

    /// What an edit owes, from 16 on, and this list as it leaves it.
    fn edit(&mut self, edit: Edit) -> Result<u16, Refusal> {
        if let Edit::Add(KernelModel { model_id: 0, .. })
        | Edit::Replace(KernelModel { model_id: 0, .. })
        | Edit::Remove(0) = edit
        {
            return Err(Refusal::ReservedModelId);
        }
        let epoch = self.epoch.checked_add(1).ok_or(Refusal::EpochSpent)?;
        let number = match edit {
            Edit::Add(KernelModel { model_id, .. }) if self.with(model_id).is_ok() => {
                return Err(Refusal::DuplicateModelId { model_id })
            }
            Edit::Add(model) => {
                let slot = self.slots.iter().position(Option::is_none).ok_or(Refusal::NoFreeSlot)?;
                self.slots[slot] = Some(model);
                slot
            }
            Edit::Replace(model) => {
                let slot = self.with(model.model_id)?;
                self.slots[slot] = Some(model);
                slot
            }
            Edit::Remove(id) => {
                let slot = self.with(id)?;
                self.slots[slot] = None;
                slot
            }
            Edit::Compact => {
                let all = self.slots.len();
                self.slots.retain(Option::is_some);
                let live = self.slots.len();
                self.slots.resize(all, None);
                live
            }
        };
        self.epoch = epoch;
        Ok(number as u16)
    }
}

/// A model with one of few ids, 0 among them, and numbers that let it win, lose or fall out.
fn any_model(source: &mut Source) -> KernelModel {
    let like = [FIRST, SECOND][source.below(2)];
    KernelModel {
        model_id: source.below(9) as u32,
        quality_bps: [4_999, 5_000, 8_000, 9_000][source.below(4)],
        enabled: (source.below(8) != 0).into(),
        capabilities: [1, 2, 3][source.below(3)],
        region_mask: source.number(),
        output_cost_microunits_per_million_tokens: [like.output_cost_microunits_per_million_tokens, u64::MAX]
            [source.below(8) / 7],
        ..like
    }
}

fn any_edit(source: &mut Source) -> Edit {
    match source.below(8) {
        0..=3 => Edit::Add(any_model(source)),
        4 => Edit::Replace(any_model(source)),
        5 | 6 => Edit::Remove(source.below(9) as u32),
        _ => Edit::Compact,
    }
}

fn edited(policy: &mut PolicySnapshot, bank: &mut Bank, edit: Edit) -> Result<u16, Refusal> {
    match edit {
        Edit::Add(model) => live::add(policy, bank, model),
        Edit::Replace(model) => live::replace(policy, bank, model),
        Edit::Remove(id) => live::remove(policy, bank, id),
        Edit::Compact => live::compact(policy, bank),
    }
}

/// From a bank of free slots, or one whose ids may repeat; under an epoch that now and then can't be raised so often.
fn any_listed(source: &mut Source) -> Listed {
    let slots = (0..source.below(9)).map(|_| {
        let model = any_model(source);
        (model.model_id > 4).then_some(model)
    });
    let slots: Vec<_> = slots.collect();
    let slots = if source.below(2) == 0 { vec![None; slots.len()] } else { slots };
    let epoch = if source.below(8) == 0 { u64::MAX - source.below(EDITS) as u64 } else { source.number() / 2 };
    Listed { epoch, slots }
}

#[test]
fn rows_of_edits() {
    let mut told = std::collections::BTreeMap::new();
    for seed in 0..ROUNDS {
        let source = &mut Source(seed);
        let mut listed = any_listed(source);
        let kind = EACH[source.below(4)];
        let mut policy = PolicySnapshot { catalog_epoch: listed.epoch, ..kind };
        let mut bank = slots(&listed.slots);
        for _ in 0..EDITS {
            let edit = any_edit(source);
            let owed = listed.edit(edit);
            assert_eq!(edited(&mut policy, &mut bank, edit), owed, "seed {seed}, {edit:?}");
            assert_eq!(policy, PolicySnapshot { catalog_epoch: listed.epoch, ..kind }, "seed {seed}, {edit:?}");
            assert_eq!(bank, slots(&listed.slots), "seed {seed}, {edit:?}");
            *told.entry(owed.map_or_else(Refusal::number, |_| 0)).or_insert(0) += 1;
        }
    }
    assert!([0, 5, 12, 16, 27, 28].iter().all(|number| told.get(number).is_some_and(|count| *count > 100)), "{told:?}");
}

/// The same decision of models that stand elsewhere: those of these slots, in their order.
fn placed(decision: KernelDecision, places: &[u16]) -> KernelDecision {
    let place = places.get(usize::from(decision.selected_model_index));
    KernelDecision { selected_model_index: place.copied().unwrap_or(u16::MAX), ..decision }
}

#[test]
fn as_if_the_bank_listed_nothing_else() {
    let mut chosen = 0;
    for seed in 0..10 * ROUNDS {
        let source = &mut Source(seed);
        let listed = any_listed(source).slots;
        let policy = EACH[source.below(4)];
        let request = KernelInput { risk_bps: [9_000, 10_001, 1_000][source.below(16).min(2)], ..REQUEST };
        let (bank, alone): (_, Bank) = (slots(&listed), listed.iter().copied().flatten().collect());
        let places: Vec<u16> = (0..).zip(&listed).filter(|(_, slot)| slot.is_some()).map(|(place, _)| place).collect();

        let owed =
            policy.prescribe_with_trace(&alone, request).map(|(decision, trace)| (placed(decision, &places), trace));
        let told = live::prescribe_with_trace(&policy, &bank, request);
        assert_eq!(told, owed, "seed {seed}");
        chosen += u64::from(told.is_ok_and(|(decision, _)| decision.is_executable()));
        let owed = policy.prescribe_checked(&alone, request).map(|decision| placed(decision, &places));
        assert_eq!(live::prescribe_checked(&policy, &bank, request), owed, "seed {seed}");

        let mut owed = policy.explain(&alone, request).unwrap();
        owed.decision = placed(owed.decision, &places);
        owed.candidates.iter_mut().for_each(|entry| entry.model_index = places[usize::from(entry.model_index)]);
        assert_eq!(live::explain(&policy, &bank, request), Ok(owed), "seed {seed}");

        for id in 0..9 {
            let owed = find(&alone, id).map(|place| place.map(|place| places[usize::from(place)]));
            assert_eq!(live::find(&bank, id), owed, "seed {seed}");
            let owed = policy.utility_for_model(&alone, request, id);
            assert_eq!(live::utility_for_model(&policy, &bank, request, id), owed, "seed {seed}");
            let mut owed = what_would_win(&policy, &alone, request, id);
            owed.iter_mut().for_each(|answer| answer.decision = placed(answer.decision, &places));
            assert_eq!(live::what_would_win(&policy, &bank, request, id), owed, "seed {seed}");
        }
        let mut owed = decision_margin(&policy, &alone, request);
        owed.iter_mut().for_each(|answer| answer.decision = placed(answer.decision, &places));
        assert_eq!(live::decision_margin(&policy, &bank, request), owed, "seed {seed}");
    }
    assert!(chosen > 2 * ROUNDS, "{chosen} of {} were no rejection", 10 * ROUNDS);
}
