//! The header as a contract: that every macro and every enum value of `include/volankizo.h` is what the library does. The numbers are those that a C
//! compiler reads; beside each stands what calls of the library show, found without the header.
mod answered;
#[path = "../common/mod.rs"]
mod common;
mod header;
mod lent;
mod named;
mod sizes;

use std::collections::{BTreeMap, BTreeSet};

/// A name of the header without `VOLANKIZO_`, and the number that the library shows for it.
type Row = (&'static str, u64);

/// The rows of each kind; together they have every name.
fn all_rows() -> Vec<Row> {
    [sizes::rows(), lent::rows(), answered::rows(), named::rows()].concat()
}

#[test]
fn every_name_has_the_librarys_number() {
    let values = header::values();
    for (name, number) in all_rows() {
        assert_eq!(values.get(name), Some(&number), "VOLANKIZO_{name}, which the library shows as {number}");
    }
}

#[test]
fn every_name_is_looked_at_once() {
    let rows = all_rows();
    let names: BTreeSet<_> = rows.iter().map(|(name, _)| name.to_string()).collect();
    assert_eq!(names.len(), rows.len(), "a name has two rows");
    assert_eq!(names, header::values().keys().cloned().collect());
    assert!(names.len() > 150, "{} names", names.len());
}

/// The macros with an argument, on words that calls hand back.
#[test]
fn macros_with_an_argument() {
    let words = named::words_with_parts();
    let mut asked = Vec::new();
    let mut owed = BTreeMap::new();
    for (word, parts) in &words {
        for (name, part) in ["NUMBER", "FIELD", "VALUE", "ID_OR_PLACE"].into_iter().zip(parts) {
            asked.push((name, *word));
            owed.insert(format!("{name}({word})"), *part);
        }
    }
    for bank in [0, 47, 94, 65_518] {
        asked.push(("STORED_FORM_BYTES", bank));
        owed.insert(format!("STORED_FORM_BYTES({bank})"), sizes::stored_form(bank as usize));
    }
    assert_eq!(header::applied(&asked), owed);
    assert_eq!(header::names_with_an_argument().len(), 5);
}

#[test]
fn the_header_in_cpp_where_there_is_a_compiler() {
    header::compiles_as_cpp();
}

/// What the header says of repeated ids: the second record is chosen, and the margin tells the first's.
#[test]
fn a_repeated_id() {
    use common::{FIRST, POLICY, REQUEST};
    use volankizo::{decision_margin, what_would_win, Bank, KernelModel, Lever, Refusal};
    let seven = KernelModel { model_id: 7, quality_bps: 8_000, ..FIRST };
    let bank = Bank::from_models(&[seven, KernelModel { quality_bps: 9_000, ..seven }]);
    let margin = decision_margin(&POLICY, &bank, REQUEST).unwrap();
    assert_eq!((margin.decision.selected_model_id, margin.decision.selected_model_index), (7, 1));
    assert_eq!((margin.levers[0].lever, margin.levers[0].current), (Lever::QualityBps, 8_000));
    assert_eq!(what_would_win(&POLICY, &bank, REQUEST, 7).unwrap().levers, [], "the id is selected already");
    assert_eq!(POLICY.validate(&bank), Err(Refusal::DuplicateModelId { model_id: 7 }));
}
