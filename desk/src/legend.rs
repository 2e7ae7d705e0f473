//! The file of names: which number each model, provider, capability and region has, so that numbers stay while a list changes.
use crate::fault::{quoted, Fault, Warnings};
use crate::field::{Cell, Field, Heads, Row, Unit};
use crate::models;
use crate::names::{Names, Register, MOST_NUMBER};
use crate::sheet::{Dialect, Sheet};
use std::collections::HashMap;

static KIND: Field = Field::text(&[("kind", Unit::Text)]);
static NUMBER: Field = Field::number(&[("number", Unit::Whole)], u32::MAX as u64);
static NAME: Field = Field::text(&[("name", Unit::Text)]);
pub static FIELDS: [&Field; 3] = [&KIND, &NUMBER, &NAME];

/// Reads a file of names.
pub fn read(file: &str, dialect: Dialect, warnings: &mut Warnings) -> Result<Names, Fault> {
    let sheet = Sheet::read(file, dialect)?;
    let heads = Heads::of(&sheet, dialect.mark, &FIELDS)?;
    let (mut names, mut models) = (Names { file: Some(file.to_owned()), ..Names::default() }, HashMap::new());
    for row in heads.rows() {
        let number = row.needed(&NUMBER, warnings)?;
        let (Some(kind), Some(name)) = (row.cell(&KIND)?, row.cell(&NAME)?) else { continue };
        match kind.text.to_lowercase().as_str() {
            "model" => take_model(&mut names, &mut models, &row, number, name.text)?,
            "provider" => take(&mut names.providers, &row, number, name.text)?,
            "capability" => take(&mut names.capabilities, &row, number, name.text)?,
            "region" => take(&mut names.regions, &row, number, name.text)?,
            _ => return Err(no_kind(kind)),
        }
    }
    Ok(names)
}

fn take(register: &mut Register, row: &Row, number: u32, name: &str) -> Result<(), Fault> {
    match u8::try_from(number) {
        Ok(number) if number <= MOST_NUMBER => register.fix(number, name).map_err(|what| row.fault_at(&NAME, what)),
        _ => Err(row.fault_at(
            &NUMBER,
            format!("{number} is out of range; providers, capabilities and regions go from 0 to {MOST_NUMBER}"),
        )),
    }
}

fn take_model(names: &mut Names, ids: &mut HashMap<String, u32>, row: &Row, id: u32, name: &str) -> Result<(), Fault> {
    if id == 0 {
        return Err(row.fault_at(&NUMBER, "a model's id is 0; ids begin with 1"));
    }
    models::sound(name, id).map_err(|what| row.fault_at(&NAME, what))?;
    if let Some(other) = ids.insert(name.to_owned(), id) {
        return Err(row.fault_at(&NAME, format!("the name {} is that of model {other} already", quoted(name))));
    }
    match names.models.insert(id, name.to_owned()) {
        Some(other) => Err(row.fault_at(&NUMBER, format!("model {id} has the name {} already", quoted(&other)))),
        None => Ok(()),
    }
}

fn no_kind(kind: Cell) -> Fault {
    kind.fault(format!("{} is no kind; model, provider, capability or region was wanted", quoted(kind.text)))
}
