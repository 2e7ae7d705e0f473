//! The file of models: a price list.
use crate::fault::{nearest, quoted, Fault, Warnings};
use crate::field::{Field, Heads, Row, Unit};
use crate::names::{self, Names, Register};
use crate::sheet::{Dialect, Sheet};
use std::collections::{HashMap, HashSet};
use volankizo::{Bank, KernelModel, MAX_BPS, MAX_CATALOG_MODELS};

/// The most models that the programs `unit` and `ask` take.
pub const UNIT_MODELS: usize = 900;

static NAME: Field = Field::text(&[("name", Unit::Text)]);
static ID: Field = Field { least: 1, ..Field::number(&[("id", Unit::Whole)], u32::MAX as u64).optional() };
static PROVIDER: Field = Field::text(&[("provider", Unit::Text)]);
static QUALITY: Field =
    Field::number(&[("quality_bps", Unit::BasisPoints), ("quality_percent", Unit::Percent)], MAX_BPS as u64);
static CEILING: Field =
    Field::number(&[("risk_ceiling_bps", Unit::BasisPoints), ("risk_ceiling_percent", Unit::Percent)], MAX_BPS as u64);
static ENABLED: Field = Field::text(&[("enabled", Unit::Text)]).optional();
static LATENCY: Field = Field::number(&[("latency_ms", Unit::Ms)], u32::MAX as u64);
static CAPABILITIES: Field = Field::list(&[("capabilities", Unit::Text)]).optional();
static REGIONS: Field = Field::list(&[("regions", Unit::Text)]).optional();
static INPUT_PRICE: Field = Field::number(
    &[("input_price_per_million", Unit::Currency), ("input_price_microunits_per_million", Unit::Microunits)],
    u64::MAX,
);
static OUTPUT_PRICE: Field = Field::number(
    &[("output_price_per_million", Unit::Currency), ("output_price_microunits_per_million", Unit::Microunits)],
    u64::MAX,
);
pub static FIELDS: [&Field; 11] = [
    &NAME,
    &ID,
    &PROVIDER,
    &QUALITY,
    &CEILING,
    &ENABLED,
    &LATENCY,
    &CAPABILITIES,
    &REGIONS,
    &INPUT_PRICE,
    &OUTPUT_PRICE,
];

/// A model with its name, and the line of the file that it stands on.
#[derive(Clone, Debug, PartialEq, Eq)]
pub struct NamedModel {
    pub name: String,
    pub line: u64,
    pub model: KernelModel,
}

/// A list of models in the order of its file, each name and each id once, and what its numbers are called.
#[derive(Clone, Debug)]
pub struct ModelList {
    pub file: String,
    pub models: Vec<NamedModel>,
    pub names: Names,
    /// The file has no ids, and no file of names told them: models are numbered as they come.
    pub ids_made_up: bool,
    highest_id: u32,
    by_id: HashMap<u32, usize>,
    by_name: HashMap<String, usize>,
}

impl ModelList {
    /// Reads a file of models. `names` are those told beforehand.
    pub fn read(file: &str, dialect: Dialect, names: Names, warnings: &mut Warnings) -> Result<Self, Fault> {
        let sheet = Sheet::read(file, dialect)?;
        let heads = Heads::of(&sheet, dialect.mark, &FIELDS)?;
        let ids_made_up = !heads.has(&ID) && names.models.is_empty();
        let mut list = ModelList { ids_made_up, ..ModelList::empty(file, names) };
        let told: HashMap<String, u32> = list.names.models.iter().map(|(id, name)| (name.clone(), *id)).collect();
        for row in heads.rows() {
            if list.models.len() == MAX_CATALOG_MODELS {
                return Err(row.fault(format!("is one model too many; at most {MAX_CATALOG_MODELS} are possible")));
            }
            let model = taken(&row, &mut list, &told, warnings)?;
            list.push(model, &row)?;
        }
        list.nonempty()
    }

    fn empty(file: &str, names: Names) -> Self {
        let (by_id, by_name) = (HashMap::new(), HashMap::new());
        let (file, models) = (file.to_owned(), Vec::new());
        ModelList { file, models, names, ids_made_up: false, highest_id: 0, by_id, by_name }
    }

    /// The models of a bank, each under the name that is told for its id, or `model-7`, unless another one is called so. Ids that repeat
    /// are the caller's to refuse.
    pub fn of_bank(file: &str, models: &[KernelModel], names: Names) -> Self {
        let mut list = ModelList::empty(file, names);
        let told: HashSet<String> = list.names.models.values().cloned().collect();
        for (place, model) in models.iter().enumerate() {
            let id = model.model_id;
            let made_up =
                || (0..).map(|marks| format!("model-{id}{}", "'".repeat(marks))).find(|name| !told.contains(name));
            let name = list.names.models.get(&id).cloned().or_else(made_up).unwrap_or_default();
            list.by_id.insert(model.model_id, place);
            list.by_name.insert(name.clone(), place);
            list.models.push(NamedModel { name, line: 0, model: *model });
        }
        list
    }

    fn nonempty(self) -> Result<Self, Fault> {
        match self.models.is_empty() {
            true => Err(Fault::of_file(&self.file, "there is no model under the header line; at least one was wanted")),
            false => Ok(self),
        }
    }

    fn push(&mut self, named: NamedModel, row: &Row) -> Result<(), Fault> {
        let (id, name, place) = (named.model.model_id, &named.name, self.models.len());
        if let Some(other) = self.by_name.insert(name.clone(), place) {
            let what = format!("the name {} is that of the model on line {}", quoted(name), self.models[other].line);
            return Err(row.fault_at(&NAME, what));
        }
        if let Some(other) = self.by_id.insert(id, place) {
            let other = &self.models[other];
            let what =
                format!("the id {id} of {} is that of {} on line {}", quoted(name), quoted(&other.name), other.line);
            return Err(row.fault_at(&ID, what));
        }
        self.highest_id = self.highest_id.max(id);
        self.models.push(named);
        Ok(())
    }

    /// An id behind all that were given, also to models that are gone: bytes that were written before may hold those.
    fn next_id(&self) -> Result<u32, String> {
        let told = self.names.models.last_key_value().map_or(0, |(id, _)| *id);
        let next = told.max(self.highest_id).checked_add(1);
        next.ok_or_else(|| "no id is free behind the highest one; give it a free one here".to_owned())
    }

    /// The models in the kernel's bytes, in the order of the file.
    pub fn bank(&self) -> Bank {
        self.models.iter().map(|named| named.model).collect()
    }

    pub fn with_id(&self, id: u32) -> Option<&NamedModel> {
        self.by_id.get(&id).map(|place| &self.models[*place])
    }

    /// The place of a model, by its name or its id.
    pub fn place_of(&self, word: &str) -> Option<usize> {
        let numbered = || word.parse().ok().and_then(|id: u32| self.by_id.get(&id));
        self.by_name.get(word).or_else(numbered).copied()
    }

    /// The id of a model that isn't listed, but has one in the file of names.
    pub fn told_id(&self, name: &str) -> Option<u32> {
        self.names.models.iter().find(|(_, told)| *told == name).map(|(id, _)| *id)
    }

    /// That a model isn't listed, and which one may be meant.
    pub fn unknown(&self, word: &str) -> String {
        let near = nearest(word, self.models.iter().map(|model| model.name.as_str()));
        let hint = near.map_or(String::new(), |near| format!("; did you mean {near}?"));
        format!("no model of {} is called {}{hint}", self.file, quoted(word))
    }

    /// A model's name, or its number where it isn't listed.
    pub fn name_of(&self, id: u32) -> String {
        self.with_id(id).map_or_else(|| format!("model {id}"), |named| named.name.clone())
    }
}

fn taken(
    row: &Row,
    list: &mut ModelList,
    told: &HashMap<String, u32>,
    warnings: &mut Warnings,
) -> Result<NamedModel, Fault> {
    let name = text(row, &NAME)?;
    let id = id(row, &name, list, told, warnings)?;
    sound(&name, id).map_err(|what| row.fault_at(&NAME, what))?;
    let Names { providers, capabilities, regions, .. } = &mut list.names;
    let model = KernelModel {
        model_id: id,
        provider_id: provider(row, providers)?,
        quality_bps: row.needed(&QUALITY, warnings)?,
        risk_ceiling_bps: row.needed(&CEILING, warnings)?,
        enabled: enabled(row)?,
        p95_latency_ms: row.needed(&LATENCY, warnings)?,
        capabilities: mask(row, &CAPABILITIES, capabilities)?,
        region_mask: mask(row, &REGIONS, regions)?,
        input_cost_microunits_per_million_tokens: row.needed(&INPUT_PRICE, warnings)?,
        output_cost_microunits_per_million_tokens: row.needed(&OUTPUT_PRICE, warnings)?,
    };
    Ok(NamedModel { name, line: row.line, model })
}

/// A model's name that can be told from the id of another one, and from the word for none.
pub fn sound(name: &str, id: u32) -> Result<(), String> {
    if name.parse().is_ok_and(|number: u32| number != id) {
        return Err(format!("the name {} is a number, but not the model's id, {id}", quoted(name)));
    }
    if names::is_none(name) {
        return Err(format!("a model can't be called {name}, which requests none"));
    }
    names::no_formula(name)
}

/// The id in its column; else as told beforehand; else one after the other.
fn id(
    row: &Row,
    name: &str,
    list: &ModelList,
    told: &HashMap<String, u32>,
    warnings: &mut Warnings,
) -> Result<u32, Fault> {
    let own = row.number::<u32>(&ID, warnings)?;
    match (own, told.get(name)) {
        (Some(id), Some(other)) if id != *other => {
            Err(row.fault_at(&ID, format!("{} has id {id} here and {other} in the file of names", quoted(name))))
        }
        (Some(id), None) if list.names.models.contains_key(&id) => {
            let (name, other) = (quoted(name), quoted(&list.names.models[&id]));
            Err(row.fault_at(&ID, format!("{name} has id {id} here, which is that of {other} in the file of names")))
        }
        (Some(id), _) => Ok(id),
        (None, Some(id)) => Ok(*id),
        (None, None) if list.ids_made_up => Ok(list.models.len() as u32 + 1),
        (None, None) if list.names.grows => list.next_id().map_err(|what| row.fault_at(&ID, what)),
        (None, None) => Err(row.fault_at(&ID, no_id(name, list))),
    }
}

/// What to do about a model without an id: write one down, in the list or in the file of names.
fn no_id(name: &str, list: &ModelList) -> String {
    match &list.names.file {
        Some(file) if !list.names.models.is_empty() => format!(
            "{} isn't in {file}; add it there, or give it an id here, or let pack number it with --names-out FILE beside --names",
            quoted(name)
        ),
        _ => format!("{} has no id; a whole number from 1 was wanted", quoted(name)),
    }
}

fn text(row: &Row, field: &'static Field) -> Result<String, Fault> {
    Ok(row.cell(field)?.map_or(String::new(), |cell| cell.text.to_owned()))
}

fn provider(row: &Row, providers: &mut Register) -> Result<u16, Fault> {
    let Some(cell) = row.cell(&PROVIDER)? else { return Ok(0) };
    providers.learn(cell.text).map(u16::from).map_err(|what| cell.fault(what))
}

fn mask(row: &Row, field: &'static Field, register: &mut Register) -> Result<u64, Fault> {
    let Some(cell) = row.cell(field)? else { return Ok(0) };
    names::mask(cell.text, |word| register.learn(word)).map_err(|what| cell.fault(what))
}

fn enabled(row: &Row) -> Result<u8, Fault> {
    let Some(cell) = row.cell(&ENABLED)? else { return Ok(1) };
    match cell.text.to_lowercase().as_str() {
        "yes" | "true" | "on" | "1" => Ok(1),
        "no" | "false" | "off" | "0" => Ok(0),
        _ => Err(cell.fault(format!(
            "{} is neither yes nor no; yes, no, true, false, on, off, 1 or 0 was wanted",
            quoted(cell.text)
        ))),
    }
}
