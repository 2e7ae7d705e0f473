//! The command line.
use crate::sheet::Dialect;
use clap::{Args, Parser, Subcommand};

/// Asks a proved decision kernel about price lists kept in a spreadsheet.
///
/// Models, a policy and requests are CSV files with a header line. Which model is chosen for a request, why not another one, and at
/// which price, quality or latency it would be, is told in names and currency.
#[derive(Debug, Parser)]
#[command(name = "desk", version, after_help = STATUS_HELP, after_long_help = FILES_HELP)]
pub struct Cli {
    #[command(subcommand)]
    pub command: Command,
}

#[derive(Debug, Subcommand)]
pub enum Command {
    Table(crate::table::Arguments),
    Why(crate::why::Arguments),
    Log(crate::log::Arguments),
    Plot(crate::plot::Arguments),
    Pack(crate::pack::Arguments),
    Unpack(crate::unpack::Arguments),
}

/// The files that are read, and how they are written.
#[derive(Args, Clone, Debug)]
pub struct Files {
    /// The models, a line each
    #[arg(long, short, value_name = "FILE", default_value = "models.csv")]
    pub models: String,
    /// The policy, one line
    #[arg(long, short, value_name = "FILE", default_value = "policy.csv")]
    pub policy: String,
    /// The requests, a line each
    #[arg(long, short, value_name = "FILE", default_value = "requests.csv")]
    pub requests: String,
    #[command(flatten)]
    pub writing: Writing,
}

/// How files are written, and what their numbers are called.
#[derive(Args, Clone, Debug)]
pub struct Writing {
    /// The numbers that names of models, providers, capabilities and regions stand for
    #[arg(long, short, value_name = "FILE")]
    pub names: Option<String>,
    /// Numbers have a decimal comma: 0,15
    #[arg(long)]
    pub decimal_comma: bool,
    /// What parts two cells: comma, semicolon or tab [default: found from the header line]
    #[arg(long, value_name = "MARK", value_parser = separator)]
    pub separator: Option<u8>,
}

impl Files {
    /// The files that may be read.
    pub fn read(&self) -> Vec<&str> {
        let three = [&self.models, &self.policy, &self.requests].map(String::as_str);
        three.into_iter().chain(self.writing.names.as_deref()).collect()
    }
}

impl Writing {
    pub fn dialect(&self) -> Dialect {
        Dialect { separator: self.separator, mark: if self.decimal_comma { ',' } else { '.' } }
    }
}

fn separator(word: &str) -> Result<u8, String> {
    match word {
        "comma" | "," => Ok(b','),
        "semicolon" | ";" => Ok(b';'),
        "tab" | "\t" => Ok(b'\t'),
        _ => Err("comma, semicolon or tab was wanted".to_owned()),
    }
}

const STATUS_HELP: &str = "\
`desk --help` tells the columns of each file, `desk COMMAND --help` the options of a command.
Exit status: 0 done; 1 refused, with a line on standard error that says why; 2 called wrongly.";

const FILES_HELP: &str = "\
Each file is CSV in UTF-8 with a header line; the separator may be a comma, a semicolon or a tab. Columns stand
in any order, and their names tell the unit. Of names with | between them one is needed. A column called notes is
passed over.

models.csv, a line for each model:
  name
  provider
  quality_bps | quality_percent
  risk_ceiling_bps | risk_ceiling_percent
  latency_ms
  input_price_per_million | input_price_microunits_per_million
  output_price_per_million | output_price_microunits_per_million
  and, where wanted: id, enabled (yes or no), capabilities, regions

policy.csv, one line:
  hard_risk_limit_bps | hard_risk_limit_percent
  minimum_confidence_bps | minimum_confidence_percent
  risk_multiplier_bps | risk_multiplier_percent
  latency_penalty_per_ms | latency_penalty_microunits_per_ms
  and, where wanted: latency_allowance_ms (so many of a latency's first milliseconds are free; 0 is none),
  rounding (apart or once), currency (its name, to be shown), policy_epoch, catalogue_epoch

requests.csv, a line for each request:
  input_tokens
  output_tokens
  value_currency | value_microunits
  budget_currency | budget_microunits
  risk_bps | risk_percent
  confidence_bps | confidence_percent
  minimum_quality_bps | minimum_quality_percent
  and, where wanted: sequence, requested_model (name or id), latency_limit_ms, required_capabilities,
  allowed_providers, required_regions

names.csv, for --names: kind (model, provider, capability or region), number, name

bps are basis points: 10000 are 100 percent. Prices, value, budget and latency penalty are in units of currency with
at most six decimals, or in microunits; a unit of currency is 1,000,000 microunits. Prices are per million tokens.
Providers, capabilities and regions are names, or numbers from 0 to 63, with | between them; none is none of them, and
all is each of them. A name has at most 200 letters. Nothing is rounded: a number that doesn't fit its column is refused.

Exit status: 0 done; 1 refused, with a line on standard error that says why; 2 called wrongly.";
