//! Folders with files in them, the program run there, and numbers by dice that fall the same each time.
#![allow(dead_code)]
use desk::cli::{Files, Writing};
use desk::fault::Warnings;
use desk::open::Desk;
use std::fs;
use std::path::{Path, PathBuf};
use std::process::{Command, Output};
use std::sync::atomic::{AtomicU32, Ordering};
use volankizo::{KernelInput, ALL_PROVIDERS};

/// The worked example: model 2 is chosen, worth 6,200 microunits to model 1's 5,200.
pub const MODELS: &str = "\
name,id,provider,quality_bps,risk_ceiling_bps,enabled,latency_ms,capabilities,regions,input_price_per_million,output_price_per_million
Alto,1,0,9000,8000,yes,100,0|1,0,3,15
Brio,2,1,8000,8000,yes,50,0,0,1,2
";
pub const POLICY: &str = "\
hard_risk_limit_bps,minimum_confidence_bps,risk_multiplier_bps,latency_penalty_microunits_per_ms,policy_epoch,catalogue_epoch,currency
9000,2000,10000,10,7,3,EUR
";
pub const REQUESTS: &str = "\
sequence,requested_model,input_tokens,output_tokens,value_microunits,budget_microunits,risk_bps,confidence_bps,minimum_quality_bps,required_capabilities
42,Alto,100,100,10000,5000,1000,10000,5000,0
";

/// A folder of its own, gone when the test is over.
pub struct Folder {
    pub path: PathBuf,
}

/// What a run of the program left.
#[derive(Debug, PartialEq, Eq)]
pub struct Ran {
    pub status: i32,
    pub out: String,
    pub err: String,
}

impl Folder {
    pub fn new() -> Self {
        static COUNT: AtomicU32 = AtomicU32::new(0);
        let number = COUNT.fetch_add(1, Ordering::Relaxed);
        let path = std::env::temp_dir().join(format!("desk-test-{}-{number}", std::process::id()));
        fs::create_dir_all(&path).expect("a folder for the test");
        Folder { path }
    }

    /// A folder with the worked example in it.
    pub fn example() -> Self {
        Folder::new().with("models.csv", MODELS).with("policy.csv", POLICY).with("requests.csv", REQUESTS)
    }

    pub fn with(self, file: &str, content: impl AsRef<[u8]>) -> Self {
        fs::write(self.path.join(file), content).expect("a file of the test");
        self
    }

    /// With so many milliseconds of a latency free, as they stand in the policy's cell.
    pub fn with_allowance(self, cell: &str) -> Self {
        self.but("policy.csv", ",currency\n", ",currency,latency_allowance_ms\n").but(
            "policy.csv",
            ",EUR\n",
            &format!(",EUR,{cell}\n"),
        )
    }

    /// With another text in place of one that stands in a file.
    pub fn but(self, file: &str, old: &str, new: &str) -> Self {
        let text = self.text(file);
        assert!(text.contains(old), "{file} has no {old:?}");
        let changed = text.replacen(old, new, 1);
        self.with(file, changed)
    }

    pub fn bytes(&self, file: &str) -> Vec<u8> {
        fs::read(self.path.join(file)).unwrap_or_else(|error| panic!("{file}: {error}"))
    }

    pub fn text(&self, file: &str) -> String {
        String::from_utf8(self.bytes(file)).expect("text")
    }

    /// The names of the files in it, in order.
    pub fn files(&self) -> Vec<String> {
        let entries = fs::read_dir(&self.path).expect("the test's folder");
        let mut names: Vec<String> =
            entries.map(|entry| entry.expect("an entry").file_name().into_string().expect("a name")).collect();
        names.sort();
        names
    }

    pub fn command(&self, arguments: &[&str]) -> Command {
        let mut command = Command::new(env!("CARGO_BIN_EXE_desk"));
        command.args(arguments).current_dir(&self.path);
        command
    }

    pub fn run(&self, arguments: &[&str]) -> Ran {
        let Output { status, stdout, stderr } = self.command(arguments).output().expect("the program runs");
        let text = |bytes| String::from_utf8(bytes).expect("text");
        Ran { status: status.code().expect("an exit status"), out: text(stdout), err: text(stderr) }
    }

    /// What is printed by a run that ends well and warns of nothing.
    pub fn told(&self, arguments: &[&str]) -> String {
        let ran = self.run(arguments);
        assert_eq!((ran.status, ran.err.as_str()), (0, ""), "{arguments:?}");
        ran.out
    }
}

impl Drop for Folder {
    fn drop(&mut self) {
        let _ = fs::remove_dir_all(&self.path);
    }
}

/// The folder of the example files that come with the program.
pub fn examples() -> PathBuf {
    Path::new(env!("CARGO_MANIFEST_DIR")).join("examples")
}

/// A folder with copies of the example files.
pub fn example_list() -> Folder {
    let read = |file: &str| fs::read(examples().join(file)).expect("an example");
    let files = ["models.csv", "policy.csv", "requests.csv"];
    files.iter().fold(Folder::new(), |folder, file| folder.with(file, read(file)))
}

/// The same under the example policy that leaves the first 200 ms of a latency free.
pub fn example_list_200_ms_free() -> Folder {
    example_list().with("policy.csv", fs::read(examples().join(FREE_POLICY)).expect("an example"))
}

pub const FREE_POLICY: &str = "policy-200-ms-free.csv";

/// Numbers that look random and are the same each time.
pub struct Dice(u64);

impl Dice {
    pub fn new(seed: u64) -> Self {
        Dice(seed)
    }

    pub fn any(&mut self) -> u64 {
        self.0 = self.0.wrapping_add(0x9e37_79b9_7f4a_7c15);
        let mixed = (self.0 ^ self.0 >> 30).wrapping_mul(0xbf58_476d_1ce4_e5b9);
        let mixed = (mixed ^ mixed >> 27).wrapping_mul(0x94d0_49bb_1331_11eb);
        mixed ^ mixed >> 31
    }

    pub fn below(&mut self, end: u64) -> u64 {
        self.any() % end
    }
}

/// A list of models of many kinds, each with its number as id, as a file. The first is on, so that the list is sound.
pub fn many_models(count: usize, dice: &mut Dice) -> String {
    let header = "id,name,provider,quality_bps,risk_ceiling_bps,enabled,latency_ms,capabilities,regions,\
                  input_price_per_million,output_price_per_million\n";
    let mut text = header.to_owned();
    for id in 1..=count {
        let enabled = if dice.below(20) == 0 && id > 1 { "no" } else { "yes" };
        let capabilities = ["captions", "captions|speakers", "captions|noise", "none"][dice.below(4) as usize];
        let regions = ["eu", "us", "eu|us"][dice.below(3) as usize];
        let (provider, quality, ceiling) = (dice.below(30), 8_000 + dice.below(2_001), 500 + dice.below(9_501));
        let (latency, input, output) = (20 + dice.below(500), 1 + dice.below(4_000_000), 1 + dice.below(20_000_000));
        text += &format!(
            "{id},Model {id:05},Provider {provider},{quality},{ceiling},{enabled},{latency},{capabilities},{regions},{}.{:06},{}.{:06}\n",
            input / 1_000_000,
            input % 1_000_000,
            output / 1_000_000,
            output % 1_000_000
        );
    }
    text
}

/// A folder's files, read.
pub fn open(folder: &Folder) -> Desk {
    let path = |file: &str| folder.path.join(file).to_str().expect("a path").to_owned();
    let writing = Writing { names: None, decimal_comma: false, separator: None };
    let files =
        Files { models: path("models.csv"), policy: path("policy.csv"), requests: path("requests.csv"), writing };
    Desk::open(&files, &mut Warnings::default()).expect("sound files")
}

/// A list of many kinds of models under the worked example's policy, of every second list with an allowance that some latencies are above.
pub fn random_list(count: usize, dice: &mut Dice) -> Desk {
    let folder = Folder::example().with("models.csv", many_models(count, dice)).but("requests.csv", "Alto", "1");
    let folder = folder.with_allowance(["0", "", "150", "400"][dice.below(4) as usize]);
    open(&folder.but("requests.csv", "5000,0\n", "5000,none\n"))
}

/// A request that many models, few or none can serve.
pub fn random_request(dice: &mut Dice) -> KernelInput {
    KernelInput {
        request_sequence: 1,
        requested_model_id: dice.below(20) as u32,
        input_tokens: dice.below(2_000) as u32,
        output_tokens: dice.below(1_000) as u32,
        business_value_microunits: dice.below(80_000) as i64,
        budget_limit_microunits: dice.below(20_000),
        risk_bps: (dice.below(96) * dice.below(96)) as u16,
        confidence_bps: 1_900 + dice.below(8_101) as u16,
        minimum_quality_bps: dice.below(9_400) as u16,
        max_p95_latency_ms: [0, 0, 300][dice.below(3) as usize],
        required_capabilities: [0, 0, 1, 3][dice.below(4) as usize],
        allowed_provider_mask: if dice.below(2) == 0 { ALL_PROVIDERS } else { dice.any() },
        required_region_mask: dice.below(4),
    }
}
