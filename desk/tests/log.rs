//! `desk log`: its numbers against the library asked request by request with cut prices, shares, and what is printed.
mod common;
use common::{example_list, many_models, open, random_list, random_request, Dice, Folder, MODELS, REQUESTS};
use desk::asked::scaled_price;
use desk::fate::{Fall, Falls, Fate, Loss, Subject, Why};
use desk::open::Desk;
use volankizo::{Bank, KernelInput, PPM};

/// Whether one of these models is chosen when the prices of all of them are cut alike, the whole list asked.
fn wins(desk: &Desk, places: &[usize], input: KernelInput, cut: u64) -> bool {
    let mut models: Vec<_> = desk.models.models.iter().map(|named| named.model).collect();
    for place in places {
        let model = &mut models[*place];
        let prices =
            [&mut model.input_cost_microunits_per_million_tokens, &mut model.output_cost_microunits_per_million_tokens];
        prices.into_iter().for_each(|price| *price = scaled_price(*price, PPM - cut));
    }
    let bank: Bank = models.into_iter().collect();
    let decision = desk.policy.policy.prescribe(&bank, input).expect("a decision");
    places.contains(&usize::from(decision.selected_model_index))
}

/// The fall that is told wins, one less doesn't, and neither does any cut where none is told.
fn is_smallest(desk: &Desk, places: &[usize], input: KernelInput, fall: Option<Fall>) {
    let asked = (0..=PPM).step_by(50_000).chain(fall.into_iter().flat_map(|fall| [fall.ppm - 1, fall.ppm]));
    for cut in asked {
        let told = fall.is_some_and(|fall| cut >= fall.ppm);
        assert_eq!(wins(desk, places, input, cut), told, "{places:?} cut by {cut}, {fall:?}, {input:?}");
    }
    if let Some(Fall { ppm, place }) = fall {
        assert!(places.contains(&place) && wins(desk, &[place], input, ppm), "{place} alone, cut by {ppm}");
    }
}

/// How many requests were lost by price, lost at any price, won and stopped.
fn held_to_the_library(desk: &Desk, places: Vec<usize>, dice: &mut Dice) -> [usize; 4] {
    let subject = Subject::new(desk, places.clone());
    let mut counts = [0; 4];
    for _ in 0..40 {
        let input = random_request(dice);
        let decision = desk.decide(input).expect("a decision");
        let fate = subject.fate(desk, input, &decision).expect("a fate");
        match fate {
            Fate::Lost(loss) => {
                assert_eq!(loss.to, desk.chosen(&decision));
                is_smallest(desk, &places, input, loss.fall);
                counts[usize::from(loss.fall.is_none())] += 1;
            }
            Fate::Won(place) => {
                assert!(places.contains(&place) && desk.chosen(&decision) == Some(place));
                counts[2] += 1;
            }
            Fate::Stopped => {
                assert!(decision.reason.stops_request());
                counts[3] += 1;
            }
        }
    }
    counts
}

#[test]
fn a_fall_is_the_smallest_that_wins() {
    let (mut dice, mut all) = (Dice::new(91), [0; 4]);
    for round in 0..12 {
        let desk = random_list(2 + round * 2, &mut dice);
        let place = dice.below(desk.models.models.len() as u64) as usize;
        let counts = held_to_the_library(&desk, vec![place], &mut dice);
        all = [0, 1, 2, 3].map(|kind| all[kind] + counts[kind]);
    }
    assert!(all.iter().all(|count| *count > 5), "{all:?}");
}

/// All models of a provider cut alike: the smallest fall is that of the model that needs the least.
#[test]
fn a_provider_cut_alike() {
    let (mut dice, mut all) = (Dice::new(17), [0; 4]);
    for round in 0..12 {
        let mut desk = random_list(6 + round * 2, &mut dice);
        desk.models.models.iter_mut().for_each(|named| named.model.provider_id = (named.model.model_id % 3) as u16);
        desk.bank = desk.models.bank();
        let places = (0..desk.models.models.len()).step_by(3).collect();
        let counts = held_to_the_library(&desk, places, &mut dice);
        all = [0, 1, 2, 3].map(|kind| all[kind] + counts[kind]);
    }
    assert!(all.iter().all(|count| *count > 5), "{all:?}");
}

/// Why a provider lost is told of its model that came furthest.
#[test]
fn who_came_furthest() {
    let (mut dice, mut met) = (Dice::new(3), std::collections::BTreeSet::new());
    for _ in 0..150 {
        let (desk, input) = (random_list(6, &mut dice), random_request(&mut dice));
        let decision = desk.decide(input).expect("a decision");
        let why = |places: Vec<usize>| match Subject::new(&desk, places).fate(&desk, input, &decision) {
            Ok(Fate::Lost(loss)) => Some(loss.why),
            _ => None,
        };
        let alone: Vec<Option<Why>> = (0..3).map(|place| why(vec![place])).collect();
        if let Some(furthest) = why(vec![0, 1, 2]) {
            assert_eq!(alone.iter().flatten().max(), Some(&furthest));
            met.insert(furthest);
        }
    }
    assert!(met.len() > 4, "{met:?}");
}

fn falls_of(falls: &[Option<u64>]) -> Falls {
    let losses: Vec<Loss> = falls
        .iter()
        .map(|fall| Loss { to: None, why: Why::Budget, fall: fall.map(|ppm| Fall { ppm, place: 0 }) })
        .collect();
    Falls::of(losses.iter())
}

#[test]
fn shares_are_rounded_up() {
    let cut = |falls: &[Option<u64>], tenths| falls_of(falls).cut(tenths).ppm;
    let one = [Some(300)];
    assert_eq!((cut(&one, 5), cut(&one, 9)), (Some(300), Some(300)));
    let two = [Some(700), Some(300)];
    assert_eq!((cut(&two, 5), cut(&two, 9)), (Some(300), Some(700)));
    let three = [Some(700), Some(300), Some(500)];
    assert_eq!((cut(&three, 5), cut(&three, 9)), (Some(500), Some(700)));
    let ten: Vec<Option<u64>> = (1..=10).rev().map(|tenth| Some(tenth * 100)).collect();
    assert_eq!((cut(&ten, 5), cut(&ten, 9)), (Some(500), Some(900)));
    let tied = [Some(400), Some(100), Some(400), Some(400)];
    assert_eq!((cut(&tied, 5), cut(&tied, 9), falls_of(&tied).won_by(400)), (Some(400), Some(400), 4));
    let hopeless = [Some(100), None, Some(900), None];
    assert_eq!((cut(&hopeless, 5), cut(&hopeless, 9)), (Some(900), None));
    assert_eq!((falls_of(&hopeless).most(), falls_of(&hopeless).last()), (2, Some(900)));
    assert_eq!((cut(&[], 5), cut(&[None], 5)), (None, None));
}

/// Any falls: the cut wins the share, and no smaller one does.
#[test]
fn a_cut_is_the_smallest_for_its_share() {
    let mut dice = Dice::new(44);
    for _ in 0..300 {
        let list: Vec<Option<u64>> =
            (0..dice.below(24)).map(|_| Some(1 + dice.below(12)).filter(|fall| *fall < 11)).collect();
        let won = |cut: u64| list.iter().flatten().filter(|fall| **fall <= cut).count();
        for tenths in [5, 9] {
            let (told, smallest) =
                (falls_of(&list).cut(tenths), (1..=12).find(|cut| won(*cut) * 10 >= list.len() * tenths));
            assert_eq!(told.ppm, smallest.filter(|_| !list.is_empty()), "{list:?}");
        }
    }
}

/// The worked example with more requests. Alto needs a utility above Brio's: a cost of 799 at most for request 42, 999 for 44 and 899 for 46,
/// which it has at 44.3333, 55.4666 and 42.8 percent of its prices. It is below the quality of 43, wins 47 alone, and 45 is stopped.
fn six_requests() -> Folder {
    let more = "43,Alto,100,100,10000,5000,1000,10000,9500,0\n44,Alto,100,100,12000,5000,1000,10000,5000,0\n\
                45,Alto,100,100,10000,5000,9000,10000,5000,0\n46,Alto,200,100,10000,5000,1000,10000,5000,0\n\
                47,Alto,100,100,90000,5000,1000,10000,5000,0|1\n";
    Folder::example().with("requests.csv", format!("{REQUESTS}{more}"))
}

#[test]
fn one_model_as_text() {
    let told = six_requests().told(&["log", "Alto"]);
    assert_eq!(
        told,
        "6 requests of requests.csv, 1 of them stopped before any model was looked at.\n\
         Alto: chosen 1 time, lost 4 times.\n\
         \n\
         Lost to\n  3  Brio\n  1  nothing chosen\n\
         \n\
         Why\n  3  outranked by utility\n  1  quality below the one required\n\
         \n\
         Both prices cut, all else as it is\n  \
         Half of the lost, 2 of 4: by 55.7 percent; to the millionth, by 55.6667 percent, from 3 and 15 per million tokens in and out to \
         1.329999 and 6.649995, which wins 2.\n  \
         Nine tenths of the lost, 4 of 4: no cut wins so many.\n  \
         The most that can be won, 3 of 4: by 57.2 percent; to the millionth, by 57.2000 percent, from 3 and 15 per million tokens in and out to \
         1.284 and 6.42, which wins 3.\n"
    );
}

#[test]
fn a_line_for_each_request() {
    let folder = six_requests();
    let lines = "sequence,outcome,chosen,why,price_fall_percent,model_that_would_win\n\
         42,lost,Brio,outranked by utility,55.6667,Alto\n\
         43,lost,,quality below the one required,,\n\
         44,lost,Brio,outranked by utility,44.5334,Alto\n\
         45,stopped,,,,\n\
         46,lost,Brio,outranked by utility,57.2,Alto\n\
         47,won,Alto,,,\n";
    assert_eq!(folder.told(&["log", "Alto", "--csv", "-"]), lines);
    assert_eq!(folder.told(&["log", "1", "--csv", "log.csv"]), folder.told(&["log", "Alto"]));
    assert_eq!(folder.text("log.csv"), lines);
}

/// What a long log tells of its cuts: the rounded cut and the exact one win the share, and a millionth less doesn't.
#[test]
fn cuts_suffice() {
    let (folder, desk) = long_log(25, 240);
    let mut told = 0;
    for place in 0..25 {
        let text = folder.told(&["log", &desk.models.models[place].name]);
        for line in text.lines().filter(|line| line.contains("of the lost") && line.contains("to the millionth")) {
            let words: Vec<&str> = line.split_whitespace().collect();
            let behind = |word: &str| words[words.iter().position(|found| *found == word).expect("a word") + 1];
            let needed: usize =
                words[words.iter().position(|word| *word == "lost,").expect("a share") + 1].parse().expect("a count");
            let (rounded, exact) =
                (millionths(words[words.iter().position(|word| *word == "by").expect("a cut") + 1]), {
                    let by = words.iter().rposition(|word| *word == "by").expect("a cut");
                    millionths(words[by + 1])
                });
            let won = |cut: u64| {
                let lost = desk.requests.requests.iter().filter(|request| !wins(&desk, &[place], request.input, 0));
                lost.filter(|request| wins(&desk, &[place], request.input, cut)).count()
            };
            assert!(rounded >= exact && rounded - exact < 1_000, "{line}");
            assert!(won(rounded) >= needed && won(exact) >= needed && won(exact - 1) < needed, "{line}");
            assert_eq!(won(exact).to_string(), behind("wins").trim_end_matches('.'), "{line}");
            told += 1;
        }
    }
    assert!(told > 5, "{told} cuts were told");
}

fn millionths(percent: &str) -> u64 {
    desk::decimal::parse(percent, 4, '.').expect("a percentage") as u64
}

/// A list and a log under which many models come near.
fn long_log(models: usize, requests: usize) -> (Folder, Desk) {
    let mut dice = Dice::new(8);
    let list = many_models(models, &mut dice).replace("captions|speakers", "captions").replace(",none,", ",captions,");
    let mut text =
        "input_tokens,output_tokens,value_microunits,budget_microunits,risk_bps,confidence_bps,minimum_quality_bps\n"
            .to_owned();
    for _ in 0..requests {
        let (input, output) = (dice.below(2_000), dice.below(1_000));
        text += &format!(
            "{input},{output},{},{},{},9000,{}\n",
            90_000 + dice.below(9_000),
            30_000,
            101 + dice.below(300),
            7_000
        );
    }
    let folder = Folder::example().with("models.csv", list).with("requests.csv", text);
    let desk = open(&folder);
    (folder, desk)
}

#[test]
fn a_provider_of_the_example() {
    let told = example_list().told(&["log", "--provider", "Auralis"]);
    assert_eq!(
        told,
        "5 requests of requests.csv, 1 of them stopped before any model was looked at.\n\
         Auralis: chosen 1 time, lost 3 times.\n\
         \n\
         Lost to\n  1  Cantata Lite\n  1  Elbe Transcribe\n  1  nothing chosen\n\
         \n\
         Why, of its models the one that came furthest\n  1  provider not allowed\n  1  over budget\n  1  utility not above 0\n\
         \n\
         Both prices cut, all else as it is\n  \
         Half of the lost, 2 of 3: by 69.2 percent; to the millionth, by 69.1843 percent, which wins 2.\n  \
         Nine tenths of the lost, 3 of 3: no cut wins so many.\n  \
         The most that can be won, 2 of 3: by 69.2 percent; to the millionth, by 69.1843 percent, which wins 2.\n\
         \n\
         model            input price  output price  for half: input    output\n\
         Auralis Large            2.5            10         0.770392   3.08157\n\
         Auralis Medium           0.8           3.2         0.246525  0.986102\n\
         Auralis Small           0.15           0.6         0.046223  0.184894\n\
         Auralis Medical            6            24         1.848942  7.395768\n"
    );
}

/// Each line about all models is what the log of that model alone tells.
#[test]
fn all_models() {
    let (folder, desk) = long_log(12, 60);
    let told = folder.told(&["log", "--csv", "-"]);
    let mut lines = told.lines();
    assert_eq!(lines.next(), Some("name,chosen,lost,half_at_price_fall_percent,nine_tenths_at_price_fall_percent"));
    for (line, named) in lines.by_ref().zip(&desk.models.models) {
        let cells: Vec<&str> = line.split(',').collect();
        let alone = folder.told(&["log", &named.name]);
        let counts = format!("{}: chosen {} time", cells[0], cells[1]);
        assert!(cells[0] == named.name && alone.contains(&counts), "{line}\n{alone}");
        assert!(alone.contains(&format!("lost {} time", cells[2])), "{line}\n{alone}");
        for (share, cell) in [("Half", cells[3]), ("Nine tenths", cells[4])] {
            let exact = (!cell.is_empty()).then(|| {
                let ppm = millionths(cell);
                format!("to the millionth, by {}.{:04} percent", ppm / 10_000, ppm % 10_000)
            });
            let sentence = alone.lines().find(|line| line.trim_start().starts_with(share));
            let found = sentence.and_then(|line| {
                line.find("to the millionth").map(|at| line[at..].split(',').take(2).collect::<Vec<_>>().join(","))
            });
            assert_eq!(found, exact, "{line}\n{alone}");
        }
    }
    assert_eq!(told.lines().count(), 13);
    let text = folder.told(&["log"]);
    assert!(
        text.starts_with("60 requests of requests.csv, 0 of them stopped before any model was looked at.\n\nmodel "),
        "{text}"
    );
}

#[test]
fn a_model_that_never_lost() {
    let told = Folder::example().told(&["log", "Brio"]);
    assert_eq!(
        told,
        "1 request of requests.csv, 0 of them stopped before any model was looked at.\n\
         Brio: chosen 1 time, lost 0 times.\nNo request was lost, so no cut is told.\n"
    );
}

#[test]
fn no_price_wins() {
    let told = Folder::example().but("models.csv", "8000,yes,100", "8000,no,100").told(&["log", "Alto"]);
    assert!(told.contains("\nWhy\n  1  switched off\n"), "{told}");
    assert!(told.ends_with("\nPrice alone: no cut, not even to 0, would have won any of them.\n"), "{told}");
}

/// Of many winners the first twenty are lines, and the rest is one.
#[test]
fn many_winners() {
    let models: String = (3..40).map(|id| format!("M{id},{id},{},8000,8000,yes,50,0,0,1,2\n", id)).collect();
    let requests: String = (3..40).map(|id| format!("{id},1,100,100,10000,5000,1000,10000,5000,none,{id}\n")).collect();
    let folder = Folder::example()
        .with("models.csv", format!("{MODELS}{models}"))
        .with("requests.csv", format!("{},allowed_providers\n{requests}", REQUESTS.lines().next().expect("a header")));
    let told = folder.told(&["log", "Alto"]);
    assert!(told.contains("\nLost to\n   1  M10\n   1  M11\n") && told.contains("\n  17  17 others\n"), "{told}");
}

#[test]
fn decimal_commas() {
    let told = six_requests().run(&["log", "Alto", "--decimal-comma", "--separator", "comma"]);
    assert!(told.out.contains("by 55,7 percent; to the millionth, by 55,6667 percent, from 3 and 15 "), "{}", told.out);
}

#[test]
fn what_is_refused() {
    let folder = six_requests();
    let refused = |arguments: &[&str], status: i32, words: &str| {
        let ran = folder.run(&[&["log"], arguments].concat());
        assert_eq!((ran.status, ran.out.as_str()), (status, ""), "{arguments:?}: {}", ran.err);
        assert!(ran.err.contains(words), "{arguments:?}: {}", ran.err);
    };
    refused(&["Altos"], 1, "refused 5: no model of models.csv is called \"Altos\"; did you mean Alto?");
    refused(&["--provider", "Nobody"], 1, "no provider is called \"Nobody\"");
    refused(&["--provider", "9"], 1, "no model of models.csv has the provider 9");
    refused(&["Alto", "--provider", "0"], 2, "cannot be used with");
    refused(&["Alto", "Brio"], 2, "Brio");
    refused(&["Alto", "--csv", "models.csv"], 2, "models.csv is read here, and would be written over");
    refused(&["Altos", "--csv", "log.csv"], 1, "Altos");
    assert_eq!(folder.files(), ["models.csv", "policy.csv", "requests.csv"]);
    assert_eq!(folder.text("models.csv"), MODELS);
}

#[test]
fn an_empty_log() {
    let header = REQUESTS.lines().next().expect("a header").to_owned();
    let ran = Folder::example().with("requests.csv", header + "\n").run(&["log", "Alto"]);
    assert_eq!((ran.status, ran.out.as_str()), (1, ""));
    assert_eq!(ran.err, "desk: requests.csv: there is no request under the header line; at least one was wanted\n");
}

/// A bar is drawn for long logs alone and only on a terminal: into a pipe goes nothing.
#[test]
fn no_bar_in_a_pipe() {
    let (folder, _) = long_log(3, 2_500);
    let told = folder.told(&["log", "Model 00001"]);
    assert!(told.starts_with("2500 requests of requests.csv, "), "{told}");
}
