//! `desk plot`: its points against the library, its marks, and that the picture is well formed.
mod common;
use common::{example_list, open, random_list, random_request, Dice, Folder, MODELS};
use desk::asked::scaled_price;
use desk::plot::{curves, MOST_SCALE};
use std::collections::HashMap;
use volankizo::{Bank, CandidateVerdict, Explanation, KernelInput};

/// What becomes of all models when the one at a place has its prices scaled.
fn with_scale(desk: &desk::open::Desk, input: KernelInput, place: usize, scale: u64) -> Explanation {
    let mut models: Vec<_> = desk.models.models.iter().map(|named| named.model).collect();
    let model = &mut models[place];
    let prices =
        [&mut model.input_cost_microunits_per_million_tokens, &mut model.output_cost_microunits_per_million_tokens];
    prices.into_iter().for_each(|price| *price = scaled_price(*price, scale));
    desk.policy.policy.explain(&models.into_iter().collect::<Bank>(), input).expect("an explanation")
}

/// Each point is the utility that an explanation of the whole list tells, each sample without a point isn't eligible, and a dot is the
/// highest price at which the model is chosen.
#[test]
fn points_and_dots_are_the_librarys() {
    let (mut dice, mut points, mut dots) = (Dice::new(29), 0, 0);
    for _ in 0..25 {
        let (desk, input) = (random_list(15, &mut dice), random_request(&mut dice));
        let told = desk.explain(input).expect("an explanation");
        if told.decision.reason.stops_request() {
            continue;
        }
        for curve in curves(&desk, input, &told, &[]).expect("curves") {
            let place = desk.models.place_of(&curve.name).expect("a place");
            let drawn: HashMap<u64, i64> = curve.points.iter().map(|point| (point.scale, point.utility)).collect();
            for scale in (0..=MOST_SCALE).step_by(120_000).chain(curve.boundary.map(|point| point.scale)) {
                let utility = match with_scale(&desk, input, place, scale).candidates[place].verdict {
                    CandidateVerdict::Eligible(terms) => Some(terms.utility),
                    _ => None,
                };
                assert_eq!(drawn.get(&scale).copied(), utility, "{} at {scale}", curve.name);
                points += usize::from(utility.is_some());
            }
            if let Some(dot) = curve.boundary {
                let chosen = |scale| desk.chosen(&with_scale(&desk, input, place, scale).decision) == Some(place);
                assert!(chosen(dot.scale) && !chosen(dot.scale + 1), "{} at {}", curve.name, dot.scale);
                dots += 1;
            }
        }
    }
    assert!(points > 200 && dots > 20, "{points} points and {dots} dots");
}

/// A text of a picture: what it says, where, and on which side of that place it begins.
type Word = (String, i32, i32, String);

/// The texts of a picture, and how often each tag is met. Fails where it isn't well formed.
fn read(svg: &str) -> (Vec<Word>, HashMap<String, usize>) {
    let (mut open, mut texts, mut tags) = (Vec::new(), Vec::new(), HashMap::new());
    let mut rest = svg;
    while let Some(at) = rest.find('<') {
        let between = unescaped(&rest[..at]);
        if let Some(("text", attributes)) =
            open.last().map(|(tag, attributes): &(&str, HashMap<&str, String>)| (*tag, attributes))
        {
            let number = |name: &str| attributes[name].parse().expect("a number");
            texts.push((between.trim().to_owned(), number("x"), number("y"), attributes["text-anchor"].clone()));
        } else {
            assert_eq!(between.trim(), "");
        }
        let end = rest[at..].find('>').expect("a tag's end") + at;
        let inside = &rest[at + 1..end];
        if let Some(name) = inside.strip_prefix('/') {
            assert_eq!(open.pop().expect("an open tag").0, name);
        } else {
            let (name, attributes) = inside.trim_end_matches('/').split_once(' ').expect("attributes");
            *tags.entry(name.to_owned()).or_insert(0) += 1;
            let attributes = attributes_of(attributes);
            if !inside.ends_with('/') {
                open.push((name, attributes));
            }
        }
        rest = &rest[end + 1..];
    }
    assert!(open.is_empty() && rest.trim().is_empty());
    (texts, tags)
}

fn attributes_of(mut text: &str) -> HashMap<&str, String> {
    let mut attributes = HashMap::new();
    while let Some((name, rest)) = text.split_once("=\"") {
        let (value, rest) = rest.split_once('"').expect("a quoted value");
        assert!(attributes.insert(name.trim(), unescaped(value)).is_none(), "{name} twice");
        text = rest;
    }
    assert_eq!(text.trim(), "");
    attributes
}

/// A text of XML as it is read; a bare mark or a letter that XML can't have is a fault.
fn unescaped(text: &str) -> String {
    assert!(
        !text.contains(['<', '>'])
            && text.chars().all(|letter| letter == '\n' || !(letter.is_control() || letter == '\u{fffe}')),
        "{text:?}"
    );
    let known = [("&lt;", "<"), ("&gt;", ">"), ("&quot;", "\""), ("&apos;", "'")];
    let plain = known.iter().fold(text.to_owned(), |text, (written, letter)| text.replace(written, letter));
    assert_eq!(plain.matches('&').count(), plain.matches("&amp;").count(), "{text:?}");
    plain.replace("&amp;", "&")
}

fn words(svg: &str) -> Vec<String> {
    read(svg).0.into_iter().map(|(text, ..)| text).collect()
}

#[test]
fn the_worked_example() {
    let folder = Folder::example();
    assert_eq!(folder.told(&["plot", "-o", "plot.svg"]), "");
    let svg = folder.text("plot.svg");
    let (words, (_, tags)) = (words(&svg), read(&svg));
    for wanted in [
        "Utility against price: request 42 of requests.csv",
        "Chosen: Brio, at a cost of 0.0003 EUR, with a utility of 0.0062 EUR.",
        "utility, in EUR",
        "price, in percent of today's",
        "100 % (today)",
        "44.3 %",
        "Alto",
        "wins at 44.3 % or less",
        "chosen, up to 433.0 %",
        "to beat: the chosen model's utility today",
        "0.0062",
        "0.0052",
    ] {
        assert!(words.iter().any(|word| word == wanted), "{wanted} is not in {words:?}");
    }
    // Alto's dot alone: Brio's is beyond the plot.
    assert_eq!(tags["circle"], 1);
    assert_eq!(folder.told(&["plot", "-o", "-"]), svg);
}

/// A dot and a flag for each boundary in the plot, and no flag upon another, however many models are named.
#[test]
fn flags_stand_apart() {
    let mut dice = Dice::new(12);
    for count in [2, 5, 20] {
        let models: String = (3..count + 3)
            .map(|id| {
                format!(
                    "M{id},{id},1,{},8000,yes,{},0,0,{},9\n",
                    8_500 + dice.below(1_400),
                    20 + dice.below(80),
                    1 + dice.below(6)
                )
            })
            .collect();
        let folder = Folder::example().with("models.csv", format!("{MODELS}{models}"));
        let names: Vec<String> = (3..count + 3).map(|id| format!("M{id}")).collect();
        let mut arguments = vec!["plot", "-o", "-"];
        arguments.extend(names.iter().map(String::as_str));
        let svg = folder.told(&arguments);
        let (texts, tags) = read(&svg);
        let frame = texts.iter().find(|(text, ..)| text == "0 %").expect("the axis").2;
        let flags: Vec<_> = texts
            .iter()
            .filter(|(text, _, y, side)| text.ends_with(" %") && *y < frame - 20 && side == "start")
            .collect();
        assert_eq!(flags.len(), tags["circle"]);
        assert!(flags.len() * 2 >= count, "{flags:?}");
        for (place, (_, x, y, _)) in flags.iter().enumerate() {
            for (_, other_x, other_y, _) in &flags[..place] {
                // The line up to the right one ends below the left one's text.
                let ((left_x, left_y), (right_x, right_y)) =
                    ((other_x, other_y).min((x, y)), (other_x, other_y).max((x, y)));
                assert!(right_x - left_x >= 58 || right_y - left_y >= 15, "{flags:?}");
            }
        }
        let rows = texts.iter().filter(|(text, ..)| {
            text.starts_with("wins at") || text.starts_with("chosen,") || text == "no price would do"
        });
        assert!((count..=count + 2).contains(&rows.count()));
    }
}

#[test]
fn names_are_escaped() {
    // The last letter is one that XML can't have.
    let name = "A<b>&'c'\u{fffe}";
    let folder = Folder::example().but("models.csv", "Alto", name).but("requests.csv", "Alto", "1");
    let svg = folder.told(&["plot", "-o", "-"]);
    assert!(words(&svg).contains(&"A<b>&'c'\u{fffd}".to_owned()), "{svg}");
    assert!(svg.contains("A&lt;b&gt;&amp;&apos;c&apos;"), "{svg}");
    let long = "W".repeat(200);
    let folder = Folder::example().but("models.csv", "Alto", &long).but("requests.csv", "Alto", "1");
    let words = words(&folder.told(&["plot", "-o", "-"]));
    assert!(
        words.iter().all(|word| word.len() < 120)
            && words.iter().any(|word| word.starts_with("WWW") && word.ends_with("..")),
        "{words:?}"
    );
}

#[test]
fn where_no_price_would_do() {
    let three =
        "Low,3,1,4000,8000,yes,50,0,0,1,2\nOff,4,1,9500,8000,no,50,0,0,1,2\nFree,5,0,8100,8000,yes,200,0,0,0,0\n";
    let folder = Folder::example().with("models.csv", format!("{MODELS}{three}"));
    let words = words(&folder.told(&["plot", "-o", "-", "Low", "Off", "Free"]));
    let behind = |name: &str| {
        let at = words.iter().position(|word| word == name).expect("a row");
        (words[at + 1].as_str(), words[at + 2].as_str())
    };
    assert_eq!(behind("Low"), ("quality below the one required", "no price would do"));
    assert_eq!(behind("Off"), ("switched off", "no price would do"));
    assert_eq!(behind("Free"), ("0.0051", "no price would do"));
}

/// Nothing is chosen, since all are over budget: the picture shows at which price each would be.
#[test]
fn nothing_chosen() {
    let svg = example_list().told(&["plot", "--request", "4", "-o", "-"]);
    let (words, (_, tags)) = (words(&svg), read(&svg));
    assert_eq!((tags["circle"], words.iter().filter(|word| *word == "over budget").count()), (6, 6));
    assert!(words.contains(&"to beat: nothing, since no model is chosen".to_owned()), "{words:?}");
}

/// Odd numbers: one free model, the largest amounts, amounts of a few microunits.
#[test]
fn odd_numbers() {
    let one = Folder::example()
        .with(
            "models.csv",
            MODELS.lines().next().expect("a header").to_owned() + "\nSolo,1,0,9000,8000,yes,100,0,0,0,0\n",
        )
        .but("requests.csv", "Alto", "1");
    assert!(words(&one.told(&["plot", "-o", "-"])).contains(&"chosen, at any price".to_owned()));
    // beyond a thousand times today's price the library looks no further
    let cheap = Folder::example()
        .with(
            "models.csv",
            MODELS.lines().next().expect("a header").to_owned() + "\nSolo,1,0,9000,8000,yes,100,0,0,0.000001,0.000001\n",
        )
        .but("requests.csv", "Alto", "1");
    assert!(words(&cheap.told(&["plot", "-o", "-"])).contains(&"chosen, up to 1000 times".to_owned()));
    let largest =
        Folder::example().but("requests.csv", "10000,5000,1000", "9223372036854775807,18446744073709551615,0");
    read(&largest.told(&["plot", "-o", "-"]));
    let dear = Folder::example().but("models.csv", ",3,15", ",18446744073709.551615,18446744073709.551615");
    read(&dear.told(&["plot", "-o", "-"]));
    let small = Folder::example().but("requests.csv", "100,100,10000", "2,1,1200");
    read(&small.told(&["plot", "-o", "-"]));
}

#[test]
fn what_is_refused() {
    let folder = example_list();
    let refused = |arguments: &[&str], status: i32, words: &str| {
        let ran = folder.run(&[&["plot"], arguments].concat());
        assert_eq!((ran.status, ran.out.as_str()), (status, ""), "{arguments:?}: {}", ran.err);
        assert!(ran.err.contains(words), "{arguments:?}: {}", ran.err);
    };
    refused(&["--request", "5", "-o", "plot.svg"], 1, "there is no picture. Nothing is chosen: the request is stopped");
    refused(&["--request", "9", "-o", "plot.svg"], 1, "no request with the sequence number 9");
    refused(&["--request", "1", "-o", "plot.svg", "Auralis Larg"], 1, "did you mean Auralis Large?");
    refused(&["--request", "1", "-o", "no/such/folder/plot.svg"], 1, "can't be written");
    refused(&["-o", "plot.svg"], 2, "tell one by its sequence number");
    refused(&["--request", "1"], 2, "--output");
    refused(&["--request", "1", "-o", "policy.csv"], 2, "policy.csv is read here");
    let many: Vec<&str> = std::iter::repeat("Auralis Large").take(21).collect();
    refused(&[&["--request", "1", "-o", "plot.svg"], many.as_slice()].concat(), 2, "a picture shows at most 20");
    assert_eq!(folder.files(), ["models.csv", "policy.csv", "requests.csv"]);
    let alone = MODELS.lines().next().expect("a header").to_owned() + "\nLow,1,0,100,8000,yes,100,0,0,1,1\n";
    let never =
        Folder::example().with("models.csv", alone).but("requests.csv", "Alto", "1").run(&["plot", "-o", "plot.svg"]);
    assert_eq!(never.status, 1);
    assert!(
        never
            .err
            .ends_with("there is no picture of request 42: no model that would be shown is eligible at any price\n"),
        "{}",
        never.err
    );
}

/// The picture in the papers is the one that its command draws.
#[test]
fn the_picture_in_the_papers() {
    let drawn = example_list().told(&["plot", "--request", "1", "-o", "-"]);
    assert!(drawn == include_str!("../../docs/desk-plot.svg"), "docs/desk-plot.svg is not what desk plot draws");
    assert!(drawn.len() < 60_000);
    let desk = open(&example_list());
    let input = desk.request(Some(1)).expect("a request").input;
    let told = desk.explain(input).expect("an explanation");
    assert_eq!(curves(&desk, input, &told, &[]).expect("curves").len(), 6);
}
