//! The sentences about a model, each kind once: word for word as `ask ID words` has them, and in names and currency.
mod common;
use common::Folder;

/// With a third model, of id 3, as good as nothing stands in its way: it would be worth 7,700 microunits.
const THIRD: &str = "Cedro,3,1,9500,8000,yes,50,0|1,0,1,2";

fn with_third(third: &str) -> Folder {
    Folder::example().but("models.csv", "0,0,1,2\n", &format!("0,0,1,2\n{third}\n"))
}

/// The third model with something else in place of what it has.
fn third(old: &str, new: &str) -> Folder {
    assert!(THIRD.contains(old), "{old}");
    with_third(&THIRD.replacen(old, new, 1))
}

fn numbers(folder: &Folder, model: &str) -> Vec<String> {
    folder.told(&["why", model, "--numbers"]).lines().map(str::to_owned).collect()
}

fn names(folder: &Folder, model: &str) -> Vec<String> {
    folder.told(&["why", model]).lines().map(str::to_owned).collect()
}

const CHOSEN: &str = "Chosen: model 2, at a cost of 300 microunits, with a utility of 6200 microunits.";
const CHOSEN_BY_NAME: &str = "Chosen: Brio, at a cost of 0.0003 EUR, with a utility of 0.0062 EUR.";
const NO_PRICE: &str = "Price alone: no price, not even 0, would make it the choice.";
const NOTHING_ELSE: &str = "Nor would its quality, latency or risk ceiling alone.";

#[test]
fn outranked_by_utility() {
    let folder = Folder::example();
    assert_eq!(
        numbers(&folder, "1"),
        [
            CHOSEN,
            "Model 1 is outranked by model 2: its utility of 5200 microunits is below 6200.",
            "Price alone: it must fall by 55.7 percent or more; exactly, by 55.6667 percent, to 44.3333 percent of today's, where the request \
             costs 798 microunits.",
        ]
    );
    assert_eq!(
        names(&folder, "Alto"),
        [
            CHOSEN_BY_NAME,
            "Alto is outranked by Brio: its utility of 0.0052 EUR is below 0.0062.",
            "Price alone: it must fall by 55.7 percent or more; to the millionth, by 55.6667 percent, to 44.3333 percent of today's, from 3 and 15 per \
             million tokens in and out to 1.329999 and 6.649995, where the request costs 0.000798 EUR.",
        ]
    );
}

#[test]
fn outranked_in_a_tie() {
    // 100 microunits dearer for 10 ms less; 100 basis points better for 10 ms more; the same.
    let dearer = third("9500,8000,yes,50,0|1,0,1,2", "8000,8000,yes,40,0|1,0,1,3");
    assert_eq!(
        numbers(&dearer, "3")[1],
        "Model 3 is outranked by model 2: at the same utility, its cost of 400 microunits is above 300."
    );
    assert_eq!(
        names(&dearer, "3")[1],
        "Cedro is outranked by Brio: at the same utility, its cost of 0.0004 EUR is above 0.0003."
    );
    let worse = third("9500,8000,yes,50", "7900,8000,yes,40");
    let said = "is outranked by model 2: at the same utility and cost, its quality of 7900 basis points is below 8000.";
    assert_eq!(numbers(&worse, "3")[1], format!("Model 3 {said}"));
    let equal = third("9500", "8000");
    assert_eq!(
        numbers(&equal, "3")[1],
        "Model 3 is outranked by model 2: at the same utility, cost and quality, the lower id goes first."
    );
}

#[test]
fn chosen_already() {
    let folder = Folder::example();
    let already = "Price alone: not searched, since the model is chosen already.";
    assert_eq!(numbers(&folder, "2"), [CHOSEN, "Model 2 is chosen already.", already]);
    assert_eq!(names(&folder, "Brio"), [CHOSEN_BY_NAME, "Brio is chosen already.", already]);
}

#[test]
fn a_requested_model_that_is_not_listed() {
    let folder = Folder::example().but("requests.csv", "Alto", "9");
    assert_eq!(numbers(&folder, "2")[1], "The requested model 9 is not listed.");
    assert_eq!(names(&folder, "2")[1], "The requested model 9 is not listed.");
    let none = Folder::example().but("requests.csv", "Alto", "none");
    assert_eq!(numbers(&none, "2")[1], "The requested model 0 is not listed.");
    assert_eq!(names(&none, "2")[1], "Brio is chosen already.");
}

#[test]
fn a_request_that_is_stopped() {
    let rest = ["No change to a model would help.", "Price alone: not searched, since the request is stopped."];
    let risk = Folder::example().but("requests.csv", "5000,1000,", "5000,9000,");
    let stopped = "Nothing is chosen: the request is stopped, since its risk of 9000 basis points is not below the policy's hard limit of 9000.";
    assert_eq!(numbers(&risk, "1"), [&[stopped], &rest[..]].concat());
    assert_eq!(names(&risk, "1"), [&[stopped], &rest[..]].concat());
    let confidence = Folder::example().but("requests.csv", "1000,10000,", "1000,1999,");
    let stopped = "Nothing is chosen: the request is stopped, since its confidence of 1999 basis points is below the policy's minimum of 2000.";
    assert_eq!(numbers(&confidence, "1"), [&[stopped], &rest[..]].concat());
}

#[test]
fn nothing_eligible() {
    let folder = Folder::example().but("requests.csv", "10000,5000,1000", "10000,299,1000");
    assert_eq!(
        numbers(&folder, "1"),
        [
            "Nothing is chosen: no model is eligible, with reason 108.",
            "Model 1 is over budget: it costs 1800 microunits, 1501 more than the budget of 299.",
            "Price alone: it must fall by 83.4 percent or more; exactly, by 83.4000 percent, to 16.6000 percent of today's, where the request \
             costs 299 microunits.",
        ]
    );
    let told = names(&folder, "1");
    assert_eq!(told[0], "Nothing is chosen: no model is eligible; the foremost reason is the budget (reason 108).");
    assert_eq!(told[1], "Alto is over budget: it costs 0.0018 EUR, 0.001501 more than the budget of 0.000299.");
}

#[test]
fn switched_off() {
    let unsearched = "Price alone: not searched, since the model is switched off.";
    let better = third("yes", "no");
    assert_eq!(
        numbers(&better, "3"),
        [CHOSEN, "Model 3 is switched off.", unsearched, "Switched on, it would be chosen."]
    );
    assert_eq!(
        names(&better, "3"),
        [CHOSEN_BY_NAME, "Cedro is switched off.", unsearched, "Switched on, it would be chosen."]
    );
    let worse = third("9500,8000,yes", "8000,8000,no");
    assert_eq!(
        numbers(&worse, "3"),
        [CHOSEN, "Model 3 is switched off.", unsearched, "Switched on, it would still not be chosen."]
    );
}

#[test]
fn gates_of_quality_and_latency() {
    let poor = third("9500", "4000");
    assert_eq!(
        numbers(&poor, "3"),
        [
            CHOSEN,
            "Model 3 is rejected: its quality of 4000 basis points is below the 5000 required.",
            NO_PRICE,
            "Quality alone: 4000 basis points today; it must rise to at least 8001.",
        ]
    );
    let slow = third("yes,50", "yes,100")
        .but("requests.csv", "required_capabilities", "required_capabilities,latency_limit_ms")
        .but("requests.csv", "5000,0\n", "5000,0,50\n");
    assert_eq!(
        numbers(&slow, "3"),
        [
            CHOSEN,
            "Model 3 is rejected: its latency of 100 ms is above the limit of 50 ms.",
            NO_PRICE,
            "Latency alone: 100 ms today; it must fall to at most 50 ms.",
        ]
    );
}

#[test]
fn gates_of_masks() {
    let named = |folder: Folder| {
        folder.but("models.csv", "100,0|1,0", "100,captions|speakers,eu").but(
            "models.csv",
            "50,0,0",
            "50,captions|speakers,eu",
        )
    };
    let capabilities = third("0|1", "0")
        .but("models.csv", "Brio,2,1,8000,8000,yes,50,0", "Brio,2,1,8000,8000,yes,50,0|1")
        .but("requests.csv", "5000,0\n", "5000,0|1\n");
    let told = "Model 3 is rejected: its capabilities, mask 1, lack some of those required, mask 3.";
    assert_eq!(numbers(&capabilities, "3"), [CHOSEN, told, NO_PRICE, NOTHING_ELSE]);
    let capabilities = named(third("0|1,0", "captions,eu")).but("requests.csv", "5000,0\n", "5000,captions|speakers\n");
    let told = "Cedro is rejected: its capabilities, captions, lack some of those required, captions and speakers.";
    assert_eq!(names(&capabilities, "3"), [CHOSEN_BY_NAME, told, NO_PRICE, NOTHING_ELSE]);
    let provider = third("3,1,9500", "3,3,9500").but("requests.csv", "required_capabilities", "allowed_providers").but(
        "requests.csv",
        "5000,0\n",
        "5000,0|1\n",
    );
    let told = "Model 3 is rejected: its provider 3 is not among those allowed, mask 3.";
    assert_eq!(numbers(&provider, "3"), [CHOSEN, told, NO_PRICE, NOTHING_ELSE]);
    let region = third("0|1,0", "0|1,1").but("requests.csv", "required_capabilities", "required_regions").but(
        "requests.csv",
        "5000,0\n",
        "5000,0\n",
    );
    let told = "Model 3 is rejected: its regions, mask 2, have none of those required, mask 1.";
    assert_eq!(numbers(&region, "3"), [CHOSEN, told, NO_PRICE, NOTHING_ELSE]);
}

#[test]
fn the_gate_of_risk_and_a_utility_of_nothing() {
    let risky = third("9500,8000", "9500,900");
    assert_eq!(
        numbers(&risky, "3"),
        [
            CHOSEN,
            "Model 3 is rejected: the request's risk of 1000 basis points is above its ceiling of 900.",
            NO_PRICE,
            "Risk ceiling alone: 900 basis points today; it must rise to at least 1000.",
        ]
    );
    let worthless = third("yes,50", "yes,850");
    let told = numbers(&worthless, "3");
    assert_eq!(told[1], "Model 3 is rejected: its utility of -300 microunits is not above 0.");
    assert_eq!(names(&worthless, "3")[1], "Cedro is rejected: its utility of -0.0003 EUR is not above 0.");
}

#[test]
fn several_levers() {
    let close = Folder::example().but("models.csv", "3,15", "3,6");
    assert_eq!(
        numbers(&close, "1")[2..],
        [
            "Price alone: it must fall by 11.4 percent or more; exactly, by 11.3334 percent, to 88.6666 percent of today's, where the request \
             costs 798 microunits.",
            "Quality alone: 9000 basis points today; it must rise to at least 9101.",
            "Latency alone: 100 ms today; it must fall to at most 89 ms.",
        ]
    );
}
