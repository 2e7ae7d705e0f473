//! The file of names, and the names that it refuses.
mod common;
use common::Folder;

fn refused(names: &str, line: &str) {
    let ran = Folder::example().with("names.csv", format!("kind,number,name\n{names}")).run(&[
        "table",
        "--names",
        "names.csv",
    ]);
    assert_eq!((ran.status, ran.out.as_str(), ran.err), (1, "", format!("desk: {line}\n")));
}

#[test]
fn bad_names() {
    refused(
        "colour,1,red\n",
        "names.csv, line 2, column kind: \"colour\" is no kind; model, provider, capability or region was wanted",
    );
    refused(
        "provider,64,Largo\n",
        "names.csv, line 2, column number: 64 is out of range; providers, capabilities and regions go from 0 to 63",
    );
    refused(
        "provider,1,Largo\nprovider,1,Lento\n",
        "names.csv, line 3, column name: provider 1 has the name \"Largo\" already",
    );
    refused(
        "region,1,eu\nregion,2,eu\n",
        "names.csv, line 3, column name: the name \"eu\" stands for region 1 already",
    );
    refused("model,0,Alto\n", "names.csv, line 2, column number: a model's id is 0; ids begin with 1");
    refused("model,1,Alto\nmodel,1,Brio\n", "names.csv, line 3, column number: model 1 has the name \"Alto\" already");
    refused(
        "model,1,Alto\nmodel,2,Alto\n",
        "names.csv, line 3, column name: the name \"Alto\" is that of model 1 already",
    );
    refused("model,7,Alto\n", "models.csv, line 2, column id: \"Alto\" has id 1 here and 7 in the file of names");
    refused(
        "model,7,Cora\nmodel,2,Dora\n",
        "models.csv, line 3, column id: \"Brio\" has id 2 here, which is that of \"Dora\" in the file of names",
    );
    refused("model,1,None\n", "names.csv, line 2, column name: a model can't be called None, which requests none");
    refused("model,1,7\n", "names.csv, line 2, column name: the name \"7\" is a number, but not the model's id, 1");
    refused(
        "region,1,eu\nregion,2,EU\n",
        "names.csv, line 3, column name: \"EU\" and \"eu\" differ by capitals alone; write one of them throughout",
    );
    for name in ["all", "none", "12", "a|b", "All", "NONE"] {
        let line = "can't be a name: a number, \"all\", \"none\" or a text with | in it is read otherwise";
        refused(&format!("capability,0,{name}\n"), &format!("names.csv, line 2, column name: \"{name}\" {line}"));
    }
}

/// Names stand for the numbers in the files, which may have either.
#[test]
fn names_for_numbers() {
    let folder = Folder::example()
        .with("names.csv", "number,kind,name\n0,Provider,Largo\n1,capability,speakers\n0,capability,captions\n");
    let folder =
        folder.but("requests.csv", "5000,0\n", "5000,speakers\n").but("models.csv", "Alto,1,0", "Alto,1,Largo");
    let told = folder.told(&["why", "Brio", "--names", "names.csv"]);
    assert!(
        told.contains("Brio is rejected: its capabilities, captions, lack some of those required, speakers.\n"),
        "{told}"
    );
}

/// Ids come from the file of names where the list has none; a model that isn't in it has none.
#[test]
fn ids_by_name() {
    let folder = Folder::example().but("models.csv", "name,id,", "name,").but("models.csv", "Alto,1,", "Alto,").but(
        "models.csv",
        "Brio,2,",
        "Brio,",
    );
    let folder = folder.with("names.csv", "kind,number,name\nmodel,70,Brio\nmodel,8,Alto\n");
    let told = folder.told(&["why", "Alto", "--numbers", "--names", "names.csv"]);
    assert!(told.contains("Model 8 is outranked by model 70: "), "{told}");
    let folder = folder.with("names.csv", "kind,number,name\nmodel,70,Brio\n");
    let ran = folder.run(&["table", "--names", "names.csv"]);
    assert_eq!(
        (ran.status, ran.err.as_str()),
        (1, "desk: models.csv, line 2: \"Alto\" isn't in names.csv; add it there, or give it an id here, or let pack number it with \
             --names-out FILE beside --names\n")
    );
}

/// A list grows: with --names-out beside --names new names get numbers that none ever had, and names that are gone stay written down.
#[test]
fn a_list_grows() {
    let list = "name,provider,quality_bps,risk_ceiling_bps,latency_ms,input_price_per_million,output_price_per_million";
    let alto = "Alto,Largo,9000,8000,100,3,15\n";
    let folder = Folder::example().with("models.csv", format!("{list}\n{alto}Brio,Lento,8000,8000,50,1,2\n")).but(
        "requests.csv",
        "5000,0\n",
        "5000,none\n",
    );
    folder.told(&["pack", "--stored", "1.bin", "--names-out", "names1.csv"]);
    let folder = folder.with("models.csv", format!("{list}\nCora,Iris,8000,8000,50,1,2\n{alto}"));
    let ran = folder.run(&["pack", "--stored", "2.bin", "--names", "names1.csv"]);
    assert_eq!(ran.status, 1);
    assert!(
        ran.err.contains("\"Cora\" isn't in names1.csv; add it there, or give it an id here, or let pack"),
        "{}",
        ran.err
    );
    folder.told(&["pack", "--stored", "2.bin", "--names", "names1.csv", "--names-out", "names2.csv"]);
    assert_eq!(
        folder.text("names2.csv"),
        "kind,number,name\nmodel,3,Cora\nmodel,1,Alto\nmodel,2,Brio\nprovider,0,Largo\nprovider,1,Lento\nprovider,2,Iris\n"
    );
    folder.told(&["unpack", "2.bin", "--models-out", "m.csv", "--names", "names2.csv"]);
    assert!(folder.text("m.csv").contains("\nCora,3,Iris,8000,"), "{}", folder.text("m.csv"));
    // A request may still name what the list has no more.
    let gone = folder.but("requests.csv", "42,Alto", "42,Brio");
    assert!(gone.told(&["table", "--names", "names2.csv"]).contains("The requested model 2 is not listed.\n"));
    assert_eq!(gone.run(&["table"]).status, 1);
}

/// What unpack writes is read again, whatever its models are called.
#[test]
fn made_up_names_are_free() {
    let folder = Folder::example().with("names.csv", "kind,number,name\nmodel,1,model-2\n");
    folder.told(&["pack", "--stored", "s.bin"]);
    folder.told(&["unpack", "s.bin", "--models-out", "m.csv", "--names", "names.csv"]);
    assert!(folder.text("m.csv").contains("\nmodel-2',2,"), "{}", folder.text("m.csv"));
    folder.told(&["pack", "--models", "m.csv", "--stored", "again.bin", "--names", "names.csv"]);
    assert_eq!(folder.bytes("again.bin"), folder.bytes("s.bin"));
}
