//! The command as it is called: exit statuses, what is printed, files whole or not at all.

mod common;

use common::{sample, sample_path, tool, Folder};
use side::common::{p_prime, P, T1, T5};

/// A path of a file for the words of a call.
fn strs(words: &[String]) -> Vec<&str> {
    words.iter().map(String::as_str).collect()
}

fn run(words: &[&str]) -> (i32, String) {
    let (status, out, trouble) = tool(words);
    assert_eq!(trouble.is_empty(), status != 2, "{trouble}");
    (status, out)
}

#[test]
fn from_a_text_to_a_table() {
    let folder = Folder::new("house");
    let [sheet, plant, table] = ["sheet", "plant", "table"].map(|name| folder.path(name));
    assert_eq!(run(&["write", &sample_path("house.txt"), &sheet]), (0, "done: a sheet of 117 bytes\n".into()));
    assert_eq!(run(&["sheet", &sheet, &plant]), (0, "done: 2 rooms, 4 modes, 95 bytes\n".into()));
    assert_eq!(run(&["make", &plant, &table]), (0, "done: 1 tile, longest pattern 5, 8 bytes\n".into()));
    assert_eq!(run(&["check", &plant, &table]), (0, "accepted\n".into()));
    assert_eq!(std::fs::read(&sheet).unwrap(), sample("house.sheet"));
    assert_eq!(std::fs::read(&plant).unwrap(), sample("house.plant"));
    assert_eq!(std::fs::read(&table).unwrap(), [1, 2, 5, 0, 2, 1, 0, 0]);
    assert_eq!(folder.names(), ["plant", "sheet", "table"]);
    let (status, shown) = run(&["show", &table, &sheet]);
    assert_eq!(status, 0);
    assert!(shown.contains("tile 20.00 .. 22.00 by 20.00 .. 22.00 degrees modes 0 2 1 0 0 # byte 2, depth 0, 2000 .. 2200 by 2000 .. 2200 counts\n"), "{shown}");
    assert_eq!(run(&["show", "table", &table, &plant]).0, 0);
}

/// The README's text that begins with a line, up to the line "Then".
fn readme_text(readme: &str, first: &str) -> String {
    let lines = readme.lines().map(|line| line.strip_prefix("    ").unwrap_or(line));
    let text: Vec<&str> = lines.skip_while(|line| *line != first).take_while(|line| *line != "Then").collect();
    text.join("\n")
}

#[test]
fn the_readme_s_room() {
    let readme = std::fs::read_to_string(sample_path("../README.md")).unwrap();
    let text = readme_text(&readme, "sheet form 1");
    let folder = Folder::new("readme");
    let [sheet, plant, table, chain, start, page] = ["sheet", "plant", "table", "chain", "start", "page"].map(|name| folder.path(name));
    assert_eq!(run(&["write", &folder.put("text", &text), &sheet]).0, 0);
    assert_eq!(run(&["sheet", &sheet, &plant]).0, 0);
    assert_eq!(run(&["make", &plant, &table]).0, 0);
    assert_eq!(run(&["check", &plant, &table]), (0, "accepted\n".into()));
    assert_eq!(run(&["picture", &sheet, &table, &page]).0, 0);
    assert_eq!(run(&["release", &sheet, &table, &page]).0, 0);
    let fault = run(&["write", &folder.put("fault", text.replace("19.5 ..", "19.55 ..")), &sheet]).1;
    assert!(readme.contains(fault.split_once(", ").unwrap().1.trim_end()), "{fault}");
    assert_eq!(run(&["write", &folder.put("cold", readme_text(&readme, "chain form 1")), &chain]).0, 0);
    assert_eq!(run(&["make", "start", &plant, &chain, &start]).0, 0);
    assert_eq!(run(&["check", "start", &plant, &start]), (0, "accepted\n".into()));
    assert_eq!(run(&["release", &sheet, &start, &page]).0, 0);
}

#[test]
fn show_and_write_give_the_text_and_the_file_back() {
    let folder = Folder::new("show");
    for name in ["P.plant", "fan.plant", "valves.plant", "house.plant", "house.sheet"] {
        let (status, text) = run(&["show", &sample_path(name)]);
        assert_eq!(status, 0);
        let (text_path, path) = (folder.put("text", &text), folder.path("file"));
        assert_eq!(run(&["write", &text_path, &path]).0, 0);
        assert_eq!(std::fs::read(&path).unwrap(), sample(name));
        assert_eq!(run(&["show", &path]).1, text);
    }
}

#[test]
fn refusals_come_with_number_place_and_cause() {
    let folder = Folder::new("refusals");
    let (plant, table) = (folder.put("P", P), folder.put("T", T1));
    assert_eq!(
        run(&["check", &sample_path("house.plant"), &table]),
        (1, "refused 6 1 0: table: n differs, node over K, mode not below N, a split too deep or not possible, bytes left over\n6 at byte 1: the table is for 1 room, the plant has 2\n".into())
    );
    let cut = folder.put("cut", &P[..3]);
    assert_eq!(
        run(&["check", &cut, &table]),
        (1, "refused 1 3 0: a number or float ends early, is over 5 bytes, or not shortest\nthe plant, 1 at byte 3: q ends early\n".into())
    );
    assert_eq!(run(&["make", &cut, &folder.path("none")]).0, 1);
    let kept = folder.put("kept", "as it was");
    assert_eq!(run(&["make", &cut, &kept]).0, 1);
    assert_eq!(std::fs::read(&kept).unwrap(), b"as it was");
    assert_eq!(run(&["drive", &plant, &table, "200", "0"]).1.lines().next(), Some("200 : 1 0 0"));
    assert_eq!(run(&["drive", &plant, &table, "200", "0"]).0, 1);
    let text = folder.put("text", String::from_utf8(sample("P.txt")).unwrap().replace("195 .. 225", "185 .. 225"));
    assert_eq!(run(&["write", &text, &folder.path("none")]), (1, "refused 4 0 0: R not in S\n4 in room 1: R is 185 .. 225, S is 190 .. 230\n".into()));
    let wrong = folder.put("wrong", "plant form 1\nrooms 0");
    assert_eq!(run(&["write", &wrong, &folder.path("none")]), (1, format!("refused {wrong}, line 2, column 7: expected rooms, a whole number of 1 .. 4, found `0`\n")));
    assert!(!folder.names().iter().any(|name| name.contains("none")));
}

#[test]
fn line_9_and_the_readme_s_run() {
    let folder = Folder::new("drive");
    let (plant, table) = (folder.put("P", p_prime()), folder.put("T", T5));
    assert_eq!(run(&["drive", &plant, &table, "200", "186"]), (0, "200 : 0 4 1\n186 : 1 0 0\ndriven 2 samples\n".into()));
    let house_table = folder.path("house");
    run(&["make", &sample_path("house.plant"), &house_table]);
    let (status, lines) = run(&["drive", &sample_path("house.plant"), &house_table, "any", "100", "1"]);
    assert!(status == 0 && lines.starts_with("2000 2155 : 0 4 4\n2013 2098 : 2 5 3\n") && lines.ends_with("\ndriven 100 samples\n"), "{lines}");
}

#[test]
fn a_wrong_call_or_file_is_2_and_changes_nothing() {
    let folder = Folder::new("wrong");
    let (plant, table, here) = (folder.put("P", P), folder.put("T", T1), folder.path(""));
    let away = folder.path("no/such/folder/table");
    let calls: [&[&str]; 11] = [
        &[],
        &["sing"],
        &["make", &plant],
        &["make", &here, &away],
        &["make", &plant, &away],
        &["make", &plant, &here],
        &["check", &plant, &away],
        &["drive", &plant, &table],
        &["drive", &plant, &table, "200", "x"],
        &["drive", &sample_path("house.plant"), &table, "200"],
        &["show", "table", &table],
    ];
    for words in calls {
        assert_eq!(tool(words).0, 2, "{words:?}");
    }
    assert_eq!(folder.names(), ["P", "T"]);
    let long: Vec<String> = ["make", &folder.put("long", [&P[..], &[0; 5_000_000]].concat()), &away].map(String::from).to_vec();
    assert_eq!(run(&strs(&long)).0, 1);
}

#[test]
fn a_table_of_the_form_that_is_asked_for() {
    let folder = Folder::new("forms");
    let (plant, table) = (sample_path("gallery.plant"), folder.path("table"));
    let (one, two) = ("done: 55 tiles, longest pattern 4, 183 bytes\n", "done: form 2, 55 tiles, longest pattern 4, 237 bytes\n");
    let three = "done: form 3, 9 tiles, longest pattern 4, 44 bytes\n";
    for (form, told, first) in [(&[][..], one, 1), (&["1"], one, 1), (&["2"], two, 2), (&["3"], three, 3), (&["003"], three, 3)] {
        assert_eq!(run(&[&["make", &plant, &table], form].concat()), (0, told.into()));
        assert_eq!(std::fs::read(&table).unwrap()[0], first);
        assert_eq!(run(&["check", &plant, &table]), (0, "accepted\n".into()));
    }
    let (status, shown) = run(&["show", &table, &plant]);
    assert!(status == 0 && shown.starts_with("table form 3\nrooms 2\n9 tiles, "), "{shown}");
    let (status, lines) = run(&["drive", &plant, &table, "any", "300", "1"]);
    assert!(status == 0 && lines.starts_with("1400 2424 : 3 7 3\n1553 2298 : 3 8 2\n") && lines.ends_with("\ndriven 300 samples\n"), "{lines}");
    let of_no_form = folder.put("no form", [&[4], &std::fs::read(&table).unwrap()[1..]].concat());
    let told = (1, "refused 2 0 0: form is not known\n2 at byte 0: the form is 4, wanted 1, 2 or 3\n".into());
    for call in [&["check", &plant, &of_no_form][..], &["drive", &plant, &of_no_form, "2000", "2400"], &["show", "table", &of_no_form, &plant]] {
        assert_eq!(run(call), told, "{call:?}");
    }
}

#[test]
fn a_form_that_is_not_known_is_refused_and_told() {
    let folder = Folder::new("unknown");
    let (plant, kept, chain) = (sample_path("gallery.plant"), folder.put("kept", "as it was"), folder.put("chain", [1, 0]));
    let told = |form: &str| (1, format!("refused 2 0 0: form is not known\n2: the form asked for is {form}, wanted 1, 2 or 3\n"));
    for form in ["0", "4", "258", "259", "18446744073709551615"] {
        assert_eq!(run(&["make", &plant, &kept, form]), told(form));
        assert_eq!(run(&["make", "start", &plant, &chain, &kept, form]), told(form));
    }
    // the faults of plant and chain come first
    let (cut, two) = (folder.put("cut", &P[..3]), folder.put("two", [2, 0]));
    assert_eq!(run(&["make", &cut, &kept, "4"]).1.lines().last(), Some("1 at byte 3: q ends early"));
    assert_eq!(run(&["make", "start", &cut, &chain, &kept, "4"]).1.lines().last(), Some("the plant, 1 at byte 3: q ends early"));
    assert_eq!(run(&["make", "start", &plant, &two, &kept, "4"]).1.lines().last(), Some("2 at byte 0: the form is 2, wanted 1"));
    for word in ["", "x", "+3", "-1", "3.0", " 3", "0x3", "18446744073709551616"] {
        assert_eq!(tool(&["make", &plant, &kept, word]).0, 2, "{word}");
        assert_eq!(tool(&["make", "start", &plant, &chain, &kept, word]).0, 2, "{word}");
    }
    assert_eq!(tool(&["make", &plant, &kept, "3", "3"]).0, 2);
    assert_eq!(std::fs::read(&kept).unwrap(), b"as it was");
    let usage = tool(&[]).2;
    assert!(["make PLANT TABLE [FORM] ", "make start PLANT CHAIN START [FORM],", "list [FORM] < PLANT,"].iter().all(|call| usage.contains(call)), "{usage}");
}

/// Bytes that are right as a plant and as a sheet: 12 modes of one room, whose coefficients are the floats of a room without an emitter.
#[test]
fn a_file_that_is_right_as_two_kinds_is_taken_for_neither() {
    let folder = Folder::new("both");
    let mut bytes = vec![1, 1, 12, 1, 1, 0];
    bytes.extend([0, 0, 0, 0, 0, 0]);
    let float = [0, 0, 0, 0, 0, 0, 0x10, 0x3F];
    bytes.extend([float, float, float].concat());
    bytes.push(0);
    // 25 bytes for 24 numbers: the first of them has two
    bytes[12] = 0x82;
    bytes[13] = 1;
    let both = folder.put("both", &bytes);
    let (status, out, trouble) = tool(&["show", &both]);
    assert_eq!((status, out.as_str()), (2, ""));
    assert!(trouble.contains("is right as a sheet and as a plant: say which"), "{trouble}");
    for kind in ["sheet", "plant"] {
        let (status, text) = run(&["show", kind, &both]);
        assert_eq!((status, text.split(' ').next()), (0, Some(kind)));
        let again = folder.path("again");
        assert_eq!(run(&["write", &folder.put("text", &text), &again]).0, 0);
        assert_eq!(std::fs::read(&again).unwrap(), bytes);
    }
}
