//! Names for facts and actions, from files as people write them.

use conformance::encode;
use conformance::families::idle;
use conformance::model::{Action, Formula};
use conformance::shell::status::{MALFORMED, YES};
use conformance::shell::{Manner, Names, Said, GRANT};
use conformance::version::{Version, VERSION_1};

use super::desk::{said, Desk, PLAINLY};
use crate::process::ran;

of_each_version! {
    every_command_speaks_in_names,
    names_in_any_order_and_layout,
    what_is_shown_gives_its_own_names,
    names_that_do_not_fit,
    names_of_255_and_256_bytes,
    names_for_many_facts,
}

fn names_of_the_trial() -> Names {
    Names {
        facts: ["left", "right", "done"].map(String::from).into(),
        actions: ["try-left", "done"].map(String::from).into(),
    }
}

/// By hand, and not by the oracle.
fn every_command_speaks_in_names(version: &Version) {
    let desk = Desk::of_trial("in-names", version);
    desk.put("names", names_of_the_trial().file().as_bytes());
    let lines = [
        ("judge problem wrong", "wrong { right } at end visited 5\n"),
        ("judge problem plan", "right lines 3 visited 5\n"),
        ("run problem plan 010", "reached\n"),
        (
            "facts problem plan 010",
            "rests on { right }\n\
             state 0 { right }\nstate 1 { right }\nstate 2 { right done }\n",
        ),
        ("search problem 2", "found try-left done visited 27\n"),
        (
            "search problem 2 --grant 21",
            "undecided at try-left try-left visited 21\n",
        ),
        (
            "explain problem wrong",
            "start: { right }\n\
             step 0 try-left:\n\
             end: the goal is missed, as this is false:\n  done\n",
        ),
        (
            "show problem plan",
            &format!(
                "version {}\n\
                 fact left\nfact right\nfact done\n\
                 start all( any( left right ) !done )\n\
                 goal done\n\
                 action try-left\n  sets done if left\n\
                 action done\n  sets done if right\n\
                 plan\n  try-left\n  done\n",
                version.byte
            ),
        ),
    ];
    for (line, output) in lines {
        let said = desk.says(&format!("{line} --names names"));
        assert_eq!((&said.output[..], &said.error[..]), (output, ""), "{line}");
    }
}

/// All of these say the same names.
fn names_in_any_order_and_layout(version: &Version) {
    let desk = Desk::of_trial("layout", version);
    let names = names_of_the_trial();
    let manner = Manner {
        names: &names,
        json: false,
    };
    let (problem, plan) = (desk.get("problem"), desk.get("plan"));
    let expected = manner.show(&problem, Some(&plan));
    for text in [
        "fact left\nfact right\nfact done\naction try-left\naction done",
        "action try-left action done fact left fact right fact done",
        "fact\tleft\r\n# of the tracks\n\n  action try-left\nfact right # fact wrong\nfact done\n action done\n",
        "the tracks: fact left fact right\nand fact done ( by ) action try-left , action done",
        "# fact x\nfact left#\nfact right\nfact done\naction\n\n\ntry-left\naction done # action x",
    ] {
        desk.put("names", text.as_bytes());
        desk.expect("show problem plan --names names", &expected);
    }
}

/// The text of a problem is a file of names, and so the names of a problem stay with it.
fn what_is_shown_gives_its_own_names(version: &Version) {
    let desk = Desk::of_trial("own-names", version);
    desk.put("names", names_of_the_trial().file().as_bytes());
    let shown = desk.says("show problem plan --names names");
    desk.put("text", shown.output.as_bytes());
    desk.expect("show problem plan --names text", &shown);
    let numbers = desk.says("show problem plan");
    desk.put("text", numbers.output.as_bytes());
    desk.expect("show problem plan --names text", &numbers);
}

/// A problem of 3 facts and 2 actions.
fn names_that_do_not_fit(version: &Version) {
    let desk = Desk::of_trial("unfit", version);
    let texts: [&[u8]; 16] = [
        b"fact a fact b action c action d",
        b"fact a fact b fact c fact d action c action d",
        b"fact a fact b fact c action d",
        b"fact a fact b fact c action d action e action f",
        b"fact a fact b fact c",
        b"action a action b",
        b"fact a fact b fact a action c action d",
        b"fact a fact b fact c action d action d",
        b"fact a fact b fact goal action c action d",
        b"fact a fact b fact c action any action d",
        b"fact a fact b fact !c action c action d",
        b"fact a fact b fact ( action c action d",
        b"fact a fact b fact c action c action",
        b"fact a fact b fact c action d action # e\n",
        b"fact a fact b fact \xff action c action d",
        b"fact a fact b fact c action \xc3 action d",
    ];
    for text in texts {
        desk.put("names", text);
        for line in [
            "judge problem plan",
            "write problem plan -o written",
            "follow problem plan list",
            "run problem plan 010",
            "facts problem plan 010",
            "search problem 1",
            "explain problem plan",
            "show problem",
        ] {
            let line = format!("{line} --names names");
            desk.fails(&line, MALFORMED, "names: ");
        }
    }
    assert!(!desk.files().contains("written"));
}

/// The trial's names, but for those of a fact and of an action.
fn with_names(fact: &str, action: &str) -> Names {
    let mut names = names_of_the_trial();
    names.facts[1] = fact.into();
    names.actions[1] = action.into();
    names
}

/// Bytes are counted, and not letters.
fn names_of_255_and_256_bytes(version: &Version) {
    let desk = Desk::of_trial("longest-names", version);
    let (problem, plan) = (desk.get("problem"), desk.get("plan"));
    // Shows the problem with these names, by hand, and puts the names and the text into files.
    let put = |names: &Names| {
        let manner = Manner { names, json: false };
        let shown = manner.show(&problem, Some(&plan));
        desk.put("names", names.file().as_bytes());
        desk.put("text", shown.output.as_bytes());
        shown
    };
    for name in ["x".repeat(255), "é".repeat(127) + "x"] {
        let shown = put(&with_names(&name, &name));
        desk.expect("show problem plan --names names", &shown);
        desk.expect("show problem plan --names text", &shown);
        let said = desk.says("make text -o made --plan steps");
        assert_eq!((said.status, &said.error[..]), (YES, ""));
        assert!(desk.get("made") == problem && desk.get("steps") == plan);
    }
    let words = "names: a name is missing, is given twice, has more than 255 bytes, or is no name";
    for name in ["x".repeat(256), "é".repeat(128)] {
        for (names, line) in [
            (with_names(&name, "done"), 3),
            (with_names("right", &name), 9),
        ] {
            put(&names);
            let in_a_list = Said::failing(MALFORMED, words);
            desk.expect("show problem plan --names names", &in_a_list);
            let in_a_text = Said::failing(
                MALFORMED,
                &format!("text: line {line}: this is no name, or one of more than 255 bytes"),
            );
            desk.expect("make text -o written", &in_a_text);
        }
    }
    assert!(!desk.files().contains("written"));
}

/// As many facts and actions as there can be, with long names: more text than a block.
fn names_for_many_facts(version: &Version) {
    let desk = Desk::new(&format!("many-names-{}", version.byte));
    let facts = version.most_facts;
    let mut problem = idle(*version, facts);
    problem.goal = Formula::never();
    problem.actions = vec![
        Action {
            precondition: Formula::always(),
            effects: vec![],
        };
        64
    ];
    let long = |kind: &str, count: u8| -> Vec<String> {
        (0..count)
            .map(|i| format!("{kind}-{i}-{}", "x".repeat(200)))
            .collect()
    };
    let names = Names {
        facts: long("fact", facts),
        actions: long("action", 64),
    };
    let (problem, plan) = (encode::problem(&problem), encode::plan(&[63; 256]));
    desk.put("problem", &problem);
    desk.put("plan", &plan);
    desk.put("names", names.file().as_bytes());
    let manner = Manner {
        names: &names,
        json: false,
    };
    desk.expect(
        "explain problem plan --names names",
        &manner.explain(&problem, &plan, GRANT),
    );
    let shown = manner.show(&problem, Some(&plan));
    desk.expect("show problem plan --names names", &shown);
    desk.put("text", shown.output.as_bytes());
    let said = desk.says("make text -o made --plan steps");
    assert_eq!((said.status, &said.error[..]), (YES, ""));
    assert!(desk.get("made") == problem && desk.get("steps") == plan);
}

/// A name that JSON writes otherwise, and one of many letters.
#[test]
fn names_in_json() {
    let desk = Desk::of_trial("names-in-json", &VERSION_1);
    desk.put(
        "names",
        "fact \"a\\ fact é\u{1} fact c action d action e".as_bytes(),
    );
    let said = said(ran(&mut desk.command(&[
        "explain", "problem", "wrong", "--names", "names", "--json",
    ])));
    let text = "{\"text\":\"start: { é\\u0001 }\\nstep 0 d:\\nend: the goal is missed, as this is false:\\n  c\\n\"}\n";
    assert_eq!(said.output, text);
    let said = desk.says("show problem --names names --json");
    assert!(
        said.output.contains("fact \\\"a\\\\\\nfact é\\u0001\\n"),
        "{}",
        said.output
    );
}

/// In JSON a state is its number: names change nothing there.
#[test]
fn numbers_stay_numbers_in_json() {
    let desk = Desk::of_trial("numbers-in-json", &VERSION_1);
    desk.put("names", names_of_the_trial().file().as_bytes());
    let said = desk.says("judge problem wrong --json --names names");
    let state = 0x4000_0000_0000_u64;
    let expected =
        format!("{{\"answer\":\"wrong\",\"outcome\":\"missed\",\"state\":{state},\"visits\":5}}\n");
    assert_eq!(said.output, expected);
    assert_eq!(said, desk.says("judge problem wrong --json"));
    let plainly = PLAINLY.judge(&desk.get("problem"), &desk.get("wrong"), GRANT);
    assert_eq!(said.status, plainly.status);
}
