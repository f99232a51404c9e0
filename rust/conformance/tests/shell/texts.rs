//! Showing problems and plans as text, and making blocks of it again.

use conformance::encode;
use conformance::gen::{arbitrary_text, damaged_text, names, right_task, task, Rng};
use conformance::model::{Action, Effect, Formula, Problem};
use conformance::oracle::{read_problem, Task};
use conformance::shell::status::{MALFORMED, YES};
use conformance::shell::{json, Manner, Names, Said};
use conformance::trial;
use conformance::version::{Version, MOST_PROBLEM_BYTES, VERSIONS, VERSION_1};

use super::desk::{one_line, Desk, PLAINLY};

of_each_version! {
    what_is_shown_is_made_again,
    the_longest_text_is_made_again,
    what_is_made_of_a_damaged_text_is_read,
    what_is_made_of_any_bytes_is_read,
    a_text_as_a_person_writes_it,
    what_is_wrong_with_a_text_is_told_by_its_line,
    a_text_without_a_plan,
}

#[track_caller]
fn is_made(desk: &Desk, line: &str, expected: &[(&str, &[u8])]) {
    let said = desk.says(line);
    assert_eq!(
        (said.status, &said.error[..]),
        (YES, ""),
        "{line}: {said:?}"
    );
    for (name, block) in expected {
        assert!(
            desk.get(name) == *block,
            "{line}: {name} in {}",
            desk.folder.display()
        );
    }
}

/// Whole, and byte for byte: with names and without, with a plan and without.
fn what_is_shown_is_made_again(version: &Version) {
    let rng = &mut Rng::new(0x5e21);
    let desk = Desk::new(&format!("made-again-{}", version.byte));
    for round in 0..60 {
        let Task {
            problem: tree,
            plan,
        } = match round % 2 {
            0 => task(rng, version),
            _ => right_task(rng, version),
        };
        let (problem, plan) = (encode::problem(&tree), encode::plan(&plan));
        desk.put("problem", &problem);
        desk.put("plan", &plan);
        let (names, option) = match round % 4 {
            0 | 1 => (Names::default(), ""),
            _ => (names(rng, &tree), "--names names"),
        };
        desk.put("names", names.file().as_bytes());
        let manner = Manner {
            names: &names,
            json: false,
        };
        let shown = manner.show(&problem, Some(&plan));
        desk.expect(&format!("show problem plan {option}"), &shown);
        desk.put("text", shown.output.as_bytes());
        is_made(
            &desk,
            "make text -o made --plan steps",
            &[("made", &problem), ("steps", &plan)],
        );
        let shown = manner.show(&problem, None);
        desk.expect(&format!("show problem {option}"), &shown);
        desk.put("text", shown.output.as_bytes());
        is_made(&desk, "make text -o made", &[("made", &problem)]);
    }
}

/// Groups of so many literals as there may be, in a formula of so many bytes.
fn of_bytes(bytes: usize, literal: &Formula) -> Formula {
    let groups = (bytes - 2).div_ceil(257);
    let mut literals = vec![literal.clone(); bytes - 2 - 2 * groups];
    let mut members = Vec::new();
    while !literals.is_empty() {
        let rest = literals.split_off(literals.len().min(255));
        members.push(Formula::any(literals));
        literals = rest;
    }
    Formula::all(members)
}

/// A problem whose block is full, with a literal for nearly every byte of it.
fn full_problem(version: &Version) -> Problem {
    let facts = version.most_facts;
    let last = Formula::not(facts - 1);
    let full = of_bytes(1024, &last);
    let mut effects: Vec<Effect> = (0..28).map(|f| Effect::sets(f, full.clone())).collect();
    effects.push(Effect::clears(facts - 1, of_bytes(923, &last)));
    Problem {
        version: *version,
        facts,
        initial: full.clone(),
        goal: full.clone(),
        actions: vec![Action {
            precondition: full,
            effects,
        }],
    }
}

/// The text is some 150,000 bytes shorter than any text can be at most, and is read whole.
fn the_longest_text_is_made_again(version: &Version) {
    let desk = Desk::new(&format!("longest-{}", version.byte));
    let problem = encode::problem(&full_problem(version));
    let plan = encode::plan(&[0; 256]);
    assert_eq!(problem.len(), MOST_PROBLEM_BYTES);
    desk.put("problem", &problem);
    desk.put("plan", &plan);
    let of_255_bytes = |kind: &str, count: u8| -> Vec<String> {
        (0..count).map(|i| format!("{kind}{i:x<250}")).collect()
    };
    let names = Names {
        facts: of_255_bytes("fact-", version.most_facts),
        actions: of_255_bytes("step-", 1),
    };
    desk.put("names", names.file().as_bytes());
    let shown = desk.says("show problem plan --names names");
    let expected = Manner {
        names: &names,
        json: false,
    }
    .show(&problem, Some(&plan));
    assert!(shown == expected, "in {}", desk.folder.display());
    let length = shown.output.len();
    assert!((8_350_000..=8_501_327).contains(&length), "{length}");
    desk.put("text", shown.output.as_bytes());
    is_made(
        &desk,
        "make text -o made --plan steps",
        &[("made", &problem), ("steps", &plan)],
    );
}

/// What is made, where anything is, is a problem of one of both versions, and a plan for
/// it; and where nothing is, the line of what is wrong is told.
#[track_caller]
fn is_sound_or_refused(desk: &Desk, text: &[u8], made: &mut [usize; 2]) {
    desk.put("text", text);
    desk.put("made", b"this stood there");
    let said = desk.says("make text -o made");
    if said.status == YES {
        made[1] += 1;
        let problem = read_problem(&desk.get("made"));
        assert!(problem.is_ok(), "{problem:?} of {}", desk.folder.display());
        assert_eq!(said.error, "");
        return;
    }
    made[0] += 1;
    let place = desk.folder.display().to_string();
    assert_eq!(
        (said.status, &said.output[..]),
        (MALFORMED, ""),
        "{place}: {said:?}"
    );
    one_line(&said.error, "text: line ", &place);
    assert_eq!(desk.get("made"), b"this stood there", "{place}");
    let line = said.error["larkhammock: text: line ".len()..]
        .split(':')
        .next();
    let line: usize = line.and_then(|n| n.parse().ok()).expect("a line's number");
    let lines = text.iter().filter(|byte| **byte == b'\n').count() + 1;
    assert!(
        (1..=lines).contains(&line),
        "{place}: line {line} of {lines}"
    );
}

fn what_is_made_of_a_damaged_text_is_read(version: &Version) {
    let rng = &mut Rng::new(0x5e22);
    let desk = Desk::new(&format!("damaged-texts-{}", version.byte));
    let mut made = [0; 2];
    for _ in 0..200 {
        let Task { problem, plan } = right_task(rng, version);
        let names = match rng.below(2) {
            0 => Names::default(),
            _ => names(rng, &problem),
        };
        let manner = Manner {
            names: &names,
            json: false,
        };
        let plan = rng.chance(1, 2).then(|| encode::plan(&plan));
        let shown = manner.show(&encode::problem(&problem), plan.as_deref());
        let text = damaged_text(rng, &shown.output);
        is_sound_or_refused(&desk, &text, &mut made);
    }
    assert!(made.iter().all(|count| *count >= 20), "{made:?}");
}

fn what_is_made_of_any_bytes_is_read(version: &Version) {
    let rng = &mut Rng::new(0x5e23 + u64::from(version.byte));
    let desk = Desk::new(&format!("any-texts-{}", version.byte));
    for round in 0..100 {
        let beginning = match round % 3 {
            0 => Vec::new(),
            1 => format!("version {}\n", version.byte).into_bytes(),
            _ => format!("version {} fact a fact 0 start a goal ", version.byte).into_bytes(),
        };
        let text = [beginning, arbitrary_text(rng)].concat();
        is_sound_or_refused(&desk, &text, &mut [0; 2]);
    }
}

/// The trial problem and its plan, with comments, all blanks there are, and little order.
fn a_text_as_a_person_writes_it(version: &Version) {
    let desk = Desk::of_trial("by-hand", version);
    let text = format!(
        "# At least one of two would do.\n\
         version\t{} # of the format\r\n\
         fact left fact right\n\n   fact done#the goal\n\
         start all(any(left right)!done)\n\
         goal\n done\n\
         action try-left sets done if left\n\
         action try-right # the other one\n  needs all( )\n  sets done if right\n\
         plan try-left try-right",
        version.byte
    );
    desk.put("text", text.as_bytes());
    let blocks = [
        ("made", &desk.get("problem")[..]),
        ("steps", &desk.get("plan")[..]),
    ];
    is_made(&desk, "make text -o made --plan steps", &blocks);
}

/// A text that is wrong, the line where it is, and what is said.
type Wrong = (String, usize, &'static str);

fn wrong_texts(version: &Version) -> Vec<Wrong> {
    let tables = [
        wrong_beginnings(version),
        wrong_formulas(version),
        wrong_actions(version),
        wrong_plans(version),
    ];
    tables.concat()
}

/// The first three lines, and what comes after them.
fn after_facts(version: &Version, rest: &str) -> String {
    format!("version {}\nfact a\nfact b\n{rest}", version.byte)
}

fn wrong_beginnings(version: &Version) -> Vec<Wrong> {
    let no_version = "a problem begins with version 1 or version 2";
    let no_name = "this is no name, or one of more than 255 bytes";
    let first = format!("version {}\n", version.byte);
    let most = version.most_facts;
    let facts: String = (0..=most).map(|f| format!("fact {f}\n")).collect();
    let too_many = "there are more facts than a problem of this version has";
    vec![
        ("versions 1".into(), 1, no_version),
        ("\n\nversion 3\nfact a".into(), 3, no_version),
        (first.clone() + "start a", 2, "no fact is declared"),
        (first.clone() + &facts, usize::from(most) + 2, too_many),
        (first.clone() + "fact start\n", 2, no_name),
        (first.clone() + "fact !a\n", 2, no_name),
        (first.clone() + "fact (", 2, no_name),
        (first + "fact a\nfact\n a", 4, "this name is taken"),
    ]
}

fn wrong_formulas(version: &Version) -> Vec<Wrong> {
    let p = |rest: &str| after_facts(version, rest);
    let unknown = "a fact of this name is not declared";
    let same_kind = "this group stands in a group of its own kind";
    let no_bracket = "a group's members stand in brackets";
    let too_deep = "more than 8 groups stand in one another";
    let too_many = "a group has more than 255 members";
    let too_long = "a formula takes more than 1024 bytes";
    let deep = "all( any( ".repeat(4) + "all( a" + &" )".repeat(9);
    let group = |count: usize| format!("any({} )", " a".repeat(count));
    let long = [&group(255)[..]; 4].join(" ");
    vec![
        (p("goal a"), 4, "the start is not here"),
        (p("start a\naction c"), 5, "the goal is not here"),
        (p("start all( a\n c )"), 5, unknown),
        (p("start a\ngoal !c"), 5, unknown),
        (p("start a\ngoal all( a all( b ) )"), 5, same_kind),
        (p("start any a"), 4, no_bracket),
        (p(&format!("start {deep}")), 4, too_deep),
        (p(&format!("start {}", group(256))), 4, too_many),
        (p(&format!("start\nall( {long} )")), 5, too_long),
    ]
}

fn wrong_actions(version: &Version) -> Vec<Wrong> {
    let p = |rest: &str| after_facts(version, &format!("start a\ngoal b\n{rest}"));
    let order = "effects stand in the order of their facts, those that set before those that clear";
    let actions: String = (0..65).map(|a| format!("action {a}\n")).collect();
    vec![
        (p("action c\n  sets b\n  sets a"), 8, order),
        (p("action c\n  sets b\n  sets b"), 8, order),
        (p("action c\n  clears a\n  sets b"), 8, order),
        (
            p("action c\n  clears\n c"),
            8,
            "a fact of this name is not declared",
        ),
        (p(&actions), 70, "there are more than 64 actions"),
        (p("action c\naction c"), 7, "this name is taken"),
        (
            p("action needs"),
            6,
            "this is no name, or one of more than 255 bytes",
        ),
    ]
}

fn wrong_plans(version: &Version) -> Vec<Wrong> {
    let p = |rest: &str| after_facts(version, &format!("start a\ngoal b\naction c\n{rest}"));
    let unknown = "an action of this name is not declared";
    let steps = format!("plan\n{}", "c\n".repeat(257));
    vec![
        (p("plan c\n  d"), 8, unknown),
        (p("plan c plan"), 7, unknown),
        (p(&steps), 264, "a plan has more than 256 steps"),
        (p("fact c"), 7, "the text has to end here"),
        (p("needs a )"), 7, "the text has to end here"),
    ]
}

fn what_is_wrong_with_a_text_is_told_by_its_line(version: &Version) {
    let desk = Desk::new(&format!("wrong-texts-{}", version.byte));
    for (text, line, words) in wrong_texts(version) {
        desk.put("text", text.as_bytes());
        let expected = Said::failing(MALFORMED, &format!("text: line {line}: {words}"));
        desk.expect("make text -o made", &expected);
        desk.expect("make text -o made --json", &expected);
        assert!(!desk.files().contains("made"), "{text}");
    }
}

/// The limits themselves are kept: one less than what is refused above.
#[test]
fn texts_at_the_limits() {
    let desk = Desk::new("texts-at-the-limits");
    for version in VERSIONS {
        let facts: String = (0..version.most_facts)
            .map(|f| format!("fact {f}\n"))
            .collect();
        let actions: String = (0..64).map(|a| format!("action {a}\n")).collect();
        let steps = " 63".repeat(256);
        let group = format!("any({} )", " 1".repeat(255));
        let text = format!(
            "version {}\n{facts}start {group}\ngoal all( any( all( any( all( any( all( any( 0 ) ) ) ) ) ) ) )\n{actions}plan{steps}",
            version.byte
        );
        desk.put("text", text.as_bytes());
        let said = desk.says("make text -o made --plan steps");
        assert_eq!((said.status, &said.error[..]), (YES, ""));
        let task = Task::parse(&desk.get("made"), &desk.get("steps")).expect("both are sound");
        let Task {
            problem: Problem { facts, actions, .. },
            plan,
        } = task;
        assert_eq!((facts, actions.len()), (version.most_facts, 64));
        assert_eq!(plan, [63; 256]);
    }
}

/// A plan that is asked for has to be in the text; where it is not asked for, it may be.
fn a_text_without_a_plan(version: &Version) {
    let desk = Desk::of_trial("no-plan", version);
    let problem = desk.get("problem");
    desk.put("text", PLAINLY.show(&problem, None).output.as_bytes());
    let files = desk.files();
    let said = desk.says("make text -o made --plan steps");
    assert_eq!((said.status, &said.output[..]), (MALFORMED, ""), "{said:?}");
    one_line(&said.error, "text: ", "no plan");
    assert_eq!(desk.files(), files);

    let shown = PLAINLY.show(&problem, Some(&desk.get("plan")));
    desk.put("text", shown.output.as_bytes());
    is_made(&desk, "make text -o made", &[("made", &problem)]);
    assert!(!desk.files().contains("steps"));
}

/// What is said of the problem's block.
#[test]
fn the_length_of_what_is_made_is_told() {
    let desk = Desk::of_trial("length", &VERSION_1);
    let problem = trial::problem(&VERSION_1);
    let length = problem.len() as u64;
    desk.put("text", PLAINLY.show(&problem, None).output.as_bytes());
    let plainly = Said::plainly(YES, format!("made {length} bytes\n"));
    desk.expect("make text -o made", &plainly);
    let as_json = Said::plainly(YES, json::of_made(length));
    desk.expect("make text -o made --json", &as_json);
}
