//! What the generator of groups promises, and the mistakes that its groups must show.

mod counter;

use counter::{counted, outcome, Mistake, Outcome, MISTAKES};
use oracle_lib::answer::Answer;
use oracle_lib::event::Event;
use oracle_lib::group::Group;
use oracle_lib::line::{Machine, Search, MOST_LANES};
use oracle_lib::make::{first_sheet_sort_of, group, group_sort_of, GroupSort, WaitSort};
use oracle_lib::report::{waits, Report, Said, FULL};
use oracle_lib::sheet::{list_of, run, MOST_SHEET};
use std::collections::BTreeSet;

const COUNT: u64 = 300;
/// Lanes of the lines on which all lanes wait for each other.
const TURN_LANES: [usize; 7] = [2, 3, 12, 63, 64, 65, 128];
const FIELDS: [&str; 4] = ["times", "sum", "largest", "unended"];
const ROWS: [&str; 4] = ["first", "middle", "last", "all"];
const VALUES: [&str; 3] = ["2^63 - 1", "2^63", "2^64 - 1"];

/// The cases that some groups hold, by name.
#[derive(Default)]
struct Cases(BTreeSet<String>);

impl Cases {
    fn of(groups: &[Group]) -> Cases {
        let mut cases = Cases::default();
        for group in groups {
            cases.group(group);
            group.sheets.iter().for_each(|sheet| cases.sheet(sheet));
        }
        cases
    }

    fn see(&mut self, here: bool, name: impl Into<String>) {
        if here {
            self.0.insert(name.into());
        }
    }

    fn group(&mut self, group: &Group) {
        let numbers: Vec<u64> = group.report.rows().flat_map(|row| row.numbers()).collect();
        let edges: Vec<usize> = (0..numbers.len()).filter(|&at| numbers[at] >= FULL - 1).collect();
        self.see(group.report == Report::no_waiting(), "no waiting lent");
        self.see(edges.is_empty() && numbers.iter().any(|&n| n != 0), "made-up numbers lent");
        self.see(edges.is_empty(), format!("{} sheets", group.sheets.len()));
        self.see(edges.len() == 2, "two edges");
        if let [at] = edges[..] {
            self.edge(group, at, numbers[at]);
        }
    }

    /// One number at an edge: what each sheet gets, and how the number grows.
    fn edge(&mut self, group: &Group, at: usize, lent: u64) {
        let name = format!("{} {} {}", row_name(at / 4), FIELDS[at % 4], value_name(lent));
        let mut number = lent;
        let mut report = group.report.clone();
        for sheet in &group.sheets {
            let mut one = Group { report, sheets: vec![sheet.clone()] };
            let refused = one.run()[0].starts_with(b"0 refused 17\n");
            let kind = if sheet.is_empty() { "an empty sheet" } else { "a sheet" };
            let untouched = number == lent;
            assert_eq!(refused, number >= FULL, "{name}");
            self.see(untouched, format!("{name} over {kind}"));
            self.see(lent < FULL && number >= FULL && refused, format!("{name} grown, then 17"));
            report = one.report;
            number = report.rows().flat_map(|row| row.numbers()).nth(at).unwrap();
            assert!(number >= lent, "{name} wraps");
        }
    }

    fn sheet(&mut self, sheet: &[u8]) {
        self.see(sheet.is_empty(), "an empty sheet");
        self.see(sheet.len() == MOST_SHEET, "65,536 bytes");
        self.see(sheet.len() == MOST_SHEET + 1, "65,537 bytes");
        if sheet.len() > MOST_SHEET {
            return;
        }
        let answers = run(&mut Machine::new(Search::AfterReleaser), sheet);
        let list = list_of(sheet, &answers);
        let unended = waits(&list).iter().filter(|wait| wait.releases.is_none()).count();
        self.see(unended > 0, "a wait not ended");
        if let Some(Answer::Refused { number: number @ 2..=3 }) = answers.last() {
            self.see(true, format!("ended by {number}, waiting: {unended}"));
        }
        if sheet.len() < MOST_SHEET {
            self.waits(&list); // nothing should rest on the long sheets alone
        }
        self.between(&list);
    }

    fn waits(&mut self, list: &[Said]) {
        let lanes = list.iter().find_map(|said| match said.1 {
            Answer::Open { lanes, .. } => Some(lanes),
            _ => None,
        });
        let (mut woken, mut longest) = (BTreeSet::new(), BTreeSet::new());
        for wait in waits(list) {
            self.see(woken.contains(&wait.lane), "a lane waits again after its wake");
            let Some(releases) = wait.releases else { continue };
            woken.insert(wait.lane);
            if Some(releases + 1) == lanes {
                longest.insert(wait.lane);
            }
        }
        let all = longest.len();
        self.see(lanes == Some(all as u64), format!("each of {all} lanes waits for all others"));
    }

    /// What comes while some lane waits, or at any time for the other generator's sheets.
    fn between(&mut self, list: &[Said]) {
        let told = list.iter().position(|said| said.1 == Answer::Waits);
        let woken = list.iter().rposition(|said| {
            matches!(
                said.1,
                Answer::Region { wakes: Some(_), .. } | Answer::Freed { wakes: Some(_) }
            )
        });
        self.see(list.iter().any(|said| said.1 == Answer::View), "a view");
        self.see(list.iter().any(|said| matches!(said.1, Answer::Ordered { .. })), "ordered");
        let (Some(told), Some(woken)) = (told, woken) else { return };
        for (event, answer) in list.iter().take(woken + 1).skip(told) {
            match (event, answer) {
                (Event::Want { purpose, .. }, Answer::Waits) => {
                    self.see(true, format!("a wait of purpose {purpose}"))
                }
                (Event::Take { .. } | Event::Free { .. }, Answer::Refused { .. }) => {
                    self.see(true, "a refused release")
                }
                (_, Answer::Refused { .. }) => self.see(true, "a refused event"),
                (_, Answer::Region { count, .. }) => {
                    self.see(*count == 0, "a take of 0");
                    self.see(*count > 0, "a take of more");
                }
                (_, Answer::Freed { .. }) => self.see(true, "a free"),
                _ => {}
            }
        }
    }
}

fn row_name(row: usize) -> &'static str {
    match row {
        0 => "first",
        MOST_LANES => "all",
        row if row == MOST_LANES - 1 => "last",
        _ => "middle",
    }
}

fn value_name(number: u64) -> &'static str {
    match number {
        u64::MAX => "2^64 - 1",
        FULL => "2^63",
        _ => "2^63 - 1",
    }
}

/// The names of all cases that a few hundred groups must hold.
fn all_cases() -> Vec<String> {
    let mut names: Vec<String> = [
        "no waiting lent",
        "made-up numbers lent",
        "two edges",
        "an empty sheet",
        "65,536 bytes",
        "65,537 bytes",
        "a wait not ended",
        "a lane waits again after its wake",
        "a refused release",
        "a refused event",
        "a take of 0",
        "a take of more",
        "a free",
        "a view",
        "ordered",
    ]
    .map(String::from)
    .to_vec();
    names.extend((1..=6).map(|sheets| format!("{sheets} sheets")));
    for lanes in TURN_LANES {
        names.push(format!("each of {lanes} lanes waits for all others"));
        names.push(format!("ended by 2, waiting: {}", lanes - 1));
        names.push(format!("ended by 3, waiting: {}", lanes - 1));
    }
    names.extend((0..3).map(|purpose| format!("a wait of purpose {purpose}")));
    for (row, field) in ROWS.iter().flat_map(|row| FIELDS.map(|field| (row, field))) {
        for value in VALUES {
            names.push(format!("{row} {field} {value} over an empty sheet"));
            names.push(format!("{row} {field} {value} over a sheet"));
        }
        if field != "largest" {
            names.push(format!("{row} {field} 2^63 - 1 grown, then 17"));
        }
    }
    names
}

fn groups(seed: u64, wanted: impl Fn(GroupSort) -> bool) -> Vec<Group> {
    (0..COUNT).filter(|&k| wanted(group_sort_of(k))).map(|k| group(seed, k)).collect()
}

fn missing(cases: &Cases) -> Vec<String> {
    all_cases().into_iter().filter(|name| !cases.0.contains(name)).collect()
}

#[test]
fn every_case_comes() {
    for seed in [1, 2, 77] {
        assert_eq!(missing(&Cases::of(&groups(seed, |_| true))), Vec::<String>::new());
    }
}

/// The first sheets of a sort hold its cases by themselves.
#[test]
fn first_sheets_come_in_turn() {
    let cases = |sort| {
        let ks = (0..COUNT).filter(|&k| first_sheet_sort_of(k) == Some(sort));
        let mut cases = Cases::default();
        ks.for_each(|k| cases.sheet(&group(1, k).sheets[0]));
        cases.0
    };
    let (turns, by_2) = (cases(WaitSort::Turns), cases(WaitSort::EndedBy2));
    let by_3 = cases(WaitSort::EndedBy3);
    for lanes in TURN_LANES {
        assert!(turns.contains(&format!("each of {lanes} lanes waits for all others")));
        assert!(by_2.contains(&format!("ended by 2, waiting: {}", lanes - 1)));
        assert!(by_3.contains(&format!("ended by 3, waiting: {}", lanes - 1)));
    }
    assert!(turns.contains("a wait not ended") && by_3.contains("a refused event"));
    assert_eq!(cases(WaitSort::Empty), BTreeSet::from(["an empty sheet".to_string()]));
    assert!(cases(WaitSort::MadeUp).contains("ordered"));
}

/// The same test notices a sort of groups that is left out.
#[test]
fn a_sort_left_out_is_noticed() {
    let left_out = |sort| missing(&Cases::of(&groups(1, |other| other != sort)));
    assert_eq!(left_out(GroupSort::Long), ["65,536 bytes", "65,537 bytes"]);
    assert_eq!(left_out(GroupSort::TwoEdges), ["two edges"]);
    assert_eq!(left_out(GroupSort::Edge).len(), 4 * 4 * 6 + 4 * 3);
    for name in ["1 sheets", "made-up numbers lent", "ended by 2, waiting: 127", "ordered"] {
        assert!(left_out(GroupSort::Waiting).contains(&name.to_string()), "{name}");
    }
}

#[test]
fn most_reports_are_of_no_waiting_and_the_stream_is_small() {
    let groups = groups(1, |_| true);
    let empty = groups.iter().filter(|group| group.report == Report::no_waiting()).count();
    assert!(empty > groups.len() / 2, "{empty}");
    let bytes: usize = groups.iter().map(|group| group.to_bytes().unwrap().len()).sum();
    assert!(bytes < 10_000_000, "{bytes}");
}

#[test]
fn a_group_depends_on_seed_and_number_alone() {
    for k in [0, 7, 8, 9, 299] {
        assert_eq!(group(4, k), group(4, k));
        assert_ne!(group(4, k), group(5, k));
        assert_ne!(group(4, k), group(4, k + 30));
    }
}

#[test]
fn planted_mistakes_are_noticed_on_made_up_groups() {
    let groups = groups(6, |_| true);
    let right: Vec<Outcome> = groups.iter().map(outcome).collect();
    let differ = |mistake| {
        let pairs = groups.iter().zip(&right);
        pairs.filter(|(group, right)| counted(group, mistake) != **right).count()
    };
    assert_eq!(differ(Mistake::None), 0);
    for mistake in MISTAKES {
        let count = differ(mistake);
        assert!(count >= 4, "{mistake:?} shows in {count} groups");
    }
}
