//! Where the levels differ: strings.

use reference::{check_at, AnswerRow, Checked, Lent, Level, Report, MAX_STRING};

const LENT: Lent = [100, 100, 10, 1_000];

fn check(level: Level, constants: &str) -> Checked {
    let text = format!("SCHEMA s; CONSTANT {constants} END_CONSTANT; END_SCHEMA;");
    check_at(level, text.as_bytes(), LENT)
}

/// The reply and the number of both levels, the base first.
fn replies(constants: &str) -> [(u32, u64); 2] {
    [Level::Base, Level::Strings].map(|level| {
        let Report { reply, number, .. } = check(level, constants).report;
        (reply, number)
    })
}

#[test]
fn strings_are_evaluated_from_their_level_on() {
    assert_eq!(replies("c : STRING := 'a';"), [(14, 23), (0, 0)]);
    assert_eq!(replies("c : STRING := ?;"), [(14, 23), (0, 0)]);
    assert_eq!(replies("c : LOGICAL := 'a' < 'b';"), [(14, 34), (0, 0)]);
    assert_eq!(replies("c : INTEGER := 'a';"), [(14, 34), (15, 19)]);
    assert_eq!(replies("c : LOGICAL := 'a' = 1.5;"), [(14, 34), (14, 40)]);
    assert_eq!(replies("c : REAL := 'a';"), [(14, 23), (14, 23)]);
}

#[test]
fn strings_have_a_bound_from_their_level_on() {
    let string = |bytes: &str, count: usize| format!("c : STRING := '{}';", bytes.repeat(count));
    for bytes in ["a", "''"] {
        assert_eq!(replies(&string(bytes, MAX_STRING)), [(14, 23), (0, 0)], "{bytes}");
        assert_eq!(replies(&string(bytes, MAX_STRING + 1)), [(14, 23), (3, 33)], "{bytes}");
    }
    let unfinished = string("a", 2 * MAX_STRING).replace("';", "\n");
    assert_eq!(replies(&unfinished), [(2, 33), (2, 33)]);
}

#[test]
fn answers_and_room() {
    let checked =
        check(Level::Strings, "a : STRING := b + '!'; n : INTEGER := 7; b : STRING := 'it''s'; e : STRING := '';");
    let string = |number, length| AnswerRow { kind: 5, number, length };
    assert_eq!(
        checked.answers[..4],
        [string(0, 5), AnswerRow { kind: 1, number: 7, length: 0 }, string(5, 4), string(9, 0)]
    );
    assert!(checked.room.starts_with(b"it's!it's\0"));
    assert!(checked.room.len() == LENT[3] && checked.room[9..].iter().all(|&byte| byte == 0));
}

#[test]
fn a_room_that_is_too_short_is_the_last_refusal() {
    let text = |second: &str| format!("SCHEMA s; CONSTANT a : STRING := 'xy'; b : {second}; END_CONSTANT; END_SCHEMA;");
    let check = |second: &str, room: usize| {
        let Checked { report, room: held, .. } =
            check_at(Level::Strings, text(second).as_bytes(), [100, 100, 10, room]);
        assert!(held.len() == room && (report.reply == 0 || held.iter().all(|&byte| byte == 0)));
        (report.reply, report.number)
    };
    assert_eq!([2, 3, 4].map(|room| check("STRING := 'z'", room)), [(20, 2), (0, 0), (0, 0)]);
    assert_eq!(check("INTEGER := 'z'", 0), (15, 39));
    assert_eq!(check_at(Level::Base, text("INTEGER := 1").as_bytes(), [100, 100, 10, 0]).report.reply, 14);
}
