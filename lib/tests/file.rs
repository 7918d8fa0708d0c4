//! What is read off an accepted file, and off a refused one, held to the reference's tables and listings.

use compare::cases;
use compare::random::{damaged, file, well_typed};
use reference::{AnswerRow, Checked, NodeRow, TokenRow};
use woffulent::{check, Answer, Binary, Checker, End, File, Logical, NodeKind, Refusal, Reply, Rows};

const SEEDS: u64 = 5_000;

fn by_reference(src: &[u8], rows: Rows) -> Checked {
    reference::check(src, [rows.tokens, rows.nodes, rows.answers, rows.room])
}

fn listing(result: &Result<File, Refusal>) -> Vec<u8> {
    let mut out = Vec::new();
    match result {
        Ok(file) => file.list(&mut out),
        Err(refusal) => refusal.list(&mut out),
    }
    out
}

/// Report, tokens, nodes, answers and room of an accepted file are those of the reference.
fn hold_tables(file: &File, wanted: &Checked) {
    let report = file.report();
    let tokens = file.tokens().map(|token| TokenRow {
        kind: token.kind.number(),
        start: token.start as u32,
        length: token.text.len() as u32,
    });
    assert_eq!(tokens.collect::<Vec<_>>(), wanted.tokens[..report.tokens]);
    let nodes = file.nodes().map(|node| NodeRow {
        kind: node.kind().number(),
        token: node.token_number() as u32,
        size: node.size() as u32,
        binding: node.binding().map_or(0, |declaration| declaration.number() as u32 + 1),
    });
    assert_eq!(nodes.collect::<Vec<_>>(), wanted.nodes[..report.nodes]);
    let answers = (0..).map_while(|row| file.answer_row(row));
    let answers = answers.map(|(kind, number, length)| AnswerRow { kind, number, length: length.into() });
    assert_eq!(answers.collect::<Vec<_>>(), wanted.answers[..report.constants]);
    let (strings, behind) = wanted.room.split_at(file.room().len());
    assert!(strings == file.room() && behind.iter().all(|&byte| byte == 0));
}

/// Children lie side by side below their parent, and the file is the last node.
fn hold_tree(file: &File) {
    let root = file.nodes().last().expect("a file has nodes");
    assert_eq!((root.kind(), root.size()), (NodeKind::File, file.report().nodes));
    for node in file.nodes() {
        let children = node.children();
        assert_eq!(children.iter().map(|child| child.size()).sum::<usize>() + 1, node.size());
        assert!(children.windows(2).all(|pair| pair[0].number() < pair[1].number()));
    }
    assert_eq!(root.children().len(), file.schemas().count());
}

/// Each constant is found by its names, in letters of either case.
fn hold_constants(file: &File) {
    assert_eq!(file.constants().count(), file.report().constants);
    for constant in file.constants() {
        let (schema, name) = (constant.schema().to_ascii_uppercase(), constant.name().to_ascii_lowercase());
        assert_eq!(file.constant(&schema, &name), Some(constant.answer()));
    }
    assert_eq!(file.constant("", ""), None);
}

fn hold(checker: &mut Checker, src: &[u8], rows: Rows) {
    let wanted = by_reference(src, rows);
    let result = checker.check(src);
    assert_eq!(listing(&result), reference::listing(src, &wanted), "{}", String::from_utf8_lossy(src));
    if let Ok(file) = result {
        hold_tables(&file, &wanted);
        hold_tree(&file);
        hold_constants(&file);
    }
}

#[test]
fn a_kept_checker_gives_what_the_reference_does() {
    let few = Rows { tokens: 120, nodes: 60, answers: 3, room: 9 };
    let mut checkers =
        [Rows::ANY, Rows::PROGRAM, Rows { room: 9, ..Rows::ANY }, few].map(|rows| (Checker::with_rows(rows), rows));
    let random = (0..SEEDS).flat_map(|seed| [file(seed), damaged(seed, 300)]);
    for src in random.chain(cases::all().into_iter().map(|case| case.input)) {
        checkers.iter_mut().for_each(|(checker, rows)| hold(checker, &src, *rows));
    }
}

#[test]
fn one_file_by_itself_is_checked_as_by_a_checker() {
    let mut checker = Checker::new();
    for src in (0..2_000).map(file) {
        assert_eq!(listing(&check(&src)), listing(&checker.check(&src)));
    }
}

#[test]
fn no_file_needs_more_rows_than_its_bytes_say() {
    // One token for each byte, and constants as short as they can be.
    let dense = format!("SCHEMA s;CONSTANT {}END_CONSTANT;END_SCHEMA;", "a:a:=?;".repeat(9_300));
    assert!(dense.len() < woffulent::MAX_BYTES && dense.len() > woffulent::MAX_BYTES - 500);
    assert_eq!(check(dense.as_bytes()).expect_err("`a` is declared twice").reply(), Reply::Repeated);
    let brackets = "(".repeat(woffulent::MAX_BYTES);
    assert_eq!(check(brackets.as_bytes()).expect_err("no schema").reply(), Reply::Unexpected);
    assert_eq!(check(b"").expect_err("no schema").beside(), 0);
}

/// As many constants as fit, each with a string of as many bytes as one can have: a kept checker has room for them.
#[test]
fn no_file_needs_more_room_than_its_constants_say() {
    let longest = "x".repeat(woffulent::MAX_STRING_BYTES);
    let copies: String = (0..5_000).map(|i| format!("c{i}:t:=l;")).collect();
    let head = format!("SCHEMA s;CONSTANT l:t:='{longest}';");
    let src = format!("{head}{copies}END_CONSTANT;TYPE t=STRING;END_TYPE;END_SCHEMA;");
    assert!(src.len() < woffulent::MAX_BYTES);
    let mut checker = Checker::new();
    for file in [check(src.as_bytes()), checker.check(src.as_bytes())] {
        let file = file.expect("accepted");
        assert_eq!(file.room().len(), 5_001 * woffulent::MAX_STRING_BYTES);
        assert_eq!(file.constant("s", "c4999"), Some(Answer::String(longest.as_bytes())));
    }
}

#[test]
fn strings_are_bytes() {
    let src = b"SCHEMA Press; CONSTANT
        die : STRING := size + ' mm'''; size : label := '12'; n : LOGICAL := 'p' < 'q'; none : STRING := ''; open : STRING := ?;
        END_CONSTANT; TYPE label = STRING; END_TYPE; END_SCHEMA;";
    let file = check(src).expect("accepted");
    let answer = |name: &str| file.constant("press", name).expect("a constant");
    assert_eq!(answer("die"), Answer::String(b"12 mm'"));
    assert_eq!((answer("size"), answer("none")), (Answer::String(b"12"), Answer::String(b"")));
    assert_eq!((answer("open"), answer("die").sort()), (Answer::Indeterminate, "string"));
    let rows = [(5, 0, 6), (5, 6, 2), (2, 2, 0), (5, 8, 0), (0, 0, 0)];
    assert_eq!((0..).map_while(|row| file.answer_row(row)).collect::<Vec<_>>(), rows);
    assert_eq!(file.room(), b"12 mm'12");
    let listed = "press.die = '12 mm'''\npress.size = '12'\npress.n = TRUE\npress.none = ''\npress.open = ?\n";
    assert_eq!(listing(&Ok(file)), format!("accepted 5\n{listed}").as_bytes());
    for (room, accepted) in [(8, true), (7, false), (1, false), (0, false)] {
        let mut checker = Checker::with_rows(Rows { room, ..Rows::ANY });
        let reply = checker.check(src).map_or_else(|refusal| (refusal.number(), refusal.lent()), |_| (0, None));
        assert_eq!(reply, if accepted { (0, None) } else { (20, Some(room)) });
    }
}

#[test]
fn answers_are_values() {
    let src = b"SCHEMA Lathe; CONSTANT
        feed : INTEGER := -9223372036854775807 - 1; ready : BOOLEAN := ?; done : BOOLEAN := UNKNOWN; code : BINARY := %001 + %1;
        tool : chuck := Collet; far : INTEGER := 2**63; on : LOGICAL := UNKNOWN;
        END_CONSTANT; TYPE chuck = ENUMERATION OF (jaw, COLLET); END_TYPE; END_SCHEMA;";
    let file = check(src).expect("accepted");
    let answer = |name: &str| file.constant("lathe", name).expect("a constant");
    assert_eq!(answer("FEED"), Answer::Integer(i64::MIN));
    assert_eq!(answer("ready"), Answer::Indeterminate);
    assert_eq!(answer("done"), Answer::End(End::UnknownBoolean));
    assert_eq!(answer("code"), Answer::Binary(Binary { number: 3, length: 4 }));
    assert_eq!(answer("far"), Answer::End(End::Outside));
    assert_eq!(answer("on"), Answer::Logical(Logical::Unknown));
    let Answer::Item { name, node } = answer("tool") else { panic!("{:?}", answer("tool")) };
    assert_eq!((name, file.node(node).map(|item| item.kind())), ("COLLET", Some(NodeKind::Item)));
    assert_eq!(file.schemas().map(|schema| schema.name()).collect::<Vec<_>>(), ["Lathe"]);
}

#[test]
fn a_refusal_knows_where_it_is() {
    let src = b"SCHEMA s;\nCONSTANT\n  a : INTEGER := bb;\nEND_CONSTANT;\nEND_SCHEMA;";
    let refusal = check(src).expect_err("refused");
    let position = refusal.position().expect("a place");
    assert_eq!((refusal.number(), refusal.place(), position.line, position.column), (10, Some(36), 3, 18));
    assert_eq!(refusal.to_string(), "line 3, column 18: Schema `s` declares no constant and no item `bb`.");
    let kept: Box<dyn std::error::Error> = Box::new(refusal.into_owned());
    assert!(kept.to_string().contains("`bb`"));
    let long = vec![b' '; woffulent::MAX_BYTES + 1];
    let refusal = check(&long).expect_err("too long");
    assert_eq!((refusal.number(), refusal.place(), refusal.beside()), (1, None, 65_536));
    let mut checker = Checker::with_rows(Rows { tokens: 3, nodes: 9, answers: 9, room: 9 });
    let refusal = checker.check(src).expect_err("too few rows");
    assert_eq!((refusal.number(), refusal.place(), refusal.needed()), (6, None, Some(14)));
    assert_eq!(refusal.to_string(), "The file needs 14 rows in the token table, and fewer were lent.");
    let mut checker = Checker::with_rows(Rows { room: 1, ..Rows::ANY });
    let strings = b"SCHEMA s; CONSTANT a : STRING := 'xy'; END_CONSTANT; END_SCHEMA;";
    let refusal = checker.check(strings).expect_err("too little room");
    assert_eq!((refusal.number(), refusal.place(), refusal.needed(), refusal.lent()), (20, None, None, Some(1)));
    let sentence = "The strings of the constants do not fit into the room of 1 byte that was lent.";
    assert_eq!((refusal.to_string().as_str(), refusal.is_short()), (sentence, true));
}

/// The call needs less than 1.5 MiB of stack: a thread of Rust's default size has room for every file.
#[test]
fn a_thread_of_the_usual_size_is_enough() {
    let largest = well_typed(1, 65_000);
    std::thread::spawn(move || assert!(check(&largest).is_ok())).join().expect("no overflow");
}
