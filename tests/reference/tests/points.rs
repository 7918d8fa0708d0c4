//! The points of the paper that are easily missed, each on a small file.

use reference::{check, listing, parse, scan, tokens};
use reference::{AnswerRow, Lent, Report, SyntaxRow, TokenRow, PROGRAM_LENGTHS};

const ROWS: usize = 8_192;
const LENT: Lent = [ROWS; 4];

fn report(text: &str) -> Report {
    check(text.as_bytes(), LENT).report
}

/// Expects a refusal at the `@` in the text, which is taken out before the check.
fn refused(reply: u32, marked: &str) {
    let at = marked.find('@').expect("a mark") as u64;
    let report = report(&marked.replacen('@', "", 1));
    assert_eq!((report.reply, report.number), (reply, at), "{:.500}", marked);
}

fn accepted(text: &str) {
    let report = report(text);
    assert_eq!((report.reply, report.number), (0, 0), "{:.500}", text);
}

/// The constant of a schema whose types are those below.
fn constant(declared: &str, expression: &str) -> String {
    format!(
        "SCHEMA s; CONSTANT c : {declared} := {expression}; END_CONSTANT; \
         TYPE colour = ENUMERATION OF (red, green); END_TYPE; TYPE paint = colour; END_TYPE; \
         TYPE shape = ENUMERATION OF (round, square, Green); END_TYPE; TYPE flag = BOOLEAN; END_TYPE; \
         TYPE size = REAL; END_TYPE; TYPE either = SELECT (colour, thing); END_TYPE; \
         ENTITY thing; END_ENTITY; END_SCHEMA;"
    )
}

/// Expects the answer as the listing prints it.
fn answers(declared: &str, expression: &str, answer: &str) {
    let text = constant(declared, expression);
    let checked = check(text.as_bytes(), LENT);
    let lines = String::from_utf8(listing(text.as_bytes(), &checked)).expect("text");
    assert_eq!(lines, format!("accepted 1\ns.c = {answer}\n"), "{expression}");
}

fn refused_in_constant(reply: u32, declared: &str, marked: &str) {
    refused(reply, &constant(declared, marked));
}

fn token_texts(text: &str) -> Vec<&str> {
    let rows = tokens::read(text.as_bytes()).expect("tokens");
    rows.iter().map(|row| &text[row.start as usize..(row.start + row.length) as usize]).collect()
}

#[test]
fn the_listing_of_the_paper() {
    let text = b"SCHEMA Press;\nCONSTANT\n  stroke : INTEGER := step * 3;\n  step : INTEGER := -7 DIV 2;\n  safe : LOGICAL := \
        {0 < step < 10} OR ?;\n  mask : BINARY := %10 + %011;\nEND_CONSTANT;\nEND_SCHEMA;\n";
    let expected = "accepted 4\npress.stroke = -12\npress.step = -4\npress.safe = UNKNOWN\npress.mask = %10011\n";
    assert_eq!(listing(text, &check(text, PROGRAM_LENGTHS)), expected.as_bytes());
}

#[test]
fn cases_on_each_side() {
    for (expression, answer) in [
        ("-10**2", "100"),
        ("7 DIV -2", "-3"),
        ("7 MOD -2", "-1"),
        ("-7 MOD 2", "1"),
        ("-7 DIV -2", "4"),
        ("5 MOD -3", "-2"),
        ("5 DIV -3", "-1"),
        ("-9223372036854775807 - 1", "-9223372036854775808"),
        ("(-9223372036854775807 - 1) DIV -1", "end 16"),
        ("(-9223372036854775807 - 1) MOD -1", "0"),
        ("-(-9223372036854775807 - 1)", "end 16"),
        ("9223372036854775807 MOD (-9223372036854775807 - 1)", "-9223372036854775807"),
        ("(-9223372036854775807 - 1) DIV (-9223372036854775807 - 1)", "1"),
        ("2**62", "4611686018427387904"),
        ("2**63", "end 16"),
        ("-2**63", "-9223372036854775808"),
        ("0**0", "1"),
        ("1**-1", "end 18"),
        ("0**9223372036854775807", "0"),
        ("-1**9223372036854775807", "-1"),
        ("-1**4294967296", "1"),
        ("2**4294967296", "end 16"),
        ("? DIV 0", "?"),
        ("0 DIV 0", "end 17"),
        ("?**-1", "?"),
        ("1 DIV 0 + 2**-1", "end 17"),
        ("? + 2**-1", "end 18"),
        ("5--3\n", "5"),
        ("00000000000000000000000000000009", "9"),
        ("7 - 2 - 1", "4"),
        ("100 DIV 10 * 2", "20"),
    ] {
        answers("INTEGER", expression, answer);
    }
    answers("LOGICAL", "FALSE XOR ?", "UNKNOWN");
    answers("BOOLEAN", "%01 < %010", "TRUE");
    refused_in_constant(4, "INTEGER", "- @-5");
    refused_in_constant(4, "LOGICAL", "1<2@<3");
    refused_in_constant(4, "INTEGER", "2**3@**2");
    refused(4, "@");
    refused_in_constant(3, "BINARY", &format!("@%{}", "0".repeat(64)));
    answers("BINARY", &format!("%{}", "1".repeat(63)), &format!("%{}", "1".repeat(63)));
}

#[test]
fn logical_values_and_order() {
    for (expression, answer) in [
        ("FALSE < UNKNOWN", "TRUE"),
        ("UNKNOWN < TRUE", "TRUE"),
        ("UNKNOWN = UNKNOWN", "TRUE"),
        ("? = ?", "UNKNOWN"),
        ("NOT ?", "UNKNOWN"),
        ("? AND FALSE", "FALSE"),
        ("? OR TRUE", "TRUE"),
        ("TRUE XOR TRUE", "FALSE"),
        ("(1 DIV 0 = 1) OR TRUE", "end 17"),
        ("FALSE AND (2**64 > 0)", "end 16"),
        ("{1 < 2 <= 2}", "TRUE"),
        ("{1 < ? < 0}", "UNKNOWN"),
        ("{2 < 1 < ?}", "FALSE"),
        ("{1 < ? < TRUE}", "UNKNOWN"),
        ("{2**64 < 1 DIV 0 < 1**-1}", "end 16"),
        ("{? < 1 DIV 0 < 1**-1}", "end 17"),
        ("%1 > %01", "TRUE"),
        ("%0 < %00", "TRUE"),
        ("%10 = %010", "FALSE"),
        ("red < colour.green", "TRUE"),
        ("colour.red :=: red", "TRUE"),
        ("round :<>: square", "TRUE"),
    ] {
        answers("LOGICAL", expression, answer);
    }
    answers("BOOLEAN", "UNKNOWN", "end 19");
    answers("flag", "? = 1", "end 19");
    answers("BOOLEAN", "?", "?");
    answers("paint", "colour.green", "green");
    answers("BINARY", &format!("%{} + %0", "1".repeat(63)), "end 16");
    answers("BINARY", "%00 + %1", "%001");
    answers("BINARY", "? + ?", "?");
    answers("colour", "? + ?", "?");
}

#[test]
fn kinds() {
    refused_in_constant(15, "INTEGER", "1 @+ %1");
    refused_in_constant(15, "INTEGER", "? @+ TRUE");
    refused_in_constant(15, "INTEGER", "@-%1");
    refused_in_constant(15, "LOGICAL", "red @= round");
    refused_in_constant(15, "LOGICAL", "@{1 < 2 < TRUE}");
    refused_in_constant(15, "LOGICAL", "(? - ?) @AND TRUE");
    refused_in_constant(15, "LOGICAL", "? @- ? AND TRUE");
    refused_in_constant(14, "INTEGER", "1 @/ TRUE");
    refused_in_constant(14, "INTEGER", "@PI + TRUE");
    refused_in_constant(14, "INTEGER", "@1.5");
    refused(15, "SCHEMA s; CONSTANT @c : INTEGER := 'text'; END_CONSTANT; END_SCHEMA;");
    refused(15, "SCHEMA s; CONSTANT @c : INTEGER := TRUE; END_CONSTANT; END_SCHEMA;");
    refused(14, "SCHEMA s; CONSTANT c : @REAL := 1.; END_CONSTANT; END_SCHEMA;");
    refused(14, "SCHEMA s; CONSTANT c : INTEGER := @d; d : REAL := 1.; END_CONSTANT; END_SCHEMA;");
    refused(
        14,
        "SCHEMA s; CONSTANT c : @t := 1; END_CONSTANT; TYPE t = u; END_TYPE; TYPE u = NUMBER; END_TYPE; END_SCHEMA;",
    );
    refused(14, "SCHEMA s; CONSTANT c : @t := 1; END_CONSTANT; TYPE t = SELECT (e); END_TYPE; ENTITY e; END_ENTITY; END_SCHEMA;");
    refused(14, "SCHEMA s; CONSTANT c : @e := 1; END_CONSTANT; ENTITY e; END_ENTITY; END_SCHEMA;");
    // A renaming of an enumeration is the enumeration's kind; one of an integer an integer.
    accepted("SCHEMA s; CONSTANT c : t := d + 1; d : u := 2; END_CONSTANT; TYPE t = INTEGER; END_TYPE; TYPE u = t; END_TYPE; END_SCHEMA;");
    // Only constants are typed.
    accepted(
        "SCHEMA s; ENTITY e; a : REAL; DERIVE b : INTEGER := 'x' / TRUE + a; WHERE NOT 1; END_ENTITY; END_SCHEMA;",
    );
}

#[test]
fn tokens_at_their_edges() {
    assert_eq!(token_texts("1.e"), ["1.", "e"]);
    assert_eq!(token_texts("1.e+5e-6 12ab 1..2"), ["1.e+5", "e", "-", "6", "12", "ab", "1.", ".", "2"]);
    assert_eq!(
        token_texts(":=: :<>: := : :<> <* <** ***) || |"),
        [":=:", ":<>:", ":=", ":", ":", "<>", "<*", "<*", "*", "**", "*", ")", "||", "|"]
    );
    assert_eq!(token_texts("a(*(**)*)b(*)*)c(**)d--e\nf--"), ["a", "b", "c", "d", "f"]);
    assert_eq!(token_texts("'it''s' ''''%01"), ["'it''s'", "''''", "%01"]);
    assert_eq!(token_texts("%012"), ["%01", "2"]);
    for (text, reply, number) in [
        ("a (* (* *)", 2, 2),
        ("a (*)", 2, 2),
        ("ab 'x\ty'", 2, 3),
        ("'abc", 2, 0),
        ("a '''", 2, 2),
        ("% 1", 2, 0),
        ("%2", 2, 0),
        ("_a", 2, 0),
        ("a \"00000041\"", 2, 2),
        ("9223372036854775808 _", 3, 0),
        ("_ 9223372036854775808", 2, 0),
        ("a\u{e9}", 2, 1),
    ] {
        let refusal = scan(text.as_bytes(), ROWS).outcome.expect_err(text);
        assert_eq!((refusal.reply, refusal.number), (reply, number), "{text}");
    }
    assert!(scan(b"9223372036854775807 99999999999999999999.", ROWS).outcome.is_ok());
}

#[test]
fn stages_come_in_order() {
    // A token that is unfinished anywhere comes before a table too short, and that before the grammar.
    let short = |text: &str, rows: [usize; 3]| {
        let report = check(text.as_bytes(), [rows[0], rows[1], rows[2], 0]).report;
        (report.reply, report.number)
    };
    assert_eq!(short("a b _", [0, 0, 0]), (2, 4));
    assert_eq!(short("a b", [1, 9, 9]), (6, 2));
    assert_eq!(short("a b", [2, 0, 0]), (4, 0));
    let text = "SCHEMA s; CONSTANT c : nothing := 1; END_CONSTANT; END_SCHEMA;";
    assert_eq!(short(text, [14, 4, 0]), (7, 5));
    assert_eq!(short(text, [14, 5, 0]), (8, 1));
    assert_eq!(short(text, [14, 5, 1]), (10, 23));
    assert_eq!(short("", [0, 0, 0]), (4, 0));
    assert_eq!(short(&" ".repeat(65_537), [0, 0, 0]), (1, 65_536));
    assert_eq!(short(&" ".repeat(65_536), [0, 0, 0]), (4, 65_536));
}

#[test]
fn the_first_token_that_no_text_goes_through() {
    refused_in_constant(4, "LOGICAL", "- colour@.red");
    refused_in_constant(4, "LOGICAL", "NOT colour@.red");
    refused_in_constant(4, "LOGICAL", "NOT @{1 < 2 < 3}");
    refused_in_constant(4, "LOGICAL", "{1 @= 2 < 3}");
    refused_in_constant(4, "LOGICAL", "{1 < 2@}");
    refused_in_constant(4, "LOGICAL", "{1 < 2 < 3 @< 4}");
    refused_in_constant(4, "LOGICAL", "{(1 < 2) < 3 < (4@}");
    refused_in_constant(4, "LOGICAL", "colour.@1");
    refused_in_constant(4, "LOGICAL", "a @: b");
    refused_in_constant(4, "LOGICAL", "a.b@.c");
    refused_in_constant(4, "LOGICAL", "a @\\ b");
    refused_in_constant(4, "LOGICAL", "a @IN b");
    refused_in_constant(4, "INTEGER", "2 ** - @- 3");
    refused(4, "SCHEMA s; CONSTANT @END_CONSTANT; END_SCHEMA;");
    refused(4, "SCHEMA s; END_SCHEMA; @END_SCHEMA;");
    refused(4, "SCHEMA s; ENTITY e; DERIVE @WHERE");
    refused(4, "SCHEMA s; ENTITY e; WHERE a : b @: c");
    refused(4, "SCHEMA s; ENTITY e; WHERE a : 1; @END_TYPE");
    refused(4, "SCHEMA s; TYPE t = ENUMERATION @(");
    refused(4, "SCHEMA s; TYPE t = SELECT (@)");
    refused(4, "SCHEMA s; TYPE t = STRING @(5)");
    refused(4, "SCHEMA s; CONSTANT c : @OPTIONAL");
    refused(4, "SCHEMA s; END_SCHEMA  @");
}

#[test]
fn sixty_four_open_pass() {
    let nested = |depth: usize, inner: &str| format!("{}{inner}{}", "(".repeat(depth), ")".repeat(depth));
    answers("INTEGER", &nested(64, "1"), "1");
    refused_in_constant(5, "INTEGER", &format!("{}@(", "(".repeat(64)));
    refused_in_constant(5, "INTEGER", &format!("{}@{{", "(".repeat(64)));
    refused_in_constant(5, "INTEGER", &format!("{}- @(", "(".repeat(64)));
    refused_in_constant(4, "INTEGER", &format!("{}- @{{", "(".repeat(64)));
    refused_in_constant(4, "INTEGER", &format!("{}1 @(", "(".repeat(64)));
    answers("INTEGER", &format!("{} + {}", nested(64, "1"), nested(64, "2")), "3");
}

#[test]
fn declared_twice() {
    refused(9, "SCHEMA s; END_SCHEMA; SCHEMA @S; END_SCHEMA;");
    refused(9, "SCHEMA s; CONSTANT a : INTEGER := 1; END_CONSTANT; ENTITY @A; END_ENTITY; TYPE a = REAL; END_TYPE; END_SCHEMA;");
    refused(9, "SCHEMA s; TYPE t = ENUMERATION OF (a, b, @A); END_TYPE; END_SCHEMA;");
    refused(9, "SCHEMA s; ENTITY e SUBTYPE OF (f, @f); END_ENTITY; END_SCHEMA;");
    refused(9, "SCHEMA s; ENTITY e; a : nothing; WHERE @a : 1; END_ENTITY; END_SCHEMA;");
    refused(9, "SCHEMA s; ENTITY e; a : REAL; DERIVE @a : REAL := 1; END_ENTITY; END_SCHEMA;");
    refused(9, "SCHEMA s; TYPE t = REAL; WHERE w : 1; @W : 1; END_TYPE; END_SCHEMA;");
    accepted("SCHEMA s; TYPE t = SELECT (u, u); END_TYPE; TYPE u = ENUMERATION OF (t, u); END_TYPE; END_SCHEMA;");
    accepted("SCHEMA s; ENTITY s; s, e : REAL; WHERE w : s > e; 1; 1; END_ENTITY; ENTITY e; w : REAL; END_ENTITY; END_SCHEMA;");
    // The smallest place over all scopes.
    refused(9, "SCHEMA s; ENTITY e; a, @a : REAL; END_ENTITY; ENTITY e; END_ENTITY; END_SCHEMA;");
}

#[test]
fn names_of_types() {
    refused(
        10,
        "SCHEMA s; CONSTANT c : @t := d; END_CONSTANT; END_SCHEMA; SCHEMA u; TYPE t = REAL; END_TYPE; END_SCHEMA;",
    );
    refused(11, "SCHEMA s; CONSTANT c : @c := 1; END_CONSTANT; END_SCHEMA;");
    refused(11, "SCHEMA s; TYPE t = @e; END_TYPE; ENTITY e; END_ENTITY; END_SCHEMA;");
    refused(11, "SCHEMA s; ENTITY e SUBTYPE OF (@t); END_ENTITY; TYPE t = REAL; END_TYPE; END_SCHEMA;");
    accepted("SCHEMA s; TYPE t = SELECT (e, u); END_TYPE; TYPE u = REAL; END_TYPE; ENTITY e; a : t; b : e; END_ENTITY; END_SCHEMA;");
    // This stage comes before cycles and before expressions.
    refused(10, "SCHEMA s; CONSTANT c : INTEGER := nothing; END_CONSTANT; TYPE t = t; END_TYPE; TYPE u = @v; END_TYPE; END_SCHEMA;");
}

#[test]
fn cycles() {
    refused(13, "SCHEMA s; TYPE a = b; END_TYPE; TYPE @b = SELECT (c); END_TYPE; TYPE c = b; END_TYPE; END_SCHEMA;");
    refused(13, "SCHEMA s; ENTITY a SUBTYPE OF (b); END_ENTITY; ENTITY @b SUBTYPE OF (b); END_ENTITY; END_SCHEMA;");
    refused(13, "SCHEMA s; TYPE t = SELECT (e); END_TYPE; ENTITY @e SUBTYPE OF (f); a : t; END_ENTITY; ENTITY f SUBTYPE OF (e); END_ENTITY; TYPE u = u; END_TYPE; END_SCHEMA;");
    accepted("SCHEMA s; TYPE t = SELECT (e); END_TYPE; ENTITY e; a : t; END_ENTITY; END_SCHEMA;");
    refused(
        13,
        "SCHEMA s; CONSTANT a : REAL := b; @b : REAL := c + d; d : REAL := 1; c : REAL := b; END_CONSTANT; END_SCHEMA;",
    );
    refused(13, "SCHEMA s; TYPE @t = t; END_TYPE; ENTITY e; WHERE nothing; END_ENTITY; END_SCHEMA;");
}

#[test]
fn names_in_expressions() {
    let schema = |rest: &str| {
        format!(
            "SCHEMA s; CONSTANT c : INTEGER := 1; red : INTEGER := 2; END_CONSTANT; \
             TYPE colour = ENUMERATION OF (red, green); END_TYPE; TYPE paint = colour; END_TYPE; \
             TYPE shade = ENUMERATION OF (green, dark); END_TYPE; \
             ENTITY a; x : REAL; WHERE w : 1; END_ENTITY; ENTITY b SUBTYPE OF (a); y : REAL; END_ENTITY; \
             ENTITY d SUBTYPE OF (a); y : REAL; END_ENTITY; {rest} END_SCHEMA;"
        )
    };
    let entity = |inside: &str| schema(&format!("ENTITY e SUBTYPE OF (b, d); {inside} END_ENTITY;"));
    accepted(&entity("z : REAL; WHERE l : x + z + c + dark + red + colour.red + SELF;"));
    refused(12, &entity("WHERE l : @y;"));
    refused(12, &entity("WHERE l : @green;"));
    refused(10, &entity("WHERE l : @w;"));
    refused(11, &entity("WHERE l : @l;"));
    refused(11, &entity("WHERE l : @colour;"));
    refused(11, &entity("WHERE l : @a;"));
    refused(10, &entity("WHERE l : @s;"));
    refused(10, &entity("WHERE l : @none.red;"));
    refused(11, &entity("WHERE l : @paint.red;"));
    refused(11, &entity("WHERE l : @c.red;"));
    refused(11, &entity("x2 : REAL; WHERE l : @a.x;"));
    refused(10, &entity("WHERE l : colour.@dark;"));
    refused(12, &entity("@x : REAL;"));
    refused(12, &entity("WHERE @Y : 1; nothing;"));
    refused(10, &entity("WHERE @nothing; y : 1;"));
    // Labels are not inherited.
    accepted(&entity("WHERE w : 1;"));
    accepted(&schema("TYPE t = REAL; WHERE x : c > SELF; y : red > dark; END_TYPE;"));
    refused(11, &schema("TYPE t = REAL; WHERE x : @x; END_TYPE;"));
    refused(10, &schema("TYPE t = REAL; WHERE l : @x; END_TYPE;"));
    refused(11, "SCHEMA s; CONSTANT c : REAL := @SELF; END_CONSTANT; END_SCHEMA;");
    refused(10, "SCHEMA s; CONSTANT c : REAL := @x; END_CONSTANT; ENTITY e; x : REAL; END_ENTITY; END_SCHEMA;");
    // An attribute of two ancestors on one path is two declarations, whatever the order in the text.
    refused(12, "SCHEMA s; ENTITY c SUBTYPE OF (b); WHERE @x; END_ENTITY; ENTITY b SUBTYPE OF (a); x : REAL; END_ENTITY; ENTITY a; x : REAL; END_ENTITY; END_SCHEMA;");
    // A type that selects an entity inherits nothing.
    refused(10, "SCHEMA s; ENTITY e; x : REAL; END_ENTITY; TYPE t = SELECT (e); WHERE @x > 1; END_TYPE; END_SCHEMA;");
}

#[test]
fn hierarchies_wider_than_a_word() {
    // Two hundred entities that declare `x` beside one, reached over a chain, that declares it too.
    let mut text = String::from("SCHEMA s; ENTITY r; x : REAL; END_ENTITY; ENTITY e0 SUBTYPE OF (r); END_ENTITY; ");
    for number in 0..200 {
        text += &format!(
            "ENTITY f{number}; x : REAL; END_ENTITY; ENTITY e{} SUBTYPE OF (e{number}); WHERE x > 0; END_ENTITY; ",
            number + 1
        );
    }
    accepted(&(text.clone() + "END_SCHEMA;"));
    refused(12, &(text.clone() + "ENTITY g SUBTYPE OF (e200, f0); WHERE @x; END_ENTITY; END_SCHEMA;"));
    refused(12, &(text + "ENTITY g SUBTYPE OF (e200); @x : REAL; END_ENTITY; END_SCHEMA;"));
}

#[test]
fn rows_of_a_small_file() {
    let text = "SCHEMA s; CONSTANT c : t := b.y; END_CONSTANT; TYPE t = b; WHERE w : c > 1; SELF; END_TYPE; \
        TYPE b = ENUMERATION OF (x, y); END_TYPE; ENTITY e; m, n : OPTIONAL REAL; END_ENTITY; END_SCHEMA;";
    let checked = check(text.as_bytes(), [100, 100, 3, 0]);
    assert_eq!(checked.report.reply, 0);
    let rows: Vec<_> =
        checked.nodes[..checked.report.nodes as usize].iter().map(|row| (row.kind, row.size, row.binding)).collect();
    assert_eq!(
        rows,
        [
            (6, 1, 11),
            (7, 1, 13),
            (17, 3, 0),
            (6, 1, 15),
            (6, 1, 3),
            (1, 1, 0),
            (10, 3, 0),
            (23, 4, 0),
            (8, 1, 0),
            (23, 2, 0),
            (18, 8, 0),
            (14, 1, 0),
            (14, 1, 0),
            (15, 3, 0),
            (18, 4, 0),
            (19, 1, 0),
            (19, 1, 0),
            (13, 1, 0),
            (21, 4, 0),
            (24, 5, 0),
            (25, 21, 0),
            (26, 22, 0),
        ]
    );
    assert_eq!(
        checked.answers,
        [AnswerRow { kind: 4, number: 12, length: 0 }, AnswerRow::default(), AnswerRow::default()]
    );
    let roles: Vec<_> = parse(text.as_bytes(), &checked.tokens[..checked.report.tokens as usize], 100).rows[..10]
        .iter()
        .map(|row| row.role)
        .collect();
    assert_eq!(roles, [2, 0, 0, 3, 1, 0, 0, 1, 0, 2]);
}

#[test]
fn tables_are_zero_after_a_refusal() {
    let checked = check(b"SCHEMA s; CONSTANT c : INTEGER := TRUE; END_CONSTANT; END_SCHEMA;", [20, 10, 2, 3]);
    assert_eq!(checked.report, Report { reply: 15, number: 19, ..Report::default() });
    assert_eq!(checked.tokens, vec![TokenRow::default(); 20]);
    assert_eq!(checked.nodes.len(), 10);
    assert!(checked.nodes.iter().all(|row| *row == Default::default()));
    assert_eq!(checked.answers, vec![AnswerRow::default(); 2]);
    assert_eq!(checked.room, [0; 3]);
    assert_eq!(parse(b"", &[], 3).rows, vec![SyntaxRow::default(); 3]);
    assert_eq!(scan(b"a b c", 2).rows, vec![TokenRow::default(); 2]);
}
