//! Families of files that are built to take long: each as large as a size allows.

mod collisions;
mod names;

use names::name;
use reference::MAX_STRING;

/// A way to build a file of at most so many bytes, with no room left for one part more.
#[derive(Clone, Copy)]
pub struct Family {
    pub name: &'static str,
    pub file: fn(usize) -> Vec<u8>,
}

const END: &str = "END_SCHEMA;";
/// One constant of an expression that begins with 0.
const SUM: [&str; 2] = ["SCHEMA s;CONSTANT c:INTEGER:=0", ";END_CONSTANT;END_SCHEMA;"];
/// Constants, with a short name for their type.
const CONSTANTS: [&str; 2] = ["SCHEMA s;CONSTANT ", "END_CONSTANT;TYPE t=INTEGER;END_TYPE;END_SCHEMA;"];
const ITEMS: [&str; 2] = ["SCHEMA s;TYPE t=ENUMERATION OF(i", ");END_TYPE;END_SCHEMA;"];
/// As deep as parentheses and intervals may stand in one another.
const DEEP: usize = 64;

/// All families.
pub fn families() -> Vec<Family> {
    [&TOKENS[..], &EXPRESSIONS, &STRINGS, &CHAINS, &HIERARCHIES, &SPELLINGS].concat()
}

const fn family(name: &'static str, file: fn(usize) -> Vec<u8>) -> Family {
    Family { name, file }
}

/// As many parts between a head and a foot as a size allows.
pub fn filled(size: usize, [head, foot]: [&str; 2], part: impl Fn(usize) -> String) -> Vec<u8> {
    let mut file = head.to_string();
    for number in 0.. {
        let more = part(number);
        if file.len() + more.len() + foot.len() > size {
            break;
        }
        file += &more;
    }
    (file + foot).into_bytes()
}

/// As `filled`, where a part has to know how many there are.
fn counted(size: usize, around: [&str; 2], part: impl Fn(usize, usize) -> String) -> Vec<u8> {
    let whole = |count: usize| (0..count).map(|number| part(number, count)).collect::<String>();
    let fits = |count: usize| whole(count).len() + around.concat().len() <= size;
    let (mut enough, mut many) = (0, size);
    while enough + 1 < many {
        let middle = (enough + many) / 2;
        *(if fits(middle) { &mut enough } else { &mut many }) = middle;
    }
    format!("{}{}{}", around[0], whole(enough), around[1]).into_bytes()
}

fn nested(open: &str, inside: &str, close: &str, deep: usize) -> String {
    open.repeat(deep) + inside + &close.repeat(deep)
}

const TOKENS: [Family; 7] = [
    family("one token a byte", |size| filled(size, SUM, |_| "+1".into())),
    family("one word", |size| filled(size, ["SCHEMA ", ";END_SCHEMA;"], |_| "x".into())),
    family("one integer of zeros", |size| filled(size, SUM, |_| "0".into())),
    family("one string", |size| {
        filled(size, ["SCHEMA s;TYPE t=REAL;WHERE '", "';END_TYPE;END_SCHEMA;"], |_| "''".into())
    }),
    family("remarks in one another", |size| {
        let around = ["SCHEMA s;", END];
        let deep = (size - around.concat().len()) / "(**)".len();
        [around[0], &nested("(*", "", "*)", deep), around[1]].concat().into_bytes()
    }),
    family("a remark behind each token", |size| filled(size, SUM, |_| "+(**)1(**)".into())),
    family("nothing but parentheses", |size| filled(size, ["", ""], |_| "(".into())),
];

const EXPRESSIONS: [Family; 6] = [
    family("parentheses, as deep as allowed", |size| filled(size, SUM, |_| nested("+(", "1", ")", DEEP))),
    family("intervals, as deep as allowed", |size| {
        let around = ["SCHEMA s;CONSTANT c:LOGICAL:=TRUE", ";END_CONSTANT;END_SCHEMA;"];
        filled(size, around, |_| " AND ".to_string() + &nested("{FALSE<=", "TRUE", "<=TRUE}", DEEP))
    }),
    family("huge powers of 1 and -1", |size| {
        filled(size, SUM, |_| "+1**9223372036854775807+-1**9223372036854775806".into())
    }),
    family("huge powers that end", |size| filled(size, SUM, |_| "+3**9223372036854775807".into())),
    family("powers at the limit", |size| filled(size, CONSTANTS, |n| format!("{}:t:=-2**63+3**39-7**22;", name(n)))),
    family("joins at the limit", |size| {
        let around = ["SCHEMA s;CONSTANT ", "END_CONSTANT;END_SCHEMA;"];
        filled(size, around, |n| format!("{}:BINARY:=%1{};", name(n), "+%0".repeat(61 + n % 3)))
    }),
];

/// Constants behind one that is the empty string, `e`, and one that is as long as may be, `l`.
fn strings(size: usize, part: impl Fn(usize) -> String) -> Vec<u8> {
    let head = format!("SCHEMA s;CONSTANT e:t:='';l:t:='{}';", "x".repeat(MAX_STRING));
    filled(size, [&head, "END_CONSTANT;TYPE t=STRING;END_TYPE;END_SCHEMA;"], part)
}

const STRINGS: [Family; 7] = [
    family("strings of quotes", |size| {
        let around = ["SCHEMA s;CONSTANT c:LOGICAL:=TRUE", ";END_CONSTANT;END_SCHEMA;"];
        filled(size, around, |_| format!(" AND('{}'=?)", "''".repeat(MAX_STRING)))
    }),
    family("a long string in every answer", |size| strings(size, |n| format!("{}:t:=l;", name(n)))),
    family("string constants, each naming the one before", |size| {
        let before = |number: usize| number.checked_sub(1).map_or("l".into(), name);
        strings(size, |n| format!("{}:t:={};", name(n), before(n)))
    }),
    family("a long string joined with empty ones", |size| {
        strings(size, |n| format!("{}:t:=l{};", name(n), "+e".repeat(100)))
    }),
    family("empty strings joined with a long one", |size| {
        strings(size, |n| format!("{}:t:={};", name(n), nested("e+(", "l", ")", DEEP)))
    }),
    family("one byte after the other joined", |size| {
        strings(size, |n| format!("{}:t:='a'{};", name(n), "+'b'".repeat(MAX_STRING - n % 3)))
    }),
    family("long strings that are equal, compared", |size| {
        strings(size, |n| format!("{}:LOGICAL:={{l<=l+e<=l}};", name(n)))
    }),
];

/// The constant with the number after this one, or the first.
fn next(number: usize, count: usize) -> String {
    name((number + 1) % count)
}

const CHAINS: [Family; 8] = [
    family("constants, each naming the next", |size| {
        counted(size, CONSTANTS, |number, count| {
            let names = if number + 1 < count { next(number, count) } else { "1".into() };
            format!("{}:t:={names};", name(number))
        })
    }),
    family("constants, each naming the one before", |size| {
        let before = |number: usize| number.checked_sub(1).map_or("1".into(), name);
        filled(size, CONSTANTS, |number| format!("{}:t:={};", name(number), before(number)))
    }),
    family("constants on one cycle", |size| {
        counted(size, CONSTANTS, |number, count| format!("{}:t:={};", name(number), next(number, count)))
    }),
    family("constants, all naming one", |size| {
        let around = ["SCHEMA s;CONSTANT c:t:=1;", CONSTANTS[1]];
        filled(size, around, |number| format!("{}:t:=c;", name(number)))
    }),
    family("renamings, each of the next", |size| {
        counted(size, ["SCHEMA s;", END], |number, count| {
            let of = if number + 1 < count { next(number, count) } else { "REAL".into() };
            format!("TYPE {}={of};END_TYPE;", name(number))
        })
    }),
    family("renamings on one cycle", |size| {
        counted(size, ["SCHEMA s;", END], |number, count| {
            format!("TYPE {}={};END_TYPE;", name(number), next(number, count))
        })
    }),
    family("select lists of all types before", |size| {
        let around = ["SCHEMA s;TYPE t=REAL;END_TYPE;", END];
        filled(size, around, |number| format!("TYPE {}=SELECT(t{});END_TYPE;", name(number), listed(number)))
    }),
    family("schemas, a constant each", |size| {
        filled(size, ["", ""], |n| format!("SCHEMA {};CONSTANT c:INTEGER:={n};END_CONSTANT;END_SCHEMA;", name(n)))
    }),
];

/// The names of all numbers below this one, each behind a comma.
fn listed(number: usize) -> String {
    (0..number).map(|before| ",".to_string() + &name(before)).collect()
}

/// The attributes of a root take half of the file, the entities below it the other half.
fn wide_root(size: usize, more: impl Fn(usize) -> String) -> Vec<u8> {
    let attributes = filled(size / 2, ["SCHEMA s;ENTITY r;a", ":REAL;END_ENTITY;"], |n| ",".to_string() + &name(n));
    let head = String::from_utf8(attributes).expect("letters");
    filled(size, [&head, END], |n| format!("ENTITY a{} SUBTYPE OF(r);{}END_ENTITY;", name(n), more(n)))
}

/// The entity above this one, if there is one.
fn above(number: usize) -> String {
    number.checked_sub(1).map_or(String::new(), |number| format!(" SUBTYPE OF({})", name(number)))
}

const HIERARCHIES: [Family; 9] = [
    family("entities, each below the one before", |size| {
        filled(size, ["SCHEMA s;", END], |n| format!("ENTITY {}{};END_ENTITY;", name(n), above(n)))
    }),
    family("the same, an attribute and a rule each", |size| {
        let entity = |n: usize| format!("ENTITY {}{};a{n}:REAL;WHERE a0>a{};END_ENTITY;", name(n), above(n), n / 2);
        filled(size, ["SCHEMA s;", END], entity)
    }),
    family("the same, attributes of one name", |size| {
        filled(size, ["SCHEMA s;", END], |n| format!("ENTITY {}{};a:REAL;END_ENTITY;", name(n), above(n)))
    }),
    family("entities, all below one", |size| {
        let around = ["SCHEMA s;ENTITY r;END_ENTITY;", END];
        filled(size, around, |n| format!("ENTITY {} SUBTYPE OF(r);END_ENTITY;", name(n)))
    }),
    family("entities, each below all before", |size| {
        let around = ["SCHEMA s;ENTITY r;a:REAL;END_ENTITY;", END];
        filled(size, around, |n| format!("ENTITY {} SUBTYPE OF(r{});WHERE a>0;END_ENTITY;", name(n), listed(n)))
    }),
    family("diamonds", |size| {
        let half = |side: &str, n: usize| format!("ENTITY {side}{} SUBTYPE OF(e{n},f{n});WHERE a>b;END_ENTITY;", n + 1);
        let around = ["SCHEMA s;ENTITY e0;a:REAL;END_ENTITY;ENTITY f0;b:REAL;END_ENTITY;", END];
        filled(size, around, |n| half("e", n) + &half("f", n))
    }),
    family("entities below one of many attributes", |size| wide_root(size, |_| String::new())),
    family("the same, a rule each", |size| wide_root(size, |n| format!("WHERE a>{};", name(n)))),
    family("one entity of many attributes", |size| {
        filled(size, ["SCHEMA s;ENTITY e;a", ":REAL;END_ENTITY;END_SCHEMA;"], |n| ",".to_string() + &name(n))
    }),
];

/// Items, and then as many uses of the item `i` as a size allows.
fn used_often(size: usize, items: &str) -> Vec<u8> {
    let head = ["SCHEMA s;TYPE t=ENUMERATION OF(", items, ");END_TYPE;TYPE u=REAL;WHERE i"].concat();
    filled(size, [&head, ";END_TYPE;END_SCHEMA;"], |_| "+i".into())
}

const SPELLINGS: [Family; 10] = [
    family("items, all different", |size| filled(size, ITEMS, |n| ",".to_string() + &name(n))),
    family("items, all equal", |size| filled(size, ITEMS, |_| ",i".into())),
    family("declarations, all equal but the last", |size| {
        filled(size, ["SCHEMA s;CONSTANT ", &format!("d:t:=2;{}", CONSTANTS[1])], |_| "c:t:=1;".into())
    }),
    family("one item in all types", |size| {
        filled(size, ["SCHEMA s;", END], |n| format!("TYPE {0}=ENUMERATION OF(i);WHERE {0}.i=i;END_TYPE;", name(n)))
    }),
    family("names that differ in their last bytes", |size| {
        let prefix = "a".repeat(40);
        filled(size, ITEMS, |n| format!(",{prefix}{n:04}"))
    }),
    family("long names of one hash", |size| filled(size, ITEMS, |n| ",".to_string() + &collisions::one_hash(n))),
    family("short names of one bucket", |size| {
        let names = collisions::one_bucket_within(size - ITEMS.concat().len());
        [ITEMS[0], names, ITEMS[1]].concat().into_bytes()
    }),
    family("one name behind many of its bucket", |size| {
        used_often(size, &["i", collisions::one_bucket_within(size / 2)].concat())
    }),
    family("one name behind full chains", |size| used_often(size, &[&collisions::full_chains()[1..], ",i"].concat())),
    family("labels of one type", |size| {
        let around = ["SCHEMA s;TYPE t=REAL;WHERE ", "END_TYPE;END_SCHEMA;"];
        filled(size, around, |n| format!("{}:?;", name(n)))
    }),
];
