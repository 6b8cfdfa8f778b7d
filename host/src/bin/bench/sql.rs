//! ClickHouse SQL as people write it: statements of several kinds, all from a seed.
use host::Random;

#[rustfmt::skip]
const TABLES: [&str; 12] = [
    "events", "orders", "customers", "page_views", "sessions", "invoices", "payments", "hits_local", "system.parts", "default.visits",
    "analytics.daily_totals", "`user-profiles`",
];

#[rustfmt::skip]
const COLUMNS: [&str; 26] = [
    "id", "user_id", "event_time", "EventDate", "country_code", "amount", "price", "quantity", "status", "url", "referer", "ip_address",
    "browser", "device_type", "session_id", "created_at", "updated_at", "is_deleted", "tags", "properties", "city", "name", "email",
    "total_bytes", "duration_ms", "\"Order Number\"",
];

#[rustfmt::skip]
const FUNCTIONS: [&str; 22] = [
    "count", "sum", "avg", "uniqExact", "toStartOfHour", "toDate", "toYYYYMM", "lower", "length", "arrayJoin", "quantile(0.95)", "max",
    "argMax", "formatDateTime", "coalesce", "JSONExtractString", "cityHash64", "substring", "toUInt32", "round", "if", "dictGet",
];

#[rustfmt::skip]
const TYPES: [&str; 10] = [
    "UInt64", "String", "DateTime64(3, 'UTC')", "LowCardinality(String)", "Nullable(Float64)", "Array(UInt32)", "Decimal(18, 4)", "Date",
    "Enum8('new' = 1, 'paid' = 2)", "Map(String, UInt64)",
];

#[rustfmt::skip]
const LITERALS: [&str; 20] = [
    "'2024-01-15 00:00:00'", "'RU'", "'mobile'", "'https://example.com/search?q=sql&page=2'", "'%error%'", "'it''s here'", "'a\\tb'", "''",
    "'active'", "'القاهرة'", "'شارع النيل، مبنى 12'", "'מחיר'", "'תל אביב'", "'שלום עולם'", "'naïve café'", "'2023-12-31'", "'UTC'",
    "'Chrome 120.0'", "'x'", "'{\"key\": [1, 2, 3]}'",
];

#[rustfmt::skip]
const NOTES: [&str; 6] = [
    "only the last day", "TODO: drop this column when the old dashboards are gone", "see the ticket", "הערה: לבדוק", "ملاحظة", "both sides are sorted",
];

const OPERATORS: [&str; 10] = ["=", "!=", "<", ">=", "<=", ">", "LIKE", "IN", "<>", "=="];

fn number(r: &mut Random) -> String {
    match r.below(8) {
        0..=3 => r.below(1000).to_string(),
        4 => format!("{}.{:02}", r.below(10_000), r.below(100)),
        5 => r.next().to_string(),
        6 => format!("{}e-{}", 1 + r.below(9), r.below(10)),
        _ => format!("0x{:X}", r.below(1 << 20)),
    }
}

fn column(r: &mut Random) -> String {
    let name = r.one_of(&COLUMNS);
    match r.below(4) {
        0 => format!("t{}.{name}", r.below(4)),
        1 => format!("{name}_{}", r.below(30)),
        _ => name.to_string(),
    }
}

fn expression(r: &mut Random, depth: usize) -> String {
    match r.below(if depth == 0 { 4 } else { 10 }) {
        0..=1 => column(r),
        2 => number(r),
        3 => r.one_of(&LITERALS).to_string(),
        4..=6 => format!("{}({})", r.one_of(&FUNCTIONS), list(r, 2, |r| expression(r, depth - 1))),
        7 => format!("({} {} {})", expression(r, depth - 1), r.one_of(&["+", "-", "*", "/", "%", "||"]), expression(r, depth - 1)),
        8 => format!("arrayMap(x -> x * {}, [{}])", number(r), list(r, 4, number)),
        _ => format!("{}::{}", column(r), r.one_of(&TYPES)),
    }
}

/// One to `most` of something, with commas between.
fn list(r: &mut Random, most: usize, item: impl Fn(&mut Random) -> String) -> String {
    let items: Vec<String> = (0..1 + r.below(most)).map(|_| item(r)).collect();
    items.join(", ")
}

fn condition(r: &mut Random) -> String {
    let mut text = format!("{} {} {}", expression(r, 1), r.one_of(&OPERATORS), expression(r, 1));
    for _ in 0..r.below(3) {
        text += &format!("\n  {} {} {} {}", r.one_of(&["AND", "OR", "AND NOT"]), column(r), r.one_of(&OPERATORS), expression(r, 1));
    }
    text
}

fn select(r: &mut Random) -> String {
    let columns: Vec<String> = (0..1 + r.below(7)).map(|_| expression(r, 2)).collect();
    let mut text = format!("SELECT\n    {}\nFROM {} AS t0", columns.join(",\n    "), r.one_of(&TABLES));
    for i in 1..r.below(3) + 1 {
        let kind = r.one_of(&["INNER JOIN", "LEFT JOIN", "ANY LEFT JOIN", "GLOBAL INNER JOIN", "ASOF JOIN"]);
        text += &format!("\n{kind} {} AS t{i} ON t0.{} = t{i}.{}", r.one_of(&TABLES), r.one_of(&COLUMNS), r.one_of(&COLUMNS));
    }
    text += &format!("\nWHERE {}", condition(r));
    if r.below(2) == 0 {
        text += &format!("\nGROUP BY {}\nHAVING count() > {}", list(r, 3, column), number(r));
    }
    if r.below(2) == 0 {
        text += &format!("\nORDER BY {} DESC", list(r, 2, column));
    }
    text + &format!("\nLIMIT {}", 10 * (1 + r.below(100)))
}

fn insert(r: &mut Random) -> String {
    let columns: Vec<String> = (0..2 + r.below(6)).map(|_| column(r)).collect();
    let row = |r: &mut Random| {
        let values: Vec<String> = columns.iter().map(|_| if r.below(2) == 0 { number(r) } else { r.one_of(&LITERALS).to_string() }).collect();
        format!("\n    ({})", values.join(", "))
    };
    format!("INSERT INTO {} ({}) VALUES{}", r.one_of(&TABLES), columns.join(", "), list(r, 12, row))
}

fn create(r: &mut Random) -> String {
    let column = |r: &mut Random| format!("\n    {} {} CODEC(ZSTD({}))", column(r), r.one_of(&TYPES), 1 + r.below(9));
    format!(
        "CREATE TABLE IF NOT EXISTS {} ON CLUSTER '{{cluster}}'\n({}\n)\nENGINE = MergeTree\nPARTITION BY toYYYYMM({})\nORDER BY ({})\n\
         SETTINGS index_granularity = {}",
        r.one_of(&TABLES),
        list(r, 10, column),
        r.one_of(&COLUMNS),
        list(r, 3, self::column),
        number(r)
    )
}

/// One statement, at times with a comment before it.
pub fn statement(r: &mut Random) -> String {
    let note = match r.below(6) {
        0 => format!("-- {}\n", r.one_of(&NOTES)),
        1 => format!("/* {}\n   {} */\n", r.one_of(&NOTES), r.one_of(&NOTES)),
        _ => String::new(),
    };
    let body = match r.below(10) {
        0..=5 => select(r),
        6..=7 => insert(r),
        8 => format!("WITH recent AS\n(\n{}\n)\n{}", select(r), select(r)),
        _ => create(r),
    };
    format!("{note}{body};\n\n")
}
