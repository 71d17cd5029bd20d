//! The inputs that are measured.

/// The units of a text.
pub fn wide(text: &str) -> Vec<u16> {
    text.encode_utf16().collect()
}

/// A list of regular arguments. `batch` says whether it is built as a batch line too.
pub struct Case {
    pub name: &'static str,
    pub args: Vec<Vec<u16>>,
    pub force: bool,
    pub batch: bool,
}

/// A text repeated up to so many units.
fn repeated(text: &str, n: usize) -> Vec<u16> {
    wide(text).into_iter().cycle().take(n).collect()
}

/// SQL with blanks.
pub fn sql(n: usize) -> Vec<u16> {
    repeated("select id, name, total from tenant_7.orders where total > 100 and name <> 'x' order by id; ", n)
}

/// Cyrillic text with blanks.
pub fn cyrillic(n: usize) -> Vec<u16> {
    repeated("выгрузка заказов за год по складам и клиентам ", n)
}

/// All cases.
pub fn cases() -> Vec<Case> {
    let short = [
        "--tenant", "7", "--schema", "orders", "--from", "2026-01-01", "--to", "2026-12-31", "-v", "--out", r"c:\export\a b.csv", "--format", "csv", "--limit",
        "1000", "--quiet",
    ];
    let dense = "select(id),name,total.from.tenant_7.orders.where(total>100)and(name<>'x')";
    let case = |name, args, force, batch| Case { name, args, force, batch };
    vec![
        case("16 short arguments", short.iter().map(|a| wide(a)).collect(), false, true),
        case("16 short arguments, forced", short.iter().map(|a| wide(a)).collect(), true, false),
        case("SQL of 30,000 units with blanks", vec![sql(30_000)], false, false),
        case("SQL of 30,000 units without blanks", vec![repeated(dense, 30_000)], false, false),
        case("quotes and backslashes, 12,000 units", vec![repeated(r#"a\"b\\c"" \\\"d"#, 12_000)], false, true),
        case("Cyrillic of 30,000 units", vec![cyrillic(30_000)], false, true),
    ]
}

/// Entries in order: keys and values.
pub type Entries = Vec<(Vec<u16>, Vec<u16>)>;

/// 60 entries in order.
pub fn entries() -> Entries {
    (0..60).map(|i| (wide(&format!("VARIABLE_{i:02}")), wide(&format!(r"c:\program files\tool {i}\bin;d:\data\{i}")))).collect()
}
