//! The messages, as the model writes them; and the number that a message of upstream stands for.

use crate::tape::Node;

fn text(bytes: &[u8]) -> &str {
    std::str::from_utf8(bytes).expect("text on a tape is UTF-8")
}

pub fn reserved(name: &[u8]) -> String {
    format!("macro name `{}` is reserved (built-in or keyword); pick a different name", text(name))
}

pub fn duplicate(name: &[u8], first_start: u64) -> String {
    format!("duplicate macro definition `{}` (previously defined at byte {first_start})", text(name))
}

/// `declared` in byte order, each once.
pub fn undeclared(name: &[u8], declared: &[&[u8]]) -> String {
    let declared: Vec<String> = declared.iter().map(|d| format!("?{}", text(d))).collect();
    format!(
        "in `def temporal` body: `?{}` does not name a declared parameter (declared: {})",
        text(name),
        declared.join(", ")
    )
}

pub fn plain_identifier(name: &[u8]) -> String {
    let n = text(name);
    format!(
        "in `def temporal` body: plain identifier `{n}` is not allowed, because expansion does not rename it and it can \
         capture or bind a call-site variable; write `${n}` for a variable the macro binds itself, or declare a `?{n}` \
         parameter for a variable the caller names"
    )
}

pub fn call_in_body() -> String {
    "in `def temporal` body: macro-in-macro is not supported".to_string()
}

pub fn unknown_macro(name: &[u8]) -> String {
    format!("unknown macro `{}` (no declared `def temporal`)", text(name))
}

pub fn cedar_macro(name: &[u8], as_value: bool) -> String {
    let place = if as_value { "a value position" } else { "a temporal condition position" };
    format!("macro `{}` is a cedar macro and cannot be called in {place}", text(name))
}

pub fn value_as_condition(name: &[u8]) -> String {
    let n = text(name);
    format!(
        "macro `{n}` is a value macro (an aggregation or arithmetic over aggregations); it must appear as a comparison \
         operand (e.g. `{n}(…) <= n`), not as a standalone condition"
    )
}

pub fn condition_as_value(name: &[u8]) -> String {
    format!(
        "macro `{}` is a condition macro and cannot be used as a value (a comparison operand); use it in a condition \
         position instead",
        text(name)
    )
}

pub fn argument_count(name: &[u8], wanted: u64, got: u64) -> String {
    format!("macro `{}` expects {wanted} argument(s), got {got}", text(name))
}

pub fn budget(limit: u64) -> String {
    format!("macro expansion exceeds the node budget of {limit}")
}

/// `place` is "" for a whole condition, otherwise it starts with a blank.
pub fn stray(binder: bool, name: &[u8], place: &str) -> String {
    let (what, sigil) = if binder { ("binder", '$') } else { ("parameter", '?') };
    format!("stray macro {what} reference `{sigil}{}`{place} outside a macro body", text(name))
}

pub const IN_WITHIN: &str = " in a `within` position";
pub const IN_SLOT: &str = " in a binder position";
pub const IN_FIELD: &str = " in a predicate-argument position";
pub const IN_OPERAND: &str = " in a comparison-operand position";

pub fn unbound(macro_name: &[u8], name: &[u8]) -> String {
    format!("unbound macro parameter `?{}` in body of `{}`", text(name), text(macro_name))
}

pub fn not_a_condition(macro_name: &[u8], name: &[u8]) -> String {
    format!(
        "macro `{}` parameter `?{}` is used in a condition position, so the call-site argument must be a temporal \
         condition (got a different shape)",
        text(macro_name),
        text(name)
    )
}

pub fn binder_as_condition(name: &[u8]) -> String {
    format!("macro binder `${}` used as a whole condition has no meaning", text(name))
}

pub fn not_an_interval(macro_name: &[u8], name: &[u8]) -> String {
    format!(
        "macro `{}` parameter `?{}` is used in a `within` position; the call-site argument must be an interval literal \
         `<n><unit>` (e.g. `1h`)",
        text(macro_name),
        text(name)
    )
}

pub fn not_a_term(macro_name: &[u8], name: &[u8]) -> String {
    format!(
        "macro `{}` parameter `?{}` used in a term position; the call-site argument has the wrong shape",
        text(macro_name),
        text(name)
    )
}

pub fn not_an_identifier(macro_name: &[u8], name: &[u8]) -> String {
    format!(
        "macro `{}` parameter `?{}` is used in a binder position, so the call-site argument must be a single identifier",
        text(macro_name),
        text(name)
    )
}

pub fn not_a_predicate(base: &Node) -> String {
    let shape = match base.code {
        1 => "a conjunction (`&&`)",
        3 => "a negation (`!`)",
        4 => "a `formerly` operator",
        5 => "a `previous` operator",
        6 => "a `since` operator",
        8 => "a comparison",
        9 => "an `exists` binder",
        10 => "a `tp(…)`",
        11 => "an unexpanded macro call",
        12 => "an unresolved macro parameter",
        13 => "a refinement",
        code => unreachable!("{code} is no condition that a fold refuses"),
    };
    format!("a `{{ … }}` field-injection applies only to a single predicate, but the refined term is {shape}")
}

/// The number of an upstream message, by how it starts and how it ends. Names stand between, so a name that held one
/// of the phrases below could be taken for another message; the generated names hold none.
const NUMBERS: &[(u64, &str, &str)] = &[
    (10, "macro name `", "` is reserved (built-in or keyword); pick a different name"),
    (11, "duplicate macro definition `", ")"),
    (20, "in `def temporal` body: `?", ")"),
    (21, "in `def temporal` body: plain identifier `", "` parameter for a variable the caller names"),
    (22, "in `def temporal` body: macro-in-macro is not supported", ""),
    (30, "unknown macro `", "` (no declared `def temporal`)"),
    (31, "macro `", "` is a cedar macro and cannot be called in a temporal condition position"),
    (31, "macro `", "` is a cedar macro and cannot be called in a value position"),
    (32, "macro `", "(…) <= n`), not as a standalone condition"),
    (33, "macro `", "(a comparison operand); use it in a condition position instead"),
    (34, "macro `", " argument(s), got #"),
    (35, "macro expansion exceeds the node budget of #", ""),
    (37, "stray macro ", "` in a `within` position outside a macro body"),
    (38, "stray macro ", "` in a binder position outside a macro body"),
    (39, "stray macro ", "` in a predicate-argument position outside a macro body"),
    (40, "stray macro ", "` in a comparison-operand position outside a macro body"),
    (36, "stray macro ", "` outside a macro body"),
    (41, "unbound macro parameter `?", "`"),
    (42, "macro `", "the call-site argument must be a temporal condition (got a different shape)"),
    (43, "macro binder `$", "` used as a whole condition has no meaning"),
    (44, "macro `", "the call-site argument must be an interval literal `<n><unit>` (e.g. `1h`)"),
    (45, "macro `", "` used in a term position; the call-site argument has the wrong shape"),
    (46, "macro `", "` is used in a binder position, so the call-site argument must be a single identifier"),
    (47, "a `{ … }` field-injection applies only to a single predicate, but the refined term is ", ""),
];

/// The number that a message of upstream stands for. A number at its end is read as `#`.
pub fn number(message: &str) -> Option<u64> {
    let without_digits = message.trim_end_matches(|c: char| c.is_ascii_digit());
    let ended = if without_digits.len() < message.len() { format!("{without_digits}#") } else { message.to_string() };
    NUMBERS
        .iter()
        .find(|(_, start, end)| ended.starts_with(start) && ended.ends_with(end))
        .map(|(number, _, _)| *number)
}
