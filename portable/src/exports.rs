//! What the C file offers. To narrow it, leave lines out here: the header is narrowed with it.

/// The functions by their names in the program; in C each has the last part of its name.
pub const FUNCTIONS: &[&str] = &[
    "firmware::kosmydore_join_reply",
    "firmware::kosmydore_join",
    "firmware::kosmydore_split_reply",
    "firmware::kosmydore_split_stream",
    "firmware::kosmydore_split_code",
    "firmware::kosmydore_settings_reply",
    "firmware::kosmydore_record_length_reply",
    "firmware::kosmydore_record_length",
    "firmware::lent::kosmydore_module_fresh",
    "firmware::lent::kosmydore_module_set_up",
    "firmware::lent::kosmydore_module_hear",
    "firmware::lent::kosmydore_module_tick",
    "firmware::lent::kosmydore_module_request",
    "firmware::lent::kosmydore_module_next_frame",
    "firmware::lent::kosmydore_count",
    "firmware::calls::kosmydore_fresh",
    "firmware::calls::kosmydore_set_up",
    "firmware::calls::kosmydore_hear",
    "firmware::calls::kosmydore_tick",
    "firmware::calls::kosmydore_request",
    "firmware::calls::kosmydore_next_frame",
];

/// The structs that the header declares: the name in the program, and the one in C. Fields are matched in their order.
pub const STRUCTS: &[(&str, &str)] = &[
    ("firmware::judged::SettingsC", "kosmydore_settings"),
    ("firmware::lent::LentHeardC", "kosmydore_module_heard"),
    ("firmware::lent::LentTickedC", "kosmydore_module_ticked"),
    ("firmware::lent::GivenOutC", "kosmydore_given_out"),
    ("wire::settings::Settings", "kosmydore_slot_settings"),
    ("node::slots::Message", "kosmydore_message"),
    ("node::slots::Pending", "kosmydore_pending"),
    ("node::slots::Slot", "kosmydore_slot"),
    ("node::Node", "kosmydore_node"),
    ("firmware::calls::AnsweredC", "kosmydore_answered"),
    ("firmware::calls::HeardC", "kosmydore_heard"),
    ("firmware::calls::TickedC", "kosmydore_ticked"),
    ("firmware::calls::GivenC", "kosmydore_given"),
];

/// The list as the translator takes it.
#[derive(Clone, Copy)]
pub struct Exports<'a> {
    pub functions: &'a [&'a str],
    pub structs: &'a [(&'a str, &'a str)],
}

pub const KOSMYDORE: Exports = Exports { functions: FUNCTIONS, structs: STRUCTS };

/// The last part of a name.
pub fn last(name: &str) -> &str {
    name.rsplit("::").next().unwrap_or(name)
}
