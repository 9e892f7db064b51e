//! A program with what the reference has of the same functions, and nothing else.

use lunozhar_reference::handshake::{field, read_group, try_pairs, write_busy, write_greeting, write_ok};
use lunozhar_reference::hash::{place, product};
use lunozhar_reference::names;
use lunozhar_reference::station::State;
use lunozhar_reference::tally::Tally;
use lunozhar_reference::writer::write_table;
use std::hint::black_box;

fn main() {
    black_box(std::env::args().count());
    black_box([
        State::fresh as *const (),
        State::open as *const (),
        State::close as *const (),
        State::message as *const (),
        State::feed as *const (),
        State::own_query as *const (),
        State::look_up as *const (),
        State::table_for as *const (),
        State::in_order as *const (),
        Tally::count as *const (),
        names::add as *const (),
        names::remove as *const (),
        names::find as *const (),
        names::table as *const (),
        write_table as *const (),
        read_group as *const (),
        field as *const (),
        try_pairs as *const (),
        write_greeting as *const (),
        write_ok as *const (),
        write_busy as *const (),
        product as *const (),
        place as *const (),
    ]);
}
