//! A program with all of the proved core, and nothing else.

use lunozhar::raw::*;
use std::hint::black_box;

fn main() {
    black_box(std::env::args().count());
    black_box([
        lunozhar_fresh as *const (),
        lunozhar_open as *const (),
        lunozhar_close as *const (),
        lunozhar_message as *const (),
        lunozhar_feed as *const (),
        lunozhar_ask as *const (),
        lunozhar_look_up as *const (),
        lunozhar_table_for as *const (),
        lunozhar_in_order as *const (),
        lunozhar_count as *const (),
        lunozhar_name_add as *const (),
        lunozhar_name_remove as *const (),
        lunozhar_name_find as *const (),
        lunozhar_name_table as *const (),
        lunozhar_write_table as *const (),
        lunozhar_read_group as *const (),
        lunozhar_read_field as *const (),
        lunozhar_read_hosts as *const (),
        lunozhar_write_greeting as *const (),
        lunozhar_write_ok as *const (),
        lunozhar_write_busy as *const (),
        lunozhar_hash as *const (),
        lunozhar_place as *const (),
    ]);
}
