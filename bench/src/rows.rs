//! What is measured. What both sides give is compared when a row is made, before anything of it is measured.
mod feed;
mod files;
mod growth;
mod headers;
mod open_lists;
mod readers;
mod split;
mod tapes;
mod turns;

use crate::row::Row;

/// All rows that run in this process, one after the other.
pub fn each(mut visit: impl FnMut(Row)) {
    feed::each(&mut visit);
    split::each(&mut visit);
    readers::each(&mut visit);
    growth::each(&mut visit);
    open_lists::each(&mut visit);
    turns::each(&mut visit);
    files::each(&mut visit);
    headers::each(&mut visit);
}

/// Those whose sides are processes of their own, where table and name are chosen.
pub fn each_of_processes(is_chosen: impl Fn(&str, &str) -> bool, mut visit: impl FnMut(Row)) {
    tapes::each(is_chosen, &mut visit);
}
