//! The exported functions of the library (include/urzulempa.h). None of them has a precondition: a slice is all they ask.

use crate::{Answer, Node, Salvaged, Settings, TgfCounts};
use std::mem::{align_of, size_of, MaybeUninit};
use std::ptr::addr_of;

// Declared once for the crate and for the test that calls them as C does.
include!("exported.rs");

/// Holds a struct to the header's layout: its size, its alignment, and where each field begins.
macro_rules! lies {
    ($what:ty, $size:literal, $align:literal: $($field:ident $at:literal),*) => {
        const _: () = {
            assert!(size_of::<$what>() == $size && align_of::<$what>() == $align);
            let one = MaybeUninit::<$what>::uninit();
            let base = one.as_ptr();
            // SAFETY: places inside `one`, none of which is read.
            $(assert!(unsafe { addr_of!((*base).$field).cast::<u8>().offset_from(base.cast::<u8>()) } == $at);)*
        };
    };
}

lies!(Answer, 40, 8: number 0, place 8, bytes 16, units 24, depth 32);
lies!(Node, 10, 2: kind 0, number 2, group 4, installable 6, missing 7, clause 8);
lies!(Salvaged, 40, 8: number 0, place 8, bytes 16, replaced 24, dropped 32);
lies!(Settings, 40, 8: number 0, place 8, indent 16, simplify 24, edition 32);
lies!(TgfCounts, 32, 8: number 0, place 8, nodes 16, edges 24);

// SAFETY, for all of them: pointer and length are those of one slice, and the library reads and writes inside it only (proved).

pub fn explain(file: &[u8], option: u64, room: &mut [u8]) -> Answer {
    unsafe { urzulempa_explain(file.as_ptr(), file.len(), option, room.as_mut_ptr(), room.len()) }
}

pub fn explain_plain(file: &[u8], room: &mut [u8]) -> Answer {
    unsafe { urzulempa_explain_plain(file.as_ptr(), file.len(), room.as_mut_ptr(), room.len()) }
}

pub fn explain_edition(file: &[u8], edition: u64, option: u64, room: &mut [u8]) -> Answer {
    unsafe { urzulempa_explain_edition(file.as_ptr(), file.len(), edition, option, room.as_mut_ptr(), room.len()) }
}

pub fn explain_air(file: &[u8], option: u64, room: &mut [u8]) -> Answer {
    unsafe { urzulempa_explain_air(file.as_ptr(), file.len(), option, room.as_mut_ptr(), room.len()) }
}

pub fn graphviz(file: &[u8], option: u64, room: &mut [u8]) -> Answer {
    unsafe { urzulempa_graphviz(file.as_ptr(), file.len(), option, room.as_mut_ptr(), room.len()) }
}

pub fn check(file: &[u8]) -> Answer {
    unsafe { urzulempa_check(file.as_ptr(), file.len()) }
}

pub fn nodes(file: &[u8], list: &mut [Node]) -> Answer {
    unsafe { urzulempa_nodes(file.as_ptr(), file.len(), list.as_mut_ptr(), list.len()) }
}

pub fn edges(file: &[u8], list: &mut [u16]) -> Answer {
    unsafe { urzulempa_edges(file.as_ptr(), file.len(), list.as_mut_ptr(), list.len()) }
}

pub fn what_if(file: &[u8], solvable: u64, reason: u64, list: &mut [Node]) -> Answer {
    unsafe { urzulempa_what_if(file.as_ptr(), file.len(), solvable, reason, list.as_mut_ptr(), list.len()) }
}

pub fn what_if_explain(file: &[u8], solvable: u64, reason: u64, option: u64, room: &mut [u8]) -> Answer {
    unsafe { urzulempa_what_if_explain(file.as_ptr(), file.len(), solvable, reason, option, room.as_mut_ptr(), room.len()) }
}

pub fn salvage(file: &[u8], room: &mut [u8], list: &mut [u16]) -> Salvaged {
    unsafe { urzulempa_salvage(file.as_ptr(), file.len(), room.as_mut_ptr(), room.len(), list.as_mut_ptr(), list.len()) }
}

pub fn settings_read(file: &[u8], version: u64) -> Settings {
    unsafe { urzulempa_settings_read(file.as_ptr(), file.len(), version) }
}

pub fn settings_set(room: &mut [u8], used: u64, version: u64, setting: u64, content: u64) -> Answer {
    unsafe { urzulempa_settings_set(room.as_mut_ptr(), room.len(), used, version, setting, content) }
}

pub fn write(rows: &[u8], room: &mut [u8]) -> Answer {
    unsafe { urzulempa_write(rows.as_ptr(), rows.len(), room.as_mut_ptr(), room.len()) }
}

pub fn tgf(file: &[u8], room: &mut [u8]) -> Answer {
    unsafe { urzulempa_tgf(file.as_ptr(), file.len(), room.as_mut_ptr(), room.len()) }
}

pub fn tgf_read(text: &[u8], nodes: &mut [u32], edges: &mut [u32]) -> TgfCounts {
    unsafe { urzulempa_tgf_read(text.as_ptr(), text.len(), nodes.as_mut_ptr(), nodes.len(), edges.as_mut_ptr(), edges.len()) }
}

pub fn season(report: &mut [u64], file: &[u8], edition: u64, option: u64, room: &mut [u8]) -> Answer {
    unsafe { urzulempa_season(report.as_mut_ptr(), report.len(), file.as_ptr(), file.len(), edition, option, room.as_mut_ptr(), room.len()) }
}

pub fn join(report: &mut [u64], second: &[u64]) -> Answer {
    unsafe { urzulempa_join(report.as_mut_ptr(), report.len(), second.as_ptr(), second.len()) }
}
