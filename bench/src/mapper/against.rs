//! The library of one commit beside that of another, both loaded at once. `bench/against` makes
//! them. Both must take the settings, the states, what a call is told, the port and the tallies as
//! this tree's odu0.h has them.

use super::job::{all_jobs, best_place, best_take, Job, SinkCall, SourceCall};
use crate::timing::{middle, race, AtOffset, Table};
use odu0::Tallies;
use std::cell::RefCell;
use std::ffi::{c_char, c_int, c_void, CString};
use std::hint::black_box;
use std::mem::transmute;

type Check = unsafe extern "C" fn(u8, u8) -> u8;

extern "C" {
    fn dlopen(file: *const c_char, flags: c_int) -> *mut c_void;
    fn dlsym(library: *mut c_void, name: *const c_char) -> *mut c_void;
    fn table_check(jc1: u8, jc2: u8) -> u8;
    fn tables_check(jc1: u8, jc2: u8) -> u8;
    fn steps_check(jc1: u8, jc2: u8) -> u8;
}

struct Library {
    source: SourceCall,
    sink: SinkCall,
    check: Check,
}

impl Library {
    fn open(file: &str) -> Library {
        const NOW: c_int = 2;
        let file = CString::new(file).unwrap();
        // SAFETY: the name ends in 0, and the library has no code that runs as it is loaded.
        let library = unsafe { dlopen(file.as_ptr(), NOW) };
        assert!(!library.is_null(), "{file:?} is not loaded");
        let find = |name: &str| {
            let name = CString::new(name).unwrap();
            // SAFETY: the library is loaded.
            let found = unsafe { dlsym(library, name.as_ptr()) };
            assert!(!found.is_null(), "{file:?} has no {name:?}");
            found
        };
        // SAFETY: these are the functions of odu0.h, and the check as bench/against exports it.
        unsafe {
            Library {
                source: transmute::<*mut c_void, SourceCall>(find("odu0_v1_source_call")),
                sink: transmute::<*mut c_void, SinkCall>(find("odu0_v1_sink_call")),
                check: transmute::<*mut c_void, Check>(find("odu0_check")),
            }
        }
    }
}

/// As many checks, each of which waits for the one before it.
const CHECKS: u32 = 1000;

fn chain(check: Check) {
    // SAFETY: it takes every two bytes.
    let last = (0..CHECKS).fold(1, |byte, i| unsafe { check(byte, black_box(i as u8)) });
    black_box(last);
}

fn agree(checks: &[Check]) {
    for word in 0..=u16::MAX {
        let [jc1, jc2] = word.to_be_bytes();
        // SAFETY: they take every two bytes.
        let mut all = checks.iter().map(|check| unsafe { check(jc1, jc2) });
        let first = all.next();
        assert!(all.all(|other| Some(other) == first), "the checks of {word:04X} differ");
    }
}

/// Shows the times of the two libraries at a call, and of the best C, which only places or takes.
fn show(table: &Table, call: &str, (k, count): (u32, u32), [before, after, best]: [f64; 3]) {
    let mut row = [call.to_string(), k.to_string(), count.to_string()].to_vec();
    row.extend([before, after].map(|time| format!("{time:.1}")));
    row.push(format!("{:.3}", after / before));
    row.push(format!("{best:.1}"));
    row.extend([before, after].map(|time| format!("{:.2}", time / best)));
    table.row(&row);
}

pub fn main(before: &str, after: &str) {
    let libraries = &[before, after].map(Library::open);
    println!("\nIn ns; the best C only places or takes.\n");
    let heads = ["call  ", "   K", "count", "  before", "   after", "after / before"];
    let table = &Table::new(1, &[&heads[..], &["  best C", "before / C", "after / C"]].concat());
    for (k, count) in all_jobs().chain([(1, 4), (1, 0)]) {
        let job = &Job::new(k, count);
        let frame = &RefCell::new(AtOffset::new(&job.frame, 0));
        let out = &RefCell::new(AtOffset::new(&job.frame, 0));
        let tallies = &RefCell::new(Tallies::new());
        let source = |library: &Library| job.call_source(library.source, &mut frame.borrow_mut());
        let sink = |library: &Library| {
            job.call_sink(library.sink, &mut out.borrow_mut(), &mut tallies.borrow_mut())
        };
        for library in libraries {
            frame.borrow_mut().fill(0xEE);
            out.borrow_mut().fill(0xEE);
            source(library);
            sink(library);
            assert!(frame.borrow()[..] == job.frame[..], "placing differs: k {k}, count {count}");
            assert!(out.borrow().starts_with(&job.client), "taking differs: k {k}, count {count}");
        }
        let [before, after] = libraries;
        let sources = middle(|offset| {
            frame.replace(AtOffset::new(&job.frame, offset));
            race([
                Box::new(|| source(before)),
                Box::new(|| source(after)),
                Box::new(|| job.place(best_place, &mut frame.borrow_mut())),
            ])
        });
        show(table, "source", (k, count), sources);
        let sinks = middle(|offset| {
            out.replace(AtOffset::new(&job.frame, offset));
            race([
                Box::new(|| sink(before)),
                Box::new(|| sink(after)),
                Box::new(|| job.take(best_take, &mut out.borrow_mut())),
            ])
        });
        show(table, "sink", (k, count), sinks);
    }
    let [b, a] = libraries;
    let checks = [b.check, a.check, table_check, tables_check, steps_check];
    agree(&checks);
    let chains = checks.map(|check| Box::new(move || chain(check)) as Box<dyn FnMut()>);
    let [before, after, table, tables, steps] = race(chains).map(|t| t / f64::from(CHECKS));
    println!("\nThe check alone: {after:.1} ns, {:.3} of before,", after / before);
    let [table, tables, steps] = [table, tables, steps].map(|other| after / other);
    println!("{table:.2} of a table in C, {tables:.2} of two tables, {steps:.2} of steps");
}
