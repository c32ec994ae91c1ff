//! The same histories to the Rust and to our index: answers, all words (so node shapes, node numbers, free chain and mark), ranges. It
//! stops at the first difference that docs/DIFFERENCES.md does not list, and ends with a summary. README.md says how it is built.
//!   driver [--scale PERCENT] [--fault NAME]

#![feature(allocator_api, btreemap_alloc, core_intrinsics, min_specialization)]
#![feature(slice_ptr_get)]
#![allow(internal_features)]

/// What the seven files name by `crate::`.
mod alloc {
    pub use std::alloc::{Allocator, Layout};
}
mod boxed {
    pub use std::boxed::Box;
}

mod btree;
mod cuts;
mod ffi;
mod histories;
#[cfg(inner)]
mod inner;
mod joins;
mod loads;
mod nightly;
mod ours;
mod pair;
mod refusals;
mod rust;
mod shapes;
mod slab;
mod source;
mod words;

use pair::{Fault, Totals};

fn main() {
    // where the Rust panics on a range is an answer; anything else ends the run
    let usual = std::panic::take_hook();
    std::panic::set_hook(Box::new(move |info| {
        if !info.payload().downcast_ref::<&str>().is_some_and(|m| m.starts_with("range start")) {
            usual(info);
        }
    }));
    let (mut scale, mut fault) = (100, None);
    let mut args = std::env::args().skip(1);
    while let Some(word) = args.next() {
        let value = args.next().unwrap_or_default();
        match word.as_str() {
            "--scale" => scale = value.parse().expect("a number of percent"),
            "--fault" => fault = Some(Fault::named(&value).unwrap_or_else(|| panic!("no fault {value}: {}", Fault::NAMES.join(", ")))),
            _ => panic!("usage: driver [--scale PERCENT] [--fault NAME]"),
        }
    }
    let mut totals = Totals::default();
    let mut run = || -> Result<(), String> {
        refusals::all(&mut totals)?;
        loads::all(&mut totals, fault, scale)?;
        joins::all(&mut totals, fault, scale)?;
        cuts::all(&mut totals, fault, scale)?;
        shapes::two_and_three_leaves(&mut totals, fault)?;
        shapes::two_and_three_inner(&mut totals, fault, scale)?;
        shapes::smallest_and_full(&mut totals, fault)?;
        #[cfg(inner)]
        inner::all(&mut totals, scale)?;
        shapes::every_range(&mut totals, fault, scale)?;
        histories::all(&mut totals, fault, scale)
    };
    match run() {
        Ok(()) => println!("{totals}\nno difference that is not on the list"),
        Err(why) => {
            println!("DIFFERENCE: {why}\nseen until then:\n{totals}");
            std::process::exit(1);
        }
    }
}
