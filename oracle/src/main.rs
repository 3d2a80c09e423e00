//! The oracle: drives the original allocator, unchanged, and prints what it did.

#![feature(thread_local, generic_atomic, const_trait_impl, const_cmp)]

// The original and what stands beside it.
mod allocator;
mod libc;
mod objects;
mod page_size;
mod start;
mod utils;

// The harness.
mod call;
#[cfg(linked_call_leaves)]
mod calls;
mod clauses;
#[cfg(linked_leaves)]
mod compare;
mod cover;
#[cfg(linked_check_leaf)]
mod damage;
mod driver;
mod generate;
#[cfg(linked_call_leaves)]
mod lent;
mod mixes;
#[cfg(linked_call_leaves)]
mod patterns;
mod play;
mod random;
mod recipe;
mod record;
#[cfg(linked_call_leaves)]
mod refusals;
mod run;
mod sanity;
mod selftest;
mod table;

const USAGE: &str = "usage: oracle run                                      line commands on stdin
       oracle generate NAME SEED HEAPS SPANS CALLS    print a call list
       oracle cover                                   what a call list on stdin does
       oracle record                                  a list on stdin as a file of the replay crate
       oracle mixes                                   the names generate takes
       oracle selftest [LISTS]                        generated lists, each table checked";

fn main() {
    unsafe { page_size::set_page_size(4096) };
    let arguments: Vec<String> = std::env::args().skip(1).collect();
    let words: Vec<&str> = arguments.iter().map(String::as_str).collect();
    let outcome = match words.as_slice() {
        ["run"] => run::run(),
        ["generate", recipe @ ..] => recipe::command(recipe),
        ["cover"] => cover::command(),
        ["record"] => record::command(),
        ["mixes"] => mixes::command(),
        ["selftest"] => selftest::command("40"),
        ["selftest", lists] => selftest::command(lists),
        #[cfg(linked_leaves)]
        ["compare", operations] => compare::command(operations),
        #[cfg(linked_check_leaf)]
        ["damage", lists] => damage::command(lists),
        #[cfg(linked_call_leaves)]
        ["calls", calls, seed] => calls::command(calls, seed),
        _ => Err(USAGE.to_string()),
    };
    if let Err(message) = outcome {
        eprintln!("{message}");
        std::process::exit(2);
    }
}
