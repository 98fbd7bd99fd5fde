//! Times the proved calls beside the fastest versions that nobody proved, in one run, as ratios. A
//! component is a module; its versions are first seen to agree. The tables are in Markdown.
//!
//!     cargo run --release -p bench -- NAME          # the times of a component
//!     cargo run --release -p bench -- NAME check    # only that its versions agree
//!     cargo run --release -p bench                  # the times of all
//!     cargo run --release -p bench -- check         # only that the versions of all agree
//!
//! A component's module says what else it takes.

mod agreement;
mod mapper;
mod timing;

/// A component: its name, and its function, which is given the arguments behind the name.
type Component = (&'static str, fn(&[&str]));

const COMPONENTS: &[Component] = &[("mapper", mapper::main)];

/// Says what is wrong with the arguments, and ends.
fn refuse(said: &str) -> ! {
    eprintln!("bench: {said}");
    std::process::exit(2);
}

fn main() {
    let arguments: Vec<String> = std::env::args().skip(1).collect();
    let arguments: Vec<&str> = arguments.iter().map(String::as_str).collect();
    if let [] | ["check"] = arguments[..] {
        return COMPONENTS.iter().for_each(|(_, component)| component(&arguments));
    }
    match COMPONENTS.iter().find(|(name, _)| *name == arguments[0]) {
        Some((_, component)) => component(&arguments[1..]),
        None => {
            let names: Vec<&str> = COMPONENTS.iter().map(|(name, _)| *name).collect();
            refuse(&format!("there is no {}, but {}", arguments[0], names.join(", ")));
        }
    }
}
