//! Gives the files of the comparisons, most of them damaged, to the tools for the bench:
//! nothing may panic, and what they say is held against the files and the library.

mod built;
mod drawings;
mod dumps;
mod explained;
mod listed;
mod planted;
mod programs;
mod texts;

use comparing::process;

fn main() {
    process::run(compare_all, |file| gawipsol::check(file).is_ok().into());
}

/// Two threads compare: programs, and what is made of them.
fn compare_all() {
    let second = process::thread(|| (listed::compare(), texts::compare()));
    let programs = programs::compare();
    let built = built::compare();
    let (listed, texts) = second.join().expect("the second thread's counts");
    programs.report();
    built.report();
    listed.report();
    texts.report();
    println!(
        "tools_compare: {} programs, {} built, {} listings, {} drawings, {} texts, 0 differences",
        programs.all(),
        built.all(),
        listed.all(),
        listed.drawings(),
        texts.all()
    );
}
