//! The proved operations and the second program's, measured side by side in one run; see scripts/benchmark.

mod counting;
mod machines;
mod ours;
mod plot;
mod report;
mod subject;
mod timing;

use std::fs;
use std::process::ExitCode;

const HELP: &str = "\
bench count                                      call each operation once, for callgrind to count
bench report COUNTS STACK SETTING MARKDOWN SVG   measure times, and write table and plot; COUNTS and STACK
                                                 are files of lines, a label and a number; SETTING says
                                                 in words on what this is run
";

fn main() -> ExitCode {
    let arguments: Vec<String> = std::env::args().skip(1).collect();
    let arguments: Vec<&str> = arguments.iter().map(String::as_str).collect();
    match arguments[..] {
        ["count"] => counting::call_all(),
        ["report", counts, stack, setting, markdown, svg] => {
            let text = |path| fs::read_to_string(path).expect("the file can be read");
            let rows = report::measure(&counting::read(&text(counts)));
            let page = report::page(&rows, &text(stack), setting);
            fs::write(markdown, page).expect("the table can be written");
            fs::write(svg, plot::plot(&rows)).expect("the plot can be written");
        }
        _ => {
            eprint!("{HELP}");
            return ExitCode::from(2);
        }
    }
    ExitCode::SUCCESS
}
