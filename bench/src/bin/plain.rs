use bench::visit::WholeVisits;
use std::process::ExitCode;

fn main() -> ExitCode {
    bench::program::run::<WholeVisits>()
}
