use bench::cone::ConeVisits;
use std::process::ExitCode;

fn main() -> ExitCode {
    bench::program::run::<ConeVisits>()
}
