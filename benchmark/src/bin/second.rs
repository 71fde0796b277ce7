//! What busread is compared with: the same program by the second implementation,
//! without the standard library's buffers between it and the system.

use std::fs::File;
use std::io;
use std::os::fd::AsFd;

use second::report::report_to;

fn main() -> io::Result<()> {
    let input = io::stdin().as_fd().try_clone_to_owned()?;
    let output = io::stdout().as_fd().try_clone_to_owned()?;
    report_to(File::from(input), File::from(output))
}
