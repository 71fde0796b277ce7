//! Captures of a logic analyser, by sigrok-cli.

use std::fs;
use std::process::Command;

use couplingnut_tests::chip::sent;
use couplingnut_tests::program::{busread, output_of, Feed};
use second::sender::Order;

use super::{example, folder, found};

fn sigrok(words: &[&str]) -> Vec<u8> {
    let output = Command::new("sigrok-cli").args(words).output().expect("sigrok-cli runs");
    assert!(
        output.status.success(),
        "sigrok-cli {words:?}: {}",
        String::from_utf8_lossy(&output.stderr)
    );
    output.stdout
}

#[test]
fn captures_of_a_logic_analyser_are_read() {
    if !found("sigrok-cli", "captures_of_a_logic_analyser_are_read") {
        return;
    }
    let samples =
        sent(&Order { direction: 0, settings: 0, start: 0x000A, count: 1, data: &[0x3C] });
    let place = folder("sigrok");
    let file = |name: &str| place.join(name).to_str().expect("a path in UTF-8").to_string();
    let (raw, capture, vcd, converted) =
        (file("raw"), file("capture.sr"), file("capture.vcd"), file("vcd.sr"));
    fs::write(&raw, &samples).unwrap();
    let lines = "0=D0,1=D1,2=D2,3=D3";
    sigrok(&[
        "-I",
        "binary:numchannels=8:samplerate=1000000",
        "-i",
        &raw,
        "-C",
        lines,
        "-o",
        &capture,
    ]);
    fs::write(&vcd, sigrok(&["-i", &capture, "-C", "D0,D1,D2,D3", "-O", "vcd"])).unwrap();
    sigrok(&["-i", &vcd, "-o", &converted]);
    for source in [&capture, &converted] {
        let trace = sigrok(&["-i", source, "-C", "D0,D1,D2,D3", "-O", "binary"]);
        let input = [fs::read(example("scratch.map")).unwrap(), trace].concat();
        let printed = output_of(&mut busread(), &input, Feed::Pipe).output;
        assert_eq!(
            String::from_utf8_lossy(&printed),
            "map 16\nW 000A 3C 3C 1 3C\nrecords 1 samples 51 slow 0\n"
        );
    }
}
