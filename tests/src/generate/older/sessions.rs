//! Sessions of older chips: sound ones of every kind, and ones that are not.

use crate::generate::random::Random;
use crate::generate::sessions::{any_settings, any_usable, USABLE};
use second::older::STREAMING;
use second::session::{Phase, Session, CSB, SCLK};

/// A sound session of any kind, for this top.
pub fn sound_older_session(random: &mut Random, top: u64) -> Session {
    let clock = random.pick(&[0, SCLK]);
    let settings = any_settings(random);
    let kind = random.below(6);
    match kind {
        0 => Session { levels: CSB | clock, settings, ..Session::opened() },
        1 => Session { levels: clock, settings, ..Session::opened() },
        2 => {
            let bits = random.below(16) as u8;
            let value = random.below(1 << bits) as u16;
            let in_use = any_usable(random);
            let phase = Phase::Instruction;
            Session { levels: clock, phase, bits, value, settings, in_use, ..Session::opened() }
        }
        _ => {
            let stalled = kind == 3;
            let bits = if stalled { 0 } else { random.below(8) as u8 };
            Session {
                levels: clock | if stalled { CSB } else { 0 },
                phase: Phase::Data,
                bits,
                value: random.below(1 << bits) as u16,
                address: address_up_to(random, top),
                read: random.coin(),
                settings,
                in_use: any_usable(random),
                left: random.between(1, if stalled { 3 } else { 4 }) as u8,
                armed: false,
            }
        }
    }
}

/// Ends and control registers often.
fn address_up_to(random: &mut Random, top: u64) -> u16 {
    let top = top as u16;
    let anywhere = random.below(usize::from(top) + 1) as u16;
    random.pick(&[anywhere, anywhere, anywhere, 0, 1, 4, 5, top - 1, top])
}

/// Sound sessions with every number of bits of both pieces and every number of
/// bytes left, waiting ones too; and those at rest and passing over.
pub fn every_older_piece() -> Vec<Session> {
    let rest = Session::opened();
    let passing = Session { levels: 0, ..rest };
    let instruction = Session { levels: 0, phase: Phase::Instruction, ..rest };
    let data = Session { levels: 0, phase: Phase::Data, ..rest };
    let mut pieces = vec![rest, passing];
    pieces.extend((0..16).map(|bits| Session { bits, ..instruction }));
    for read in [false, true] {
        for left in 1..=STREAMING {
            pieces.extend((0..8).map(|bits| Session { bits, read, left, ..data }));
        }
        pieces.extend((1..STREAMING).map(|left| Session { levels: CSB, read, left, ..data }));
    }
    pieces
}

/// Sessions that break one condition of soundness each, for any part with this top.
pub fn unsound_older_sessions(top: u16) -> Vec<Session> {
    let rest = Session::opened();
    let passing = Session { levels: 0, ..rest };
    let instruction = Session { levels: 0, phase: Phase::Instruction, ..rest };
    let stalled = Session { phase: Phase::Data, address: top, read: true, left: 2, ..rest };
    let counted = Session { levels: 0, ..stalled };
    let streaming = Session { left: STREAMING, ..counted };
    let mut unsound = vec![
        Session { levels: CSB, ..instruction },
        Session { levels: CSB | SCLK, ..instruction },
        Session { levels: CSB, ..streaming },
        Session { levels: CSB | SCLK, ..streaming },
        Session { value: 1, ..stalled },
        Session { value: 0x0100, ..counted },
        Session { address: 1, ..instruction },
        Session { read: true, ..instruction },
    ];
    unsound.extend([rest, passing].into_iter().flat_map(not_still));
    for data in [stalled, counted, streaming] {
        let above = [top + 1, top + 2, 0x2000 + top, 0x4000, 0x7FFF, 0x8000, 0x8000 + top, 0xFFFF];
        unsound.extend(above.map(|address| Session { address, ..data }));
        unsound.extend((8..=255).map(|bits| Session { bits, ..data }));
    }
    unsound.extend((1..8).map(|bits| Session { bits, ..stalled }));
    unsound.extend([0].into_iter().chain(5..=255).flat_map(|left| {
        [stalled, counted, Session { bits: 7, ..counted }].map(|data| Session { left, ..data })
    }));
    unsound.extend(
        (1..=255).flat_map(|left| [rest, passing, instruction].map(|s| Session { left, ..s })),
    );
    // A newer chip's: armed, in whatever case.
    let sound = [rest, passing, instruction, stalled, counted, streaming];
    unsound.extend(sound.map(|sound| Session { armed: true, ..sound }));
    unsound.extend((16..=255).map(|bits| Session { bits, ..instruction }));
    unsound.extend((0..16).map(|bits| Session { bits, value: 1 << bits, ..instruction }));
    unsound.extend((0..8).map(|bits| Session { bits, value: 1 << bits, ..counted }));
    unsound.extend((0..8).map(|bits| Session { bits, value: 1 << bits, ..streaming }));
    unsound
}

/// A session at rest, or passing over, with something set that is zero there.
fn not_still(still: Session) -> Vec<Session> {
    let mut unsound = vec![
        Session { bits: 1, ..still },
        Session { value: 1, ..still },
        Session { address: 1, ..still },
        Session { address: 0x0100, ..still },
        Session { read: true, ..still },
    ];
    unsound.extend(USABLE.map(|in_use| Session { in_use, ..still }));
    unsound
}
