//! Sessions: sound ones of every kind, whether a trace leads to them or not.

use super::random::Random;
use second::session::{Phase, Session, CSB, SCLK};
use second::settings::Settings;

/// The settings that an instruction takes in use.
pub const USABLE: [Settings; 4] =
    [Settings::LSB_FIRST, Settings::ASCENDING, Settings::SDO_ACTIVE, Settings::SINGLE_INSTRUCTION];

/// The setting that an instruction does not take.
const OTHERS: [Settings; 1] = [Settings::BUFFER_READBACK];

/// A sound session of any kind.
pub fn sound_session(random: &mut Random) -> Session {
    let phase = random.pick(&[Phase::Rest, Phase::Instruction, Phase::Data]);
    let sclk = random.pick(&[0, SCLK]);
    let settings = any_settings(random);
    if phase == Phase::Rest {
        return Session { levels: CSB | sclk, settings, ..Session::opened() };
    }
    let bits = random.below(if phase == Phase::Data { 8 } else { 16 }) as u8;
    let mut session = Session {
        levels: sclk,
        phase,
        bits,
        value: random.below(1 << bits) as u16,
        settings,
        in_use: any_usable(random),
        armed: random.coin(),
        ..Session::opened()
    };
    if phase == Phase::Data {
        session.address = random.below(0x8000) as u16;
        session.read = random.coin();
    }
    session
}

pub fn any_settings(random: &mut Random) -> Settings {
    any_of(random, &USABLE).with(any_of(random, &OTHERS))
}

/// Settings in use.
pub fn any_usable(random: &mut Random) -> Settings {
    any_of(random, &USABLE)
}

fn any_of(random: &mut Random, settings: &[Settings]) -> Settings {
    let chosen = settings.iter().filter(|_| random.coin());
    chosen.fold(Settings::NONE, |sum, &one| sum.with(one))
}

/// Sound sessions with every number of bits of both pieces, armed or not, and the
/// one at rest; nothing else in them is set.
pub fn every_piece() -> Vec<Session> {
    let rest = Session::opened();
    let instruction = Session { levels: 0, phase: Phase::Instruction, ..rest };
    let data = Session { levels: 0, phase: Phase::Data, ..rest };
    let mut pieces = vec![rest];
    pieces.extend((0..16).map(|bits| Session { bits, ..instruction }));
    pieces.extend((0..8).map(|bits| Session { bits, ..data }));
    pieces.extend((0..8).map(|bits| Session { bits, read: true, ..data }));
    pieces.extend(armed_pieces(&pieces[1..]));
    pieces
}

/// The same sessions, armed.
pub fn armed_pieces(pieces: &[Session]) -> Vec<Session> {
    pieces.iter().map(|&piece| Session { armed: true, ..piece }).collect()
}

/// A piece with every setting, setting in use and level of SCLK that is sound.
pub fn with_every_setting(piece: Session) -> impl Iterator<Item = Session> {
    let all_in_use = if piece.phase == Phase::Rest { 1 } else { 1 << USABLE.len() };
    let numbers = (0..1 << (USABLE.len() + OTHERS.len()))
        .flat_map(move |set| (0..all_in_use).map(move |in_use| (set, in_use)));
    numbers.flat_map(move |(set, in_use)| {
        [0, SCLK].map(|sclk| Session {
            levels: piece.levels | sclk,
            settings: numbered(set),
            in_use: numbered(in_use),
            ..piece
        })
    })
}

/// All sets of settings.
pub fn every_setting() -> impl Iterator<Item = Settings> {
    (0..1 << (USABLE.len() + OTHERS.len())).map(numbered)
}

/// The settings whose bits a number has, the usable ones lowest.
fn numbered(number: usize) -> Settings {
    let set = USABLE.into_iter().chain(OTHERS).enumerate().filter(|(i, _)| number >> i & 1 == 1);
    set.fold(Settings::NONE, |sum, (_, one)| sum.with(one))
}

/// Sessions that break one condition of soundness each, none of them beyond what
/// a field can hold.
pub fn unsound_sessions() -> Vec<Session> {
    let rest = Session::opened();
    let instruction = Session { levels: 0, phase: Phase::Instruction, ..rest };
    let data = Session { levels: 0, phase: Phase::Data, address: 0x7FFF, read: true, ..rest };
    let mut unsound = vec![
        Session { levels: 0, ..rest },
        Session { levels: SCLK, ..rest },
        Session { levels: CSB, ..instruction },
        Session { levels: CSB | SCLK, ..data },
        Session { bits: 1, ..rest },
        Session { value: 1, ..rest },
        Session { value: 0x0100, ..rest },
        Session { address: 1, ..rest },
        Session { address: 0x0100, ..rest },
        Session { read: true, ..rest },
        Session { armed: true, ..rest },
        Session { armed: true, levels: CSB | SCLK, ..rest },
        Session { address: 1, ..instruction },
        Session { address: 0x4000, ..instruction },
        Session { read: true, ..instruction },
        Session { address: 0x8000, ..data },
        Session { address: 0xFFFF, ..data },
    ];
    // An older chip's: bytes left, waiting in data, and passing over as above.
    unsound.extend((1..=255).flat_map(|left| {
        [rest, instruction, data, Session { levels: CSB, ..data }].map(|s| Session { left, ..s })
    }));
    unsound.extend(USABLE.map(|in_use| Session { in_use, ..rest }));
    unsound.extend((16..=255).map(|bits| Session { bits, ..instruction }));
    unsound.extend((8..=255).map(|bits| Session { bits, ..data }));
    unsound.extend((0..16).map(|bits| Session { bits, value: 1 << bits, ..instruction }));
    unsound.extend((0..8).map(|bits| Session { bits, value: 1 << bits, ..data }));
    unsound.extend((0..8).map(|bits| Session { bits, value: 0x8000, ..data }));
    unsound
}
