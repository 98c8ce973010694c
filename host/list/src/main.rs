//! Writes the stored lists into a folder: the calls to its file `stdin`, and to `stdout` what is expected of each, line by
//! line. Accepted answers are the oracle's; refusals, and what comes of forged records, are by document 01. What the
//! reader for pauses answers is by request 2026-01, the refusal of bytes of 128 and above by request 2026-03, what code
//! number 2 gives by request 2026-04, what the decoder of signed bytes gives by request 2026-05, and which calls bring too
//! many info bits or symbols by request 2026-06.

mod stored;

use expected::Random;
use list::line::BEFORE;
use std::path::PathBuf;
use std::process::ExitCode;
use stored::Stored;

const SEED: u64 = 0x7265_706C_6179;

fn main() -> ExitCode {
    let Some(folder) = std::env::args_os().nth(1).map(PathBuf::from) else {
        eprintln!("usage: list FOLDER");
        return ExitCode::from(2);
    };
    match stored().write(&folder) {
        Ok(()) => ExitCode::SUCCESS,
        Err(why) => {
            eprintln!("list: {}: {why}", folder.display());
            ExitCode::FAILURE
        }
    }
}

fn stored() -> Stored {
    let mut list = Stored::default();
    list.comment("Calls, whose answers the Rust of orion-sdr at commit a2a34555c3 gives; document 01 says where they are refused.");
    list.comment(&format!(
        "Made by the program host/list, with seed {SEED:#x} for the random inputs."
    ));
    list.comment(
        "Numbers and bytes in hex, - for no bytes, (PIECE*COUNT) for a piece again and again, to COUNT bytes.",
    );
    list.comment(&format!(
        "Of a lent buffer there is the length; every byte of it is {BEFORE:02x} before the call."
    ));
    let random = &mut Random::new(SEED);
    stored::encoder::add(&mut list, random);
    stored::varicode::add(&mut list, random);
    stored::decoder::add(&mut list, random);
    stored::symbols::add(&mut list, random);
    stored::streaming::add(&mut list, random);
    stored::varicode::add_for_pauses(&mut list, random);
    stored::varicode::add_high_bytes(&mut list, random);
    stored::encoder::add_standard(&mut list, random);
    stored::decoder::add_standard(&mut list, random);
    stored::signed::add(&mut list, random);
    stored::limit::add(&mut list, random);
    list
}
