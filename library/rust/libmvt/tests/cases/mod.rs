//! Each case, whole or broken, is as the program `mvt` says.

pub mod told;

use libmvt::{Decoder, Error, Refused};
use std::io;
use told::{cases, Case};

/// Pieces of a tile, of which there aren't too many.
fn pieces(tile: &[u8]) -> std::slice::Chunks<'_, u8> {
    tile.chunks(if tile.len() < 100_000 { 7 } else { 1 << 16 })
}

#[test]
fn each_case_is_as_the_program_says() {
    let all = cases();
    assert!(all.len() > 60, "the example tiles, broken ones included");
    for case in &all {
        match libmvt::judge(&case.tile) {
            Ok(()) => accepted(case),
            Err(Error::Refused(fault)) => refused(case, *fault),
            Err(other) => panic!("{}: {other}", case.name),
        }
    }
}

fn accepted(case: &Case) {
    let (name, tile) = (&case.name, case.tile.as_slice());
    let canonical = case.bytes("canonical");
    assert_eq!(libmvt::report(tile).unwrap(), case.said("check"), "{name}");
    assert_eq!(libmvt::lint(tile).unwrap(), case.said("lint"), "{name}");
    remarked(case);
    let (json, svg) = (
        libmvt::to_json(tile).unwrap(),
        libmvt::to_svg(tile).unwrap(),
    );
    assert_eq!(json + "\n", case.said("show"), "{name}");
    assert_eq!(svg + "\n", case.said("draw"), "{name}");
    assert_eq!(*libmvt::rewrite(tile).unwrap(), canonical, "{name}");
    let read = libmvt::read(tile).unwrap();
    assert_eq!(*libmvt::write(&read).unwrap(), canonical, "{name}");
    let mut decoder = Decoder::new().unwrap();
    pieces(tile).for_each(|piece| decoder.feed(piece).unwrap());
    let decoded = libmvt::write(&decoder.finish().unwrap()).unwrap();
    assert_eq!(*decoded, canonical, "{name}");
    let mended = libmvt::mend(tile).unwrap();
    assert_eq!(
        (&*mended.bytes, mended.changes.len()),
        (&canonical[..], 0),
        "{name}"
    );
    extracted(case, &read);
}

/// The notes and the findings are as many as the lines, and the counts are theirs.
fn remarked(case: &Case) {
    let survey = libmvt::survey(&case.tile).unwrap();
    let canonical = if survey.is_canonical { "yes" } else { "no" };
    let (layers, features) = (survey.layers, survey.features);
    let first = format!("ok layers {layers} features {features} canonical {canonical}");
    let lines: Vec<_> = case.said("check").lines().collect();
    let told = (lines[0], lines.len() - 1);
    assert_eq!(told, (&*first, survey.notes.len()), "{}", case.name);
    let found = libmvt::lint_rows(&case.tile).unwrap();
    assert_eq!(
        found.len(),
        case.said("lint").lines().count(),
        "{}",
        case.name
    );
}

fn extracted(case: &Case, read: &libmvt::Tile) {
    for (layer, wanted) in case.layers() {
        let alone = libmvt::read_layer(&case.tile, layer).unwrap();
        assert_eq!(alone.layer(layer), read.layer(layer), "{}", case.name);
        assert_eq!(*libmvt::write(&alone).unwrap(), wanted, "{}", case.name);
        let extracted = libmvt::extract(&case.tile, &[layer]).unwrap();
        assert_eq!(*extracted, wanted, "{}", case.name);
    }
}

fn refused(case: &Case, fault: Refused) {
    let (name, tile) = (&case.name, case.tile.as_slice());
    let line = case.said("fault").trim_end();
    assert_eq!(fault.to_string(), line, "{name}");
    let bytes = fault.bytes.as_ref().unwrap();
    let place = format!("{} {}\n", bytes.start, bytes.end);
    assert_eq!(place, case.said("place"), "{name}");
    let sentence = format!("{}\n", fault.explanation);
    assert_eq!(sentence, case.said("sentence"), "{name}");
    let error = libmvt::judge(tile).unwrap_err();
    assert_eq!(error.to_string(), format!("{line}: {}", fault.explanation));
    for other in [
        libmvt::read(tile).map(drop),
        libmvt::rewrite(tile).map(drop),
        libmvt::to_json(tile).map(drop),
        libmvt::survey(tile).map(drop),
        libmvt::lint_rows(tile).map(drop),
        libmvt::extract(tile, &[]).map(drop),
    ] {
        assert_eq!(other.unwrap_err(), error, "{name}");
    }
    let mut decoder = Decoder::new().unwrap();
    let told = io::copy(&mut &*tile, &mut decoder).map_err(|error| error.to_string());
    let last = decoder.finish().unwrap_err().to_string();
    assert!(last.starts_with(&format!("{line}: ")), "{name}: {last}");
    assert!(told.is_ok() || told == Err(last), "{name}");
    let mut decoder = Decoder::new().unwrap();
    let _ = decoder.feed(tile);
    let Error::Refused(last) = decoder.finish().unwrap_err() else {
        panic!("{name}: one piece isn't refused");
    };
    assert_eq!(last.explanation, fault.explanation, "{name}");
    mended(case, &error);
}

fn mended(case: &Case, error: &Error) {
    match libmvt::mend(&case.tile) {
        Ok(mended) => {
            let lines = mended.changes.iter().map(|change| format!("{change}\n"));
            assert_eq!(
                lines.collect::<String>(),
                case.said("change"),
                "{}",
                case.name
            );
            assert_eq!(*mended.bytes, case.bytes("mended"), "{}", case.name);
        }
        Err(other) => assert_eq!(
            (&other, case.has("mended")),
            (error, false),
            "{}",
            case.name
        ),
    }
}
