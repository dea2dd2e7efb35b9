//! What is Rust of the crate: its types, errors, threads and lists. `cases` has what the program `mvt` says of tiles.

mod cases;

use cases::told::cases;
use libmvt::{Builder, Change, Error, Finding, Kind, Note, Point, Value};
use std::collections::HashSet;
use std::thread;

/// A tile of three layers: a feature with each kind of value, a ring and integers, and bytes of version 1.
fn made() -> libmvt::Bytes {
    let mut builder = Builder::new();
    builder.layer("places", 512).feature(Kind::Points).id(7);
    builder.tag("name", "Mill Pond").tag("depth", 3.5);
    builder
        .tag("deep", true)
        .tag("n", 5)
        .tag("i", Value::Int(-5));
    builder.tag("f", 0.5_f32).tag("s", -1);
    builder.points(&[Point::new(25, 17), Point::new(-1, 2)]);
    builder.layer("water", 4096);
    builder.feature(Kind::Polygons).ring(true);
    builder.points(&[Point::new(0, 0), Point::new(10, 0), Point::new(0, 10)]);
    builder.feature(Kind::Unknown).integers(&[7, 9]);
    builder.foreign(1, &[0x78, 0x01]);
    builder.finish().unwrap()
}

#[test]
fn layers_and_attributes() {
    let bytes = made();
    let tile = libmvt::read(&bytes).unwrap();
    let told = tile.layers();
    let names: Vec<_> = told
        .map(|layer| (layer.version(), layer.name(), layer.extent()))
        .collect();
    assert_eq!(names, [(2, "places", 512), (2, "water", 4096), (1, "", 0)]);
    assert_eq!(tile.layers().next_back().unwrap().bytes(), [0x78, 0x01]);
    let place = tile.layer("places").unwrap().features().next().unwrap();
    assert_eq!((place.id(), place.kind()), (Some(7), Kind::Points));
    let wanted = [
        ("name", Value::Text("Mill Pond")),
        ("depth", Value::Double(3.5)),
        ("deep", Value::Bool(true)),
        ("n", Value::Uint(5)),
        ("i", Value::Int(-5)),
        ("f", Value::Float(0.5)),
        ("s", Value::Sint(-1)),
    ];
    assert_eq!(place.attributes().collect::<Vec<_>>(), wanted);
    assert_eq!(place.attribute("n"), Some(Value::Uint(5)));
    assert_eq!(place.attribute("none"), None);
    assert_eq!(libmvt::write(&tile).unwrap(), bytes);
}

#[test]
fn geometries() {
    let tile = libmvt::read(&made()).unwrap();
    let place = tile.layer("places").unwrap().features().next().unwrap();
    let points = place.parts().next().unwrap().points;
    assert_eq!(points, [Point::new(25, 17), Point::new(-1, 2)]);
    let water: Vec<_> = tile.layer("water").unwrap().features().collect();
    assert!(water[0].parts().next().unwrap().is_exterior);
    assert_eq!(water[1].kind(), Kind::Unknown);
    assert_eq!(water[1].integers(), [7, 9]);
}

/// Each language's builder makes the same bytes of values of all kinds, and what was read is what is built.
#[test]
fn each_kind_of_value() {
    let kinds = cases().into_iter().find(|case| case.name == "kinds");
    let wanted = kinds.unwrap().tile;
    let mut builder = Builder::new();
    builder.layer("a", 4096).feature(Kind::Points).point(25, 17);
    builder.tag("s", "x").tag("f", 2.5_f32).tag("d", 3.5);
    builder.tag("i", Value::Int(-5)).tag("p", Value::Int(5));
    builder.tag("u", 5).tag("n", -5);
    builder.tag("z", Value::Sint(5)).tag("b", true);
    assert_eq!(*builder.finish().unwrap(), wanted);
    let tile = libmvt::read(&wanted).unwrap();
    builder.layer("a", 4096).feature(Kind::Points).point(25, 17);
    let feature = tile.layer("a").unwrap().features().next().unwrap();
    for (key, value) in feature.attributes() {
        builder.tag(key, value);
    }
    assert_eq!(*builder.finish().unwrap(), wanted);
}

#[test]
fn whole_numbers_of_each_type() {
    let small = [Value::from(-1_i8), Value::from(-1_i16), Value::from(-1_i32)];
    let large = [Value::from(-1_i64), Value::from(-1_isize)];
    assert!(small.iter().chain(&large).all(|it| *it == Value::Sint(-1)));
    let small = [Value::from(7_u8), Value::from(7_u16), Value::from(7_u32)];
    let large = [Value::from(7_u64), Value::from(7_usize), Value::from(7_i8)];
    assert!(small.iter().chain(&large).all(|it| *it == Value::Uint(7)));
    assert_eq!(Value::from(i64::MIN), Value::Sint(i64::MIN));
    assert_eq!(Value::from(u64::MAX), Value::Uint(u64::MAX));
}

#[test]
fn texts_that_are_lent_or_owned() {
    let owned = String::from("x");
    let mut builder = Builder::new();
    builder.layer("a", 4096).feature(Kind::Points).point(1, 1);
    builder.tag("lent", &owned).tag("str", owned.as_str());
    builder.tag("boxed", owned.clone().into_boxed_str());
    builder.tag("cow", String::from_utf8_lossy(b"x"));
    builder
        .tag("value", Value::from(&owned))
        .tag("owned", owned);
    let tile = libmvt::read(&builder.finish().unwrap()).unwrap();
    let layer = tile.layer("a").unwrap();
    assert_eq!(layer.values().collect::<Vec<_>>(), [Value::Text("x")]);
    assert_eq!(layer.keys().len(), 6);
}

#[test]
fn lists_from_both_ends() {
    let tile = libmvt::read(&made()).unwrap();
    let mut versions: Vec<_> = tile.layers().rev().map(|layer| layer.version()).collect();
    assert_eq!(versions, [1, 2, 2]);
    versions.clear();
    for layer in &tile {
        for feature in &layer {
            versions.push(feature.kind() as u32);
        }
    }
    assert_eq!(versions, [1, 3, 0]);
    let water = tile.layer("water").unwrap();
    assert_eq!(water.into_iter().next_back().unwrap().integers(), [7, 9]);
    let place = tile.layer("places").unwrap().features().next_back();
    let keys = place.unwrap().attributes().rev().map(|(key, _)| key);
    assert_eq!(
        keys.collect::<Vec<_>>(),
        ["s", "f", "i", "n", "deep", "depth", "name"]
    );
    assert!(place.unwrap().parts().rev().eq(place.unwrap().parts()));
}

/// A tile of a feature with a number, and the keys and values that no feature uses.
fn numbered(number: f64, unused: &str) -> libmvt::Tile {
    let mut builder = Builder::new();
    builder.layer("a", 4096);
    let (key, value) = (builder.key("k").unwrap(), builder.value(number).unwrap());
    builder.key(unused).unwrap();
    builder.feature(Kind::Points).tag_at(key, value);
    builder.points(&[(25, 17).into()]);
    libmvt::read(&builder.finish().unwrap()).unwrap()
}

#[test]
fn tiles_that_are_equal() {
    assert_eq!(numbered(f64::NAN, "x"), numbered(f64::NAN, "y"));
    assert_ne!(numbered(0.0, "x"), numbered(-0.0, "x"));
    assert_ne!(numbered(1.0, "x"), libmvt::read(&made()).unwrap());
    let tile = libmvt::read(&made()).unwrap();
    let twin = tile.clone();
    assert_eq!(tile.layer("places"), twin.layer("places"));
    assert_ne!(tile.layer("places"), twin.layer("water"));
    drop(tile);
    assert_eq!(libmvt::write(&twin).unwrap(), made());
    // The layer `a` with the point (25, 17), and the same with a key that no feature uses.
    let bare = b"\x1a\x11\x78\x02\x0a\x01a\x12\x07\x18\x01\x22\x03\x09\x32\x22\x28\x80\x20";
    let keyed =
        b"\x1a\x14\x78\x02\x0a\x01a\x12\x07\x18\x01\x22\x03\x09\x32\x22\x1a\x01k\x28\x80\x20";
    assert_eq!(libmvt::read(bare).unwrap(), libmvt::read(keyed).unwrap());
}

#[test]
fn rows_made_elsewhere() {
    let text = |start, len| libmvt::Span { start, len };
    let rows = libmvt::Rows {
        layers: &[libmvt::LayerRow {
            version: 2,
            extent: 4096,
            name: text(0, 1),
            features: text(0, 1),
            keys: text(0, 0),
            values: text(0, 0),
            bytes: text(0, 0),
        }],
        features: &[libmvt::FeatureRow {
            id: 7,
            has_id: 1,
            kind: Kind::Points as u32,
            tags: text(0, 0),
            parts: text(0, 1),
            integers: text(0, 0),
        }],
        parts: &[libmvt::PartRow {
            exterior: 0,
            points: text(0, 1),
        }],
        points: &[Point::new(25, 17)],
        texts: b"a",
        ..libmvt::Rows::default()
    };
    assert_eq!(rows.judge(), Ok(()));
    let tile = libmvt::read(&rows.write().unwrap()).unwrap();
    let layer = tile.layer("a").unwrap();
    let feature = layer.features().next().unwrap();
    assert_eq!(feature.id(), Some(7));
    assert_eq!(feature.parts().next().unwrap().points, [Point::new(25, 17)]);
    assert_eq!(libmvt::Rows::of(&tile).write(), libmvt::write(&tile));
    let without = libmvt::Rows {
        points: &[],
        ..rows
    };
    match without.write() {
        Err(Error::NoTile(fault)) => {
            assert_eq!((fault.layer, fault.feature), (0, Some(0)));
            assert_eq!(without.judge(), Err(Error::NoTile(fault)));
        }
        other => panic!("{other:?}"),
    }
}

#[test]
fn points_as_keys() {
    let points: HashSet<Point> = [(1, 2), (3, 4), (1, 2)].map(Point::from).into();
    assert_eq!(points.len(), 2);
}

#[test]
fn what_looks_compressed_is_said() {
    let told = libmvt::read(&[0x1f, 0x8b, 8, 0]).unwrap_err().to_string();
    assert!(told.contains("gzip") && !told.contains('\n'), "{told}");
}

#[test]
fn what_bytes_look_like() {
    let page = b"<!DOCTYPE html>";
    assert_eq!(libmvt::looks_like(page), Some(libmvt::lookalike::HTML));
    assert_eq!(libmvt::looks_like(b"\x1a\x03\x0a\x09ax\x02"), None);
    assert_eq!(libmvt::looks_like(b""), None);
}

#[test]
fn keys_and_values_by_their_indices() {
    let mut builder = Builder::new();
    assert_eq!(builder.key("early"), Err(Error::OutOfTurn));
    builder.finish().unwrap_err();
    builder.layer("a", 4096);
    let keys = ["one", "two", "one"].map(|key| builder.key(key).unwrap());
    assert_eq!(keys, [0, 1, 0]);
    assert_eq!(builder.value(true), Ok(0));
    builder.feature(Kind::Lines).tag_at(1, 0).line();
    builder.point(1, 2).point(3, 4);
    let tile = libmvt::read(&builder.finish().unwrap()).unwrap();
    let layer = tile.layers().next().unwrap();
    assert_eq!(layer.keys().collect::<Vec<_>>(), ["two"]);
    assert_eq!(layer.values().collect::<Vec<_>>(), [Value::Bool(true)]);
    assert_eq!(layer.features().next().unwrap().tags(), [0, 0]);
}

#[test]
fn what_goes_wrong_is_told() {
    let mut builder = Builder::new();
    builder
        .layer("a", 4096)
        .feature(Kind::Lines)
        .line()
        .point(1, 1);
    let told = builder.finish().unwrap_err();
    match told {
        Error::NoTile(fault) => {
            assert_eq!((fault.layer, fault.feature, fault.cause), (0, Some(0), 17));
            assert_eq!(fault.rule, Some(libmvt::cause::COUNT));
            assert_eq!((fault.part, fault.point), (Some(0), None));
        }
        ref other => panic!("{other}"),
    }
    assert!(
        told.to_string()
            .starts_with("layer 0 feature 0 part 0: The command has a count"),
        "{told}"
    );
    builder.layer("a", 4096).feature(Kind::Lines);
    builder.line().point(1, 1).point(2, 2).point(2, 2);
    let told = builder.finish().unwrap_err();
    match told {
        Error::NoTile(fault) => {
            assert_eq!(fault.rule, Some(libmvt::cause::ZERO_SEGMENT));
            assert_eq!((fault.part, fault.point), (Some(0), Some(2)));
        }
        ref other => panic!("{other}"),
    }
    let said = told.to_string();
    let place = "layer 0 feature 0 part 0 point 2: ";
    assert!(
        said.starts_with(place) && said.contains("A line goes nowhere"),
        "{said}"
    );
    builder.layer("a", 1).layer("a", 1);
    match builder.finish() {
        Err(Error::NoTile(fault)) => {
            assert_eq!((fault.rule, fault.part, fault.point), (None, None, None))
        }
        other => panic!("{other:?}"),
    }
    builder.point(1, 1);
    assert_eq!(builder.finish(), Err(Error::OutOfTurn));
    assert_eq!(builder.layer("a", 1).key("k"), Ok(0));
    let empty = [0x1a, 7, 0x78, 2, 0x0a, 1, b'a', 0x28, 1];
    assert_eq!(*builder.finish().unwrap(), empty);
    assert_eq!(
        libmvt::extract(&empty, &["a", "b", "c"]),
        Err(Error::NoLayer("b".into()))
    );
    assert_eq!(
        libmvt::read_layer(&empty, "b").unwrap_err(),
        Error::NoLayer("b".into())
    );
    assert_eq!(
        libmvt::read_within(&empty, 3).unwrap_err(),
        Error::OutOfMemory
    );
    assert_eq!(Error::OutOfMemory.to_string(), "out of memory");
}

#[test]
fn all_can_go_to_other_threads() {
    fn can<T: Send + Sync>() {}
    can::<libmvt::Tile>();
    can::<libmvt::Layer>();
    can::<libmvt::Feature>();
    can::<libmvt::Bytes>();
    can::<libmvt::Decoder>();
    can::<libmvt::Builder>();
    can::<libmvt::Error>();
}

#[test]
fn a_decoder_knows_what_looks_compressed() {
    let mut decoder = libmvt::Decoder::new().unwrap();
    let told = decoder.feed(&[0x1f, 0x8b, 8, 0]);
    match told.and(decoder.finish().map(drop)) {
        Err(Error::Refused(fault)) => {
            assert!(fault.explanation.contains("gzip"), "{fault:?}");
            assert_eq!(fault.bytes, None);
        }
        other => panic!("{other:?}"),
    }
}

/// The tiles of all cases, changed ones among them, read by several threads.
#[test]
fn tiles_from_several_threads() {
    let all = cases();
    thread::scope(|scope| {
        for first in 0..4 {
            let mine = all.iter().skip(first).step_by(4);
            scope.spawn(move || mine.for_each(|case| read_again(&case.tile)));
        }
    });
}

/// What is read is written, and read again as it was.
fn read_again(bytes: &[u8]) {
    if let Ok(tile) = libmvt::read(bytes) {
        let shown = format!("{tile:?}");
        let canonical = libmvt::write(&tile).unwrap();
        assert_eq!(format!("{:?}", libmvt::read(&canonical).unwrap()), shown);
        assert_eq!(canonical, libmvt::rewrite(bytes).unwrap());
    } else {
        assert!(matches!(libmvt::judge(bytes), Err(Error::Refused(_))));
    }
}

#[test]
fn notes_and_findings_are_values() {
    let mut builder = Builder::new();
    builder.foreign(1, &[0x78, 1]).layer("a", 0);
    builder
        .feature(Kind::Unknown)
        .feature(Kind::Points)
        .id(7)
        .tag("n", u64::MAX)
        .point(1, 1);
    builder
        .feature(Kind::Points)
        .id(7)
        .point(-40000, 1)
        .layer("b", 4096);
    builder
        .feature(Kind::Points)
        .id(1 << 53)
        .point(40000, 1)
        .layer("c", 4096);
    let tile = builder.finish().unwrap();
    let told = libmvt::survey(&tile).unwrap();
    assert_eq!(
        (told.layers, told.features, told.is_canonical),
        (4, 4, true)
    );
    let notes = [
        Note::Foreign {
            layer: 0,
            version: 1,
        },
        Note::RepeatedId {
            layer: 1,
            feature: 2,
            earlier: 1,
        },
        Note::NoFeatures { layer: 3 },
    ];
    assert_eq!(told.notes, notes);
    let position = Point::new(40000, 1);
    let findings = [
        Finding::ZeroExtent { layer: 1 },
        Finding::NoGeometry {
            layer: 1,
            feature: 0,
        },
        Finding::LargeNumber {
            layer: 1,
            feature: 1,
            attribute: 0,
        },
        Finding::FarPoint {
            layer: 2,
            feature: 0,
            position,
        },
        Finding::LargeId {
            layer: 2,
            feature: 0,
        },
    ];
    assert_eq!(libmvt::lint_rows(&tile).unwrap(), findings);
    assert_eq!(notes[2].to_string(), "A layer has no feature.");
    assert!(findings[4]
        .to_string()
        .starts_with("An id is beyond 2^53 - 1."));
    let Error::Refused(fault) = libmvt::survey(&[0]).unwrap_err() else {
        panic!("a broken tile is surveyed");
    };
    assert_eq!(
        (fault.cause, fault.name.as_str()),
        (libmvt::cause::FIELD_NUMBER, "FieldNumber")
    );
}

/// The layer `a` with a line whose second step goes nowhere.
#[test]
fn tells_what_is_round_a_fault() {
    let tile = [
        0x1a, 18, 0x78, 2, 0x0a, 1, b'a', 0x12, 11, 0x18, 2, 0x22, 7, 9, 4, 4, 10, 0, 0, 0,
    ];
    let Error::Refused(fault) = libmvt::judge(&tile).unwrap_err() else {
        panic!("a broken tile is accepted");
    };
    let told = libmvt::around(&tile, &fault).unwrap();
    let (layer, feature) = (told.layer.unwrap(), told.feature.unwrap());
    assert_eq!((layer.body, feature.start, told.message), (2, 7, feature));
    assert_eq!(
        (told.list, told.kind, told.extent),
        (Some(4), Some(2), None)
    );
    let integer = told.geometry[fault.at as usize];
    assert_eq!(Some(integer.start..integer.end), fault.bytes);
    let point = told.steps[2];
    assert_eq!((point.role, point.x, point.y), (libmvt::role::MOVE_Y, 2, 2));
    assert_eq!(told.fields[1].bounds.end, 20);
    let nowhere = libmvt::Refused {
        layer: Some(9),
        ..*fault
    };
    let told = libmvt::around(&[], &nowhere).unwrap();
    assert_eq!(
        (told.layer, told.steps.len(), told.fields.len()),
        (None, 0, 0)
    );
}

/// The layer `a` with the ring (20, 34), (8, 12), (3, 6), whose area is negative, and a line of one point twice.
#[test]
fn mended() {
    let ring =
        b"\x1a\x14\x78\x02\x0a\x01a\x12\x0d\x18\x03\x22\x09\x09\x28\x44\x12\x17\x2b\x09\x0b\x0f";
    let mut builder = Builder::new();
    let turned = [(20, 34), (3, 6), (8, 12)].map(|(x, y)| Point::new(x, y));
    let wanted = builder
        .layer("a", 4096)
        .feature(Kind::Polygons)
        .ring(true)
        .points(&turned)
        .finish()
        .unwrap();
    let told = libmvt::mend(ring).unwrap();
    let change = Change::TurnedRing {
        layer: 0,
        feature: 0,
        part: 0,
    };
    assert_eq!((told.bytes, told.changes), (wanted, vec![change]));
    let line = b"\x1a\x11\x78\x02\x0a\x01a\x12\x0a\x18\x02\x22\x06\x09\x04\x04\x0a\0\0";
    let told = libmvt::mend(line).unwrap();
    assert_eq!(
        told.changes,
        [Change::FeatureLeftOut {
            layer: 0,
            feature: 0,
            count: 2
        }]
    );
    assert_eq!(
        told.bytes,
        Builder::new().layer("a", 4096).finish().unwrap()
    );
    let again = libmvt::mend(&told.bytes).unwrap();
    assert_eq!((&again.bytes, again.changes.len()), (&told.bytes, 0));
    assert!(matches!(libmvt::mend(&[0]), Err(Error::Refused(_))));
}
