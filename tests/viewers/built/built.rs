//! The tile of tests/viewers/built, by the builder of Rust.

use libmvt::{Builder, Kind, Point, Value};
use std::io::Write;

/// A square of a ring of four points.
fn corners(low: i32, high: i32) -> [Point; 4] {
    [(low, low), (high, low), (high, high), (low, high)].map(|(x, y)| Point::new(x, y))
}

fn main() -> Result<(), Box<dyn std::error::Error>> {
    let mut builder = Builder::new();
    builder.layer("water", 4096).feature(Kind::Polygons).id(1);
    builder.tag("name", "Mill Pond").tag("salt", false);
    let (shore, mut island) = (corners(512, 3584), corners(1536, 2560));
    island[1..].reverse();
    builder.ring(true).points(&shore);
    builder.ring(false).points(&island);
    builder.layer("roads", 4096).feature(Kind::Lines).id(2);
    builder.tag("lanes", 2_u64).tag("level", Value::Sint(-1));
    builder.tag("width", 7.5_f32);
    builder.line().point(0, 256).point(4096, 256);
    builder.line().point(0, 3840).point(2048, 3968);
    builder.point(4096, 3840);
    builder.layer("places", 512).feature(Kind::Points);
    builder.tag("height", 3.25).point(128, 128).point(384, 256);
    std::io::stdout().write_all(&builder.finish()?)?;
    Ok(())
}
