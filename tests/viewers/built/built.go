// The tile of tests/viewers/built, by the builder of Go.
package main

import (
	"log"
	"os"

	"huranvi.example/libmvt"
)

func main() {
	builder := libmvt.NewBuilder()
	builder.Layer("water", 4096).Feature(libmvt.Polygons).ID(1).Tag("name", "Mill Pond").Tag("salt", false)
	builder.Ring(true).Points(libmvt.Point{512, 512}, libmvt.Point{3584, 512}, libmvt.Point{3584, 3584}, libmvt.Point{512, 3584})
	builder.Ring(false).Points(libmvt.Point{1536, 1536}, libmvt.Point{1536, 2560}, libmvt.Point{2560, 2560}, libmvt.Point{2560, 1536})
	builder.Layer("roads", 4096).Feature(libmvt.Lines).ID(2)
	builder.Tag("lanes", uint64(2)).Tag("level", libmvt.Sint(-1)).Tag("width", float32(7.5))
	builder.Line().Point(0, 256).Point(4096, 256).Line().Point(0, 3840).Point(2048, 3968).Point(4096, 3840)
	builder.Layer("places", 512).Feature(libmvt.Points).Tag("height", 3.25).Point(128, 128).Point(384, 256)
	tile, err := builder.Finish()
	if err == nil {
		_, err = os.Stdout.Write(tile)
	}
	if err != nil {
		log.Fatal(err)
	}
}
