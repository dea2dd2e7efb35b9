package libmvt_test

import (
	"errors"
	"fmt"
	"io"
	"reflect"
	"runtime"
	"strings"
	"sync"
	"testing"
	"testing/iotest"
	"time"

	"huranvi.example/libmvt"
)

func must[T any](t *testing.T, err error, value T) T {
	t.Helper()
	if err != nil {
		t.Fatal(err)
	}
	return value
}

func same(t *testing.T, name string, got, wanted any) {
	t.Helper()
	if !reflect.DeepEqual(got, wanted) {
		t.Fatalf("%s: %v, and not %v", name, got, wanted)
	}
}

func TestNotesAndFindings(t *testing.T) {
	builder := libmvt.NewBuilder()
	builder.Foreign(1, []byte{0x78, 1}).Layer("a", 0).Feature(libmvt.Unknown).Feature(libmvt.Points).ID(7).Point(1, 1)
	builder.Feature(libmvt.Points).ID(7).Point(1, 1).Layer("b", 4096).Feature(libmvt.Points).Tag("n", int64(-1<<53)).Point(40000, 1)
	tile, err := builder.Finish()
	survey, wrong := libmvt.Survey(must(t, err, tile))
	same(t, "counts", *must(t, wrong, survey), libmvt.Summary{Layers: 3, Features: 4, IsCanonical: true, Notes: []libmvt.Note{
		{Kind: libmvt.NoteForeign, Version: 1}, {Kind: libmvt.NoteRepeatedId, Layer: 1, Feature: 2, Earlier: 1}}})
	found, err := libmvt.LintRows(tile)
	same(t, "findings", must(t, err, found), []libmvt.Finding{{Kind: libmvt.FindingZeroExtent, Layer: 1}, {Kind: libmvt.FindingNoGeometry, Layer: 1},
		{Kind: libmvt.FindingFarPoint, Layer: 2, Position: libmvt.Point{X: 40000, Y: 1}}, {Kind: libmvt.FindingLargeNumber, Layer: 2}})
	same(t, "names", fmt.Sprint(libmvt.NoteForeign, libmvt.FindingFarPoint, libmvt.NoteKind(99)), "Foreign FarPoint 99")
	same(t, "a note's words", survey.Notes[1].Sentence(), "A feature has the id of an earlier one of its layer.")
	same(t, "a finding's words", strings.HasPrefix(found[1].Sentence(), "A feature of unknown type has no integers."), true)
	var fault *libmvt.Refused
	_, err = libmvt.Survey([]byte{0})
	same(t, "a fault", errors.As(err, &fault) && fault.Cause == libmvt.CauseFieldNumber, true)
}

// TestMend mends the layer "a" with the ring (20, 34), (8, 12), (3, 6), whose area is negative.
func TestMend(t *testing.T) {
	broken := []byte("\x1a\x14\x78\x02\x0a\x01a\x12\x0d\x18\x03\x22\x09\x09\x28\x44\x12\x17\x2b\x09\x0b\x0f")
	builder := libmvt.NewBuilder().Layer("a", 4096).Feature(libmvt.Polygons).Ring(true)
	wanted, err := builder.Points(libmvt.Point{X: 20, Y: 34}, libmvt.Point{X: 3, Y: 6}, libmvt.Point{X: 8, Y: 12}).Finish()
	must(t, err, wanted)
	mended, changes, err := libmvt.Mend(broken)
	same(t, "a mended tile", must(t, err, mended), wanted)
	same(t, "changes", changes, []libmvt.Change{{Kind: libmvt.ChangeTurnedRing}})
	same(t, "its line", changes[0].String(), "layer 0 feature 0: TurnedRing 0")
	same(t, "lines", fmt.Sprint(libmvt.Change{Kind: libmvt.ChangeRepeatedPoint, Part: 1, Count: 2}, libmvt.Change{Kind: libmvt.ChangeFeatureLeftOut, Count: 2},
		libmvt.Change{Kind: libmvt.ChangeMovedRing, Part: 1, To: 2}), "layer 0 feature 0: RepeatedPoint 1 count 2 "+
		"layer 0 feature 0: FeatureLeftOut count 2 layer 0 feature 0: MovedRing 1 to 2")
	mended, changes, err = libmvt.Mend(wanted)
	same(t, "nothing to mend", string(must(t, err, mended)), string(wanted))
	same(t, "no changes", len(changes), 0)
	var fault *libmvt.Refused
	_, _, err = libmvt.Mend([]byte{0})
	same(t, "a fault", errors.As(err, &fault) && fault.Cause == libmvt.CauseFieldNumber, true)
}

// TestAround looks at the layer "a" with a line whose second step goes nowhere.
func TestAround(t *testing.T) {
	tile := []byte("\x1a\x12\x78\x02\x0a\x01a\x12\x0b\x18\x02\x22\x07\x09\x04\x04\x0a\x00\x00\x00")
	var fault *libmvt.Refused
	same(t, "a fault", errors.As(libmvt.Judge(tile), &fault), true)
	told, err := libmvt.Around(tile, fault)
	must(t, err, told)
	same(t, "bounds", []libmvt.Bounds{*told.Layer, *told.Feature, told.Message}, []libmvt.Bounds{{0, 2, 20}, {7, 9, 20}, {7, 9, 20}})
	same(t, "numbers", []uint64{*told.Kind, uint64(told.List), uint64(len(told.Tags)), uint64(len(told.Keys))}, []uint64{2, 4, 0, 0})
	same(t, "an extent", told.Extent == nil, true)
	start, end, _ := fault.Place()
	same(t, "the integer of the fault", told.Geometry[fault.At], libmvt.Integer{Value: 0, Start: start, End: end})
	same(t, "a point", told.Steps[2], libmvt.Step{Role: libmvt.RoleMoveY, X: 2, Y: 2})
	same(t, "fields", told.Fields, []libmvt.Field{{3, 0, libmvt.Bounds{9, 10, 11}}, {4, 2, libmvt.Bounds{11, 13, 20}}})
	told, err = libmvt.Around(nil, &libmvt.Refused{Layer: 3, Feature: -1, At: 9})
	same(t, "nothing", must(t, err, told).Layer == nil && len(told.Fields) == 0, true)
}

// shown is all of a tile, in words.
func shown(tile *libmvt.Tile) string {
	var out strings.Builder
	for _, layer := range tile.Layers() {
		fmt.Fprintln(&out, layer.Version(), layer.Name(), layer.Extent(), layer.Bytes())
		for _, feature := range layer.Features() {
			id, has := feature.ID()
			fmt.Fprintln(&out, id, has, feature.Kind(), feature.Attributes(), feature.Parts(), feature.Integers())
		}
	}
	return out.String()
}

func TestThePartsOfATile(t *testing.T) {
	builder := libmvt.NewBuilder()
	builder.Layer("places", 512).Feature(libmvt.Points).ID(7).Tag("name", "Mill Pond").Tag("depth", 3.5).Tag("deep", true)
	builder.Tag("n", 5).Tag("i", libmvt.Int(-5)).Tag("f", float32(0.5)).Tag("s", -1)
	builder.Points(libmvt.Point{25, 17}, libmvt.Point{-1, 2})
	builder.Layer("water", 4096).Feature(libmvt.Polygons).Ring(true).Points(libmvt.Point{0, 0}, libmvt.Point{10, 0}, libmvt.Point{0, 10})
	builder.Feature(libmvt.Unknown).Integers(7, 9)
	builder.Foreign(1, []byte{0x78, 0x01})
	made, err := builder.Finish()
	tile, wrong := libmvt.Read(must(t, err, made))
	layers := must(t, wrong, tile).Layers()
	same(t, "layers", len(layers), 3)
	same(t, "extent", layers[0].Extent(), uint32(512))
	place := layers[0].Features()[0]
	id, has := place.ID()
	same(t, "id", []any{id, has, place.Kind()}, []any{uint64(7), true, libmvt.Points})
	wanted := []libmvt.Attribute{{"name", "Mill Pond"}, {"depth", 3.5}, {"deep", true}, {"n", uint64(5)}, {"i", libmvt.Int(-5)}}
	wanted = append(wanted, libmvt.Attribute{"f", float32(0.5)}, libmvt.Attribute{"s", libmvt.Sint(-1)})
	same(t, "attributes", place.Attributes(), wanted)
	same(t, "parts", place.Parts(), []libmvt.Part{{Points: []libmvt.Point{{25, 17}, {-1, 2}}}})
	water, there := tile.Layer("water")
	same(t, "water", there, true)
	same(t, "ring", water.Features()[0].Parts()[0].Exterior, true)
	same(t, "integers", water.Features()[1].Integers(), []uint32{7, 9})
	same(t, "bytes", layers[2].Bytes(), []byte{0x78, 0x01})
}

func TestWhatGoesWrongIsTold(t *testing.T) {
	builder := libmvt.NewBuilder()
	builder.Layer("a", 4096).Feature(libmvt.Lines).Line().Points(libmvt.Point{1, 1})
	_, err := builder.Finish()
	var told *libmvt.NoTile
	if !errors.As(err, &told) || told.Layer != 0 || told.Feature != 0 || told.Cause != 17 {
		t.Fatal(err)
	}
	same(t, "rule", []any{told.Rule, told.Part, told.Point}, []any{uint32(libmvt.CauseCount), int64(0), int64(-1)})
	same(t, "words", err.Error(), "layer 0 feature 0 part 0: The command has a count that isn't allowed here.")
	line := []libmvt.Point{{0, 0}, {1, 1}, {1, 1}}
	_, err = builder.Layer("a", 4096).Feature(libmvt.Lines).Line().Points(line...).Finish()
	same(t, "a point", errors.As(err, &told) && told.Rule == libmvt.CauseZeroSegment && told.Point == 2, true)
	same(t, "its words", err.Error(), "layer 0 feature 0 part 0 point 2: A line goes nowhere: this LineTo moves by (0, 0).")
	_, err = builder.Layer("a", 4096).Layer("a", 4096).Finish()
	same(t, "no rule", errors.As(err, &told) && told.Rule == 0 && told.Part == -1 && told.Point == -1, true)
	same(t, "a layer's words", err.Error(), "layer 1: an earlier layer has the layer's name")
	_, err = builder.Points(libmvt.Point{}).Finish()
	same(t, "turn", err, libmvt.ErrOutOfTurn)
	_, err = builder.Layer("a", 1).Feature(libmvt.Points).Tag("a", []int{}).Finish()
	same(t, "type", err.Error(), "a value of type []int has no kind in a tile")
	empty := []byte{0x1a, 7, 0x78, 2, 0x0a, 1, 'a', 0x28, 1}
	made, err := builder.Layer("a", 1).Finish()
	same(t, "empty", must(t, err, made), empty)
	_, err = libmvt.Extract(empty, "a", "b", "c")
	same(t, "layer", err, error(&libmvt.NoLayer{"b"}))
	_, err = libmvt.Extract(empty, "a", "\xff")
	same(t, "no text", err, error(&libmvt.NoLayer{"\xff"}))
	_, err = libmvt.ReadWithin(empty, 3)
	same(t, "memory", err, libmvt.ErrMemory)
	decoder, err := libmvt.NewDecoder()
	must(t, err, decoder).Close()
	_, err = decoder.Finish()
	same(t, "closed", err, libmvt.ErrClosed)
	count, err := decoder.ReadFrom(strings.NewReader("abc"))
	same(t, "closed", []any{count, err}, []any{int64(3), libmvt.ErrClosed})
}

func TestKeysAndValuesByTheirIndices(t *testing.T) {
	builder := libmvt.NewBuilder()
	_, err := builder.Key("early")
	same(t, "turn", err, libmvt.ErrOutOfTurn)
	builder.Finish()
	builder.Layer("a", 4096)
	indices := []uint32{}
	for _, key := range []string{"one", "two", "one"} {
		index, err := builder.Key(key)
		indices = append(indices, must(t, err, index))
	}
	same(t, "keys", indices, []uint32{0, 1, 0})
	index, err := builder.Value(true)
	same(t, "value", must(t, err, index), uint32(0))
	_, err = builder.Value(nil)
	same(t, "no kind", err.Error(), "a value of type <nil> has no kind in a tile")
	builder.Feature(libmvt.Lines).TagAt(1, 0).Line().Point(1, 2).Point(3, 4)
	made, err := builder.Finish()
	tile, wrong := libmvt.Read(must(t, err, made))
	layer := must(t, wrong, tile).Layers()[0]
	same(t, "keys", layer.Keys(), []string{"two"})
	same(t, "values", layer.Values(), []any{true})
	same(t, "tags", layer.Features()[0].Tags(), []uint32{0, 0})
	same(t, "line", layer.Features()[0].Parts(), []libmvt.Part{{Points: []libmvt.Point{{1, 2}, {3, 4}}}})
}

// Each language's builder makes the same bytes of values of all kinds, and what was read is what is built.
func TestEachKindOfValue(t *testing.T) {
	var wanted []byte
	for _, of := range cases(t) {
		if of.name == "kinds" {
			wanted = of.tile
		}
	}
	builder := libmvt.NewBuilder()
	builder.Layer("a", 4096).Feature(libmvt.Points).Point(25, 17)
	builder.Tag("s", "x").Tag("f", float32(2.5)).Tag("d", 3.5).Tag("i", libmvt.Int(-5)).Tag("p", libmvt.Int(5))
	builder.Tag("u", 5).Tag("n", -5).Tag("z", libmvt.Sint(5)).Tag("b", true)
	made, err := builder.Finish()
	same(t, "built", must(t, err, made), wanted)
	tile, err := libmvt.Read(wanted)
	feature := must(t, err, tile).Layers()[0].Features()[0]
	builder.Layer("a", 4096).Feature(libmvt.Points).Point(25, 17)
	for _, attribute := range feature.Attributes() {
		builder.Tag(attribute.Key, attribute.Value)
	}
	again, err := builder.Finish()
	same(t, "built of what was read", must(t, err, again), wanted)
}

type name string

func TestValuesOfOtherTypes(t *testing.T) {
	builder := libmvt.NewBuilder()
	builder.Layer("a", 1).Feature(libmvt.Points).Points(libmvt.Point{})
	builder.Tag("text", name("x")).Tag("small", int8(-1)).Tag("byte", byte(255)).Tag("time", time.Second)
	made, err := builder.Finish()
	tile, wrong := libmvt.Read(must(t, err, made))
	layer, _ := must(t, wrong, tile).Layer("a")
	wanted := []libmvt.Attribute{{"text", "x"}, {"small", libmvt.Sint(-1)}, {"byte", uint64(255)}, {"time", uint64(1e9)}}
	same(t, "attributes", layer.Features()[0].Attributes(), wanted)
	for _, value := range []any{nil, []byte("x"), complex(1, 2), &made} {
		_, err = builder.Layer("a", 1).Feature(libmvt.Points).Points(libmvt.Point{}).Tag("k", value).Finish()
		same(t, "no kind", err.Error(), fmt.Sprintf("a value of type %T has no kind in a tile", value))
	}
}

func TestADecoderKnowsWhatLooksCompressed(t *testing.T) {
	decoder, err := libmvt.NewDecoder()
	must(t, err, decoder).ReadFrom(strings.NewReader("\x1f\x8b\x08\x00"))
	_, err = decoder.Finish()
	var fault *libmvt.Refused
	if !errors.As(err, &fault) || !strings.Contains(err.Error(), "gzip") {
		t.Fatal(err)
	}
	_, _, known := fault.Place()
	same(t, "place", known, false)
}

func TestWhatBytesLookLike(t *testing.T) {
	kind, known := libmvt.LooksLike([]byte("GIF89a"))
	same(t, "a picture", []any{kind, known, kind.String()}, []any{libmvt.LookalikeGif, true, "Gif"})
	_, known = libmvt.LooksLike([]byte(nowhere))
	same(t, "a broken tile", known, false)
	_, known = libmvt.LooksLike(nil)
	same(t, "nothing", known, false)
}

// The layer a with a feature of id 7 whose line goes nowhere.
const nowhere = "\x1a\x13\x78\x02\x0a\x01a\x12\x0c\x08\x07\x18\x02\x22\x06\x09\x00\x00\x0a\x00\x00"

func TestWhatIsKnownOfAFault(t *testing.T) {
	var fault *libmvt.Refused
	same(t, "refused", errors.As(libmvt.Judge([]byte(nowhere)), &fault), true)
	name, hasName := fault.LayerName()
	id, hasID := fault.FeatureID()
	start, end, known := fault.Place()
	same(t, "known", []any{name, hasName, id, hasID}, []any{"a", true, uint64(7), true})
	same(t, "place", []any{start, end, known}, []any{uint64(19), uint64(20), true})
	same(t, "refused", errors.As(libmvt.Judge([]byte("\x1f\x8b\x08")), &fault), true)
	_, hasName = fault.LayerName()
	_, hasID = fault.FeatureID()
	same(t, "unknown", []bool{hasName, hasID}, []bool{false, false})
}

func TestTheNamesOfKinds(t *testing.T) {
	names := fmt.Sprint(libmvt.Unknown, libmvt.Points, libmvt.Lines, libmvt.Polygons, libmvt.Kind(5))
	same(t, "kinds", names, "unknown points lines polygons kind 5")
}

// A walk over attributes makes nothing for each of them.
func TestAWalkOverAttributes(t *testing.T) {
	builder := libmvt.NewBuilder().Layer("a", 4096)
	for number := 0; number < 100; number++ {
		builder.Feature(libmvt.Points).Tag("name", fmt.Sprint("number ", number%7)).Tag("n", 1000+number).Point(1, 1)
	}
	made, err := builder.Finish()
	tile, wrong := libmvt.Read(must(t, err, made))
	layer := must(t, wrong, tile).Layers()[0]
	features, count := layer.Features(), 0
	room := make([]libmvt.Attribute, 0, 2)
	allocated := testing.AllocsPerRun(10, func() {
		for _, feature := range features {
			feature.EachAttribute(func(key string, value any) bool { count++; return true })
			room = feature.AppendAttributes(room[:0])
			feature.Attribute("n")
		}
	})
	same(t, "allocations", allocated, 0.0)
	same(t, "visited", count, 11*200)
	same(t, "last", room, []libmvt.Attribute{{"name", "number 1"}, {"n", uint64(1099)}})
	same(t, "list", features[99].Attributes(), room)
	value, has := features[8].Attribute("name")
	same(t, "value", []any{value, has}, []any{"number 1", true})
	_, has = features[8].Attribute("none")
	same(t, "none", has, false)
	first := 0
	features[0].EachAttribute(func(string, any) bool { first++; return false })
	same(t, "a walk that ends early", first, 1)
	again, _ := tile.Layer("a")
	same(t, "keys", again.Keys(), []string{"name", "n"})
}

// Layers, features and attributes last as long as one of them does, without the tile.
func TestLayersWithoutTheirTile(t *testing.T) {
	made, err := libmvt.NewBuilder().Layer("a", 4096).Feature(libmvt.Points).Tag("k", "v").Point(1, 1).Finish()
	must(t, err, made)
	for round := 0; round < 20; round++ {
		copied := copiedTile(t, made)
		feature := copied.Layers()[0].Features()[0]
		copied = libmvt.Tile{}
		runtime.GC()
		same(t, "attributes", feature.Attributes(), []libmvt.Attribute{{"k", "v"}})
		same(t, "points", feature.Parts()[0].Points, []libmvt.Point{{1, 1}})
	}
}

func TestAReaderThatFails(t *testing.T) {
	decoder, err := libmvt.NewDecoder()
	defer must(t, err, decoder).Close()
	count, err := decoder.ReadFrom(iotest.TimeoutReader(iotest.OneByteReader(strings.NewReader("\x1a\x05"))))
	same(t, "reading", []any{count, err}, []any{int64(1), iotest.ErrTimeout})
}

type empty struct{}

func (empty) Read([]byte) (int, error) { return 0, nil }

func TestAReaderThatGivesNothing(t *testing.T) {
	decoder, err := libmvt.NewDecoder()
	defer must(t, err, decoder).Close()
	count, err := decoder.ReadFrom(empty{})
	same(t, "reading", []any{count, err}, []any{int64(0), io.ErrNoProgress})
}

// copiedTile is a copy of a tile that nothing else leads to.
func copiedTile(t *testing.T, bytes []byte) libmvt.Tile {
	t.Helper()
	read, err := libmvt.Read(bytes)
	return *must(t, err, read)
}

// A copy shares what it was copied from, which lasts as long as one of them, and is closed with it.
func TestCopies(t *testing.T) {
	bytes, err := libmvt.NewBuilder().Layer("a", 4096).Finish()
	must(t, err, bytes)
	for round := 0; round < 20; round++ {
		copied := copiedTile(t, bytes)
		runtime.GC()
		same(t, "name", copied.Layers()[0].Name(), "a")
		again := copied
		copied.Close()
		again.Close()
		same(t, "layers", len(again.Layers()), 0)
	}
	var none libmvt.Tile
	same(t, "layers", len(none.Layers()), 0)
	none.Close()

	builder := *libmvt.NewBuilder()
	runtime.GC()
	copied := builder.Layer("a", 4096)
	twin := *copied
	made, err := twin.Finish()
	same(t, "built", must(t, err, made), bytes)
	copied.Close()
	builder.Close()

	decoder, err := libmvt.NewDecoder()
	feeding := *must(t, err, decoder)
	feeding.Write(bytes[:2])
	decoder.Write(bytes[2:])
	tile, err := feeding.Finish()
	same(t, "name", must(t, err, tile).Layers()[0].Name(), "a")
	_, err = decoder.Finish()
	same(t, "closed", err, libmvt.ErrClosed)
	decoder.Close()
	var closed libmvt.Decoder
	_, err = closed.Finish()
	same(t, "never made", err, libmvt.ErrClosed)
}

// Tiles that nobody closes are given back by the collector, while others are looked at.
func TestTilesThatAreNotClosed(t *testing.T) {
	made, err := libmvt.NewBuilder().Layer("a", 4096).Finish()
	must(t, err, made)
	for round := 0; round < 50; round++ {
		for count := 0; count < 100; count++ {
			tile, err := libmvt.Read(made)
			same(t, "name", must(t, err, tile).Layers()[0].Name(), "a")
		}
		runtime.GC()
	}
}

// The tiles of all cases, changed ones among them, read by several goroutines.
func TestTilesFromSeveralGoroutines(t *testing.T) {
	all := cases(t)
	var done sync.WaitGroup
	for first := 0; first < 4; first++ {
		done.Add(1)
		go func(first int) {
			defer done.Done()
			for number := first; number < len(all); number += 4 {
				readAgain(t, &all[number])
			}
		}(first)
	}
	done.Wait()
}

// readAgain writes what is read, and reads it again as it was.
func readAgain(t *testing.T, of *told) {
	read, err := libmvt.Read(of.tile)
	if err != nil {
		var fault *libmvt.Refused
		if !errors.As(err, &fault) {
			t.Errorf("%s: %v", of.name, err)
		}
		return
	}
	written, err := read.Write()
	if err != nil {
		t.Errorf("%s: %v", of.name, err)
		return
	}
	again, err := libmvt.Read(written)
	if err != nil || shown(again) != shown(read) {
		t.Errorf("%s isn't read again as it was: %v", of.name, err)
	}
}
