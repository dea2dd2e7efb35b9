package libmvt_test

import (
	"bytes"
	"fmt"
	"os"
	"testing"

	"huranvi.example/libmvt"
)

// FuzzRead: any bytes have one verdict, and what is read is written and built as the canonical bytes. The environment may name
// files of cases (MVT_CASES), from whose tiles `go test -fuzz FuzzRead` begins.
func FuzzRead(f *testing.F) {
	if os.Getenv("MVT_CASES") != "" {
		for _, of := range cases(f) {
			if len(of.tile) < 1<<16 {
				f.Add(of.tile)
			}
		}
	}
	f.Fuzz(func(t *testing.T, input []byte) {
		verdict := libmvt.Judge(input)
		canonical, err := libmvt.Rewrite(input)
		same(t, "the verdict of Rewrite", fmt.Sprint(err), fmt.Sprint(verdict))
		tile, err := libmvt.Read(input)
		same(t, "the verdict of Read", fmt.Sprint(err), fmt.Sprint(verdict))
		if err != nil {
			return
		}
		defer tile.Close()
		if !bytes.Equal(writtenBytes(t, tile), canonical) {
			t.Fatal("rows are written as another tile")
		}
		if !bytes.Equal(rebuilt(t, tile), canonical) {
			t.Fatal("another tile is built")
		}
	})
}

func writtenBytes(t *testing.T, tile *libmvt.Tile) []byte {
	t.Helper()
	written, err := tile.Write()
	return must(t, err, written)
}

// rebuilt is the tile built anew from what it says.
func rebuilt(t *testing.T, tile *libmvt.Tile) []byte {
	t.Helper()
	builder := libmvt.NewBuilder()
	defer builder.Close()
	for _, layer := range tile.Layers() {
		if layer.Version() != 2 {
			builder.Foreign(layer.Version(), layer.Bytes())
			continue
		}
		builder.Layer(layer.Name(), layer.Extent())
		for _, feature := range layer.Features() {
			rebuild(builder, feature)
		}
	}
	made, err := builder.Finish()
	return must(t, err, made)
}

func rebuild(builder *libmvt.Builder, feature libmvt.Feature) {
	builder.Feature(feature.Kind())
	if id, has := feature.ID(); has {
		builder.ID(id)
	}
	for _, attribute := range feature.Attributes() {
		builder.Tag(attribute.Key, attribute.Value)
	}
	builder.Integers(feature.Integers()...)
	for _, part := range feature.Parts() {
		switch feature.Kind() {
		case libmvt.Lines:
			builder.Line()
		case libmvt.Polygons:
			builder.Ring(part.Exterior)
		}
		builder.Points(part.Points...)
	}
}
