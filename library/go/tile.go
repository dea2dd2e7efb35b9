package libmvt

/*
#include <mvt.h>
*/
import "C"

import (
	"math"
	"runtime"
	"sync"
	"unsafe"
)

// Tile is a tile that was read. Its layers, features and points are read from rows that it owns. They are given back by
// Close, or when the collector finds that nothing leads to them any more. That may be late, since it doesn't count what
// the rows take: who reads many tiles closes each. A copy of a Tile shares its rows, and is closed with it.
type Tile struct {
	held *opened
}

// opened is what a tile and its copies share. Its layers don't lead back to it, so that the collector gives all back.
type opened struct {
	tile   *tileRows
	once   sync.Once
	layers []Layer
}

// tileRows are the rows of a tile, which its layers share.
type tileRows struct {
	rows C.mvt_tile
}

func (r *tileRows) free() { C.mvt_tile_free(&r.rows) }

// rows are those of the tile; a Tile that was never read has none.
func (t *Tile) rows() *C.mvt_tile {
	if t.held == nil {
		return &C.mvt_tile{}
	}
	return &t.held.tile.rows
}

// Read reads a tile.
func Read(tile []byte) (*Tile, error) {
	return ReadWithin(tile, math.MaxUint64)
}

// ReadWithin reads a tile, unless its rows would have more than so many bytes: then the error is ErrMemory.
func ReadWithin(tile []byte, most uint64) (*Tile, error) {
	var rows C.mvt_tile
	var fault C.mvt_fault
	status := C.mvt_read(start(tile), C.size_t(len(tile)), C.uint64_t(most), &rows, &fault)
	return adopted(status, tile, &rows, &fault)
}

// ReadLayer reads the first layer of version 2 with a name, as a tile that has no other. It reads only as far as this layer:
// later bytes may be broken. The error is a *NoLayer if there is none.
func ReadLayer(tile []byte, name string) (*Tile, error) {
	var rows C.mvt_tile
	var fault C.mvt_fault
	status := C.mvt_read_layer(start(tile), C.size_t(len(tile)), lent(name), &rows, &fault)
	if status == C.MVT_NO_LAYER {
		return nil, &NoLayer{name}
	}
	return adopted(status, tile, &rows, &fault)
}

func adopted(status C.mvt_status, tile []byte, rows *C.mvt_tile, fault *C.mvt_fault) (*Tile, error) {
	if err := errorOf(status, tile, fault); err != nil {
		return nil, err
	}
	held := &opened{tile: &tileRows{*rows}}
	runtime.SetFinalizer(held.tile, (*tileRows).free)
	return &Tile{held}, nil
}

// Close frees the rows. The tile and its copies have no layers afterwards, and those that they handed out may not be asked
// any more.
func (t *Tile) Close() error {
	if t.held != nil {
		t.held.tile.free()
		runtime.SetFinalizer(t.held.tile, nil)
	}
	return nil
}

// Write gives the canonical bytes of a tile that was read. The error may be ErrTooLarge.
func (t *Tile) Write() ([]byte, error) {
	defer runtime.KeepAlive(t.held)
	var out C.mvt_bytes
	var fault C.mvt_rows_fault
	status := C.mvt_write(t.rows(), &out, &fault)
	return written(status, &out, &fault)
}

// written is what a call made of rows, or why they are no tile.
func written(status C.mvt_status, out *C.mvt_bytes, fault *C.mvt_rows_fault) ([]byte, error) {
	if status == C.MVT_NO_TILE {
		return nil, noTile(fault)
	}
	return made(status, nil, out, nil)
}

// Layers lists the layers, in order, those of other versions among them.
func (t *Tile) Layers() []Layer {
	if t.rows().layer_count == 0 {
		return []Layer{}
	}
	return append([]Layer{}, t.held.made()...)
}

// made are the layers, with the keys and values that they have made.
func (o *opened) made() []Layer {
	o.once.Do(func() {
		defer runtime.KeepAlive(o)
		for _, row := range rowsOf(o.tile.rows.layers, o.tile.rows.layer_count) {
			o.layers = append(o.layers, Layer{&layerRows{tile: o.tile, row: row}})
		}
	})
	return o.layers
}

// Layer is the layer of version 2 of a name, and whether there is one.
func (t *Tile) Layer(name string) (Layer, bool) {
	for _, layer := range t.Layers() {
		if layer.Version() == 2 && layer.Name() == name {
			return layer, true
		}
	}
	return Layer{}, false
}

func (r *tileRows) text(span C.mvt_span) string {
	defer runtime.KeepAlive(r)
	return string(within(rowsOf((*byte)(r.rows.texts), r.rows.text_len), span))
}

func (r *tileRows) value(row C.mvt_value) any {
	bits := uint64(row.bits)
	switch row.kind {
	case C.MVT_FLOAT:
		return math.Float32frombits(uint32(bits))
	case C.MVT_DOUBLE:
		return math.Float64frombits(bits)
	case C.MVT_INT:
		return Int(bits)
	case C.MVT_UINT:
		return bits
	case C.MVT_SINT:
		return Sint(bits)
	case C.MVT_BOOL:
		return bits == 1
	default:
		return r.text(row.text)
	}
}

// rowsOf is a list of C, which stays there. Where it is empty the pointer isn't followed.
func rowsOf[T any](data *T, count C.size_t) []T {
	if count == 0 {
		return nil
	}
	return unsafe.Slice(data, count)
}

// within is the part of a list that a span names.
func within[T any](list []T, span C.mvt_span) []T {
	return list[span.start : span.start+span.len]
}
