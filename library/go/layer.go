package libmvt

/*
#include <mvt.h>
*/
import "C"

import (
	"runtime"
	"sync"
)

// Layer is a layer. One of version 2 has a name, an extent and features; one of another version has its bytes.
type Layer struct {
	held *layerRows
}

// layerRows is what a layer and its features share.
type layerRows struct {
	tile *tileRows
	row  C.mvt_layer
	// The keys and values, which are made when one is asked for.
	once   sync.Once
	keys   []string
	values []any
}

// Version is the layer's version.
func (l Layer) Version() uint32 { return uint32(l.held.row.version) }

// Name is the name; none if the version isn't 2.
func (l Layer) Name() string { return l.held.tile.text(l.held.row.name) }

// Extent is how many units the tile is wide and high.
func (l Layer) Extent() uint32 { return uint32(l.held.row.extent) }

// Bytes are the bytes of a layer of another version than 2.
func (l Layer) Bytes() []byte { return []byte(l.held.tile.text(l.held.row.bytes)) }

// Features lists the features, in order.
func (l Layer) Features() []Feature {
	tile := l.held.tile
	defer runtime.KeepAlive(tile)
	rows := within(rowsOf(tile.rows.features, tile.rows.feature_count), l.held.row.features)
	features := make([]Feature, 0, len(rows))
	for _, row := range rows {
		features = append(features, Feature{l.held, row})
	}
	return features
}

// Keys lists the keys as the tile has them, in its order, also unused ones.
func (l Layer) Keys() []string {
	keys, _ := l.held.entries()
	return append([]string{}, keys...)
}

// Values lists the values as the tile has them, in its order, also unused ones. They are of the types that
// Attribute has.
func (l Layer) Values() []any {
	_, values := l.held.entries()
	return append([]any{}, values...)
}

// entries are the keys and the values.
func (l *layerRows) entries() ([]string, []any) {
	l.once.Do(func() {
		tile := l.tile
		defer runtime.KeepAlive(tile)
		for _, span := range within(rowsOf(tile.rows.keys, tile.rows.key_count), l.row.keys) {
			l.keys = append(l.keys, tile.text(span))
		}
		for _, row := range within(rowsOf(tile.rows.values, tile.rows.value_count), l.row.values) {
			l.values = append(l.values, tile.value(row))
		}
	})
	return l.keys, l.values
}
