package libmvt

/*
#include <mvt.h>
*/
import "C"

import (
	"fmt"
	"runtime"
	"unsafe"
)

// Kind is what a feature's geometry is.
type Kind uint32

// The kinds of geometries.
const (
	Unknown  Kind = C.MVT_UNKNOWN
	Points   Kind = C.MVT_POINTS
	Lines    Kind = C.MVT_LINES
	Polygons Kind = C.MVT_POLYGONS
)

func (k Kind) String() string {
	names := [...]string{"unknown", "points", "lines", "polygons"}
	if int(k) < len(names) {
		return names[k]
	}
	return fmt.Sprintf("kind %d", uint32(k))
}

// Feature is a feature.
type Feature struct {
	layer *layerRows
	row   C.mvt_feature
}

// ID is the id, and whether there is one.
func (f Feature) ID() (uint64, bool) { return uint64(f.row.id), f.row.has_id == 1 }

// Kind is what the geometry is.
func (f Feature) Kind() Kind { return Kind(f.row.kind) }

// Attribute is a key and its value: a string, bool, float32, float64, uint64, Int or Sint. A builder writes these as they
// were read.
type Attribute struct {
	Key   string
	Value any
}

// Int is an integer that a tile holds as an int_value: below zero it takes ten bytes.
type Int int64

// Sint is an integer that a tile holds as a sint_value.
type Sint int64

// EachAttribute calls yield with each key and its value, in order, until it answers false. It makes nothing for an attribute:
// the layer's keys and values are made once.
func (f Feature) EachAttribute(yield func(key string, value any) bool) {
	defer runtime.KeepAlive(f.layer.tile)
	keys, values := f.layer.entries()
	tags := f.tags()
	for i := 0; i+1 < len(tags) && yield(keys[tags[i]], values[tags[i+1]]); i += 2 {
	}
}

// AppendAttributes appends the attributes to a list, which may be that of another feature, cut to nothing.
func (f Feature) AppendAttributes(to []Attribute) []Attribute {
	f.EachAttribute(func(key string, value any) bool {
		to = append(to, Attribute{key, value})
		return true
	})
	return to
}

// Attributes lists the attributes, in order.
func (f Feature) Attributes() []Attribute {
	return f.AppendAttributes(make([]Attribute, 0, f.row.tags.len/2))
}

// Attribute is the value of a key, and whether there is one.
func (f Feature) Attribute(key string) (found any, has bool) {
	f.EachAttribute(func(name string, value any) bool {
		if has = name == key; has {
			found = value
		}
		return !has
	})
	return found, has
}

// Tags lists pairs of an index of a key and an index of a value of the layer.
func (f Feature) Tags() []uint32 {
	defer runtime.KeepAlive(f.layer.tile)
	return append([]uint32(nil), f.tags()...)
}

func (f Feature) tags() []uint32 {
	rows := &f.layer.tile.rows
	return within(rowsOf((*uint32)(rows.tags), rows.tag_count), f.row.tags)
}

// Point is a position: x to the right, y down, in units of the layer's extent.
type Point struct {
	X, Y int32
}

// Points of C are looked at as points of Go, so this doesn't compile where these lie otherwise.
const (
	_ = -(unsafe.Sizeof(Point{}) ^ unsafe.Sizeof(C.mvt_point{}))
	_ = -(unsafe.Offsetof(Point{}.Y) ^ unsafe.Offsetof(C.mvt_point{}.y))
)

// Part is a line, a ring, or the points of a feature. A ring closes from its last point to its first.
type Part struct {
	// Exterior says that it is an exterior ring, which begins a polygon.
	Exterior bool
	Points   []Point
}

// Parts lists the lines, the rings, or one part with all points.
func (f Feature) Parts() []Part {
	defer runtime.KeepAlive(f.layer.tile)
	all := &f.layer.tile.rows
	points := rowsOf((*Point)(unsafe.Pointer(all.points)), all.point_count)
	rows := within(rowsOf(all.parts, all.part_count), f.row.parts)
	parts := make([]Part, 0, len(rows))
	for _, row := range rows {
		parts = append(parts, Part{row.exterior == 1, append([]Point(nil), within(points, row.points)...)})
	}
	return parts
}

// Integers are the integers of an unknown geometry.
func (f Feature) Integers() []uint32 {
	defer runtime.KeepAlive(f.layer.tile)
	rows := &f.layer.tile.rows
	integers := rowsOf((*uint32)(rows.integers), rows.integer_count)
	return append([]uint32(nil), within(integers, f.row.integers)...)
}
