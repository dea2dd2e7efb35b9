package libmvt

/*
#include <mvt.h>
*/
import "C"

import (
	"fmt"
	"math"
	"reflect"
	"runtime"
	"unsafe"
)

// Builder makes a tile step by step: begin a layer, begin a feature, add its tags and points, and finish.
//
//	builder := libmvt.NewBuilder()
//	builder.Layer("places", 4096)
//	builder.Feature(libmvt.Points).ID(7).Tag("name", "Mill Pond").Tag("depth", 3.5).Point(25, 17)
//	bytes, err := builder.Finish()
//
// After a call that the builder doesn't expect, or when memory runs out, each further call does nothing, and Finish says
// why. One goroutine at a time may use it. A copy of a Builder that has begun builds the same tile.
type Builder struct {
	held *begun
}

// begun is what a builder and its copies share. A feature is gathered here and handed over as one, since each call of C has
// its price.
type begun struct {
	builder   C.mvt_builder
	err       error
	feature   gathered
	isLayer   bool
	isFeature bool
	keys      map[string]C.uint32_t
	values    map[known]C.uint32_t
}

// gathered is a feature, in lists that are filled again and again.
type gathered struct {
	kind     Kind
	id       C.uint64_t
	hasID    bool
	tags     []C.uint32_t
	parts    []C.mvt_part
	points   []Point
	integers []C.uint32_t
}

// known is a value by what it is.
type known struct {
	kind C.uint32_t
	bits C.uint64_t
	text string
}

func (b *begun) free() {
	C.mvt_builder_free(&b.builder)
	*b = begun{}
}

// end hands the feature over that is gathered, if there is one.
func (b *begun) end() {
	if !b.isFeature {
		return
	}
	b.isFeature = false
	f := &b.feature
	if f.kind != Unknown {
		var id *C.uint64_t
		if f.hasID {
			id = &f.id
		}
		C.mvt_builder_add(&b.builder, C.mvt_kind(f.kind), id, first(f.tags), C.size_t(len(f.tags)), first(f.parts),
			C.size_t(len(f.parts)), (*C.mvt_point)(unsafe.Pointer(first(f.points))), C.size_t(len(f.points)))
		return
	}
	C.mvt_builder_feature(&b.builder, C.MVT_UNKNOWN)
	if f.hasID {
		C.mvt_builder_id(&b.builder, f.id)
	}
	for i := 0; i < len(f.tags); i += 2 {
		C.mvt_builder_tag_at(&b.builder, f.tags[i], f.tags[i+1])
	}
	C.mvt_builder_integers(&b.builder, first(f.integers), C.size_t(len(f.integers)))
}

// first is where a list begins; of none there is no such place.
func first[T any](list []T) *T {
	if len(list) == 0 {
		return nil
	}
	return &list[0]
}

// is says whether a feature of this kind is gathered.
func (b *begun) is(kind Kind) bool { return b.isFeature && b.feature.kind == kind }

// begin is what the builder has begun; a Builder that wasn't made by NewBuilder begins here.
func (b *Builder) begin() *begun {
	if b.held == nil {
		b.held = &begun{}
		runtime.SetFinalizer(b.held, (*begun).free)
	}
	return b.held
}

// NewBuilder is a builder of a tile without layers.
func NewBuilder() *Builder {
	made := &Builder{}
	made.begin()
	return made
}

// Close frees the builder and what it has.
func (b *Builder) Close() error {
	b.begin().free()
	return nil
}

// Layer begins a layer, and ends the one before. The extent is how many units the tile is wide and high, mostly 4096.
func (b *Builder) Layer(name string, extent uint32) *Builder {
	held := b.begin()
	held.end()
	C.mvt_builder_layer(&held.builder, lent(name), C.uint32_t(extent))
	held.isLayer, held.keys, held.values = true, map[string]C.uint32_t{}, map[known]C.uint32_t{}
	return b
}

// Foreign adds a layer of another version than 2, given by its bytes.
func (b *Builder) Foreign(version uint32, bytes []byte) *Builder {
	held := b.begin()
	held.end()
	C.mvt_builder_foreign(&held.builder, C.uint32_t(version), C.mvt_bytes{start(bytes), C.size_t(len(bytes))})
	held.isLayer, held.keys, held.values = false, nil, nil
	return b
}

// Key is the index of a key in the layer. A new one is added. The error is ErrOutOfTurn if no layer has begun.
func (b *Builder) Key(key string) (uint32, error) {
	index, status := b.begin().key(key)
	return uint32(index), errorOf(status, nil, nil)
}

func (b *begun) key(key string) (C.uint32_t, C.mvt_status) {
	index, isKnown := b.keys[key]
	if isKnown {
		return index, C.MVT_OK
	}
	status := C.mvt_builder_key(&b.builder, lent(key), &index)
	if status == C.MVT_OK {
		b.keys[key] = index
	}
	return index, status
}

// Value is the index of a value in the layer, as Tag takes it. A new one is added.
func (b *Builder) Value(value any) (uint32, error) {
	given, ok := valueOf(value)
	if !ok {
		return 0, noKind(value)
	}
	index, status := b.begin().value(given)
	return uint32(index), errorOf(status, nil, nil)
}

func (b *begun) value(given known) (C.uint32_t, C.mvt_status) {
	index, isKnown := b.values[given]
	if isKnown {
		return index, C.MVT_OK
	}
	status := C.mvt_builder_value(&b.builder, C.mvt_any{given.kind, given.bits, lent(given.text)}, &index)
	if status == C.MVT_OK {
		b.values[given] = index
	}
	return index, status
}

// Feature begins a feature of the layer, and ends the one before.
func (b *Builder) Feature(kind Kind) *Builder {
	held := b.begin()
	held.end()
	if !held.isLayer {
		return b.late()
	}
	f := &held.feature
	*f = gathered{kind, 0, false, f.tags[:0], f.parts[:0], f.points[:0], f.integers[:0]}
	held.isFeature = true
	return b
}

// ID gives the feature an id.
func (b *Builder) ID(id uint64) *Builder {
	held := b.begin()
	if !held.isFeature {
		return b.late()
	}
	held.feature.id, held.feature.hasID = C.uint64_t(id), true
	return b
}

// Tag adds an attribute to the feature. The value is a string, a bool, a float32, a float64 or an integer. An integer is
// written as a uint_value or, below zero, as a sint_value; an Int as an int_value, and a Sint as a sint_value. For any other
// value Finish says that it has no kind.
func (b *Builder) Tag(key string, value any) *Builder {
	held := b.begin()
	given, ok := valueOf(value)
	if !ok {
		if held.err == nil {
			held.err = noKind(value)
		}
		return b
	}
	if !held.isFeature {
		return b.late()
	}
	keyAt, status := held.key(key)
	if status != C.MVT_OK {
		return b
	}
	if valueAt, status := held.value(given); status == C.MVT_OK {
		held.feature.tags = append(held.feature.tags, keyAt, valueAt)
	}
	return b
}

func noKind(value any) error {
	return fmt.Errorf("a value of type %T has no kind in a tile", value)
}

// TagAt adds an attribute by the indices that Key and Value gave.
func (b *Builder) TagAt(key, value uint32) *Builder {
	held := b.begin()
	if !held.isFeature {
		return b.late()
	}
	held.feature.tags = append(held.feature.tags, C.uint32_t(key), C.uint32_t(value))
	return b
}

// Line begins a line of a feature of lines.
func (b *Builder) Line() *Builder {
	return b.part(Lines, 0)
}

// Ring begins a ring of a feature of polygons. An exterior ring begins a polygon, and the rings after it are its holes.
func (b *Builder) Ring(exterior bool) *Builder {
	if exterior {
		return b.part(Polygons, 1)
	}
	return b.part(Polygons, 0)
}

// part begins a part of a feature of the kind, which grows with the points that are gathered.
func (b *Builder) part(kind Kind, exterior C.uint32_t) *Builder {
	held := b.begin()
	if !held.is(kind) {
		return b.late()
	}
	f := &held.feature
	f.parts = append(f.parts, C.mvt_part{exterior: exterior, points: C.mvt_span{start: C.uint64_t(len(f.points))}})
	return b
}

// late has C remember that a call wasn't due: a layer of version 2 is never given by its bytes.
func (b *Builder) late() *Builder {
	held := b.begin()
	held.isFeature = false
	C.mvt_builder_foreign(&held.builder, 2, C.mvt_bytes{})
	return b
}

// Point adds a point to the line or ring that began last, or to a feature of points.
func (b *Builder) Point(x, y int32) *Builder {
	return b.Points(Point{x, y})
}

// Points adds points to the line or ring that began last, or to a feature of points. The last point of a ring is joined to
// its first.
func (b *Builder) Points(points ...Point) *Builder {
	held := b.begin()
	f := &held.feature
	if len(points) == 0 {
		return b
	}
	if held.is(Points) && len(f.parts) == 0 {
		b.part(Points, 0)
	}
	if !held.isFeature || len(f.parts) == 0 {
		return b.late()
	}
	f.points = append(f.points, points...)
	f.parts[len(f.parts)-1].points.len += C.uint64_t(len(points))
	return b
}

// Integers adds integers to a feature of unknown geometry.
func (b *Builder) Integers(integers ...uint32) *Builder {
	held := b.begin()
	if len(integers) > 0 && !held.is(Unknown) {
		return b.late()
	}
	for _, integer := range integers {
		held.feature.integers = append(held.feature.integers, C.uint32_t(integer))
	}
	return b
}

// Drop removes the feature that began last, for example if its geometry has become empty.
func (b *Builder) Drop() *Builder {
	held := b.begin()
	if !held.isFeature {
		return b.late()
	}
	held.isFeature = false
	return b
}

// Finish gives the canonical bytes of the tile. The builder begins anew. The error is a *NoTile if the tile isn't valid,
// such as a line of one point or a ring that runs the wrong way round; ErrOutOfTurn if a call wasn't expected; ErrTooLarge
// or ErrMemory.
func (b *Builder) Finish() ([]byte, error) {
	held := b.begin()
	defer runtime.KeepAlive(held)
	defer held.free()
	if held.err != nil {
		return nil, held.err
	}
	held.end()
	var out C.mvt_bytes
	var fault C.mvt_rows_fault
	status := C.mvt_builder_finish(&held.builder, &out, &fault)
	return written(status, &out, &fault)
}

// valueOf is a value by what it is, and whether a tile has a kind for it.
func valueOf(value any) (known, bool) {
	switch given := value.(type) {
	case Int:
		return number(C.MVT_INT, uint64(given)), true
	case Sint:
		return number(C.MVT_SINT, uint64(given)), true
	case float32:
		return number(C.MVT_FLOAT, uint64(math.Float32bits(given))), true
	}
	switch given := reflect.ValueOf(value); given.Kind() {
	case reflect.String:
		return known{kind: C.MVT_TEXT, text: given.String()}, true
	case reflect.Bool:
		if given.Bool() {
			return number(C.MVT_BOOL, 1), true
		}
		return number(C.MVT_BOOL, 0), true
	case reflect.Float32:
		return number(C.MVT_FLOAT, uint64(math.Float32bits(float32(given.Float())))), true
	case reflect.Float64:
		return number(C.MVT_DOUBLE, math.Float64bits(given.Float())), true
	case reflect.Int, reflect.Int8, reflect.Int16, reflect.Int32, reflect.Int64:
		if given.Int() < 0 {
			return number(C.MVT_SINT, uint64(given.Int())), true
		}
		return number(C.MVT_UINT, uint64(given.Int())), true
	case reflect.Uint, reflect.Uint8, reflect.Uint16, reflect.Uint32, reflect.Uint64:
		return number(C.MVT_UINT, given.Uint()), true
	}
	return known{}, false
}

// number is a value of 64 bits, as mvt_value has them.
func number(kind C.uint32_t, bits uint64) known {
	return known{kind: kind, bits: C.uint64_t(bits)}
}
