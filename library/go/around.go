package libmvt

/*
#include <mvt.h>
*/
import "C"

// Bounds are the bytes of a field: where its tag begins, where its payload begins, which is after the length if it has one,
// and where both end.
type Bounds struct{ Start, Body, End uint64 }

// Field is a field of a message. Its wire type is 0, 1, 2 or 5.
type Field struct {
	Number, WireType uint32
	Bounds           Bounds
}

// Integer is an integer of a feature's tags or geometry, and the bytes that spell it.
type Integer struct{ Value, Start, End uint64 }

// Role says what an integer of a geometry is: a command, or a parameter of one.
type Role uint32

// Step is what an integer of a geometry is, how many parameters of the command are still to come, and where the cursor
// stands after it.
type Step struct {
	Role Role
	Left uint32
	X, Y int64
}

// Surroundings are what there is round a fault. What isn't there, or can't be read, is nil or 0.
type Surroundings struct {
	// Layer and Feature are the bytes of those that the fault names, and Message those of the innermost message in which
	// it is.
	Layer, Feature *Bounds
	Message        Bounds
	// Extent is that of the layer, and Kind the type of the feature, as the last field says that can be read.
	Extent, Kind *uint64
	// List is the field of the feature whose integers the fault's At counts: 2, the tags, 4, the geometry, or 0, none.
	List uint32
	// Keys are the bytes of the layer's keys.
	Keys []Bounds
	// Tags and Geometry are integers of the feature, and Steps says what each of the geometry is.
	Tags, Geometry []Integer
	Steps          []Step
	// Fields are those of the message, up to the first bytes that are none.
	Fields []Field
}

// Around says what there is round the fault of a refused tile, for any bytes and any fault.
func Around(tile []byte, fault *Refused) (*Surroundings, error) {
	given := C.mvt_fault{layer: C.int64_t(fault.Layer), feature: C.int64_t(fault.Feature), at: C.uint64_t(fault.At),
		cause: C.uint32_t(fault.Cause)}
	var out C.mvt_surroundings
	if C.mvt_around(start(tile), C.size_t(len(tile)), &given, &out) != C.MVT_OK {
		return nil, ErrMemory
	}
	defer func() {
		// It points into the tile, which is memory of Go.
		out.place.layer_name = C.mvt_bytes{}
		C.mvt_surroundings_free(&out)
	}()
	told := &Surroundings{Message: boundsOf(out.message), List: uint32(out.list)}
	if out.has_layer == 1 {
		layer := boundsOf(out.layer)
		told.Layer = &layer
	}
	if out.has_feature == 1 {
		feature := boundsOf(out.feature)
		told.Feature = &feature
	}
	if out.has_extent == 1 {
		extent := uint64(out.extent)
		told.Extent = &extent
	}
	if out.has_kind == 1 {
		kind := uint64(out.kind)
		told.Kind = &kind
	}
	told.Keys = each(rowsOf(out.keys, out.key_count), boundsOf)
	told.Tags = each(rowsOf(out.tags, out.tag_count), integerOf)
	told.Geometry = each(rowsOf(out.geometry, out.geometry_count), integerOf)
	told.Steps = each(rowsOf(out.steps, out.step_count), stepOf)
	told.Fields = each(rowsOf(out.fields, out.field_count), fieldOf)
	return told, nil
}

func boundsOf(of C.mvt_bounds) Bounds {
	return Bounds{uint64(of.start), uint64(of.body), uint64(of.end)}
}

func integerOf(of C.mvt_integer) Integer {
	return Integer{uint64(of.value), uint64(of.start), uint64(of.end)}
}

func stepOf(of C.mvt_step) Step {
	return Step{Role(of.role), uint32(of.left), int64(of.x), int64(of.y)}
}

func fieldOf(of C.mvt_field) Field {
	return Field{uint32(of.number), uint32(of.wire_type), boundsOf(of.bounds)}
}

func each[From, To any](rows []From, make func(From) To) []To {
	var made []To
	for _, row := range rows {
		made = append(made, make(row))
	}
	return made
}
