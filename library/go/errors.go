package libmvt

/*
#include <mvt.h>
*/
import "C"

import (
	"errors"
	"fmt"
	"strconv"
)

var (
	// ErrMemory says that memory ran out, or that the bound of the rows is reached.
	ErrMemory = errors.New("out of memory")
	// ErrTooLarge says that the result would be larger than Limit.
	ErrTooLarge = fmt.Errorf("the result is larger than %d bytes", Limit)
	// ErrOutOfTurn says that a builder doesn't expect a call, such as a point before the first feature.
	ErrOutOfTurn = errors.New("a builder's call that isn't due")
	// ErrClosed says that a decoder is finished or closed.
	ErrClosed = errors.New("this decoder is finished or closed")
)

// Refused is the first rule that a tile breaks. Its text is the line that the program mvt prints, and the explanation.
type Refused struct {
	// Layer and Feature are indices; -1 for a fault outside a layer, or outside its features.
	Layer, Feature int64
	// At is an offset in the tile, or an index in the feature's tags or the integers of its geometry, as the cause has it.
	At uint64
	// Cause is the cause's number, such as CauseZeroSegment, and Name its name.
	Cause uint32
	Name  string
	// Explanation is the fault in plain words.
	Explanation string

	layerName      string
	featureID      uint64
	start, end     uint64
	hasName, hasID bool
	isPlaced       bool
}

func (r *Refused) Error() string { return r.Line() + ": " + r.Explanation }

// Line is the line that the program mvt prints.
func (r *Refused) Line() string {
	return fmt.Sprintf("layer %s feature %s at %d: %d %s", index(r.Layer), index(r.Feature), r.At, r.Cause, r.Name)
}

// LayerName is the layer's name, and whether the bytes have one.
func (r *Refused) LayerName() (string, bool) { return r.layerName, r.hasName }

// FeatureID is the feature's id, and whether the bytes have one.
func (r *Refused) FeatureID() (uint64, bool) { return r.featureID, r.hasID }

// Place is where the bytes begin and end that the fault is about; if both are equal, something is missing before that byte.
// It isn't known if the tile isn't at hand, as in a decoder.
func (r *Refused) Place() (start, end uint64, known bool) { return r.start, r.end, r.isPlaced }

func index(number int64) string {
	if number < 0 {
		return "-"
	}
	return strconv.FormatInt(number, 10)
}

// NoLayer is a name that no layer of version 2 has.
type NoLayer struct {
	Name string
}

func (n *NoLayer) Error() string {
	return fmt.Sprintf("no layer of version 2 has the name %q", n.Name)
}

// NoTile is what is wrong with rows that are no valid tile.
type NoTile struct {
	// Layer and Feature are indices; Feature is -1 if the fault is in no feature.
	Layer, Feature int64
	// Cause is an mvt_rows_cause of mvt.h.
	Cause uint32
	// Rule is the first rule that a geometry breaks which no commands draw, such as CauseZeroSegment; 0 for other causes.
	Rule uint32
	// Part is the index of the line or ring that breaks the rule, and Point that of the point in it; -1 if there is none.
	Part, Point int64
	// Sentence says the rule, or else the cause, in plain words.
	Sentence string
}

func (n *NoTile) Error() string {
	said := fmt.Sprintf("layer %d", n.Layer)
	if n.Feature >= 0 {
		said += fmt.Sprintf(" feature %d", n.Feature)
	}
	if n.Part >= 0 {
		said += fmt.Sprintf(" part %d", n.Part)
	}
	if n.Point >= 0 {
		said += fmt.Sprintf(" point %d", n.Point)
	}
	return said + ": " + n.Sentence
}

// errorOf says what a status means. The bytes are those that the call took, and the fault is what it told.
func errorOf(status C.mvt_status, tile []byte, fault *C.mvt_fault) error {
	switch status {
	case C.MVT_OK:
		return nil
	case C.MVT_REFUSED:
		return refusedOf(tile, fault)
	case C.MVT_TOO_LARGE:
		return ErrTooLarge
	case C.MVT_OUT_OF_TURN:
		return ErrOutOfTurn
	case C.MVT_NO_DECODER:
		return ErrClosed
	default:
		return ErrMemory
	}
}

func refusedOf(tile []byte, fault *C.mvt_fault) *Refused {
	var place C.mvt_place
	C.mvt_locate(start(tile), C.size_t(len(tile)), fault, &place)
	told := &Refused{
		Layer:       int64(fault.layer),
		Feature:     int64(fault.feature),
		At:          uint64(fault.at),
		Cause:       uint32(fault.cause),
		Name:        string(view(fault.name.data, fault.name.len)),
		Explanation: C.GoString(C.mvt_explain(start(tile), C.size_t(len(tile)), fault)),
	}
	if told.hasName = place.has_layer_name == 1; told.hasName {
		told.layerName = string(view(place.layer_name.data, place.layer_name.len))
	}
	if told.hasID = place.has_feature_id == 1; told.hasID {
		told.featureID = uint64(place.feature_id)
	}
	if told.isPlaced = len(tile) != 0; told.isPlaced {
		told.start, told.end = uint64(place.start), uint64(place.end)
	}
	return told
}

// noTile is what is wrong with rows that are no valid tile, as an error.
func noTile(fault *C.mvt_rows_fault) error {
	told := &NoTile{Layer: int64(fault.layer), Feature: -1, Cause: uint32(fault.cause), Part: -1, Point: -1}
	if fault.has_feature == 1 {
		told.Feature = int64(fault.feature)
	}
	if fault.rule == 0 {
		told.Sentence = C.GoString(C.mvt_rows_cause_text(fault.cause))
		return told
	}
	told.Rule, told.Part = uint32(fault.rule), int64(fault.part)
	if fault.has_point == 1 {
		told.Point = int64(fault.point)
	}
	told.Sentence = C.GoString(C.mvt_cause_text(fault.rule))
	return told
}
