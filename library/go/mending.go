package libmvt

/*
#include <mvt.h>
*/
import "C"

import "fmt"

// ChangeKind is a kind of change. Its text is its name, as `mvt mend` prints it.
type ChangeKind uint32

func (k ChangeKind) String() string { return nameOf(changeNames[k], uint32(k)) }

// Change is what Mend changed. Indices count from 0 in the tile as it stood; what the kind doesn't speak of is 0.
type Change struct {
	Kind           ChangeKind
	Layer, Feature uint64
	// Part is a line, or a ring through all polygons of the feature.
	Part uint64
	// Count is how many points are left out: repeated ones, or those of a part or feature.
	Count uint64
	// To is where a ring that moved stands among those that stay.
	To uint64
}

// String is the change as `mvt mend` prints it.
func (c Change) String() string {
	told := fmt.Sprintf("layer %d feature %d: %v", c.Layer, c.Feature, c.Kind)
	switch c.Kind {
	case ChangeFeatureLeftOut:
		return fmt.Sprintf("%s count %d", told, c.Count)
	case ChangeRepeatedPoint, ChangePartLeftOut:
		return fmt.Sprintf("%s %d count %d", told, c.Part, c.Count)
	case ChangeMovedRing:
		return fmt.Sprintf("%s %d to %d", told, c.Part, c.To)
	}
	return fmt.Sprintf("%s %d", told, c.Part)
}

// Mend gives the canonical bytes of a tile with the two rules mended that producers break most: a point that equals the one
// before it (CauseZeroSegment), and a first ring that goes the wrong way round (CauseFirstRing); and what it changed, in the
// order of the layers, features and parts. Filled by the even-odd rule the tile looks the same before and after; ids, attributes
// and all else stay. A tile that keeps every rule comes as Rewrite makes it, without changes. The error is a *Refused with the
// fault of the tile as it stands if it breaks another rule too, or its rings cross by more than a unit or would take seconds
// (2^30 steps); and it may be ErrTooLarge.
func Mend(tile []byte) ([]byte, []Change, error) {
	var out C.mvt_mended
	var fault C.mvt_fault
	if err := errorOf(C.mvt_mend(start(tile), C.size_t(len(tile)), &out, &fault, nil), tile, &fault); err != nil {
		return nil, nil, err
	}
	defer C.mvt_mended_free(&out)
	var changes []Change
	for _, row := range rowsOf(out.changes, out.change_count) {
		changes = append(changes, Change{ChangeKind(row.kind), uint64(row.layer), uint64(row.feature), uint64(row.part),
			uint64(row.count), uint64(row.to)})
	}
	return append(make([]byte, 0, out.bytes.len), view(out.bytes.data, out.bytes.len)...), changes, nil
}
