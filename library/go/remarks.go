package libmvt

/*
#include <mvt.h>
*/
import "C"

import "fmt"

// Summary is what `mvt check` says of a tile, as values.
type Summary struct {
	// Layers counts those of every version, and Features those of the layers of version 2.
	Layers, Features uint64
	// IsCanonical says whether the bytes are those that Rewrite makes.
	IsCanonical bool
	Notes       []Note
}

// NoteKind is a kind of note. Its text is its name, as `mvt check` prints it.
type NoteKind uint32

func (k NoteKind) String() string { return nameOf(noteNames[k], uint32(k)) }

// Note is what breaks no rule, but is worth a look. Indices count from 0; what the kind doesn't speak of is 0.
type Note struct {
	Kind NoteKind
	// Version is that of a layer of another version than 2.
	Version        uint32
	Layer, Feature uint64
	// Ring counts through all polygons of the feature, and Earlier is the feature whose id is repeated.
	Ring, Earlier uint64
}

// Sentence says the note in plain words.
func (n Note) Sentence() string { return C.GoString(C.mvt_note_text(C.uint32_t(n.Kind))) }

// FindingKind is a kind of finding. Its text is its name, as `mvt lint` prints it.
type FindingKind uint32

func (k FindingKind) String() string { return nameOf(findingNames[k], uint32(k)) }

// Finding is what viewers stumble over in a tile that keeps every rule. Indices count from 0; what the kind doesn't speak of
// is 0.
type Finding struct {
	Kind           FindingKind
	Layer, Feature uint64
	// Attribute is that of a large number, and Position that of a far point.
	Attribute uint64
	Position  Point
}

// Sentence says the finding in plain words, and what happens in which viewer.
func (f Finding) Sentence() string { return C.GoString(C.mvt_finding_text(C.uint32_t(f.Kind))) }

// Lookalike is what bytes look like that are no tile. Its text is its name.
type Lookalike uint32

func (l Lookalike) String() string { return nameOf(lookalikeNames[l], uint32(l)) }

// LooksLike says what refused bytes look like, and false if they may be meant as a tile. An accepted tile may begin as
// something else does.
func LooksLike(tile []byte) (Lookalike, bool) {
	kind := C.mvt_looks_like(start(tile), C.size_t(len(tile)))
	return Lookalike(kind), kind != 0
}

func nameOf(name string, number uint32) string {
	if name == "" {
		return fmt.Sprint(number)
	}
	return name
}

// Survey says how many layers and features a tile has, whether its bytes are canonical, and what is worth a look.
func Survey(tile []byte) (*Summary, error) {
	var out C.mvt_summary
	var fault C.mvt_fault
	if err := errorOf(C.mvt_survey(start(tile), C.size_t(len(tile)), &out, &fault), tile, &fault); err != nil {
		return nil, err
	}
	defer C.mvt_summary_free(&out)
	told := &Summary{Layers: uint64(out.layers), Features: uint64(out.features), IsCanonical: out.is_canonical == 1}
	for _, row := range rowsOf(out.notes, out.note_count) {
		told.Notes = append(told.Notes, Note{NoteKind(row.kind), uint32(row.version), uint64(row.layer), uint64(row.feature),
			uint64(row.ring), uint64(row.earlier)})
	}
	return told, nil
}

// LintRows says what viewers stumble over, in the order of the layers, features and attributes.
func LintRows(tile []byte) ([]Finding, error) {
	var out C.mvt_findings
	var fault C.mvt_fault
	if err := errorOf(C.mvt_lint_rows(start(tile), C.size_t(len(tile)), &out, &fault), tile, &fault); err != nil {
		return nil, err
	}
	defer C.mvt_findings_free(&out)
	var found []Finding
	for _, row := range rowsOf(out.rows, out.count) {
		found = append(found, Finding{FindingKind(row.kind), uint64(row.layer), uint64(row.feature), uint64(row.attribute),
			Point{int32(row.x), int32(row.y)}})
	}
	return found, nil
}
