// Package libmvt reads, judges and writes Mapbox Vector Tiles, by the proved library libmvt.
//
//	tile, err := libmvt.Read(bytes)
//	var refused *libmvt.Refused
//	if errors.As(err, &refused) {
//		log.Fatal(refused.Explanation)
//	}
//	defer tile.Close()
//	for _, layer := range tile.Layers() {
//		fmt.Println(layer.Name(), len(layer.Features()))
//	}
//
// Each call takes the bytes of one uncompressed tile. If they break a rule the error is a *Refused, and if memory runs out
// ErrMemory; each call says which others it has. Layers of another version than 2 are carried as their bytes. Any number of
// goroutines may call at a time, and may look at one tile.
package libmvt

/*
#include <mvt.h>
#include <stdlib.h>
*/
import "C"

import (
	"unicode/utf8"
	"unsafe"
)

// Judge says whether the bytes are a tile: nil if they are. It makes nothing, so it is the fastest check.
func Judge(tile []byte) error {
	var fault C.mvt_fault
	return errorOf(C.mvt_judge(start(tile), C.size_t(len(tile)), &fault), tile, &fault)
}

// Rewrite gives the canonical bytes of a tile: equal tiles have equal bytes. The error may be ErrTooLarge.
func Rewrite(tile []byte) ([]byte, error) {
	var out C.mvt_bytes
	var fault C.mvt_fault
	return made(C.mvt_rewrite(start(tile), C.size_t(len(tile)), &out, &fault), tile, &out, &fault)
}

// Extract gives the canonical bytes of the named layers of version 2, in the order of the tile. A repeated name counts
// once; without names the tile has no layers. The error is a *NoLayer with the first name that no layer has,
// such as one that isn't UTF-8, and may be ErrTooLarge.
func Extract(tile []byte, names ...string) ([]byte, error) {
	var out C.mvt_bytes
	var fault C.mvt_fault
	wanted := make([]C.mvt_bytes, len(names)+1)
	for i, name := range names {
		// C may not be lent a list of Go that has pointers of Go in it.
		held := C.CBytes([]byte(name))
		defer C.free(held)
		wanted[i] = C.mvt_bytes{(*C.uint8_t)(held), C.size_t(len(name))}
	}
	var index C.size_t
	status := C.mvt_extract(start(tile), C.size_t(len(tile)), &wanted[0], C.size_t(len(names)), &out, &fault, &index)
	if status == C.MVT_NO_LAYER {
		return nil, &NoLayer{names[index]}
	}
	if status == C.MVT_BAD_NAME {
		// A broken tile is told first, and so is a name before this one that no layer has.
		bad := firstBad(names)
		if _, err := Extract(tile, names[:bad]...); err != nil {
			return nil, err
		}
		return nil, &NoLayer{names[bad]}
	}
	return made(status, tile, &out, &fault)
}

// firstBad is the index of the first name that isn't UTF-8; there is one.
func firstBad(names []string) int {
	for i, name := range names {
		if !utf8.ValidString(name) {
			return i
		}
	}
	return len(names) - 1
}

// ToJSON shows a tile as JSON, in one line without a line end, as `mvt show` does. A text that many features share is
// repeated for each.
func ToJSON(tile []byte) (string, error) {
	return text(tile, func(out *C.mvt_bytes, fault *C.mvt_fault) C.mvt_status {
		return C.mvt_json(start(tile), C.size_t(len(tile)), out, fault)
	})
}

// ToSVG draws a tile as a picture in SVG, as `mvt draw` does.
func ToSVG(tile []byte) (string, error) {
	return text(tile, func(out *C.mvt_bytes, fault *C.mvt_fault) C.mvt_status {
		return C.mvt_svg(start(tile), C.size_t(len(tile)), out, fault)
	})
}

// Report gives what `mvt check` prints: a line with the numbers of layers and features and whether its bytes are
// canonical, and a line for each note.
func Report(tile []byte) (string, error) {
	return text(tile, func(out *C.mvt_bytes, fault *C.mvt_fault) C.mvt_status {
		return C.mvt_report(start(tile), C.size_t(len(tile)), out, fault)
	})
}

// Lint gives what `mvt lint` prints: a line for each thing that breaks no rule but that viewers stumble over.
func Lint(tile []byte) (string, error) {
	return text(tile, func(out *C.mvt_bytes, fault *C.mvt_fault) C.mvt_status {
		return C.mvt_lint(start(tile), C.size_t(len(tile)), out, fault)
	})
}

// Version is the version of the library.
func Version() string {
	return C.GoString(C.mvt_version())
}

// text is what a call makes of a tile.
func text(tile []byte, call func(out *C.mvt_bytes, fault *C.mvt_fault) C.mvt_status) (string, error) {
	var out C.mvt_bytes
	var fault C.mvt_fault
	made, err := made(call(&out, &fault), tile, &out, &fault)
	return string(made), err
}

// made copies what a call put into out, and gives that back, or says what its status means.
func made(status C.mvt_status, tile []byte, out *C.mvt_bytes, fault *C.mvt_fault) ([]byte, error) {
	if err := errorOf(status, tile, fault); err != nil {
		return nil, err
	}
	defer C.mvt_bytes_free(out)
	return append(make([]byte, 0, out.len), view(out.data, out.len)...), nil
}

// start is where bytes begin; of none there is no such place.
func start(bytes []byte) *C.uint8_t {
	if len(bytes) == 0 {
		return nil
	}
	return (*C.uint8_t)(&bytes[0])
}

// lent is a text for the time of a call.
func lent(text string) C.mvt_bytes {
	return C.mvt_bytes{start([]byte(text)), C.size_t(len(text))}
}

// view is bytes of C, which stay there. Where there are none the pointer isn't followed.
func view(data *C.uint8_t, len C.size_t) []byte {
	if len == 0 {
		return nil
	}
	return unsafe.Slice((*byte)(data), len)
}
