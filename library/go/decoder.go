package libmvt

/*
#include <mvt.h>
*/
import "C"

import (
	"io"
	"math"
	"runtime"
)

// Decoder reads a tile that comes in pieces of any length. It is an io.Writer and an io.ReaderFrom, so that io.Copy fills
// it:
//
//	decoder, err := libmvt.NewDecoder()
//	defer decoder.Close()
//	_, err = decoder.ReadFrom(response.Body)
//	tile, err := decoder.Finish()
//
// One goroutine at a time may use it. A copy of a Decoder reads the same tile.
type Decoder struct {
	held *feeding
}

// feeding is what a decoder and its copies share.
type feeding struct {
	decoder C.mvt_decoder
	// The first bytes, which tell whether the refused bytes look like something else, and how many there were.
	head []byte
	size uint64
}

func (f *feeding) free() { C.mvt_decoder_free(&f.decoder) }

// fed is what the decoder has taken; one that wasn't made by NewDecoder is closed.
func (d *Decoder) fed() *feeding {
	if d.held == nil {
		d.held = &feeding{}
	}
	return d.held
}

const (
	// So many bytes of the head are kept, as in each language.
	headLen = C.MVT_HEAD
	// So many bytes are read at a time.
	pieceLen = 65_536
	// So many reads that give nothing, one after the other, are no reader.
	mostEmpty = 100
)

var (
	_ io.WriteCloser = (*Decoder)(nil)
	_ io.ReaderFrom  = (*Decoder)(nil)
)

// NewDecoder is a decoder without bytes yet.
func NewDecoder() (*Decoder, error) {
	return NewDecoderWithin(math.MaxUint64)
}

// NewDecoderWithin is the same, of a tile whose rows have at most so many bytes: else the error of a call is ErrMemory.
func NewDecoderWithin(most uint64) (*Decoder, error) {
	held := &feeding{}
	if err := errorOf(C.mvt_decoder_new(&held.decoder, C.uint64_t(most)), nil, nil); err != nil {
		return nil, err
	}
	runtime.SetFinalizer(held, (*feeding).free)
	return &Decoder{held}, nil
}

// Write takes a piece. A fault is reported as soon as no further byte can change it, as a *Refused that mostly has no name
// of the layer and no id of the feature, since the bytes aren't kept. After an error each further call answers the same.
func (d *Decoder) Write(piece []byte) (int, error) {
	held := d.fed()
	defer runtime.KeepAlive(held)
	if room := headLen - len(held.head); room > 0 {
		if room > len(piece) {
			room = len(piece)
		}
		held.head = append(held.head, piece[:room]...)
	}
	held.size += uint64(len(piece))
	var fault C.mvt_fault
	status := C.mvt_decoder_feed(&held.decoder, start(piece), C.size_t(len(piece)), &fault)
	if err := errorOf(status, held.head, &fault); err != nil {
		return 0, held.ofFront(err, &fault)
	}
	return len(piece), nil
}

// ofFront is the same error where the first bytes of the tile alone are at hand: which bytes the fault is about isn't known
// then.
func (f *feeding) ofFront(err error, fault *C.mvt_fault) error {
	if told, ok := err.(*Refused); ok {
		told.start, told.end, told.isPlaced = 0, 0, false
		told.Explanation = C.GoString(C.mvt_explain_head(start(f.head), C.size_t(len(f.head)), C.uint64_t(f.size), fault))
	}
	return err
}

// ReadFrom takes all that a reader has, as Write does, up to its end or the first fault. It says how many bytes it read. The
// error is io.ErrNoProgress for a reader that gives nothing again and again, and no end.
func (d *Decoder) ReadFrom(reader io.Reader) (int64, error) {
	piece, all := make([]byte, pieceLen), int64(0)
	for empty := 0; empty < mostEmpty; empty++ {
		count, ended := reader.Read(piece)
		all += int64(count)
		if _, err := d.Write(piece[:count]); err != nil {
			return all, err
		}
		if ended == io.EOF {
			return all, nil
		}
		if ended != nil {
			return all, ended
		}
		if count > 0 {
			empty = -1
		}
	}
	return all, io.ErrNoProgress
}

// Finish gives the tile, after the last piece. The decoder is closed, whatever the answer.
func (d *Decoder) Finish() (*Tile, error) {
	held := d.fed()
	defer runtime.KeepAlive(held)
	var rows C.mvt_tile
	var fault C.mvt_fault
	tile, err := adopted(C.mvt_decoder_finish(&held.decoder, &rows, &fault), held.head, &rows, &fault)
	return tile, held.ofFront(err, &fault)
}

// Close frees the decoder.
func (d *Decoder) Close() error {
	held := d.fed()
	held.free()
	runtime.SetFinalizer(held, nil)
	return nil
}
