package libmvt_test

import (
	"bytes"
	"encoding/hex"
	"errors"
	"fmt"
	"io"
	"os"
	"strconv"
	"strings"
	"testing"
	"testing/iotest"

	"huranvi.example/libmvt"
)

// told is what the program says of a tile, by key, with a line feed behind each line.
type told struct {
	name string
	tile []byte
	said map[string]string
}

// bytes are those that the case has by a key.
func (of *told) bytes(t testing.TB, key string) []byte {
	return digits(t, of.said[key])
}

func digits(t testing.TB, text string) []byte {
	t.Helper()
	found, err := hex.DecodeString(strings.TrimSpace(text))
	if err != nil {
		t.Fatal(err)
	}
	return found
}

// newTold is the case of these lines, each a key and a text.
func newTold(t testing.TB, lines string) told {
	t.Helper()
	made := told{said: map[string]string{}}
	for _, line := range strings.Split(strings.TrimRight(lines, "\n"), "\n") {
		key, text, _ := strings.Cut(line, " ")
		made.said[key] += text + "\n"
	}
	zeros, _ := strconv.Atoi(strings.TrimSpace(made.said["zeros"]))
	made.name = strings.TrimSuffix(made.said["case"], "\n")
	made.tile = append(made.bytes(t, "tile"), make([]byte, zeros)...)
	return made
}

// cases are those of the files that the environment names (MVT_CASES), with ':' between them, which fixtures/tiles/cases.py
// makes and explains.
func cases(t testing.TB) []told {
	t.Helper()
	var found []told
	for _, path := range strings.Split(os.Getenv("MVT_CASES"), ":") {
		text, err := os.ReadFile(path)
		if err != nil {
			t.Fatalf("MVT_CASES names the files of cases: %v", err)
		}
		for _, lines := range strings.Split(string(text), "\n\n") {
			found = append(found, newTold(t, lines))
		}
	}
	return found
}

// TestEachCase finds each case, whole or broken, as the program says.
func TestEachCase(t *testing.T) {
	for _, of := range cases(t) {
		t.Run(of.name, func(t *testing.T) {
			if err := libmvt.Judge(of.tile); err != nil {
				refused(t, &of, err)
			} else {
				accepted(t, &of)
			}
		})
	}
}

// decoded is a tile in pieces, of which there aren't too many.
func decoded(t *testing.T, tile []byte) *libmvt.Tile {
	t.Helper()
	size := 1 + (len(tile)/100_000)<<10
	decoder, err := libmvt.NewDecoder()
	must(t, err, decoder)
	for rest := tile; len(rest) > 0; {
		count, err := decoder.Write(rest[:1+(len(rest)-1)%(7*size)])
		rest = rest[must(t, err, count):]
	}
	made, err := decoder.Finish()
	return must(t, err, made)
}

func accepted(t *testing.T, of *told) {
	calls := map[string]func([]byte) (string, error){"check": libmvt.Report, "lint": libmvt.Lint, "show": libmvt.ToJSON, "draw": libmvt.ToSVG}
	for key, call := range calls {
		text, err := call(of.tile)
		if key == "show" || key == "draw" {
			text += "\n"
		}
		same(t, key, must(t, err, text), of.said[key])
	}
	remarked(t, of)
	wanted := string(of.bytes(t, "canonical"))
	canonical, err := libmvt.Rewrite(of.tile)
	same(t, "canonical", string(must(t, err, canonical)), wanted)
	read, err := libmvt.Read(of.tile)
	written, wrong := must(t, err, read).Write()
	same(t, "written", string(must(t, wrong, written)), wanted)
	in := decoded(t, of.tile)
	same(t, "in pieces", shown(in), shown(read))
	mended, changes, err := libmvt.Mend(of.tile)
	same(t, "mended", string(must(t, err, mended)), wanted)
	same(t, "changes", len(changes), 0)
	extracted(t, of)
	in.Close()
	read.Close()
}

// extracted finds each layer that the case has by name, alone.
func extracted(t *testing.T, of *told) {
	t.Helper()
	for _, line := range strings.Split(strings.TrimSuffix(of.said["extract"], "\n"), "\n") {
		name, wanted, has := strings.Cut(line, " ")
		if !has {
			continue
		}
		alone, err := libmvt.ReadLayer(of.tile, name)
		written, wrong := must(t, err, alone).Write()
		same(t, name+" read", must(t, wrong, written), digits(t, wanted))
		found, err := libmvt.Extract(of.tile, name)
		same(t, name+" extracted", must(t, err, found), digits(t, wanted))
		alone.Close()
	}
}

// remarked compares what is counted, noted and found with what the program prints.
func remarked(t *testing.T, of *told) {
	t.Helper()
	survey, err := libmvt.Survey(of.tile)
	is := map[bool]string{true: "yes", false: "no"}[must(t, err, survey).IsCanonical]
	first := fmt.Sprintf("ok layers %d features %d canonical %s", survey.Layers, survey.Features, is)
	line, notes, _ := strings.Cut(of.said["check"], "\n")
	same(t, "counts", first, line)
	same(t, "notes", len(survey.Notes), strings.Count(notes, "\n"))
	found, err := libmvt.LintRows(of.tile)
	same(t, "findings", len(must(t, err, found)), strings.Count(of.said["lint"], "\n"))
}

func refused(t *testing.T, of *told, err error) {
	var fault *libmvt.Refused
	if !errors.As(err, &fault) {
		t.Fatal(err)
	}
	start, end, known := fault.Place()
	same(t, "line", fault.Line()+"\n", of.said["fault"])
	same(t, "place", fmt.Sprintf("%d %d %t\n", start, end, known), strings.TrimSuffix(of.said["place"], "\n")+" true\n")
	same(t, "sentence", fault.Explanation+"\n", of.said["sentence"])
	same(t, "text", err.Error(), fault.Line()+": "+fault.Explanation)
	for _, call := range []func([]byte) (string, error){libmvt.Report, libmvt.Lint, libmvt.ToJSON, libmvt.ToSVG} {
		_, other := call(of.tile)
		same(t, "another call", other, err)
	}
	_, other := libmvt.Read(of.tile)
	same(t, "Read", other, err)
	_, other = libmvt.Survey(of.tile)
	same(t, "Survey", other, err)
	_, other = libmvt.LintRows(of.tile)
	same(t, "LintRows", other, err)
	decoder, wrong := libmvt.NewDecoder()
	_, told := io.Copy(must(t, wrong, decoder), iotest.HalfReader(bytes.NewReader(of.tile)))
	_, other = decoder.Finish()
	if told != nil {
		same(t, "a decoder", told, other)
	}
	var last *libmvt.Refused
	same(t, "a decoder's fault", errors.As(other, &last), true)
	same(t, "a decoder's line", last.Line(), fault.Line())
	same(t, "a decoder's sentence", inOnePiece(t, of.tile), fault.Explanation)
	mended(t, of, err)
}

// inOnePiece is what a decoder says that takes a refused tile at once.
func inOnePiece(t *testing.T, tile []byte) string {
	t.Helper()
	decoder, err := libmvt.NewDecoder()
	_, _ = must(t, err, decoder).Write(tile)
	_, err = decoder.Finish()
	var told *libmvt.Refused
	same(t, "one piece is refused", errors.As(err, &told), true)
	return told.Explanation
}

func mended(t *testing.T, of *told, wanted error) {
	t.Helper()
	made, changes, err := libmvt.Mend(of.tile)
	if _, has := of.said["mended"]; !has {
		same(t, "Mend", err, wanted)
		return
	}
	var lines strings.Builder
	for _, change := range changes {
		fmt.Fprintln(&lines, change)
	}
	same(t, "mended", must(t, err, made), of.bytes(t, "mended"))
	same(t, "changes", lines.String(), of.said["change"])
}
