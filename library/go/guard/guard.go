// Package guard passes on the good tiles of a server, and answers 502 with the fault for others.
//
//	upstream, _ := url.Parse("http://127.0.0.1:7800")
//	http.ListenAndServe(":8080", guard.New(upstream))
package guard

import (
	"bytes"
	"compress/gzip"
	"errors"
	"fmt"
	"io"
	"log"
	"net/http"
	"net/http/httputil"
	"net/url"
	"sort"
	"strconv"
	"strings"

	"huranvi.example/libmvt"
)

// Option is one of what New may be told.
type Option func(*judge)

// Mend has tiles passed on that libmvt.Mend mends: in canonical form, packed as they came, with what was changed in the header
// Mvt-Mended, such as "RepeatedPoint 1, TurnedRing 12". That takes up to thirty times the bytes of the tile, and up to ten seconds
// of one made for it.
func Mend() Option { return func(j *judge) { j.mends = true } }

// New is a handler that hands requests on to a server, and judges each answer of a status from 200 to 299 but 204, which has
// no content: a good tile is passed on as it came, plain or packed by gzip; for any other answer the status is 502, and the
// text is the line that the program mvt prints, the fault in plain words, and "mvt mend mends this" where it does. Answers of
// another status, and those to HEAD, are passed on. So give it the paths of tiles alone.
//
// The server is asked for whole tiles, packed by gzip where the client takes that. A request holds up to 64 MiB of the answer,
// and as many of the tile that it unpacks to. Whether a refused tile can be mended is looked at up to 100 kB.
func New(upstream *url.URL, options ...Option) http.Handler {
	var how judge
	for _, option := range options {
		option(&how)
	}
	proxy := httputil.NewSingleHostReverseProxy(upstream)
	direct := proxy.Director
	proxy.Director = func(request *http.Request) {
		direct(request)
		request.Header.Set("X-Forwarded-Host", request.Host)
		request.Host = upstream.Host
		askForWhole(request.Header)
	}
	proxy.ModifyResponse = how.modify
	proxy.ErrorHandler = func(w http.ResponseWriter, _ *http.Request, err error) {
		http.Error(w, words(err), http.StatusBadGateway)
	}
	return proxy
}

// askForWhole asks for no parts of a tile, and for no packing but gzip.
func askForWhole(header http.Header) {
	header.Del("Range")
	header.Del("If-Range")
	if takesGzip(strings.Join(header.Values("Accept-Encoding"), ",")) {
		header.Set("Accept-Encoding", "gzip")
	} else {
		header.Set("Accept-Encoding", "identity")
	}
}

// takesGzip says whether a client's Accept-Encoding names gzip, with a quality above 0.
func takesGzip(accepted string) bool {
	for _, word := range strings.Split(accepted, ",") {
		name, quality, has := strings.Cut(word, ";")
		if strings.EqualFold(strings.TrimSpace(name), "gzip") {
			number := strings.TrimPrefix(strings.TrimSpace(quality), "q=")
			return !has || strings.Trim(number, "0.") != ""
		}
	}
	return false
}

// unfit says what is wrong with an answer before it can be judged.
type unfit struct {
	why string
}

func (u *unfit) Error() string { return u.why }

// curable is a fault that libmvt.Mend mends.
type curable struct {
	*libmvt.Refused
}

func (c *curable) Unwrap() error { return c.Refused }

// words are what a client is told.
func words(err error) string {
	var refused *libmvt.Refused
	var mends *curable
	var other *unfit
	switch {
	case errors.As(err, &mends):
		return mends.Line() + "\n" + mends.Explanation + "\nmvt mend mends this"
	case errors.As(err, &refused):
		return refused.Line() + "\n" + refused.Explanation
	case errors.As(err, &other):
		return other.why
	}
	log.Printf("guard: %v", err)
	return "the tile server gives no answer"
}

// hasTile says whether an answer has content that a viewer takes as a tile.
func hasTile(response *http.Response) bool {
	status := response.StatusCode
	return status/100 == 2 && status != http.StatusNoContent && response.Request.Method != http.MethodHead
}

// judge looks at the answers of a server.
type judge struct {
	mends bool
}

func (j *judge) modify(response *http.Response) error {
	if !hasTile(response) {
		return nil
	}
	// What is larger as it is stored is larger unpacked, or no gzip worth the name.
	stored, err := io.ReadAll(io.LimitReader(response.Body, libmvt.Limit+1))
	if err != nil {
		return &unfit{"the tile server's answer ends early"}
	}
	response.Body.Close()
	tile, err := unpacked(stored, response.Header.Get("Content-Encoding"))
	if err != nil {
		return err
	}
	if err := libmvt.Judge(tile); err != nil {
		if stored, err = j.mended(response.Header, err, stored, tile); err != nil {
			return err
		}
		response.ContentLength = int64(len(stored))
	}
	response.Body = io.NopCloser(bytes.NewReader(stored))
	return nil
}

// ofContent are the parts of a header that speak of the bytes of an answer.
var ofContent = []string{"Content-Digest", "Content-MD5", "Digest", "Etag", "Repr-Digest"}

// mostAsked is how many bytes a tile has at most of which is looked whether it can be mended: of one made for it that takes a
// second, and of larger ones ten.
const mostAsked = 100_000

// mended is a refused tile as it is passed on, packed as it was; or its fault.
func (j *judge) mended(header http.Header, err error, stored, tile []byte) ([]byte, error) {
	var refused *libmvt.Refused
	if !errors.As(err, &refused) || refused.Cause != libmvt.CauseZeroSegment && refused.Cause != libmvt.CauseFirstRing {
		return nil, err
	}
	if !j.mends && len(tile) > mostAsked {
		return nil, err
	}
	made, changes, failed := libmvt.Mend(tile)
	if failed != nil || libmvt.Judge(made) != nil {
		return nil, err
	}
	if !j.mends {
		return nil, &curable{refused}
	}
	for _, name := range ofContent {
		header.Del(name)
	}
	if bytes.HasPrefix(stored, gzipMark) {
		made = packed(made)
	}
	header.Set("Content-Length", strconv.Itoa(len(made)))
	header.Set("Mvt-Mended", counted(changes))
	return made, nil
}

// counted is how many changes of each kind there are.
func counted(changes []libmvt.Change) string {
	counts := map[string]int{}
	for _, change := range changes {
		counts[change.Kind.String()]++
	}
	var told []string
	for kind, count := range counts {
		told = append(told, fmt.Sprintf("%s %d", kind, count))
	}
	sort.Strings(told)
	return strings.Join(told, ", ")
}

// gzipMark is what gzip begins with.
var gzipMark = []byte{0x1f, 0x8b}

// packed is a tile in gzip.
func packed(tile []byte) []byte {
	var out bytes.Buffer
	writer := gzip.NewWriter(&out)
	// A buffer takes all.
	_, _ = writer.Write(tile)
	_ = writer.Close()
	return out.Bytes()
}

// unpacked is the tile in an answer, up to one byte beyond the limit. Gzip is known by its first bytes too, since some servers
// don't name it.
func unpacked(stored []byte, encoding string) ([]byte, error) {
	switch {
	case strings.EqualFold(encoding, "gzip"), encoding == "" && bytes.HasPrefix(stored, gzipMark):
	case encoding == "", strings.EqualFold(encoding, "identity"):
		return stored, nil
	default:
		return nil, &unfit{fmt.Sprintf("the tile server's answer is packed by %q", encoding)}
	}
	reader, err := gzip.NewReader(bytes.NewReader(stored))
	if err == nil {
		var tile []byte
		if tile, err = io.ReadAll(io.LimitReader(reader, libmvt.Limit+1)); err == nil {
			return tile, nil
		}
	}
	return nil, &unfit{fmt.Sprintf("the tile server's gzip doesn't unpack: %v", err)}
}
