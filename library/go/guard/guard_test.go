package guard

import (
	"fmt"
	"io"
	"net/http"
	"net/http/httptest"
	"net/url"
	"strings"
	"testing"

	"huranvi.example/libmvt"
)

var (
	good   = []byte{0x1a, 7, 0x78, 2, 0x0a, 1, 'a', 0x28, 1}
	broken = []byte{0x1a, 2, 0x78, 2}
	fault  = "layer 0 feature - at 0: 10 NoName\n"
	// The ring (20, 34), (8, 12), (3, 6), of negative area, and the same with its points told the other way round.
	turned  = []byte("\x1a\x14\x78\x02\x0a\x01a\x12\x0d\x18\x03\x22\x09\x09\x28\x44\x12\x17\x2b\x09\x0b\x0f")
	upright = []byte("\x1a\x17\x78\x02\x0a\x01a\x12\x0d\x18\x03\x22\x09\x09\x28\x44\x12\x21\x37\x0a\x0c\x0f\x28\x80\x20")
)

// answers are what a tile server gives: a body, and how it says that it is packed.
var answers = map[string]struct {
	body     []byte
	encoding string
}{
	"/good":           {good, ""},
	"/packed":         {packed(good), "gzip"},
	"/unnamed":        {packed(good), ""},
	"/broken":         {broken, ""},
	"/packed-broken":  {packed(broken), "gzip"},
	"/unnamed-broken": {packed(broken), ""},
	"/cut":            {packed(good)[:20], ""},
	"/no-gzip":        {good, "gzip"},
	"/brotli":         {good, "br"},
	"/turned":         {turned, ""},
	"/packed-turned":  {packed(turned), "gzip"},
	"/unnamed-turned": {packed(turned), ""},
	// Behind the ring a layer without a name: nothing mends that.
	"/turned-broken": {append(append([]byte{}, turned...), broken...), ""},
	// An unknown field with so many bytes.
	"/large": {packed(append([]byte{0x7a, 0x80, 0x80, 0x80, 0x20}, make([]byte, libmvt.Limit)...)), ""},
}

func serve(w http.ResponseWriter, r *http.Request) {
	if answer, ok := answers[r.URL.Path]; ok {
		w.Header().Set("ETag", `"1"`)
		if answer.encoding != "" {
			w.Header().Set("Content-Encoding", answer.encoding)
		}
		w.Write(answer.body)
		return
	}
	var status int
	var kind string
	if count, _ := fmt.Sscanf(r.URL.Path, "/%3d-%s", &status, &kind); count == 2 {
		w.WriteHeader(status)
		w.Write(answers["/"+kind].body)
		return
	}
	switch r.URL.Path {
	case "/early":
		w.Header().Set("Content-Length", "100")
		w.Write(good)
	case "/none":
		w.WriteHeader(http.StatusNoContent)
	case "/asked":
		w.WriteHeader(http.StatusTeapot)
		io.WriteString(w, r.Header.Get("Accept-Encoding")+r.Header.Get("Range")+" "+r.Host+" "+r.Header.Get("X-Forwarded-Host"))
	default:
		http.NotFound(w, r)
	}
}

// guarded is the address of a guard, and of the server behind it.
func guarded(t *testing.T, options ...Option) (string, *url.URL) {
	upstream := httptest.NewServer(http.HandlerFunc(serve))
	t.Cleanup(upstream.Close)
	address, err := url.Parse(upstream.URL)
	if err != nil {
		t.Fatal(err)
	}
	server := httptest.NewServer(New(address, options...))
	t.Cleanup(server.Close)
	return server.URL, address
}

// ask gives the status, the header and the body of an answer.
func ask(t *testing.T, method, address string, header http.Header) (int, http.Header, string) {
	t.Helper()
	request, err := http.NewRequest(method, address, nil)
	if err != nil {
		t.Fatal(err)
	}
	for name, values := range header {
		request.Header[name] = values
	}
	client := &http.Client{Transport: &http.Transport{DisableCompression: true}}
	response, err := client.Do(request)
	if err != nil {
		t.Fatal(err)
	}
	defer response.Body.Close()
	body, err := io.ReadAll(response.Body)
	if err != nil {
		t.Fatal(err)
	}
	return response.StatusCode, response.Header, string(body)
}

func TestGuard(t *testing.T) {
	server, _ := guarded(t)
	for path, wanted := range map[string]struct {
		status int
		body   string
	}{
		"/good":           {200, string(good)},
		"/packed":         {200, string(packed(good))},
		"/unnamed":        {200, string(packed(good))},
		"/broken":         {502, fault},
		"/packed-broken":  {502, fault},
		"/unnamed-broken": {502, fault},
		"/cut":            {502, "the tile server's gzip doesn't unpack: unexpected EOF\n"},
		"/no-gzip":        {502, "the tile server's gzip doesn't unpack: "},
		"/brotli":         {502, "the tile server's answer is packed by \"br\"\n"},
		"/early":          {502, "the tile server's answer ends early\n"},
		"/large":          {502, "layer - feature - at 0: 25 TooLarge\n"},
		"/none":           {204, ""},
		"/201-broken":     {502, fault},
		"/203-broken":     {502, fault},
		"/206-broken":     {502, fault},
		"/299-broken":     {502, fault},
		"/203-good":       {203, string(good)},
		"/other":          {404, "404 page not found\n"},
	} {
		path, wanted := path, wanted
		t.Run(path, func(t *testing.T) {
			t.Parallel()
			status, header, body := ask(t, "GET", server+path, nil)
			if status != wanted.status || !strings.HasPrefix(body, wanted.body) {
				t.Errorf("%d %q", status, body)
			}
			if named := header.Get("Content-Encoding"); (path == "/packed") != (named == "gzip") {
				t.Errorf("packed by %q", named)
			}
		})
	}
}

// A fault that mending mends is said to be so, and no other.
func TestWhatHelps(t *testing.T) {
	server, _ := guarded(t)
	for path, wanted := range map[string]bool{"/turned": true, "/packed-turned": true, "/turned-broken": false, "/broken": false} {
		status, _, body := ask(t, "GET", server+path, nil)
		if status != 502 || strings.HasSuffix(body, "\nmvt mend mends this\n") != wanted {
			t.Errorf("%s: %d %q", path, status, body)
		}
	}
}

func unpackedBody(t *testing.T, body string) string {
	tile, err := unpacked([]byte(body), "")
	if err != nil {
		t.Fatal(err)
	}
	return string(tile)
}

// A guard that mends passes on what is mended, packed as it came, and other tiles as they came.
func TestMend(t *testing.T) {
	server, _ := guarded(t, Mend())
	for _, path := range []string{"/turned", "/packed-turned", "/unnamed-turned"} {
		status, header, body := ask(t, "GET", server+path, nil)
		if status != 200 || unpackedBody(t, body) != string(upright) || header.Get("Mvt-Mended") != "TurnedRing 1" {
			t.Errorf("%s: %d %q %v", path, status, body, header)
		}
		isPacked := strings.HasPrefix(body, string(gzipMark))
		if isPacked != (path != "/turned") || (header.Get("Content-Encoding") == "gzip") != (path == "/packed-turned") {
			t.Errorf("%s: packed %v, named %q", path, isPacked, header.Get("Content-Encoding"))
		}
		if length := header.Get("Content-Length"); length != fmt.Sprint(len(body)) || header.Get("ETag") != "" {
			t.Errorf("%s: %s bytes of %d, ETag %q", path, length, len(body), header.Get("ETag"))
		}
	}
	for _, path := range []string{"/good", "/packed"} {
		_, header, body := ask(t, "GET", server+path, nil)
		if unpackedBody(t, body) != string(good) || header.Get("Mvt-Mended") != "" || header.Get("ETag") != `"1"` {
			t.Errorf("%s: %q %v", path, body, header)
		}
	}
	for path, wanted := range map[string]string{"/broken": fault, "/turned-broken": "layer 0 feature 0 at 8: 22 FirstRing\n"} {
		status, _, body := ask(t, "GET", server+path, nil)
		if status != 502 || !strings.HasPrefix(body, wanted) || strings.Contains(body, "mends this") {
			t.Errorf("%s: %d %q", path, status, body)
		}
	}
}

func TestAnswersWithoutABody(t *testing.T) {
	server, _ := guarded(t)
	for _, path := range []string{"/packed", "/good"} {
		if status, _, body := ask(t, "HEAD", server+path, nil); status != 200 || body != "" {
			t.Errorf("%s: %d %q", path, status, body)
		}
	}
}

func TestWhatTheServerIsAsked(t *testing.T) {
	server, upstream := guarded(t)
	for accepted, wanted := range map[string]string{
		"":                      "identity",
		"gzip, deflate, br":     "gzip",
		"br;q=1.0, GZIP;q=0.05": "gzip",
		"gzip;q=0":              "identity",
		"gzip; q=0.0, br":       "identity",
	} {
		header := http.Header{"Range": {"bytes=0-3"}, "Accept-Encoding": {accepted}}
		wanted += " " + upstream.Host + " " + strings.TrimPrefix(server, "http://")
		if _, _, body := ask(t, "GET", server+"/asked", header); body != wanted {
			t.Errorf("%q: the server is asked for %q", accepted, body)
		}
	}
}

func TestAServerThatIsNotThere(t *testing.T) {
	server := httptest.NewServer(New(&url.URL{Scheme: "http", Host: "127.0.0.1:1"}))
	defer server.Close()
	if status, _, body := ask(t, "GET", server.URL, nil); status != 502 || body != "the tile server gives no answer\n" {
		t.Errorf("%d %q", status, body)
	}
}
