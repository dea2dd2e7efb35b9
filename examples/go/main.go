// Guard stands before a tile server: tiles that keep every rule pass, and for others it answers 502 and why. With -mend it passes
// on mended what `mvt mend` mends.
//
//	go run . -listen 127.0.0.1:8080 -mend http://127.0.0.1:7800
package main

import (
	"flag"
	"fmt"
	"log"
	"net"
	"net/http"
	"net/url"

	"huranvi.example/libmvt/guard"
)

func main() {
	listen := flag.String("listen", "127.0.0.1:8080", "the address to listen on")
	mend := flag.Bool("mend", false, "pass on mended what breaks only ZeroSegment or FirstRing")
	flag.Parse()
	upstream, err := url.Parse(flag.Arg(0))
	if err != nil || upstream.Host == "" {
		log.Fatal("name the tile server, such as http://127.0.0.1:7800")
	}
	listener, err := net.Listen("tcp", *listen)
	if err != nil {
		log.Fatal(err)
	}
	fmt.Printf("http://%s\n", listener.Addr())
	var options []guard.Option
	if *mend {
		options = append(options, guard.Mend())
	}
	log.Fatal(http.Serve(listener, guard.New(upstream, options...)))
}
