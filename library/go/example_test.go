package libmvt_test

import (
	"bytes"
	"errors"
	"fmt"
	"log"

	"huranvi.example/libmvt"
)

func ExampleRead() {
	made, err := libmvt.NewBuilder().Layer("places", 4096).Feature(libmvt.Points).Tag("name", "Mill Pond").Point(25, 17).Finish()
	if err != nil {
		log.Fatal(err)
	}
	tile, err := libmvt.Read(made)
	if err != nil {
		log.Fatal(err)
	}
	defer tile.Close()
	for _, layer := range tile.Layers() {
		for _, feature := range layer.Features() {
			fmt.Println(layer.Name(), feature.Kind(), feature.Attributes(), feature.Parts()[0].Points)
		}
	}
	// Output: places points [{name Mill Pond}] [{25 17}]
}

func ExampleJudge() {
	err := libmvt.Judge([]byte{0x1a, 2, 0x78, 2})
	var refused *libmvt.Refused
	if errors.As(err, &refused) {
		fmt.Println(refused.Line())
		fmt.Println(refused.Layer, refused.Name)
	}
	// Output:
	// layer 0 feature - at 0: 10 NoName
	// 0 NoName
}

func ExampleDecoder() {
	decoder, err := libmvt.NewDecoder()
	if err != nil {
		log.Fatal(err)
	}
	defer decoder.Close()
	if _, err := decoder.ReadFrom(bytes.NewReader([]byte{0x1a, 5, 0x78, 2, 0x0a, 1, 'a'})); err != nil {
		log.Fatal(err)
	}
	tile, err := decoder.Finish()
	if err != nil {
		log.Fatal(err)
	}
	defer tile.Close()
	fmt.Println(tile.Layers()[0].Name())
	// Output: a
}

func ExampleExtract() {
	made, err := libmvt.NewBuilder().Layer("a", 4096).Layer("b", 4096).Finish()
	if err != nil {
		log.Fatal(err)
	}
	_, err = libmvt.Extract(made, "b", "c")
	fmt.Println(err)
	// Output: no layer of version 2 has the name "c"
}
