//go:build cgo && !mvt_system && linux && amd64

package libmvt

// The module has the library for Linux on amd64 in it. With the tag mvt_system it is the one that pkg-config finds.
const _ = archiveThatLibraryBuildMakes
