//go:build !cgo || (!mvt_system && !(linux && amd64))

package libmvt

// The module calls a library in C, which it has for Linux on amd64. So it wants cgo (CGO_ENABLED=1 and a C compiler), and
// elsewhere the tag mvt_system and a libmvt that pkg-config finds.
const _ = mvt_wants_cgo_and_linux_on_amd64_or_the_tag_mvt_system_with_an_installed_libmvt
