//go:build mvt_system

package libmvt

/*
#cgo pkg-config: mvt
*/
import "C"
