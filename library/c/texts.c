/* The version, and what statuses and the causes of rows mean in a few words. */
#include "mvt.h"

#define TEXT_OF(number) #number
#define TEXT(number) TEXT_OF(number)

const char *mvt_version(void) { return MVT_VERSION; }

const char *mvt_status_text(uint32_t status) {
    switch (status) {
    case MVT_OK: return "done";
    case MVT_REFUSED: return "the bytes are no tile";
    case MVT_NO_MEMORY: return "out of memory";
    case MVT_TOO_LARGE: return "the result is larger than " TEXT(MVT_LIMIT) " bytes";
    case MVT_NO_LAYER: return "no layer of version 2 has the name";
    case MVT_BAD_NAME: return "a name isn't UTF-8";
    case MVT_NO_TILE: return "the rows are no valid tile";
    case MVT_NO_DECODER: return "the decoder was never made, or is finished";
    case MVT_OUT_OF_TURN: return "a builder's call that isn't due: begin a layer or a feature of the right kind first";
    default: return "no status of this library";
    }
}

const char *mvt_rows_cause_text(uint32_t cause) {
    switch (cause) {
    case MVT_ROWS_NAME_SPAN: return "the layer's name reaches beyond the texts";
    case MVT_ROWS_NAME: return "the layer's name isn't UTF-8";
    case MVT_ROWS_KEYS_SPAN: return "the layer's keys reach beyond the list of keys";
    case MVT_ROWS_KEY: return "a key of the layer reaches beyond the texts, or isn't UTF-8";
    case MVT_ROWS_VALUES_SPAN: return "the layer's values reach beyond the list of values";
    case MVT_ROWS_VALUE: return "a value of the layer has no such kind, is out of range, or has a bad text";
    case MVT_ROWS_FEATURES_SPAN: return "the layer's features reach beyond the list of features";
    case MVT_ROWS_BYTES_SPAN: return "the layer's bytes reach beyond the texts";
    case MVT_ROWS_HAS_ID: return "has_id is neither 0 nor 1";
    case MVT_ROWS_TAGS_SPAN: return "the feature's tags reach beyond the list of tags";
    case MVT_ROWS_ODD_TAGS: return "the feature's tags are odd in number";
    case MVT_ROWS_KEY_INDEX: return "a tag names a key that the layer doesn't have";
    case MVT_ROWS_VALUE_INDEX: return "a tag names a value that the layer doesn't have";
    case MVT_ROWS_REPEATED_KEY: return "the feature's tags name a key twice";
    case MVT_ROWS_KIND: return "the feature's kind isn't 0 to 3";
    case MVT_ROWS_GEOMETRY:
        return "the feature's geometry reaches beyond a list, or its parts are none of a feature of its kind";
    case MVT_ROWS_DRAWING: return "no commands draw the feature's geometry";
    case MVT_ROWS_BYTES: return "the layer's bytes aren't a layer of its version";
    case MVT_ROWS_REPEATED_NAME: return "an earlier layer has the layer's name";
    default: return "no cause of this library";
    }
}
