/* The module libmvt for Python, over mvt.h: what its files share. */
#ifndef MVT_PYTHON_MODULE_H
#define MVT_PYTHON_MODULE_H

#define Py_LIMITED_API 0x03090000
#define PY_SSIZE_T_CLEAN
#include <Python.h>
#include <stddef.h>
#include <string.h>
#include <structmember.h>

#include "mvt.h"

/* The lists of a tile, in the order of mvt_tile. */
enum { LAYERS, FEATURES, KEYS, VALUES, TAGS, PARTS, POINTS, INTEGERS, TEXTS, LISTS };

/* The structures that have a class of Python. */
enum { SPAN, LAYER, FEATURE, VALUE, PART, POINT, ROWS };

/* The names of attributes that are read and set for each feature. */
enum {
    NAME_ID,
    NAME_ATTRIBUTES,
    NAME_KIND,
    NAME_GEOMETRY,
    NAME_NAME,
    NAME_EXTENT,
    NAME_FEATURES,
    NAME_VERSION,
    NAME_BYTES,
    NAME_LAYERS,
    NAME_BITS,
    NAMES
};

/* What an interpreter's module holds. The classes of plain objects, of numbers and of errors are Python's own. */
typedef struct {
    PyObject *tile, *layer, *foreign, *feature;
    PyObject *single, *signed_int, *uint, *sint;
    PyObject *error, *refused, *too_large, *no_layer, *no_tile, *out_of_range;
    PyObject *rows[ROWS], *list, *held, *flat, *builder, *decoder;
    PyObject *names[NAMES], *kinds[4], *no_words, *new_float;
    PyObject *is_collecting, *thresholds, *set_thresholds, *collect,
        *young; /* calls of the collector of cycles, and a word for it */
    newfunc new_feature;
} state;

state *state_of_module(PyObject *module);
state *state_of_type(PyTypeObject *type);

/* An object of a class of this module, all zeros behind its head; and its end. */
PyObject *allocated(PyObject *type);
void given_back(PyObject *object);
PyObject *never_new(PyTypeObject *type, PyObject *words, PyObject *named);

/* What the calls of the module answer. */
PyObject *bytes_of(PyObject *tile);
const uint8_t *content_of(PyObject *bytes, size_t *len);
int raise_for(const state *of, uint32_t status, const mvt_fault *fault, const uint8_t *bytes, size_t len,
              PyObject *whole);
int raise_for_head(const state *of, uint32_t status, const mvt_fault *fault, const uint8_t *head, size_t len,
                   uint64_t size);
int raise_no_tile(const state *of, const mvt_rows_fault *wrong);
extern PyMethodDef CALLS[], REMARKS_CALLS[], AROUND_CALLS[], SIZES_CALLS[];

/* Rows. A list and a row look into memory of an owner, which lasts as long as they do. Nothing changes the rows of a tile,
 * which are read while other threads run. */
typedef struct {
    const char *name;
    size_t size;
    size_t at, count_at; /* in mvt_tile */
    int row;             /* the structure, or ROWS for plain numbers */
} list_kind;

typedef struct {
    PyObject_HEAD state *of;
    PyObject *owner;
    uint8_t *data;
    Py_ssize_t count, size;
    int kind;
} list;

typedef struct {
    PyObject_HEAD state *of;
    PyObject *owner; /* NULL where the row has memory of its own */
    uint8_t *data;
    int kind, is_fixed; /* whether it is a tile's, which nobody changes */
} row;

/* What is given back by mvt_tile_free. */
typedef struct {
    PyObject_HEAD mvt_tile tile;
} held;

typedef struct {
    PyObject_HEAD state *of;
    PyObject *weak;
    PyObject *lists[LISTS];
} flat;

extern const list_kind LIST_KINDS[LISTS];
int add_row_types(PyObject *module, state *of);
PyObject *new_row(state *of, int kind, PyObject *owner, uint8_t *data, int is_fixed);
const char *row_format(int kind);
size_t row_size(int kind);
int row_copied(state *of, int kind, PyObject *given, uint8_t *to);
extern PyType_Spec LIST_SPEC, HELD_SPEC, FLAT_SPEC, BUILDER_SPEC, DECODER_SPEC;
const uint8_t *rows_at(const mvt_tile *tile, int kind);
size_t count_at(const mvt_tile *tile, int kind);
list *new_list(state *of, int kind, PyObject *owner, const uint8_t *data, size_t count);
held *new_held(const state *of);
PyObject *lent_of(state *of, PyObject *owner, const void *data, size_t len);
PyObject *rows_told(const void *rows, size_t count, size_t size);
PyObject *flat_of(state *of, held *owner);
PyObject *flat_copied(state *of, const mvt_tile *tile);
mvt_tile tile_of_flat(const flat *rows);
extern PyMethodDef ROWS_CALLS[];

/* Tiles as plain objects. */
PyObject *tile_read(const state *of, const mvt_tile *tile);
extern PyMethodDef READING_CALLS[];

/* Values, and the numbers of what is written. What these raise is a TypeError, an OverflowError or a NoTile. */
PyObject *value_read(const state *of, const mvt_tile *tile, const mvt_value *row);
PyObject *text_read(const mvt_tile *tile, mvt_span span);
PyObject *encoded(const state *of, PyObject *text);
int value_given(const state *of, PyObject *value, mvt_any *out, PyObject **text);
int number_given(PyObject *given, uint64_t most, uint64_t *number);
int points_given(PyObject *given, void **points, size_t *count);
int integers_given(PyObject *given, void **integers, size_t *count);
PyObject *sequence_given(PyObject *given);
PyObject *item_of(PyObject *sequence, Py_ssize_t at);

/* A list that is filled again and again. */
typedef struct {
    void *items;
    size_t count, room;
} gathered;

/* A tile that is built. These add to it, or raise, with the place, and change nothing. */
typedef struct {
    const state *of;
    mvt_builder rows;
    PyObject *layer; /* the name of the layer that is begun, or NULL */
    uint64_t ended;  /* features of the layer before the one that is begun */
    int in_feature, kind, has_id;
    uint64_t id;
    gathered tags, parts, points, integers; /* of the feature that is begun */
} building;

int build_layer(building *to, PyObject *name, PyObject *extent);
int build_foreign(building *to, PyObject *version, PyObject *content);
int build_feature(building *to, PyObject *kind, PyObject *id);
int build_tag(building *to, PyObject *key, PyObject *value);
int build_drawn(building *to, int kind, int exterior, PyObject *given);
PyObject *build_rows(building *to);
PyObject *build_finish(building *to);
int build_at(building *to, PyObject *text, PyObject *value, uint32_t *index);
int build_tag_at(building *to, PyObject *key, PyObject *value);
int build_drop(building *to);
void build_end(building *to);

/* The canonical bytes of rows. */
PyObject *made_of_rows(const state *of, uint32_t status, mvt_bytes *out, const mvt_rows_fault *wrong);
extern PyMethodDef WRITING_CALLS[];

/* The member that lets weak references to an object be made. */
#define WEAK_MEMBER(structure)                                                                                         \
    { "__weaklistoffset__", T_PYSSIZET, offsetof(structure, weak), READONLY, NULL }

/* A function of Python that takes words and named words. */
#define WITH_WORDS(function) ((PyCFunction)(void (*)(void))(function)), METH_VARARGS | METH_KEYWORDS

#endif
