/* A tile that is built: what Python gives is made numbers and texts first, so that what can't be taken is raised before
 * anything is added. A feature is gathered here, and handed to the library's builder as one. */
#include "module.h"

static int raise_status(const building *to, uint32_t status) { return raise_for(to->of, status, NULL, NULL, 0, NULL); }

/* Raises that a call isn't due. */
static int not_due(const building *to, const char *why) {
    PyErr_SetString(to->of->error, why);
    return -1;
}

static int need_layer(const building *to) { return to->layer == NULL ? not_due(to, "begin a layer first") : 0; }

static int need_feature(const building *to, int kind) {
    if (!to->in_feature) return not_due(to, "begin a feature first");
    if (kind < 0 || kind == to->kind) return 0;
    PyErr_Format(to->of->error, "the feature is one of %U", to->of->kinds[to->kind]);
    return -1;
}

/* Takes the error that is raised, as what it is raised again as: a NoTile, an OutOfRange or a TypeError. NULL where it
 * is another, which stays. */
static PyObject *error_taken(const state *of, PyObject **class) {
    if (PyErr_ExceptionMatches(PyExc_OverflowError)) {
        *class = of->out_of_range;
    } else if (PyErr_ExceptionMatches(of->no_tile)) {
        *class = of->no_tile;
    } else if (PyErr_ExceptionMatches(PyExc_TypeError)) {
        *class = PyExc_TypeError;
    } else {
        return NULL;
    }
    PyObject *type, *value, *traceback;
    PyErr_Fetch(&type, &value, &traceback);
    PyErr_NormalizeException(&type, &value, &traceback);
    PyObject *told = value == NULL ? NULL : PyObject_Str(value);
    Py_XDECREF(type);
    Py_XDECREF(value);
    Py_XDECREF(traceback);
    return told;
}

/* Raises the error again, with the place: the layer, by a name or a version, the feature, whose number is -1 where there is
 * none, and what of it, with its name where it has one. Errors and names tell themselves, and may end the layer meanwhile. */
static int raise_at(const building *to, const char *layer, PyObject *called, int64_t feature, const char *what,
                    PyObject *name) {
    Py_INCREF(called);
    PyObject *class = NULL, *told = error_taken(to->of, &class), *quoted = NULL;
    char number[32] = "";
    if (feature >= 0) snprintf(number, sizeof number, ", feature %lld", (long long)feature);
    if (told != NULL && name != NULL) quoted = PyObject_Repr(name);
    if (told != NULL && (name == NULL || quoted != NULL))
        PyErr_Format(class, "%s %R%s%s%s%s%V: %U", layer, called, number, what[0] == '\0' ? "" : ", ", what,
                     name == NULL ? "" : " ", quoted, "", told);
    Py_XDECREF(quoted);
    Py_XDECREF(told);
    Py_DECREF(called);
    return -1;
}

/* In a feature of the layer. Where what was given has ended the layer, that is what is raised. */
static int raise_in(const building *to, int64_t feature, const char *what, PyObject *name) {
    return need_layer(to) < 0 ? -1 : raise_at(to, "layer", to->layer, feature, what, name);
}

/* In the layer, and the feature if one is begun. */
static int raise_here(const building *to, const char *what, PyObject *name) {
    return raise_in(to, to->in_feature ? (int64_t)to->ended : -1, what, name);
}

/* What is gathered */

/* Room for so many more items at the end of a list; NULL with an error where there is none. */
static void *more(gathered *list, size_t size, size_t count) {
    if (list->room - list->count < count) {
        const size_t room = list->count + count + list->room / 2 + 8;
        void *items = PyMem_Realloc(list->items, room * size);
        if (items == NULL) return PyErr_NoMemory();
        list->items = items, list->room = room;
    }
    list->count += count;
    return (char *)list->items + (list->count - count) * size;
}

static int gather(gathered *list, size_t size, const void *items, size_t count) {
    void *to = count == 0 ? NULL : more(list, size, count);
    if (to != NULL) memcpy(to, items, count * size);
    return count == 0 || to != NULL ? 0 : -1;
}

/* Adds to the geometry: integers, or points, which begin a part, but for the points of a feature of points. */
static int gather_drawn(building *to, uint32_t exterior, const void *items, size_t count) {
    if (to->kind == MVT_UNKNOWN) return gather(&to->integers, sizeof(uint32_t), items, count);
    if (to->kind == MVT_POINTS && count == 0) return 0;
    if (to->kind != MVT_POINTS || to->parts.count == 0) {
        const mvt_part part = {exterior, {to->points.count, 0}};
        if (gather(&to->parts, sizeof part, &part, 1) < 0) return -1;
    }
    mvt_part *last = (mvt_part *)to->parts.items + to->parts.count - 1;
    if (gather(&to->points, sizeof(mvt_point), items, count) < 0) {
        to->parts.count -= last->points.len == 0;
        return -1;
    }
    last->points.len += count;
    return 0;
}

/* Hands over the feature that is gathered, if there is one, or nothing of it. What fails is told by the calls after it. */
static uint32_t end_feature(building *to) {
    const uint64_t *id = to->has_id ? &to->id : NULL;
    const uint32_t *tags = to->tags.items;
    uint32_t status = MVT_OK;
    if (!to->in_feature) return status;
    if (to->kind != MVT_UNKNOWN) {
        status = mvt_builder_add(&to->rows, (mvt_kind)to->kind, id, tags, to->tags.count, to->parts.items,
                                 to->parts.count, to->points.items, to->points.count);
    } else {
        status = mvt_builder_feature(&to->rows, MVT_UNKNOWN);
        if (id != NULL) status = mvt_builder_id(&to->rows, *id);
        for (size_t at = 0; at < to->tags.count; at += 2)
            status = mvt_builder_tag_at(&to->rows, tags[at], tags[at + 1]);
        if (to->integers.count != 0) status = mvt_builder_integers(&to->rows, to->integers.items, to->integers.count);
    }
    to->in_feature = 0, to->ended += 1;
    return status;
}

/* Layers, keys and values */

/* Begins a layer, or none. */
static void begin_layer(building *to, PyObject *name) {
    PyObject *before = to->layer;
    Py_XINCREF(name);
    to->layer = name, to->ended = 0, to->in_feature = 0;
    Py_XDECREF(before);
}

int build_layer(building *to, PyObject *name, PyObject *extent) {
    uint64_t told = 4096;
    PyObject *bytes = encoded(to->of, name);
    if (bytes == NULL || (extent != NULL && number_given(extent, UINT32_MAX, &told) < 0)) {
        Py_XDECREF(bytes);
        return raise_at(to, "layer", name, -1, "", NULL);
    }
    mvt_bytes lent;
    lent.data = content_of(bytes, &lent.len);
    end_feature(to);
    const int status = raise_status(to, mvt_builder_layer(&to->rows, lent, (uint32_t)told));
    if (status == 0) begin_layer(to, name);
    Py_DECREF(bytes);
    return status;
}

int build_foreign(building *to, PyObject *version, PyObject *content) {
    uint64_t told;
    PyObject *bytes = number_given(version, UINT32_MAX, &told) < 0 ? NULL : bytes_of(content);
    if (bytes == NULL) return raise_at(to, "layer of version", version, -1, "", NULL);
    mvt_bytes lent;
    lent.data = content_of(bytes, &lent.len);
    int status = -1;
    if (told == 2) {
        PyErr_SetString(to->of->no_tile, "a layer of version 2 isn't made of bytes");
    } else {
        end_feature(to);
        status = raise_status(to, mvt_builder_foreign(&to->rows, (uint32_t)told, lent));
    }
    if (status == 0) begin_layer(to, NULL);
    Py_DECREF(bytes);
    return status;
}

/* The index of a key, which is a text, or of a value; one of the two is NULL. */
int build_at(building *to, PyObject *text, PyObject *value, uint32_t *index) {
    if (need_layer(to) < 0) return -1;
    mvt_any any = {0};
    PyObject *bytes = NULL;
    if (text != NULL) {
        bytes = encoded(to->of, text);
        if (bytes == NULL) return raise_here(to, "key", text);
        any.text.data = content_of(bytes, &any.text.len);
    } else if (value_given(to->of, value, &any, &bytes) < 0) {
        return raise_here(to, "", NULL);
    }
    int status = need_layer(to);
    if (status == 0)
        status = raise_status(to, text != NULL ? mvt_builder_key(&to->rows, any.text, index)
                                               : mvt_builder_value(&to->rows, any, index));
    Py_XDECREF(bytes);
    return status;
}

/* Features */

static int kind_given(const building *to, PyObject *kind) {
    for (int at = 0; at < 4; ++at)
        if (kind == to->of->kinds[at]) return at;
    for (int at = 0; at < 4; ++at) {
        const int is_one = PyObject_RichCompareBool(kind, to->of->kinds[at], Py_EQ);
        if (is_one != 0) return is_one < 0 ? -1 : at;
    }
    PyErr_Format(to->of->no_tile, "%R is no kind of geometry", kind);
    return -1;
}

int build_feature(building *to, PyObject *kind_named, PyObject *id) {
    if (need_layer(to) < 0) return -1;
    uint64_t number = 0;
    const int kind = kind_given(to, kind_named);
    const int is_wrong = kind < 0 || (id != Py_None && number_given(id, UINT64_MAX, &number) < 0);
    if (is_wrong) return raise_in(to, (int64_t)to->ended + to->in_feature, kind < 0 ? "" : "id", NULL);
    if (need_layer(to) < 0) return -1;
    const uint32_t status = end_feature(to);
    if (status != MVT_OK) return raise_status(to, status);
    to->tags.count = to->parts.count = to->points.count = to->integers.count = 0;
    to->in_feature = 1, to->kind = kind, to->has_id = id != Py_None, to->id = number;
    return 0;
}

int build_tag(building *to, PyObject *key, PyObject *value) {
    if (need_layer(to) < 0 || need_feature(to, -1) < 0) return -1;
    mvt_any any;
    mvt_bytes lent;
    uint32_t pair[2];
    PyObject *text, *bytes = NULL;
    if (value_given(to->of, value, &any, &text) == 0) bytes = encoded(to->of, key);
    int status;
    if (bytes == NULL) {
        status = raise_here(to, "key", key);
    } else {
        lent.data = content_of(bytes, &lent.len);
        status = need_feature(to, -1);
        if (status == 0) status = raise_status(to, mvt_builder_key(&to->rows, lent, &pair[0]));
        if (status == 0) status = raise_status(to, mvt_builder_value(&to->rows, any, &pair[1]));
        if (status == 0) status = gather(&to->tags, sizeof *pair, pair, 2);
    }
    Py_XDECREF(bytes);
    Py_XDECREF(text);
    return status;
}

int build_tag_at(building *to, PyObject *key, PyObject *value) {
    if (need_feature(to, -1) < 0) return -1;
    uint64_t key_at, value_at;
    if (number_given(key, UINT32_MAX, &key_at) < 0 || number_given(value, UINT32_MAX, &value_at) < 0)
        return raise_here(to, "", NULL);
    const uint32_t pair[] = {(uint32_t)key_at, (uint32_t)value_at};
    return need_feature(to, -1) < 0 ? -1 : gather(&to->tags, sizeof *pair, pair, 2);
}

/* Points, a line, a ring, or integers of a feature of this kind. */
int build_drawn(building *to, int kind, int exterior, PyObject *given) {
    if (need_feature(to, kind) < 0) return -1;
    void *items;
    size_t count;
    if ((kind == MVT_UNKNOWN ? integers_given : points_given)(given, &items, &count) < 0)
        return raise_here(to, "geometry", NULL);
    int status = need_feature(to, kind);
    if (status == 0) status = gather_drawn(to, exterior != 0, items, count);
    PyMem_Free(items);
    return status;
}

int build_drop(building *to) {
    if (need_feature(to, -1) < 0) return -1;
    to->in_feature = 0;
    return 0;
}

/* The rows of the tile so far, which are copied before the layer ends: its name's end may call the builder. */
PyObject *build_rows(building *to) {
    mvt_tile rows;
    end_feature(to);
    if (raise_status(to, mvt_builder_rows(&to->rows, &rows)) < 0) return NULL;
    PyObject *copied = flat_copied((state *)to->of, &rows);
    begin_layer(to, NULL);
    return copied;
}

/* The canonical bytes. The builder begins anew, whatever comes of it; what another thread adds meanwhile is of the next
 * tile. */
PyObject *build_finish(building *to) {
    end_feature(to);
    mvt_builder last = to->rows;
    mvt_bytes out = {NULL, 0};
    mvt_rows_fault wrong = {0};
    uint32_t status;
    to->rows.held = NULL;
    begin_layer(to, NULL);
    Py_BEGIN_ALLOW_THREADS status = mvt_builder_finish(&last, &out, &wrong);
    Py_END_ALLOW_THREADS return made_of_rows(to->of, status, &out, &wrong);
}

void build_end(building *to) {
    mvt_builder_free(&to->rows);
    PyMem_Free(to->tags.items);
    PyMem_Free(to->parts.items);
    PyMem_Free(to->points.items);
    PyMem_Free(to->integers.items);
    Py_CLEAR(to->layer);
}
