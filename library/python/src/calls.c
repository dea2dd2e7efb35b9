/* The calls of a tile's bytes, and what a status raises. */
#include "module.h"

/* Says of what has no bytes that it is a name, if it is one. */
static void say_if_name(PyObject *given) {
    PyObject *type, *value, *traceback;
    PyErr_Fetch(&type, &value, &traceback);
    const int is_name = PyUnicode_Check(given) || PyObject_HasAttrString(given, "__fspath__");
    PyErr_Restore(type, value, traceback);
    if (is_name && PyErr_ExceptionMatches(PyExc_TypeError))
        PyErr_SetString(PyExc_TypeError, "this takes the bytes of a tile, not its name: open(name, 'rb').read()");
}

/* The bytes of a tile: these themselves, or a copy of what else holds some, since others may change that meanwhile. */
PyObject *bytes_of(PyObject *tile) {
    if (PyBytes_Check(tile)) {
        Py_INCREF(tile);
        return tile;
    }
    PyObject *view = PyMemoryView_FromObject(tile);
    if (view == NULL) say_if_name(tile);
    PyObject *bytes = view == NULL ? NULL : PyBytes_FromObject(view);
    Py_XDECREF(view);
    return bytes;
}

/* What bytes hold. */
const uint8_t *content_of(PyObject *bytes, size_t *len) {
    *len = (size_t)PyBytes_Size(bytes);
    return (const uint8_t *)PyBytes_AsString(bytes);
}

static PyObject *number_or_none(int is_there, uint64_t number) {
    if (is_there) return PyLong_FromUnsignedLongLong(number);
    Py_INCREF(Py_None);
    return Py_None;
}

static PyObject *index_or_none(int64_t index) { return number_or_none(index >= 0, (uint64_t)index); }

static PyObject *text_or_none(int is_there, mvt_bytes text) {
    if (is_there)
        return PyUnicode_DecodeUTF8(text.len == 0 ? "" : (const char *)text.data, (Py_ssize_t)text.len, "replace");
    Py_INCREF(Py_None);
    return Py_None;
}

/* Whether mvt_mend may mend what is broken. */
static int is_curable(const mvt_fault *fault) {
    return fault->cause == MVT_CAUSE_ZERO_SEGMENT || fault->cause == MVT_CAUSE_FIRST_RING;
}

/* Raises a fault, with what the bytes that are at hand, all of the tile or its first, tell of its place. It holds the whole
 * tile where it may be asked whether that can be mended. */
static void raise_refused(const state *of, const mvt_fault *fault, const uint8_t *bytes, size_t len, uint64_t size,
                          PyObject *whole) {
    mvt_place place = {0};
    mvt_locate(bytes, len, fault, &place);
    const int has_place = len != 0 && whole != NULL;
    PyObject *why = PyObject_CallFunction(of->refused, "NNKks#sNNNN", index_or_none(fault->layer),
                                          index_or_none(fault->feature), (unsigned long long)fault->at,
                                          (unsigned long)fault->cause, (const char *)fault->name.data,
                                          (Py_ssize_t)fault->name.len, mvt_explain_head(bytes, len, size, fault),
                                          text_or_none(place.has_layer_name != 0, place.layer_name),
                                          number_or_none(place.has_feature_id != 0, place.feature_id),
                                          number_or_none(has_place, place.start), number_or_none(has_place, place.end));
    const int is_held = why != NULL && whole != NULL && is_curable(fault);
    if (why != NULL && (!is_held || PyObject_SetAttrString(why, "_tile", whole) == 0))
        PyErr_SetObject(of->refused, why);
    Py_XDECREF(why);
}

/* Raises what a status other than MVT_OK means: 0, or -1 with an error. The bytes are those of the whole tile, if that is given,
 * and else all of a tile or its first. */
int raise_for(const state *of, uint32_t status, const mvt_fault *fault, const uint8_t *bytes, size_t len,
              PyObject *whole) {
    switch (status) {
    case MVT_OK: return 0;
    case MVT_REFUSED: raise_refused(of, fault, bytes, len, len, whole); break;
    case MVT_NO_MEMORY: PyErr_SetString(PyExc_MemoryError, "out of memory"); break;
    case MVT_TOO_LARGE: PyErr_SetString(of->too_large, mvt_status_text(status)); break;
    default: PyErr_SetString(of->error, mvt_status_text(status)); break;
    }
    return -1;
}

/* The same of a tile of `size` bytes, of which these are the first. */
int raise_for_head(const state *of, uint32_t status, const mvt_fault *fault, const uint8_t *head, size_t len,
                   uint64_t size) {
    if (status != MVT_REFUSED) return raise_for(of, status, fault, head, len, NULL);
    raise_refused(of, fault, head, len, size, NULL);
    return -1;
}

static int set_number(PyObject *object, const char *name, PyObject *number) {
    const int status = number == NULL ? -1 : PyObject_SetAttrString(object, name, number);
    Py_XDECREF(number);
    return status;
}

/* Raises what is wrong with rows that are no valid tile. */
int raise_no_tile(const state *of, const mvt_rows_fault *wrong) {
    const int has_rule = wrong->rule != 0;
    const char *said = has_rule ? mvt_cause_text(wrong->rule) : mvt_rows_cause_text(wrong->cause);
    char feature[32] = "", part[32] = "", point[32] = "";
    if (wrong->has_feature) snprintf(feature, sizeof feature, " feature %llu", (unsigned long long)wrong->feature);
    if (has_rule) snprintf(part, sizeof part, " part %llu", (unsigned long long)wrong->part);
    if (wrong->has_point) snprintf(point, sizeof point, " point %llu", (unsigned long long)wrong->point);
    PyObject *told =
        PyUnicode_FromFormat("layer %llu%s%s%s: %s", (unsigned long long)wrong->layer, feature, part, point, said);
    PyObject *why = told == NULL ? NULL : PyObject_CallFunctionObjArgs(of->no_tile, told, NULL);
    if (why != NULL && set_number(why, "layer", PyLong_FromUnsignedLongLong(wrong->layer)) == 0 &&
        set_number(why, "feature", number_or_none(wrong->has_feature != 0, wrong->feature)) == 0 &&
        set_number(why, "cause", PyLong_FromUnsignedLong(wrong->cause)) == 0 &&
        set_number(why, "rule", number_or_none(has_rule, wrong->rule)) == 0 &&
        set_number(why, "part", number_or_none(has_rule, wrong->part)) == 0 &&
        set_number(why, "point", number_or_none(wrong->has_point != 0, wrong->point)) == 0)
        PyErr_SetObject(of->no_tile, why);
    Py_XDECREF(why);
    Py_XDECREF(told);
    return -1;
}

static PyObject *judge(PyObject *module, PyObject *words, PyObject *named) {
    static char *known[] = {"tile", NULL};
    PyObject *given;
    if (!PyArg_ParseTupleAndKeywords(words, named, "O:judge", known, &given)) return NULL;
    PyObject *tile = bytes_of(given);
    if (tile == NULL) return NULL;
    mvt_fault fault = {0};
    size_t len;
    const uint8_t *bytes = content_of(tile, &len);
    uint32_t status;
    Py_BEGIN_ALLOW_THREADS status = mvt_judge(bytes, len, &fault);
    Py_END_ALLOW_THREADS const int failed = raise_for(state_of_module(module), status, &fault, bytes, len, tile);
    Py_DECREF(tile);
    return failed ? NULL : number_or_none(0, 0);
}

/* A call that makes bytes of a tile. */
typedef mvt_status making(const uint8_t *bytes, size_t len, mvt_bytes *out, mvt_fault *fault);

/* What is handed out of the bytes that it made. */
typedef PyObject *handing(state *of, mvt_bytes *made);

static PyObject *as_bytes(state *of, mvt_bytes *made) {
    (void)of;
    return PyBytes_FromStringAndSize((const char *)made->data, (Py_ssize_t)made->len);
}

static PyObject *as_text(state *of, mvt_bytes *made) {
    (void)of;
    return text_or_none(1, *made);
}

/* The bytes themselves, which are taken over. */
static PyObject *as_lent(state *of, mvt_bytes *made) {
    held *owner = new_held(of);
    if (owner == NULL) return NULL;
    owner->tile.texts = made->data, owner->tile.text_len = made->len;
    *made = (mvt_bytes){NULL, 0};
    PyObject *lent = lent_of(of, (PyObject *)owner, owner->tile.texts, owner->tile.text_len);
    Py_DECREF(owner);
    return lent;
}

/* What a call makes of the tile that is the one word. */
static PyObject *made_of(PyObject *module, PyObject *words, PyObject *named, making *call, handing *as) {
    static char *known[] = {"tile", NULL};
    PyObject *given;
    if (!PyArg_ParseTupleAndKeywords(words, named, "O", known, &given)) return NULL;
    PyObject *tile = bytes_of(given), *made = NULL;
    if (tile == NULL) return NULL;
    mvt_bytes out = {NULL, 0};
    mvt_fault fault = {0};
    size_t len;
    const uint8_t *bytes = content_of(tile, &len);
    uint32_t status;
    Py_BEGIN_ALLOW_THREADS status = call(bytes, len, &out, &fault);
    Py_END_ALLOW_THREADS if (raise_for(state_of_module(module), status, &fault, bytes, len, tile) == 0) made =
        as(state_of_module(module), &out);
    mvt_bytes_free(&out);
    Py_DECREF(tile);
    return made;
}

static PyObject *rewrite(PyObject *module, PyObject *words, PyObject *named) {
    return made_of(module, words, named, mvt_rewrite, as_bytes);
}
static PyObject *report_lines(PyObject *module, PyObject *words, PyObject *named) {
    return made_of(module, words, named, mvt_report, as_text);
}
static PyObject *to_json(PyObject *module, PyObject *words, PyObject *named) {
    return made_of(module, words, named, mvt_json, as_text);
}
static PyObject *to_svg(PyObject *module, PyObject *words, PyObject *named) {
    return made_of(module, words, named, mvt_svg, as_text);
}
static PyObject *json_lent(PyObject *module, PyObject *words, PyObject *named) {
    return made_of(module, words, named, mvt_json, as_lent);
}
static PyObject *svg_lent(PyObject *module, PyObject *words, PyObject *named) {
    return made_of(module, words, named, mvt_svg, as_lent);
}

/* The bytes of each name, of a list of names. */
static PyObject *encoded_names(PyObject *names) {
    if (PyUnicode_Check(names)) {
        PyErr_SetString(PyExc_TypeError, "names is a list of names, and not one name");
        return NULL;
    }
    PyObject *list = PySequence_List(names);
    const Py_ssize_t count = list == NULL ? 0 : PyList_Size(list);
    for (Py_ssize_t at = 0; list != NULL && at < count; ++at) {
        PyObject *bytes = PyUnicode_AsUTF8String(PyList_GetItem(list, at));
        if (bytes == NULL || PyList_SetItem(list, at, bytes) < 0) Py_CLEAR(list);
    }
    return list;
}

/* The list of names as the library takes it, in memory that PyMem_Free gives back. */
static mvt_bytes *names_lent(PyObject *list) {
    const Py_ssize_t count = PyList_Size(list);
    mvt_bytes *names = PyMem_Malloc((size_t)count * sizeof *names);
    if (names == NULL) return PyErr_NoMemory(), NULL;
    for (Py_ssize_t at = 0; at < count; ++at) names[at].data = content_of(PyList_GetItem(list, at), &names[at].len);
    return names;
}

/* Layers by the bytes of their names. */
static PyObject *extract_from(const state *of, PyObject *tile, PyObject *list, const mvt_bytes *names) {
    mvt_bytes out = {NULL, 0};
    mvt_fault fault = {0};
    size_t len, missing = 0;
    const size_t count = (size_t)PyList_Size(list);
    const uint8_t *bytes = content_of(tile, &len);
    uint32_t status;
    Py_BEGIN_ALLOW_THREADS status = mvt_extract(bytes, len, names, count, &out, &fault, &missing);
    Py_END_ALLOW_THREADS PyObject *made = NULL;
    if (status == MVT_NO_LAYER) {
        PyObject *name = text_or_none(1, names[missing]);
        PyObject *why = name == NULL ? NULL : PyObject_CallFunctionObjArgs(of->no_layer, name, NULL);
        if (why != NULL) PyErr_SetObject(of->no_layer, why);
        Py_XDECREF(why);
        Py_XDECREF(name);
    } else if (raise_for(of, status, &fault, bytes, len, tile) == 0) {
        made = PyBytes_FromStringAndSize((const char *)out.data, (Py_ssize_t)out.len);
    }
    mvt_bytes_free(&out);
    return made;
}

static PyObject *extract(PyObject *module, PyObject *words, PyObject *named) {
    static char *known[] = {"tile", "names", NULL};
    PyObject *given, *names_given;
    if (!PyArg_ParseTupleAndKeywords(words, named, "OO:extract", known, &given, &names_given)) return NULL;
    PyObject *tile = bytes_of(given), *made = NULL;
    PyObject *list = tile == NULL ? NULL : encoded_names(names_given);
    mvt_bytes *names = list == NULL ? NULL : names_lent(list);
    if (names != NULL) made = extract_from(state_of_module(module), tile, list, names);
    PyMem_Free(names);
    Py_XDECREF(list);
    Py_XDECREF(tile);
    return made;
}

static PyObject *version(PyObject *module, PyObject *unused) {
    (void)module, (void)unused;
    return PyUnicode_FromString(mvt_version());
}

#define OF_TILE(name) #name "($module, /, tile)\n--\n\n"

PyMethodDef CALLS[] = {
    {"judge", WITH_WORDS(judge),
     OF_TILE(
         judge) "Raises Refused where the bytes are no tile. Makes nothing of them, so it is the fastest way to know."},
    {"rewrite", WITH_WORDS(rewrite),
     OF_TILE(rewrite) "The canonical bytes of a tile: equal tiles have equal bytes. Raises Refused and TooLarge."},
    {"extract", WITH_WORDS(extract),
     "extract($module, /, tile, names)\n--\n\n"
     "The canonical bytes of the named layers, in the order of the tile.\n\n"
     "A name that stands twice counts once. Raises NoLayer where a name has no layer, Refused and TooLarge."},
    {"report_lines", WITH_WORDS(report_lines),
     OF_TILE(report_lines) "What `mvt check` prints of a tile. Raises Refused."},
    {"to_json", WITH_WORDS(to_json), OF_TILE(to_json) "A tile as JSON, in one line. Raises Refused."},
    {"json_lent", WITH_WORDS(json_lent),
     OF_TILE(json_lent) "The same in UTF-8, as a buffer over the library's memory."},
    {"to_svg", WITH_WORDS(to_svg), OF_TILE(to_svg) "A picture of a tile in SVG. Raises Refused."},
    {"svg_lent", WITH_WORDS(svg_lent), OF_TILE(svg_lent) "The same in UTF-8, as a buffer over the library's memory."},
    {"version", version, METH_NOARGS,
     "version($module)\n--\n\nThe version of the library, which is that of this module."},
    {NULL, NULL, 0, NULL},
};
