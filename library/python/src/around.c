/* What there is round the fault of a refused tile, as tuples and as the bytes of rows. */
#include "module.h"

static PyObject *bounds_told(mvt_bounds of) {
    return Py_BuildValue("(KKK)", (unsigned long long)of.start, (unsigned long long)of.body,
                         (unsigned long long)of.end);
}

static PyObject *none(void) {
    Py_INCREF(Py_None);
    return Py_None;
}

static PyObject *bounds_or_none(uint32_t is_there, mvt_bounds of) { return is_there ? bounds_told(of) : none(); }

static PyObject *number_or_none(uint32_t is_there, uint64_t number) {
    return is_there ? PyLong_FromUnsignedLongLong(number) : none();
}

static PyObject *surroundings_told(const mvt_surroundings *of) {
    return Py_BuildValue("(NNNNNkNNNNN)", bounds_or_none(of->has_layer, of->layer),
                         number_or_none(of->has_extent, of->extent), bounds_or_none(of->has_feature, of->feature),
                         number_or_none(of->has_kind, of->kind), bounds_told(of->message), (unsigned long)of->list,
                         rows_told(of->keys, of->key_count, sizeof *of->keys),
                         rows_told(of->tags, of->tag_count, sizeof *of->tags),
                         rows_told(of->geometry, of->geometry_count, sizeof *of->geometry),
                         rows_told(of->steps, of->step_count, sizeof *of->steps),
                         rows_told(of->fields, of->field_count, sizeof *of->fields));
}

static PyObject *around_rows(PyObject *module, PyObject *words) {
    PyObject *given;
    long long layer, feature;
    unsigned long long at;
    unsigned long cause;
    if (!PyArg_ParseTuple(words, "O(LLKk):around_rows", &given, &layer, &feature, &at, &cause)) return NULL;
    PyObject *tile = bytes_of(given), *told = NULL;
    if (tile == NULL) return NULL;
    const mvt_fault fault = {layer, feature, at, (uint32_t)cause, {NULL, 0}};
    mvt_surroundings out = {0};
    size_t len;
    const uint8_t *bytes = content_of(tile, &len);
    uint32_t status;
    Py_BEGIN_ALLOW_THREADS status = mvt_around(bytes, len, &fault, &out);
    Py_END_ALLOW_THREADS if (raise_for(state_of_module(module), status, &fault, bytes, len, tile) == 0) told =
        surroundings_told(&out);
    mvt_surroundings_free(&out);
    Py_DECREF(tile);
    return told;
}

PyMethodDef AROUND_CALLS[] = {
    {"around_rows", around_rows, METH_VARARGS,
     "around_rows($module, tile, fault, /)\n--\n\n"
     "What mvt_around tells of a fault: the bounds of its layer, the extent, those of its feature, the type, those of the\n"
     "message, the field whose integers are counted, and the rows of keys, tags, geometry, steps and fields as bytes."},
    {NULL, NULL, 0, NULL},
};
