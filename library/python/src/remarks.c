/* What is noted and found of a tile, what is mended, what refused bytes look like, and what the numbers of causes, notes and findings mean. */
#include "module.h"

static PyObject *note_told(const void *notes, size_t at) {
    const mvt_note_row *row = (const mvt_note_row *)notes + at;
    return Py_BuildValue("(kkKKKK)", (unsigned long)row->kind, (unsigned long)row->version,
                         (unsigned long long)row->layer, (unsigned long long)row->feature,
                         (unsigned long long)row->ring, (unsigned long long)row->earlier);
}

static PyObject *finding_told(const void *findings, size_t at) {
    const mvt_finding_row *row = (const mvt_finding_row *)findings + at;
    return Py_BuildValue("(kNKKKii)", (unsigned long)row->kind, PyBool_FromLong(row->has_feature == 1),
                         (unsigned long long)row->layer, (unsigned long long)row->feature,
                         (unsigned long long)row->attribute, (int)row->x, (int)row->y);
}

/* A list of what is told of each row. */
static PyObject *tuples_told(const void *rows, size_t count, PyObject *(*told)(const void *, size_t)) {
    PyObject *list = PyList_New((Py_ssize_t)count);
    for (size_t at = 0; list != NULL && at < count; ++at) {
        PyObject *one = told(rows, at);
        if (one == NULL || PyList_SetItem(list, (Py_ssize_t)at, one) < 0) Py_CLEAR(list);
    }
    return list;
}

/* What a call puts out of a tile, with the lock let go. */
typedef struct {
    mvt_summary summary;
    mvt_findings findings;
} remarks;

enum { NOTES = 1, FINDINGS = 2 };

static uint32_t look(int what, const uint8_t *bytes, size_t len, remarks *out, mvt_fault *fault) {
    uint32_t status = MVT_OK;
    Py_BEGIN_ALLOW_THREADS if (what & NOTES) status = mvt_survey(bytes, len, &out->summary, fault);
    if (status == MVT_OK && what & FINDINGS) status = mvt_lint_rows(bytes, len, &out->findings, fault);
    Py_END_ALLOW_THREADS return status;
}

/* What `tell` makes of the remarks on the tile that is given; NULL with an error where it is refused. */
static PyObject *looked(PyObject *module, PyObject *given, int what, PyObject *(*tell)(const remarks *)) {
    PyObject *tile = bytes_of(given), *told = NULL;
    if (tile == NULL) return NULL;
    remarks out;
    memset(&out, 0, sizeof out);
    mvt_fault fault = {0};
    size_t len;
    const uint8_t *bytes = content_of(tile, &len);
    const uint32_t status = look(what, bytes, len, &out, &fault);
    if (raise_for(state_of_module(module), status, &fault, bytes, len, tile) == 0) told = tell(&out);
    mvt_summary_free(&out.summary);
    mvt_findings_free(&out.findings);
    Py_DECREF(tile);
    return told;
}

static PyObject *findings_told(const remarks *of) {
    return rows_told(of->findings.rows, of->findings.count, sizeof *of->findings.rows);
}

/* So many notes are told of a tile in brief. Kinds are below MOST_KINDS. */
enum { MOST_NOTES = 50, MOST_KINDS = 32 };

static uint32_t kind_of_note(const void *notes, size_t at) {
    return ((const mvt_note_row *)notes)[at].kind % MOST_KINDS;
}
static uint32_t kind_of_finding(const void *rows, size_t at) {
    return ((const mvt_finding_row *)rows)[at].kind % MOST_KINDS;
}

/* A list of pairs: of each kind, in the order of its first row, how many rows there are, and what is told of the first. */
static PyObject *kinds_told(const void *rows, size_t count, uint32_t (*kind)(const void *, size_t),
                            PyObject *(*told)(const void *, size_t)) {
    size_t counts[MOST_KINDS] = {0}, order[MOST_KINDS], kinds = 0;
    for (size_t at = 0; at < count; ++at)
        if (counts[kind(rows, at)]++ == 0) order[kinds++] = at;
    PyObject *list = PyList_New((Py_ssize_t)kinds);
    for (size_t i = 0; list != NULL && i < kinds; ++i) {
        PyObject *first = told(rows, order[i]);
        PyObject *pair = first == NULL ? NULL : Py_BuildValue("(nN)", (Py_ssize_t)counts[kind(rows, order[i])], first);
        if (pair == NULL || PyList_SetItem(list, (Py_ssize_t)i, pair) < 0) Py_CLEAR(list);
    }
    return list;
}

static PyObject *brief_told(const remarks *of) {
    const mvt_summary *summary = &of->summary;
    if (summary->note_count == 0 && of->findings.count == 0) {
        Py_INCREF(Py_None);
        return Py_None;
    }
    PyObject *told = PyTuple_New(3);
    for (Py_ssize_t i = 0; told != NULL && i < 3; ++i) {
        PyObject *part =
            i == 0   ? kinds_told(summary->notes, summary->note_count, kind_of_note, note_told)
            : i == 1 ? tuples_told(summary->notes, summary->note_count < MOST_NOTES ? summary->note_count : MOST_NOTES,
                                   note_told)
                     : kinds_told(of->findings.rows, of->findings.count, kind_of_finding, finding_told);
        if (part == NULL || PyTuple_SetItem(told, i, part) < 0) Py_CLEAR(told);
    }
    return told;
}

static PyObject *survey_told(const remarks *of) {
    const mvt_summary *told = &of->summary;
    return Py_BuildValue("(KKNN)", (unsigned long long)told->layers, (unsigned long long)told->features,
                         PyBool_FromLong(told->is_canonical == 1),
                         rows_told(told->notes, told->note_count, sizeof *told->notes));
}

static PyObject *survey_rows(PyObject *module, PyObject *given) { return looked(module, given, NOTES, survey_told); }
static PyObject *lint_rows(PyObject *module, PyObject *given) { return looked(module, given, FINDINGS, findings_told); }
static PyObject *looked_at(PyObject *module, PyObject *given) {
    return looked(module, given, NOTES | FINDINGS, brief_told);
}

static PyObject *mend_rows(PyObject *module, PyObject *given) {
    PyObject *tile = bytes_of(given), *told = NULL;
    if (tile == NULL) return NULL;
    mvt_mended out = {0};
    mvt_fault fault = {0};
    size_t len;
    const uint8_t *bytes = content_of(tile, &len);
    uint32_t status;
    Py_BEGIN_ALLOW_THREADS status = mvt_mend(bytes, len, &out, &fault, NULL);
    Py_END_ALLOW_THREADS if (raise_for(state_of_module(module), status, &fault, bytes, len, tile) == 0) told =
        Py_BuildValue("(NN)", rows_told(out.bytes.data, out.bytes.len, 1),
                      rows_told(out.changes, out.change_count, sizeof *out.changes));
    mvt_mended_free(&out);
    Py_DECREF(tile);
    return told;
}

static PyObject *text_of(PyObject *number, const char *(*text)(uint32_t)) {
    uint64_t told;
    return number_given(number, UINT32_MAX, &told) < 0 ? NULL : PyUnicode_FromString(text((uint32_t)told));
}

static PyObject *lookalike(PyObject *module, PyObject *given) {
    (void)module;
    PyObject *tile = bytes_of(given);
    if (tile == NULL) return NULL;
    size_t len;
    const uint8_t *bytes = content_of(tile, &len);
    const int kind = mvt_looks_like(bytes, len);
    Py_DECREF(tile);
    return PyLong_FromLong(kind);
}

static PyObject *cause_text(PyObject *module, PyObject *number) {
    return (void)module, text_of(number, mvt_cause_text);
}
static PyObject *note_text(PyObject *module, PyObject *number) { return (void)module, text_of(number, mvt_note_text); }
static PyObject *finding_text(PyObject *module, PyObject *number) {
    return (void)module, text_of(number, mvt_finding_text);
}

PyMethodDef REMARKS_CALLS[] = {
    {"survey_rows", survey_rows, METH_O,
     "survey_rows($module, tile, /)\n--\n\n"
     "How many layers and features there are, whether the bytes are canonical, and the rows of the notes (mvt_note_row) as\n"
     "bytes. Raises Refused."},
    {"lint_rows", lint_rows, METH_O,
     "lint_rows($module, tile, /)\n--\n\n"
     "The rows of the findings (mvt_finding_row) as bytes. Raises Refused."},
    {"looked_at", looked_at, METH_O,
     "looked_at($module, tile, /)\n--\n\n"
     "Of each kind of note how many there are, and the first; the first 50 notes; and of each kind of finding how many there\n"
     "are, and the first. None where there is neither, as with most tiles. Raises Refused."},
    {"mend_rows", mend_rows, METH_O,
     "mend_rows($module, tile, /)\n--\n\n"
     "The canonical bytes of the tile, mended, and the rows of the changes (mvt_change_row) as bytes. Raises Refused and\n"
     "TooLarge."},
    {"lookalike", lookalike, METH_O,
     "lookalike($module, tile, /)\n--\n\nThe number of what refused bytes look like, or 0 if they may be meant as a tile."},
    {"cause_text", cause_text, METH_O,
     "cause_text($module, cause, /)\n--\n\nWhat the number of a cause means, in a sentence or two."},
    {"note_text", note_text, METH_O,
     "note_text($module, note, /)\n--\n\nWhat the number of a note means, in a sentence."},
    {"finding_text", finding_text, METH_O,
     "finding_text($module, finding, /)\n--\n\nWhat the number of a finding means, and what happens in which viewer."},
    {NULL, NULL, 0, NULL},
};
