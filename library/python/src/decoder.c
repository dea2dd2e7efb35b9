/* The class Decoder. */
#include "module.h"

typedef struct {
    PyObject_HEAD PyObject *weak;
    state *of;
    mvt_decoder decoder;
    PyThread_type_lock turn;
    /* The first bytes, to recognise what isn't a tile, as in each language: `known` of `size`, in memory for `room`. */
    uint8_t *head;
    size_t known, room;
    uint64_t size;
} decoder;

static PyObject *decoder_new(PyTypeObject *type, PyObject *words, PyObject *named) {
    (void)words, (void)named;
    state *of = state_of_type(type);
    decoder *made = of == NULL ? NULL : (decoder *)allocated((PyObject *)type);
    if (made == NULL) return NULL;
    made->of = of, made->turn = PyThread_allocate_lock();
    if (made->turn != NULL) return (PyObject *)made;
    Py_DECREF(made);
    return PyErr_NoMemory();
}

/* Where threads share a decoder, a call waits until another's is done. */
static void take_turn(decoder *of) {
    if (PyThread_acquire_lock(of->turn, NOWAIT_LOCK)) return;
    Py_BEGIN_ALLOW_THREADS PyThread_acquire_lock(of->turn, WAIT_LOCK);
    Py_END_ALLOW_THREADS
}

static int decoder_init(PyObject *self, PyObject *words, PyObject *named) {
    static char *known[] = {"most", NULL};
    decoder *of = (decoder *)self;
    unsigned long long most = UINT64_MAX;
    if (!PyArg_ParseTupleAndKeywords(words, named, "|K:Decoder", known, &most)) return -1;
    take_turn(of);
    mvt_decoder_free(&of->decoder);
    of->known = 0, of->size = 0;
    const uint32_t status = mvt_decoder_new(&of->decoder, most);
    PyThread_release_lock(of->turn);
    return raise_for(of->of, status, NULL, NULL, 0, NULL);
}

static void decoder_dealloc(PyObject *self) {
    decoder *of = (decoder *)self;
    if (of->weak != NULL) PyObject_ClearWeakRefs(self);
    mvt_decoder_free(&of->decoder);
    PyMem_Free(of->head);
    if (of->turn != NULL) PyThread_free_lock(of->turn);
    given_back(self);
}

/* Whether there is memory for what of the first bytes is in a piece. */
static int keep_head(decoder *of, const uint8_t *bytes, size_t len) {
    const size_t more = len < MVT_HEAD - of->known ? len : MVT_HEAD - of->known;
    of->size += len;
    if (more == 0) return 1;
    if (of->known + more > of->room) {
        const size_t twice = 2 * of->room < MVT_HEAD ? 2 * of->room : MVT_HEAD;
        const size_t room = of->known + more > twice ? of->known + more : twice;
        uint8_t *head = PyMem_Realloc(of->head, room);
        if (head == NULL) return 0;
        of->head = head, of->room = room;
    }
    memcpy(of->head + of->known, bytes, more);
    of->known += more;
    return 1;
}

static PyObject *feed(PyObject *self, PyObject *words, PyObject *named) {
    static char *known[] = {"piece", NULL};
    decoder *of = (decoder *)self;
    PyObject *given;
    if (!PyArg_ParseTupleAndKeywords(words, named, "O:feed", known, &given)) return NULL;
    PyObject *piece = bytes_of(given);
    if (piece == NULL) return NULL;
    mvt_fault fault = {0};
    uint32_t status = MVT_NO_MEMORY;
    size_t len;
    const uint8_t *bytes = content_of(piece, &len);
    take_turn(of);
    if (keep_head(of, bytes, len)) {
        Py_BEGIN_ALLOW_THREADS status = mvt_decoder_feed(&of->decoder, bytes, len, &fault);
        Py_END_ALLOW_THREADS
    }
    PyThread_release_lock(of->turn);
    const int failed = raise_for_head(of->of, status, &fault, of->head, of->known, of->size);
    Py_DECREF(piece);
    if (failed) return NULL;
    Py_INCREF(Py_None);
    return Py_None;
}

/* The rows of the tile, after the last piece. */
static int end(decoder *of, mvt_tile *tile) {
    mvt_fault fault = {0};
    uint32_t status;
    take_turn(of);
    Py_BEGIN_ALLOW_THREADS status = mvt_decoder_finish(&of->decoder, tile, &fault);
    Py_END_ALLOW_THREADS PyThread_release_lock(of->turn);
    return raise_for_head(of->of, status, &fault, of->head, of->known, of->size);
}

static PyObject *rows(PyObject *self, PyObject *unused) {
    (void)unused;
    decoder *of = (decoder *)self;
    held *owner = new_held(of->of);
    if (owner != NULL && end(of, &owner->tile) < 0) Py_CLEAR(owner);
    return flat_of(of->of, owner);
}

static PyObject *finish(PyObject *self, PyObject *unused) {
    (void)unused;
    mvt_tile tile = {0};
    decoder *of = (decoder *)self;
    if (end(of, &tile) < 0) return NULL;
    PyObject *made = tile_read(of->of, &tile);
    mvt_tile_free(&tile);
    return made;
}

static PyMethodDef METHODS[] = {
    {"feed", WITH_WORDS(feed),
     "feed($self, piece)\n--\n\n"
     "Takes a piece. Raises Refused as soon as no further byte can change the fault, and then at each call."},
    {"rows", rows, METH_NOARGS,
     "rows($self)\n--\n\nThe tile as flat rows, after the last piece, which ends the decoder. Raises Refused."},
    {"finish", finish, METH_NOARGS,
     "finish($self)\n--\n\nThe tile as plain objects, after the last piece, which ends the decoder. Raises Refused."},
    {NULL, NULL, 0, NULL},
};

static const char DOC[] =
    "Decoder(most=18446744073709551615)\n--\n\n"
    "A tile that comes in pieces of any length. Where threads share one, a call waits until another's is done. A call\n"
    "raises MemoryError where the lists of rows would have more bytes than `most`.";

static PyMemberDef MEMBERS[] = {WEAK_MEMBER(decoder), {NULL, 0, 0, 0, NULL}};

static PyType_Slot SLOTS[] = {{Py_tp_new, decoder_new},
                              {Py_tp_init, decoder_init},
                              {Py_tp_dealloc, decoder_dealloc},
                              {Py_tp_methods, METHODS},
                              {Py_tp_members, MEMBERS},
                              {Py_tp_doc, (void *)DOC},
                              {0, NULL}};
PyType_Spec DECODER_SPEC = {"libmvt.Decoder", sizeof(decoder), 0, Py_TPFLAGS_DEFAULT | Py_TPFLAGS_BASETYPE, SLOTS};
