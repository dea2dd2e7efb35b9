/* The class Builder. */
#include "module.h"

typedef struct {
    PyObject_HEAD PyObject *weak;
    building to;
} builder;

static PyObject *builder_new(PyTypeObject *type, PyObject *words, PyObject *named) {
    (void)words, (void)named;
    const state *of = state_of_type(type);
    builder *made = of == NULL ? NULL : (builder *)allocated((PyObject *)type);
    if (made != NULL) made->to.of = of;
    return (PyObject *)made;
}

static int builder_init(PyObject *self, PyObject *words, PyObject *named) {
    static char *known[] = {NULL};
    (void)self;
    return PyArg_ParseTupleAndKeywords(words, named, ":Builder", known) ? 0 : -1;
}

static void builder_dealloc(PyObject *self) {
    builder *of = (builder *)self;
    if (of->weak != NULL) PyObject_ClearWeakRefs(self);
    build_end(&of->to);
    given_back(self);
}

static building *to(PyObject *self) { return &((builder *)self)->to; }

/* The builder itself, where nothing was raised. */
static PyObject *itself(PyObject *self, int status) {
    if (status < 0) return NULL;
    Py_INCREF(self);
    return self;
}

static PyObject *add_layer(PyObject *self, PyObject *words, PyObject *named) {
    static char *known[] = {"name", "extent", NULL};
    PyObject *name, *extent = NULL;
    if (!PyArg_ParseTupleAndKeywords(words, named, "O|O:layer", known, &name, &extent)) return NULL;
    return itself(self, build_layer(to(self), name, extent));
}

static PyObject *add_foreign(PyObject *self, PyObject *words, PyObject *named) {
    static char *known[] = {"version", "content", NULL};
    PyObject *version, *content;
    if (!PyArg_ParseTupleAndKeywords(words, named, "OO:foreign", known, &version, &content)) return NULL;
    return itself(self, build_foreign(to(self), version, content));
}

static PyObject *key_at(PyObject *self, PyObject *words, PyObject *named) {
    static char *known[] = {"key", NULL};
    PyObject *key;
    uint32_t index = 0;
    if (!PyArg_ParseTupleAndKeywords(words, named, "O:key", known, &key)) return NULL;
    return build_at(to(self), key, NULL, &index) < 0 ? NULL : PyLong_FromUnsignedLong(index);
}

static PyObject *value_at(PyObject *self, PyObject *words, PyObject *named) {
    static char *known[] = {"value", NULL};
    PyObject *value;
    uint32_t index = 0;
    if (!PyArg_ParseTupleAndKeywords(words, named, "O:value", known, &value)) return NULL;
    return build_at(to(self), NULL, value, &index) < 0 ? NULL : PyLong_FromUnsignedLong(index);
}

static PyObject *add_feature(PyObject *self, PyObject *words, PyObject *named) {
    static char *known[] = {"kind", "id", NULL};
    PyObject *kind, *id = Py_None;
    if (!PyArg_ParseTupleAndKeywords(words, named, "O|O:feature", known, &kind, &id)) return NULL;
    return itself(self, build_feature(to(self), kind, id));
}

/* An attribute, of the words that `as` says. */
static PyObject *tagged(PyObject *self, PyObject *words, PyObject *named, const char *as,
                        int (*add)(building *, PyObject *, PyObject *)) {
    static char *known[] = {"key", "value", NULL};
    PyObject *key, *value;
    if (!PyArg_ParseTupleAndKeywords(words, named, as, known, &key, &value)) return NULL;
    return itself(self, add(to(self), key, value));
}

static PyObject *add_tag(PyObject *self, PyObject *words, PyObject *named) {
    return tagged(self, words, named, "OO:tag", build_tag);
}
static PyObject *add_tag_at(PyObject *self, PyObject *words, PyObject *named) {
    return tagged(self, words, named, "OO:tag_at", build_tag_at);
}

static PyObject *add_point(PyObject *self, PyObject *words, PyObject *named) {
    static char *known[] = {"x", "y", NULL};
    PyObject *x, *y;
    if (!PyArg_ParseTupleAndKeywords(words, named, "OO:point", known, &x, &y)) return NULL;
    PyObject *points = Py_BuildValue("((OO))", x, y);
    const int status = points == NULL ? -1 : build_drawn(to(self), MVT_POINTS, 0, points);
    Py_XDECREF(points);
    return itself(self, status);
}

/* Points, a line or integers, of the one word that `as` says. */
static PyObject *drawn(PyObject *self, PyObject *words, PyObject *named, const char *as, int kind) {
    static char *known[][2] = {{"integers", NULL}, {"points", NULL}};
    PyObject *given;
    if (!PyArg_ParseTupleAndKeywords(words, named, as, known[kind != MVT_UNKNOWN], &given)) return NULL;
    return itself(self, build_drawn(to(self), kind, 0, given));
}

static PyObject *add_points(PyObject *self, PyObject *words, PyObject *named) {
    return drawn(self, words, named, "O:points", MVT_POINTS);
}
static PyObject *add_line(PyObject *self, PyObject *words, PyObject *named) {
    return drawn(self, words, named, "O:line", MVT_LINES);
}
static PyObject *add_integers(PyObject *self, PyObject *words, PyObject *named) {
    return drawn(self, words, named, "O:integers", MVT_UNKNOWN);
}

static PyObject *add_ring(PyObject *self, PyObject *words, PyObject *named) {
    static char *known[] = {"points", "exterior", NULL};
    PyObject *points;
    int exterior;
    if (!PyArg_ParseTupleAndKeywords(words, named, "Op:ring", known, &points, &exterior)) return NULL;
    return itself(self, build_drawn(to(self), MVT_POLYGONS, exterior, points));
}

static PyObject *drop(PyObject *self, PyObject *unused) {
    (void)unused;
    return itself(self, build_drop(to(self)));
}

static PyObject *rows(PyObject *self, PyObject *unused) {
    (void)unused;
    return build_rows(to(self));
}

static PyObject *finish(PyObject *self, PyObject *unused) {
    (void)unused;
    return build_finish(to(self));
}

static PyMethodDef METHODS[] = {
    {"layer", WITH_WORDS(add_layer),
     "layer($self, name, extent=4096)\n--\n\nBegins a layer, which ends the one before."},
    {"foreign", WITH_WORDS(add_foreign),
     "foreign($self, version, content)\n--\n\nAdds a layer of another version, of which these are the bytes."},
    {"key", WITH_WORDS(key_at), "key($self, key)\n--\n\nThe index of a key of the layer."},
    {"value", WITH_WORDS(value_at), "value($self, value)\n--\n\nThe index of a value of the layer."},
    {"feature", WITH_WORDS(add_feature),
     "feature($self, kind, id=None)\n--\n\nBegins a feature of the layer, which ends the one before."},
    {"tag", WITH_WORDS(add_tag), "tag($self, key, value)\n--\n\nAdds an attribute to the feature."},
    {"tag_at", WITH_WORDS(add_tag_at),
     "tag_at($self, key, value)\n--\n\nAdds an attribute by the indices that `key` and `value` gave."},
    {"point", WITH_WORDS(add_point), "point($self, x, y)\n--\n\nAdds a point to a feature of points."},
    {"points", WITH_WORDS(add_points), "points($self, points)\n--\n\nAdds points to a feature of points."},
    {"line", WITH_WORDS(add_line), "line($self, points)\n--\n\nAdds a line to a feature of lines."},
    {"ring", WITH_WORDS(add_ring),
     "ring($self, points, exterior)\n--\n\n"
     "Adds a ring to a feature of polygons. An exterior ring begins a polygon, and those after it are its holes. Its\n"
     "last point is joined to its first."},
    {"integers", WITH_WORDS(add_integers),
     "integers($self, integers)\n--\n\nAdds integers to a feature of unknown geometry."},
    {"drop", drop, METH_NOARGS,
     "drop($self)\n--\n\n"
     "Takes the feature back that was begun last and isn't ended, as one whose geometry came to nothing."},
    {"rows", rows, METH_NOARGS, "rows($self)\n--\n\nThe tile so far as flat rows."},
    {"finish", finish, METH_NOARGS,
     "finish($self)\n--\n\n"
     "The canonical bytes of the tile. The builder begins anew. Raises NoTile for what is no valid tile, and TooLarge."},
    {NULL, NULL, 0, NULL},
};

static const char DOC[] =
    "Builder()\n--\n\n"
    "Makes a tile step by step: begin a layer, begin a feature, add its tags and its points, and finish.\n\n"
    "    builder = libmvt.Builder()\n"
    "    builder.layer(\"places\")\n"
    "    builder.feature(\"points\", id=7).tag(\"name\", \"Mill Pond\").point(25, 17)\n"
    "    tile = builder.finish()\n\n"
    "A key or a value that stands in a layer already isn't written again. Another call than `finish` that\n"
    "raises changes nothing.";

static PyMemberDef MEMBERS[] = {WEAK_MEMBER(builder), {NULL, 0, 0, 0, NULL}};

static PyType_Slot SLOTS[] = {{Py_tp_new, builder_new},
                              {Py_tp_init, builder_init},
                              {Py_tp_dealloc, builder_dealloc},
                              {Py_tp_methods, METHODS},
                              {Py_tp_members, MEMBERS},
                              {Py_tp_doc, (void *)DOC},
                              {0, NULL}};
PyType_Spec BUILDER_SPEC = {"libmvt.Builder", sizeof(builder), 0, Py_TPFLAGS_DEFAULT | Py_TPFLAGS_BASETYPE, SLOTS};
