/*
 * The calls of iolite.h for CPython: the types System, Hold and Part. The package's other modules wrap them.
 *
 * A Hold keeps an aggregate: it is dropped when the last reference to its Hold goes. A Part is a read-only buffer over bytes of
 * a page, which keeps its Hold. While a Part lives, its aggregate is not given up, its domain does not end, and its system is
 * not closed, so its bytes stay where they are. A system is used by the thread that made it; a Hold that goes on another
 * thread is dropped at the system's next call.
 */
#define PY_SSIZE_T_CLEAN
#include <Python.h>
#include "iolite.h"

#define MAX_DOMAINS 4096
#define PIN_LISTS 4096
#define MAX_NAMES 64
#define PARTS_AT_ONCE 16
#define WORDS 8 /* kind, by, agg, with, id, to, from, until */

struct Hold;

typedef struct Dropped {
    uint32_t by;
    uint64_t agg;
} Dropped;

typedef struct {
    PyObject_HEAD
    iol_system raw;
    unsigned long owner;                /* the thread that made it */
    PyObject *files;                    /* what keeps its descriptors open */
    struct Hold *pinned[PIN_LISTS];     /* the Holds with living Parts, by their aggregates' lists */
    size_t parts, parts_of[MAX_DOMAINS + 1];
    Dropped *dropped;                   /* Holds that went on other threads */
    size_t dropped_count, dropped_room;
} System;

typedef struct Hold {
    PyObject_HEAD
    System *system;
    struct Hold *next; /* in its list of `pinned` */
    uint32_t by;
    uint64_t agg;
    Py_ssize_t parts; /* that live */
    int is_held;
} Hold;

typedef struct {
    PyObject_HEAD
    Hold *hold;
    const uint8_t *at;
    Py_ssize_t len;
} Part;

static PyTypeObject SystemType, HoldType, PartType;
static PyObject *refusals; /* makes an exception of a refusal's number and of what it names */

static PyObject *refused(uint32_t refusal, uint32_t about)
{
    PyObject *made = PyObject_CallFunction(refusals, "II", refusal, about);
    if (made) {
        PyErr_SetObject((PyObject *)Py_TYPE(made), made);
        Py_DECREF(made);
    }
    return NULL;
}

/* The two numbers of a reply. */
static PyObject *numbers(const iol_reply *reply)
{
    PyObject *first = PyLong_FromUnsignedLongLong(reply->number), *second = PyLong_FromUnsignedLongLong(reply->second);
    PyObject *both = first && second ? PyTuple_New(2) : NULL;
    if (!both) {
        Py_XDECREF(first);
        Py_XDECREF(second);
        return NULL;
    }
    PyTuple_SET_ITEM(both, 0, first);
    PyTuple_SET_ITEM(both, 1, second);
    return both;
}

/* The list of `pinned` for an aggregate. At most 65,536 aggregates live, so lists are short. */
static Hold **pins_of(System *self, uint32_t by, uint64_t agg)
{
    return &self->pinned[(agg + 61 * (uint64_t)by) % PIN_LISTS];
}

/* Whether a Part of the aggregate lives. */
static int is_pinned(System *self, uint32_t by, uint64_t agg)
{
    Hold *it = *pins_of(self, by, agg);
    while (it && (it->by != by || it->agg != agg))
        it = it->next;
    return it != NULL;
}

/* Counts a new Part of a Hold. */
static void pin(Hold *hold)
{
    if (hold->parts++ == 0) {
        Hold **list = pins_of(hold->system, hold->by, hold->agg);
        hold->next = *list;
        *list = hold;
    }
    hold->system->parts++;
    hold->system->parts_of[hold->by]++;
}

/* Counts a Part of a Hold less. */
static void unpin(Hold *hold)
{
    if (--hold->parts == 0) {
        Hold **at = pins_of(hold->system, hold->by, hold->agg);
        while (*at != hold)
            at = &(*at)->next;
        *at = hold->next;
    }
    hold->system->parts--;
    hold->system->parts_of[hold->by]--;
}

/* Drops an aggregate that no Part of another Hold has. */
static void drop(System *self, uint32_t by, uint64_t agg)
{
    if (self->parts == 0 || !is_pinned(self, by, agg))
        iol_agg_drop(&self->raw, by, agg);
}

/* Whether the system can be called: it is open, and this is its thread. Drops what went on other threads. */
static int is_ready(System *self)
{
    if (!self || !self->raw.at) {
        PyErr_SetString(PyExc_ValueError, "the system is closed");
        return 0;
    }
    if (self->owner != PyThread_get_thread_ident()) {
        PyErr_SetString(PyExc_RuntimeError, "a system is used by the thread that made it");
        return 0;
    }
    while (self->dropped_count) {
        Dropped it = self->dropped[--self->dropped_count];
        drop(self, it.by, it.agg);
    }
    return 1;
}

/* Part */

static int part_buffer(Part *self, Py_buffer *view, int flags)
{
    return PyBuffer_FillInfo(view, (PyObject *)self, (void *)self->at, self->len, 1, flags);
}

static void part_dealloc(Part *self)
{
    unpin(self->hold);
    Py_DECREF(self->hold);
    Py_TYPE(self)->tp_free((PyObject *)self);
}

static Py_ssize_t part_len(Part *self)
{
    return self->len;
}

static PyBufferProcs part_as_buffer = {.bf_getbuffer = (getbufferproc)part_buffer};
static PySequenceMethods part_as_sequence = {.sq_length = (lenfunc)part_len};

static PyTypeObject PartType = {
    PyVarObject_HEAD_INIT(NULL, 0).tp_name = "iolite._iolite.Part",
    .tp_basicsize = sizeof(Part),
    .tp_flags = Py_TPFLAGS_DEFAULT,
    .tp_dealloc = (destructor)part_dealloc,
    .tp_as_buffer = &part_as_buffer,
    .tp_as_sequence = &part_as_sequence,
    .tp_doc = "Bytes of a page, read only. They stay as long as the Part, or a memoryview of it, does.",
};

/* Hold */

static int hold_init(Hold *self, PyObject *args, PyObject *kw)
{
    System *system;
    unsigned by;
    unsigned long long agg;
    if (kw || self->system || !PyArg_ParseTuple(args, "O!IK", &SystemType, &system, &by, &agg)) {
        if (!PyErr_Occurred())
            PyErr_SetString(PyExc_TypeError, "Hold(system, by, agg), once");
        return -1;
    }
    self->system = (System *)Py_NewRef((PyObject *)system);
    self->by = by;
    self->agg = agg;
    self->is_held = 1;
    return 0;
}

/* Remembers what is to be dropped by the system's own thread. Where there is no memory the aggregate stays. */
static void drop_later(System *system, uint32_t by, uint64_t agg)
{
    if (system->dropped_count == system->dropped_room) {
        size_t room = system->dropped_room ? 2 * system->dropped_room : 16;
        Dropped *more = PyMem_Realloc(system->dropped, room * sizeof *more);
        if (!more)
            return;
        system->dropped = more;
        system->dropped_room = room;
    }
    system->dropped[system->dropped_count++] = (Dropped){by, agg};
}

static void hold_dealloc(Hold *self)
{
    System *system = self->system;
    if (system) {
        if (self->is_held && system->raw.at) {
            if (system->owner == PyThread_get_thread_ident())
                drop(system, self->by, self->agg);
            else
                drop_later(system, self->by, self->agg);
        }
        Py_DECREF(system);
    }
    Py_TYPE(self)->tp_free((PyObject *)self);
}

PyDoc_STRVAR(hold_release_doc, "release() -> bool\n\nHas the Hold keep nothing, where no Part keeps it: whether that is so.");

static PyObject *hold_release(Hold *self, PyObject *none)
{
    (void)none;
    if (self->parts == 0)
        self->is_held = 0;
    return PyBool_FromLong(self->parts == 0);
}

PyDoc_STRVAR(hold_parts_doc, "parts() -> tuple[Part, ...]\n\nBorrows the bytes of the aggregate, in order. Copies nothing.");

static PyObject *hold_parts(Hold *self, PyObject *none)
{
    iol_part room[PARTS_AT_ONCE];
    iol_reply reply;
    PyObject *all;
    (void)none;
    if (!is_ready(self->system))
        return NULL;
    iol_parts(&self->system->raw, self->by, self->agg, 0, room, PARTS_AT_ONCE, &reply);
    if (reply.refusal)
        return refused(reply.refusal, reply.about);
    Py_ssize_t count = (Py_ssize_t)reply.number;
    if (!(all = PyTuple_New(count)))
        return NULL;
    for (Py_ssize_t i = 0; i < count; i++) {
        if (i && i % PARTS_AT_ONCE == 0)
            iol_parts(&self->system->raw, self->by, self->agg, (size_t)i, room, PARTS_AT_ONCE, &reply);
        Part *part = PyObject_New(Part, &PartType);
        if (!part) {
            Py_DECREF(all);
            return NULL;
        }
        pin(self);
        part->hold = (Hold *)Py_NewRef((PyObject *)self);
        part->at = room[i % PARTS_AT_ONCE].at;
        part->len = (Py_ssize_t)room[i % PARTS_AT_ONCE].len;
        PyTuple_SET_ITEM(all, i, (PyObject *)part);
    }
    return all;
}

static Py_ssize_t hold_len(Hold *self)
{
    iol_reply reply;
    if (!is_ready(self->system))
        return -1;
    iol_parts(&self->system->raw, self->by, self->agg, 0, NULL, 0, &reply);
    if (reply.refusal) {
        refused(reply.refusal, reply.about);
        return -1;
    }
    return (Py_ssize_t)reply.second;
}

static PyMethodDef hold_methods[] = {
    {"release", (PyCFunction)hold_release, METH_NOARGS, hold_release_doc},
    {"parts", (PyCFunction)hold_parts, METH_NOARGS, hold_parts_doc},
    {NULL, NULL, 0, NULL},
};
static PySequenceMethods hold_as_sequence = {.sq_length = (lenfunc)hold_len};

static PyTypeObject HoldType = {
    PyVarObject_HEAD_INIT(NULL, 0).tp_name = "iolite._iolite.Hold",
    .tp_basicsize = sizeof(Hold),
    .tp_flags = Py_TPFLAGS_DEFAULT,
    .tp_new = PyType_GenericNew,
    .tp_init = (initproc)hold_init,
    .tp_dealloc = (destructor)hold_dealloc,
    .tp_methods = hold_methods,
    .tp_as_sequence = &hold_as_sequence,
    .tp_doc = "Hold(system, by, agg): keeps an aggregate, which is dropped when the Hold and its Parts are gone.",
};

/* System */

static int system_init(System *self, PyObject *args, PyObject *kw)
{
    static char *words[] = {"chunks", "generations", "sums", "fds", "lens", "files", NULL};
    unsigned chunks, generations, sums;
    Py_buffer fds = {0}, lens = {0};
    PyObject *files = NULL;
    uint32_t refusal;
    if (!PyArg_ParseTupleAndKeywords(args, kw, "III|y*y*O", words, &chunks, &generations, &sums, &fds, &lens, &files))
        return -1;
    if (self->raw.at) {
        PyErr_SetString(PyExc_ValueError, "the system is made");
        refusal = UINT32_MAX;
    } else if (fds.obj) {
        refusal = iol_system_over(chunks, generations, sums, fds.buf, (size_t)fds.len / sizeof(int32_t), lens.buf,
            (size_t)lens.len / sizeof(uint32_t), &self->raw);
    } else {
        refusal = iol_system_new(chunks, generations, sums, &self->raw);
    }
    if (fds.obj)
        PyBuffer_Release(&fds);
    if (lens.obj)
        PyBuffer_Release(&lens);
    if (refusal == UINT32_MAX)
        return -1;
    if (refusal) {
        refused(refusal, 0);
        return -1;
    }
    self->owner = PyThread_get_thread_ident();
    self->files = Py_XNewRef(files);
    return 0;
}

/* No Part lives here, since each keeps its Hold, and that the system. */
static void system_dealloc(System *self)
{
    if (self->raw.at)
        iol_system_free(&self->raw);
    PyMem_Free(self->dropped);
    Py_XDECREF(self->files);
    Py_TYPE(self)->tp_free((PyObject *)self);
}

PyDoc_STRVAR(system_close_doc, "close()\n\nFrees the system. A BufferError where a Part lives. What is dirty is not written back.");

static PyObject *system_close(System *self, PyObject *none)
{
    (void)none;
    if (self->parts)
        return PyErr_Format(PyExc_BufferError, "%zu views of pages are in use", self->parts);
    if (self->raw.at) {
        if (!is_ready(self))
            return NULL;
        iol_system_free(&self->raw);
        Py_CLEAR(self->files);
    }
    Py_RETURN_NONE;
}

static int words_of(PyObject *const *args, unsigned long long *words)
{
    for (int i = 0; i < WORDS; i++) {
        words[i] = PyLong_AsUnsignedLongLong(args[i]);
        if (words[i] == (unsigned long long)-1 && PyErr_Occurred())
            return -1;
        if (words[i] > UINT32_MAX && i != 2 && i != 3) {
            PyErr_SetString(PyExc_OverflowError, "a number has over 32 bits");
            return -1;
        }
    }
    return 0;
}

static int names_of(PyObject *list, uint32_t *names, size_t *count)
{
    if (!PyTuple_Check(list) || PyTuple_GET_SIZE(list) > MAX_NAMES) {
        PyErr_SetString(PyExc_ValueError, "domains are a tuple of at most 64");
        return -1;
    }
    *count = (size_t)PyTuple_GET_SIZE(list);
    for (size_t i = 0; i < *count; i++) {
        unsigned long name = PyLong_AsUnsignedLong(PyTuple_GET_ITEM(list, i));
        if (PyErr_Occurred())
            return -1;
        names[i] = name > UINT32_MAX ? 0 : (uint32_t)name;
    }
    return 0;
}

/* Whether an event would give up bytes that a Part has. */
static int takes_pinned(System *self, const iol_event *event)
{
    uint64_t aggs[2] = {event->agg, event->with};
    int count = event->kind == IOL_AGG_JOIN ? 2
        : event->kind == IOL_AGG_DROP || event->kind == IOL_AGG_SPLIT || event->kind == IOL_AGG_GIVE;
    if (event->kind == IOL_EXIT && event->by <= MAX_DOMAINS && self->parts_of[event->by]) {
        PyErr_SetString(PyExc_BufferError, "views of the domain's pages are in use");
        return 1;
    }
    for (int i = 0; i < count; i++) {
        if (is_pinned(self, event->by, aggs[i])) {
            PyErr_SetString(PyExc_BufferError, "views of the aggregate are in use");
            return 1;
        }
    }
    return 0;
}

PyDoc_STRVAR(system_step_doc,
    "step(kind, by, agg, with_, id, to, from_, until[, data[, names[, out]]]) -> (number, second)\n\n"
    "Carries out one event. data has its bytes, names its domains, and out is a writable buffer for the reply's bytes.");

static PyObject *system_step(System *self, PyObject *const *args, Py_ssize_t count)
{
    unsigned long long w[WORDS];
    uint32_t names[MAX_NAMES];
    size_t name_count = 0;
    Py_buffer data = {0}, out = {0};
    iol_reply reply = {0};
    int is_done = 0;
    if (count < WORDS || count > WORDS + 3) {
        PyErr_SetString(PyExc_TypeError, "step takes 8 to 11 arguments");
        return NULL;
    }
    if (!is_ready(self) || words_of(args, w))
        return NULL;
    iol_event event = {
        .kind = (uint32_t)w[0], .by = (uint32_t)w[1], .agg = w[2], .with = w[3],
        .id = (uint32_t)w[4], .to = (uint32_t)w[5], .from = (uint32_t)w[6], .until = (uint32_t)w[7],
    };
    if (self->parts && takes_pinned(self, &event))
        return NULL;
    if (count > WORDS + 1 && names_of(args[WORDS + 1], names, &name_count))
        return NULL;
    if (count > WORDS && args[WORDS] != Py_None && PyObject_GetBuffer(args[WORDS], &data, PyBUF_SIMPLE))
        return NULL;
    if (count <= WORDS + 2 || PyObject_GetBuffer(args[WORDS + 2], &out, PyBUF_WRITABLE) == 0) {
        iol_step(&self->raw, &event, data.buf, (size_t)data.len, names, name_count, out.buf, (size_t)out.len, &reply);
        is_done = 1;
    }
    if (data.obj)
        PyBuffer_Release(&data);
    if (out.obj)
        PyBuffer_Release(&out);
    if (!is_done)
        return NULL;
    if (reply.refusal)
        return refused(reply.refusal, reply.about);
    return numbers(&reply);
}

PyDoc_STRVAR(system_arrive_from_doc, "arrive_from(conn, fd, max) -> (taken, ending)\n\nOne read of a descriptor arrives on a connection.");

static PyObject *system_arrive_from(System *self, PyObject *args)
{
    unsigned conn, max;
    int fd;
    iol_reply reply;
    if (!PyArg_ParseTuple(args, "IiI", &conn, &fd, &max) || !is_ready(self))
        return NULL;
    iol_arrive_from(&self->raw, conn, fd, max, &reply);
    if (reply.refusal)
        return refused(reply.refusal, reply.about);
    return numbers(&reply);
}

PyDoc_STRVAR(system_drain_to_doc, "drain_to(conn, fd, max) -> (taken, failed)\n\nWrites what a connection has to send to a descriptor.");

static PyObject *system_drain_to(System *self, PyObject *args)
{
    unsigned conn, max;
    int fd;
    iol_reply reply;
    if (!PyArg_ParseTuple(args, "IiI", &conn, &fd, &max) || !is_ready(self))
        return NULL;
    iol_drain_to(&self->raw, conn, fd, max, &reply);
    if (reply.refusal)
        return refused(reply.refusal, reply.about);
    return numbers(&reply);
}

PyDoc_STRVAR(system_report_doc, "report() -> (buffers, extents, dirty, pools)\n\nCounts what is in the system.");

static PyObject *system_report(System *self, PyObject *none)
{
    iol_report_counts counts;
    PyObject *pools;
    (void)none;
    if (!is_ready(self))
        return NULL;
    iol_report(&self->raw, NULL, 0, &counts);
    if (counts.refusal)
        return refused(counts.refusal, 0);
    size_t count = (size_t)counts.pools;
    iol_pool *room = PyMem_Calloc(count + 1, sizeof *room);
    if (!room)
        return PyErr_NoMemory();
    iol_report(&self->raw, room, count, &counts);
    if (counts.refusal) {
        PyMem_Free(room);
        return refused(counts.refusal, 0);
    }
    pools = PyTuple_New((Py_ssize_t)count);
    for (size_t i = 0; pools && i < count; i++) {
        PyObject *it = Py_BuildValue("(IIII)", room[i].pool, room[i].pages, room[i].free, room[i].retired);
        if (!it)
            Py_CLEAR(pools);
        else
            PyTuple_SET_ITEM(pools, (Py_ssize_t)i, it);
    }
    PyMem_Free(room);
    if (!pools)
        return NULL;
    return Py_BuildValue("(IKKN)", counts.buffers, (unsigned long long)counts.extents, (unsigned long long)counts.dirty, pools);
}

static PyMethodDef system_methods[] = {
    {"step", (PyCFunction)(void (*)(void))system_step, METH_FASTCALL, system_step_doc},
    {"arrive_from", (PyCFunction)system_arrive_from, METH_VARARGS, system_arrive_from_doc},
    {"drain_to", (PyCFunction)system_drain_to, METH_VARARGS, system_drain_to_doc},
    {"report", (PyCFunction)system_report, METH_NOARGS, system_report_doc},
    {"close", (PyCFunction)system_close, METH_NOARGS, system_close_doc},
    {NULL, NULL, 0, NULL},
};

static PyTypeObject SystemType = {
    PyVarObject_HEAD_INIT(NULL, 0).tp_name = "iolite._iolite.System",
    .tp_basicsize = sizeof(System),
    .tp_flags = Py_TPFLAGS_DEFAULT,
    .tp_new = PyType_GenericNew,
    .tp_init = (initproc)system_init,
    .tp_dealloc = (destructor)system_dealloc,
    .tp_methods = system_methods,
    .tp_doc = "System(chunks, generations, sums[, fds, lens, files]): a system over memory, or over open descriptors.",
};

/* The module */

PyDoc_STRVAR(set_refusals_doc, "set_refusals(make)\n\nHas make(number, about) make the exception of a refusal.");

static PyObject *set_refusals(PyObject *module, PyObject *make)
{
    (void)module;
    Py_XSETREF(refusals, Py_NewRef(make));
    Py_RETURN_NONE;
}

static PyMethodDef module_methods[] = {
    {"set_refusals", set_refusals, METH_O, set_refusals_doc},
    {NULL, NULL, 0, NULL},
};

static struct PyModuleDef module_def = {
    PyModuleDef_HEAD_INIT, "iolite._iolite", "The calls of iolite.h.", -1, module_methods, NULL, NULL, NULL, NULL,
};

/* The kinds of events, by the names of the header. */
static int add_kinds(PyObject *module)
{
#define KIND(name) PyModule_AddIntConstant(module, #name, IOL_##name)
    return KIND(DOMAIN_NEW) || KIND(EXIT) || KIND(POOL_CREATE) || KIND(POOL_CLOSE) || KIND(POOL_ADMIT) || KIND(SET_POOL)
        || KIND(AGG_MAKE) || KIND(AGG_DUP) || KIND(AGG_CUT) || KIND(AGG_SPLIT) || KIND(AGG_JOIN) || KIND(AGG_REPLACE)
        || KIND(AGG_DROP) || KIND(AGG_GIVE) || KIND(SHOW) || KIND(FILE_NEW) || KIND(OPEN_FILE) || KIND(PIPE)
        || KIND(GIVE_FD) || KIND(CLOSE) || KIND(SEEK) || KIND(LENGTH) || KIND(READ) || KIND(WRITE) || KIND(FSYNC)
        || KIND(READ_COPY) || KIND(WRITE_COPY) || KIND(ACCEPT) || KIND(CONN_NEW) || KIND(ARRIVE) || KIND(PEER_CLOSED)
        || KIND(TRANSMIT) || KIND(FLUSH) || KIND(DROP_CLEAN);
#undef KIND
}

/* The names of the refusals, by their numbers. */
static int add_refusals(PyObject *module)
{
    PyObject *names = PyDict_New();
    for (uint32_t number = IOL_NO_DOMAIN; names && number <= IOL_SMALL_ROOM; number++) {
        const char *name = iol_refusal_name(number);
        PyObject *key = PyLong_FromUnsignedLong(number), *value = PyUnicode_FromString(name);
        if (!key || !value || (strcmp(name, "Unknown") != 0 && PyDict_SetItem(names, key, value)))
            Py_CLEAR(names);
        Py_XDECREF(key);
        Py_XDECREF(value);
    }
    int status = names ? PyModule_AddObjectRef(module, "REFUSALS", names) : -1;
    Py_XDECREF(names);
    return status;
}

PyMODINIT_FUNC PyInit__iolite(void)
{
    if (PyType_Ready(&SystemType) || PyType_Ready(&HoldType) || PyType_Ready(&PartType))
        return NULL;
    PyObject *module = PyModule_Create(&module_def);
    if (!module)
        return NULL;
    if (PyModule_AddObjectRef(module, "System", (PyObject *)&SystemType)
        || PyModule_AddObjectRef(module, "Hold", (PyObject *)&HoldType)
        || PyModule_AddObjectRef(module, "Part", (PyObject *)&PartType) || add_kinds(module) || add_refusals(module)) {
        Py_DECREF(module);
        return NULL;
    }
    return module;
}
