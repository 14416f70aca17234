/*
 * The calls of sdtool.h for Python, over the limited interface of Python 3.8: built once, it is imported by that and
 * each later version. A function here makes one call of the library, and gets what a caller hands over through the door
 * below.
 *
 * The library is opened when the module asks for it, so that a variable of the environment can name it.
 */
#define PY_SSIZE_T_CLEAN
#ifndef Py_LIMITED_API
#define Py_LIMITED_API 0x03080000
#endif
#include <Python.h>

#ifdef _WIN32
#include <windows.h>
#else
#include <dlfcn.h>
#endif
#include <stdbool.h>
#include <stdint.h>
#include <stdlib.h>
#include <string.h>

#include <sdtool.h>

/* Python 3.8 and 3.9 have these two as later ones do, but their limited interface does not name them. */
#ifndef METH_FASTCALL
#define METH_FASTCALL 0x0080
#endif
PyAPI_FUNC(const char *) PyUnicode_AsUTF8AndSize(PyObject *text, Py_ssize_t *size);

#ifdef OLDEST_C_LIBRARY
/* The extension of a wheel is for older C libraries too, in which these are in a library that Python has open. */
__asm__(".symver dlopen, dlopen@" OLDEST_C_LIBRARY);
__asm__(".symver dlsym, dlsym@" OLDEST_C_LIBRARY);
__asm__(".symver dlerror, dlerror@" OLDEST_C_LIBRARY);
#endif

/*
 * Python 3.8 and 3.9 have a number of each type's version for types with this flag, and need it for each that another
 * type is below. Headers of later ones, to which it says nothing, leave it out of the default.
 */
#define HAS_VERSION (1UL << 18)
#define BASE_FLAGS (Py_TPFLAGS_DEFAULT | Py_TPFLAGS_BASETYPE | HAS_VERSION)

enum {
    FIRST_SIZE = 4096, /* larger answers take a second call */
    LARGE = 2048, /* other threads of Python run during calls with more input, which take longer than to let them */
    BYTE_VALUES = 256,
    KNOWN_SIDS = 512
};

/* clang-format off */
#define CALLS(EACH)                                                                                                    \
    EACH(version) EACH(normalize) EACH(from_sddl) EACH(to_sddl) EACH(explain) EACH(token_read) EACH(check_with)        \
    EACH(check_many) EACH(reasons_with) EACH(derive) EACH(derive_origins) EACH(run) EACH(fault_text)                   \
    EACH(sid_from_text) EACH(sid_to_text) EACH(sid_size) EACH(parts) EACH(place) EACH(next_ace) EACH(sddl_place)       \
    EACH(build) EACH(edit) EACH(order) EACH(version_number) EACH(ace_read) EACH(ace_from_text) EACH(ace_to_text)       \
    EACH(rights_from_text) EACH(rights_to_text) EACH(flags_from_text) EACH(flags_to_text) EACH(guid_from_text)         \
    EACH(guid_to_text)

/* The objects of the module: its own types, and what load() and adopt() are given. */
#define OBJECTS(EACH)                                                                                                  \
    EACH(layout_type) EACH(entries_type) EACH(asking_type) EACH(plain_sid_type) EACH(refuse) EACH(fault_of)            \
    EACH(no_list) EACH(read_text) EACH(read_sid) EACH(read_layout) EACH(read_only) EACH(read_guid)                     \
    EACH(descriptor_type) EACH(acl_type) EACH(acl_absent) EACH(acl_null) EACH(verdict_type) EACH(ace_type)             \
    EACH(sid_type) EACH(kinds) EACH(flags) EACH(plain_type) EACH(plain_ace_type) EACH(plain_kinds)                     \
    EACH(plain_absent) EACH(plain_null)
/* clang-format on */

#define POINTER(name) __typeof__(sdtool_##name) *name;
#define OBJECT(name) PyObject *name;
struct state {
    struct {
        CALLS(POINTER)
    } library;
    OBJECTS(OBJECT)
    PyObject *known_sids[KNOWN_SIDS]; /* the last of each hash */
};

static struct state *state_of(PyObject *module)
{
    struct state *state = PyModule_GetState(module);
    if (state != NULL && state->refuse == NULL) {
        PyErr_SetString(PyExc_RuntimeError, "load() has to be called first");
        return NULL;
    }
    return state;
}

/* The state, if the objects are there and so many arguments. */
static struct state *state_for(PyObject *module, Py_ssize_t given, Py_ssize_t wanted)
{
    struct state *state = state_of(module);
    if (state != NULL && state->descriptor_type == NULL) {
        PyErr_SetString(PyExc_RuntimeError, "adopt() has to be called first");
        return NULL;
    }
    if (state != NULL && given != wanted) {
        PyErr_Format(PyExc_TypeError, "%zd arguments in place of %zd", given, wanted);
        return NULL;
    }
    return state;
}

/* Bytes, and the object that holds them, which is the view's own. */
struct view {
    PyObject *held;
    const char *bytes;
    Py_ssize_t size;
};

/* What has a fault: a descriptor in binary, or a text of SDDL in UTF-8 and the SID of its domain. */
struct given {
    const struct view *input, *domain;
};

#define NOTHING ((struct given){0})
#define DESCRIPTOR(view) ((struct given){&(view), NULL})
#define SDDL(view, domain) ((struct given){&(view), &(domain)})

/* What a function of the module makes of a fault. */
static PyObject *told(PyObject *function, struct sdtool_outcome outcome, struct given given)
{
    const struct view none = {0}, *input = given.input == NULL ? &none : given.input;
    const struct view *domain = given.domain == NULL ? &none : given.domain;
    PyObject *bytes;
    if (input->held != NULL && PyBytes_CheckExact(input->held)) {
        bytes = input->held;
        Py_INCREF(bytes);
    } else {
        bytes = Py_BuildValue("y#", input->bytes, input->size); /* None for no bytes */
        if (bytes == NULL)
            return NULL;
    }
    return PyObject_CallFunction(function, "IIIInNy#", outcome.fault, outcome.part, outcome.other_part,
                                 outcome.argument, (Py_ssize_t)outcome.entry, bytes, domain->bytes, domain->size);
}

static PyObject *refused(struct state *state, struct sdtool_outcome outcome, struct given given)
{
    PyObject *nothing = told(state->refuse, outcome, given);
    if (nothing != NULL) {
        Py_DECREF(nothing);
        PyErr_SetString(PyExc_SystemError, "a fault was not raised");
    }
    return NULL;
}

/* Raises what a function of _slots.py says of an object. One that is not made has no module to ask, so that is looked
 * up. */
static PyObject *refuse_by(const char *function, PyObject *object)
{
    PyObject *module = PyImport_ImportModule("sdtool._slots");
    PyObject *problem = module == NULL ? NULL : PyObject_CallMethod(module, function, "(O)", object);
    if (problem != NULL)
        PyErr_SetObject((PyObject *)Py_TYPE(problem), problem);
    Py_XDECREF(problem);
    Py_XDECREF(module);
    return NULL;
}

/*
 * One more reference to an object. Py_RETURN_NONE, Py_RETURN_TRUE and Py_RETURN_FALSE of headers from 3.12 on count
 * none, since these objects never end there; those of older versions do.
 */
static PyObject *counted(PyObject *object)
{
    Py_INCREF(object);
    return object;
}

static void keep(PyObject **place, PyObject *object)
{
    PyObject *other = *place;
    Py_XINCREF(object);
    *place = object;
    Py_XDECREF(other);
}

/* Keeps an object where none is kept yet, and says whether it did. */
static PyObject *keep_once(PyObject **place, PyObject *object)
{
    if (*place != NULL)
        return counted(Py_False);
    keep(place, object);
    return counted(Py_True);
}

/* What is kept, or None. */
static PyObject *kept_or_none(PyObject *object)
{
    return counted(object == NULL ? Py_None : object);
}

/* An object that holds the bytes of a descriptor, and what was found in them. Only lay() and parts() set these. */
struct layout {
    PyObject_HEAD
    PyObject *data; /* NULL in an object that is not made */
    PyObject *found;
};

#define BYTES(view) (const uint8_t *)(view).bytes, (size_t)(view).size

static void view_ends(struct view *view)
{
    Py_XDECREF(view->held);
    view->held = NULL;
}

static struct sdtool_bytes bytes_of(struct view view)
{
    struct sdtool_bytes bytes = {BYTES(view)};
    return bytes;
}

/*
 * The door. The functions from here to the end of the door are the only ones that look at an object of a caller. They
 * take one of the exact type as it is, which nobody can have changed: bytes, a str, a Sid that is a SID, a
 * SecurityDescriptor that is made. All others, and each that is wrong, go to the functions of _arguments.py that
 * adopt() is given, which give bytes or refuse. So both ways to the library have the same rules.
 */

/* Shows the bytes of an object that has them by its very type, and takes the object over. */
static bool view_held(struct view *view, PyObject *held)
{
    char *bytes = NULL;
    if (held != NULL && PyBytes_AsStringAndSize(held, &bytes, &view->size) == 0) {
        view->held = held;
        view->bytes = bytes;
        return true;
    }
    Py_XDECREF(held);
    return false;
}

/* Bytes that the door has given, or None for no bytes. */
static bool view_bytes(struct view *view, PyObject *object)
{
    *view = (struct view){0};
    if (object == Py_None)
        return true;
    if (!PyBytes_CheckExact(object)) {
        PyErr_SetString(PyExc_SystemError, "no bytes of the door");
        return false;
    }
    Py_INCREF(object);
    return view_held(view, object);
}

/* What a function of the door makes of an argument. */
static bool view_read(struct view *view, PyObject *reader, const char *name, PyObject *object)
{
    PyObject *found = PyObject_CallFunction(reader, "sO", name, object);
    bool is_seen = found != NULL && view_bytes(view, found);
    Py_XDECREF(found);
    return is_seen;
}

/* A text. One that is not in UTF-8, as half of a surrogate pair, is for the module. */
static bool view_text(struct state *state, struct view *view, PyObject *text)
{
    *view = (struct view){0};
    if (PyUnicode_CheckExact(text)) {
        view->bytes = PyUnicode_AsUTF8AndSize(text, &view->size);
        if (view->bytes != NULL) {
            Py_INCREF(text);
            view->held = text;
            return true;
        }
        PyErr_Clear();
    }
    return view_read(view, state->read_text, "text", text);
}

/* A SID or None. */
static bool view_sid(struct state *state, struct view *view, PyObject *sid, const char *name)
{
    *view = (struct view){0};
    if (sid == Py_None)
        return true;
    if ((PyObject *)Py_TYPE(sid) == state->sid_type) {
        Py_INCREF(sid);
        if (!view_held(view, sid))
            return false;
        if (view->size > 0 && state->library.sid_size(BYTES(*view)) == (size_t)view->size)
            return true;
        view_ends(view);
    }
    return view_read(view, state->read_sid, name, sid);
}

/* The bytes of a descriptor. */
static bool view_layout(struct state *state, struct view *view, PyObject *descriptor, const char *name)
{
    if (PyBytes_CheckExact(descriptor))
        return view_bytes(view, descriptor);
    if ((PyObject *)Py_TYPE(descriptor) == state->descriptor_type && ((struct layout *)descriptor)->data != NULL)
        return view_bytes(view, ((struct layout *)descriptor)->data);
    return view_read(view, state->read_layout, name, descriptor);
}

/* The one argument of a call, which the caller owns. */
static PyObject *only_argument(struct state *state, PyObject *given, PyObject *named, const char *name)
{
    PyObject *none, *found;
    if (named == NULL && PyTuple_Size(given) == 1) {
        return counted(PyTuple_GetItem(given, 0));
    }
    none = named == NULL ? PyDict_New() : NULL;
    if (named == NULL && none == NULL)
        return NULL;
    found = PyObject_CallFunction(state->read_only, "sOO", name, given, named == NULL ? none : named);
    Py_XDECREF(none);
    return found;
}

/* A number that the door has given, of so many at most. */
static bool number(PyObject *object, uint32_t most, uint32_t *found)
{
    bool is_exact = PyLong_CheckExact(object);
    unsigned long value = is_exact ? PyLong_AsUnsignedLong(object) : 0;
    if (!is_exact || PyErr_Occurred() || value > most) {
        PyErr_SetString(PyExc_SystemError, "no number of the door");
        return false;
    }
    *found = (uint32_t)value;
    return true;
}

/* The end of the door. */

static PyObject *as_bytes(const uint8_t *bytes, size_t size)
{
    return PyBytes_FromStringAndSize((const char *)bytes, (Py_ssize_t)size);
}

static PyObject *as_text(const uint8_t *bytes, size_t size)
{
    return PyUnicode_DecodeLatin1((const char *)bytes, (Py_ssize_t)size, NULL);
}

/*
 * Sets ANSWER to what CALL, an expression in which OUTPUT and SIZE are the room for its output, gives as an object made
 * by AS, or to NULL. INPUT is the size of what it reads, and GIVEN what its fault is about, a struct given.
 */
#define ASK(ANSWER, CALL, INPUT, AS, GIVEN)                                                                            \
    do {                                                                                                               \
        uint8_t first[FIRST_SIZE], *output = first;                                                                    \
        size_t size = sizeof first;                                                                                    \
        struct sdtool_outcome outcome;                                                                                 \
        for (;;) {                                                                                                     \
            PyThreadState *others = (INPUT) > LARGE ? PyEval_SaveThread() : NULL;                                      \
            outcome = CALL;                                                                                            \
            if (others != NULL)                                                                                        \
                PyEval_RestoreThread(others);                                                                          \
            if (outcome.fault != SDTOOL_TOO_SMALL || output != first)                                                  \
                break;                                                                                                 \
            size = outcome.length;                                                                                     \
            output = malloc(size);                                                                                     \
            if (output == NULL)                                                                                        \
                break;                                                                                                 \
        }                                                                                                              \
        ANSWER = output == NULL               ? PyErr_NoMemory()                                                       \
                 : outcome.fault == SDTOOL_OK ? AS(output, outcome.length)                                             \
                                              : refused(state, outcome, GIVEN);                                        \
        if (output != first)                                                                                           \
            free(output);                                                                                              \
    } while (0)

static void free_object(PyObject *self)
{
    PyTypeObject *type = Py_TYPE(self);
    ((freefunc)PyType_GetSlot(type, Py_tp_free))(self);
    Py_DECREF(type);
}

/* An object of a class of the module, as its own __new__ would allocate it. */
static PyObject *new_object(PyObject *type, Py_ssize_t items)
{
    return ((allocfunc)PyType_GetSlot((PyTypeObject *)type, Py_tp_alloc))((PyTypeObject *)type, items);
}

/*
 * A tuple of a class, of items that it takes over. If one of them is NULL, there is no tuple. From the moment on at
 * which Python knows a new tuple, others find it, as by gc.get_objects(): so its items are made before, and nothing
 * runs until it has them.
 */
static PyObject *tuple_of(PyObject *type, PyObject **items, Py_ssize_t count)
{
    PyObject *tuple = NULL;
    Py_ssize_t index, whole = 0;
    while (whole < count && items[whole] != NULL)
        whole++;
    if (whole == count)
        tuple = type == NULL ? PyTuple_New(count) : new_object(type, count);
    for (index = 0; index < count; index++)
        if (tuple == NULL)
            Py_XDECREF(items[index]);
        else
            PyTuple_SetItem(tuple, index, items[index]);
    return tuple;
}

/* A tuple of the items that were made, if no error ended that. It takes over the items and the memory that they are in.
 */
static PyObject *tuple_of_made(PyObject **items, Py_ssize_t made)
{
    PyObject *tuple = NULL;
    if (!PyErr_Occurred())
        tuple = tuple_of(NULL, items, made);
    else
        while (made > 0)
            Py_DECREF(items[--made]);
    free(items);
    return tuple;
}

/* Keeps an item of a tuple to make; says whether it is there. */
static bool put(PyObject **place, PyObject *item)
{
    *place = item;
    return item != NULL;
}

static void layout_ends(PyObject *self)
{
    Py_XDECREF(((struct layout *)self)->data);
    Py_XDECREF(((struct layout *)self)->found);
    free_object(self);
}

static PyType_Slot LAYOUT_SLOTS[] = {
    {Py_tp_dealloc, layout_ends},
    {0, NULL},
};
static PyType_Spec LAYOUT = {"sdtool._native.Layout", sizeof(struct layout), 0, BASE_FLAGS, LAYOUT_SLOTS};

/* A descriptor of the bytes of its layout, which it takes over. */
static PyObject *descriptor_of(struct state *state, PyObject *data)
{
    PyObject *descriptor = data == NULL ? NULL : new_object(state->descriptor_type, 0);
    if (descriptor == NULL)
        Py_XDECREF(data);
    else
        ((struct layout *)descriptor)->data = data;
    return descriptor;
}

/* Whether an object is of a type of this module, which its __init__ or one below it is for. */
static bool is_of(PyObject *object, PyObject *type)
{
    if (PyObject_TypeCheck(object, (PyTypeObject *)type))
        return true;
    refuse_by("another_type", object);
    return false;
}

/* Lets a descriptor have its bytes, once. */
static PyObject *lay(PyObject *module, PyObject *const *given, Py_ssize_t count)
{
    struct state *state = state_for(module, count, 2);
    if (state == NULL || !is_of(given[0], state->layout_type))
        return NULL;
    if (!PyBytes_CheckExact(given[1])) {
        PyErr_SetString(PyExc_SystemError, "no bytes of the door");
        return NULL;
    }
    return keep_once(&((struct layout *)given[0])->data, given[1]);
}

static PyObject *layout(PyObject *module, PyObject *descriptor)
{
    struct state *state = state_of(module);
    if (state == NULL || !is_of(descriptor, state->layout_type))
        return NULL;
    return kept_or_none(((struct layout *)descriptor)->data);
}

static PyObject *version(PyObject *module, PyObject *nothing)
{
    struct state *state = state_of(module);
    PyObject *answer;
    (void)nothing;
    if (state == NULL)
        return NULL;
    ASK(answer, state->library.version(output, size), 0, as_text, NOTHING);
    return answer;
}

/* A call that gives the text of a number. */
#define TEXT_OF_NUMBER(NAME)                                                                                           \
    static PyObject *NAME(PyObject *module, PyObject *given)                                                           \
    {                                                                                                                  \
        struct state *state = state_of(module);                                                                        \
        uint32_t found;                                                                                                \
        PyObject *answer;                                                                                              \
        if (state == NULL || !number(given, UINT32_MAX, &found))                                                       \
            return NULL;                                                                                               \
        ASK(answer, state->library.NAME(found, output, size), 0, as_text, NOTHING);                                    \
        return answer;                                                                                                 \
    }
TEXT_OF_NUMBER(fault_text)
TEXT_OF_NUMBER(flags_to_text)

static PyObject *normalize(PyObject *module, PyObject *argument)
{
    struct state *state = state_of(module);
    struct view data;
    PyObject *answer;
    if (state == NULL || !view_layout(state, &data, argument, "descriptor"))
        return NULL;
    ASK(answer, state->library.normalize(BYTES(data), output, size), data.size, as_bytes, DESCRIPTOR(data));
    view_ends(&data);
    return answer;
}

/* The layout of what a text and the SID of a domain say. */
static PyObject *layout_of_text(struct state *state, PyObject *const *given)
{
    struct view text, domain;
    PyObject *answer = NULL;
    if (!view_text(state, &text, given[0]))
        return NULL;
    if (view_sid(state, &domain, given[1], "domain")) {
        ASK(answer, state->library.from_sddl(BYTES(text), BYTES(domain), output, size), text.size, as_bytes,
            SDDL(text, domain));
        view_ends(&domain);
    }
    view_ends(&text);
    return answer;
}

static PyObject *from_sddl(PyObject *module, PyObject *const *given, Py_ssize_t count)
{
    struct state *state = state_for(module, count, 2);
    return state == NULL ? NULL : layout_of_text(state, given);
}

static PyObject *descriptor_of_sddl(PyObject *module, PyObject *const *given, Py_ssize_t count)
{
    struct state *state = state_for(module, count, 2);
    return state == NULL ? NULL : descriptor_of(state, layout_of_text(state, given));
}

static PyObject *descriptor_of_bytes(PyObject *module, PyObject *const *given, Py_ssize_t count)
{
    struct state *state = state_for(module, count, 1);
    struct view data;
    PyObject *answer;
    if (state == NULL || !view_layout(state, &data, given[0], "data"))
        return NULL;
    ASK(answer, state->library.normalize(BYTES(data), output, size), data.size, as_bytes, DESCRIPTOR(data));
    view_ends(&data);
    return descriptor_of(state, answer);
}

/* The descriptor, the SID of a domain or None, and whether SIDs are numbers. */
#define SHOW(NAME)                                                                                                     \
    static PyObject *NAME(PyObject *module, PyObject *const *given, Py_ssize_t count)                                  \
    {                                                                                                                  \
        struct state *state = state_for(module, count, 3);                                                             \
        struct view data, domain;                                                                                      \
        bool numeric;                                                                                                  \
        PyObject *answer = NULL;                                                                                       \
        if (state == NULL || !view_layout(state, &data, given[0], "descriptor"))                                       \
            return NULL;                                                                                               \
        numeric = given[2] == Py_True;                                                                                 \
        if (view_sid(state, &domain, given[1], "domain")) {                                                            \
            ASK(answer, state->library.NAME(BYTES(data), BYTES(domain), numeric, output, size), data.size, as_text,    \
                DESCRIPTOR(data));                                                                                     \
            view_ends(&domain);                                                                                        \
        }                                                                                                              \
        view_ends(&data);                                                                                              \
        return answer;                                                                                                 \
    }
SHOW(to_sddl)
SHOW(explain)

/* What a new object's descriptor is made of: the folder's, the creator's, the owner, the group and two numbers. */
struct derivation {
    struct view views[4];
    int seen;
    uint32_t kind, mapping;
};

static bool view_derivation(struct derivation *asked, PyObject *const *given)
{
    asked->seen = 0;
    while (asked->seen < 4 && view_bytes(&asked->views[asked->seen], given[asked->seen]))
        asked->seen++;
    return asked->seen == 4 && number(given[4], UINT32_MAX, &asked->kind)
           && number(given[5], UINT32_MAX, &asked->mapping);
}

static void derivation_ends(struct derivation *asked)
{
    while (asked->seen > 0)
        view_ends(&asked->views[--asked->seen]);
}

#define DERIVATION(asked)                                                                                              \
    BYTES(asked.views[0]), BYTES(asked.views[1]), BYTES(asked.views[2]), BYTES(asked.views[3]), asked.kind,            \
        asked.mapping

static PyObject *derive(PyObject *module, PyObject *const *given, Py_ssize_t count)
{
    struct state *state = state_for(module, count, 6);
    struct derivation asked;
    PyObject *answer = NULL;
    if (state == NULL)
        return NULL;
    if (view_derivation(&asked, given))
        ASK(answer, state->library.derive(DERIVATION(asked), output, size), asked.views[0].size + asked.views[1].size,
            as_bytes, DESCRIPTOR(asked.views[0]));
    derivation_ends(&asked);
    return answer;
}

static PyObject *origins_of(struct state *state, const struct derivation *asked)
{
    struct sdtool_origin *cells = malloc(2 * SDTOOL_MOST_DERIVED_ACES * sizeof *cells), *dacl;
    struct sdtool_origins found;
    PyObject *answer = NULL;
    PyThreadState *others;
    if (cells == NULL)
        return PyErr_NoMemory();
    dacl = cells + SDTOOL_MOST_DERIVED_ACES;
    others = asked->views[0].size + asked->views[1].size > LARGE ? PyEval_SaveThread() : NULL;
    found = state->library.derive_origins(DERIVATION((*asked)), cells, SDTOOL_MOST_DERIVED_ACES, dacl,
                                          SDTOOL_MOST_DERIVED_ACES);
    if (others != NULL)
        PyEval_RestoreThread(others);
    if (found.outcome.fault == SDTOOL_OK)
        answer = Py_BuildValue("(NN)",
                               PyBytes_FromStringAndSize((char *)cells, (Py_ssize_t)(found.sacl_count * sizeof *cells)),
                               PyBytes_FromStringAndSize((char *)dacl, (Py_ssize_t)(found.dacl_count * sizeof *cells)));
    free(cells);
    return found.outcome.fault == SDTOOL_OK ? answer : refused(state, found.outcome, DESCRIPTOR(asked->views[0]));
}

/* The origins of the SACL's and of the DACL's ACEs, as struct sdtool_origin has them. */
static PyObject *origins(PyObject *module, PyObject *const *given, Py_ssize_t count)
{
    struct state *state = state_for(module, count, 6);
    struct derivation asked;
    PyObject *answer = NULL;
    if (state == NULL)
        return NULL;
    if (view_derivation(&asked, given))
        answer = origins_of(state, &asked);
    derivation_ends(&asked);
    return answer;
}

/* The bytes of a text under a domain: of a SID, or of an ACE. */
#define FROM_TEXT(NAME)                                                                                                \
    static PyObject *NAME(PyObject *module, PyObject *const *given, Py_ssize_t count)                                  \
    {                                                                                                                  \
        struct state *state = state_for(module, count, 2);                                                             \
        struct view text, domain;                                                                                      \
        PyObject *answer = NULL;                                                                                       \
        if (state == NULL || !view_text(state, &text, given[0]))                                                       \
            return NULL;                                                                                               \
        if (view_bytes(&domain, given[1])) {                                                                           \
            ASK(answer, state->library.NAME(BYTES(text), BYTES(domain), output, size), 0, as_bytes, NOTHING);          \
            view_ends(&domain);                                                                                        \
        }                                                                                                              \
        view_ends(&text);                                                                                              \
        return answer;                                                                                                 \
    }
FROM_TEXT(sid_from_text)
FROM_TEXT(ace_from_text)

/* Its text again. */
#define TO_TEXT(NAME)                                                                                                  \
    static PyObject *NAME(PyObject *module, PyObject *const *given, Py_ssize_t count)                                  \
    {                                                                                                                  \
        struct state *state = state_for(module, count, 3);                                                             \
        struct view bytes, domain;                                                                                     \
        bool numeric;                                                                                                  \
        PyObject *answer = NULL;                                                                                       \
        if (state == NULL || !view_bytes(&bytes, given[0]))                                                            \
            return NULL;                                                                                               \
        numeric = given[2] == Py_True;                                                                                 \
        if (view_bytes(&domain, given[1])) {                                                                           \
            ASK(answer, state->library.NAME(BYTES(bytes), BYTES(domain), numeric, output, size), 0, as_text, NOTHING); \
            view_ends(&domain);                                                                                        \
        }                                                                                                              \
        view_ends(&bytes);                                                                                             \
        return answer;                                                                                                 \
    }
TO_TEXT(sid_to_text)
TO_TEXT(ace_to_text)

/* The number that a text means. */
#define NUMBER_OF_TEXT(NAME)                                                                                           \
    static PyObject *NAME(PyObject *module, PyObject *given)                                                           \
    {                                                                                                                  \
        struct state *state = state_of(module);                                                                        \
        struct view text;                                                                                              \
        struct sdtool_number found;                                                                                    \
        if (state == NULL || !view_text(state, &text, given))                                                          \
            return NULL;                                                                                               \
        found = state->library.NAME(BYTES(text));                                                                      \
        view_ends(&text);                                                                                              \
        return found.outcome.fault == SDTOOL_OK ? PyLong_FromUnsignedLong(found.number)                                \
                                                : refused(state, found.outcome, NOTHING);                              \
    }
NUMBER_OF_TEXT(rights_from_text)
NUMBER_OF_TEXT(flags_from_text)

static PyObject *rights_to_text(PyObject *module, PyObject *const *given, Py_ssize_t count)
{
    struct state *state = state_for(module, count, 2);
    uint32_t mask;
    PyObject *answer;
    if (state == NULL || !number(given[0], UINT32_MAX, &mask))
        return NULL;
    ASK(answer, state->library.rights_to_text(mask, given[1] == Py_True, output, size), 0, as_text, NOTHING);
    return answer;
}

static PyObject *guid_from_text(PyObject *module, PyObject *given)
{
    struct state *state = state_of(module);
    struct view text;
    PyObject *answer;
    if (state == NULL || !view_text(state, &text, given))
        return NULL;
    ASK(answer, state->library.guid_from_text(BYTES(text), output, size), 0, as_bytes, NOTHING);
    view_ends(&text);
    return answer;
}

static PyObject *guid_to_text(PyObject *module, PyObject *given)
{
    struct state *state = state_of(module);
    struct view guid;
    PyObject *answer;
    if (state == NULL || !view_bytes(&guid, given))
        return NULL;
    ASK(answer, state->library.guid_to_text(BYTES(guid), output, size), 0, as_text, NOTHING);
    view_ends(&guid);
    return answer;
}

static PyObject *is_one_sid(PyObject *module, PyObject *argument)
{
    struct state *state = state_of(module);
    struct view bytes;
    bool is_one;
    if (state == NULL || !view_bytes(&bytes, argument))
        return NULL;
    is_one = bytes.size > 0 && state->library.sid_size(BYTES(bytes)) == (size_t)bytes.size;
    view_ends(&bytes);
    return PyBool_FromLong(is_one);
}

/* A place by its numbers: part, ACE, field, offset and size; or None. */
static PyObject *place_told(struct sdtool_fault_place found)
{
    if (found.fault == SDTOOL_OK)
        return counted(Py_None);
    return Py_BuildValue("IIInn", found.part, found.ace, found.field, (Py_ssize_t)found.place.offset,
                         (Py_ssize_t)found.place.size);
}

/* Where the first fault of a descriptor is. */
static PyObject *place_of(PyObject *module, PyObject *argument)
{
    struct state *state = state_of(module);
    struct view data;
    struct sdtool_fault_place found;
    if (state == NULL || !view_bytes(&data, argument))
        return NULL;
    found = state->library.place(BYTES(data));
    view_ends(&data);
    return place_told(found);
}

/* Where the first fault of a text of SDDL is, under the SID of a domain or None. */
static PyObject *sddl_place(PyObject *module, PyObject *const *given, Py_ssize_t count)
{
    struct state *state = state_for(module, count, 2);
    struct view text, domain;
    struct sdtool_fault_place found = {0};
    PyThreadState *others;
    if (state == NULL || !view_bytes(&text, given[0]))
        return NULL;
    if (!view_bytes(&domain, given[1])) {
        view_ends(&text);
        return NULL;
    }
    others = text.size > LARGE ? PyEval_SaveThread() : NULL;
    found = state->library.sddl_place(BYTES(text), BYTES(domain));
    if (others != NULL)
        PyEval_RestoreThread(others);
    view_ends(&domain);
    view_ends(&text);
    return place_told(found);
}

static PyObject *run(PyObject *module, PyObject *const *given, Py_ssize_t count)
{
    struct state *state = state_for(module, count, 2);
    struct view words, input;
    uint8_t message[SDTOOL_MOST_MESSAGE], *output = NULL;
    struct sdtool_ending ending = {0};
    size_t size;
    PyObject *answer = NULL;
    if (state == NULL || !view_bytes(&words, given[0]))
        return NULL;
    if (!view_bytes(&input, given[1])) {
        view_ends(&words);
        return NULL;
    }
    size = FIRST_SIZE + 4 * (size_t)input.size;
    for (;;) {
        uint8_t *larger = realloc(output, size);
        if (larger == NULL) {
            ending.status = SDTOOL_STATUS_NO_MEMORY;
            break;
        }
        output = larger;
        Py_BEGIN_ALLOW_THREADS ending = state->library.run(BYTES(words), BYTES(input), output, size, message,
                                                           sizeof message);
        Py_END_ALLOW_THREADS
            /* Help that was cut ends with 0. */
            if (ending.status != SDTOOL_STATUS_STOPPED && ending.length < size) break;
        size *= 4;
    }
    answer = ending.status == SDTOOL_STATUS_NO_MEMORY
                 ? PyErr_NoMemory()
                 : Py_BuildValue("Iy#y#", ending.status, output, (Py_ssize_t)ending.length, message,
                                 (Py_ssize_t)ending.message_length);
    free(output);
    view_ends(&input);
    view_ends(&words);
    return answer;
}

/* A token, which is read once. */
struct token {
    struct view sids, entries;
    uint32_t *words;
    size_t count;
};

static const char TOKEN[] = "sdtool.token";

static void free_token(struct token *token)
{
    view_ends(&token->sids);
    view_ends(&token->entries);
    free(token->words);
    free(token);
}

static void token_ends(PyObject *capsule)
{
    free_token(PyCapsule_GetPointer(capsule, TOKEN));
}

static int read_token(struct state *state, struct token *token)
{
    struct sdtool_outcome outcome;
    size_t sids = token->entries.size < SDTOOL_MOST_SIDS ? token->entries.size : SDTOOL_MOST_SIDS;
    token->count = SDTOOL_TOKEN_WORDS(sids);
    token->words = malloc(token->count * sizeof *token->words);
    if (token->words == NULL) {
        PyErr_NoMemory();
        return 0;
    }
    outcome = state->library.token_read(BYTES(token->sids), BYTES(token->entries), token->words, token->count);
    if (outcome.fault != SDTOOL_OK)
        refused(state, outcome, NOTHING);
    return outcome.fault == SDTOOL_OK;
}

static PyObject *token(PyObject *module, PyObject *const *given, Py_ssize_t count)
{
    struct state *state = state_for(module, count, 2);
    struct token *token = state == NULL ? NULL : calloc(1, sizeof *token);
    PyObject *capsule = NULL;
    if (token == NULL)
        return state == NULL ? NULL : PyErr_NoMemory();
    if (view_bytes(&token->sids, given[0]) && view_bytes(&token->entries, given[1]) && read_token(state, token))
        capsule = PyCapsule_New(token, TOKEN, token_ends);
    if (capsule == NULL)
        free_token(token);
    return capsule;
}

/* The token and the request of checks. */
struct question {
    PyObject *module, *capsule;
    const struct token *token; /* that of the capsule */
    struct view object, principal_self;
    struct sdtool_request request;
};

static const char QUESTION[] = "sdtool.question";

static void free_question(struct question *question)
{
    Py_XDECREF(question->module);
    Py_XDECREF(question->capsule);
    view_ends(&question->object);
    view_ends(&question->principal_self);
    free(question);
}

static void question_ends(PyObject *capsule)
{
    free_question(PyCapsule_GetPointer(capsule, QUESTION));
}

static PyObject *question(PyObject *module, PyObject *const *given, Py_ssize_t count)
{
    struct state *state = state_for(module, count, 10);
    struct question *question = state == NULL ? NULL : calloc(1, sizeof *question);
    struct sdtool_request *request;
    PyObject *capsule = NULL;
    if (question == NULL)
        return state == NULL ? NULL : PyErr_NoMemory();
    request = &question->request;
    question->token = PyCapsule_GetPointer(given[0], TOKEN);
    if (question->token != NULL && view_bytes(&question->object, given[1])
        && view_bytes(&question->principal_self, given[2]) && number(given[3], UINT32_MAX, &request->wanted)
        && number(given[4], UINT32_MAX, &request->asker.mapping)
        && number(given[5], UINT32_MAX, &request->asker.level)) {
        request->asker.options = (given[6] == Py_True ? SDTOOL_HAS_LEVEL : 0)
                                 | (given[8] == Py_True ? SDTOOL_SECURITY : 0)
                                 | (given[9] == Py_True ? SDTOOL_TAKE_OWNERSHIP : 0);
        request->options = given[7] == Py_True ? SDTOOL_MAXIMUM : 0;
        capsule = PyCapsule_New(question, QUESTION, question_ends);
    }
    if (capsule == NULL) {
        free_question(question);
        return NULL;
    }
    Py_INCREF(module);
    question->module = module;
    Py_INCREF(given[0]);
    question->capsule = given[0];
    return capsule;
}

static PyObject *verdict_of(struct state *state, struct sdtool_verdict found)
{
    PyObject *granted = found.granted ? Py_True : Py_False;
    Py_INCREF(granted);
    return tuple_of(state->verdict_type, (PyObject *[]){granted, PyLong_FromUnsignedLong(found.mask)}, 2);
}

static PyObject *verdict_on(struct state *state, const struct question *asked, PyObject *descriptor)
{
    struct view data;
    struct sdtool_verdict verdict;
    PyThreadState *others;
    PyObject *answer;
    if (!view_layout(state, &data, descriptor, "descriptor"))
        return NULL;
    others = data.size + asked->token->sids.size > LARGE ? PyEval_SaveThread() : NULL;
    verdict = state->library.check_with(BYTES(data), asked->token->words, asked->token->count, BYTES(asked->object),
                                        BYTES(asked->principal_self), &asked->request);
    if (others != NULL)
        PyEval_RestoreThread(others);
    answer = verdict.outcome.fault == SDTOOL_OK ? verdict_of(state, verdict)
                                                : refused(state, verdict.outcome, DESCRIPTOR(data));
    view_ends(&data);
    return answer;
}

static PyObject *check(PyObject *module, PyObject *const *given, Py_ssize_t count)
{
    struct state *state = state_for(module, count, 2);
    const struct question *asked = state == NULL ? NULL : PyCapsule_GetPointer(given[0], QUESTION);
    return asked == NULL ? NULL : verdict_on(state, asked, given[1]);
}

/* The reasons for all rights, as struct sdtool_reason has them. */
static PyObject *reasons(PyObject *module, PyObject *const *given, Py_ssize_t count)
{
    struct state *state = state_for(module, count, 2);
    const struct question *asked = state == NULL ? NULL : PyCapsule_GetPointer(given[0], QUESTION);
    struct sdtool_reason why[SDTOOL_RIGHTS];
    struct sdtool_outcome outcome;
    struct view data;
    PyThreadState *others;
    PyObject *answer;
    if (asked == NULL || !view_layout(state, &data, given[1], "descriptor"))
        return NULL;
    others = data.size + asked->token->sids.size > LARGE ? PyEval_SaveThread() : NULL;
    outcome = state->library.reasons_with(BYTES(data), asked->token->words, asked->token->count, BYTES(asked->object),
                                          BYTES(asked->principal_self), &asked->request.asker, why);
    if (others != NULL)
        PyEval_RestoreThread(others);
    answer = outcome.fault == SDTOOL_OK ? PyBytes_FromStringAndSize((const char *)why, sizeof why)
                                        : refused(state, outcome, DESCRIPTOR(data));
    view_ends(&data);
    return answer;
}

/* An object that is called with a descriptor. */
struct asking {
    PyObject_HEAD
    PyObject *question;
};

static void asking_ends(PyObject *self)
{
    Py_XDECREF(((struct asking *)self)->question);
    free_object(self);
}

static PyObject *asking_call(PyObject *self, PyObject *given, PyObject *named)
{
    PyObject *capsule = ((struct asking *)self)->question, *descriptor, *answer = NULL;
    const struct question *asked;
    struct state *state;
    if (capsule == NULL)
        return refuse_by("not_made", self);
    Py_INCREF(capsule);
    asked = PyCapsule_GetPointer(capsule, QUESTION);
    state = asked == NULL ? NULL : state_for(asked->module, 1, 1);
    descriptor = state == NULL ? NULL : only_argument(state, given, named, "descriptor");
    if (descriptor != NULL)
        answer = verdict_on(state, asked, descriptor);
    Py_XDECREF(descriptor);
    Py_DECREF(capsule);
    return answer;
}

static PyType_Slot ASKING_SLOTS[] = {
    {Py_tp_dealloc, asking_ends},
    {Py_tp_call, asking_call},
    {0, NULL},
};
static PyType_Spec ASKING = {"sdtool._native.Asking", sizeof(struct asking), 0, BASE_FLAGS, ASKING_SLOTS};

/* Lets a checker have its question, once. */
static PyObject *ask(PyObject *module, PyObject *const *given, Py_ssize_t count)
{
    struct state *state = state_for(module, count, 2);
    if (state == NULL || !is_of(given[0], state->asking_type) || PyCapsule_GetPointer(given[1], QUESTION) == NULL)
        return NULL;
    return keep_once(&((struct asking *)given[0])->question, given[1]);
}

static PyObject *asked(PyObject *module, PyObject *checker)
{
    struct state *state = state_of(module);
    if (state == NULL || !is_of(checker, state->asking_type))
        return NULL;
    return kept_or_none(((struct asking *)checker)->question);
}

/* Descriptors, each read when it is taken. */
struct batch {
    struct view *views;
    size_t count, room;
};

static void batch_ends(struct batch *batch)
{
    while (batch->count > 0)
        view_ends(&batch->views[--batch->count]);
    free(batch->views);
}

static bool batch_grows(struct batch *batch)
{
    size_t room = batch->room == 0 ? 64 : 2 * batch->room;
    struct view *views;
    if (batch->count < batch->room)
        return true;
    views = room > SIZE_MAX / sizeof *views ? NULL : realloc(batch->views, room * sizeof *views);
    if (views == NULL) {
        PyErr_NoMemory();
        return false;
    }
    batch->views = views;
    batch->room = room;
    return true;
}

static bool take_all(struct state *state, struct batch *batch, PyObject *iterable)
{
    PyObject *iterator = PyObject_GetIter(iterable), *descriptor;
    bool is_taken = iterator != NULL;
    while (is_taken && (descriptor = PyIter_Next(iterator)) != NULL) {
        is_taken = batch_grows(batch) && view_layout(state, &batch->views[batch->count], descriptor, "descriptors");
        Py_DECREF(descriptor);
        batch->count += is_taken;
    }
    Py_XDECREF(iterator);
    return is_taken && !PyErr_Occurred();
}

/* The verdict, or the Fault, of each of some descriptors. */
static PyObject *answers_of(struct state *state, const struct sdtool_verdict *verdicts, const struct batch *batch)
{
    PyObject *answers = PyList_New(0);
    size_t index;
    for (index = 0; answers != NULL && index < batch->count; index++) {
        struct sdtool_verdict found = verdicts[index];
        PyObject *answer = found.outcome.fault == SDTOOL_OK
                               ? verdict_of(state, found)
                               : told(state->fault_of, found.outcome, DESCRIPTOR(batch->views[index]));
        if (answer == NULL || PyList_Append(answers, answer) < 0)
            Py_CLEAR(answers);
        Py_XDECREF(answer);
    }
    return answers;
}

/* The answers on a batch. */
static PyObject *answers_on(struct state *state, const struct question *asked, const struct batch *batch)
{
    struct sdtool_bytes *descriptors = calloc(batch->count + 1, sizeof *descriptors);
    struct sdtool_verdict *verdicts = calloc(batch->count + 1, sizeof *verdicts);
    struct sdtool_outcome outcome;
    PyObject *answers;
    size_t index;
    if (descriptors == NULL || verdicts == NULL) {
        answers = PyErr_NoMemory();
    } else {
        for (index = 0; index < batch->count; index++)
            descriptors[index] = bytes_of(batch->views[index]);
        Py_BEGIN_ALLOW_THREADS outcome = state->library.check_many(
            descriptors, batch->count, BYTES(asked->token->sids), BYTES(asked->token->entries), BYTES(asked->object),
            BYTES(asked->principal_self), &asked->request, verdicts, batch->count);
        Py_END_ALLOW_THREADS answers = outcome.fault == SDTOOL_OK ? answers_of(state, verdicts, batch)
                                                                  : refused(state, outcome, NOTHING);
    }
    free(descriptors);
    free(verdicts);
    return answers;
}

static PyObject *check_many(PyObject *module, PyObject *const *given, Py_ssize_t count)
{
    struct state *state = state_for(module, count, 2);
    const struct question *asked = state == NULL ? NULL : PyCapsule_GetPointer(given[0], QUESTION);
    struct batch batch = {0};
    PyObject *answers = NULL;
    if (asked != NULL && take_all(state, &batch, given[1]))
        answers = answers_on(state, asked, &batch);
    batch_ends(&batch);
    return answers;
}

/* A SID of bytes that the library has seen. The last ones are kept, since the same few are in most descriptors. */
static PyObject *sid_of(struct state *state, const uint8_t *bytes, size_t size)
{
    PyObject *plain, *arguments, *sid, **known;
    uint32_t hash = (uint32_t)size;
    size_t at;
    for (at = 0; at + sizeof hash <= size; at += sizeof hash) {
        uint32_t word;
        memcpy(&word, bytes + at, sizeof word);
        hash = (hash ^ word) * 0x9e3779b1u;
        hash ^= hash >> 15;
    }
    known = &state->known_sids[hash % KNOWN_SIDS];
    if (*known != NULL && (PyObject *)Py_TYPE(*known) == state->sid_type && (size_t)PyBytes_Size(*known) == size
        && memcmp(PyBytes_AsString(*known), bytes, size) == 0) {
        return counted(*known);
    }
    plain = as_bytes(bytes, size);
    arguments = plain == NULL ? NULL : PyTuple_New(1);
    if (arguments == NULL) {
        Py_XDECREF(plain);
        return NULL;
    }
    PyTuple_SetItem(arguments, 0, plain);
    sid = ((newfunc)PyType_GetSlot((PyTypeObject *)state->plain_sid_type, Py_tp_new))((PyTypeObject *)state->sid_type,
                                                                                      arguments, NULL);
    Py_DECREF(arguments);
    if (sid != NULL) {
        PyObject *other = *known;
        Py_INCREF(sid);
        *known = sid;
        Py_XDECREF(other);
    }
    return sid;
}

/* The SID at a place of bytes, or None. */
static PyObject *sid_at(struct state *state, const struct view *bytes, struct sdtool_place place)
{
    if (place.size == 0)
        return counted(Py_None);
    return sid_of(state, (const uint8_t *)bytes->bytes + place.offset, place.size);
}

/* The GUID at a place of bytes, or None. */
static PyObject *guid_at(struct state *state, const struct view *bytes, struct sdtool_place place)
{
    if (place.size == 0)
        return counted(Py_None);
    return PyObject_CallFunction(state->read_guid, "y#", bytes->bytes + place.offset, (Py_ssize_t)place.size);
}

static PyObject *entry(PyObject *values, uint8_t number)
{
    PyObject *value = PyTuple_GetItem(values, number);
    if (value == Py_None) {
        PyErr_SetString(PyExc_SystemError, "an ACE has a type that the module has no name for");
        return NULL;
    }
    Py_XINCREF(value);
    return value;
}

static PyObject *ace_of(struct state *state, const struct view *acl, const struct sdtool_ace *found)
{
    PyObject *fields[6] = {NULL};
    bool is_whole = put(&fields[0], entry(state->kinds, found->kind))
                    && put(&fields[1], entry(state->flags, found->flags))
                    && put(&fields[2], PyLong_FromUnsignedLong(found->mask))
                    && put(&fields[3], sid_at(state, acl, found->sid))
                    && put(&fields[4], guid_at(state, acl, found->object_type))
                    && put(&fields[5], guid_at(state, acl, found->inherited_object_type));
    (void)is_whole;
    return tuple_of(state->ace_type, fields, 6);
}

/* The ACE that bytes are, or None if bytes are behind it. */
static PyObject *ace_read(PyObject *module, PyObject *given)
{
    struct state *state = state_of(module);
    struct view data;
    struct sdtool_ace ace;
    PyObject *answer;
    if (state == NULL || !view_bytes(&data, given))
        return NULL;
    ace = state->library.ace_read(BYTES(data));
    if (ace.fault != SDTOOL_OK)
        answer = refused(state, (struct sdtool_outcome){.fault = ace.fault}, NOTHING);
    else
        answer = ace.place.size == (size_t)data.size ? ace_of(state, &data, &ace) : counted(Py_None);
    view_ends(&data);
    return answer;
}

/* Reads the ACEs of an ACL that has so many; says how many there are. After an error that is less. */
static Py_ssize_t read_aces(struct state *state, const struct view *acl, PyObject **aces, Py_ssize_t count)
{
    struct sdtool_ace ace = {0};
    Py_ssize_t seen = 0;
    while (state->library.next_ace(BYTES(*acl), &ace)) {
        if (seen == count) {
            PyErr_SetString(PyExc_SystemError, "an ACL has more ACEs than its descriptor says");
            return seen;
        }
        aces[seen] = ace_of(state, acl, &ace);
        if (aces[seen] == NULL)
            return seen;
        seen++;
    }
    if (ace.fault != SDTOOL_OK)
        refused(state, (struct sdtool_outcome){.fault = ace.fault}, NOTHING);
    else if (seen < count)
        PyErr_SetString(PyExc_SystemError, "an ACL has fewer ACEs than its descriptor says");
    return seen;
}

/* The ACEs of an ACL that has so many, as a tuple. */
static PyObject *aces_of(struct state *state, const struct view *acl, Py_ssize_t count)
{
    PyObject **aces = calloc((size_t)count + 1, sizeof *aces);
    if (aces == NULL)
        return PyErr_NoMemory();
    return tuple_of_made(aces, read_aces(state, acl, aces, count));
}

/* An ACL. Of a list in a descriptor it keeps where it lies, and makes its ACEs when they are asked for. */
struct entries {
    PyObject_HEAD
    PyObject *module; /* NULL in an object that is not made: it has none of the states below */
    PyObject *data;
    PyObject *aces;
    struct sdtool_place place;
    Py_ssize_t count;
    int state; /* one of enum sdtool_acl_state */
};

/* From Python 3.9 on, an object of a class that was made at run time counts as a reference to the class. */
static bool counts_classes;

static int entries_traverse(PyObject *self, visitproc visit, void *arg)
{
    if (counts_classes)
        Py_VISIT(Py_TYPE(self));
    Py_VISIT(((struct entries *)self)->module);
    Py_VISIT(((struct entries *)self)->aces);
    return 0;
}

static int entries_clear(PyObject *self)
{
    Py_CLEAR(((struct entries *)self)->module);
    Py_CLEAR(((struct entries *)self)->aces);
    return 0;
}

static void entries_end(PyObject *self)
{
    PyObject_GC_UnTrack(self);
    entries_clear(self);
    Py_XDECREF(((struct entries *)self)->data);
    free_object(self);
}

/* The ACEs as a tuple. What is no list goes to no_list, which says that. */
static PyObject *entries_list(PyObject *self)
{
    struct entries *acl = (struct entries *)self;
    struct state *state = acl->module == NULL ? NULL : state_for(acl->module, 1, 1);
    PyObject *aces;
    if (acl->module == NULL)
        return refuse_by("not_made", self);
    if (state == NULL)
        return NULL;
    if (acl->state != SDTOOL_ACL_LIST) {
        aces = PyObject_CallFunction(state->no_list, "(O)", self);
        Py_XDECREF(aces);
        if (aces != NULL)
            PyErr_SetString(PyExc_SystemError, "an ACL without a list was taken as one");
        return NULL;
    }
    if (acl->aces == NULL) {
        struct view whole, part = {0};
        if (!view_bytes(&whole, acl->data))
            return NULL;
        part.bytes = whole.bytes + acl->place.offset;
        part.size = (Py_ssize_t)acl->place.size;
        aces = aces_of(state, &part, acl->count);
        view_ends(&whole);
        if (aces == NULL)
            return NULL;
        if (acl->aces == NULL) /* what that ran may have asked for them too */
            acl->aces = aces;
        else
            Py_DECREF(aces);
    }
    return counted(acl->aces);
}

static PyObject *entries_iter(PyObject *self)
{
    PyObject *aces = entries_list(self), *iterator = aces == NULL ? NULL : PyObject_GetIter(aces);
    Py_XDECREF(aces);
    return iterator;
}

static Py_ssize_t entries_length(PyObject *self)
{
    PyObject *aces = entries_list(self);
    Py_ssize_t length = aces == NULL ? -1 : PyTuple_Size(aces);
    Py_XDECREF(aces);
    return length;
}

static PyType_Slot ENTRIES_SLOTS[] = {
    {Py_tp_dealloc, entries_end}, {Py_tp_traverse, entries_traverse}, {Py_tp_clear, entries_clear},
    {Py_tp_iter, entries_iter},   {Py_sq_length, entries_length},     {0, NULL},
};
static PyType_Spec ENTRIES = {"sdtool._native.Entries", sizeof(struct entries), 0, BASE_FLAGS | Py_TPFLAGS_HAVE_GC,
                              ENTRIES_SLOTS};

static PyObject *aces(PyObject *module, PyObject *acl)
{
    struct state *state = state_of(module);
    return state == NULL || !is_of(acl, state->entries_type) ? NULL : entries_list(acl);
}

/* The state of an ACL, or None of one that is not made. */
static PyObject *state_of_acl(PyObject *module, PyObject *acl)
{
    struct state *state = state_of(module);
    if (state == NULL || !is_of(acl, state->entries_type))
        return NULL;
    if (((struct entries *)acl)->module == NULL)
        return counted(Py_None);
    return PyLong_FromLong(((struct entries *)acl)->state);
}

/* Lets an ACL have its state, and its ACEs, which are None where there is no list, once. */
static PyObject *fill(PyObject *module, PyObject *arguments)
{
    struct state *state = state_of(module);
    PyObject *acl, *which, *aces;
    struct entries *entries;
    uint32_t number_of_state;
    if (state == NULL || !PyArg_ParseTuple(arguments, "OOO", &acl, &which, &aces) || !is_of(acl, state->entries_type)
        || !number(which, SDTOOL_ACL_LIST, &number_of_state))
        return NULL;
    if (number_of_state == SDTOOL_ACL_LIST ? !PyTuple_CheckExact(aces) : aces != Py_None) {
        PyErr_SetString(PyExc_SystemError, "no ACEs of the door");
        return NULL;
    }
    entries = (struct entries *)acl;
    if (entries->module != NULL)
        return counted(Py_False);
    entries->state = (int)number_of_state;
    keep(&entries->aces, aces == Py_None ? NULL : aces);
    keep(&entries->module, module);
    return counted(Py_True);
}

/* The ACL that lies at a place of the bytes of a descriptor. */
static PyObject *acl_at(PyObject *module, struct state *state, PyObject *data, struct sdtool_acl_place place)
{
    PyObject *acl = place.state == SDTOOL_ACL_LIST   ? new_object(state->acl_type, 0)
                    : place.state == SDTOOL_ACL_NULL ? state->acl_null
                                                     : state->acl_absent;
    if (place.state != SDTOOL_ACL_LIST) {
        Py_INCREF(acl);
    } else if (acl != NULL) {
        struct entries *entries = (struct entries *)acl;
        keep(&entries->module, module);
        keep(&entries->data, data);
        entries->place = place.place;
        entries->count = (Py_ssize_t)place.ace_count;
        entries->state = SDTOOL_ACL_LIST;
    }
    return acl;
}

/* What the library has found in the bytes of a descriptor. */
static PyObject *contents_of(PyObject *module, struct state *state, const struct view *data,
                             struct sdtool_contents found)
{
    PyObject *fields[6] = {NULL};
    bool is_whole = put(&fields[0], PyLong_FromLong(found.control))
                    && put(&fields[1], PyLong_FromLong(found.resource_manager))
                    && put(&fields[2], sid_at(state, data, found.owner))
                    && put(&fields[3], sid_at(state, data, found.group))
                    && put(&fields[4], acl_at(module, state, data->held, found.sacl))
                    && put(&fields[5], acl_at(module, state, data->held, found.dacl));
    (void)is_whole;
    return tuple_of(NULL, fields, 6);
}

/* What is in a descriptor: control, resource manager, owner, group, SACL and DACL. The descriptor keeps it. */
static PyObject *parts(PyObject *module, PyObject *descriptor)
{
    struct state *state = state_for(module, 1, 1);
    struct layout *layout = (struct layout *)descriptor;
    struct view data;
    struct sdtool_contents found;
    PyObject *answer;
    if (state == NULL || !is_of(descriptor, state->layout_type))
        return NULL;
    if (layout->found != NULL) {
        return counted(layout->found);
    }
    if (!view_layout(state, &data, descriptor, "descriptor"))
        return NULL;
    found = state->library.parts(BYTES(data));
    answer = found.outcome.fault == SDTOOL_OK ? contents_of(module, state, &data, found)
                                              : refused(state, found.outcome, DESCRIPTOR(data));
    view_ends(&data);
    if (answer != NULL)
        keep(&layout->found, answer);
    return answer;
}

/* Bytes in a tuple, which holds them. */
static bool bytes_in(PyObject *tuple, Py_ssize_t index, struct sdtool_bytes *bytes)
{
    struct view view;
    if (!view_bytes(&view, PyTuple_GetItem(tuple, index)))
        return false;
    *bytes = bytes_of(view);
    view_ends(&view);
    return true;
}

static bool number_in(PyObject *tuple, Py_ssize_t index, uint32_t most, uint32_t *found)
{
    return number(PyTuple_GetItem(tuple, index), most, found);
}

static bool is_tuple(PyObject *object, Py_ssize_t count)
{
    if (object != NULL && PyTuple_CheckExact(object) && (count < 0 || PyTuple_Size(object) == count))
        return true;
    PyErr_SetString(PyExc_SystemError, "no tuple of the door");
    return false;
}

/* The fields of an ACE to build. The bytes are those of the objects in a tuple. */
static bool new_ace(PyObject *fields, struct sdtool_new_ace *ace)
{
    uint32_t kind, flags;
    if (!is_tuple(fields, 6) || !number_in(fields, 0, UINT8_MAX, &kind) || !number_in(fields, 1, UINT8_MAX, &flags)
        || !number_in(fields, 2, UINT32_MAX, &ace->mask) || !bytes_in(fields, 3, &ace->sid)
        || !bytes_in(fields, 4, &ace->object_type) || !bytes_in(fields, 5, &ace->inherited_object_type))
        return false;
    ace->kind = (uint8_t)kind;
    ace->flags = (uint8_t)flags;
    return true;
}

/* Reads a state, and a tuple of tuples, the fields of ACEs. What it allocates is the caller's to free. */
static bool new_acl(PyObject *which, PyObject *tuple, struct sdtool_new_acl *acl)
{
    Py_ssize_t index;
    struct sdtool_new_ace *aces;
    if (!number(which, SDTOOL_ACL_LIST, &acl->state) || !is_tuple(tuple, -1))
        return false;
    acl->ace_count = (size_t)PyTuple_Size(tuple);
    aces = calloc(acl->ace_count + 1, sizeof *aces);
    acl->aces = aces;
    if (aces == NULL) {
        PyErr_NoMemory();
        return false;
    }
    for (index = 0; index < (Py_ssize_t)acl->ace_count; index++)
        if (!new_ace(PyTuple_GetItem(tuple, index), &aces[index]))
            return false;
    return true;
}

/* Control, resource manager, owner, group, the state of the SACL and its ACEs, and those of the DACL, all from the
 * door. */
static PyObject *build(PyObject *module, PyObject *arguments)
{
    struct state *state = state_for(module, PyTuple_Size(arguments), 8);
    struct sdtool_new_descriptor descriptor = {0};
    uint32_t control, resource_manager;
    PyObject *answer = NULL;
    if (state != NULL && number_in(arguments, 0, UINT16_MAX, &control)
        && number_in(arguments, 1, UINT8_MAX, &resource_manager) && bytes_in(arguments, 2, &descriptor.owner)
        && bytes_in(arguments, 3, &descriptor.group)
        && new_acl(PyTuple_GetItem(arguments, 4), PyTuple_GetItem(arguments, 5), &descriptor.sacl)
        && new_acl(PyTuple_GetItem(arguments, 6), PyTuple_GetItem(arguments, 7), &descriptor.dacl)) {
        descriptor.control = (uint16_t)control;
        descriptor.resource_manager = (uint8_t)resource_manager;
        ASK(answer, state->library.build(&descriptor, output, size), 0, as_bytes, NOTHING);
    }
    free((void *)descriptor.sacl.aces);
    free((void *)descriptor.dacl.aces);
    return answer;
}

/* How many ACEs each change of an edit put, took or set. */
static PyObject *counts(const uint32_t *touched, size_t count)
{
    size_t index;
    PyObject *found = PyTuple_New((Py_ssize_t)count);
    for (index = 0; found != NULL && index < count; index++) {
        PyObject *number = PyLong_FromUnsignedLong(touched[index]);
        if (number == NULL || PyTuple_SetItem(found, (Py_ssize_t)index, number) < 0)
            Py_CLEAR(found);
    }
    return found;
}

/* A descriptor, and changes in the bytes of struct sdtool_change. */
static PyObject *edit(PyObject *module, PyObject *arguments)
{
    struct state *state = state_for(module, PyTuple_Size(arguments), 2);
    struct view data, changes;
    PyObject *fields[2] = {NULL};
    if (state == NULL || !view_bytes(&data, PyTuple_GetItem(arguments, 0)))
        return NULL;
    if (view_bytes(&changes, PyTuple_GetItem(arguments, 1))) {
        size_t count = (size_t)changes.size / sizeof(struct sdtool_change);
        struct sdtool_change *given = malloc((count + 1) * sizeof *given);
        uint32_t *touched = calloc(count + 1, sizeof *touched);
        if (given == NULL || touched == NULL) {
            PyErr_NoMemory();
        } else {
            memcpy(given, changes.bytes, count * sizeof *given);
            ASK(fields[0], state->library.edit(BYTES(data), given, count, touched, count, output, size), data.size,
                as_bytes, DESCRIPTOR(data));
            if (fields[0] != NULL)
                fields[0] = descriptor_of(state, fields[0]);
            if (fields[0] != NULL)
                fields[1] = counts(touched, count);
        }
        free(given);
        free(touched);
        view_ends(&changes);
    }
    view_ends(&data);
    return tuple_of(NULL, fields, 2);
}

/* Where the order of the two ACLs of a descriptor ends. */
static PyObject *order(PyObject *module, PyObject *given)
{
    struct state *state = state_for(module, 1, 1);
    struct view data;
    struct sdtool_acl_order found;
    PyObject *answer;
    if (state == NULL || !view_bytes(&data, given))
        return NULL;
    found = state->library.order(BYTES(data));
    answer = found.outcome.fault == SDTOOL_OK ? Py_BuildValue("II", found.sacl, found.dacl)
                                              : refused(state, found.outcome, DESCRIPTOR(data));
    view_ends(&data);
    return answer;
}

/*
 * Many descriptors in plain values: tuples, numbers and texts. What the bytes of an ACL, an ACE, a SID or a GUID say is
 * made once and kept, since the same few are in most descriptors. The caller holds what is kept, in dicts by the bytes.
 */
enum {
    MOST_KEPT = 8192,    /* a dict of more is emptied */
    LARGEST_KEPT = 1024, /* bytes */
    KEPT = 4             /* dicts: of ACLs, ACEs, SIDs and GUIDs */
};

struct plain {
    struct state *state;
    struct view domain;
    PyObject *acls, *aces, *sids, *guids;
    uint8_t *room; /* SDTOOL_MOST_BYTES, for the layout of a text */
};

/* Bytes, a place in them, and what the library has found there: an ACE, the number of ACEs of an ACL, or nothing. */
struct source {
    const uint8_t *bytes;
    struct sdtool_place place;
    const void *found;
};

#define AT(source) (source)->bytes + (source)->place.offset, (source)->place.size

/* Makes what bytes say. */
typedef PyObject *make(const struct plain *plain, const struct source *source);

/* What bytes say, as it was made before, or is made. Where there are none it is None. */
static PyObject *once(const struct plain *plain, PyObject *kept, make *make, struct source source)
{
    PyObject *key, *value;
    if (source.place.size == 0)
        return counted(Py_None);
    if (source.place.size > LARGEST_KEPT)
        return make(plain, &source);
    key = as_bytes(AT(&source));
    value = key == NULL ? NULL : PyDict_GetItemWithError(kept, key);
    Py_XINCREF(value);
    if (value == NULL && key != NULL && !PyErr_Occurred()) {
        value = make(plain, &source);
        if (value != NULL && PyDict_Size(kept) >= MOST_KEPT)
            PyDict_Clear(kept);
        if (value != NULL && PyDict_SetItem(kept, key, value) < 0)
            Py_CLEAR(value);
    }
    Py_XDECREF(key);
    return value;
}

static PyObject *make_sid(const struct plain *plain, const struct source *source)
{
    uint8_t text[SDTOOL_MOST_SID_TEXT];
    struct sdtool_outcome outcome = plain->state->library.sid_to_text(AT(source), NULL, 0, true, text, sizeof text);
    return outcome.fault == SDTOOL_OK ? as_text(text, outcome.length) : refused(plain->state, outcome, NOTHING);
}

static PyObject *plain_sid(const struct plain *plain, const uint8_t *bytes, struct sdtool_place place)
{
    return once(plain, plain->sids, make_sid, (struct source){bytes, place, NULL});
}

static PyObject *make_guid(const struct plain *plain, const struct source *source)
{
    struct view bytes = {NULL, (const char *)source->bytes, 0};
    PyObject *guid = guid_at(plain->state, &bytes, source->place), *text = guid == NULL ? NULL : PyObject_Str(guid);
    Py_XDECREF(guid);
    return text;
}

static PyObject *plain_guid(const struct plain *plain, const uint8_t *bytes, struct sdtool_place place)
{
    return once(plain, plain->guids, make_guid, (struct source){bytes, place, NULL});
}

/* An ACE that a walk has found. The bytes are those of its ACL. */
static PyObject *make_ace(const struct plain *plain, const struct source *source)
{
    const struct sdtool_ace *ace = source->found;
    const uint8_t *acl = source->bytes;
    PyObject *fields[6] = {NULL};
    bool is_whole = put(&fields[0], entry(plain->state->plain_kinds, ace->kind))
                    && put(&fields[1], PyLong_FromLong(ace->flags))
                    && put(&fields[2], PyLong_FromUnsignedLong(ace->mask))
                    && put(&fields[3], plain_sid(plain, acl, ace->sid))
                    && put(&fields[4], plain_guid(plain, acl, ace->object_type))
                    && put(&fields[5], plain_guid(plain, acl, ace->inherited_object_type));
    (void)is_whole;
    return tuple_of(plain->state->plain_ace_type, fields, 6);
}

/* Walks through an ACL that has so many ACEs; says how many were made. After an error that is less. */
static Py_ssize_t plain_walk(const struct plain *plain, const struct source *acl, PyObject **aces, Py_ssize_t count)
{
    struct sdtool_ace ace = {0};
    Py_ssize_t seen = 0;
    while (seen < count && plain->state->library.next_ace(AT(acl), &ace)) {
        struct source source = {acl->bytes + acl->place.offset, ace.place, &ace};
        if (!put(&aces[seen], once(plain, plain->aces, make_ace, source)))
            return seen;
        seen++;
    }
    if (ace.fault != SDTOOL_OK)
        refused(plain->state, (struct sdtool_outcome){.fault = ace.fault}, NOTHING);
    else if (seen < count)
        PyErr_SetString(PyExc_SystemError, "an ACL has fewer ACEs than its descriptor says");
    return seen;
}

/* The ACEs of a list. */
static PyObject *make_aces(const struct plain *plain, const struct source *source)
{
    const uint32_t *number_of_aces = source->found;
    Py_ssize_t count = (Py_ssize_t)*number_of_aces;
    PyObject **aces = calloc((size_t)count + 1, sizeof *aces);
    if (aces == NULL)
        return PyErr_NoMemory();
    return tuple_of_made(aces, plain_walk(plain, source, aces, count));
}

static PyObject *plain_acl(const struct plain *plain, const uint8_t *bytes, const struct sdtool_acl_place *acl)
{
    if (acl->state == SDTOOL_ACL_LIST)
        return once(plain, plain->acls, make_aces, (struct source){bytes, acl->place, &acl->ace_count});
    return counted(acl->state == SDTOOL_ACL_NULL ? plain->state->plain_null : plain->state->plain_absent);
}

static PyObject *plain_descriptor(const struct plain *plain, const uint8_t *bytes, const struct sdtool_contents *found)
{
    PyObject *fields[6] = {NULL};
    bool is_whole = put(&fields[0], plain_sid(plain, bytes, found->owner))
                    && put(&fields[1], plain_sid(plain, bytes, found->group))
                    && put(&fields[2], plain_acl(plain, bytes, &found->dacl))
                    && put(&fields[3], plain_acl(plain, bytes, &found->sacl))
                    && put(&fields[4], PyLong_FromLong(found->control))
                    && put(&fields[5], PyLong_FromLong(found->resource_manager));
    (void)is_whole;
    return tuple_of(plain->state->plain_type, fields, 6);
}

/* The Fault of a text or of bytes, which are given. What is no fault of theirs is raised. */
static PyObject *plain_fault(struct state *state, struct sdtool_outcome outcome, struct given given)
{
    if (outcome.fault == SDTOOL_ARGUMENT || outcome.fault == SDTOOL_TOO_SMALL || outcome.fault == SDTOOL_NO_MEMORY)
        return refused(state, outcome, NOTHING);
    return told(state->fault_of, outcome, given);
}

/* What a text of SDDL, or a descriptor, says. */
static PyObject *plain_answer(const void *asked, PyObject *given)
{
    const struct plain *plain = asked;
    struct sdtool_outcome outcome = {0};
    struct sdtool_contents found = {0};
    struct sdtool_bytes data;
    struct view view;
    PyThreadState *others;
    PyObject *answer;
    bool is_text = PyUnicode_Check(given);
    if (!(is_text ? view_text(plain->state, &view, given) : view_layout(plain->state, &view, given, "descriptors")))
        return NULL;
    data = bytes_of(view);
    others = view.size > LARGE ? PyEval_SaveThread() : NULL;
    if (is_text) {
        outcome = plain->state->library.from_sddl(BYTES(view), BYTES(plain->domain), plain->room, SDTOOL_MOST_BYTES);
        data = (struct sdtool_bytes){plain->room, outcome.length};
    }
    if (outcome.fault == SDTOOL_OK) {
        found = plain->state->library.parts(data.bytes, data.size);
        outcome = found.outcome;
    }
    if (others != NULL)
        PyEval_RestoreThread(others);
    answer = outcome.fault == SDTOOL_OK
                 ? plain_descriptor(plain, data.bytes, &found)
                 : plain_fault(plain->state, outcome, is_text ? SDDL(view, plain->domain) : DESCRIPTOR(view));
    view_ends(&view);
    return answer;
}

/* What a function answers, with what it is asked, to each object of an iterable. */
static PyObject *answers_to(PyObject *iterable, PyObject *(*answer_to)(const void *, PyObject *), const void *asked)
{
    PyObject *iterator = PyObject_GetIter(iterable), *answers = iterator == NULL ? NULL : PyList_New(0), *given;
    while (answers != NULL && (given = PyIter_Next(iterator)) != NULL) {
        PyObject *answer = answer_to(asked, given);
        Py_DECREF(given);
        if (answer == NULL || PyList_Append(answers, answer) < 0)
            Py_CLEAR(answers);
        Py_XDECREF(answer);
    }
    if (answers != NULL && PyErr_Occurred())
        Py_CLEAR(answers);
    Py_XDECREF(iterator);
    return answers;
}

/* Descriptors and texts of SDDL, the SID of a domain or None, and the dicts of what is kept. */
static PyObject *plain(PyObject *module, PyObject *const *given, Py_ssize_t count)
{
    struct plain plain = {.state = state_for(module, count, 3)};
    PyObject **dicts[KEPT] = {&plain.acls, &plain.aces, &plain.sids, &plain.guids}, *answers = NULL;
    int each;
    if (plain.state == NULL || !is_tuple(given[2], KEPT))
        return NULL;
    if (plain.state->plain_type == NULL) {
        PyErr_SetString(PyExc_RuntimeError, "adopt_plain() has to be called first");
        return NULL;
    }
    for (each = 0; each < KEPT; each++) {
        *dicts[each] = PyTuple_GetItem(given[2], each);
        if (!PyDict_CheckExact(*dicts[each])) {
            PyErr_SetString(PyExc_SystemError, "no dict of the module");
            return NULL;
        }
    }
    if (!view_bytes(&plain.domain, given[1]))
        return NULL;
    plain.room = malloc(SDTOOL_MOST_BYTES);
    answers = plain.room == NULL ? PyErr_NoMemory() : answers_to(given[0], plain_answer, &plain);
    free(plain.room);
    view_ends(&plain.domain);
    return answers;
}

/* Takes the classes of plain values, the names of kinds, and what stands for an ACL that is absent or null. */
static PyObject *adopt_plain(PyObject *module, PyObject *arguments)
{
    struct state *state = state_of(module);
    PyObject *descriptor, *ace, *kinds, *absent, *null;
    if (state == NULL || !PyArg_ParseTuple(arguments, "OOOOO", &descriptor, &ace, &kinds, &absent, &null))
        return NULL;
    if (!PyType_Check(descriptor) || !PyType_Check(ace) || !PyType_IsSubtype((PyTypeObject *)descriptor, &PyTuple_Type)
        || !PyType_IsSubtype((PyTypeObject *)ace, &PyTuple_Type) || !is_tuple(kinds, BYTE_VALUES)) {
        if (!PyErr_Occurred())
            PyErr_SetString(PyExc_TypeError, "these are not the classes of the module");
        return NULL;
    }
    keep(&state->plain_ace_type, ace);
    keep(&state->plain_kinds, kinds);
    keep(&state->plain_absent, absent);
    keep(&state->plain_null, null);
    keep(&state->plain_type, descriptor);
    return counted(Py_None);
}

/* Columns: many values are told apart, and converted, by one call of Python. */

/* The place of a value among the distinct ones, which a new one joins. The reference is borrowed from `places`. */
static PyObject *place_among(PyObject *values, PyObject *places, PyObject *value)
{
    PyObject *place = PyDict_GetItemWithError(places, value);
    if (place != NULL || PyErr_Occurred())
        return place;
    place = PyLong_FromSsize_t(PyList_Size(values));
    if (place != NULL && (PyDict_SetItem(places, value, place) < 0 || PyList_Append(values, value) < 0))
        Py_CLEAR(place);
    Py_XDECREF(place);
    return place;
}

/* The place of each row's value. None if a value is not None, and not of the type: others hash by code of their own. */
static PyObject *places_of(PyObject *rows, PyObject *type, PyObject *values, PyObject *places)
{
    Py_ssize_t row, count = PyList_Size(rows);
    PyObject *found = PyList_New(count);
    for (row = 0; found != NULL && row < count; row++) {
        PyObject *value = PyList_GetItem(rows, row), *place;
        if (value != Py_None && (PyObject *)Py_TYPE(value) != type) {
            Py_DECREF(found);
            return counted(Py_None);
        }
        place = place_among(values, places, value);
        if (place == NULL)
            Py_CLEAR(found);
        else
            PyList_SetItem(found, row, counted(place));
    }
    return found;
}

/* The distinct values of a list, in the order in which they come first, and the place of each row's value, which is -1
 * for None. None if a value is not None, and not of the type, which is bytes or str. */
static PyObject *distinct(PyObject *module, PyObject *const *given, Py_ssize_t count)
{
    PyObject *values = NULL, *places = NULL, *null = NULL, *found = NULL;
    if (state_for(module, count, 2) == NULL)
        return NULL;
    if (!PyList_CheckExact(given[0])
        || (given[1] != (PyObject *)&PyBytes_Type && given[1] != (PyObject *)&PyUnicode_Type)) {
        PyErr_SetString(PyExc_SystemError, "no list of the module");
        return NULL;
    }
    if (put(&values, PyList_New(0)) && put(&places, PyDict_New()) && put(&null, PyLong_FromLong(-1))
        && PyDict_SetItem(places, Py_None, null) == 0)
        found = places_of(given[0], given[1], values, places);
    if (found != NULL && found != Py_None)
        found = Py_BuildValue("ON", values, found);
    Py_XDECREF(values);
    Py_XDECREF(places);
    Py_XDECREF(null);
    return found;
}

struct conversion {
    struct state *state;
    struct view domain;
    uint32_t kind; /* of enum sdtool_conversion_kind */
    bool numeric;
    uint8_t *room; /* SDTOOL_MOST_TEXT */
};

static PyObject *converted(const void *given, PyObject *value)
{
    const struct conversion *asked = given;
    bool is_text = asked->kind == SDTOOL_CONVERT_FROM_SDDL;
    struct sdtool_outcome outcome;
    struct view view;
    PyThreadState *others;
    PyObject *answer;
    if (!(is_text ? view_text(asked->state, &view, value) : view_bytes(&view, value)))
        return NULL;
    others = view.size > LARGE ? PyEval_SaveThread() : NULL;
    if (is_text)
        outcome = asked->state->library.from_sddl(BYTES(view), BYTES(asked->domain), asked->room, SDTOOL_MOST_TEXT);
    else if (asked->kind == SDTOOL_CONVERT_TO_SDDL)
        outcome = asked->state->library.to_sddl(BYTES(view), BYTES(asked->domain), asked->numeric, asked->room,
                                                SDTOOL_MOST_TEXT);
    else
        outcome = asked->state->library.normalize(BYTES(view), asked->room, SDTOOL_MOST_TEXT);
    if (others != NULL)
        PyEval_RestoreThread(others);
    if (outcome.fault != SDTOOL_OK)
        answer = plain_fault(asked->state, outcome, is_text ? SDDL(view, asked->domain) : DESCRIPTOR(view));
    else
        answer = (asked->kind == SDTOOL_CONVERT_TO_SDDL ? as_text : as_bytes)(asked->room, outcome.length);
    view_ends(&view);
    return answer;
}

struct derivations {
    struct state *state;
    struct derivation common; /* the first view is that of a parent */
    uint8_t *room;            /* SDTOOL_MOST_BYTES */
};

static PyObject *derived(const void *given, PyObject *value)
{
    struct derivations one = *(const struct derivations *)given;
    struct sdtool_outcome outcome;
    PyThreadState *others;
    PyObject *answer;
    if (!view_bytes(&one.common.views[0], value))
        return NULL;
    others = one.common.views[0].size + one.common.views[1].size > LARGE ? PyEval_SaveThread() : NULL;
    outcome = one.state->library.derive(DERIVATION(one.common), one.room, SDTOOL_MOST_BYTES);
    if (others != NULL)
        PyEval_RestoreThread(others);
    if (outcome.fault == SDTOOL_OK)
        answer = as_bytes(one.room, outcome.length);
    else
        answer = plain_fault(one.state, outcome, DESCRIPTOR(one.common.views[0]));
    view_ends(&one.common.views[0]);
    return answer;
}

/* Parents, and what derive takes behind the parent. */
static PyObject *derive_many(PyObject *module, PyObject *const *given, Py_ssize_t count)
{
    struct derivations asked = {.state = state_for(module, count, 6)};
    PyObject *first[6], *answers = NULL;
    if (asked.state == NULL)
        return NULL;
    memcpy(first, given, sizeof first);
    first[0] = Py_None;
    asked.room = malloc(SDTOOL_MOST_BYTES);
    if (asked.room == NULL)
        answers = PyErr_NoMemory();
    else if (view_derivation(&asked.common, first))
        answers = answers_to(given[0], derived, &asked);
    if (asked.room != NULL)
        derivation_ends(&asked.common);
    free(asked.room);
    return answers;
}

/* One of enum sdtool_conversion_kind, values, the SID of a domain or None, and whether SIDs are numbers. */
static PyObject *convert_many(PyObject *module, PyObject *const *given, Py_ssize_t count)
{
    struct conversion asked = {.state = state_for(module, count, 4)};
    PyObject *answers;
    if (asked.state == NULL || !number(given[0], SDTOOL_CONVERT_NORMALIZE, &asked.kind)
        || !view_bytes(&asked.domain, given[2]))
        return NULL;
    asked.numeric = given[3] == Py_True;
    asked.room = malloc(SDTOOL_MOST_TEXT);
    answers = asked.room == NULL ? PyErr_NoMemory() : answers_to(given[1], converted, &asked);
    free(asked.room);
    view_ends(&asked.domain);
    return answers;
}

#ifdef _WIN32
typedef HMODULE opened_library;

static opened_library open_library(PyObject *path)
{
    wchar_t *name = PyUnicode_AsWideCharString(path, NULL);
    HMODULE opened;
    if (name == NULL)
        return NULL;
    opened = LoadLibraryExW(name, NULL, LOAD_LIBRARY_SEARCH_DEFAULT_DIRS);
    PyMem_Free(name);
    if (opened == NULL)
        PyErr_SetFromWindowsErr(0);
    return opened;
}

static void *find_call(opened_library opened, const char *name)
{
    return (void *)GetProcAddress(opened, name);
}
#else
typedef void *opened_library;

static opened_library open_library(PyObject *path)
{
    PyObject *name = NULL;
    void *opened;
    if (!PyUnicode_FSConverter(path, &name))
        return NULL;
    opened = dlopen(PyBytes_AsString(name), RTLD_NOW | RTLD_LOCAL);
    Py_DECREF(name);
    if (opened == NULL)
        PyErr_SetString(PyExc_OSError, dlerror());
    return opened;
}

static void *find_call(opened_library opened, const char *name)
{
    return dlsym(opened, name);
}
#endif

/* Opens the library. An OSError says why that fails. RAISES is called with the numbers of a fault. */
static PyObject *load(PyObject *module, PyObject *arguments)
{
    struct state *state = PyModule_GetState(module);
    PyObject *path, *raises;
    opened_library opened;
    if (state == NULL || !PyArg_ParseTuple(arguments, "UO", &path, &raises))
        return NULL;
    opened = open_library(path);
    if (opened == NULL)
        return NULL;
#define FIND(name)                                                                                                     \
    *(void **)&state->library.name = find_call(opened, "sdtool_" #name);                                               \
    if (state->library.name == NULL) {                                                                                 \
        PyErr_SetString(PyExc_OSError, "it has no sdtool_" #name);                                                     \
        return NULL;                                                                                                   \
    }
    CALLS(FIND)
    if (state->library.version_number() < SDTOOL_VERSION) {
        PyErr_SetString(PyExc_OSError, "it is older than the header that this module was built with");
        return NULL;
    }
    keep(&state->refuse, raises);
    return counted(Py_None);
}

static bool is_class(PyObject *object)
{
    return PyType_Check(object) && (PyType_GetFlags((PyTypeObject *)object) & Py_TPFLAGS_HEAPTYPE);
}

/* Takes the classes of the objects that calls give, and the functions that read arguments of any type. */
static PyObject *adopt(PyObject *module, PyObject *arguments)
{
    struct state *state = state_of(module);
    PyObject *descriptor, *acl, *absent, *null, *verdict, *ace, *sid, *kinds, *flags;
    PyObject *fault_of, *no_list, *read_text, *read_sid, *read_layout, *read_only, *read_guid;
    if (state == NULL
        || !PyArg_ParseTuple(arguments, "OOOOOOOOOOOOOOOO", &descriptor, &acl, &absent, &null, &verdict, &ace, &sid,
                             &kinds, &flags, &fault_of, &no_list, &read_text, &read_sid, &read_layout, &read_only,
                             &read_guid))
        return NULL;
    if (!is_class(descriptor) || !is_class(acl) || !is_class(verdict) || !is_class(ace) || !is_class(sid)
        || !PyType_IsSubtype((PyTypeObject *)descriptor, (PyTypeObject *)state->layout_type)
        || !PyType_IsSubtype((PyTypeObject *)acl, (PyTypeObject *)state->entries_type)
        || !PyType_IsSubtype((PyTypeObject *)verdict, &PyTuple_Type)
        || !PyType_IsSubtype((PyTypeObject *)ace, &PyTuple_Type)
        || !PyType_IsSubtype((PyTypeObject *)sid, &PyBytes_Type) || PyTuple_Size(kinds) != BYTE_VALUES
        || PyTuple_Size(flags) != BYTE_VALUES) {
        if (!PyErr_Occurred())
            PyErr_SetString(PyExc_TypeError, "these are not the classes of the module");
        return NULL;
    }
    keep(&state->acl_type, acl);
    keep(&state->acl_absent, absent);
    keep(&state->acl_null, null);
    keep(&state->no_list, no_list);
    keep(&state->verdict_type, verdict);
    keep(&state->ace_type, ace);
    keep(&state->sid_type, sid);
    keep(&state->kinds, kinds);
    keep(&state->flags, flags);
    keep(&state->fault_of, fault_of);
    keep(&state->read_text, read_text);
    keep(&state->read_sid, read_sid);
    keep(&state->read_layout, read_layout);
    keep(&state->read_only, read_only);
    keep(&state->read_guid, read_guid);
    keep(&state->descriptor_type, descriptor);
    return counted(Py_None);
}

#define FAST(name)                                                                                                     \
    {                                                                                                                  \
#name, (PyCFunction)(void (*)(void))name, METH_FASTCALL, NULL                                                  \
    }
static PyMethodDef FUNCTIONS[] = {
    {"load", load, METH_VARARGS, NULL},
    {"adopt", adopt, METH_VARARGS, NULL},
    {"version", version, METH_NOARGS, NULL},
    {"fault_text", fault_text, METH_O, NULL},
    {"normalize", normalize, METH_O, NULL},
    FAST(from_sddl),
    FAST(descriptor_of_sddl),
    FAST(descriptor_of_bytes),
    FAST(to_sddl),
    FAST(explain),
    FAST(derive),
    FAST(origins),
    FAST(sid_from_text),
    FAST(sid_to_text),
    {"ace_read", ace_read, METH_O, NULL},
    FAST(ace_from_text),
    FAST(ace_to_text),
    {"rights_from_text", rights_from_text, METH_O, NULL},
    FAST(rights_to_text),
    {"flags_from_text", flags_from_text, METH_O, NULL},
    {"flags_to_text", flags_to_text, METH_O, NULL},
    {"guid_from_text", guid_from_text, METH_O, NULL},
    {"guid_to_text", guid_to_text, METH_O, NULL},
    {"is_one_sid", is_one_sid, METH_O, NULL},
    FAST(run),
    FAST(token),
    FAST(question),
    FAST(ask),
    {"asked", asked, METH_O, NULL},
    FAST(check),
    FAST(check_many),
    FAST(reasons),
    FAST(lay),
    {"layout", layout, METH_O, NULL},
    {"parts", parts, METH_O, NULL},
    {"place", place_of, METH_O, NULL},
    FAST(sddl_place),
    {"fill", fill, METH_VARARGS, NULL},
    {"state", state_of_acl, METH_O, NULL},
    {"aces", aces, METH_O, NULL},
    {"build", build, METH_VARARGS, NULL},
    {"edit", edit, METH_VARARGS, NULL},
    {"order", order, METH_O, NULL},
    {"adopt_plain", adopt_plain, METH_VARARGS, NULL},
    FAST(plain),
    FAST(distinct),
    FAST(convert_many),
    FAST(derive_many),
    {NULL, NULL, 0, NULL},
};

static int begin(PyObject *module)
{
    static PyType_Slot nothing[] = {{0, NULL}};
    static PyType_Spec plain_sid = {"sdtool._native.PlainSid", 0, 0, BASE_FLAGS, nothing};
    struct state *state = PyModule_GetState(module);
    PyObject *bases = PyTuple_Pack(1, (PyObject *)&PyBytes_Type);
    if (state == NULL || bases == NULL)
        return -1;
    state->layout_type = PyType_FromSpec(&LAYOUT);
    state->entries_type = PyType_FromSpec(&ENTRIES);
    state->asking_type = PyType_FromSpec(&ASKING);
    state->plain_sid_type = PyType_FromSpecWithBases(&plain_sid,
                                                     bases); /* for its way to make bytes, which is that of bytes */
    Py_DECREF(bases);
    if (state->layout_type == NULL || state->entries_type == NULL || state->asking_type == NULL
        || state->plain_sid_type == NULL)
        return -1;
    /* This takes over what it adds. */
    Py_INCREF(state->layout_type);
    Py_INCREF(state->entries_type);
    Py_INCREF(state->asking_type);
    return PyModule_AddObject(module, "Layout", state->layout_type) < 0
                   || PyModule_AddObject(module, "Entries", state->entries_type) < 0
                   || PyModule_AddObject(module, "Asking", state->asking_type) < 0
               ? -1
               : 0;
}

static int traverse(PyObject *module, visitproc visit, void *arg)
{
    struct state *state = PyModule_GetState(module);
    if (state != NULL) {
#define VISIT(name) Py_VISIT(state->name);
        OBJECTS(VISIT)
    }
    return 0;
}

static int clear(PyObject *module)
{
    struct state *state = PyModule_GetState(module);
    int each;
    if (state != NULL) {
#define CLEAR(name) Py_CLEAR(state->name);
        OBJECTS(CLEAR)
        for (each = 0; each < KNOWN_SIDS; each++)
            Py_CLEAR(state->known_sids[each]);
    }
    return 0;
}

static void end(void *module)
{
    clear(module);
}

/*
 * It does not say that interpreters with locks of their own may share its code. Compiled for the limited interface
 * of 3.8, it counts the references to objects that never end, such as None, which all interpreters share: that needs
 * the one lock. Those with their own import no extension that does not say so, and make the same calls through ctypes.
 */
static PyModuleDef_Slot SLOTS[] = {{Py_mod_exec, begin}, {0, NULL}};

static struct PyModuleDef MODULE = {
    PyModuleDef_HEAD_INIT, "sdtool._native", NULL, sizeof(struct state), FUNCTIONS, SLOTS, traverse, clear, end};

PyMODINIT_FUNC PyInit__native(void)
{
    char *behind;
    long major = strtol(Py_GetVersion(), &behind, 10), minor = strtol(behind + 1, NULL, 10);
    counts_classes = major > 3 || minor >= 9;
    return PyModuleDef_Init(&MODULE);
}
