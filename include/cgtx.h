/* cgtx: a proved machine of transactions on a tree of Linux control groups, in the process of its caller.

   A machine is opened on the text of a world. It is asked by the lines of a schedule, `SESSION WORDS..`, and tells
   by texts: the answer's line, the tree as a world, a file, the history. docs/FORMATS.md has them all. Nothing
   outside the process is read or written, no call prints or ends the process, and none keeps a pointer of its
   caller.

   Texts are bytes with a length. No zero byte ends them, and those that come back have none. A call that tells
   anything leaves its text with the handle, and drops the text before it; `cgtx_text` copies it into a buffer of
   the caller's, whole or in parts, as often as is asked. So a buffer that is too small loses nothing, and no
   pointer into the library is ever lent out.

   A handle is a variable of the caller's, which begins as CGTX_CLOSED. Every call but
   `cgtx_open` answers CGTX_NOT_OPEN on one that isn't open, and does nothing. The two words in it belong to the library. What C cannot tell, and so the caller
   must see to:

     - A copy of an open handle is not to be used, nor is one whose bytes were written by anybody else. What never
       was a handle is told from an open one by its mark, a word of 64 bits, and by nothing else.
     - A pointer that isn't null points to as many bytes as are said, and stays so during the call. Buffers that
       are written to overlap nothing else that the call is given.
     - A handle is used by one thread at a time, and a call ends before the next begins. One process may hold any
       number of handles, which share nothing, and threads may use different ones at once.
     - malloc, realloc and free are those of one allocator, and no call is made from a signal handler or from the
       forked child of a process with threads.

   The null pointers are tested below, in C. All else is proved: what each call does is the contract of the
   function of the same name, with `raw` in it, in crates/cg_capi. */
#ifndef CGTX_H
#define CGTX_H

#include <stddef.h>
#include <stdint.h>

#ifdef __cplusplus
extern "C" {
#endif

/* What a call came to: CGTX_DONE, the number of a refusal, or one of those from 100 on. */
enum {
    CGTX_DONE = 0,
    CGTX_SYNTAX = 1,          /* not in the grammar, or a world that is unsound */
    CGTX_NO_TRANSACTION = 2,  /* the session has no open transaction */
    CGTX_ALREADY_OPEN = 3,    /* the session has one already */
    CGTX_FULL = 4,            /* the history is full */
    CGTX_BUSY = 5,            /* another open transaction is in the way: the text names it */
    CGTX_NO_GROUP = 6,        /* the group, or the parent of the one to be made, is absent */
    CGTX_EXISTS = 7,          /* the group to be made is there */
    CGTX_IS_ROOT = 8,         /* the root can't be removed */
    CGTX_HAS_CHILDREN = 9,    /* the group to be removed has children */
    CGTX_HAS_PROCESSES = 10,  /* the group to be removed, or in which a controller is enabled, has processes */
    CGTX_NO_PROCESS = 11,     /* no process has this PID */
    CGTX_CONTROLLED = 12,     /* the group to move into has controllers enabled for its children */
    CGTX_UNAVAILABLE = 13,    /* the controller isn't available there */
    CGTX_IN_USE = 14,         /* a child has the controller enabled */
    CGTX_NO_FILE = 15,        /* the group hasn't this file */
    CGTX_NO_SAVEPOINT = 16,   /* no savepoint has this name */
    CGTX_NAME_TAKEN = 17,     /* a savepoint has this name already */
    CGTX_NOTHING_TO_UNDO = 18, /* no accepted command since the newest savepoint */
    CGTX_MEMORY = 19,         /* there was no memory, and nothing was done */
    CGTX_TOO_MANY = 22,       /* a limit on descendants is reached */
    CGTX_TOO_DEEP = 23,       /* a limit on depth is exceeded */
    CGTX_NOT_OPEN = 100,      /* the handle has no machine */
    CGTX_UNTOLD = 101,        /* all is done as asked, but for want of memory the text is missing: `cgtx_answer` */
    CGTX_NONE_OPEN = 102,     /* no transaction is open */
    CGTX_BAD_LIMIT = 103,     /* no history has that limit */
    CGTX_HANDLE_IN_USE = 104, /* the handle has a machine already */
    CGTX_NULL = 105           /* a pointer is null */
};

/* The limits of a history, in slots: docs/FORMATS.md. */
#define CGTX_LEAST_LIMIT 2
#define CGTX_GREATEST_LIMIT 1048576

typedef struct cgtx {
    uint64_t mark;
    void *machine;
} cgtx;

/* What a handle is before it is opened, and again once it is closed. */
#define CGTX_CLOSED { 0, NULL }

/* The functions of the library. They are given no null pointer. */
uint32_t cgtx_raw_open(cgtx *handle, const void *world, size_t world_length, uint32_t limit);
uint32_t cgtx_raw_close(cgtx *handle);
uint32_t cgtx_raw_step(cgtx *handle, const void *line, size_t line_length);
uint32_t cgtx_raw_abort_oldest(cgtx *handle);
uint32_t cgtx_raw_answer(cgtx *handle);
uint32_t cgtx_raw_world(cgtx *handle);
uint32_t cgtx_raw_file(cgtx *handle, const void *path, size_t path_length, const void *name, size_t name_length);
uint32_t cgtx_raw_history(cgtx *handle);
size_t cgtx_raw_text_length(cgtx *handle);
size_t cgtx_raw_text(cgtx *handle, size_t from, void *buffer, size_t room);
uint32_t cgtx_raw_open_count(cgtx *handle);
uint32_t cgtx_raw_commit_count(cgtx *handle);
size_t cgtx_raw_refusal_word(uint32_t number, void *buffer, size_t room);

/* The functions that a program calls, which test each pointer. Where they are to be made into a shared library,
   define CGTX_API as nothing, so that they get names there. */
#ifndef CGTX_API
#define CGTX_API static inline
#endif

/* Opens a machine on the world that the text spells. CGTX_SYNTAX where it spells none. */
CGTX_API uint32_t cgtx_open(cgtx *handle, const void *world, size_t world_length, uint32_t limit)
{
    if (!handle || !world)
        return CGTX_NULL;
    return cgtx_raw_open(handle, world, world_length, limit);
}

/* Frees the machine, and closes the handle. What was open in it is gone with it. */
CGTX_API uint32_t cgtx_close(cgtx *handle)
{
    if (!handle)
        return CGTX_NULL;
    return cgtx_raw_close(handle);
}

/* Answers a line of a schedule, with no newline at its end. The text is the answer's line, also where that is a
   refusal; a line that says nothing has an empty one. CGTX_MEMORY leaves the machine as it was. */
CGTX_API uint32_t cgtx_step(cgtx *handle, const void *line, size_t line_length)
{
    if (!handle || !line)
        return CGTX_NULL;
    return cgtx_raw_step(handle, line, line_length);
}

/* Aborts the open transaction with the least number, as its session would. The text is the answer's line.
   CGTX_NONE_OPEN where no transaction is open. The end of a schedule is this, until then, and `cgtx_world`. */
CGTX_API uint32_t cgtx_abort_oldest(cgtx *handle)
{
    if (!handle)
        return CGTX_NULL;
    return cgtx_raw_abort_oldest(handle);
}

/* Tells the last answer again, by its status and its line. */
CGTX_API uint32_t cgtx_answer(cgtx *handle)
{
    if (!handle)
        return CGTX_NULL;
    return cgtx_raw_answer(handle);
}

/* The tree as it stands, as the text of a world. */
CGTX_API uint32_t cgtx_world(cgtx *handle)
{
    if (!handle)
        return CGTX_NULL;
    return cgtx_raw_world(handle);
}

/* The text of an interface file, as `cgroup.procs`, of a group in the tree as it stands. */
CGTX_API uint32_t cgtx_file(cgtx *handle, const void *path, size_t path_length, const void *name, size_t name_length)
{
    if (!handle || !path || !name)
        return CGTX_NULL;
    return cgtx_raw_file(handle, path, path_length, name, name_length);
}

/* The text of the history: a schedule that asks for the same again, with each answer in a comment. */
CGTX_API uint32_t cgtx_history(cgtx *handle)
{
    if (!handle)
        return CGTX_NULL;
    return cgtx_raw_history(handle);
}

/* How many bytes the text has that was told last. */
CGTX_API size_t cgtx_text_length(cgtx *handle)
{
    if (!handle)
        return 0;
    return cgtx_raw_text_length(handle);
}

/* Copies that text, from its byte `from` on, as far as there is room, and gives how many bytes these are. */
CGTX_API size_t cgtx_text(cgtx *handle, size_t from, void *buffer, size_t room)
{
    if (!handle || !buffer)
        return 0;
    return cgtx_raw_text(handle, from, buffer, room);
}

/* How many transactions are open. */
CGTX_API uint32_t cgtx_open_count(cgtx *handle)
{
    if (!handle)
        return 0;
    return cgtx_raw_open_count(handle);
}

/* How many transactions committed. */
CGTX_API uint32_t cgtx_commit_count(cgtx *handle)
{
    if (!handle)
        return 0;
    return cgtx_raw_commit_count(handle);
}

/* Copies the word of a refusal, as `busy`, as far as there is room, and gives how many bytes these are: none for a
   number that no refusal has. The longest has 13. */
CGTX_API size_t cgtx_refusal_word(uint32_t number, void *buffer, size_t room)
{
    if (!buffer)
        return 0;
    return cgtx_raw_refusal_word(number, buffer, room);
}

#ifdef __cplusplus
}
#endif

#endif
