/* One input of the fuzzer: the text of a world, through its line `end`, and a schedule behind it. The machine of the library
   for C is asked by the schedule, and then has to be what the theorem says of it, by other machines on the same world:

     - the committed transactions, whole and in the order of their commits, and then each open one, give the same answers by
       what stands of them, and the same tree; once the open ones are aborted, so too;
     - each line of the history is answered again as the history says;
     - the tree's text is a world, whose text is the same.

   What isn't so ends the program by a signal, as a bad access would. With the fuzzer's compiler it takes inputs one after
   another in one process; with another compiler it takes the files that its words name. */
#include <cgtx.h>
#include <stdio.h>
#include <stdlib.h>
#include <string.h>

#define LIMIT 4096
#define MOST_BYTES 32768

struct text {
    char *bytes;
    size_t length;
};

/* A command that stands, with its answer; or a savepoint, which has none. */
struct entry {
    struct text line, answer;
};

struct transaction {
    struct text session;
    struct entry *entries;
    size_t count, room;
};

/* What the answers say of the transactions. */
struct transactions {
    struct transaction *items;
    size_t count, room;
};

static void claim(int is_so)
{
    if (!is_so)
        abort();
}

static void *grown(void *items, size_t *room, size_t size)
{
    *room = *room ? 2 * *room : 8;
    items = realloc(items, *room * size);
    if (!items)
        exit(9);
    return items;
}

static int same(struct text one, struct text other)
{
    return one.length == other.length && (one.length == 0 || memcmp(one.bytes, other.bytes, one.length) == 0);
}

/* A copy of the text that was told last. */
static struct text told(cgtx *machine)
{
    struct text text = { NULL, cgtx_text_length(machine) };
    text.bytes = malloc(text.length + 1);
    if (!text.bytes)
        exit(9);
    claim(cgtx_text(machine, 0, text.bytes, text.length + 1) == text.length);
    text.bytes[text.length] = 0;
    return text;
}

static struct text world_of(cgtx *machine)
{
    claim(cgtx_world(machine) == CGTX_DONE);
    return told(machine);
}

/* The answer to a line, whose status has to be the refusal that the answer spells, or none. */
static struct text step(cgtx *machine, struct text line)
{
    uint32_t status = cgtx_step(machine, line.bytes, line.length);
    struct text answer = told(machine);
    unsigned number = 0;
    claim(status < 100 && status != CGTX_MEMORY);
    claim(!memchr(answer.bytes, '\n', answer.length));
    sscanf(answer.bytes, "refused %u", &number);
    claim(status == number);
    return answer;
}

static void step_as(cgtx *machine, struct text line, struct text wanted)
{
    struct text answer = step(machine, line);
    claim(same(answer, wanted));
    free(answer.bytes);
}

/* The word with this place in a line, from 0. */
static struct text word(struct text line, int place)
{
    struct text found = { line.bytes, 0 };
    char *at = line.bytes, *end = line.bytes + line.length;
    for (; place >= 0; place--) {
        while (at < end && (*at == ' ' || *at == '\t'))
            at++;
        found.bytes = at;
        while (at < end && *at != ' ' && *at != '\t' && *at != '\r')
            at++;
    }
    found.length = (size_t)(at - found.bytes);
    return found;
}

static int is_word(struct text text, const char *word)
{
    return text.length == strlen(word) && memcmp(text.bytes, word, text.length) == 0;
}

static int begins(struct text text, const char *front)
{
    return text.length >= strlen(front) && memcmp(text.bytes, front, strlen(front)) == 0;
}

static struct transaction *add(struct transactions *all, struct transaction one)
{
    if (all->count == all->room)
        all->items = grown(all->items, &all->room, sizeof *all->items);
    all->items[all->count] = one;
    return &all->items[all->count++];
}

static struct transaction *of_session(struct transactions *all, struct text session)
{
    for (size_t i = 0; i < all->count; i++)
        if (same(all->items[i].session, session))
            return &all->items[i];
    return NULL;
}

static void put(struct transaction *one, struct entry entry)
{
    if (one->count == one->room)
        one->entries = grown(one->entries, &one->room, sizeof *one->entries);
    one->entries[one->count++] = entry;
}

static void take_off(struct transaction *one)
{
    claim(one->count > 0);
    free(one->entries[--one->count].answer.bytes);
}

/* Takes off what came after the savepoint, and that too. Returns how many commands that were. */
static size_t take_back(struct transaction *one, struct text name)
{
    for (size_t commands = 0;;) {
        claim(one->count > 0);
        struct entry *newest = &one->entries[one->count - 1];
        if (newest->answer.bytes) {
            commands++;
            take_off(one);
            continue;
        }
        int is_it = same(word(newest->line, 2), name);
        take_off(one);
        if (is_it)
            return commands;
    }
}

static void forget(struct transaction *one)
{
    while (one->count)
        take_off(one);
    free(one->entries);
    one->entries = NULL;
    one->room = 0;
}

static void forget_all(struct transactions *all)
{
    for (size_t i = 0; i < all->count; i++)
        forget(&all->items[i]);
    free(all->items);
}

static void remove_from(struct transactions *all, struct transaction *one)
{
    *one = all->items[--all->count];
}

/* Takes in what an answer says of its session's transaction. The entry has the answer's text from then on, or it is freed. */
static void take_in(struct transactions *open, struct transactions *committed, struct entry entry)
{
    struct text session = word(entry.line, 0), request = word(entry.line, 1);
    struct transaction *one = of_session(open, session);
    unsigned long number = 0;
    if (begins(entry.answer, "refused ") || entry.answer.length == 0) {
        free(entry.answer.bytes);
        return;
    }
    if (begins(entry.answer, "begun ")) {
        claim(!one);
        add(open, (struct transaction){ session, NULL, 0, 0 });
        free(entry.answer.bytes);
        return;
    }
    claim(one != NULL);
    if (is_word(request, "undo")) {
        take_off(one);
    } else if (begins(entry.answer, "done") || begins(entry.answer, "text ")) {
        put(one, entry);
        return;
    } else if (begins(entry.answer, "saved")) {
        put(one, (struct entry){ entry.line, { NULL, 0 } });
    } else if (sscanf(entry.answer.bytes, "back %lu", &number) == 1) {
        claim(take_back(one, word(entry.line, 2)) == number);
    } else if (sscanf(entry.answer.bytes, "committed %lu", &number) == 1) {
        add(committed, *one);
        claim(committed->count == number);
        remove_from(open, one);
    } else {
        claim(begins(entry.answer, "aborted "));
        forget(one);
        remove_from(open, one);
    }
    free(entry.answer.bytes);
}

/* A session's line of one word more. */
static struct text session_line(struct text session, const char *request)
{
    struct text line = { malloc(session.length + strlen(request) + 2), session.length + strlen(request) + 1 };
    if (!line.bytes)
        exit(9);
    memcpy(line.bytes, session.bytes, session.length);
    line.bytes[session.length] = ' ';
    strcpy(line.bytes + session.length + 1, request);
    return line;
}

static void ask(cgtx *machine, struct text session, const char *request)
{
    struct text line = session_line(session, request);
    struct text answer = step(machine, line);
    claim(!begins(answer, "refused "));
    free(answer.bytes);
    free(line.bytes);
}

/* Asks for what stands of a transaction, which has to be answered as it was. */
static void ask_again(cgtx *machine, const struct transaction *one)
{
    ask(machine, one->session, "begin");
    for (size_t i = 0; i < one->count; i++)
        if (one->entries[i].answer.bytes)
            step_as(machine, one->entries[i].line, one->entries[i].answer);
}

static void abort_all(cgtx *machine)
{
    while (cgtx_open_count(machine) > 0)
        claim(cgtx_abort_oldest(machine) == CGTX_DONE);
    claim(cgtx_abort_oldest(machine) == CGTX_NONE_OPEN);
}

static void claim_same_trees(cgtx *one, cgtx *other)
{
    struct text here = world_of(one), there = world_of(other);
    claim(same(here, there));
    free(here.bytes);
    free(there.bytes);
}

/* The transactions one after another give the same answers and the same tree, and all is so behind the end. */
static void claim_serial(cgtx *machine, struct text world, struct transactions *open, struct transactions *committed)
{
    cgtx other = CGTX_CLOSED;
    claim(cgtx_open(&other, world.bytes, world.length, LIMIT) == CGTX_DONE);
    for (size_t i = 0; i < committed->count; i++) {
        ask_again(&other, &committed->items[i]);
        ask(&other, committed->items[i].session, "commit");
    }
    for (size_t i = 0; i < open->count; i++)
        ask_again(&other, &open->items[i]);
    claim_same_trees(machine, &other);
    claim(cgtx_open_count(machine) == open->count && cgtx_open_count(&other) == open->count);
    claim(cgtx_commit_count(machine) == committed->count && cgtx_commit_count(&other) == committed->count);
    abort_all(machine);
    abort_all(&other);
    claim_same_trees(machine, &other);
    claim(cgtx_close(&other) == CGTX_DONE);
}

/* The next line of a text, which begins at a place; that is behind it then. */
static struct text next_line(struct text text, size_t *at)
{
    char *from = text.bytes + *at, *end = memchr(from, '\n', text.length - *at);
    struct text line = { from, end ? (size_t)(end - from) : text.length - *at };
    *at += line.length + (end != NULL);
    return line;
}

/* What the history asks for is answered as it says, and gives the tree. */
static void claim_history(cgtx *machine, struct text world)
{
    cgtx other = CGTX_CLOSED;
    claim(cgtx_history(machine) == CGTX_DONE);
    struct text history = told(machine);
    claim(cgtx_open(&other, world.bytes, world.length, LIMIT) == CGTX_DONE);
    for (size_t at = 0; at < history.length;) {
        struct text line = next_line(history, &at), answer = next_line(history, &at);
        claim(begins(answer, "# "));
        step_as(&other, line, (struct text){ answer.bytes + 2, answer.length - 2 });
    }
    claim_same_trees(machine, &other);
    claim(cgtx_close(&other) == CGTX_DONE);
    free(history.bytes);
}

/* The tree's text is a world, and that one's text is the same. */
static void claim_world(cgtx *machine)
{
    struct text world = world_of(machine);
    cgtx other = CGTX_CLOSED;
    claim(cgtx_open(&other, world.bytes, world.length, LIMIT) == CGTX_DONE);
    claim_same_trees(machine, &other);
    claim(cgtx_close(&other) == CGTX_DONE);
    free(world.bytes);
}

/* A line that is in no grammar is asked for as a path and a file. */
static void look(cgtx *machine, struct text line)
{
    struct text path = word(line, 0), name = word(line, 1);
    uint32_t status = cgtx_file(machine, path.bytes, path.length, name.bytes, name.length);
    claim(status == CGTX_DONE || status == CGTX_SYNTAX || status == CGTX_NO_GROUP || status == CGTX_NO_FILE);
}

static void play(cgtx *machine, struct text world, struct text schedule)
{
    struct transactions open = { NULL, 0, 0 }, committed = { NULL, 0, 0 };
    claim_world(machine);
    for (size_t at = 0; at < schedule.length;) {
        struct text line = next_line(schedule, &at);
        struct text answer = step(machine, line);
        if (begins(answer, "refused 1 "))
            look(machine, line);
        take_in(&open, &committed, (struct entry){ line, answer });
    }
    claim_serial(machine, world, &open, &committed);
    claim_history(machine, world);
    claim_world(machine);
    forget_all(&open);
    forget_all(&committed);
}

/* The length of the world at the head of an input: through its first line `end`, or all. */
static size_t world_length(struct text input)
{
    for (size_t at = 0; at < input.length;) {
        struct text line = next_line(input, &at);
        if (is_word(word(line, 0), "end") && word(line, 1).length == 0)
            return at;
    }
    return input.length;
}

static void try_input(struct text input)
{
    size_t length = world_length(input);
    struct text world = { input.bytes, length }, schedule = { input.bytes + length, input.length - length };
    cgtx machine = CGTX_CLOSED;
    uint32_t status = cgtx_open(&machine, world.bytes, world.length, LIMIT);
    claim(status == CGTX_DONE || status == CGTX_SYNTAX);
    if (status == CGTX_DONE)
        play(&machine, world, schedule);
    claim(cgtx_close(&machine) == (status == CGTX_DONE ? CGTX_DONE : CGTX_NOT_OPEN));
}

#ifdef __AFL_LOOP

#include <unistd.h>

__AFL_FUZZ_INIT();

int main(void)
{
    __AFL_INIT();
    char *bytes = (char *)__AFL_FUZZ_TESTCASE_BUF;
    while (__AFL_LOOP(10000)) {
        size_t length = (size_t)__AFL_FUZZ_TESTCASE_LEN;
        if (length <= MOST_BYTES)
            try_input((struct text){ bytes, length });
    }
    return 0;
}

#else

int main(int count, char **words)
{
    static char bytes[MOST_BYTES];
    for (int i = 1; i < count; i++) {
        FILE *file = fopen(words[i], "rb");
        if (!file)
            return 9;
        size_t length = fread(bytes, 1, sizeof bytes, file);
        fclose(file);
        try_input((struct text){ bytes, length });
    }
    return 0;
}

#endif
