/* What the header says of handles, pointers, buffers and numbers. Each fact that doesn't hold is told by its line;
   the last line counts both. */
#include <cgtx.h>
#include <stdio.h>
#include <string.h>

static int held, failed;

static void expect_at(int line, const char *fact, int holds)
{
    *(holds ? &held : &failed) += 1;
    if (!holds)
        printf("line %d: %s\n", line, fact);
}

#define EXPECT(fact) expect_at(__LINE__, #fact, (fact))

#define TEXT(bytes) bytes, sizeof bytes - 1

static const char WORLD[] = "world 1\ncontrollers cpu\nonline 0\ngroup / - 0 -\nproc 10 /\nend\n";

/* Whether the text that was told last is this. */
static int told(cgtx *machine, const char *text)
{
    char whole[512];
    size_t length = cgtx_text(machine, 0, whole, sizeof whole);
    return length == strlen(text) && length == cgtx_text_length(machine) && !memcmp(whole, text, length);
}

/* No call does anything behind a handle that isn't open, or with a null pointer. */
static void not_open(cgtx *handle, uint32_t status)
{
    char buffer[4] = "abc";
    EXPECT(cgtx_close(handle) == status);
    EXPECT(cgtx_step(handle, TEXT("a begin")) == status);
    EXPECT(cgtx_abort_oldest(handle) == status);
    EXPECT(cgtx_answer(handle) == status);
    EXPECT(cgtx_world(handle) == status);
    EXPECT(cgtx_file(handle, TEXT("/"), TEXT("cgroup.procs")) == status);
    EXPECT(cgtx_history(handle) == status);
    EXPECT(cgtx_text_length(handle) == 0);
    EXPECT(cgtx_text(handle, 0, buffer, sizeof buffer) == 0);
    EXPECT(cgtx_open_count(handle) == 0);
    EXPECT(cgtx_commit_count(handle) == 0);
    EXPECT(!memcmp(buffer, "abc", sizeof buffer));
}

static void handles(void)
{
    cgtx closed = CGTX_CLOSED, strange = { 1, NULL }, machine = CGTX_CLOSED;
    not_open(NULL, CGTX_NULL);
    not_open(&closed, CGTX_NOT_OPEN);
    memset(&strange, 0xa5, sizeof strange);
    not_open(&strange, CGTX_NOT_OPEN);

    EXPECT(cgtx_open(NULL, TEXT(WORLD), 8) == CGTX_NULL);
    EXPECT(cgtx_open(&machine, NULL, 0, 8) == CGTX_NULL);
    EXPECT(cgtx_open(&machine, TEXT(WORLD), 1) == CGTX_BAD_LIMIT);
    EXPECT(cgtx_open(&machine, TEXT(WORLD), CGTX_GREATEST_LIMIT + 1) == CGTX_BAD_LIMIT);
    EXPECT(cgtx_open(&machine, WORLD, 0, 8) == CGTX_SYNTAX);
    EXPECT(cgtx_open(&machine, WORLD, sizeof WORLD - 5, 8) == CGTX_SYNTAX);
    not_open(&machine, CGTX_NOT_OPEN);
    EXPECT(cgtx_open(&machine, TEXT(WORLD), 8) == CGTX_DONE);
    EXPECT(cgtx_step(&machine, TEXT("a begin")) == CGTX_DONE);
    EXPECT(cgtx_open(&machine, TEXT(WORLD), 8) == CGTX_HANDLE_IN_USE);
    EXPECT(cgtx_open_count(&machine) == 1);
    EXPECT(told(&machine, "begun 1"));
    EXPECT(cgtx_step(&machine, NULL, 0) == CGTX_NULL);
    EXPECT(cgtx_file(&machine, NULL, 0, TEXT("cgroup.procs")) == CGTX_NULL);
    EXPECT(cgtx_file(&machine, TEXT("/"), NULL, 0) == CGTX_NULL);
    EXPECT(cgtx_text(&machine, 0, NULL, 9) == 0);
    EXPECT(cgtx_close(&machine) == CGTX_DONE);
    not_open(&machine, CGTX_NOT_OPEN);
    EXPECT(cgtx_open(&machine, TEXT(WORLD), 2) == CGTX_DONE);
    EXPECT(cgtx_close(&machine) == CGTX_DONE);
}

/* A machine's texts, by its handle. */
static void texts(void)
{
    cgtx machine = CGTX_CLOSED;
    char part[5] = "----";
    EXPECT(cgtx_open(&machine, TEXT(WORLD), 64) == CGTX_DONE);
    EXPECT(told(&machine, ""));
    EXPECT(cgtx_answer(&machine) == CGTX_DONE && told(&machine, ""));
    EXPECT(cgtx_step(&machine, TEXT("# nothing")) == CGTX_DONE && told(&machine, ""));
    EXPECT(cgtx_step(&machine, "", 0) == CGTX_DONE && told(&machine, ""));
    EXPECT(cgtx_step(&machine, TEXT("a begin\n")) == CGTX_SYNTAX && told(&machine, "refused 1 syntax"));
    EXPECT(cgtx_step(&machine, TEXT("a undo")) == CGTX_NO_TRANSACTION && told(&machine, "refused 2 notransaction"));
    EXPECT(cgtx_step(&machine, "a begin and more", 7) == CGTX_DONE && told(&machine, "begun 1"));
    EXPECT(cgtx_step(&machine, TEXT("b begin")) == CGTX_DONE && told(&machine, "begun 2"));
    EXPECT(cgtx_step(&machine, TEXT("a create /x")) == CGTX_DONE && told(&machine, "done"));
    EXPECT(cgtx_step(&machine, TEXT("b show / cgroup.procs")) == CGTX_BUSY && told(&machine, "refused 5 busy 1"));
    EXPECT(cgtx_step(&machine, TEXT("a show / cgroup.procs")) == CGTX_DONE && told(&machine, "text \"10\\n\""));
    EXPECT(cgtx_text(&machine, 5, part, 4) == 4 && !memcmp(part, "\"10\\", sizeof part - 1) && part[4] == 0);
    EXPECT(cgtx_text(&machine, 9, part, 4) == 2 && !memcmp(part, "n\"0\\", sizeof part - 1));
    EXPECT(cgtx_text(&machine, 11, part, 4) == 0 && cgtx_text(&machine, (size_t)-1, part, 4) == 0);
    EXPECT(cgtx_file(&machine, TEXT("/"), TEXT("cgroup.procs")) == CGTX_DONE && told(&machine, "10\n"));
    EXPECT(cgtx_file(&machine, TEXT("/y"), TEXT("cgroup.procs")) == CGTX_NO_GROUP && told(&machine, ""));
    EXPECT(cgtx_file(&machine, TEXT("/"), TEXT("cgroup.freeze")) == CGTX_NO_FILE && told(&machine, ""));
    EXPECT(cgtx_file(&machine, TEXT("x"), TEXT("cgroup.procs")) == CGTX_SYNTAX && told(&machine, ""));
    EXPECT(cgtx_file(&machine, TEXT("/"), TEXT("cgroup")) == CGTX_SYNTAX && told(&machine, ""));
    EXPECT(cgtx_file(&machine, TEXT("/\xff"), TEXT("cgroup.procs")) == CGTX_SYNTAX && told(&machine, ""));
    EXPECT(cgtx_answer(&machine) == CGTX_DONE && told(&machine, "text \"10\\n\""));
    EXPECT(cgtx_commit_count(&machine) == 0);
    EXPECT(cgtx_step(&machine, TEXT("b commit")) == CGTX_DONE && told(&machine, "committed 1"));
    EXPECT(cgtx_open_count(&machine) == 1);
    EXPECT(cgtx_commit_count(&machine) == 1);
    EXPECT(cgtx_abort_oldest(&machine) == CGTX_DONE && told(&machine, "aborted 1"));
    EXPECT(cgtx_abort_oldest(&machine) == CGTX_NONE_OPEN && told(&machine, ""));
    EXPECT(cgtx_commit_count(&machine) == 1);
    EXPECT(cgtx_world(&machine) == CGTX_DONE && told(&machine, WORLD));
    EXPECT(cgtx_history(&machine) == CGTX_DONE && told(&machine,
        "s1 begin\n# begun 1\ns2 begin\n# begun 2\ns1 create /x\n# done\n"
        "s2 show / cgroup.procs\n# refused 5 busy 1\n"
        "s1 show / cgroup.procs\n# text \"10\\n\"\ns2 commit\n# committed 1\ns1 abort\n# aborted 1\n"));
    EXPECT(cgtx_close(&machine) == CGTX_DONE);
}

/* Many handles share nothing. */
static void many(void)
{
    static cgtx machines[200];
    int fine = 1;
    for (int each = 0; each < 200; each++)
        fine &= cgtx_open(&machines[each], TEXT(WORLD), 64) == CGTX_DONE;
    for (int each = 0; each < 200; each += 2)
        fine &= cgtx_step(&machines[each], TEXT("a begin")) == CGTX_DONE;
    for (int each = 0; each < 200; each++)
        fine &= cgtx_open_count(&machines[each]) == (each % 2 ? 0 : 1);
    for (int each = 0; each < 200; each++)
        fine &= cgtx_close(&machines[each]) == CGTX_DONE;
    EXPECT(fine);
}

static void words(void)
{
    static const char *const ALL[] = {
        "", "syntax", "notransaction", "alreadyopen", "full", "busy", "nogroup", "exists", "isroot",
        "haschildren", "hasprocesses", "noprocess", "controlled", "unavailable", "inuse", "nofile",
        "nosavepoint", "nametaken", "nothingtoundo", "memory", "lost", "disagree", "toomany", "toodeep",
        "readfault", "writefault", "",
    };
    char word[16];
    for (uint32_t number = 0; number < sizeof ALL / sizeof *ALL; number++) {
        size_t length = cgtx_refusal_word(number, word, sizeof word);
        EXPECT(length == strlen(ALL[number]) && !memcmp(word, ALL[number], length));
    }
    EXPECT(cgtx_refusal_word(5, word, 2) == 2 && !memcmp(word, "bu", 2));
    EXPECT(cgtx_refusal_word(5, NULL, 9) == 0);
    EXPECT(cgtx_refusal_word(0xffffffff, word, sizeof word) == 0);
}

int main(void)
{
    handles();
    texts();
    many();
    words();
    printf("%d passed, %d failed\n", held, failed);
    return failed != 0;
}
