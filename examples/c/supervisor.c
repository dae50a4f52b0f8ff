/* A supervisor starts a service: all of its groups in one transaction, so that a start that fails half-way leaves no
   trace.

   Beside it an operator has a transaction of his own open on the same tree, and one of the service's processes in
   it. What would get in his way is refused at once: the supervisor goes back to its savepoint, and starts the
   service with one worker. tests/c_library builds and runs this, and compares what it prints with supervisor.out. */
#include <cgtx.h>
#include <stdio.h>
#include <stdlib.h>
#include <string.h>

static const char WORLD[] =
    "world 2\n"
    "controllers cpuset cpu memory\n"
    "online 0-7\n"
    "group / cpu,memory 0 - max max\n"
    "group /batch - 0 - max max\n"
    "group /system - 0 - max max\n"
    "proc 1 /system\n"
    "proc 40 /\n"
    "proc 41 /\n"
    "end\n";

/* A fault of the library or of this program, which a supervisor would report. */
static void stop(const char *what, uint32_t status)
{
    fprintf(stderr, "supervisor: %s: status %u\n", what, (unsigned)status);
    exit(1);
}

/* Prints the text that was told last. It is copied in parts, so that a text of any length fits. */
static void print_text(cgtx *machine)
{
    char part[64];
    size_t from = 0, count;
    while ((count = cgtx_text(machine, from, part, sizeof part)) > 0) {
        fwrite(part, 1, count, stdout);
        from += count;
    }
}

/* Asks for what the line says, prints the answer, and gives its status. */
static uint32_t ask(cgtx *machine, const char *line)
{
    uint32_t status = cgtx_step(machine, line, strlen(line));
    if (status == CGTX_MEMORY || status >= 100)
        stop(line, status);
    printf("%-44s ", line);
    print_text(machine);
    putchar('\n');
    return status;
}

/* Asks for several things, until one is refused. Gives the refusal's number, or CGTX_DONE. */
static uint32_t ask_all(cgtx *machine, const char *const *lines, size_t count)
{
    uint32_t status = CGTX_DONE;
    for (size_t at = 0; at < count && status == CGTX_DONE; at++)
        status = ask(machine, lines[at]);
    return status;
}

#define ASK_ALL(machine, lines) ask_all(machine, lines, sizeof lines / sizeof *lines)

/* What the service wants: two workers, each in a group of its own, .. */
static const char *const TWO_WORKERS[] = {
    "supervisor create /system/web",
    "supervisor create /system/web/one",
    "supervisor create /system/web/two",
    "supervisor migrate 40 /system/web/one",
    "supervisor migrate 41 /system/web/two",
};

/* .. or one, that makes no groups below its own. */
static const char *const ONE_WORKER[] = {
    "supervisor create /system/web",
    "supervisor maxdescendants /system/web 0",
    "supervisor migrate 40 /system/web",
};

/* Starts the service, and says how. */
static const char *start_service(cgtx *machine)
{
    const char *how = "with two workers";
    if (ask(machine, "supervisor begin") != CGTX_DONE)
        return "not";
    uint32_t status = ask(machine, "supervisor save before");
    if (status == CGTX_DONE)
        status = ASK_ALL(machine, TWO_WORKERS);
    if (status == CGTX_BUSY && ask(machine, "supervisor back before") == CGTX_DONE) {
        how = "with one worker";
        status = ASK_ALL(machine, ONE_WORKER);
    }
    if (status != CGTX_DONE) {
        ask(machine, "supervisor abort");
        return "not";
    }
    return ask(machine, "supervisor commit") == CGTX_DONE ? how : "not";
}

int main(void)
{
    cgtx machine = CGTX_CLOSED;
    uint32_t status = cgtx_open(&machine, WORLD, sizeof WORLD - 1, 1000);
    if (status != CGTX_DONE)
        stop("no machine", status);

    ask(&machine, "operator begin");
    ask(&machine, "operator create /batch/night");
    ask(&machine, "operator migrate 41 /batch/night");
    const char *how = start_service(&machine);
    printf("the service runs %s; transactions open: %u\n", how, (unsigned)cgtx_open_count(&machine));

    /* The operator went away, and his transaction with him. */
    while (cgtx_abort_oldest(&machine) == CGTX_DONE) {
        printf("%-44s ", "(at the end)");
        print_text(&machine);
        putchar('\n');
    }
    status = cgtx_file(&machine, "/system/web", strlen("/system/web"), "cgroup.procs", strlen("cgroup.procs"));
    if (status != CGTX_DONE)
        stop("no file", status);
    printf("in /system/web: ");
    print_text(&machine);
    status = cgtx_world(&machine);
    if (status != CGTX_DONE)
        stop("no tree", status);
    print_text(&machine);
    return cgtx_close(&machine) == CGTX_DONE ? 0 : 1;
}
