/*
 * small_stack ARCHIVE..: checks archives in a task with 4 KiB of stack, as a monitor beside a controller may be, and
 * prints a line for each: `NAME: archive` or `NAME: refused N`. The task's stack is an array here; fennqualo_check takes
 * FENNQUALO_CHECK_STACK bytes of it.
 * cc small_stack.c $(pkg-config --cflags --libs fennqualo) -o small_stack
 * Exit: 0 all are archives, 1 one is refused or cannot be read, 2 no name is given.
 */
#define _XOPEN_SOURCE 600
#include <fennqualo.h>
#include <stdio.h>
#include <ucontext.h>

#define TASK_STACK 4096

static uint8_t bytes[FENNQUALO_ARCHIVE_MOST + 1]; /* one more: a longer file is no archive */
static size_t length;
static uint8_t refusal;
static uint8_t stack[TASK_STACK];
static ucontext_t here, task;

static void check(void)
{
    refusal = fennqualo_check(bytes, length);
}

/* Runs the task once, on its own stack. */
static int run_task(void)
{
    if (getcontext(&task) != 0) {
        return 0;
    }
    task.uc_stack.ss_sp = stack;
    task.uc_stack.ss_size = sizeof stack;
    task.uc_link = &here;
    makecontext(&task, check, 0);
    return swapcontext(&here, &task) == 0;
}

static int check_file(const char *name)
{
    FILE *file = fopen(name, "rb");

    if (file == NULL) {
        printf("%s: cannot be read\n", name);
        return 0;
    }
    length = fread(bytes, 1, sizeof bytes, file);
    fclose(file);
    if (!run_task()) {
        printf("%s: no task\n", name);
        return 0;
    }
    if (refusal == 0) {
        printf("%s: archive\n", name);
    } else {
        printf("%s: refused %u\n", name, refusal);
    }
    return refusal == 0;
}

int main(int count, char **names)
{
    int all = 1, i;

    for (i = 1; i < count; i++) {
        all &= check_file(names[i]);
    }
    return count < 2 ? 2 : all ? 0 : 1;
}
