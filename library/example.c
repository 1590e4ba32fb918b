/* Assembles a plan text and judges it for an assembly, runs it with answers, and with the same
   answers goes through it step by step and leads it move by move:

       example ASSEMBLY TEXT [ANSWER..]

   It prints what `burr check` and `burr run` print; then each command for the stepper after "> "
   and what `burr step` answers; and then what `burr drive` answers, where a set of pieces is told
   as a hexadecimal number, whose bit p is piece p. It ends with the status of the run. */
#include "burr.h"

#include <inttypes.h>
#include <stdio.h>

/* What the stepper's last answer says. */
struct state {
    int asks;  /* a question is next */
    int ended; /* no step is left */
};

static void print_line(void *context, const char *line, size_t length)
{
    (void)context;
    fwrite(line, 1, length, stdout);
    putchar('\n');
}

static void print_answer(void *context, const char *line, size_t length)
{
    struct state *state = context;
    print_line(NULL, line, length);
    if (strncmp(line, "after ", 6) == 0) {
        state->asks = strstr(line, " asks ") != NULL;
        state->ended = strstr(line, " ended") != NULL;
    } else if (strcmp(line, "refused S2") == 0) {
        state->asks = 1;
    }
}

/* The bytes of a file, one more at most than the library takes; null where it can't be read. */
static char *read_file(const char *name, size_t *length)
{
    const size_t most = 16777217;
    FILE *file = fopen(name, "rb");
    char *bytes = file == NULL ? NULL : malloc(most);
    if (bytes != NULL) {
        *length = fread(bytes, 1, most, file);
        if (ferror(file)) {
            free(bytes);
            bytes = NULL;
        }
    }
    if (file != NULL)
        fclose(file);
    if (bytes == NULL)
        fprintf(stderr, "cannot read %s\n", name);
    return bytes;
}

/* The answers, a line each. */
static char *join_answers(int count, char **answers)
{
    size_t length = 0;
    char *text;
    for (int i = 0; i < count; i++)
        length += strlen(answers[i]) + 1;
    text = calloc(length + 1, 1);
    for (int i = 0; text != NULL && i < count; i++)
        strcat(strcat(text, answers[i]), "\n");
    return text;
}

/* Gives the stepper a command. */
static int give_command(struct burr_stepper *stepper, const char *command, struct state *state)
{
    printf("> %s\n", command);
    return burr_stepper_command(stepper, command, print_answer, state);
}

/* Goes through the plan to its end, or until no answer is left. */
static int step_through(struct burr_bytes assembly, struct burr_bytes plan, int count,
                        char **answers)
{
    struct burr_stepper stepper;
    struct state state = {0, 0};
    int status = burr_stepper_open(&stepper, assembly, plan, print_line, NULL);
    if (status != BURR_DONE)
        return status;
    while (status == BURR_DONE && !state.ended && (!state.asks || count > 0)) {
        char command[64] = "forward";
        if (state.asks) {
            snprintf(command, sizeof command, "answer %s", *answers++);
            count--;
        }
        status = give_command(&stepper, command, &state);
    }
    if (status == BURR_DONE)
        status = give_command(&stepper, "show", &state);
    burr_stepper_close(&stepper);
    return status;
}

/* Here a real gripper would make the move. */
static void print_move(const struct burr_move *move)
{
    static const char *const directions[] = {"+x", "-x", "+y", "-y", "+z", "-z"};
    printf("move %" PRIu32 " t%u %" PRIx32 " %s %" PRIu32, move->number, move->tray, move->group,
           directions[move->direction], move->units);
    if (move->out >= 0)
        printf(" out t%d", move->out);
    if (move->apart != 0)
        printf(" apart %" PRIx32, move->apart);
    putchar('\n');
}

static void print_halt(const struct burr_halt *halt)
{
    if (halt->question == 0)
        printf("end %" PRIu64 "\n", halt->steps);
    else
        printf("ask %" PRIu32 " %" PRId32 " %" PRId32 " proc %u pc %u\n", halt->question, halt->low,
               halt->high, halt->procedure, halt->pc);
}

/* Answers a question with a word. What has more than 32 bits becomes a number that none takes. */
static void give_answer(struct burr_handle *run, uint32_t question, const char *word)
{
    long long number = strtoll(word, NULL, 10);
    int32_t answer = number < INT32_MIN || number > INT32_MAX ? INT32_MAX : (int32_t)number;
    if (burr_drive_answer(run, question, answer) == BURR_DONE)
        printf("taken %" PRIu32 "\n", question);
    else
        puts("refused answer");
}

/* Leads the run to its end, or until no answer is left. */
static int lead(struct burr_bytes assembly, struct burr_bytes plan, int count, char **answers)
{
    struct burr_handle run = {NULL, false};
    struct burr_move move = {0};
    struct burr_halt halt = {0};
    int status = burr_drive_open_lines(&run, assembly, plan, print_line, NULL);
    while (status == BURR_DONE) {
        status = burr_drive_next(&run, &move, &halt);
        if (status == BURR_DONE) {
            print_move(&move);
        } else {
            print_halt(&halt);
            if (status == BURR_WAITING && count > 0) {
                give_answer(&run, halt.question, *answers++);
                count--;
                status = BURR_DONE;
            }
        }
    }
    burr_drive_close(&run);
    return status == BURR_ENDED ? BURR_DONE : status;
}

/* Judges the plan, runs it, goes through it and leads it. The status of the run. */
static int use_plan(struct burr_bytes assembly, struct burr_bytes plan, int count, char **answers)
{
    char *text = join_answers(count, answers);
    int status;
    if (text == NULL)
        return BURR_NO_MEMORY;
    status = burr_check_lines(assembly, plan, print_line, NULL);
    if (status == BURR_DONE) {
        status =
            burr_run_lines(assembly, plan, burr_bytes_of(text, strlen(text)), print_line, NULL);
        if (status == BURR_DONE || status == BURR_WAITING) {
            int stepped = step_through(assembly, plan, count, answers);
            status = stepped == BURR_DONE ? lead(assembly, plan, count, answers) : stepped;
        }
    }
    free(text);
    return status;
}

int main(int count, char **words)
{
    size_t assembly_length, text_length;
    struct burr_text container;
    char *assembly, *text;
    int status = 3;
    if (count < 3) {
        fprintf(stderr, "usage: %s ASSEMBLY TEXT [ANSWER..]\n", words[0]);
        return 2;
    }
    assembly = read_file(words[1], &assembly_length);
    text = read_file(words[2], &text_length);
    if (assembly != NULL && text != NULL) {
        status = burr_assemble_text(burr_bytes_of(text, text_length), &container, print_line, NULL);
        if (status == BURR_DONE) {
            status = use_plan(burr_bytes_of(assembly, assembly_length),
                              burr_bytes_of(container.at, container.length), count - 3, words + 3);
            burr_free(&container);
        }
    }
    free(assembly);
    free(text);
    return status;
}
