/* What a program in C calls of burr. docs/LIBRARY.md says how it is built and linked.

   The functions without a body are those of the library libburr_c.a. They were written by hand;
   scripts/check-library compares these declarations with the library's source. What stands after
   them is plain C over these functions, which hands over what is printed line by line. */
#ifndef BURR_H
#define BURR_H

#include <stdbool.h>
#include <stddef.h>
#include <stdint.h>
#include <stdlib.h>
#include <string.h>

#ifdef __cplusplus
extern "C" {
#endif

/* What a call gives: the exit status that the program ends with; or, with a handle, 6 or 7. */
enum burr_status {
    BURR_DONE = 0,      /* all pieces are apart; a plan is accepted; what was asked is done */
    BURR_REFUSED = 1,   /* refused, trapped or stopped: the lines say why, where there are any */
    BURR_TOO_LONG = 3,  /* an input has more than 16,777,216 bytes; nothing is printed */
    BURR_NO_MEMORY = 4, /* a request for memory was refused; nothing is printed */
    BURR_WAITING = 5,   /* the run waits for an answer: the last line, or the halt, says which */
    BURR_ENDED = 6,     /* the run of a drive has ended: there is no next move */
    BURR_CLOSED = 7     /* no drive, or no stepper, is open in this handle; nothing has changed */
};

/* The library's own functions. An input is a pointer and a number of bytes; the pointer is never
   null, also where there are no bytes. *size becomes the number of bytes that there are to print.
   The buffer takes as many of them as it has bytes, from the first on, and keeps its other bytes. The
   bytes of the buffer and *size have to be initialised, and none of them may be one of an input. */
uint8_t burr_check(const uint8_t *assembly, size_t assembly_length, const uint8_t *plan,
                   size_t plan_length, uint8_t *buffer, size_t buffer_length, size_t *size);
uint8_t burr_run(const uint8_t *assembly, size_t assembly_length, const uint8_t *plan,
                 size_t plan_length, const uint8_t *answers, size_t answers_length, uint8_t *buffer,
                 size_t buffer_length, size_t *size);
uint8_t burr_try(const uint8_t *assembly, size_t assembly_length, const uint8_t *plan,
                 size_t plan_length, const uint8_t *answers, size_t answers_length, uint8_t *buffer,
                 size_t buffer_length, size_t *size);
uint8_t burr_step_through(const uint8_t *assembly, size_t assembly_length, const uint8_t *plan,
                          size_t plan_length, const uint8_t *commands, size_t commands_length,
                          uint8_t *buffer, size_t buffer_length, size_t *size);
uint8_t burr_assemble(const uint8_t *text, size_t text_length, uint8_t *buffer, size_t buffer_length,
                      size_t *size);

/* A run that is kept between calls. It begins closed, as {NULL, false}. While it is open it is
   neither copied nor altered, but by these functions; and it has to be closed in the end. */
struct burr_handle {
    uint8_t *at;
    bool is_open;
};

/* A whole move: unit steps of one group of pieces, and then perhaps its way out. */
struct burr_move {
    uint32_t number;   /* moves are counted from 1 */
    uint32_t group;    /* the pieces that move: bit p is piece p of the assembly, from 0 on */
    uint32_t units;    /* how many unit steps */
    uint32_t apart;    /* the pieces that are apart by the move, as bits too */
    int16_t out;       /* the tray to which the group goes out after them; -1 where it stays */
    uint8_t tray;      /* the tray in which the group is before */
    uint8_t direction; /* 0 to 5: +x, -x, +y, -y, +z, -z */
};

/* Why no move is made: the run waits for an answer, or has ended. */
struct burr_halt {
    uint64_t steps;    /* how many steps were made, where the run has ended; else 0 */
    uint32_t question; /* questions are counted from 1; where the run has ended this is 0, */
                       /* and so are those below */
    int32_t low;       /* the least number that answers it */
    int32_t high;      /* the greatest one */
    uint16_t pc;       /* where it stands in the code of its procedure */
    uint8_t procedure; /* which procedure that is */
};

/* A drive leads a run of an accepted plan move by move, as `burr drive` does. *move and *halt have
   to be initialised, and are written only where the status says that they tell something. Only the
   call that opens a drive asks for memory.

   Opens a drive before the first move, and prints what `burr drive` does before its first command:
   `ready D`, or the refusal of the assembly or of the plan, which is a container. The handle is
   open exactly where the status is BURR_DONE. A drive that it had is closed before. */
uint8_t burr_drive_open(const uint8_t *assembly, size_t assembly_length, const uint8_t *plan,
                        size_t plan_length, uint8_t *buffer, size_t buffer_length, size_t *size,
                        struct burr_handle *run);
/* BURR_DONE: the next move is made, and *move tells it. BURR_WAITING or BURR_ENDED: there is none
   now, as *halt tells, and nothing has changed. */
uint8_t burr_drive_next(struct burr_handle *run, struct burr_move *move, struct burr_halt *halt);
/* Goes on, without telling the moves, until the move of this number is the last that is made:
   BURR_DONE. BURR_WAITING or BURR_ENDED: the run halts before that, and *halt tells why.
   BURR_REFUSED: a later move is made already, and nothing has changed. */
uint8_t burr_drive_goto(struct burr_handle *run, uint32_t number, struct burr_halt *halt);
/* BURR_DONE: the answer is taken. BURR_REFUSED: the run does not wait at the question of this
   number, or the answer does not fit it, and nothing has changed. */
uint8_t burr_drive_answer(struct burr_handle *run, uint32_t question, int32_t answer);
/* Closes the drive, or the stepper, and frees its memory; leaves a handle alone that is closed. */
void burr_drive_close(struct burr_handle *run);

/* A stepper takes an accepted plan by single steps, forwards and back, as `burr step` does.

   Opens a stepper at the start of a run, and prints nothing, or the refusal of the assembly or of the
   plan, which is a container. The handle is open exactly where the status is BURR_DONE. A run that it
   had is closed before; burr_drive_close closes the stepper. */
uint8_t burr_step_open(const uint8_t *assembly, size_t assembly_length, const uint8_t *plan,
                       size_t plan_length, uint8_t *buffer, size_t buffer_length, size_t *size,
                       struct burr_handle *run);
/* Takes a command, a line without its end, and prints what answers it. BURR_DONE also where the
   command is refused. BURR_NO_MEMORY: it is not taken; or it is, and its answer is lost, and `show`
   tells where the run stands. `quit` is answered by nothing, and changes nothing. */
uint8_t burr_step_command(struct burr_handle *run, const uint8_t *line, size_t line_length,
                          uint8_t *buffer, size_t buffer_length, size_t *size);

/* Bytes of the caller's. Where there are none the pointer may be null. */
struct burr_bytes {
    const void *at;
    size_t length;
};

/* Bytes that were printed, in memory of malloc, a zero after the last. burr_free frees them. */
struct burr_text {
    char *at;
    size_t length;
};

/* Takes a line that was printed, without its end; a zero stands after its last byte. The line lasts
   as long as the call. */
typedef void burr_line(void *context, const char *line, size_t length);

static inline struct burr_bytes burr_bytes_of(const void *at, size_t length)
{
    struct burr_bytes bytes;
    bytes.at = at;
    bytes.length = length;
    return bytes;
}

static inline void burr_free(struct burr_text *text)
{
    free(text->at);
    text->at = NULL;
    text->length = 0;
}

/* Which function is called. */
enum burr_command_ {
    BURR_CHECK_,
    BURR_RUN_,
    BURR_TRY_,
    BURR_DRIVE_,
    BURR_STEPPER_,
    BURR_ASSEMBLE_
};

/* What it is called with: an assembly's text, or a plan text where that is assembled; a container;
   answers; and the handle in which a drive or a stepper is opened. */
struct burr_inputs_ {
    struct burr_bytes text, plan, more;
    struct burr_handle *run;
};

static inline struct burr_inputs_ burr_inputs_of_(struct burr_bytes text, struct burr_bytes plan,
                                                  struct burr_bytes more)
{
    struct burr_inputs_ in;
    in.text = text;
    in.plan = plan;
    in.more = more;
    in.run = NULL;
    return in;
}

static inline const uint8_t *burr_pointer_(struct burr_bytes bytes)
{
    static const uint8_t nothing[1] = {0};
    return bytes.length == 0 ? nothing : (const uint8_t *)bytes.at;
}

static inline int burr_call_(enum burr_command_ command, struct burr_inputs_ in, uint8_t *buffer,
                             size_t length, size_t *size)
{
    const uint8_t *text = burr_pointer_(in.text);
    const uint8_t *plan = burr_pointer_(in.plan);
    const uint8_t *more = burr_pointer_(in.more);
    switch (command) {
    case BURR_CHECK_:
        return burr_check(text, in.text.length, plan, in.plan.length, buffer, length, size);
    case BURR_RUN_:
        return burr_run(text, in.text.length, plan, in.plan.length, more, in.more.length, buffer,
                        length, size);
    case BURR_TRY_:
        return burr_try(text, in.text.length, plan, in.plan.length, more, in.more.length, buffer,
                        length, size);
    case BURR_DRIVE_:
        return burr_drive_open(text, in.text.length, plan, in.plan.length, buffer, length, size,
                               in.run);
    case BURR_STEPPER_:
        return burr_step_open(text, in.text.length, plan, in.plan.length, buffer, length, size,
                              in.run);
    default:
        return burr_assemble(text, in.text.length, buffer, length, size);
    }
}

/* All that is printed. A buffer that was too small is replaced by one that is large enough, and the
   call is made again: it prints the same. */
static inline int burr_print_(enum burr_command_ command, struct burr_inputs_ in,
                              struct burr_text *out)
{
    size_t length = 4096;
    out->at = NULL;
    out->length = 0;
    for (;;) {
        size_t size = 0;
        int status;
        char *buffer = (char *)calloc(length + 1, 1);
        if (buffer == NULL)
            return BURR_NO_MEMORY;
        status = burr_call_(command, in, (uint8_t *)buffer, length, &size);
        if (size <= length) {
            out->at = buffer;
            out->length = size;
            return status;
        }
        free(buffer);
        length = size;
    }
}

/* Hands over the lines from this number of bytes on. */
static inline void burr_hand_over_(struct burr_text *text, size_t from, burr_line *take,
                                   void *context)
{
    while (from < text->length) {
        char *line = text->at + from;
        char *end = (char *)memchr(line, '\n', text->length - from);
        size_t length = end == NULL ? text->length - from : (size_t)(end - line);
        line[length] = '\0';
        take(context, line, length);
        from += length + 1;
    }
}

static inline int burr_hand_lines_(enum burr_command_ command, struct burr_inputs_ in,
                                   burr_line *take, void *context)
{
    struct burr_text text;
    int status = burr_print_(command, in, &text);
    burr_hand_over_(&text, 0, take, context);
    burr_free(&text);
    return status;
}

/* Judges a container for the text of an assembly, and hands over the line that says so. */
static inline int burr_check_lines(struct burr_bytes assembly, struct burr_bytes plan,
                                   burr_line *take, void *context)
{
    struct burr_inputs_ in = burr_inputs_of_(assembly, plan, burr_bytes_of(NULL, 0));
    return burr_hand_lines_(BURR_CHECK_, in, take, context);
}

/* Runs a plan that is accepted, with the lines of answers, and hands over the lines of its sheet;
   or hands over the refusal. */
static inline int burr_run_lines(struct burr_bytes assembly, struct burr_bytes plan,
                                 struct burr_bytes answers, burr_line *take, void *context)
{
    return burr_hand_lines_(BURR_RUN_, burr_inputs_of_(assembly, plan, answers), take, context);
}

/* The same without judging the plan: each move is checked, and the run may end in a trap. */
static inline int burr_try_lines(struct burr_bytes assembly, struct burr_bytes plan,
                                 struct burr_bytes answers, burr_line *take, void *context)
{
    return burr_hand_lines_(BURR_TRY_, burr_inputs_of_(assembly, plan, answers), take, context);
}

/* Assembles a plan text. With BURR_DONE the container is in *container, which burr_free frees; else
   *container is empty, and the line that refuses the text is handed over. */
static inline int burr_assemble_text(struct burr_bytes text, struct burr_text *container,
                                     burr_line *take, void *context)
{
    struct burr_bytes none = burr_bytes_of(NULL, 0);
    int status = burr_print_(BURR_ASSEMBLE_, burr_inputs_of_(text, none, none), container);
    if (status != BURR_DONE) {
        burr_hand_over_(container, 0, take, context);
        burr_free(container);
    }
    return status;
}

/* Opens a drive or a stepper, and hands over what is printed. With any other status than BURR_DONE
   the handle is closed. */
static inline int burr_open_lines_(enum burr_command_ command, struct burr_handle *run,
                                   struct burr_bytes assembly, struct burr_bytes plan,
                                   burr_line *take, void *context)
{
    struct burr_inputs_ in = burr_inputs_of_(assembly, plan, burr_bytes_of(NULL, 0));
    int status;
    in.run = run;
    status = burr_hand_lines_(command, in, take, context);
    if (status != BURR_DONE)
        burr_drive_close(run); /* also if out of memory */
    return status;
}

/* Opens a drive, and hands over the line that says so, or the refusal. With any other status than
   BURR_DONE the handle is closed. */
static inline int burr_drive_open_lines(struct burr_handle *run, struct burr_bytes assembly,
                                        struct burr_bytes plan, burr_line *take, void *context)
{
    return burr_open_lines_(BURR_DRIVE_, run, assembly, plan, take, context);
}

/* An accepted plan that is gone through step by step. */
struct burr_stepper {
    struct burr_handle run;
    bool has_quit; /* no command is taken any more */
};

/* More bytes than any answer to a command has: the longest shows 32 pieces. */
enum { BURR_ANSWER_ = 8192 };

/* Opens a stepper at the start of a plan. BURR_DONE where the plan is accepted; else the refusal is
   handed over, and there is nothing to close. */
static inline int burr_stepper_open(struct burr_stepper *stepper, struct burr_bytes assembly,
                                    struct burr_bytes plan, burr_line *take, void *context)
{
    stepper->run.at = NULL;
    stepper->run.is_open = false;
    stepper->has_quit = false;
    return burr_open_lines_(BURR_STEPPER_, &stepper->run, assembly, plan, take, context);
}

/* Takes a command, as "forward" or "answer 2", and hands over the lines that answer it. BURR_DONE
   whatever the answer is, also where the command is refused; with BURR_NO_MEMORY it is not taken, or
   its answer is lost: "show" tells where the run stands. After "quit" nothing is answered. */
static inline int burr_stepper_command(struct burr_stepper *stepper, const char *command,
                                       burr_line *take, void *context)
{
    char buffer[BURR_ANSWER_] = {0};
    struct burr_bytes line = burr_bytes_of(command, strlen(command));
    struct burr_text text;
    size_t size = 0;
    int status;
    if (stepper->has_quit)
        return BURR_DONE;
    status = burr_step_command(&stepper->run, burr_pointer_(line), line.length, (uint8_t *)buffer,
                               BURR_ANSWER_, &size);
    text.at = buffer;
    text.length = size;
    burr_hand_over_(&text, 0, take, context);
    stepper->has_quit = status == BURR_DONE && size == 0;
    return status;
}

static inline void burr_stepper_close(struct burr_stepper *stepper)
{
    burr_drive_close(&stepper->run);
}

#ifdef __cplusplus
}
#endif

#endif
