/* calls: reads a script on standard input, a command to a line, makes each call over simplev.h and prints its answer.
 * tools/calls builds and starts it; its --help has the form of a script. A command is a row of `forms` below. */
#define _POSIX_C_SOURCE 200809L /* getline, isatty */
#include "simplev.h"
#include <errno.h>
#include <inttypes.h>
#include <stdarg.h>
#include <stdbool.h>
#include <stdio.h>
#include <stdlib.h>
#include <string.h>
#include <sys/types.h>
#include <unistd.h>

#define DEFAULT_SIZE 4096 /* bytes of memory before a `fresh` says otherwise */
#define MOST_WORDS 5      /* one more than any form has, so that one too many is seen */
#define MOST_NUMBERS 2

/* What a command works on. */
struct context {
    struct simplev_machine machine;
    uint8_t *memory;
    size_t size;
};

static unsigned long line; /* 1 is the first */

/* Says what is wrong with the line, after all that was printed before it. */
static bool refuse(const char *format, ...)
{
    va_list list;
    fflush(stdout);
    fprintf(stderr, "calls: line %lu: ", line);
    va_start(list, format);
    vfprintf(stderr, format, list);
    va_end(list);
    fputc('\n', stderr);
    return false;
}

/* --- numbers --- */

/* The value of a digit; 16 for what is none. */
static unsigned digit_of(char c)
{
    static const char digits[] = "0123456789abcdefABCDEF";
    const char *found = strchr(digits, c);
    if (found == NULL)
        return 16;
    return (unsigned)(found - digits) < 16 ? (unsigned)(found - digits) : (unsigned)(found - digits) - 6;
}

/* A number above 2^64 - 1 counts as that. */
static bool read_number(const char *word, uint64_t *value)
{
    const unsigned base = strncmp(word, "0x", 2) == 0 ? 16 : 10;
    word += base == 16 ? 2 : 0;
    *value = 0;
    if (*word == '\0')
        return false;
    for (; *word != '\0'; word++) {
        const unsigned digit = digit_of(*word);
        if (digit >= base)
            return false;
        *value = *value > (UINT64_MAX - digit) / base ? UINT64_MAX : *value * base + digit;
    }
    return true;
}

/* The largest that the parameter holds stands for a number that it can't hold: cut off, it would be another number. */
static uint32_t as_32(uint64_t n)
{
    return n > UINT32_MAX ? UINT32_MAX : (uint32_t)n;
}

static uint16_t as_16(uint64_t n)
{
    return n > UINT16_MAX ? UINT16_MAX : (uint16_t)n;
}

/* --- commands: each takes the numbers of its line, and gives whether they were good --- */

/* A call: prints its answer and its value. 99 would show a value that the call did not write. */
#define CALL(name, made)                                    \
    static bool name(struct context *c, const uint64_t *n)  \
    {                                                       \
        uint64_t value = 99;                                \
        const uint32_t answer = made;                       \
        (void)n;                                            \
        printf("%" PRIu32 " %" PRIu64 "\n", answer, value); \
        return true;                                        \
    }

CALL(set_vl, simplev_machine_set_vl(&c->machine, n[0], &value))
CALL(set_vl_immediate, simplev_machine_set_vl_immediate(&c->machine, as_32(n[0]), &value))
CALL(set_mvl, simplev_machine_set_mvl(&c->machine, as_32(n[0]), &value))
CALL(set_cfg, simplev_machine_set_cfg(&c->machine, as_32(n[0]), &value))
CALL(set_state_word, simplev_machine_set_state_word(&c->machine, as_32(n[0]), &value))
CALL(set_pc, simplev_machine_set_pc(&c->machine, n[0], &value))
CALL(set_register, simplev_machine_set_register(&c->machine, as_32(n[0]), n[1], &value))
CALL(set_register_entry, simplev_machine_set_register_entry(&c->machine, as_32(n[0]), as_16(n[1]), &value))
CALL(set_predicate_entry, simplev_machine_set_predicate_entry(&c->machine, as_32(n[0]), as_16(n[1]), &value))

CALL(read_vl, simplev_machine_read_vl(&c->machine, &value))
CALL(read_mvl, simplev_machine_read_mvl(&c->machine, &value))
CALL(read_cfg, simplev_machine_read_cfg(&c->machine, &value))
CALL(read_state_word, simplev_machine_read_state_word(&c->machine, &value))
CALL(read_pc, simplev_machine_read_pc(&c->machine, &value))
CALL(read_register, simplev_machine_read_register(&c->machine, as_32(n[0]), &value))
CALL(read_register_entry, simplev_machine_read_register_entry(&c->machine, as_32(n[0]), &value))
CALL(read_predicate_entry, simplev_machine_read_predicate_entry(&c->machine, as_32(n[0]), &value))

CALL(run, simplev_machine_run(&c->machine, as_32(n[0]), as_16(n[1]), c->memory, c->size, &value))
CALL(step, simplev_machine_step(&c->machine, as_32(n[0]), c->memory, c->size, &value))

/* A word written past the calls, so that the machine may be out of shape. */
#define POKE(name, word)                                   \
    static bool name(struct context *c, const uint64_t *n) \
    {                                                      \
        c->machine.word = n[0];                            \
        return true;                                       \
    }

POKE(poke_mvl, control[SIMPLEV_MVL])
POKE(poke_vl, control[SIMPLEV_VL])
POKE(poke_cfg, control[SIMPLEV_CFG])
POKE(poke_source, control[SIMPLEV_SOURCE])
POKE(poke_destination, control[SIMPLEV_DESTINATION])
POKE(poke_register_0, registers[0])

static bool poke_predicate_entry(struct context *c, const uint64_t *n)
{
    if (n[0] >= SIMPLEV_ENTRIES)
        return refuse("there is no entry %" PRIu64 "; entries are 0 to %d", n[0], SIMPLEV_ENTRIES - 1);
    if (n[1] > UINT16_MAX)
        return refuse("%" PRIu64 " is no entry; an entry has 16 bits, 0 to %d", n[1], UINT16_MAX);
    c->machine.predicate_table[n[0]] = (uint16_t)n[1];
    return true;
}

/* The machine and memory that were there stay where the new memory can't be had. */
static bool fresh(struct context *c, const uint64_t *n)
{
    const size_t size = (size_t)n[0] == n[0] ? (size_t)n[0] : SIZE_MAX;
    uint8_t *memory = calloc(size ? size : 1, 1);
    if (memory == NULL)
        return refuse("a memory of %" PRIu64 " bytes can't be had; take a smaller one", n[0]);
    free(c->memory);
    c->memory = memory;
    c->size = size;
    simplev_machine_fresh(&c->machine);
    return true;
}

static bool write_byte(struct context *c, const uint64_t *n)
{
    if (n[0] >= c->size)
        return refuse("there is no byte %" PRIu64 "; memory has %zu bytes, from 0", n[0], c->size);
    if (n[1] > UINT8_MAX)
        return refuse("%" PRIu64 " is no byte; a byte is 0 to %d", n[1], UINT8_MAX);
    c->memory[n[0]] = (uint8_t)n[1];
    return true;
}

static void print_entries(const char *name, const uint16_t *table)
{
    for (int i = 0; i < SIMPLEV_ENTRIES; i++)
        if (table[i] != 0)
            printf("%s%d %u\n", name, i, (unsigned)table[i]);
}

static bool dump(struct context *c, const uint64_t *n)
{
    const uint64_t *control = c->machine.control;
    (void)n;
    print_entries("reg", c->machine.register_table);
    print_entries("pred", c->machine.predicate_table);
    printf("pc %" PRIu64 " mvl %" PRIu64, control[SIMPLEV_PC], control[SIMPLEV_MVL]);
    printf(" vl %" PRIu64 " src %" PRIu64, control[SIMPLEV_VL], control[SIMPLEV_SOURCE]);
    printf(" dst %" PRIu64 " cfg %" PRIu64 "\n", control[SIMPLEV_DESTINATION], control[SIMPLEV_CFG]);
    for (int i = 0; i < SIMPLEV_REGISTERS; i++)
        if (c->machine.registers[i] != 0)
            printf("x%d %" PRIu64 "\n", i, c->machine.registers[i]);
    for (size_t i = 0; i < c->size; i++)
        if (c->memory[i] != 0)
            printf("mem%zu %u\n", i, (unsigned)c->memory[i]);
    return true;
}

static bool print_version(struct context *c, const uint64_t *n)
{
    const uint32_t version = simplev_version();
    (void)c;
    (void)n;
    printf("version %" PRIu32 ".%" PRIu32 ".%" PRIu32 "\n", version >> 16, version >> 8 & 255, version & 255);
    return true;
}

/* --- the forms of a line --- */

struct form {
    const char *verb;
    const char *object;   /* the second word, or NULL where the verb stands alone */
    const char *operands; /* a word for each number that follows */
    bool (*act)(struct context *c, const uint64_t *n);
};

/* Rows of one verb stand together. */
static const struct form forms[] = {
    {"fresh", NULL, "MEMLEN", fresh},
    {"set", "vl", "N", set_vl},
    {"set", "vli", "N", set_vl_immediate},
    {"set", "mvl", "N", set_mvl},
    {"set", "state", "N", set_state_word},
    {"set", "cfg", "N", set_cfg},
    {"set", "pc", "N", set_pc},
    {"set", "x", "I N", set_register},
    {"set", "reg", "I N", set_register_entry},
    {"set", "pred", "I N", set_predicate_entry},
    {"get", "vl", "", read_vl},
    {"get", "mvl", "", read_mvl},
    {"get", "state", "", read_state_word},
    {"get", "cfg", "", read_cfg},
    {"get", "pc", "", read_pc},
    {"get", "x", "I", read_register},
    {"get", "reg", "I", read_register_entry},
    {"get", "pred", "I", read_predicate_entry},
    {"run", NULL, "WORD ALLOWANCE", run},
    {"step", NULL, "WORD", step},
    {"poke", "mvl", "N", poke_mvl},
    {"poke", "vl", "N", poke_vl},
    {"poke", "src", "N", poke_source},
    {"poke", "dst", "N", poke_destination},
    {"poke", "cfg", "N", poke_cfg},
    {"poke", "x0", "N", poke_register_0},
    {"poke", "pred", "I N", poke_predicate_entry},
    {"mem", NULL, "ADDRESS BYTE", write_byte},
    {"dump", NULL, "", dump},
    {"version", NULL, "", print_version},
};
#define FORMS (sizeof forms / sizeof forms[0])

static int operand_count(const struct form *form)
{
    int count = form->operands[0] != '\0';
    for (const char *at = form->operands; *at != '\0'; at++)
        count += *at == ' ';
    return count;
}

/* The second words of a verb, or all verbs where it is NULL. */
static void list_words(const char *verb, char *list, size_t size)
{
    list[0] = '\0';
    for (size_t k = 0; k < FORMS; k++) {
        const char *word = verb ? forms[k].object : forms[k].verb;
        const bool skipped = verb ? strcmp(forms[k].verb, verb) != 0 : k > 0 && strcmp(forms[k - 1].verb, word) == 0;
        const size_t used = strlen(list);
        if (!skipped)
            snprintf(list + used, size - used, "%s%s", used ? ", " : "", word);
    }
}

/* The form that a line begins with, or NULL and a word about it. */
static const struct form *find_form(char **words, int count)
{
    const char *verb = NULL;
    char list[256];
    for (size_t k = 0; k < FORMS; k++) {
        if (strcmp(forms[k].verb, words[0]) != 0)
            continue;
        verb = words[0];
        if (forms[k].object == NULL || (count > 1 && strcmp(forms[k].object, words[1]) == 0))
            return &forms[k];
    }
    list_words(verb, list, sizeof list);
    if (verb == NULL)
        refuse("'%.40s' is none of the commands %s", words[0], list);
    else if (count == 1)
        refuse("%s takes one of %s", verb, list);
    else
        refuse("%s takes one of %s, and not '%.40s'", verb, list, words[1]);
    return NULL;
}

/* --- lines --- */

static bool obey(struct context *c, char **words, int count)
{
    uint64_t numbers[MOST_NUMBERS] = {0};
    const struct form *form = find_form(words, count);
    if (form == NULL)
        return false;
    const int first = form->object ? 2 : 1;
    if (count - first != operand_count(form))
        return refuse("the form is: %s%s%s%s%s", form->verb, form->object ? " " : "", form->object ? form->object : "",
                      form->operands[0] ? " " : "", form->operands);
    for (int k = first; k < count; k++)
        if (!read_number(words[k], &numbers[k - first]))
            return refuse("'%.40s' is no number; a number is decimal, or 0x and hex digits", words[k]);
    return form->act(c, numbers);
}

/* Spaces and tabs separate words, and a # ends them. */
static int split(char *text, char **words)
{
    int count = 0;
    text[strcspn(text, "#")] = '\0';
    for (char *word = strtok(text, " \t"); word != NULL && count < MOST_WORDS; word = strtok(NULL, " \t"))
        words[count++] = word;
    return count;
}

/* A line without its end. */
static bool read_line(struct context *c, char *text, size_t length)
{
    char *words[MOST_WORDS];
    if (line == 1 && length >= 3 && memcmp(text, "\xef\xbb\xbf", 3) == 0) {
        text += 3;
        length -= 3;
    }
    if (line == 1 && length >= 2 && (memcmp(text, "\xff\xfe", 2) == 0 || memcmp(text, "\xfe\xff", 2) == 0))
        return refuse("the script is UTF-16; save it as UTF-8");
    for (size_t k = 0; k < length; k++) {
        const unsigned char byte = (unsigned char)text[k];
        if ((byte < ' ' && byte != '\t') || byte == 0x7f)
            return refuse("byte %zu is the control byte 0x%02x; a script is text", k + 1, (unsigned)byte);
    }
    const int count = split(text, words);
    return count == 0 || obey(c, words, count);
}

static size_t without_end(char *text, size_t length)
{
    if (length > 0 && text[length - 1] == '\n')
        length--;
    if (length > 0 && text[length - 1] == '\r')
        length--;
    text[length] = '\0';
    return length;
}

/* At a terminal an error does not end the script: a typo must not lose the machine. */
static bool read_script(struct context *c, bool terminal)
{
    char *text = NULL;
    size_t room = 0;
    ssize_t length;
    bool good = true;
    while (good && !ferror(stdout) && (length = getline(&text, &room, stdin)) >= 0) {
        line++;
        good = read_line(c, text, without_end(text, (size_t)length)) || terminal;
        if (terminal)
            fflush(stdout);
    }
    if (good && !ferror(stdout) && !feof(stdin)) {
        fprintf(stderr, "calls: after line %lu the script can't be read: %s\n", line, strerror(errno));
        good = false;
    }
    free(text);
    return good;
}

int main(void)
{
    static const uint64_t size = DEFAULT_SIZE;
    const bool terminal = isatty(STDIN_FILENO);
    struct context c = {.memory = NULL};
    if (!fresh(&c, &size))
        return 1;
    if (terminal)
        fprintf(stderr, "calls: a fresh machine and %d bytes; a command to a line, control-D ends\n", DEFAULT_SIZE);
    bool good = read_script(&c, terminal);
    free(c.memory);
    if (ferror(stdout) || fclose(stdout) != 0) {
        fprintf(stderr, "calls: standard output can't be written: %s\n", strerror(errno));
        good = false;
    }
    return good ? 0 : 1;
}
