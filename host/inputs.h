// The inputs of test_entry: what is lent, and what must come out by the definitions in crates/model/specs/.
#ifndef INPUTS_H
#define INPUTS_H

#include <stddef.h>
#include <stdint.h>

struct text {
    uint8_t *bytes;
    size_t len, room;
};

struct input {
    const char *name;
    struct text listing, catalogue;
    size_t rows;
    size_t area;           // an area with which `number` comes out
    uint32_t number;
    struct text expected;  // the answer, if the number is 0
};

struct inputs {
    struct input *at;
    size_t count, room;
};

// Every input there is.
struct inputs make_inputs(void);

// The longest answer that the text form allows.
size_t longest_answer(void);

void free_inputs(struct inputs *all);

#endif
