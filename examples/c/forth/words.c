/* Words: those that are there from the start, those that a program defines, and those that the compiler itself carries out. */
#include "forth.h"

#define NAME 12
#define WORDS 100

static struct word { char name[NAME]; int cell; } words[WORDS] = {
    { "+", ADD }, { "-", SUBTRACT }, { "*", MULTIPLY }, { "/", DIVIDE }, { "mod", MODULO }, { "=", EQUAL }, { "<", LESS }, { ">", GREATER },
    { "0=", IS_ZERO }, { "and", AND }, { "or", OR }, { "dup", DUPLICATE }, { "drop", DROP }, { "swap", SWAP }, { "over", OVER },
    { "rot", ROTATE }, { "@", LOAD }, { "!", STORE }, { ".", PRINT }, { "emit", EMIT }, { "cr", NEW_LINE }, { "i", INDEX },
};
static unsigned word_count = 22;
static bool compiling;
static const char *rest; /* of the line */

/* the next word of the line; an empty one at its end */
static const char *next_word(void)
{
    static char word[NAME];
    unsigned length = 0;
    while (*rest == ' ')
        rest++;
    for (; *rest != 0 && *rest != ' '; rest++)
        if (length + 1 < NAME)
            word[length++] = *rest;
    word[length] = 0;
    return word;
}

/* the latest word of that name */
static struct word *find(const char *name)
{
    for (unsigned i = word_count; i-- > 0;)
        if (strcmp(words[i].name, name) == 0)
            return &words[i];
    return NULL;
}

static void define(const char *name)
{
    if (word_count == WORDS) {
        fail("no room for ", name);
        return;
    }
    memcpy(words[word_count].name, name, strlen(name) + 1);
    words[word_count++].cell = (int)cells_used + OPERATIONS;
}

static bool is_number(const char *word, int *number)
{
    bool negative = word[0] == '-' && word[1] != 0;
    unsigned value = 0;
    for (word += negative; *word != 0; word++) {
        if (*word < '0' || *word > '9')
            return false;
        value = value * 10 + (unsigned)(*word - '0');
    }
    *number = (int)(negative ? 0 - value : value);
    return true;
}

/* a jump whose target is still to come: its place waits on the stack */
static void jump_ahead(enum operation jump)
{
    compile(jump);
    push((int)cells_used);
    compile(0);
}

static void land(int place)
{
    if (place > 0 && place < CELLS)
        cells[place] = (int)cells_used;
}

static void jump_back(enum operation jump, int place)
{
    compile(jump);
    compile(place);
}

/* the text up to the next quote */
static void compile_text(void)
{
    compile(TEXT);
    unsigned length = cells_used;
    compile(0);
    for (rest += *rest == ' '; *rest != 0 && *rest != '"'; rest++) {
        compile(*rest);
        cells[length]++;
    }
    rest += *rest == '"';
}

/* Words that the compiler carries out while it compiles; whether it is one: those of choices, those of loops, and the others. */
static bool compiles_choice(const char *word)
{
    if (strcmp(word, "if") == 0) {
        jump_ahead(JUMP_ZERO);
    } else if (strcmp(word, "else") == 0) {
        int place = pop();
        jump_ahead(JUMP);
        land(place);
    } else if (strcmp(word, "then") == 0) {
        land(pop());
    } else {
        return false;
    }
    return true;
}

static bool compiles_loop(const char *word)
{
    if (strcmp(word, "begin") == 0) {
        push((int)cells_used);
    } else if (strcmp(word, "until") == 0) {
        jump_back(JUMP_ZERO, pop());
    } else if (strcmp(word, "while") == 0) {
        jump_ahead(JUMP_ZERO);
    } else if (strcmp(word, "repeat") == 0) {
        int place = pop();
        jump_back(JUMP, pop());
        land(place);
    } else if (strcmp(word, "do") == 0) {
        compile(BEGIN_LOOP);
        push((int)cells_used);
    } else if (strcmp(word, "loop") == 0) {
        jump_back(NEXT_LOOP, pop());
    } else {
        return false;
    }
    return true;
}

static bool compiles_itself(const char *word)
{
    if (strcmp(word, ";") == 0) {
        compile(EXIT);
        compiling = false;
    } else if (strcmp(word, "recurse") == 0) {
        compile(words[word_count - 1].cell);
    } else if (strcmp(word, ".\"") == 0) {
        compile_text();
    } else {
        return compiles_choice(word) || compiles_loop(word);
    }
    return true;
}

/* a cell by itself: it is compiled behind all others, and run */
static void run_one(int cell, int number)
{
    unsigned used = cells_used;
    compile(cell);
    if (cell == NUMBER)
        compile(number);
    compile(EXIT);
    cells_used = used;
    if (!failed)
        run((int)used);
}

static void variable(const char *name)
{
    define(name);
    compile(NUMBER);
    compile((int)cells_used + 2);
    compile(EXIT);
    compile(0);
}

static void take(const char *name)
{
    struct word *word = find(name);
    int number = 0;
    if (word == NULL && !is_number(name, &number)) {
        fail("no word ", name);
        return;
    }
    if (!compiling) {
        run_one(word != NULL ? word->cell : NUMBER, number);
    } else {
        compile(word != NULL ? word->cell : NUMBER);
        if (word == NULL)
            compile(number);
    }
}

void interpret(const char *line)
{
    failed = false;
    for (rest = line; !failed;) {
        const char *word = next_word();
        if (*word == 0 || strcmp(word, "\\") == 0)
            return;
        if (strcmp(word, ":") == 0) {
            define(next_word());
            compiling = true;
        } else if (strcmp(word, "variable") == 0) {
            variable(next_word());
        } else if (!compiling || !compiles_itself(word)) {
            take(word);
        }
    }
    compiling = false;
}
