// Runs a script from the input, in a small language of whole numbers:
//
//     fn NAME(NAME, ..) { STATEMENT .. }    defines a function
//     NAME = EXPRESSION                     gives a variable a value; one of a function is that call's own
//     print EXPRESSION                      writes a line with the number
//     if EXPRESSION { .. } else { .. }      `else` may be left out; 0 is false
//     while EXPRESSION { .. }
//     return EXPRESSION
//     EXPRESSION                            as a call for what it prints
//
// Expressions have, from the loosest to the tightest, `or`, `and`, `== != < <= > >=`, `+ -`, `* / %`, `-` and `not`,
// calls and brackets. `#` begins a comment, and the end of a line ends nothing else. A statement is run as soon as it is
// read. The exit code is 0, or 1 after a line that says what is wrong and where.
#include <limits.h>
#include <stdarg.h>
#include <stdint.h>
#include <stdio.h>
#include <stdlib.h>
#include <string.h>

enum { LONGEST = 31, MOST = 16, STACK = 60000 };

// ---- faults and memory

static int line = 1;

static void stop(int at, const char *message, ...) {
    va_list rest;
    va_start(rest, message);
    fflush(stdout);
    fprintf(stderr, "line %d: ", at);
    vfprintf(stderr, message, rest);
    fputc('\n', stderr);
    va_end(rest);
    exit(1);
}

static void *make(size_t size) {
    void *place = calloc(1, size);
    if (place == NULL) {
        stop(line, "out of memory");
    }
    return place;
}

// The machine keeps 65536 bytes for the stack. What is nested so deep that it comes near to that is refused.
static uintptr_t stack_start;

static void check_stack(int at) {
    if (stack_start - (uintptr_t)__builtin_frame_address(0) > STACK) {
        stop(at, "this is nested too deep");
    }
}

// ---- words of the script

enum kind { END, NUMBER, NAME, SIGN };

static enum kind kind; // what the word is that comes next
static char word[LONGEST + 1];
static long number;

static int is_in(int c, const char *set) {
    return c != EOF && c != 0 && strchr(set, c) != NULL;
}

static int is_letter(int c) {
    return (c >= 'a' && c <= 'z') || (c >= 'A' && c <= 'Z') || c == '_';
}

static int is_digit(int c) {
    return c >= '0' && c <= '9';
}

// The first byte of the next word.
static int skip(void) {
    int c = getchar();
    while (is_in(c, " \t\r\n#")) {
        if (c == '#') {
            while (c != '\n' && c != EOF) {
                c = getchar();
            }
        }
        if (c == '\n') {
            line++;
        }
        if (c != EOF) {
            c = getchar();
        }
    }
    return c;
}

static int read_number(int c) {
    number = 0;
    for (; is_digit(c); c = getchar()) {
        if (number > (LONG_MAX - (c - '0')) / 10) {
            stop(line, "this number is too large");
        }
        number = 10 * number + (c - '0');
    }
    return c;
}

// Reads the next word into `kind`, `word` and `number`.
static void next(void) {
    size_t length = 0;
    int c = skip();
    if (c == EOF) {
        kind = END;
        strcpy(word, "the end");
        return;
    }
    if (is_digit(c)) {
        kind = NUMBER;
        strcpy(word, "a number");
        ungetc(read_number(c), stdin);
        return;
    }
    kind = is_letter(c) ? NAME : SIGN;
    word[length++] = (char)c;
    if (kind == NAME) {
        while (is_letter(c = getchar()) || is_digit(c)) {
            if (length == LONGEST) {
                stop(line, "this name is too long");
            }
            word[length++] = (char)c;
        }
        ungetc(c, stdin);
    } else if (is_in(c, "=!<>")) {
        c = getchar();
        if (c == '=') {
            word[length++] = '=';
        } else {
            ungetc(c, stdin);
        }
    }
    word[length] = 0;
}

// Whether the next word is this one, which is then taken.
static int take(const char *wanted) {
    if ((kind != NAME && kind != SIGN) || strcmp(word, wanted) != 0) {
        return 0;
    }
    next();
    return 1;
}

static void want(const char *wanted) {
    if (!take(wanted)) {
        stop(line, "here is %s, and not %s", word, wanted);
    }
}

// ---- the script as a tree

enum does { CONSTANT, VARIABLE, CALL, NEGATE, NOT, OPERATE, ASSIGN, PRINT, IF, WHILE, RETURN, EVALUATE };

struct node {
    enum does does;
    int line;
    long number;                // of a constant
    char text[LONGEST + 1];     // a name or a sign
    struct node *a, *b, *c;     // operands, conditions and blocks
    struct node *next;          // the next statement of a block, or the next value of a call
};

struct function {
    char name[LONGEST + 1];
    char takes[MOST][LONGEST + 1];
    int count;
    struct node *block;
    struct function *next;
};

static struct function *functions;

static struct node *node(enum does does, const char *text, struct node *a, struct node *b) {
    struct node *made = make(sizeof *made);
    made->does = does;
    made->line = line;
    strcpy(made->text, text);
    made->a = a;
    made->b = b;
    return made;
}

static struct node *expression(int level);

static struct node *values(void) {
    struct node *first = NULL, **last = &first;
    want("(");
    while (!take(")")) {
        *last = expression(0);
        last = &(*last)->next;
        if (strcmp(word, ")") != 0) {
            want(",");
        }
    }
    return first;
}

static struct node *value(void) {
    struct node *made;
    check_stack(line);
    if (take("-")) {
        return node(NEGATE, "-", value(), NULL);
    }
    if (take("not")) {
        return node(NOT, "not", value(), NULL);
    }
    if (take("(")) {
        made = expression(0);
        want(")");
        return made;
    }
    if (kind != NUMBER && kind != NAME) {
        stop(line, "here is %s, and not a value", word);
    }
    made = node(kind == NUMBER ? CONSTANT : VARIABLE, word, NULL, NULL);
    made->number = number;
    next();
    if (made->does == VARIABLE && strcmp(word, "(") == 0) {
        made->does = CALL;
        made->a = values();
    }
    return made;
}

static const char *const signs[][7] = {
    {"or"}, {"and"}, {"==", "!=", "<", "<=", ">", ">="}, {"+", "-"}, {"*", "/", "%"},
};

enum { LEVELS = sizeof signs / sizeof *signs };

static struct node *expression(int level) {
    struct node *left = level + 1 < LEVELS ? expression(level + 1) : value();
    for (int i = 0; signs[level][i] != NULL; i++) {
        if (take(signs[level][i])) {
            struct node *right = level + 1 < LEVELS ? expression(level + 1) : value();
            left = node(OPERATE, signs[level][i], left, right);
            i = -1;
        }
    }
    return left;
}

static struct node *block(void);

static struct node *statement(void) {
    struct node *made;
    check_stack(line);
    if (take("print")) {
        return node(PRINT, "", expression(0), NULL);
    }
    if (take("return")) {
        return node(RETURN, "", expression(0), NULL);
    }
    if (take("while")) {
        made = node(WHILE, "", expression(0), NULL);
        made->b = block();
        return made;
    }
    if (take("if")) {
        made = node(IF, "", expression(0), NULL);
        made->b = block();
        made->c = take("else") ? block() : NULL;
        return made;
    }
    made = expression(0);
    if (made->does == VARIABLE && take("=")) {
        return node(ASSIGN, made->text, expression(0), NULL);
    }
    return node(EVALUATE, "", made, NULL);
}

static struct node *block(void) {
    struct node *first = NULL, **last = &first;
    want("{");
    while (!take("}")) {
        *last = statement();
        last = &(*last)->next;
    }
    return first;
}

static void define(void) {
    struct function *made = make(sizeof *made);
    strcpy(made->name, word);
    next();
    want("(");
    while (!take(")")) {
        if (kind != NAME || made->count == MOST) {
            stop(line, "here is %s, and not a name", word);
        }
        strcpy(made->takes[made->count++], word);
        next();
        if (strcmp(word, ")") != 0) {
            want(",");
        }
    }
    made->block = block();
    made->next = functions;
    functions = made;
}

// ---- running it

struct variable {
    const char *name;
    long value;
    struct variable *next;
};

struct frame {
    struct variable *variables;
    int returns;
    long result;
};

static struct variable *find(struct frame *frame, const char *name) {
    struct variable *one = frame->variables;
    while (one != NULL && strcmp(one->name, name) != 0) {
        one = one->next;
    }
    return one;
}

static void assign(struct frame *frame, const char *name, long value) {
    struct variable *one = find(frame, name);
    if (one == NULL) {
        one = make(sizeof *one);
        one->name = name;
        one->next = frame->variables;
        frame->variables = one;
    }
    one->value = value;
}

static long evaluate(struct frame *frame, const struct node *node);

static void run(struct frame *frame, const struct node *statement);

static long call(struct frame *caller, const struct node *node) {
    struct frame frame = {0};
    struct function *function = functions;
    while (function != NULL && strcmp(function->name, node->text) != 0) {
        function = function->next;
    }
    if (function == NULL) {
        stop(node->line, "there is no function %s", node->text);
    }
    int given = 0;
    for (const struct node *one = node->a; one != NULL; one = one->next) {
        if (given == function->count) {
            stop(node->line, "%s takes fewer values", node->text);
        }
        assign(&frame, function->takes[given++], evaluate(caller, one));
    }
    if (given < function->count) {
        stop(node->line, "%s takes more values", node->text);
    }
    run(&frame, function->block);
    while (frame.variables != NULL) {
        struct variable *rest = frame.variables->next;
        free(frame.variables);
        frame.variables = rest;
    }
    return frame.result;
}

// Sums, differences and products are those of 64 bits, and wrap around.
static long operate(const struct node *node, long a, long b) {
    unsigned long x = (unsigned long)a, y = (unsigned long)b;
    char equal = node->text[1];
    if (is_in(node->text[0], "/%") && b == 0) {
        stop(node->line, "division by zero");
    }
    switch (node->text[0]) {
    case '+':
        return (long)(x + y);
    case '-':
        return (long)(x - y);
    case '*':
        return (long)(x * y);
    case '/':
        return b == -1 ? (long)-x : a / b;
    case '%':
        return b == -1 ? 0 : a % b;
    case '=':
        return a == b;
    case '!':
        return a != b;
    case '<':
        return equal ? a <= b : a < b;
    default:
        return equal ? a >= b : a > b;
    }
}

static long evaluate(struct frame *frame, const struct node *node) {
    struct variable *variable;
    long a;
    check_stack(node->line);
    switch (node->does) {
    case CONSTANT:
        return node->number;
    case VARIABLE:
        variable = find(frame, node->text);
        if (variable == NULL) {
            stop(node->line, "%s has no value", node->text);
        }
        return variable->value;
    case CALL:
        return call(frame, node);
    case NEGATE:
        return (long)-(unsigned long)evaluate(frame, node->a);
    case NOT:
        return evaluate(frame, node->a) == 0;
    default:
        a = evaluate(frame, node->a);
        if (strcmp(node->text, "and") == 0) {
            return a != 0 && evaluate(frame, node->b) != 0;
        }
        if (strcmp(node->text, "or") == 0) {
            return a != 0 || evaluate(frame, node->b) != 0;
        }
        return operate(node, a, evaluate(frame, node->b));
    }
}

static void run(struct frame *frame, const struct node *statement) {
    for (; statement != NULL && !frame->returns; statement = statement->next) {
        switch (statement->does) {
        case ASSIGN:
            assign(frame, statement->text, evaluate(frame, statement->a));
            break;
        case PRINT:
            printf("%ld\n", evaluate(frame, statement->a));
            break;
        case IF:
            run(frame, evaluate(frame, statement->a) ? statement->b : statement->c);
            break;
        case WHILE:
            while (!frame->returns && evaluate(frame, statement->a)) {
                run(frame, statement->b);
            }
            break;
        case RETURN:
            frame->result = evaluate(frame, statement->a);
            frame->returns = 1;
            break;
        default:
            evaluate(frame, statement->a);
        }
    }
}

int main(void) {
    struct frame frame = {0};
    stack_start = (uintptr_t)__builtin_frame_address(0);
    next();
    while (kind != END && !frame.returns) {
        if (take("fn")) {
            define();
        } else {
            run(&frame, statement());
        }
    }
    return fflush(stdout) == 0 && !ferror(stdout) ? 0 : 1;
}
