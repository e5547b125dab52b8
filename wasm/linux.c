/* The program's way to Linux, without a C library: its start and its system calls. */
#include "runtime.h"

typedef __INT64_TYPE__ word;

enum {
    STEP = 1 << 20,        /* memory grows by at least so many bytes, where it may */
    MUCH = 1 << 24,        /* with so many bytes or more, by an eighth of them, and in large pages */
    IN_LARGE_PAGES = 14,
    LEAST_FAULT = -4095,   /* an answer of the system from here to -1 is a fault's number, negative */
    TOO_LONG = -2,
    MISSING = -1
};

#if defined __x86_64__
enum { READ = 0, WRITE = 1, BREAK = 12, SIGNAL = 13, ADVISE = 28, EXIT = 231 };

static word ask(word number, word first, word second, word third, word fourth)
{
    register word last __asm__("r10") = fourth;
    __asm__ volatile("syscall"
                     : "+a"(number)
                     : "D"(first), "S"(second), "d"(third), "r"(last)
                     : "rcx", "r11", "memory");
    return number;
}

/* Linux begins here, with the words of the command line on the stack. */
__asm__(".globl _start\n_start: xor %ebp, %ebp\n mov %rsp, %rdi\n and $-16, %rsp\n call begin\n ud2");
#elif defined __aarch64__
enum { READ = 63, WRITE = 64, BREAK = 214, SIGNAL = 134, ADVISE = 233, EXIT = 94 };

static word ask(word number, word first, word second, word third, word fourth)
{
    register word eighth __asm__("x8") = number;
    register word answer __asm__("x0") = first;
    register word one __asm__("x1") = second;
    register word two __asm__("x2") = third;
    register word three __asm__("x3") = fourth;
    __asm__ volatile("svc 0" : "+r"(answer) : "r"(eighth), "r"(one), "r"(two), "r"(three) : "memory");
    return answer;
}

__asm__(".globl _start\n_start: mov x29, #0\n mov x30, #0\n mov x0, sp\n bl begin\n brk #1");
#else
#error "no system calls for this processor"
#endif

static word count_of_words;
static const char *const *words;
static unsigned char *memory, *reached;

int main(int count, const char *const *first);

/* Owes the program its words and memory, and the system its status. On the stack are the number of words, and then the words. */
__attribute__((used)) static void begin(const word *stack)
{
    count_of_words = stack[0];
    words = (const char *const *)(stack + 1);
    reached = (unsigned char *)ask(BREAK, 0, 0, 0, 0);
    memory = (unsigned char *)(((size_t)reached + 15) & ~(size_t)15);
    ask(EXIT, main((int)count_of_words, words), 0, 0, 0);
}

unsigned char *memory_begin(void)
{
    return memory;
}

static int grow_to(const unsigned char *end)
{
    unsigned char *now = (unsigned char *)ask(BREAK, (word)end, 0, 0, 0);
    if (now < end)
        return 0;
    reached = now;
    return 1;
}

/* Asks for large pages, of which the system has to note far fewer. Without them the program works as well. */
static void ask_for_large_pages(unsigned char *from)
{
    unsigned char *page = (unsigned char *)((size_t)from & ~(size_t)4095);
    ask(ADVISE, (word)page, reached - page, IN_LARGE_PAGES, 0);
}

/* Grows by more than is due, where there is much already. */
static int grow_much(const unsigned char *end)
{
    unsigned char *before = reached;
    size_t held = (size_t)(end - memory);
    if (held < MUCH || !grow_to(end + held / 8))
        return 0;
    ask_for_large_pages(before);
    return 1;
}

int memory_reach(const unsigned char *end)
{
    return end <= reached || grow_much(end) || grow_to(end + STEP) || grow_to(end);
}

static word told(word answer)
{
    if (answer >= 0 || answer < LEAST_FAULT)
        return answer;
    rattle_set_errno((int)-answer);
    return -1;
}

/* As in C: how many bytes were read, or -1. */
word read(int file, void *into, size_t length)
{
    return told(ask(READ, file, (word)into, (word)length, 0));
}

/* As in C: how many bytes were written, or -1. */
word write(int file, const void *from, size_t length)
{
    return told(ask(WRITE, file, (word)from, (word)length, 0));
}

/* As in C, for a handler that the system has, such as the one that ignores the signal. */
word __sysv_signal(int number, word handler)
{
    struct {
        word handler, flags, restorer, mask;
    } action = {handler, 0, 0, 0};
    return told(ask(SIGNAL, number, (word)&action, 0, sizeof action.mask));
}

/* Owes a word of the command line, of which the first is the program's name, and how long it is, or why it isn't all there. */
word rattle_arg(size_t index, unsigned char *into, size_t length)
{
    if (index >= (size_t)count_of_words)
        return MISSING;
    const char *text = words[index];
    for (size_t at = 0;; at++) {
        if (!text[at])
            return (word)at;
        if (at == length)
            return TOO_LONG;
        into[at] = (unsigned char)text[at];
    }
}
