/* Processor 0 hands a datum to processor 1, which prints it. With BARRIERS each side makes a memory barrier. */

#ifdef BARRIERS
#define BARRIER() __asm__ volatile("mb" : : : "memory")
#else
#define BARRIER() __asm__ volatile("" : : : "memory")
#endif

/* Each lies in a line of its own. */
static volatile long datum __attribute__((aligned(64)));
static volatile long flag __attribute__((aligned(64)));

/* A processor starts here, with its number in $16 and the same stack as every other: it takes 512 bytes of its own. */
__asm__(".globl _start\n"
        "_start:\n"
        "\tbr $27,1f\n"
        "1:\tldgp $29,0($27)\n"
        "\tsll $16,9,$1\n"
        "\tsubq $30,$1,$30\n"
        "\tjsr $26,run\n"
        "\tcall_pal 0\n");

/* Sends a byte to the console: cserve with 1 in a0. */
static void print(long byte)
{
    register long service __asm__("$16") = 1;
    register long argument __asm__("$17") = byte;
    __asm__ volatile("call_pal 9" : : "r"(service), "r"(argument));
}

static void write_datum(void)
{
    datum = 1;
    BARRIER();
    flag = 1;
}

static void read_datum(void)
{
    while (flag == 0)
        ;
    BARRIER();
    print('0' + datum);
    print('\n');
}

void run(long processor)
{
    if (processor == 0)
        write_datum();
    else
        read_datum();
}
