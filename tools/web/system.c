/* What the program asks of a system, in a module that has none: words and standard streams come from the host, there is
 * one processor with every feature, no thread is started (with one worker the program asks for none), and a broken run
 * stops. */

typedef unsigned long size;
#define HOST(name) __attribute__((import_module("host"), import_name(name)))

HOST("read") long host_read(int file, unsigned char *into, size count);
HOST("write") long host_write(int file, const unsigned char *from, size count);
HOST("word") long host_word(size number, unsigned char *into, size count);
HOST("exit") void host_exit(int status);

#define EAGAIN 11

typedef struct tried { _Bool ok; unsigned char *block; } tried;
tried rattle_alloc(size count, size align);
void rattle_dealloc(unsigned char *given);

static int fault;
static unsigned char features[32];

long read(int file, unsigned char *into, size count) { return host_read(file, into, count); }
long write(int file, const unsigned char *from, size count) { return host_write(file, from, count); }
long __write(int file, const unsigned char *from, size count) { return host_write(file, from, count); }
long rattle_arg(size number, unsigned char *into, size count) { return host_word(number, into, count); }
int rattle_errno(void) { return fault; }
void rattle_set_errno(int now) { fault = now; }

void abort(void) { __builtin_trap(); }
void _exit(int status) {
    host_exit(status);
    __builtin_trap();
}

unsigned char *__x86_get_cpuid_feature_leaf(int leaf) {
    (void)leaf;
    for (int at = 0; at < 32; at++) features[at] = 255;
    return features;
}
long __sysv_signal(int number, long act) { (void)number; (void)act; return 0; }

unsigned char *malloc(size count) {
    tried made = rattle_alloc(count, 16);
    return made.ok ? made.block : 0;
}
void free(unsigned char *given) { if (given) rattle_dealloc(given); }

int pthread_attr_init(void *attributes) { (void)attributes; return EAGAIN; }
int pthread_attr_setguardsize(void *attributes, size bytes) { (void)attributes; (void)bytes; return EAGAIN; }
int pthread_attr_setstacksize(void *attributes, size bytes) { (void)attributes; (void)bytes; return EAGAIN; }
int pthread_attr_destroy(void *attributes) { (void)attributes; return 0; }
int pthread_create(void *thread, void *attributes, void *begin, void *with) {
    (void)thread; (void)attributes; (void)begin; (void)with;
    return EAGAIN;
}
int pthread_detach(size thread) { (void)thread; return 0; }
int pthread_join(size thread, void *result) { (void)thread; (void)result; return 0; }
size pthread_self(void) { return 1; }

int sched_yield(void) { return 0; }
long rattle_env(const unsigned char *name, unsigned char *into, size count) {
    (void)name; (void)into; (void)count;
    return -1;
}
long rattle_env_at(size number, unsigned char *into, size count) {
    (void)number; (void)into; (void)count;
    return -1;
}

int main(void);
__attribute__((export_name("run"))) void run(void) { host_exit(main()); }
