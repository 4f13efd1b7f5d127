// Tells on standard error of each thread that is started.
typedef __SIZE_TYPE__ size_t;
typedef int create(void *thread, const void *attributes, void *(*routine)(void *), void *argument);

void *dlsym(void *handle, const char *name);
long write(int file, const void *bytes, size_t size);

// The library that comes after this one.
static void *const NEXT = (void *)-1L;

int pthread_create(void *thread, const void *attributes, void *(*routine)(void *), void *argument) {
    static const char told[] = "a thread was started\n";
    create *next = (create *)dlsym(NEXT, "pthread_create");
    write(2, told, sizeof told - 1);
    return next(thread, attributes, routine, argument);
}
