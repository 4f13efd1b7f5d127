// Calls of the C library that fail. FAILING has rows with commas between them, each NAME:FIRST:LAST:ERROR: of the calls of NAME the FIRST to the
// LAST one, counted from 1, fail with this number, and each is told on standard error. Of `read` the calls on standard input count, and of `write`
// those on standard output; `read_file` and `write_file` are those on what the program has opened.
//
// HELD has one row, NAME:CALL:PATH: the call of this number waits until the named pipe at PATH was opened to be written to and closed again, and then
// goes on, or fails. A held `write_file` has written the first half of its bytes before, and writes no more. SYNCED names a file to which each `fsync`
// and `fdatasync` adds a line: its name, a space and the path of what it syncs.
typedef __SIZE_TYPE__ size_t;
typedef __PTRDIFF_TYPE__ ssize_t;
typedef int accepting(int socket, void *address, unsigned *length, int flags);
typedef ssize_t receiving(int socket, void *bytes, size_t size, int flags, void *address, unsigned *length);
typedef ssize_t sending(int socket, const void *bytes, size_t size, int flags, const void *address, unsigned length);
typedef ssize_t reading(int file, void *bytes, size_t size);
typedef ssize_t writing(int file, const void *bytes, size_t size);
typedef int syncing(int file);
typedef int cutting(int file, long size);
typedef int ending(int socket, int how);
typedef int creating(void *thread, const void *attributes, void *(*routine)(void *), void *argument);

void *dlsym(void *handle, const char *name);
int *__errno_location(void);
char *getenv(const char *name);
size_t strlen(const char *text);
int strncmp(const char *one, const char *other, size_t most);
unsigned long strtoul(const char *text, char **end, int base);
ssize_t write(int file, const void *bytes, size_t size);
int open(const char *path, int flags, ...);
int close(int file);
ssize_t readlink(const char *path, char *bytes, size_t size);

// The library that comes after this one.
static void *const NEXT = (void *)-1L;

// The number behind the next colon.
static unsigned long number_behind(const char **text) {
    char *end;
    unsigned long number = strtoul(*text + 1, &end, 10);
    *text = end;
    return number;
}

// The error of this call, 0 if it does not fail.
static int error_of(const char *name, unsigned long call) {
    static const char told[] = "a call failed\n";
    const char *row = getenv("FAILING");
    size_t length = strlen(name);
    for (; row != 0 && *row != 0; row += *row == ',') {
        int is_own = strncmp(row, name, length) == 0 && row[length] == ':';
        while (*row != ':')
            row++;
        unsigned long first = number_behind(&row), last = number_behind(&row), error = number_behind(&row);
        if (is_own && first <= call && call <= last) {
            write(2, told, sizeof told - 1);
            return (int)error;
        }
    }
    return 0;
}

// The pipe at which this call waits, or none.
static const char *pipe_of(const char *name, unsigned long call) {
    const char *row = getenv("HELD");
    size_t length = strlen(name);
    if (row == 0 || strncmp(row, name, length) != 0 || row[length] != ':')
        return 0;
    row += length;
    return number_behind(&row) == call ? row + 1 : 0;
}

// Waits until the pipe was opened to be written to and closed again.
static void wait_at(const char *path) {
    char byte;
    int pipe = open(path, 0);
    while (((reading *)dlsym(NEXT, "read"))(pipe, &byte, 1) > 0)
        ;
    close(pipe);
}

// Adds a line to the file of synced files.
static void note_sync(const char *name, int file) {
    const char *path = getenv("SYNCED");
    char from[32] = "/proc/self/fd/", line[4200];
    size_t size = strlen(name), at = strlen(from), many = 1;
    if (path == 0)
        return;
    while (file / many >= 10)
        many *= 10;
    for (; many > 0; many /= 10)
        from[at++] = '0' + file / many % 10;
    for (size_t each = 0; each < size; each++)
        line[each] = name[each];
    line[size++] = ' ';
    ssize_t length = readlink(from, line + size, 4096);
    size += length < 0 ? 0 : length;
    line[size++] = '\n';
    int noted = open(path, 02001 | 0100, 0600);
    ((writing *)dlsym(NEXT, "write"))(noted, line, size);
    close(noted);
}

// Counts a call, which may wait, and answers its error, which errno has then too.
static int failed(const char *name, unsigned long *calls) {
    unsigned long call = __atomic_add_fetch(calls, 1, __ATOMIC_SEQ_CST);
    const char *pipe = pipe_of(name, call);
    if (pipe != 0)
        wait_at(pipe);
    int error = error_of(name, call);
    if (error != 0)
        *__errno_location() = error;
    return error;
}

int accept4(int socket, void *address, unsigned *length, int flags) {
    static unsigned long calls;
    return failed("accept4", &calls) ? -1 : ((accepting *)dlsym(NEXT, "accept4"))(socket, address, length, flags);
}

ssize_t recvfrom(int socket, void *bytes, size_t size, int flags, void *address, unsigned *length) {
    static unsigned long calls;
    return failed("recvfrom", &calls) ? -1 : ((receiving *)dlsym(NEXT, "recvfrom"))(socket, bytes, size, flags, address, length);
}

ssize_t sendto(int socket, const void *bytes, size_t size, int flags, const void *address, unsigned length) {
    static unsigned long calls;
    return failed("sendto", &calls) ? -1 : ((sending *)dlsym(NEXT, "sendto"))(socket, bytes, size, flags, address, length);
}

int pthread_create(void *thread, const void *attributes, void *(*routine)(void *), void *argument) {
    static unsigned long calls;
    int error = failed("pthread_create", &calls);
    return error ? error : ((creating *)dlsym(NEXT, "pthread_create"))(thread, attributes, routine, argument);
}

// What a call is named on standard input or output, which has this number, and on what the program has opened; nothing elsewhere.
static const char *name_of(int file, int standard, const char *name, const char *of_file) {
    return file == standard ? name : file > 2 ? of_file : 0;
}

ssize_t read(int file, void *bytes, size_t size) {
    static unsigned long calls[2];
    const char *name = name_of(file, 0, "read", "read_file");
    return name && failed(name, &calls[file > 2]) ? -1 : ((reading *)dlsym(NEXT, "read"))(file, bytes, size);
}

ssize_t write(int file, const void *bytes, size_t size) {
    static unsigned long calls[2];
    const char *name = name_of(file, 1, "write", "write_file");
    writing *next = (writing *)dlsym(NEXT, "write");
    ssize_t front = file > 2 && pipe_of(name, calls[1] + 1) ? next(file, bytes, size / 2) : 0;
    return name && failed(name, &calls[file > 2]) ? -1 : front > 0 ? front : next(file, bytes, size);
}

int fdatasync(int file) {
    static unsigned long calls;
    note_sync("fdatasync", file);
    return failed("fdatasync", &calls) ? -1 : ((syncing *)dlsym(NEXT, "fdatasync"))(file);
}

int fsync(int file) {
    static unsigned long calls;
    note_sync("fsync", file);
    return failed("fsync", &calls) ? -1 : ((syncing *)dlsym(NEXT, "fsync"))(file);
}

int ftruncate(int file, long size) {
    static unsigned long calls;
    return failed("ftruncate", &calls) ? -1 : ((cutting *)dlsym(NEXT, "ftruncate"))(file, size);
}

int shutdown(int socket, int how) {
    static unsigned long calls;
    return failed("shutdown", &calls) ? -1 : ((ending *)dlsym(NEXT, "shutdown"))(socket, how);
}
