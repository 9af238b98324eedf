/* The functions of Linux that the proved programs call, over those of Windows (kernel32): files, standard streams, arguments.
 *
 * Nothing here is proved. Each function keeps what the proofs state of the function of its name: its result, and on an error
 * -1 and Linux's number of the error. linux_read, linux_write and linux_pread return how many bytes were read or written,
 * which may be fewer than wanted; 0 bytes are the end of the file. A file is read-only unless it is new. There is one thread.
 */
#include <cpuid.h>
#include <stddef.h>
#include <stdint.h>
#include <stdlib.h>
#include <string.h>
#define WIN32_LEAN_AND_MEAN
#include <windows.h>

/* Linux's numbers, by which the module was made. */
enum {
    NO_ENTRY = 2, IO_ERROR = 5, BAD_FILE = 9, NO_MEMORY = 12, NO_ACCESS = 13, EXISTS = 17, IS_DIRECTORY = 21, INVALID = 22,
    TOO_MANY_FILES = 24, NOT_A_TERMINAL = 25, NO_SPACE = 28, NOT_SEEKABLE = 29, BROKEN_PIPE = 32, NAME_TOO_LONG = 36,
    NOT_IMPLEMENTED = 38, BAD_NAME = 84
};
enum { READ_WRITE = 2, CREATE = 0x40, EXCLUSIVE = 0x80, NEW = READ_WRITE | CREATE | EXCLUSIVE };
enum { NO_CONTROLLING_TERMINAL = 0x100, CLOSE_ON_EXEC = 0x80000, EMPTY_PATH = 0x1000, MOST_FILES = 64 };

static int error_number;

int32_t linux_errno(void) { return error_number; }

void linux_set_errno(int32_t number) { error_number = number; }

static int64_t fails(int number) {
    error_number = number;
    return -1;
}

static int64_t fails_as_windows(void) {
    switch (GetLastError()) {
    case ERROR_FILE_NOT_FOUND: case ERROR_PATH_NOT_FOUND: case ERROR_INVALID_NAME: case ERROR_BAD_NETPATH:
    case ERROR_INVALID_DRIVE: return fails(NO_ENTRY);
    case ERROR_ACCESS_DENIED: case ERROR_SHARING_VIOLATION: case ERROR_LOCK_VIOLATION: return fails(NO_ACCESS);
    case ERROR_ALREADY_EXISTS: case ERROR_FILE_EXISTS: return fails(EXISTS);
    case ERROR_NOT_ENOUGH_MEMORY: case ERROR_OUTOFMEMORY: return fails(NO_MEMORY);
    case ERROR_BROKEN_PIPE: case ERROR_NO_DATA: case ERROR_PIPE_NOT_CONNECTED: return fails(BROKEN_PIPE);
    case ERROR_DISK_FULL: case ERROR_HANDLE_DISK_FULL: return fails(NO_SPACE);
    case ERROR_INVALID_HANDLE: return fails(BAD_FILE);
    default: return fails(IO_ERROR);
    }
}

/* An open file. It has an offset of its own, since ReadFile at an offset moves that of the handle. */
static struct file {
    HANDLE handle; /* null where no file is open */
    int is_disk, is_directory;
    int64_t offset;
} files[MOST_FILES];

static struct file *file_of(int32_t number) {
    return number >= 0 && number < MOST_FILES && files[number].handle ? &files[number] : NULL;
}

static void keep(struct file *file, HANDLE handle) {
    BY_HANDLE_FILE_INFORMATION about;
    LARGE_INTEGER nothing = {0}, at = {0};
    if (!handle || handle == INVALID_HANDLE_VALUE) return;
    file->handle = handle;
    file->is_disk = GetFileType(handle) == FILE_TYPE_DISK;
    file->is_directory = file->is_disk && GetFileInformationByHandle(handle, &about) && about.dwFileAttributes & FILE_ATTRIBUTE_DIRECTORY;
    file->offset = file->is_disk && SetFilePointerEx(handle, nothing, &at, FILE_CURRENT) ? at.QuadPart : 0;
}

/* ---- The beginning of a program: standard streams, and arguments in UTF-8. No argument is expanded as a pattern. */
typedef struct { int new_mode; } start_information;
extern int __cdecl __wgetmainargs(int *, wchar_t ***, wchar_t ***, int, start_information *);
static int arguments_count;
static char **arguments;
static UINT console_encoding;

static void restore_console(void) { SetConsoleOutputCP(console_encoding); }

/* The module and the target, which a program prints behind its version; empty where it has no such option. */
extern const char pdb_about[];
int64_t linux_write(int32_t, const void *, uint64_t);

static void print_about(void) { linux_write(1, pdb_about, strlen(pdb_about)); }

static int is_version(const char *word) { return !strcmp(word, "--version") || !strcmp(word, "version") || !strcmp(word, "-V"); }

static char *in_utf8(const wchar_t *wide) {
    int size = WideCharToMultiByte(CP_UTF8, 0, wide, -1, NULL, 0, NULL, NULL);
    char *text = calloc(size > 0 ? (size_t)size : 1, 1);
    if (text) WideCharToMultiByte(CP_UTF8, 0, wide, -1, text, size, NULL, NULL);
    return text;
}

__attribute__((constructor)) static void begin(void) {
    static const DWORD streams[] = {STD_INPUT_HANDLE, STD_OUTPUT_HANDLE, STD_ERROR_HANDLE};
    enum { OUT_OF_MEMORY = 5, NO_ARGUMENTS = 127 };
    wchar_t **wide, **environment;
    start_information how = {0};
    DWORD mode;
    for (int k = 0; k < 3; k++) keep(&files[k], GetStdHandle(streams[k]));
    if (GetConsoleMode(GetStdHandle(STD_OUTPUT_HANDLE), &mode)) {
        console_encoding = GetConsoleOutputCP();
        SetConsoleOutputCP(CP_UTF8);
        atexit(restore_console);
    }
    if (__wgetmainargs(&arguments_count, &wide, &environment, 0, &how) < 0) ExitProcess(NO_ARGUMENTS);
    arguments = calloc((size_t)arguments_count + 1, sizeof *arguments);
    for (int k = 0; arguments && k < arguments_count; k++) {
        arguments[k] = in_utf8(wide[k]);
        if (!arguments[k]) ExitProcess(OUT_OF_MEMORY);
    }
    if (!arguments) ExitProcess(OUT_OF_MEMORY);
    if (arguments_count == 2 && is_version(arguments[1])) atexit(print_about);
}

/* Writes what fits of an argument. Returns its size, -1 where there is no such argument, or -2 where it doesn't fit. */
int64_t linux_arg(uint64_t number, uint8_t *bytes, uint64_t capacity) {
    if (number >= (uint64_t)arguments_count) return -1;
    size_t size = strlen(arguments[number]);
    memcpy(bytes, arguments[number], size < capacity ? size : capacity);
    return size > capacity ? -2 : (int64_t)size;
}

/* Writes what fits of a variable of the environment. Returns its size, -1 where there is no such variable, or -2 where it
 * doesn't fit. */
int64_t linux_env(const char *name, uint8_t *bytes, uint64_t capacity) {
    enum { LONGEST_NAME = 256 };
    wchar_t wide[LONGEST_NAME];
    if (!MultiByteToWideChar(CP_UTF8, MB_ERR_INVALID_CHARS, name, -1, wide, LONGEST_NAME)) return -1;
    DWORD most = GetEnvironmentVariableW(wide, NULL, 0);
    wchar_t *value = most ? calloc(most, sizeof *value) : NULL;
    char *text = value && GetEnvironmentVariableW(wide, value, most) < most ? in_utf8(value) : NULL;
    free(value);
    if (!text) return -1;
    size_t size = strlen(text);
    memcpy(bytes, text, size < capacity ? size : capacity);
    free(text);
    return size > capacity ? -2 : (int64_t)size;
}

/* ---- Files. */

/* The name of a file for Windows; null after an error. A long one is made whole, with the prefix that long names need. */
static wchar_t *wide_name(const char *name) {
    enum { LONG = 240, LONGEST = 32000, PREFIX = 4 };
    int size = MultiByteToWideChar(CP_UTF8, MB_ERR_INVALID_CHARS, name, -1, NULL, 0);
    if (size <= 0 || size > LONGEST) {
        fails(size > 0 ? NAME_TOO_LONG : BAD_NAME);
        return NULL;
    }
    wchar_t *wide = malloc((size_t)size * sizeof *wide), *whole = NULL;
    if (wide) MultiByteToWideChar(CP_UTF8, MB_ERR_INVALID_CHARS, name, -1, wide, size);
    if (wide && size > LONG && wcsncmp(wide, L"\\\\", 2)) {
        DWORD most = GetFullPathNameW(wide, 0, NULL, NULL);
        whole = calloc((size_t)most + PREFIX, sizeof *whole);
        if (whole) {
            memcpy(whole, L"\\\\?\\", PREFIX * sizeof *whole);
            GetFullPathNameW(wide, most, whole + PREFIX, NULL);
        }
        free(wide);
        wide = whole;
    }
    if (!wide) fails(NO_MEMORY);
    return wide;
}

/* Opens a file or a directory for reading, or a new file for writing too; any further flag is an error. */
int32_t linux_open(const char *name, int32_t flags, ...) {
    int32_t number = 3;
    int is_new = (flags & NEW) == NEW;
    if (flags & ~(NO_CONTROLLING_TERMINAL | CLOSE_ON_EXEC | (is_new ? NEW : 0))) return (int32_t)fails(INVALID);
    if (!*name) return (int32_t)fails(NO_ENTRY);
    while (number < MOST_FILES && files[number].handle) number++;
    if (number == MOST_FILES) return (int32_t)fails(TOO_MANY_FILES);
    wchar_t *wide = wide_name(name);
    if (!wide) return -1;
    HANDLE handle = CreateFileW(wide, is_new ? GENERIC_READ | GENERIC_WRITE : GENERIC_READ,
                                FILE_SHARE_READ | FILE_SHARE_WRITE | FILE_SHARE_DELETE, NULL,
                                is_new ? CREATE_NEW : OPEN_EXISTING, FILE_FLAG_BACKUP_SEMANTICS, NULL);
    DWORD why = GetLastError();
    free(wide);
    SetLastError(why);
    if (handle == INVALID_HANDLE_VALUE) return (int32_t)fails_as_windows();
    keep(&files[number], handle);
    return number;
}

int32_t linux_close(int32_t number) {
    struct file *file = file_of(number);
    if (!file) return (int32_t)fails(BAD_FILE);
    HANDLE handle = file->handle;
    *file = (struct file){0};
    return CloseHandle(handle) ? 0 : (int32_t)fails_as_windows();
}

/* Windows counts the bytes of one call in 32 bits. */
static DWORD part_of(uint64_t size) { return size > 0x40000000 ? 0x40000000 : (DWORD)size; }

static int64_t read_at(struct file *file, void *bytes, uint64_t size, int64_t offset) {
    OVERLAPPED at = {0};
    DWORD done = 0;
    if (file->is_directory) return fails(IS_DIRECTORY);
    if (size == 0) return 0;
    at.Offset = (DWORD)offset;
    at.OffsetHigh = (DWORD)((uint64_t)offset >> 32);
    if (ReadFile(file->handle, bytes, part_of(size), &done, file->is_disk ? &at : NULL)) return done;
    DWORD why = GetLastError();
    if (why == ERROR_HANDLE_EOF || (why == ERROR_BROKEN_PIPE && !file->is_disk)) return 0;
    return fails_as_windows();
}

int64_t linux_pread(int32_t number, void *bytes, uint64_t size, int64_t offset) {
    struct file *file = file_of(number);
    if (!file) return fails(BAD_FILE);
    if (!file->is_disk) return fails(NOT_SEEKABLE);
    if (offset < 0) return fails(INVALID);
    return read_at(file, bytes, size, offset);
}

int64_t linux_read(int32_t number, void *bytes, uint64_t size) {
    struct file *file = file_of(number);
    if (!file) return fails(BAD_FILE);
    int64_t done = read_at(file, bytes, size, file->offset);
    if (file->is_disk && done > 0) file->offset += done;
    return done;
}

int64_t linux_write(int32_t number, const void *bytes, uint64_t size) {
    struct file *file = file_of(number);
    DWORD done = 0;
    if (!file) return fails(BAD_FILE);
    if (size == 0) return 0;
    return WriteFile(file->handle, bytes, part_of(size), &done, NULL) ? done : fails_as_windows();
}

/* What `main` writes where the processor is too old. */
int64_t linux_write_directly(int32_t number, const void *bytes, uint64_t size) { return linux_write(number, bytes, size); }

int64_t linux_lseek(int32_t number, int64_t by, int32_t from) {
    enum { START, HERE, END };
    struct file *file = file_of(number);
    LARGE_INTEGER size = {0};
    if (!file) return fails(BAD_FILE);
    if (!file->is_disk) return fails(NOT_SEEKABLE);
    if (from < START || from > END) return fails(INVALID);
    if (from == END && !GetFileSizeEx(file->handle, &size)) return fails_as_windows();
    int64_t base = from == START ? 0 : from == HERE ? file->offset : size.QuadPart;
    if (by < 0 ? base < -by : by > INT64_MAX - base) return fails(INVALID);
    return file->offset = base + by;
}

/* What stands on the disk when the program ends; of a directory Windows refuses it. */
int32_t linux_fsync(int32_t number) {
    struct file *file = file_of(number);
    if (!file) return (int32_t)fails(BAD_FILE);
    return FlushFileBuffers(file->handle) ? 0 : (int32_t)fails_as_windows();
}

/* Calls a function of Windows on a name. */
static int32_t on_name(const char *name, BOOL (*call)(const wchar_t *)) {
    wchar_t *wide = wide_name(name);
    if (!wide) return -1;
    BOOL done = call(wide);
    DWORD why = GetLastError();
    free(wide);
    SetLastError(why);
    return done ? 0 : (int32_t)fails_as_windows();
}

static BOOL make_directory(const wchar_t *wide) { return CreateDirectoryW(wide, NULL); }

static BOOL delete_file(const wchar_t *wide) { return DeleteFileW(wide); }

int32_t linux_mkdir(const char *name, uint32_t mode) {
    (void)mode;
    return on_name(name, make_directory);
}

int32_t linux_unlink(const char *name) { return on_name(name, delete_file); }

/* Gives a file another name; a file that has it is replaced. */
int32_t linux_rename(const char *from, const char *to) {
    wchar_t *old = wide_name(from);
    if (!old) return -1;
    wchar_t *new = wide_name(to);
    BOOL done = new && MoveFileExW(old, new, MOVEFILE_REPLACE_EXISTING);
    DWORD why = GetLastError();
    int has_name = new != NULL;
    free(old);
    free(new);
    SetLastError(why);
    if (done) return 0;
    return has_name ? (int32_t)fails_as_windows() : -1;
}

int32_t linux_isatty(int32_t number) {
    struct file *file = file_of(number);
    DWORD mode;
    if (file && GetConsoleMode(file->handle, &mode)) return 1;
    fails(file ? NOT_A_TERMINAL : BAD_FILE);
    return 0;
}

/* Linux's record of a file. */
struct statx_record {
    uint32_t mask, block_size;
    uint64_t attributes;
    uint32_t links, owner, group;
    uint16_t mode, unused;
    uint64_t inode, size, blocks, known_attributes, rest[24];
};
_Static_assert(sizeof(struct statx_record) == 256, "the size of struct statx");
_Static_assert(offsetof(struct statx_record, mode) == 28 && offsetof(struct statx_record, size) == 40, "the fields of struct statx");

/* The kind and the size of a file. */
static int32_t describe(struct file *file, struct statx_record *record) {
    enum { DIRECTORY = 0040555, REGULAR = 0100444, PIPE = 0010644, DEVICE = 0020644, BASIC = 0x7ff };
    LARGE_INTEGER size = {0};
    if (file->is_disk && !file->is_directory && !GetFileSizeEx(file->handle, &size)) return (int32_t)fails_as_windows();
    *record = (struct statx_record){.mask = BASIC, .block_size = 4096, .links = 1, .size = (uint64_t)size.QuadPart};
    record->blocks = (record->size + 511) / 512;
    if (file->is_directory) record->mode = DIRECTORY;
    else if (file->is_disk) record->mode = REGULAR;
    else record->mode = GetFileType(file->handle) == FILE_TYPE_PIPE ? PIPE : DEVICE;
    return 0;
}

/* The same of a file that isn't open, by its name. */
static int32_t describe_named(const char *name, struct statx_record *record) {
    struct file file = {0};
    wchar_t *wide = wide_name(name);
    if (!wide) return -1;
    HANDLE handle = CreateFileW(wide, FILE_READ_ATTRIBUTES, FILE_SHARE_READ | FILE_SHARE_WRITE | FILE_SHARE_DELETE, NULL,
                                OPEN_EXISTING, FILE_FLAG_BACKUP_SEMANTICS, NULL);
    DWORD why = GetLastError();
    free(wide);
    SetLastError(why);
    if (handle == INVALID_HANDLE_VALUE) return (int32_t)fails_as_windows();
    keep(&file, handle);
    int32_t done = describe(&file, record);
    CloseHandle(handle);
    return done;
}

/* The kind and the size of an open file, or of the file of a name. */
int32_t linux_statx(int32_t number, const char *name, int32_t flags, uint32_t mask, struct statx_record *record) {
    enum { CURRENT_DIRECTORY = -100 };
    struct file *file = file_of(number);
    (void)mask;
    if (number == CURRENT_DIRECTORY && *name && flags == 0) return describe_named(name, record);
    if (*name || !(flags & EMPTY_PATH)) return (int32_t)fails(NOT_IMPLEMENTED);
    return file ? describe(file, record) : (int32_t)fails(BAD_FILE);
}

/* ---- The processor. */

/* What the processor has, and what of it may be used, which is the same for all that is asked for: as glibc reports it. */
struct processor_features { uint32_t present[4], usable[4]; };

const struct processor_features *linux_x86_get_cpuid_feature_leaf(uint32_t number) {
    static const uint32_t leaves[] = {1, 7, 0x80000001};
    static struct processor_features features;
    uint32_t *has = features.present;
    features = (struct processor_features){0};
    if (number < 3) __get_cpuid_count(leaves[number], 0, &has[0], &has[1], &has[2], &has[3]);
    memcpy(features.usable, features.present, sizeof features.usable);
    return &features;
}

/* There are no signals: a write to a pipe without a reader fails with BROKEN_PIPE. */
int64_t linux_sysv_signal(int32_t number, int64_t action) {
    (void)number;
    (void)action;
    return 0;
}
