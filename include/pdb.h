/* pdb.h - a verified reader of Microsoft PDB files (MSF 7.00), for C.
 *
 * The calls keep no state: there are no handles, nothing to close, no global state. Each call is a function of the bytes
 * that it is passed. Two threads may call at once, on the same bytes too.
 *
 * The library is proved. No proof can see what the caller has to guarantee:
 *   - No pointer is null, even with size 0 (PDB_NOTHING is a pointer to nothing).
 *   - A pointer points to as many bytes, numbers or records as the size behind it says; these stay there during the call.
 *   - What a call writes (out parameters and buffers) overlaps nothing else that it is passed.
 *   - No other thread writes during a call to what the call is passed.
 *   - malloc, realloc and free are one allocator's; no call is made from a signal handler or a forked child of threads.
 *   - Pointers have 64 bits.
 * A buffer and a record to be filled may hold any bytes: nothing reads them.
 *
 * Buffers A parameter capacity, buffer_size, rows_capacity or names_capacity is the capacity of the buffer before it, in
 *         records or, for uint8_t, in bytes. Where a capacity is too small the call writes what fits, returns PDB_ROOM, and sets how much
 *         there is: call with capacity 0 to get the size first. A list with an error behind its items returns that error,
 *         whether or not the items fit: compare *count with the capacity.
 * Borrow  pdb_module, pdb_symbol, pdb_file, pdb_import, pdb_member, pdb_record_t, pdb_image_t and a name of pdb_name
 *         point into the bytes that were passed in that call. They are valid as long as these stay where they are,
 *         unchanged. No zero byte ends a name: use sizes.
 * Memory  Calls that may take memory say so. All of it is freed before they return. Where malloc fails, they return
 *         PDB_OUT_OF_MEMORY; nothing aborts, and the same call may be made again. What a buffer then holds is unspecified,
 *         and each count is 0; pdb_symbols and pdb_global_symbols count the symbols before the one that takes memory.
 * Codes   0, or the number of an error from 1 to 22, or one of the codes behind them. 34 to 38 are errors of images, which
 *         pdb_image alone returns.
 * Changes A later libpdb.so.0 may add calls, constants and error codes: treat an unknown code as an error. It keeps each
 *         call, record and constant as it is; a library that changes one is libpdb.so.1.
 */
#ifndef PDB_H
#define PDB_H
#include <stddef.h>
#include <stdint.h>
#ifdef __cplusplus
extern "C" {
#endif

/* The version of this header, 0.1.0: 1000000 for each major version, 1000 for each minor one, and the patch. */
#define PDB_VERSION 1000

/* The version of the library: PDB_VERSION of the header that belongs to it. Takes no memory, and doesn't fail. */
uint32_t pdb_version(void);

typedef uint32_t pdb_code;
enum {
    PDB_DONE = 0,
    PDB_UNEXPECTED_EOF = 1,                    /* bytes that a format needs are not present */
    PDB_UNIMPLEMENTED_FEATURE = 2,             /* a feature that this reader doesn't read */
    PDB_UNRECOGNIZED_FILE_FORMAT = 3,          /* no file of the container MSF 7.00 */
    PDB_INVALID_PAGE_SIZE = 4,                 /* the page size is no power of two from 256 to 8388608 */
    PDB_PAGE_REFERENCE_OUT_OF_RANGE = 5,       /* a page number that is no page of the file */
    PDB_STREAM_NOT_FOUND = 6,                  /* no stream of this number */
    PDB_STREAM_NAME_NOT_FOUND = 7,             /* no stream of this name */
    PDB_GLOBAL_SYMBOLS_NOT_FOUND = 8,          /* no stream of global symbols */
    PDB_ADDRESS_MAP_NOT_FOUND = 9,             /* the address map lacks a table */
    PDB_INVALID_STREAM_LENGTH = 10,            /* a length contradicts its format */
    PDB_SYMBOL_TOO_SHORT = 11,                 /* a symbol record is too short for its kind */
    PDB_UNIMPLEMENTED_SYMBOL_KIND = 12,        /* records of this kind are not read */
    PDB_UNIMPLEMENTED_DEBUG_SUBSECTION = 13,   /* debug subsections of this kind are not read */
    PDB_UNIMPLEMENTED_FILE_CHECKSUM_KIND = 14, /* file checksums of this kind are not read */
    PDB_INVALID_FILE_CHECKSUM_OFFSET = 15,     /* no file checksum begins there */
    PDB_UNKNOWN_BINARY_ANNOTATION = 16,
    PDB_INVALID_COMPRESSED_ANNOTATION = 17,
    PDB_NOT_A_CROSS_MODULE_REF = 18,
    PDB_CROSS_MODULE_REF_NOT_FOUND = 19,
    PDB_UNEXPECTED_NUMERIC_PREFIX = 20,        /* the prefix of a number is of no known kind */
    PDB_IO_ERROR = 21,                         /* never returned here */
    PDB_OUT_OF_MEMORY = 22,                    /* malloc failed */
    PDB_END = 30,                              /* the list has ended */
    PDB_ROOM = 31,                             /* a buffer is too small; the call sets how much there is */
    PDB_LARGE = 32,                            /* more bytes than a stream can have: 4294967295 or more */
    PDB_SECTIONS_NOT_FOUND = 33,               /* no stream of section headers */
    PDB_NOT_AN_IMAGE = 34,                     /* no image: it doesn't begin with the bytes MZ */
    PDB_NO_PE_SIGNATURE = 35,                  /* the number at offset 60 doesn't lead to the bytes PE 0 0 */
    PDB_UNKNOWN_OPTIONAL_HEADER = 36,          /* the optional header is that of neither PE32 nor PE32+ */
    PDB_NB10 = 37,                             /* the image names a PDB of version 2.00 */
    PDB_UNKNOWN_CODE_VIEW = 38                 /* the debug record begins with neither RSDS nor NB10 */
};

#define PDB_NOTHING ((const uint8_t *)"")

/* Borrowed bytes. */
typedef struct pdb_bytes {
    const uint8_t *data;
    size_t size;
} pdb_bytes;

/* The text of a code: English, in one line, no period and no zero byte behind it; "unknown code" where this library doesn't
 * have the code. It is valid as long as the library is loaded. Takes no memory, and doesn't fail. */
void pdb_message(pdb_code code, pdb_bytes *out);

/* Whether the file can be opened: 0, or why not; each call that takes a file returns that code first. *number is the number
 * that the error carries: a page size, a page, or a stream; 0 where it carries none. Other errors' numbers are in the rows: the
 * stream of pdb_stream, the kind of pdb_symbol, the file of pdb_line and of pdb_inlinee. Takes memory. */
pdb_code pdb_opens(const uint8_t *file, size_t file_size, uint32_t *number);

/* ---- Which file it is. Both calls take memory; on an error *out is unchanged. */

typedef struct pdb_information_t {
    uint8_t guid[16];       /* in the order in which a GUID is printed, which isn't that of the file */
    uint8_t guid_bytes[16]; /* in the order of the file, and of a GUID of Windows in memory */
    uint32_t version;       /* of the stream's format: a date */
    uint32_t signature;     /* seconds since 1970, or another number */
    uint32_t age;           /* how often the file was written; the image has that of pdb_debug_information */
} pdb_information_t;

pdb_code pdb_information(const uint8_t *file, size_t file_size, pdb_information_t *out);

typedef struct pdb_debug_information_t {
    uint32_t age;
    uint32_t symbols_stream; /* the stream of global symbols; 0xffff is none */
    uint32_t machine;        /* IMAGE_FILE_MACHINE_.. */
    uint32_t flags;
} pdb_debug_information_t;

pdb_code pdb_debug_information(const uint8_t *file, size_t file_size, pdb_debug_information_t *out);

/* The key under which a symbol server stores the file: text of at most 40 bytes, without a zero byte behind it. *size is
 * its number of bytes. Takes memory. On an error nothing is written, and *size is 0. */
pdb_code pdb_key(const uint8_t *file, size_t file_size, uint8_t *buffer, size_t buffer_size, size_t *size);

/* ---- Streams. */

typedef struct pdb_stream {
    size_t at;       /* the offset of its bytes in the buffer */
    size_t size;     /* the number of its bytes; 0 on an error */
    uint32_t number;
    uint32_t code;   /* 0, or the error of the stream */
} pdb_stream;

#define PDB_DBI_STREAM 3
#define PDB_NO_STREAM 0xffff /* has no bytes, and is no error */

/* The streams of count numbers: a row of each, and their bytes one after the other in the buffer. *size is the number of
 * all their bytes. The file is opened once. PDB_ROOM where rows_capacity is below count, or buffer_size below *size; what fits is
 * written. Any other code but 0 is why the file can't be opened, or PDB_OUT_OF_MEMORY. Takes memory. */
pdb_code pdb_streams(const uint8_t *file, size_t file_size, const uint16_t *numbers, size_t count,
                     pdb_stream *rows, size_t rows_capacity, uint8_t *buffer, size_t buffer_size, size_t *size);

/* The bytes of the stream with a name, as "/names", the string table. Takes memory. */
pdb_code pdb_named_stream(const uint8_t *file, size_t file_size, const uint8_t *name, size_t name_size,
                          uint8_t *buffer, size_t buffer_size, size_t *size);

typedef struct pdb_stream_name {
    size_t at;       /* the offset of the name in names */
    size_t size;     /* the number of its bytes */
    uint32_t number; /* of the stream; not every number is that of a stream */
} pdb_stream_name;

/* The named streams, in the order in which the file lists them, and their names one after the other; the first of equal
 * names counts. *count is how many there are, and *size how many bytes their names have. PDB_ROOM where either buffer is too
 * small; what fits is written. Any other code but 0 is why the file can't be opened, why its names can't be read, or
 * PDB_OUT_OF_MEMORY: then nothing is written, and *count and *size are 0. Takes memory. */
pdb_code pdb_stream_names(const uint8_t *file, size_t file_size, pdb_stream_name *records, size_t capacity, size_t *count,
                          uint8_t *names, size_t names_capacity, size_t *size);

/* ---- Sections of the image, as the file has their headers. */

/* The fields of IMAGE_SECTION_HEADER. Sections count from 1: records[0] is section 1 of pdb_symbol and pdb_address. */
typedef struct pdb_section {
    uint8_t name[8];                  /* with zero bytes behind it where it is shorter */
    uint32_t name_size;               /* how many of these bytes stand before the first zero byte: 0 to 8 */
    uint32_t virtual_size;            /* its bytes in memory */
    uint32_t virtual_address;         /* relative to the load address */
    uint32_t size_of_raw_data;        /* its bytes in the image's file */
    uint32_t pointer_to_raw_data;     /* their offset in the image's file */
    uint32_t pointer_to_relocations;  /* the same of its relocations, */
    uint32_t pointer_to_line_numbers; /* and of its line numbers */
    uint16_t number_of_relocations;
    uint16_t number_of_line_numbers;
    uint32_t characteristics;         /* IMAGE_SCN_.. */
} pdb_section;

/* The section headers; *count is how many there are. PDB_SECTIONS_NOT_FOUND where the file has no stream of them. Any other
 * code but 0 and PDB_ROOM is why the file can't be opened, why the headers can't be read, or PDB_OUT_OF_MEMORY. On each of
 * these errors nothing is written, and *count is 0. Takes memory. */
pdb_code pdb_sections(const uint8_t *file, size_t file_size, pdb_section *records, size_t capacity, size_t *count);

/* ---- Modules, of the DBI stream's bytes. */

typedef struct pdb_module {
    pdb_bytes name;          /* mostly the path of an object file; borrows dbi */
    pdb_bytes object;        /* the file from which the linker took it; borrows dbi */
    uint32_t stream;         /* PDB_NO_STREAM is none */
    uint32_t symbols_size;   /* the sizes of that stream's parts */
    uint32_t lines_size;
    uint32_t c13_lines_size;
} pdb_module;

/* The listed modules; *count is how many there are. A module takes at least 68 bytes of dbi. An error is that of the whole
 * list (*count is 0), or one behind the *count modules before it. Takes no memory. */
pdb_code pdb_modules(const uint8_t *dbi, size_t dbi_size, pdb_module *records, size_t capacity, size_t *count);

/* ---- Section contributions, of the DBI stream's bytes: which bytes of the image came from which module. */

typedef struct pdb_contribution {
    size_t module;            /* its index in the list of pdb_modules, from 0 */
    uint32_t offset;          /* the offset of the first byte in the section */
    uint32_t size;            /* how many bytes */
    uint32_t characteristics; /* IMAGE_SCN_.. of the object file's section from which they came */
    uint32_t data_crc;        /* a checksum of the bytes */
    uint32_t reloc_crc;       /* a checksum of their relocations */
    uint16_t section;         /* from 1 */
} pdb_contribution;

/* The contributions; *count is how many there are. A contribution takes at least 28 bytes of dbi. An error is that of the
 * whole list (*count is 0), or one behind the *count contributions before it. Takes no memory. */
pdb_code pdb_contributions(const uint8_t *dbi, size_t dbi_size, pdb_contribution *records, size_t capacity, size_t *count);

/* ---- Symbols, as many as the buffer holds. */

/* What a record doesn't have is 0 or empty. So is all that stands in a record with an error: its row has the record, its
 * index, its kind, refused, starts_scope and ends_scope. */
typedef struct pdb_symbol {
    pdb_bytes record;      /* with its kind, without its length; borrows stream */
    pdb_bytes name;        /* borrows stream */
    pdb_bytes annotations; /* of an inlined call, for pdb_inlined_lines; borrows stream */
    uint32_t index;        /* the offset of the record in stream */
    uint32_t parent;       /* the index of the symbol whose scope it is in, or 0 */
    uint32_t end;          /* the index of the symbol that ends its scope, or 0 */
    uint32_t offset;       /* its offset in the section, or 0 */
    uint32_t code_size;    /* bytes of code, or 0 */
    uint32_t type_index;   /* or 0 */
    uint32_t inlinee;      /* the id of the function that was inlined, or 0 */
    uint16_t section;      /* its section, or 0 */
    uint16_t kind;         /* S_.. of cvinfo.h */
    uint8_t form;          /* the record layout: 1 to 27, in the order below; 0 where the record can't be read */
    uint8_t refused;       /* 0, or why the record can't be read */
    uint8_t has_name;      /* 1 or 0 */
    uint8_t has_place;     /* 1 or 0: whether it has an offset in a section */
    uint8_t starts_scope;  /* 1 (else 0) where records of its kind start a scope, or end one: what stands between is inside */
    uint8_t ends_scope;
} pdb_symbol;

enum {
    PDB_SCOPE_END = 1, PDB_OBJ_NAME, PDB_REGISTER_VARIABLE, PDB_CONSTANT, PDB_USER_DEFINED_TYPE,
    PDB_MULTI_REGISTER_VARIABLE, PDB_DATA, PDB_PUBLIC, PDB_PROCEDURE, PDB_THREAD_STORAGE, PDB_COMPILE_FLAGS,
    PDB_USING_NAMESPACE, PDB_PROCEDURE_REFERENCE, PDB_DATA_REFERENCE, PDB_ANNOTATION_REFERENCE, PDB_TRAMPOLINE,
    PDB_EXPORT, PDB_LOCAL, PDB_BUILD_INFO, PDB_INLINE_SITE, PDB_INLINE_SITE_END, PDB_PROCEDURE_END, PDB_LABEL,
    PDB_BLOCK, PDB_REGISTER_RELATIVE, PDB_THUNK, PDB_SEPARATED_CODE
};

/* The symbols from the offset *at on: *count of them were written, at most capacity, and *at is then where the next is read.
 * PDB_DONE where they fill the buffer, PDB_END behind the last one, or the error behind the last one, which ends the list.
 * PDB_OUT_OF_MEMORY at a symbol that takes memory: the same call goes on there. Variables in several registers (kinds
 * 0x110a, 0x1005, 0x1117 and 0x1014) take memory, and no other record does. Where the symbols part has an error, or the
 * stream is PDB_LARGE, *count is 0 and *at stays. Begin a module's symbols at PDB_SYMBOLS_AT, and those of the stream of
 * global symbols at PDB_GLOBALS_AT. */
#define PDB_SYMBOLS_AT 4
#define PDB_GLOBALS_AT 0
pdb_code pdb_symbols(const uint8_t *stream, size_t stream_size, uint32_t symbols_size, uint32_t *at,
                     pdb_symbol *records, size_t capacity, size_t *count);
pdb_code pdb_global_symbols(const uint8_t *stream, size_t stream_size, uint32_t *at,
                            pdb_symbol *records, size_t capacity, size_t *count);

/* ---- Lines of a module's stream. */

typedef struct pdb_line {
    uint32_t offset;          /* the offset of the code in the section */
    uint16_t section;
    uint16_t file_refused;    /* 0, or why the file has no name */
    uint8_t has_length;       /* 1 or 0; what is unknown is 0 */
    uint8_t has_column_start;
    uint8_t has_column_end;
    uint8_t is_statement;     /* 0 is an expression */
    uint32_t length;          /* bytes of code */
    uint32_t file;            /* by the offset of its checksum */
    uint32_t file_name;       /* the offset of the file's name in the string table */
    uint32_t line_start, line_end, column_start, column_end;
} pdb_line;

/* The line records; *count is how many there are, at most an eighth of c13_lines_size. An error is that of all lines
 * (*count is 0), or one behind the *count lines before it. Takes memory. */
pdb_code pdb_lines(const uint8_t *stream, size_t stream_size, uint32_t symbols_size, uint32_t lines_size,
                   uint32_t c13_lines_size, pdb_line *records, size_t capacity, size_t *count);

/* ---- Files of a module's stream, with checksums of their contents. */

typedef struct pdb_file {
    pdb_bytes checksum; /* its bytes; borrows stream */
    uint32_t index;     /* the offset of its record: file of pdb_line and of pdb_inlinee */
    uint32_t name;      /* the offset of its name in the string table */
    uint32_t kind;      /* 0 is no checksum, PDB_MD5, PDB_SHA1 or PDB_SHA256 */
} pdb_file;

enum { PDB_MD5 = 1, PDB_SHA1 = 2, PDB_SHA256 = 3 };

/* The files; *count is how many there are, at most a sixth of c13_lines_size. An error is that of all lines (*count is 0),
 * or one behind the *count files before it. Takes memory. */
pdb_code pdb_files(const uint8_t *stream, size_t stream_size, uint32_t symbols_size, uint32_t lines_size,
                   uint32_t c13_lines_size, pdb_file *records, size_t capacity, size_t *count);

/* ---- Inlined functions of a module's stream. */

typedef struct pdb_inlinee {
    uint32_t id;           /* that of pdb_symbol's inlinee; the first function of an id counts */
    uint32_t line;         /* where the function begins */
    uint32_t file;         /* by the offset of its checksum */
    uint32_t file_name;    /* the offset of the file's name in the string table */
    uint32_t file_refused; /* 0, or why the file has no name */
} pdb_inlinee;

/* The inlined functions; *count is how many there are, at most a twelfth of c13_lines_size. An error is that of the whole
 * list (*count is 0), or one behind the *count functions before it. Takes memory. */
pdb_code pdb_inlinees(const uint8_t *stream, size_t stream_size, uint32_t symbols_size, uint32_t lines_size,
                      uint32_t c13_lines_size, pdb_inlinee *records, size_t capacity, size_t *count);

/* The line records of an inlined call, by its symbol's annotations, the section and offset of the procedure around it (of
 * the last PDB_PROCEDURE before it), and the file and line of its function. *count is how many there are, at most the number
 * of bytes of the annotations. A record's file_name and file_refused are 0: pdb_files has its file's name. An error is one
 * in the annotations, behind the *count records before it. Takes no memory. */
pdb_code pdb_inlined_lines(const uint8_t *annotations, size_t annotations_size, uint16_t section, uint32_t offset,
                           uint32_t file, uint32_t line, pdb_line *records, size_t capacity, size_t *count);

/* ---- What modules import from one another, by a module's stream. */

typedef struct pdb_import {
    pdb_bytes numbers; /* types and ids, each local to that module: four bytes each, little-endian; borrows stream */
    uint32_t name;     /* the offset of the other module's name in the string table */
} pdb_import;

/* The modules from which something is imported; *count is how many there are, at most an eighth of c13_lines_size. An index
 * with the top bit set refers to one: bits 20 to 30 are its position in the list, bits 0 to 19 that of the number. On an
 * error of the list, or in it, nothing is written. Takes memory. */
pdb_code pdb_imports(const uint8_t *stream, size_t stream_size, uint32_t symbols_size, uint32_t lines_size,
                     uint32_t c13_lines_size, pdb_import *records, size_t capacity, size_t *count);

typedef struct pdb_export {
    uint32_t local;  /* local to the module; an id where its top bit is set, otherwise a type */
    uint32_t global; /* the number in the whole file */
} pdb_export;

/* What the module exports; *count is how much there is, at most an eighth of c13_lines_size. Takes memory. */
pdb_code pdb_exports(const uint8_t *stream, size_t stream_size, uint32_t symbols_size, uint32_t lines_size,
                     uint32_t c13_lines_size, pdb_export *records, size_t capacity, size_t *count);

/* ---- The string table. */

/* The name at the offset place of the string table, whose bytes are names; borrows them. Takes no memory. */
pdb_code pdb_name(const uint8_t *names, size_t names_size, uint32_t place, pdb_bytes *out);

/* ---- Types, of the bytes of the stream of types. An index below 4096 is that of a simple type, as 116 of int; the types
 * of the stream have the others. Ask for many indices at once: each call reads the whole stream. All three calls take
 * memory. An error is that of the stream, PDB_LARGE, or PDB_OUT_OF_MEMORY: then nothing is written, and each count is 0. Types
 * behind a damaged record are not present. */

#define PDB_TYPES_STREAM 2

typedef struct pdb_type_name_t {
    size_t at;   /* the offset of the name in names */
    size_t size; /* the number of its bytes */
} pdb_type_name_t;

/* The names of the types of count indices in C++, as "int (*[2])(char)": a row of each, and the names one after the other.
 * *size is how many bytes they have. A name has at most 65541 bytes: behind 65536 bytes it ends with "<...>", and so does
 * what stands more than 64 records deep. What has no name is "??". PDB_ROOM where rows_capacity is below count, or
 * names_capacity below * *size; what fits is written. */
pdb_code pdb_type_name(const uint8_t *types, size_t types_size, const uint32_t *indices, size_t count,
                       pdb_type_name_t *rows, size_t rows_capacity, uint8_t *names, size_t names_capacity, size_t *size);

typedef struct pdb_type_size_t {
    uint64_t size;     /* bytes of an object of the type; 0 where it has no size */
    uint32_t full;     /* of a class, a union or an enumeration that is only declared the index of its definition; of one that
                        * is defined its own; 0 where there is no definition, and of every other type */
    uint32_t has_size; /* 1 or 0: a function has no size, nor has what is only declared in the whole file */
} pdb_type_size_t;

/* The sizes of the types of count indices. PDB_ROOM where rows_capacity is below count; what fits is written. */
pdb_code pdb_type_size(const uint8_t *types, size_t types_size, const uint32_t *indices, size_t count,
                       pdb_type_size_t *rows, size_t rows_capacity);

/* What a member doesn't have is 0 or empty. */
typedef struct pdb_member {
    pdb_bytes name;      /* borrows types */
    uint64_t value;      /* of an enumerator its value; of a virtual function its offset in the table of virtual functions; of
                          * others the offset in the object: in bytes */
    uint64_t value_high; /* bits 64 to 127 of the value: it is in two's complement, so that all are set where it is negative */
    uint64_t entry;      /* of a virtual base class: its entry in the table of virtual base classes */
    size_t owner;        /* which of the indices it belongs to, from 0 */
    uint32_t type_index; /* its type */
    uint16_t attributes; /* CV_fldattr_t of cvinfo.h: its last 2 bits are PDB_PRIVATE, .. */
    uint8_t form;        /* PDB_BASE_CLASS, ..; 0 where the list has an error here */
    uint8_t refused;     /* 0, or the error: nothing of this type follows */
    uint8_t has_value;   /* 1 or 0 */
    uint8_t has_bit;     /* 1 or 0: whether it is a bit field; value is then that of its bytes */
    uint8_t bit;         /* the first bit of a bit field, from the lowest bit of those bytes */
} pdb_member;

enum { PDB_PRIVATE = 1, PDB_PROTECTED = 2, PDB_PUBLIC_ACCESS = 3 };

enum {
    PDB_BASE_CLASS = 1,
    PDB_VIRTUAL_BASE_CLASS,          /* value is the offset of the pointer to its table, in the object */
    PDB_INDIRECT_VIRTUAL_BASE_CLASS, /* one of a base class */
    PDB_VIRTUAL_TABLE_POINTER,       /* type_index is the type of the pointer */
    PDB_VIRTUAL_TABLE_OFFSET,        /* the same, with its offset */
    PDB_FRIEND_CLASS,
    PDB_FRIEND_FUNCTION,
    PDB_ENUMERATOR,
    PDB_DATA_MEMBER,
    PDB_STATIC_MEMBER,
    PDB_MEMBER_FUNCTION,             /* one for each overload */
    PDB_UNREAD_FUNCTIONS,            /* the list of the overloads of a name isn't there, or has an error behind those before */
    PDB_NESTED_TYPE,
    PDB_MORE_MEMBERS,                /* more than 1024 lists go on in one another: the others aren't read */
    PDB_ENDLESS_MEMBERS              /* an error of the file: the list of members continues in itself; nothing of this type follows */
};

/* The members of the types of count indices, one type after the other; *rows_count is how many there are. A type that is only
 * declared has the members of its definition; what is no class, union or enumeration has none. PDB_ROOM where capacity is below
 * *rows_count; what fits is written. */
pdb_code pdb_members(const uint8_t *types, size_t types_size, const uint32_t *indices, size_t count,
                     pdb_member *records, size_t capacity, size_t *rows_count);

/* ---- Frames of addresses. */

typedef struct pdb_address {
    uint32_t offset;  /* a relative virtual address, or an offset in a section */
    uint16_t section;
    uint16_t kind;    /* PDB_ADDRESS, PDB_PLACE (section and offset); any other has no code */
} pdb_address;

enum { PDB_ADDRESS = 0, PDB_PLACE = 1, PDB_NOWHERE = 2 };

typedef struct pdb_frame {
    size_t address;            /* which address it is of, from 0 */
    size_t name_at, name_size; /* the function's name in names */
    size_t file_at, file_size; /* the same of the file's name */
    uint32_t line, column;     /* 0 where unknown */
    uint32_t has_name, has_file;
} pdb_frame;

/* The frames of addresses, of each from the innermost inlined function to the function itself, at least one. *count is
 * how many there are, and *size how many bytes their names have. A part of the file that can't be read counts as not
 * present. The file is opened once. PDB_ROOM where either buffer is too small; what fits is written. Takes memory.
 * Where no function is known, the name is what that of a public symbol spells: tour::clamp for ?clamp@tour@@YAHHHH@Z. A jump
 * of incremental linking is ILT+N(NAME): it leads to NAME.
 *
 * How large the buffers have to be: an address has one frame, and one more for each inlined call of its procedure that
 * covers it. That are at most symbols_size / 4 + 1 frames, by the symbols of its module. A name of a function has less than
 * 131072 bytes, and that of a file less than the string table. Real files have far less: 16 rows and 1024 bytes an address, and
 * 16 and 1024 more, are mostly enough. Otherwise *count and *size are what a second call needs, which costs as much as the
 * first one; the frames that fit are whole. */
pdb_code pdb_frames(const uint8_t *file, size_t file_size, const pdb_address *addresses, size_t addresses_count,
                    pdb_frame *frames, size_t capacity, size_t *count, uint8_t *names, size_t names_capacity, size_t *size);

/* ---- Variables of addresses. */

typedef struct pdb_variable {
    uint64_t value, value_high; /* of a constant: bits 0 to 63 and 64 to 127 of its value, in two's complement */
    size_t address;             /* which address it is of, from 0 */
    size_t call;                /* where is_inlined is 1: which inlined call it belongs to, from the outermost one, 0 */
    size_t name_at, name_size;  /* its name in names */
    size_t parts;               /* 0, or how many rows it has, one behind the other: one for each of its parts */
    uint32_t type_index;
    uint32_t kind;              /* PDB_VARIABLE_PARAMETER, .. */
    uint32_t location;          /* PDB_STORED_NOWHERE, ..: where it is while the code at the address runs */
    uint32_t number;            /* of a register, of a frame's register or of a program */
    int32_t displacement;       /* bytes behind the value of the register, the base pointer or the frame's register */
    uint32_t offset, section;   /* of PDB_STORED_IN_SECTION */
    uint32_t part;              /* the offset of the part in the variable, in bytes */
    uint32_t is_part;           /* 1 or 0: whether this row is of a part of the variable */
    uint32_t is_inlined;        /* 1 or 0: whether it belongs to an inlined call, or to the function itself */
} pdb_variable;

enum {
    PDB_VARIABLE_PARAMETER = 1, PDB_VARIABLE_LOCAL, PDB_VARIABLE_STATIC, PDB_VARIABLE_THREAD, PDB_VARIABLE_CONSTANT
};

enum {
    PDB_STORED_NOWHERE = 0,
    PDB_STORED_IN_REGISTER,     /* number is the register's: pdb_register_name */
    PDB_STORED_BY_REGISTER,     /* in memory, at the value of a register and the displacement */
    PDB_STORED_BY_BASE_POINTER, /* the same of ebp, on x86-64 of rbp */
    PDB_STORED_BY_FRAME,        /* the same of a frame's register: pdb_frame_register has it by number */
    PDB_STORED_BY_PROGRAM,      /* a program computes it, of which the file has no more than the number */
    PDB_STORED_IN_SECTION,      /* in memory, at an offset in a section; of PDB_VARIABLE_THREAD in a thread's storage */
    PDB_STORED_AS_VALUE         /* it is a constant */
};

/* The variables in scope at addresses: of each address a row for each variable, in the order of their records, or one for
 * each of its parts. *count is how many rows there are, and *size how many bytes the names have. Of the
 * frames that pdb_frames gives for an address, the last one is the function's; before it stands that of call 0, before that one
 * that of call 1, and so on. The buffers, the errors and the memory are those of pdb_frames. */
pdb_code pdb_variables(const uint8_t *file, size_t file_size, const pdb_address *addresses, size_t addresses_count,
                       pdb_variable *variables, size_t capacity, size_t *count, uint8_t *names, size_t names_capacity,
                       size_t *size);

/* The name of a register, as "rcx", by the machine of pdb_debug_information and the number in a record; empty where there is
 * none. It is valid as long as the library is loaded. Takes no memory, and doesn't fail. */
void pdb_register_name(uint16_t machine, uint16_t number, pdb_bytes *out);

/* The number of the register that a frame's register is, 1 to 3; 0 where it is none. Takes no memory, and doesn't fail. */
uint32_t pdb_frame_register(uint16_t machine, uint8_t number);

/* ---- Further records: of the kinds that pdb_symbols refuses with PDB_UNIMPLEMENTED_SYMBOL_KIND. */

/* What a record doesn't have is 0 or empty. */
typedef struct pdb_record_t {
    pdb_bytes name;           /* borrows record */
    uint32_t form;            /* the record layout: 1 to 40, in the order below */
    uint32_t type_index;
    uint32_t flags;           /* as the record has them: of a variable CV_LVARFLAGS of cvinfo.h, of PDB_FRAME_PROCEDURE with the
                               * frame's registers, and of PDB_COFF_GROUP and PDB_SECTION the characteristics */
    uint32_t location;        /* of a variable, a range or a cookie: PDB_STORED_IN_REGISTER, .. */
    uint32_t number;          /* of a register or of a program; of PDB_STORED_BY_FRAME 0: PDB_FRAME_PROCEDURE has the register */
    int32_t displacement;
    uint32_t offset, section; /* of a range its start, of PDB_FRAME_PROCEDURE the exception handler */
    uint32_t size;            /* bytes: of a range, of code, of a frame, of an instruction, of a section */
    uint32_t part;            /* the offset of the part in the variable, in bytes */
    uint32_t has_place;       /* 1 or 0 */
    uint32_t is_part;         /* 1 or 0 */
} pdb_record_t;

enum {
    PDB_FRAME_PROCEDURE = 1, PDB_BASE_POINTER_RELATIVE, PDB_DEF_RANGE, PDB_DEF_RANGE_SUBFIELD, PDB_DEF_RANGE_REGISTER,
    PDB_DEF_RANGE_FRAME_POINTER_RELATIVE, PDB_DEF_RANGE_SUBFIELD_REGISTER, PDB_DEF_RANGE_FRAME_POINTER_RELATIVE_FULL_SCOPE,
    PDB_DEF_RANGE_REGISTER_RELATIVE, PDB_FILE_STATIC, PDB_FRAME_COOKIE, PDB_CALL_SITE_INFO, PDB_HEAP_ALLOCATION_SITE,
    PDB_FUNCTION_LIST, PDB_JUMP_TABLE, PDB_COFF_GROUP, PDB_SECTION, PDB_ENVIRONMENT_BLOCK, PDB_ANNOTATION, PDB_POGO_DATA,
    PDB_HOT_PATCH_FUNCTION, PDB_MANAGED_PROCEDURE, PDB_TOKEN_REFERENCE, PDB_OEM, PDB_LOCAL_GROUP_SHARED,
    PDB_POINTER_TAG_MAP, PDB_REGISTER_RELATIVE_OLD, PDB_WITH, PDB_VIRTUAL_TABLE_PATH, PDB_MODULE_TYPE_REFERENCE,
    PDB_MINI_REFERENCE, PDB_DISCARDED, PDB_COMPILE, PDB_START_SEARCH, PDB_END_OF_ARGUMENTS, PDB_SLOT, PDB_MANAGED_SLOT,
    PDB_MANAGED_FRAME_RELATIVE, PDB_MANAGED_REGISTER, PDB_MANAGED_REGISTER_RELATIVE
};

/* What a record says, by record of pdb_symbol. PDB_SYMBOL_TOO_SHORT where it is shorter than a kind,
 * PDB_UNIMPLEMENTED_SYMBOL_KIND where its kind is read by pdb_symbols or by nothing here, PDB_UNEXPECTED_EOF where a field isn't
 * present; then *out is unchanged. Takes no memory. */
pdb_code pdb_record(const uint8_t *record, size_t record_size, pdb_record_t *out);

typedef struct pdb_gap {
    uint32_t start; /* counted in bytes from the start of the range */
    uint32_t size;  /* bytes */
} pdb_gap;

/* The gaps of a range, in which it doesn't hold; other records have none. *count is how many there are. The errors are those of
 * pdb_record. Takes no memory. */
pdb_code pdb_gaps(const uint8_t *record, size_t record_size, pdb_gap *gaps, size_t capacity, size_t *count);

/* ---- Images: an EXE or a DLL in the PE format. */

typedef struct pdb_image_t {
    pdb_bytes path;         /* of its PDB, as the linker was given it; borrows image */
    uint64_t base;          /* the address at which it wants to be loaded */
    uint8_t guid[16];       /* of its PDB, in the order in which a GUID is printed: that of pdb_information_t */
    uint8_t guid_bytes[16]; /* in the order of the image, and of a GUID of Windows in memory */
    uint32_t machine;       /* IMAGE_FILE_MACHINE_.. */
    uint32_t time_stamp;    /* its own key is this number as %08X, */
    uint32_t size;          /* and this one, its bytes in memory, as %x */
    uint32_t age;           /* of its PDB: that of pdb_debug_information_t */
    uint32_t has_pdb;       /* 1 or 0: whether it names a PDB; where it names none, path is empty, and both guids and age are 0 */
} pdb_image_t;

/* What an image says, by all its bytes. PDB_UNEXPECTED_EOF where bytes are not present, or one of the codes from
 * PDB_NOT_AN_IMAGE to PDB_UNKNOWN_CODE_VIEW; on an error *out is unchanged. Takes no memory. */
pdb_code pdb_image(const uint8_t *image, size_t image_size, pdb_image_t *out);

#ifdef __cplusplus
}
#endif
#endif
