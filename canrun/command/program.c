/* Checks the file of a program: how the program will be loaded, and whether it can use the library. See program.h. */
#define _GNU_SOURCE
#include "program.h"

#include <elf.h>
#include <errno.h>
#include <fcntl.h>
#include <stdbool.h>
#include <stddef.h>
#include <stdio.h>
#include <stdlib.h>
#include <string.h>
#include <sys/stat.h>
#include <sys/xattr.h>
#include <unistd.h>

static bool is_program(const char *path) {
    struct stat status;
    return !stat(path, &status) && S_ISREG(status.st_mode) && !access(path, X_OK);
}

int program_find(const char *name, char path[PATH_MAX]) {
    const char *folders = getenv("PATH");
    if (strchr(name, '/')) {
        return snprintf(path, PATH_MAX, "%s", name) < PATH_MAX ? 0 : ENAMETOOLONG;
    }
    for (const char *at = folders ? folders : "/bin:/usr/bin"; *name; at++) {
        int length = (int)strcspn(at, ":");
        const char *folder = length ? at : ".";
        if (snprintf(path, PATH_MAX, "%.*s/%s", length ? length : 1, folder, name) < PATH_MAX && is_program(path)) {
            return 0;
        }
        at += length;
        if (!*at) {
            break;
        }
    }
    return ENOENT;
}

static bool read_at(int fd, void *data, size_t length, size_t offset) {
    return pread(fd, data, length, (off_t)offset) == (ssize_t)length;
}

/* Returns whether a segment contains the Go linker's note. In a Go program with C code this note comes after other
 * notes. */
static bool has_note_of_go(int fd, const Elf64_Phdr *segment) {
    struct {
        Elf64_Nhdr head;
        char owner[4];
    } note;
    size_t align = segment->p_align > 4 ? segment->p_align : 4;
    for (size_t at = 0; segment->p_type == PT_NOTE && at + sizeof note <= segment->p_filesz;) {
        if (!read_at(fd, &note, sizeof note, segment->p_offset + at)) {
            return false;
        }
        if (note.head.n_namesz == 4 && !memcmp(note.owner, "Go\0", 4)) {
            return true;
        }
        size_t name = ((size_t)note.head.n_namesz + 3) / 4 * 4;
        at += (sizeof note.head + name + note.head.n_descsz + align - 1) / align * align;
    }
    return false;
}

static bool is_loader_of_musl(int fd, const Elf64_Phdr *segment) {
    char loader[64] = "";
    return segment->p_type == PT_INTERP &&
           read_at(fd, loader, segment->p_filesz < sizeof loader ? segment->p_filesz : sizeof loader - 1,
                   segment->p_offset) &&
           strstr(loader, "ld-musl");
}

static const char OF_MUSL[] = "is linked with musl, and not with glibc";

/* Returns why the program in this file does not load the library, or NULL if it does. For a 32-bit program --static
 * does not help either. */
static const char *elf_obstacle(int fd, bool *is_32_bit) {
    Elf64_Ehdr head;
    Elf64_Phdr segment;
    bool is_dynamic = false, is_go = false, is_musl = false;
    if (!read_at(fd, &head, sizeof head, 0) || memcmp(head.e_ident, ELFMAG, SELFMAG) != 0) {
        return NULL; /* This is a script; its interpreter decides. */
    }
    *is_32_bit = head.e_ident[EI_CLASS] != ELFCLASS64;
    if (*is_32_bit) {
        return "is a 32-bit program";
    }
    for (size_t i = 0; i < head.e_phnum && read_at(fd, &segment, sizeof segment, head.e_phoff + i * head.e_phentsize);
         i++) {
        is_dynamic |= segment.p_type == PT_INTERP;
        is_go |= has_note_of_go(fd, &segment);
        is_musl |= is_loader_of_musl(fd, &segment);
    }
    return is_go         ? "is a Go program, which calls the kernel itself"
           : !is_dynamic ? "is linked statically"
           : is_musl     ? OF_MUSL
                         : NULL;
}

/* Returns whether the program runs with other privileges because of its file. In that case the loader ignores
 * LD_PRELOAD. */
static bool is_privileged(const char *path) {
    struct stat status;
    if (stat(path, &status)) {
        return false;
    }
    return (status.st_mode & S_ISUID && status.st_uid != geteuid()) ||
           (status.st_mode & S_ISGID && status.st_gid != getegid()) ||
           (geteuid() != 0 && getxattr(path, "security.capability", NULL, 0) > 0);
}

/* Returns whether a statically linked program causes no problem: ldconfig creates no CAN sockets; valgrind and the
 * loader run another program, which does load the library. */
static bool is_harmless(const char *path) {
    static const char *const names[] = {"ldconfig", "sln", "ld-linux", "ld.so", "ld64.so"};
    const char *slash = strrchr(path, '/'), *name = slash ? slash + 1 : path;
    for (size_t i = 0; i < sizeof names / sizeof *names; i++) {
        if (!strncmp(name, names[i], strlen(names[i]))) {
            return true;
        }
    }
    return strstr(path, "/valgrind/");
}

/* Returns why the program at this path does not load the library, or NULL if it does. */
static const char *file_obstacle(const char *path, bool *is_32_bit) {
    int fd = open(path, O_RDONLY | O_CLOEXEC);
    const char *obstacle = fd >= 0 ? elf_obstacle(fd, is_32_bit) : NULL;
    if (fd >= 0) {
        close(fd);
    }
    return obstacle;
}

const char *program_bypass(const char *path) {
    bool is_32_bit = false;
    const char *obstacle = is_harmless(path) ? NULL : file_obstacle(path, &is_32_bit);
    return getenv(STATIC_SETTING) && !is_32_bit ? NULL : obstacle;
}

bool program_takes_library(const char *path) {
    bool is_32_bit;
    return !file_obstacle(path, &is_32_bit);
}

bool program_is_of_musl(const char *path) {
    bool is_32_bit;
    return file_obstacle(path, &is_32_bit) == OF_MUSL;
}

const char *program_cure(const char *path) {
    bool is_32_bit = false, has_obstacle = file_obstacle(path, &is_32_bit);
    return has_obstacle && !is_32_bit && !getenv(STATIC_SETTING) ? "; with canbusd-run --static they are the server's"
                                                                 : "";
}

const char *program_obstacle(const char *path) {
    return is_privileged(path) ? "is setuid, setgid or has capabilities" : program_bypass(path);
}
