/* What the answers are called, and which library this is. */
#define _POSIX_C_SOURCE 200809L                 /* for the strerror_r that has the same form in each C library */
#include "redo_files.h"
#include <stdio.h>
#include <string.h>

uint32_t redo_version(void) { return REDO_VERSION; }
const char *redo_version_string(void) { return REDO_VERSION_STRING; }

size_t redo_handle_size(void) { return sizeof(redo_t); }

const char *redo_strerror(int32_t answer) {
    switch (answer) {
    case REDO_OK: return "done";
    case REDO_BAD_PARAMS: return "no store may have these numbers";
    case REDO_NOT_A_STORE: return "the folder has no store";
    case REDO_DAMAGED: return "a file of the store is damaged";
    case REDO_DISK_FAULT: return "a file of the store could not be read, written or synced, or memory was refused";
    case REDO_ALREADY_STORE: return "the folder has a store already";
    case REDO_MEMORY: return "out of memory";
    case REDO_BACKUP_FAULT: return "a file of the backup could not be read, written or synced, or memory was refused";
    case REDO_LOG_FULL: return "the log is full";
    case REDO_EXHAUSTED: return "no number is left for a command";
    case REDO_IN_GROUP: return "not within a group";
    case REDO_NO_GROUP: return "no group is open";
    case REDO_IN_BACKUP: return "not while a backup is being made";
    case REDO_NO_BACKUP: return "no backup is being made";
    case REDO_NOT_COPIED: return "not all objects are copied";
    case REDO_IN_TXN: return "not within a transaction";
    case REDO_NO_TXN: return "no transaction is open";
    case REDO_IN_SNAPSHOT: return "a snapshot is open";
    case REDO_NO_SNAPSHOT: return "no snapshot is open";
    case REDO_GIVEN_UP: return "the snapshot was given up";
    case REDO_NO_OBJECT: return "the store has no such object";
    case REDO_SAME: return "the two objects are one";
    case REDO_BAD_PLACE: return "the value is not that long";
    case REDO_BAD_WIDTH: return "the value is not made of records of this width";
    case REDO_NOT_APP: return "the value is no state of an application";
    case REDO_NO_INPUT: return "the application has no input left";
    case REDO_NOT_NODE: return "the value is no node of a tree and no bucket";
    case REDO_NO_KEY: return "the key is not there";
    case REDO_NODE_FULL: return "the node takes no key more";
    case REDO_TOO_LARGE: return "the value would be too long (a tree or a hash file needs a cap of at least 1024)";
    case REDO_NOT_CODE: return "the value is no program";
    case REDO_HALTED: return "the program has halted";
    case REDO_BAD_TREE: return "an object of the range is no node of the tree";
    case REDO_TREE_FULL: return "the tree has too few empty objects";
    case REDO_BAD_HASH: return "an object of the range is not of the hash file";
    case REDO_HASH_FULL: return "a bucket of the hash file cannot be split once more";
    case REDO_NO_ROOM: return "the hash file has too few empty objects";
    case REDO_BAD_KEY: return "a key, or the value of a key, has 1 to 32 bytes";
    case REDO_NO_PAGES: return "the store was made without pages, or its cap is below 1024";
    case REDO_BAD_MAP: return "an object of the range is no page of the map";
    case REDO_TOO_LONG: return "the key has no bytes, or the key or the value is too long for a page";
    case REDO_MAP_FULL: return "the map has too few empty objects";
    case REDO_NOT_OPEN: return "the handle is closed";
    case REDO_ALREADY_OPEN: return "the handle is open";
    case REDO_BUSY: return "another call with this handle is under way";
    case REDO_COPIED: return "the handle is a copy of one that is open";
    case REDO_FORKED: return "the handle is that of the parent process";
    case REDO_NULL: return "bytes at no place, or no path";
    case REDO_LOCKED: return "another handle or process has the store";
    case REDO_NO_FOLDER: return "the folder is not there, or cannot be locked";
    case REDO_OLD_LOG: return "the folder has no store, but the log of one";
    case REDO_NO_LENGTH: return "the value is longer than the room, and its length is not asked for";
    case REDO_READ_ONLY: return "the handle only reads";
    case REDO_BAD_WAY: return "no such way to open a store";
    default: return "no answer of this library";
    }
}

/* (The reason may be 0: a file that ends before its length.) */
static const char *reason_of(uint64_t number, char room[80]) {
    if (number == 0 || strerror_r((int)number, room, 80) != 0) snprintf(room, 80, number ? "error %d" : "it is too short", (int)number);
    return room;
}
static const char *name_of(uint64_t file) { return redo_file_names[file < REDO_FOLDER ? file : REDO_FOLDER]; }
static const char *done_of(uint64_t what) {
    return what == REDO_FAILED_OPEN ? "opened" : what == REDO_FAILED_READ ? "read" : what == REDO_FAILED_WRITE ? "written" : "synced";
}

#define SAY(...) snprintf(into, room, __VA_ARGS__)
const char *redo_last_error(const redo_t *db, char *into, size_t room) {
    const char *text = redo_strerror(db->answer_), *whose = db->answer_ == REDO_BACKUP_FAULT ? "backup" : "store";
    unsigned long long first = db->detail_.first, second = db->detail_.second, third = db->detail_.third;
    char reason[80];
    if (!into || room == 0) return text;
    switch (db->answer_) {
    case REDO_DISK_FAULT: case REDO_BACKUP_FAULT:
        if (third == 0) SAY("memory was refused in the middle of a call on the %s", whose);
        else SAY("%s of the %s could not be %s: %s", name_of(second), whose, done_of(third), reason_of(first, reason));
        break;
    case REDO_NO_FOLDER: SAY("%s: %s", text, reason_of(first, reason)); break;
    case REDO_DAMAGED: SAY("%s is damaged at byte %llu", name_of(first), second); break;
    case REDO_LOG_FULL: SAY("%s: %llu bytes are used and %llu needed, of %llu", text, first, second, third); break;
    case REDO_IN_GROUP: SAY("%s (commands in it: %llu)", text, first); break;
    case REDO_IN_BACKUP: case REDO_NOT_COPIED: SAY("%s (copied: %llu)", text, first); break;
    case REDO_BAD_TREE: case REDO_BAD_HASH: case REDO_HASH_FULL: case REDO_BAD_MAP: SAY("%s: object %llu", text, first); break;
    case REDO_TREE_FULL: SAY("%s: %llu more are needed, %llu are empty", text, first, second); break;
    case REDO_NO_ROOM: SAY("%s: %llu are empty", text, first); break;
    default: SAY("%s", text);
    }
    return into;
}
