/*
 * kveldrim.h - the C interface of Kveldrim, a proved core for .desktop files (Desktop Entry Specification 1.5).
 * SPDX-License-Identifier: Apache-2.0
 *
 * Link with libkveldrim.a, which `rt lib` in crates/kveldrim writes to crates/kveldrim/out:
 *
 *     cc -Iinclude program.c crates/kveldrim/out/libkveldrim.a
 *
 * How every call works
 *
 * - A byte slice is a pointer and a length in bytes. No byte ends it: bytes are lent as they are, zeros too.
 *   An empty slice may have any pointer, NULL too. Lengths are at most PTRDIFF_MAX.
 * - The result is 0 if the call is accepted, else the number of the refusal (table below).
 * - *place is always written: 0 if accepted, else the refusal's place. So is *byte, in the calls that are handed a file:
 *   the byte in the line for refusal 2, else 0.
 * - Every other number is written only if the call is accepted.
 * - A refusal changes no byte that was lent. An accepted call writes to the start of its output; the rest keeps its bytes.
 *   What the calls that edit write is said below, under Edits.
 * - kveldrim_batch is the one exception to the last two: its numbers are always written, and a refusal may leave the edits
 *   before the refused one done.
 * - Slices are lent for the call only. An output or a buffer overlaps no other slice, and the number pointers are not NULL,
 *   point to different numbers and into no slice. Inputs may overlap each other.
 * - No call allocates memory, keeps anything or waits; calls may run in several threads at once. 64 KiB of stack are
 *   enough for each, but kveldrim_expand and kveldrim_expand_action take up to 160 KiB.
 *
 * Example: a lookup
 *
 *     uint64_t place, byte, from, to;
 *     uint32_t refused = kveldrim_lookup(file, file_len,
 *                                        (const uint8_t *) "Desktop Entry", 13, (const uint8_t *) "Name", 4,
 *                                        &place, &byte, &from, &to);
 *     if (refused == 0)
 *         fwrite(file + from, 1, to - from, stdout);
 *     else if (refused == KVELDRIM_BAD_LINE)
 *         fprintf(stderr, "line %llu is bad after %llu bytes\n", (unsigned long long) place, (unsigned long long) byte);
 *     else
 *         fprintf(stderr, "refused: %s\n", kveldrim_words(refused));
 *
 * Refusals
 *
 * A line counts from 1, an offset and a byte in a line from 0. Where a place is not named it is 0. kveldrim_words, in
 * kveldrim_words.h, gives the words of each number.
 *
 *     number                   given when                                                         place              byte
 *      1  KVELDRIM_TOO_LONG     the file is over 32,768 bytes                                      0                  0
 *      2  KVELDRIM_BAD_LINE     a line is not blank, a comment, a header or an entry               line               the byte
 *      3  KVELDRIM_FIRST        the first line that is neither blank nor comment is not
 *                               [Desktop Entry]                                                    line               0
 *                               no header at all, only blank lines and comments                    0                  0
 *      4  KVELDRIM_GROUP_TWICE  a group's name stands further up                                   the later line     0
 *      5  KVELDRIM_KEY_TWICE    a key with the same postfix stands further up in its group         the later line     0
 *      6  KVELDRIM_NO_PLAIN     a key has a postfix, but does not stand without one in its group   the earliest line  0
 *                               the same of a key about to be set                                  0                  0
 *      7  KVELDRIM_FORM         a group, key or locale that was asked for is not of its form       0                  0
 *      8  KVELDRIM_MISSING      no such group, key, action or run                                  0                  0
 *      9  KVELDRIM_ESCAPE       unknown or unfinished escape                                       offset of its      0
 *                                                                                                  backslash in the
 *                                                                                                  raw value
 *     10  KVELDRIM_UNFIT        text that no value can hold                                        0                  0
 *                               a list item or location that no argument can hold                  0                  0
 *     11  KVELDRIM_NO_ROOM      the output is too small; the edited file is over its room or
 *                               32,768 bytes                                                       0                  0
 *     12  KVELDRIM_NOTHING      nothing to undo or redo; no such record; fewer records stand
 *                               than are to be forgotten                                           0                  0
 *     13  KVELDRIM_JOURNAL_FULL the bytes standing and the new record are over the journal's room
 *                               or 65,536 bytes                                                    0                  0
 *     14  KVELDRIM_DAMAGED      a length is over its room, used over 65,536 or standing over used;
 *                               the journal is damaged, or does not fit the file; a list is over
 *                               65,536 bytes or not filled by its records                          0                  0
 *     15  KVELDRIM_BAD_EXEC     Exec is badly written                                              offset in the      0
 *                                                                                                  unescaped value
 *     16  KVELDRIM_BAD_CODE     a wrong field code in Exec                                         offset of its %    0
 *                                                                                                  in the unescaped
 *                                                                                                  value
 *     17  KVELDRIM_POSTFIXED    a plain key is to be removed whose postfixed keys remain           0                  0
 *     18  KVELDRIM_INCOMPLETE   a key that is needed is missing                                    0                  0
 *                               Type or a yes-or-no key has a value that it cannot have            line               0
 *
 * The byte of a bad line is the first after which no ending could make the line good, or the line's length if the line is
 * only unfinished: 1 for [], 3 for [a]x, 1 for an indented x, 4 for k[de.
 *
 * Where several apply: 14 for lengths; 1; the earliest line with 2 to 5 (2 first on that line); 3 for no header; 6; 14 for
 * the journal or the list; 7; 10; 12; 8; 6 for a set; 17; 9; 15 and 16 by lowest place; 18; 11; 13. An undo or a redo asks
 * 14, 11 and 14 again after 12. A batch asks 7 and what comes behind it of one request after another. The expansion of an
 * action asks 9 of Actions before 8.
 *
 * Edits
 *
 * kveldrim_set, kveldrim_remove, kveldrim_undo, kveldrim_redo and kveldrim_batch edit a file in the caller's memory and keep
 * a journal of it beside. Both are buffers with room, and three numbers go in and come out; they change only if the call is
 * accepted, or with what a batch has done before it is refused:
 *
 *     file, file_room         the buffer of the file; 32,768 bytes are always enough
 *     *file_len               how many of its bytes are the file
 *     journal, journal_room   the buffer of the journal; more than 65,536 bytes are never used
 *     *used                   how many of its bytes are used; 0 is the empty journal
 *     *standing               how many of the used bytes stand; the records behind them are undone and wait for a redo
 *
 * For a new journal, *used and *standing are 0, and what its buffer holds is no matter. To go on another day, keep the
 * file's bytes, the journal's used bytes and *standing together: an undo is refused (14) if the file does not hold what the
 * record says, but a file that was changed elsewhere in between is not noticed.
 *
 * A record is 20 bytes and the edit's old and new bytes, all numbers little-endian: the length of the whole record (4
 * bytes), the kind 4 (2 bytes), the person who made the edit (2 bytes), the place in the file, the old length and the new
 * length (4 bytes each), the old bytes, the new bytes. The numbers of persons are the caller's; 0 is nobody named. Where
 * person 7 sets Name from Lesen, at place 38, to Les, the record is
 * 1C 00 00 00 04 00 07 00 26 00 00 00 05 00 00 00 03 00 00 00 4C 65 73 65 6E 4C 65 73.
 *
 * Interface 1 and those before wrote records of the kind 1, without the 2 bytes of the person. They are still read, with the
 * person 0, and a journal may have records of both kinds. None is rewritten; every new record has the kind 4.
 *
 *  - A set of a key that is there replaces the bytes of its value: the old value and the new one are recorded.
 *  - A set of a key that is not there puts in Key=value and LF behind the group's last entry, or behind its header if it has
 *    none; LF and Key=value if there is no LF to go behind. A set never makes a group (8).
 *  - A remove takes out the line with its LF; a last line without LF goes with the LF before it.
 *  - Both write their record where the standing ones end and make it the last: *used and *standing are its end. So nothing
 *    waits after an edit. Bytes of the journal behind the new *used stay as they were.
 *  - An undo and a redo change no byte of the journal, and of the numbers only *file_len and *standing.
 *  - A batch leaves what its sets and removes leave, one after another up to the first that is refused; an empty one nothing.
 *  - A file that shrinks has zeros up to its old length. Bytes behind both lengths stay as they were.
 *
 * kveldrim_forget makes room in a journal and is not handed the file. The oldest records that stand go; all others, those
 * that wait too, move to the start of the journal unchanged, and *used and *standing fall by the bytes that went. The bytes
 * from the new *used up to the old one become zeros; those behind the old one stay as they were.
 *
 * Example: an edit and its undo
 *
 * One byte more than a file may have is read, so that a longer file is refused (1) and not cut.
 *
 *     static uint8_t file[KVELDRIM_FILE_BOUND + 1], journal[KVELDRIM_JOURNAL_BOUND];
 *     uint64_t file_len = fread(file, 1, sizeof file, stdin), used = 0, standing = 0, place, byte;
 *     uint32_t refused = kveldrim_set(file, sizeof file, &file_len, journal, sizeof journal, &used, &standing,
 *                                     7, (const uint8_t *) "Desktop Entry", 13, (const uint8_t *) "Name", 4,
 *                                     (const uint8_t *) "Read", 4, &place, &byte);
 *     if (refused == 0)
 *         refused = kveldrim_undo(file, sizeof file, &file_len, journal, sizeof journal, &used, &standing, &place, &byte);
 *
 * Example: who made each edit
 *
 * The journal and its numbers are those of the example before.
 *
 *     uint16_t person;
 *     for (uint64_t n = 0; kveldrim_person(journal, sizeof journal, used, standing, n, &place, &person) == 0; n++)
 *         printf("edit %llu: person %u\n", (unsigned long long) n, (unsigned) person);
 *
 * Example: an edit in a full journal
 *
 * Where there is no room for its record, the oldest edits are forgotten one by one until there is, or none stands. The
 * buffers and numbers are those of the first example of an edit.
 *
 *     do
 *         refused = kveldrim_set(file, sizeof file, &file_len, journal, sizeof journal, &used, &standing,
 *                                7, (const uint8_t *) "Desktop Entry", 13, (const uint8_t *) "Name", 4,
 *                                (const uint8_t *) "Book", 4, &place, &byte);
 *     while (refused == KVELDRIM_JOURNAL_FULL
 *            && kveldrim_forget(journal, sizeof journal, &used, &standing, 1, &place) == 0);
 *
 * Example: many edits at once, all or none
 *
 * Name is set to Book and Icon removed. Where one of the two is refused, what was done before it is undone. The buffers and
 * numbers are those of the first example of an edit.
 *
 *     static const uint8_t requests[] =
 *         "\x27\0\0\0\5\0" "\x0D\0\0\0" "Desktop Entry" "\4\0\0\0" "Name" "\4\0\0\0" "Book"
 *         "\x1F\0\0\0\6\0" "\x0D\0\0\0" "Desktop Entry" "\4\0\0\0" "Icon";
 *     uint64_t done;
 *     refused = kveldrim_batch(file, sizeof file, &file_len, journal, sizeof journal, &used, &standing,
 *                              7, requests, sizeof requests - 1, &place, &byte, &done);
 *     while (refused != 0 && done > 0
 *            && kveldrim_undo(file, sizeof file, &file_len, journal, sizeof journal, &used, &standing, &place, &byte) == 0)
 *         done--;
 *
 * Example: a menu of actions
 *
 * Each action is two records, its identifier and its label. No record is longer than the file, so two bytes of its length
 * tell it.
 *
 *     static uint8_t records[KVELDRIM_FILE_BOUND];
 *     uint64_t place, byte, written, at;
 *     uint32_t refused = kveldrim_actions(file, file_len, (const uint8_t *) "de_DE.UTF-8", 11,
 *                                         records, sizeof records, &place, &byte, &written);
 *     int label = 0;
 *     for (at = 0; refused == 0 && at < written; at += records[at] + 256 * records[at + 1]) {
 *         fwrite(records + at + 6, 1, records[at] + 256 * records[at + 1] - 6, stdout);
 *         putchar(label ? '\n' : '\t');
 *         label = !label;
 *     }
 *
 * Example: the program that an action starts
 *
 * It is the first argument. The file and the numbers are those of the example before.
 *
 *     static uint8_t arguments[KVELDRIM_LIST_BOUND];
 *     refused = kveldrim_expand_action(file, file_len, (const uint8_t *) "new-window", 10, (const uint8_t *) "de", 2,
 *                                      NULL, 0, NULL, 0, 0, arguments, sizeof arguments, &place, &byte, &written);
 *     if (refused == 0)
 *         fwrite(arguments + 6, 1, arguments[0] + 256 * arguments[1] - 6, stdout);
 *     else
 *         fprintf(stderr, "refused: %s\n", kveldrim_words(refused));
 *
 * Forms
 *
 * A group's name is one or more of the bytes 0x20 to 0x7E without [ and ]. A key is one or more of A-Z a-z 0-9 and -.
 * A postfix is [LOCALE], right after the key. A locale is lang, then perhaps _COUNTRY, .ENCODING and @MODIFIER in this
 * order, each part one or more of A-Z a-z 0-9 and -. Names are compared byte by byte; only the choice by a locale
 * (kveldrim_choose, the labels of actions, and Name and Icon in an expansion) leaves .ENCODING out.
 */
#ifndef KVELDRIM_H
#define KVELDRIM_H

#include <stddef.h>
#include <stdint.h>

#ifdef __cplusplus
extern "C" {
#endif

/* The number of this interface: raised whenever a call is new or its signature changes. kveldrim_abi tells the library's. */
#define KVELDRIM_ABI 5

/* The most bytes that a file may have. */
#define KVELDRIM_FILE_BOUND 32768

/* The most bytes that a list, of files or of requests, and that a location may have. */
#define KVELDRIM_LIST_BOUND 65536
#define KVELDRIM_LOCATION_BOUND 4096

/* The most bytes of a journal that may be used. */
#define KVELDRIM_JOURNAL_BOUND 65536

/* The bytes of a new record of a journal before its old and new bytes. */
#define KVELDRIM_RECORD_HEAD 20

/* The refusals; the table above says when each is given. */
#define KVELDRIM_TOO_LONG 1
#define KVELDRIM_BAD_LINE 2
#define KVELDRIM_FIRST 3
#define KVELDRIM_GROUP_TWICE 4
#define KVELDRIM_KEY_TWICE 5
#define KVELDRIM_NO_PLAIN 6
#define KVELDRIM_FORM 7
#define KVELDRIM_MISSING 8
#define KVELDRIM_ESCAPE 9
#define KVELDRIM_UNFIT 10
#define KVELDRIM_NO_ROOM 11
#define KVELDRIM_NOTHING 12
#define KVELDRIM_JOURNAL_FULL 13
#define KVELDRIM_DAMAGED 14
#define KVELDRIM_BAD_EXEC 15
#define KVELDRIM_BAD_CODE 16
#define KVELDRIM_POSTFIXED 17
#define KVELDRIM_INCOMPLETE 18

/*
 * Tells the number of the interface that the library was built for. A program that links the library apart from this
 * header goes on only where it is KVELDRIM_ABI.
 */
uint32_t kveldrim_abi(void);

/*
 * Asks whether a file is well formed.
 *
 *     file, file_len   the whole file
 *
 * Refusals: 1 to 6.
 */
uint32_t kveldrim_check(const uint8_t *file, size_t file_len, uint64_t *place, uint64_t *byte);

/*
 * Asks whether a file is well formed and has what it needs in its group Desktop Entry: Type is Application, Link or
 * Directory; Name is there; Exec is there for an Application, unless DBusActivatable is true; URL is there for a Link;
 * and NoDisplay, Hidden, DBusActivatable, Terminal and StartupNotify are true or false where they are there. Faults are
 * told in this order, the last five keys' by line.
 *
 *     file, file_len   the whole file
 *
 * Refusals: 1 to 6, 18.
 */
uint32_t kveldrim_complete(const uint8_t *file, size_t file_len, uint64_t *place, uint64_t *byte);

/*
 * Finds the raw value of a key. Its escapes are not read: kveldrim_read_text and kveldrim_read_list do that.
 *
 *     file, file_len     the whole file
 *     group, group_len   the group's name, without brackets
 *     key, key_len       the key, with its postfix if it has one: Name or Name[de]
 *     from, to           where the value starts in the file, and where it ends; an empty value has both at its line's end
 *
 * Refusals: 1 to 6, 7, 8.
 */
uint32_t kveldrim_lookup(const uint8_t *file, size_t file_len,
                         const uint8_t *group, size_t group_len,
                         const uint8_t *key, size_t key_len,
                         uint64_t *place, uint64_t *byte, uint64_t *from, uint64_t *to);

/*
 * Finds the raw value that suits a locale best. The locale and the file's postfixes lose their .ENCODING; then the first
 * that is there of lang_COUNTRY@MODIFIER, lang_COUNTRY, lang@MODIFIER, lang and the plain key is taken, as far as the locale
 * has these parts. Of postfixes that become equal the earlier line is taken, also where a later one has the locale's own
 * encoding. The empty locale, C and POSIX mean the plain key.
 *
 *     file, file_len       the whole file
 *     group, group_len     the group's name, without brackets
 *     key, key_len         the key, without postfix (else 7)
 *     locale, locale_len   the locale, as de_DE.UTF-8, or empty
 *     from, to             where the value starts in the file, and where it ends
 *
 * Refusals: 1 to 6, 7, 8.
 */
uint32_t kveldrim_choose(const uint8_t *file, size_t file_len,
                         const uint8_t *group, size_t group_len,
                         const uint8_t *key, size_t key_len,
                         const uint8_t *locale, size_t locale_len,
                         uint64_t *place, uint64_t *byte, uint64_t *from, uint64_t *to);

/*
 * Reads the escapes of a raw value: \s is a space, \n LF, \t tab, \r CR, \\ a backslash; other bytes stand for themselves.
 *
 *     raw, raw_len   the raw value; any bytes are taken
 *     out, out_len   the output; raw_len bytes are always enough
 *     written        how many bytes were written to the output
 *
 * Refusals: 9, 11.
 */
uint32_t kveldrim_read_text(const uint8_t *raw, size_t raw_len,
                            uint8_t *out, size_t out_len,
                            uint64_t *place, uint64_t *written);

/*
 * Writes text as a raw value: backslash, LF, tab and CR as escapes, and a space as \s if it is the first byte. Text is
 * UTF-8 (RFC 3629) without 0x7F and without bytes below 0x20 other than LF, tab and CR, else 10.
 *
 *     text, text_len   the text
 *     out, out_len     the output; twice text_len bytes are always enough
 *     written          how many bytes were written to the output
 *
 * Refusals: 10, 11.
 */
uint32_t kveldrim_write_text(const uint8_t *text, size_t text_len,
                             uint8_t *out, size_t out_len,
                             uint64_t *place, uint64_t *written);

/*
 * Reads a raw value that is a list. A ; ends an element; bytes left at the end are one more element. Escapes are those of
 * kveldrim_read_text, and \; for a semicolon. Each element is written as a record, one after another: the length of the
 * whole record (4 bytes, little-endian), the kind 2 (2 bytes, little-endian), the element's bytes.
 *
 *     raw, raw_len   the raw value; any bytes are taken
 *     out, out_len   the output; 6 * raw_len + 1 bytes are always enough
 *     written        how many bytes were written to the output
 *
 * Refusals: 9 (for the first wrong backslash of the whole list; no element is written then), 11.
 */
uint32_t kveldrim_read_list(const uint8_t *raw, size_t raw_len,
                            uint8_t *out, size_t out_len,
                            uint64_t *place, uint64_t *written);

/*
 * Sets a key to a text, which is written as kveldrim_write_text writes it. Setting the value that is there already is an
 * edit like another.
 *
 *     file .. standing   the two buffers and their numbers, as said above under Edits
 *     person             who makes the edit
 *     group, group_len   the group's name, without brackets
 *     key, key_len       the key, with its postfix if it has one: Name or Name[de]
 *     text, text_len     the text, not escaped
 *
 * Refusals: 14, 1 to 6, 14, 7, 10, 8, 6, 11, 13.
 */
uint32_t kveldrim_set(uint8_t *file, size_t file_room, uint64_t *file_len,
                      uint8_t *journal, size_t journal_room, uint64_t *used, uint64_t *standing,
                      uint16_t person,
                      const uint8_t *group, size_t group_len,
                      const uint8_t *key, size_t key_len,
                      const uint8_t *text, size_t text_len,
                      uint64_t *place, uint64_t *byte);

/*
 * Removes a key with its line.
 *
 *     file .. standing   the two buffers and their numbers, as said above under Edits
 *     person             who makes the edit
 *     group, group_len   the group's name, without brackets
 *     key, key_len       the key, with its postfix if it has one
 *
 * Refusals: 14, 1 to 6, 14, 7, 8, 17, 13.
 */
uint32_t kveldrim_remove(uint8_t *file, size_t file_room, uint64_t *file_len,
                         uint8_t *journal, size_t journal_room, uint64_t *used, uint64_t *standing,
                         uint16_t person,
                         const uint8_t *group, size_t group_len,
                         const uint8_t *key, size_t key_len,
                         uint64_t *place, uint64_t *byte);

/*
 * Takes back the latest edit that stands: the record that ends at *standing. Its new bytes become its old ones again.
 *
 *     file .. standing   the two buffers and their numbers, as said above under Edits
 *
 * Refusals: 14, 1 to 6, 14, 12; then 14 if the new bytes do not stand at their place, 11, and 14 if the result would not be
 * well formed. The last three come only with a journal that these calls did not write for this file and this room.
 */
uint32_t kveldrim_undo(uint8_t *file, size_t file_room, uint64_t *file_len,
                       uint8_t *journal, size_t journal_room, uint64_t *used, uint64_t *standing,
                       uint64_t *place, uint64_t *byte);

/*
 * Makes the next edit that waits once more: the record that starts at *standing. Its old bytes become its new ones again.
 *
 *     file .. standing   the two buffers and their numbers, as said above under Edits
 *
 * Refusals: as kveldrim_undo, with the old bytes at their place.
 */
uint32_t kveldrim_redo(uint8_t *file, size_t file_room, uint64_t *file_len,
                       uint8_t *journal, size_t journal_room, uint64_t *used, uint64_t *standing,
                       uint64_t *place, uint64_t *byte);

/*
 * Makes the edits of a list in turn, each as kveldrim_set or kveldrim_remove makes it, and stops at the first that is refused.
 * Those before it stand, each with a record of its own in the journal, and can be undone one at a time.
 *
 * The list is records, one after another: the length of the whole record (4 bytes), the kind (2 bytes), 5 for a set and 6
 * for a remove, then the group, the key and for a set the text, each after its own length (4 bytes); all numbers are
 * little-endian, and a record is filled by these exactly.
 *
 *     file .. standing         the two buffers and their numbers, as said above under Edits; the numbers are always written
 *     person                   who makes the edits
 *     requests, requests_len   the list; at most 65,536 bytes, else 14
 *     done                     how many edits were made; always written
 *
 * Refusals: 14, 1 to 6, 14 for the journal and the list, with no edit made and also where the list is empty; then 7, 10, 8,
 * 6 (at place 0), 17, 11, 13 of the first request that is refused, which is the one of the number *done, from 0.
 */
uint32_t kveldrim_batch(uint8_t *file, size_t file_room, uint64_t *file_len,
                        uint8_t *journal, size_t journal_room, uint64_t *used, uint64_t *standing,
                        uint16_t person,
                        const uint8_t *requests, size_t requests_len,
                        uint64_t *place, uint64_t *byte, uint64_t *done);

/*
 * Tells the person of a journal's record.
 *
 *     journal .. standing   the journal's buffer and its two numbers, as said above under Edits
 *     n                     the record's number, from 0; the records that wait count too
 *     person                who made the edit
 *
 * Refusals: 14, 12.
 */
uint32_t kveldrim_person(const uint8_t *journal, size_t journal_room, uint64_t used, uint64_t standing,
                         uint64_t n,
                         uint64_t *place, uint16_t *person);

/*
 * Forgets the oldest k edits that stand. The file stays as it is; no undo takes these edits back any more, and one that
 * comes to where they ended finds nothing (12). Their room is used again by later edits.
 *
 *     journal .. standing   the journal's buffer and its two numbers, as said above under Edits
 *     k                     how many edits; with 0 nothing changes
 *
 * Refusals: 14, then 12 if fewer than k records stand; those that wait do not count.
 */
uint32_t kveldrim_forget(uint8_t *journal, size_t journal_room, uint64_t *used, uint64_t *standing,
                         uint64_t k,
                         uint64_t *place);

/*
 * Expands Exec of the group Desktop Entry into the arguments of one run. Nothing is started. The first argument is the
 * program; hand the arguments to execvp or posix_spawnp one by one, never to a shell.
 *
 * %f and %u stand for one file of the list: a list of n files has the runs 0 to n - 1, and an empty one has run 0, without a
 * file. Without %f and %u there is only run 0. %F and %U become one argument for each file. %i becomes --icon and the
 * Icon, nothing if there is none; %c is the Name, %k the location, %% a percent sign; %d %D %n %N %v and %m vanish. What is
 * put in stays as its bytes are: it is neither split at spaces nor searched for codes.
 *
 * The list is records, one after another: the length of the whole record (4 bytes, little-endian), the kind 2 (2 bytes,
 * little-endian), the file's name. The arguments are written as such records too, with the kind 3. With the list
 * 07 00 00 00 02 00 61 (one file, a), Exec=view %F gives
 * 0A 00 00 00 03 00 76 69 65 77 07 00 00 00 03 00 61 (view and a).
 *
 *     file, file_len           the whole file
 *     locale, locale_len       the locale for Name and Icon, as de_DE.UTF-8, or empty
 *     location, location_len   where the file is, for %k; at most 4,096 bytes, none of them zero, else 10
 *     list, list_len           the files to open; at most 65,536 bytes, else 14; no name is empty or has a zero byte, else 10
 *     run                      the run's number, else 8
 *     out, out_len             the output
 *     written                  how many bytes were written to the output
 *
 * Refusals, in this order: 1 to 6, 14, 7, 10, 8 (no Exec), 9 (in Exec), 15 and 16 by lowest place, 8 (no such run), 8 or 9
 * of Name if %c stands in Exec, 9 of Icon if %i does, 11.
 */
uint32_t kveldrim_expand(const uint8_t *file, size_t file_len,
                         const uint8_t *locale, size_t locale_len,
                         const uint8_t *location, size_t location_len,
                         const uint8_t *list, size_t list_len,
                         uint64_t run,
                         uint8_t *out, size_t out_len,
                         uint64_t *place, uint64_t *byte, uint64_t *written);

/*
 * Lists the actions of an application: further ways to start it. Actions of the group Desktop Entry, without postfix, is a
 * list of identifiers, and each names a group: Desktop Action, a space and the identifier. Those are listed that have the
 * form of a key and whose group is there and has a Name, in the order of the list, a repeated one where it first stands.
 * The others are skipped, and without Actions none is listed.
 *
 * Each is written as two records of the kind 2, as kveldrim_read_list writes elements: the identifier, then its label. The
 * label is the text of its group's Name, found as kveldrim_choose finds it and read as kveldrim_read_text reads it.
 *
 *     file, file_len       the whole file
 *     locale, locale_len   the locale for the labels, as de_DE.UTF-8, or empty
 *     out, out_len         the output; file_len bytes are always enough
 *     written              how many bytes were written to the output
 *
 * Refusals, in this order: 1 to 6, 7, 9 (in Actions), 9 (in a label, by the order of the list), 11.
 */
uint32_t kveldrim_actions(const uint8_t *file, size_t file_len,
                          const uint8_t *locale, size_t locale_len,
                          uint8_t *out, size_t out_len,
                          uint64_t *place, uint64_t *byte, uint64_t *written);

/*
 * Expands Exec of an action's group into the arguments of one run, as kveldrim_expand does for Desktop Entry. %i stands for
 * the Icon of the action's group, nothing if that has none; %c is still the Name of Desktop Entry.
 *
 *     file, file_len       the whole file
 *     action, action_len   the identifier of a listed action, else 8; any bytes are taken
 *     locale .. written    as in kveldrim_expand
 *
 * Refusals, in this order: 1 to 6, 14, 7, 10, 9 (in Actions), 8 (not listed), and then as in kveldrim_expand from its 8 (no
 * Exec) on. A wrong escape in a label is no refusal here.
 */
uint32_t kveldrim_expand_action(const uint8_t *file, size_t file_len,
                                const uint8_t *action, size_t action_len,
                                const uint8_t *locale, size_t locale_len,
                                const uint8_t *location, size_t location_len,
                                const uint8_t *list, size_t list_len,
                                uint64_t run,
                                uint8_t *out, size_t out_len,
                                uint64_t *place, uint64_t *byte, uint64_t *written);

#ifdef __cplusplus
}
#endif

#endif
