/*
 * kveldrim_words.h - the results of Kveldrim's calls in words.
 * SPDX-License-Identifier: Apache-2.0
 */
#ifndef KVELDRIM_WORDS_H
#define KVELDRIM_WORDS_H

#include "kveldrim.h"

/* What a call's result says, without the place. Every number has words; they are not to be freed. */
static inline const char *kveldrim_words(uint32_t number) {
    switch (number) {
    case 0:
        return "accepted";
    case KVELDRIM_TOO_LONG:
        return "the file is over 32,768 bytes";
    case KVELDRIM_BAD_LINE:
        return "a line is not blank, a comment (#), a header ([Group]) or an entry (Key=value)";
    case KVELDRIM_FIRST:
        return "the first line that is neither blank nor a comment must be [Desktop Entry]";
    case KVELDRIM_GROUP_TWICE:
        return "a group of this name stands further up already";
    case KVELDRIM_KEY_TWICE:
        return "this key stands further up in this group already";
    case KVELDRIM_NO_PLAIN:
        return "this key has a [locale], but the same key without one is missing in its group";
    case KVELDRIM_FORM:
        return "the group, key or locale asked for is not well written";
    case KVELDRIM_MISSING:
        return "there is no such group, key, action or run";
    case KVELDRIM_ESCAPE:
        return "unknown or unfinished escape: a backslash may stand before s, n, t, r and backslash, in a list also before ;";
    case KVELDRIM_UNFIT:
        return "the text, list item or location holds bytes that are not allowed, or too many, or none";
    case KVELDRIM_NO_ROOM:
        return "the result has no room in its buffer, or the edited file would be over 32,768 bytes";
    case KVELDRIM_NOTHING:
        return "there is nothing to undo or redo, no such record, or fewer edits stand than are to be forgotten";
    case KVELDRIM_JOURNAL_FULL:
        return "the record has no room in the journal";
    case KVELDRIM_DAMAGED:
        return "a length goes beyond its buffer, or the journal or list is damaged";
    case KVELDRIM_BAD_EXEC:
        return "Exec is badly written";
    case KVELDRIM_BAD_CODE:
        return "wrong field code (%) in Exec";
    case KVELDRIM_POSTFIXED:
        return "the key cannot be removed while the same key with a [locale] remains";
    case KVELDRIM_INCOMPLETE:
        return "a key that is needed is missing, or Type or a yes-or-no key has a value that it cannot have";
    default:
        return "a refusal that is not in the table";
    }
}

#endif
