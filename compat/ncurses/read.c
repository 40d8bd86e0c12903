/* For the file read_entry.c of ncurses 6.4, in place of its own _nc_read_termtype: an entry is read by ti_read, which is proved to
 * accept exactly what has the layout of term(5). This layer is not proved.
 *
 * The texts and names of the entry stay in one copy of its bytes, which ncurses frees as its table of strings. What follows an entry is
 * ignored.
 */
#include <ti.h>

/* Takes one piece of memory for what ti_read fills, and divides it. */
static void *
ti_room(const ti_counts *counts, ti_arrays *arrays)
{
    void *room;

    arrays->flag_room = counts->flags + counts->extended_flags;
    arrays->number_room = counts->numbers + counts->extended_numbers;
    arrays->text_room = counts->texts + counts->extended_texts;
    arrays->name_room = counts->extended_flags + counts->extended_numbers + counts->extended_texts;
    room = malloc(arrays->text_room * sizeof *arrays->texts + arrays->name_room * sizeof *arrays->names
                  + arrays->number_room * sizeof *arrays->numbers + arrays->flag_room + 1);
    if (room != NULL) {
        arrays->texts = room;
        arrays->names = (ti_bytes *)(arrays->texts + arrays->text_room);
        arrays->numbers = (int32_t *)(arrays->names + arrays->name_room);
        arrays->flags = (int8_t *)(arrays->numbers + arrays->number_room);
    }
    return room;
}

static char *
ti_string(const ti_text_item *item)
{
    return item->mark == 0 ? (char *)item->text.bytes : item->mark == TI_ABSENT ? ABSENT_STRING : CANCELLED_STRING;
}

/* Takes the arrays of an entry of ncurses; false if there is no memory. */
static bool
ti_take_arrays(TERMTYPE2 *ptr, const ti_counts *counts)
{
    const size_t flags = _nc_user_definable ? counts->extended_flags : 0;
    const size_t numbers = _nc_user_definable ? counts->extended_numbers : 0;
    const size_t texts = _nc_user_definable ? counts->extended_texts : 0;

    ptr->ext_Booleans = UShort(flags);
    ptr->ext_Numbers = UShort(numbers);
    ptr->ext_Strings = UShort(texts);
    ptr->num_Booleans = UShort(BOOLCOUNT + flags);
    ptr->num_Numbers = UShort(NUMCOUNT + numbers);
    ptr->num_Strings = UShort(STRCOUNT + texts);
    ptr->Booleans = typeCalloc(NCURSES_SBOOL, BOOLCOUNT + flags);
    ptr->Numbers = typeCalloc(NCURSES_INT2, NUMCOUNT + numbers);
    ptr->Strings = typeCalloc(char *, STRCOUNT + texts);
    if (flags + numbers + texts > 0)
        ptr->ext_Names = typeCalloc(char *, flags + numbers + texts);
    return ptr->Booleans != NULL && ptr->Numbers != NULL && ptr->Strings != NULL
           && (ptr->ext_Names != NULL || flags + numbers + texts == 0);
}

/* The standard capabilities first, of which an entry may have fewer or more than ncurses knows, then the extended ones. */
static void
ti_fill(TERMTYPE2 *ptr, const ti_counts *counts, const ti_arrays *arrays)
{
    for (size_t i = 0; i < BOOLCOUNT; i++)
        ptr->Booleans[i] = i < counts->flags ? arrays->flags[i] : 0;
    for (size_t i = 0; i < NUMCOUNT; i++)
        ptr->Numbers[i] = i < counts->numbers ? arrays->numbers[i] : ABSENT_NUMERIC;
    for (size_t i = 0; i < STRCOUNT; i++)
        ptr->Strings[i] = i < counts->texts ? ti_string(&arrays->texts[i]) : ABSENT_STRING;
    for (size_t i = 0; i < ptr->ext_Booleans; i++)
        ptr->Booleans[BOOLCOUNT + i] = arrays->flags[counts->flags + i];
    for (size_t i = 0; i < ptr->ext_Numbers; i++)
        ptr->Numbers[NUMCOUNT + i] = arrays->numbers[counts->numbers + i];
    for (size_t i = 0; i < ptr->ext_Strings; i++)
        ptr->Strings[STRCOUNT + i] = ti_string(&arrays->texts[counts->texts + i]);
    if (ptr->ext_Names != NULL)
        for (size_t i = 0; i < arrays->name_room; i++)
            ptr->ext_Names[i] = (char *)arrays->names[i].bytes;
}

NCURSES_EXPORT(int)
_nc_read_termtype(TERMTYPE2 *ptr, char *buffer, int limit)
{
    ti_arrays arrays = {0};
    ti_counts counts;
    size_t length = limit > 0 ? (size_t)limit : 0;
    unsigned char *bytes;
    void *room;
    uint32_t fault;

    memset(ptr, 0, sizeof(*ptr));
    if (length == 0 || (bytes = malloc(length)) == NULL)
        return TGETENT_NO;
    memcpy(bytes, buffer, length);
    ptr->str_table = (char *)bytes;
    fault = ti_read(bytes, length, &arrays, &counts);
    if (fault == TI_TRAILING)
        fault = ti_read(bytes, length = counts.place, &arrays, &counts);
    if ((fault == TI_DONE || fault == TI_ROOM_TOO_SMALL) && (room = ti_room(&counts, &arrays)) != NULL) {
        if (ti_read(bytes, length, &arrays, &counts) == TI_DONE && ti_take_arrays(ptr, &counts)) {
            ptr->term_names = (char *)counts.names.bytes;
            ti_fill(ptr, &counts, &arrays);
            free(room);
            return TGETENT_YES;
        }
        free(room);
    }
    _nc_free_termtype2(ptr);
    memset(ptr, 0, sizeof(*ptr));
    return TGETENT_NO;
}
